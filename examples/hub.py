#!/usr/bin/env python3
"""A hub: several processes use one file by one run of rbsh.

    python3 examples/hub.py FILE SOCKET

SOCKET is the path of a Unix socket that the hub makes. Each connection has a session of its own, and sixteen have one at a
time: each further one gets its first reply once one of these has ended, in the order in which they came. A connection
sends lines without the session's number, as `insert 1 7 window`. It gets the replies without it, and then a line `.`.
After `waits H` and that `.` it gets the reply to the same write alone, once H has ended. That may be `waits` again.
The hub sends lines in the order in which they come. When a connection ends, what it didn't commit is rolled back.
Commits that come together share a flush, and each is safe when it is answered `committed N`. Rows that a cursor shows
may be of one that isn't yet. If the hub closes a connection in place of that answer, the next run shows what there is.
SIGTERM and Ctrl-C end the hub, which ends with the program's status. `Connection` of client.py is a client of it;
counter.py and tickets.py use it."""
import asyncio
import contextlib
import signal
import sys
from asyncio.subprocess import PIPE

from client import ALONE, PROGRAM


class Hub:
    def __init__(self, run):
        self.run, self.turn, self.free, self.writers = run, asyncio.Lock(), asyncio.Queue(), {}
        for number in range(1, 17):
            self.free.put_nowait(str(number))
        self.safe = 0  # Commits up to this number are durable.

    async def reply(self):
        reply = await self.run.stdout.readline()
        if not reply:
            raise ConnectionError("the program has ended")
        return reply.decode().rstrip("\n")

    async def ask(self, line, session=None):
        """The replies to a line. Tasks get their turn in the order in which they ask for it."""
        async with self.turn:
            return await self.send(line, session)

    async def send(self, line, session=None):
        """Sends a line, and a bad one whose `bad line` ends its replies: one at least, but for `sessions`, which may have
        none. Gives those that name this session or none, without its number. Each other one goes to the connection whose
        session it names."""
        if self.run.stdin.is_closing():
            raise ConnectionError("the hub ends")
        self.run.stdin.write(f"{line}\n?\n".encode("latin-1"))
        own, may_end = [], line == "sessions"
        while (reply := await self.reply()) != "bad line" or not may_end:
            to, _, words = reply.partition(" ")
            if not to.isdigit():
                own.append(reply)
            elif to == session:
                own.append(words)
            elif to in self.writers:
                self.writers[to].write(f"{words}\n".encode())
            may_end = True
        return own

    async def commit(self, session):
        """The replies to a `commit`, by group commit: a `commit S later` makes it, and then it waits for its turn to `flush`.
        A commit that is alone has it at once. While a flush goes on, others wait for a turn; the next flush serves those
        that are made before it, and they find themselves safe in their turn. No commit is answered before."""
        replies = await self.ask(f"commit {session} later", session)
        word, _, number = replies[0].partition(" ")
        if word != "numbered":
            return replies
        async with self.turn:
            while self.safe < int(number):
                flushed, = await self.send("flush")
                self.safe = int(flushed.split(" ")[1])
        return [f"committed {number}"]

    async def serve(self, reader, writer):
        """One connection, to its end."""
        try:
            session, cursors = await self.free.get(), set()
        except asyncio.CancelledError:
            return writer.close()
        self.writers[session] = writer
        with contextlib.suppress(ConnectionError, ValueError, asyncio.CancelledError):
            while True:
                line = (await reader.readline()).decode("latin-1")
                if not line.endswith("\n"):
                    break
                line = line.rstrip("\r\n")
                word, *rest = line.split(" ", 1)
                cursors.update(rest[0].split(" ")[:1] if word == "open" and rest else [])
                if line == "commit":
                    replies = await self.commit(session)
                elif line and not line.startswith("#"):
                    replies = await self.ask(" ".join([word, *([] if word in ALONE else [session]), *rest]), session)
                else:
                    replies = []
                writer.write("".join(f"{reply}\n" for reply in [*replies, "."]).encode())
                await writer.drain()
        del self.writers[session]
        writer.close()
        with contextlib.suppress(ConnectionError, asyncio.CancelledError):
            for line in [f"cancel {session}", f"rollback {session}", *(f"close {session} {name}" for name in cursors)]:
                await self.ask(line)
            self.free.put_nowait(session)


async def main(file, socket):
    # Ctrl-C goes to the hub alone: it ends the program by the end of its input.
    run = await asyncio.create_subprocess_exec(PROGRAM, file, "run", "frames=1024", stdin=PIPE, stdout=PIPE,
                                               start_new_session=True)
    for end in (signal.SIGINT, signal.SIGTERM):
        asyncio.get_running_loop().add_signal_handler(end, run.stdin.close)
    server = await asyncio.start_unix_server(Hub(run).serve, socket)
    status = await run.wait()
    # Nobody more is let in, and who came just before begins, so that all are told that it ends.
    server.close()
    await asyncio.sleep(0.1)
    return status


if __name__ == "__main__":
    sys.exit(asyncio.run(main(*sys.argv[1:])) if len(sys.argv) == 3 else __doc__)
