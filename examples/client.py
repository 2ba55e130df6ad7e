"""A client of rbsh, to import or to copy. It starts the program over a file, and has an object for each session:

    create("shop.rb")
    with Store("shop.rb") as store:
        ann = store.session(1)
        ann.ask("insert 1 7 window")        # the line `insert 1 1 7 window`: a session puts in its own number
        ann.ask("commit")                   # gives ["committed 1"]
        ann.get(1, 7)                       # gives "window"

The program is that of this repository, or the one that RBSH names. `Connection` is for several programs that share one by
examples/hub.py."""
import collections
import contextlib
import os
import pathlib
import socket
import subprocess

BUILT = pathlib.Path(__file__).resolve().parent.parent / "crates" / "rbsh" / "out" / "rbsh"
PROGRAM = os.environ.get("RBSH") or str(BUILT)
# The commands that name no session.
ALONE = ("sessions", "marks", "flush", "sweep", "checkpoint")
# The first words of all replies that refuse nothing. A `get` is also answered "not found", which is no refusal.
DONE = {"ok", "committed", "numbered", "flushed", "swept", "row", "end", "waits", "segment", "session"}

# What a session has under way: how many changes and cursors, its mode, and the number of the session for which it waits.
UnderWay = collections.namedtuple("UnderWay", ["changes", "cursors", "mode", "waits"])


class Refused(Exception):
    """A line was refused. `reply` has the words, such as "not found" or "deadlock 2", and `before` the rows before them."""

    def __init__(self, line, replies):
        super().__init__(f"{line}: {replies[-1]}")
        self.reply, self.before = replies[-1], replies[:-1]


def create(file, tables=1, blocks=256, segments=4, log=1024):
    """Makes a new file."""
    sizes = [f"tables={tables}", f"blocks={blocks}", f"segments={segments}", f"log={log}"]
    subprocess.run([PROGRAM, str(file), "format", *sizes], check=True)


class Store:
    """A run of the program over a file, with so many of its blocks in memory. Its end commits nothing."""

    def __init__(self, file, frames=1024):
        words = [PROGRAM, str(file), "run", f"frames={frames}"]
        self.run = subprocess.Popen(words, stdin=subprocess.PIPE, stdout=subprocess.PIPE)
        self.sessions = {number: Session(self, number) for number in range(1, 17)}
        self.session = self.sessions.get

    def __enter__(self):
        return self

    def __exit__(self, *_):
        self.run.communicate()

    def ask(self, line):
        """All replies to a line, as they are. No reply says that it is the last one. So a line that is always bad is sent
        after each, and its `bad line` is the end. The line itself has at least one reply, which may be `bad line` too.
        The line `sessions` alone may have none, and is never bad."""
        if not line.strip() or line.startswith("#") or "\n" in line:
            raise ValueError(f"this is no command: {line!r}")
        with contextlib.suppress(BrokenPipeError):
            os.write(self.run.stdin.fileno(), f"{line}\n?\n".encode())
        replies, least = [], 0 if line == "sessions" else 1
        while len(replies) <= least or replies[-1] != "bad line":
            replies.append(self.reply())
        return replies[:-1]

    def under_way(self):
        """What the sessions have under way, by their numbers: those that have nothing aren't there."""
        told = {}
        for _, number, _, changes, _, cursors, _, mode, *waits in map(str.split, self.ask("sessions")):
            told[int(number)] = UnderWay(int(changes), int(cursors), mode, int(waits[1]) if waits else None)
        return told

    def reply(self):
        """The next reply. Where the program has ended there is none; it has written the reason to standard error."""
        reply = self.run.stdout.readline().decode()
        if not reply:
            raise EOFError(f"the program ended with status {self.run.wait()}")
        return reply[:-1]


class Session:
    """A session: its lines are written, and its replies are given, without its number."""

    def __init__(self, store, number):
        self.store, self.number, self.waiting, self.late = store, number, None, []

    def ask(self, line):
        """The session's replies to a line; raises Refused if the last one refuses it. Replies of other sessions that come
        with them are kept for these: a commit or rollback is followed by the writes that waited for it."""
        word, *rest = line.split(" ", 1)
        if word in ALONE:
            raise ValueError(f"'{word}' names no session: the store is asked for it, by store.ask({line!r})")
        own = []
        for reply in self.store.ask(" ".join([word, str(self.number), *rest])):
            number, words = reply.split(" ", 1)
            if number in ("bad", str(self.number)):
                own.append(reply if number == "bad" else words)
            else:
                self.store.sessions[int(number)].late.append(words)
        if own[-1].startswith("waits "):
            self.waiting, self.late = line, []
        return self.checked(line, own)

    def wait(self):
        """The reply to a write that was answered `waits`, or None as long as it waits. `waits` may come more than once, so
        the last reply is the first that is another one. It comes with the replies to lines of other sessions: ask those."""
        last = [reply for reply in self.late if not reply.startswith("waits ")]
        return self.checked(self.waiting, last)[0] if last else None

    def checked(self, line, replies):
        if is_refused(line, replies[-1]):
            raise Refused(line, replies)
        return replies

    def get(self, table, key):
        """The value of a key, or None where it has no row."""
        return value_by(self.ask, table, key)

    def put(self, table, key, value):
        """Makes a row, or gives it another value where it is there. Gives the reply, "ok" or "waits H"."""
        return self.ask(f"put {table} {key} {value}")[0]

    def rows(self, table, low, high, ordered=False):
        """The rows of a range of keys, all of one moment, as pairs of key and value. They come by block and then by key, and
        by key alone where they are to be ordered."""
        found = rows_by(self.ask, table, low, high)
        return sorted(found) if ordered else found


class Connection:
    """A connection to examples/hub.py, which puts in the session. Raises ConnectionError where the hub ends: then what wasn't
    committed is gone, and a commit without its answer may be there or not."""

    def __init__(self, path):
        self.socket = socket.socket(socket.AF_UNIX)
        self.socket.connect(path)
        self.replies, self.waited = self.socket.makefile("r"), 0

    def __enter__(self):
        return self

    def __exit__(self, *_):
        self.close()

    def close(self):
        self.replies.close()
        self.socket.close()

    def read(self):
        reply = self.replies.readline()
        if not reply.endswith("\n"):
            raise ConnectionError("the hub has ended")
        return reply[:-1]

    def ask(self, line):
        """The replies to a line. A write that waits has its last reply alone, after the line that ends the others."""
        self.socket.sendall(f"{line}\n".encode())
        replies = list(iter(self.read, "."))
        while replies[-1:] and replies[-1].startswith("waits "):
            self.waited += 1
            replies = [self.read()]
        if replies[-1:] and is_refused(line, replies[-1]):
            raise Refused(line, replies)
        return replies

    def get(self, table, key):
        """As that of a session."""
        return value_by(self.ask, table, key)

    def put(self, table, key, value):
        """As that of a session. It comes back once the write waits no more."""
        return self.ask(f"put {table} {key} {value}")[0]

    def rows(self, table, low, high):
        """As those of a session."""
        return rows_by(self.ask, table, low, high)


def is_refused(line, reply):
    """Whether this last reply to a line refuses it."""
    return reply.split(" ")[0] not in DONE and not (line.startswith("get ") and reply == "not found")


def value_by(ask, table, key):
    """The value of a key, by one line."""
    reply, = ask(f"get {table} {key}")
    return None if reply == "not found" else reply.split(" ")[2]


def rows_by(ask, table, low, high):
    """The rows of a range, by a cursor."""
    ask(f"open rows {table} {low} {high}")
    try:
        return [(int(row.split(" ")[1]), row.split(" ")[2]) for row in ask("fetch rows 1000000")[:-1]]
    finally:
        ask("close rows")
