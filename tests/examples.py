#!/usr/bin/env python3
"""The programs of examples/, each run over the built program, with what it leaves in its file.

    python3 tests/examples.py [PROGRAM]

Takes the repository's program, and builds it where it isn't there. One line for each check; ends with 1 where one failed.
CHECKS has functions of a place, as those of tests/tools."""
import ast
import contextlib
import functools
import os
import pathlib
import re
import select
import signal
import socket
import subprocess
import sys
import tempfile
import time

sys.dont_write_bytecode = True
sys.path.insert(0, os.path.join(os.path.dirname(os.path.abspath(__file__)), "..", "tools"))
import program as rbsh
from program import DEADLINE, TOP, Wrong, run

EXAMPLES = TOP / "examples"


def equal(what, found, wanted):
    if found != wanted:
        raise Wrong(f"{what}: {found!r} in place of {wanted!r}")


def environment(place, program=None):
    """What an example finds: the program, or another one, and the client."""
    return {**os.environ, "RBSH": program or place.program, "PYTHONPATH": str(EXAMPLES), "PYTHONDONTWRITEBYTECODE": "1"}


def said(place, name, *words, status=0):
    """The lines that an example writes. It writes no error."""
    ended = run([sys.executable, str(EXAMPLES / name), *map(str, words)], env=environment(place)).wants_status(status)
    equal(f"errors of {name}", ended.err, b"")
    return ended.out.decode().splitlines()


def replies(place, file, script):
    return run([place.program, *rbsh.run_words(file)], script.encode()).wants(0).out.decode().splitlines()


def rows(place, file, table):
    """The rows of a table, as the program shows them by another way than the examples."""
    shown = replies(place, file, f"open 1 c {table} 0 9999\nfetch 1 c 1000000\n")
    return {int(key): value for _, word, key, value in (line.split() for line in shown[1:-1]) if word == "row"}


def readme_lines(place):
    """examples/README.md's first lines print what they say"""
    text = (EXAMPLES / "README.md").read_text().split("\n\n    ", 1)[1]
    lines = re.match(r"(?:    .*\n|\n(?=    ))+", "    " + text)[0]
    lines = re.sub(r"(?m)^    ", "", lines)
    wanted = re.findall(r"print\(.*\) +# (.*)", lines)
    if len(wanted) < 3:
        raise Wrong(f"they print little: {lines}")
    ended = run([sys.executable, "-c", lines], env=environment(place), cwd=place.folder).wants_status(0)
    equal("what they print", ended.out.decode().splitlines(), wanted)
    equal("the file", rows(place, place.folder / "shop.rb", 1), {1: "apple", 2: "pear"})


CLIENT = """
import sys
from client import *
create("store.rb", blocks=1, log=128)

def refused(ask, line):
    try:
        return "not refused: " + str(ask(line))
    except Refused as why:
        return [why.reply, why.before]
    except (ValueError, EOFError) as why:
        return type(why).__name__

with Store("store.rb") as store:
    s = {n: store.session(n) for n in range(1, 17)}
    print([s[1].ask("insert 1 1 a"), s[1].ask("insert 1 2 row"), s[1].ask("commit"), s[1].rows(1, 0, 9)])
    print([refused(s[1].ask, line) for line in ["insert 1 1 b", "nothing", "fetch c 1", "insert 1 3 " + "x" * 600]])
    print([refused(ask, line) for ask, line in [(store.ask, ""), (store.ask, "# insert 1 1 1 a"), (store.ask, "marks\\nmarks"),
                                                (s[1].ask, "flush"), (s[1].ask, "sessions")]])
    print([store.ask("bad"), store.ask("marks"), store.ask("checkpoint"), store.ask("bad line")])
    print([s[n].ask("update 1 1 v%d" % n) for n in range(1, 6)] + [s[n].wait() for n in range(1, 6)])
    print([s[1].ask("commit"), [s[n].wait() for n in range(2, 6)], refused(s[3].ask, "commit")])
    print([s[5].ask("cancel"), s[2].ask("rollback"), [s[n].wait() for n in range(2, 6)]])
    print([s[3].ask("delete 1 1"), s[3].ask("commit"), refused(lambda _: s[4].wait(), "")])
    print([s[6].ask("update 1 2 a"), s[7].ask("insert 1 3 b"), s[6].ask("insert 1 3 c"), refused(s[7].ask, "delete 1 2")])
    print([s[7].ask("rollback"), s[6].wait(), s[6].ask("rollback"), s[6].rows(1, 0, 9)])
    print([s[8].ask("set serializable"), s[9].ask("lock 1 2"), s[8].ask("update 1 2 x"), s[9].ask("update 1 2 y"),
           s[9].ask("commit"), refused(lambda _: s[8].wait(), "")])
    # More writes than the log has slots.
    print([s[8].ask("rollback"), [s[10].ask("update 1 2 z%d" % n) for n in range(150)][-1]])
    s[10].ask("rollback")
    print([s[11].ask("insert 1 4 d"), s[11].ask("commit later"), s[12].ask("commit later"), store.ask("flush")])
    for n in range(1, 17):
        s[n].ask("rollback")
    print([store.under_way(), s[13].get(1, 4), s[13].get(1, 5), s[13].ask("get 1 5"), s[13].put(1, 5, "e"), s[13].get(1, 5)])
    print([s[14].put(1, 5, "f"), refused(s[14].ask, "get 1 5"), refused(s[12].ask, "get 2 5"), s[12].get(1, 5)])
    print([{n: tuple(way) for n, way in store.under_way().items()}, s[13].ask("commit"), s[14].wait(), s[14].get(1, 5)])
    print([s[12].ask("set read-only"), s[12].ask("open c 1 0 9"), store.under_way()[12].mode, store.under_way()[12].cursors])
try:
    with Store("missing/store.rb") as store:
        store.ask("marks")
except EOFError as why:
    print(why)
"""


def client_answers(place):
    """client.py gives each line its replies, and each session its own"""
    ended = run([sys.executable, "-c", CLIENT], env=environment(place), cwd=place.folder).wants_status(0)
    *told, last = ended.out.decode().splitlines()
    segments = [f"segment {n} writes {2 if n == 0 else 0} lost 0" for n in range(4)]
    wanted = [
        [["ok"], ["ok"], ["committed 1"], [(1, "a"), (2, "row")]],
        [["duplicate", []], ["bad line", []], ["no cursor", []], ["bad line", []]],
        ["ValueError"] * 5,
        [["bad line"], segments, ["ok"], ["bad line"]],
        [["ok"], *[["waits 1"]] * 4, *[None] * 5],
        [["committed 2"], ["ok", None, None, None], ["waiting", []]],
        [["ok"], ["ok"], ["ok", "ok", None, None]],
        [["ok"], ["committed 3"], ["not found", []]],
        [["ok"], ["ok"], ["waits 7"], ["deadlock 6", []]],
        [["ok"], "ok", ["ok"], [(2, "row")]],
        [["ok"], ["ok"], ["waits 9"], ["ok"], ["committed 4"], ["cannot serialize 3 4", []]],
        [["ok"], ["ok"]],
        [["ok"], ["numbered 5"], ["ok"], ["flushed 5"]],
        [{}, "d", None, ["not found"], "ok", "e"],
        ["waits 13", ["waiting", []], ["no table", []], None],
        [{13: (1, 0, "read-committed", None), 14: (0, 0, "read-committed", 13)}, ["committed 6"], "ok", "f"],
        [["ok"], ["ok"], "read-only", 1],
    ]
    for found, right in zip(told, wanted):
        equal("replies", ast.literal_eval(found), right)
    equal("how many", len(told), len(wanted))
    equal("a file that can't be used", last, "the program ended with status 3")


def seats_sold(place):
    """seats.py sells each seat once, with waits, deadlocks and late transactions on the way"""
    file = place.folder / "seats.rb"
    lines = said(place, "seats.py", file)
    plan = {}
    for row, line in enumerate(line for line in lines if line.startswith("row ")):
        plan.update({row * 8 + seat: owner for seat, owner in enumerate(line.split()[2:], 1)})
    equal("the plan", plan, rows(place, file, 1))
    owners = [owner for owner in plan.values() if owner != "free"]
    # Three rows of eight seats have room for twelve of the fourteen parties of two.
    equal("who has how many seats", sorted(map(owners.count, set(owners))), [2] * 12)
    for party in set(owners):
        first, second = (seat for seat, owner in plan.items() if owner == party)
        equal(f"{party} sits together", (second, first % 8 != 0), (first + 1, True))
    counts = re.fullmatch(r"sold to 12 parties, turned away 2: (.*)", lines[-2])
    shown = [re.match(r"  agent \d: (waits|deadlock|cannot serialize|too old)", line) for line in lines]
    shown = [found[1] for found in shown if found]
    equal("counts", {tuple(part.split(" times ")) for part in counts[1].split(", ")},
          {(str(shown.count(word)), word) for word in set(shown)})
    if not {"waits", "deadlock", "cannot serialize"} <= set(shown):
        raise Wrong(f"only {set(shown)} came")
    equal("commits", replies(place, file, "update 1 1 1 x\ncommit 1\n"), ["1 ok", "1 committed 14"])
    return counts[1]


def book_reported(place):
    """order_book.py's report shows one moment, also where it was too old at first"""
    file = place.folder / "orders.rb"
    lines = said(place, "order_book.py", file)
    form = r"(\d+) orders, (\d+) trades, (\d+) pieces left, (\d+) orders amiss"
    told = [(line, tuple(map(int, found.groups()))) for line in lines for found in [re.search(form, line)] if found]
    (first, one), (second, two), (third, slow), (last, end) = told
    # An order is a commit, so the moment of a report tells how many orders there are.
    for line, figures in [(first, one), (third, slow), (last, end)]:
        equal(line, (figures[0], figures[3]), (int(re.search(r"commit (\d+)", line)[1]), 0))
    equal("orders while the first report was made", int(re.search(r"while (\d+) orders", first)[1]) > 0, True)
    if not two[3] or not any(line.startswith("  too old ") for line in lines):
        raise Wrong(f"no moment was mixed, or none too old: {lines}")
    orders = {number: value.split(",") for number, value in rows(place, file, 1).items()}
    trades = [tuple(map(int, value.split(","))) for value in rows(place, file, 2).values()]
    equal("the last figures", end, (len(orders), len(trades), sum(int(order[3]) for order in orders.values()), 0))
    for number, (_, _, placed, left) in orders.items():
        equal(f"order {number}", sum(t[2] for t in trades if number in t[:2]), int(placed) - int(left))
    for buy, sell, _ in trades:
        equal("sides", (orders[buy][0], orders[sell][0]), ("buy", "sell"))
        if int(orders[buy][1]) < int(orders[sell][1]):
            raise Wrong(f"orders {buy} and {sell} have traded at {orders[buy][1]} and {orders[sell][1]}")
    return last.split(": ")[1]


def counter_counts(place):
    """counter.py's processes share one program by the hub, and lose no addition"""
    file = place.folder / "counter.rb"
    lines = said(place, "counter.py", file)
    added = [re.fullmatch(r"  (\d+) additions, waited (\d+) times", line) for line in lines]
    added = [tuple(map(int, found.groups())) for found in added if found]
    equal("additions", [count for count, _ in added], [20] * 5)
    equal("the counter", rows(place, file, 1), {1: "100"})
    equal("commits", replies(place, file, "lock 1 1 1\ncommit 1\n"), ["1 ok", "1 committed 102"])
    return f"waited {sum(waited for _, waited in added)} times"


class Line:
    """A connection to the hub, of which each reply is read by itself."""

    def __init__(self, path):
        self.socket = socket.socket(socket.AF_UNIX)
        self.socket.settimeout(DEADLINE)
        self.socket.connect(path)
        self.read = self.socket.makefile("r")

    def send(self, text):
        self.socket.sendall(text.encode("latin-1"))

    def next(self):
        return self.read.readline().rstrip("\n")

    def has_answer(self, seconds=0.3):
        """Whether one comes within so many seconds."""
        return bool(select.select([self.socket], [], [], seconds)[0])

    def ask(self, line):
        self.send(line + "\n")
        return list(iter(self.next, "."))

    def last(self):
        """The reply to a write that waits."""
        return next((reply for reply in iter(self.next, "") if not reply.startswith("waits ")), "no more replies")

    def close(self):
        self.read.close()
        self.socket.close()


def hub_routes(place):
    """hub.py gives each connection a session, its own replies, and nothing of another one's"""
    file, path = place.store(log=256), str(place.folder / "hub")
    with hub_at(path, place, file):
        told = hub_dialogue(path)
    equal("rows", rows(place, file, 1), {1: "b", 2: "n" * 80, 3: "f"})
    equal("a file that is missing", said_status(place, place.folder / "none" / "x.rb", path), 3)
    return told


@contextlib.contextmanager
def hub_at(path, place, file, program=None, status=0):
    """A hub that serves at a path until the block is done. It ends with the status, and writes no error."""
    words = [sys.executable, str(EXAMPLES / "hub.py"), str(file), path]
    hub = subprocess.Popen(words, env=environment(place, program), stderr=subprocess.PIPE)
    try:
        until = time.monotonic() + DEADLINE
        while not is_served(path):
            if hub.poll() is not None or time.monotonic() > until:
                raise Wrong(f"no hub: {hub.communicate()[1]!r}")
            time.sleep(0.01)
        yield hub
    finally:
        hub.send_signal(signal.SIGTERM)
        errors = hub.communicate(timeout=DEADLINE)[1]
    equal("how it ended", (hub.returncode, errors), (status, b""))


def is_served(path):
    """Whether a server listens at a socket, which is there a moment before. The system has the list, so nobody connects."""
    listening = r"(?m)^\S+ \S+ \S+ 00010000 .* " + re.escape(path) + "$"
    return bool(re.search(listening, pathlib.Path("/proc/net/unix").read_text()))


def said_status(place, file, path):
    return run([sys.executable, str(EXAMPLES / "hub.py"), str(file), path], env=environment(place)).status


def hub_dialogue(path):
    """Lines of several connections, with what each is answered."""
    ann, ben = Line(path), Line(path)
    equal("a line, a comment, an empty one", [ann.ask(line) for line in ["insert 1 1 a", "# a", "", "commit"]],
          [["ok"], [], [], ["committed 1"]])
    equal("bad lines", [ann.ask(line) for line in ["insert 1 1 1 a", "bad", " ", "?", "marks 1", "insert 1 1 \xe9"]],
          [["bad line"]] * 6)
    equal("lines without a session", [ben.ask("marks"), ben.ask("checkpoint")], [["segment 0 writes 1 lost 0"], ["ok"]])
    # Lines that come at once are answered in their order.
    ben.send("open c 1 0 9\nfetch c 9\nupdate 1 1 x\nrollback\n")
    equal("at once", [ben.next() for _ in range(9)], ["ok", ".", "row 1 a", "end", ".", "ok", ".", "ok", "."])
    # Ben waits, and gets the reply alone. Carl comes after him, and waits once more.
    carl = Line(path)
    equal("waits", [ann.ask("update 1 1 b"), ben.ask("update 1 1 c"), carl.ask("update 1 1 d")],
          [["ok"], ["waits 1"], ["waits 1"]])
    equal("no other line", carl.ask("commit"), ["waiting"])
    equal("who is ready", [ann.ask("commit"), ben.next(), carl.next()], [["committed 2"], "ok", "waits 2"])
    # Ben's connection ends, and with it what he did; so Carl has the row. Carl's ends too.
    ben.close()
    equal("after an end", [carl.next(), carl.ask("open c 1 0 9")], ["ok", ["ok"]])
    carl.close()
    found = ann.ask("lock 1 1")
    equal("after another end", found == ["ok"] or ann.last() == "ok", True)
    # One that waits ends: it is taken out of the queue, or puts back what it has made.
    dan, eve = Line(path), Line(path)
    equal("cursors", [other.ask("open c 1 0 9") for other in (dan, eve)], [["ok"], ["ok"]])
    equal("who waits", [dan.ask("delete 1 1"), eve.ask("lock 1 1")], [["waits 1"], ["waits 1"]])
    dan.close()
    equal("its end", [ann.ask("commit"), eve.last(), eve.ask("commit")], [["committed 3"], "ok", ["committed 4"]])
    # Sessions are used again, without cursors of before. The seventeenth connection waits until one of these ends.
    others = [Line(path) for _ in range(14)]
    equal("new connections", [other.ask("open c 1 0 9") for other in others], [["ok"]] * 14)
    late = Line(path)
    late.send("open c 1 0 9\n")
    equal("a session that isn't free yet", late.has_answer(), False)
    others.pop(0).close()
    equal("a session that is", [late.next(), late.next()], ["ok", "."])
    others.append(late)
    equal("rows", others[-1].ask("fetch c 9"), ["row 1 b", "end"])
    equal("a long value", [eve.ask(f"insert 1 2 {'n' * 80}"), eve.ask(f"insert 1 3 {'n' * 81}"), eve.ask("insert 1 3 f")],
          [["ok"], ["value too long"], ["ok"]])
    equal("a commit", eve.ask("commit"), ["committed 5"])
    eve.send("delete 1 1\n" + "x" * 100000 + "\n")
    equal("a line without end", [eve.next(), eve.next(), eve.next()], ["ok", ".", ""])
    for other in [ann, eve, *others]:
        other.close()
    return "five kinds of lines, sixteen sessions"


def hub_gets(place):
    """hub.py gives the replies to get, put and sessions, which may have none"""
    file, path = place.store(log=256), str(place.folder / "hub")
    with hub_at(path, place, file):
        ann, ben = Line(path), Line(path)
        equal("nothing under way", [ann.ask("sessions"), ann.ask("sessions"), ann.ask("sessions 1")], [[], [], ["bad line"]])
        equal("one row", [ann.ask(line) for line in ["get 1 2", "put 1 2 p", "get 1 2"]], [["not found"], ["ok"], ["row 2 p"]])
        equal("who waits", [ben.ask("put 1 2 q"), ben.ask("get 1 2"), ann.ask("sessions")],
              [["waits 1"], ["waiting"], ["session 1 changes 1 cursors 0 mode read-committed",
                                          "session 2 changes 0 cursors 0 mode read-committed waits 1"]])
        equal("the end of a wait", [ann.ask("commit"), ben.next(), ben.ask("get 1 2"), ann.ask("get 1 2")],
              [["committed 1"], "ok", ["row 2 q"], ["row 2 p"]])
        for line in (ann, ben):
            line.close()
    equal("rows", rows(place, file, 1), {2: "p"})


# A program over a slow device, which is killed in place of the first flush after a value `last`. It notes its lines.
SLOW = """#!{python}
import subprocess, sys, time
run, last = subprocess.Popen([{program!r}, *sys.argv[1:]], stdin=subprocess.PIPE, bufsize=0), False
with open({log!r}, "wb", 0) as log:
    for line in sys.stdin.buffer:
        log.write(line)
        last = last or line.endswith(b" last\\n")
        if line == b"flush\\n":
            time.sleep(0.05)
            if last:
                run.kill()
                break
        run.stdin.write(line)
run.stdin.close()
sys.exit(run.wait() % 256)
"""
GROUP, ROUNDS = 8, 4


def tickets_booked(place):
    """tickets.py books seats for thirty clients over ten seconds and three kills: none is refused, and nothing is lost"""
    told, lost, checked = said(place, "tickets.py", 10)
    count, reports = map(int, re.fullmatch(r"(\d+) bookings by 30 clients, (\d+) reports, 3 kills", told).groups())
    if count < 30 or not reports or not checked.startswith("checked: "):
        raise Wrong(f"{told}: {checked}")
    return f"{told}; {lost}"


def hub_groups(place):
    """hub.py makes commits of several connections safe by one flush, and answers none of them before"""
    file, path, log = place.store(log=256, blocks=64), str(place.folder / "hub"), place.folder / "lines"
    double = place.double(SLOW.format(python=sys.executable, program=place.program, log=str(log)))
    with hub_at(path, place, file, double, 256 - signal.SIGKILL) as hub:
        lines = [Line(path) for _ in range(GROUP)]
        equal("a commit that is alone", [lines[0].ask(line) for line in ("commit", "insert 1 0 a", "commit")],
              [["ok"], ["ok"], ["committed 1"]])
        equal("what the program got", log.read_text().replace("\n?\n", "\n").splitlines(),
              ["commit 1 later", "insert 1 1 0 a", "commit 1 later", "flush"])
        for first in range(1, ROUNDS * GROUP, GROUP):
            commit_together(lines, first, "a")
            equal("answers", sorted(line.next() for line in lines),
                  sorted(f"committed {number + 1}" for number in range(first, first + GROUP)))
            equal("their ends", [line.next() for line in lines], ["."] * GROUP)
        # The program is killed in place of the flush of the last round, whose commits it has numbered: nobody is answered.
        commit_together(lines, 1 + ROUNDS * GROUP, "last")
        equal("after the kill", [line.next() for line in lines], [""] * GROUP)
        hub.wait(DEADLINE)
    for line in lines:
        line.close()
    commits, sent = 1 + ROUNDS * GROUP, log.read_text().split("\n")
    equal("rows", rows(place, file, 1), {key: "a" for key in range(commits)})
    if not sent.count("flush") < commits:
        raise Wrong(f"{sent.count('flush')} flushes for {commits} commits")
    return f"{commits} commits by {sent.count('flush') - 1} flushes, and the {GROUP} after them unanswered and gone"


def commit_together(lines, first, value):
    """Each connection inserts a row. Then all of them ask for their commits, before any answer is read."""
    for key, line in enumerate(lines, first):
        equal("an insert", line.ask(f"insert 1 {key} {value}"), ["ok"])
    for line in lines:
        line.send("commit\n")


def readable(check):
    """The check, of which any text that isn't as it is to be is Wrong."""

    @functools.wraps(check)
    def tried(place):
        try:
            return check(place)
        except (ArithmeticError, LookupError, SyntaxError, TypeError, ValueError, subprocess.TimeoutExpired) as why:
            raise Wrong(f"{type(why).__name__}: {why}")

    return tried


CHECKS = [readable(check) for check in (readme_lines, client_answers, seats_sold, book_reported, counter_counts, hub_routes,
                                        hub_gets, hub_groups, tickets_booked)]


class Place:
    """The folder of a check, with the program and the files that it makes."""

    def __init__(self, program, folder):
        self.program, self.folder = program, folder

    def store(self, name="store.rb", **shape):
        """A new file of this shape."""
        file = self.folder / name
        run([self.program, *rbsh.format_words(file, **shape)]).wants(0, b"")
        return file

    def double(self, text):
        """A program with this text."""
        file = self.folder / "double"
        file.write_text(text)
        file.chmod(0o755)
        return str(file)


def main():
    program, failed, began = rbsh.find_program(), 0, time.monotonic()
    for check in CHECKS:
        with tempfile.TemporaryDirectory() as folder:
            try:
                word, told = "ok", check(Place(program, pathlib.Path(folder)))
            except (Wrong, OSError) as why:
                word, told, failed = "FAILED", why, failed + 1
        print(f"{word}: {check.__doc__}" + (f": {told}" if told else ""), flush=True)
    print(f"examples: {time.monotonic() - began:.0f} seconds")
    return 1 if failed else 0


if __name__ == "__main__":
    sys.exit(main())
