"""What right replies are: a second machine of lines, replies, rows, books, slot entries, copies of homes and dead
transactions, by what is told of the machine in docs/COMMANDS.md, docs/MODEL.md and docs/UNDO.md. It knows no bytes of a
block and no file, and shares nothing with the program or with tools/. tests/model_check compares it with the program.

All replies follow from the lines, but for one number: a `too old` tells what the segment concerned has lost, and where
several are concerned in a home any of them may be told. So the machine is told what the program said, and takes that
number over."""
import collections
import re

SESSIONS, HOME_KEYS, HOME_SESSIONS = 16, 16, 8
VALUE_BYTES, LINE_BYTES, NAMES = 80, 512, 16
SLOTS, TURN_RECORDS, MOST_TURNS = 16, 40, 8
ENTRIES = 8
COPIES = 32

ID, KEY = (r"(0|[1-9]\d*)", 2**16 - 1), (r"(0|[1-9]\d*)", 2**64 - 1)
COUNT, NAME, VALUE = (r"([1-9]\d*)", 10**6), (r"([a-z0-9_]{1,16})", None), (r"([!-~]+)", None)
READ_COMMITTED, READ_ONLY, SERIALIZABLE = MODES = ["read-committed", "read-only", "serializable"]
MODE = (f"({'|'.join(MODES)})", None)
# When a commit is made last that isn't at once.
LATER = ("(later)", None)
COMMANDS = [
    ("insert", ID, ID, KEY, VALUE), ("update", ID, ID, KEY, VALUE), ("put", ID, ID, KEY, VALUE),
    ("delete", ID, ID, KEY), ("lock", ID, ID, KEY), ("get", ID, ID, KEY), ("set", ID, MODE), ("savepoint", ID, NAME),
    ("rollback", ID, NAME), ("rollback", ID), ("commit", ID), ("commit", ID, LATER), ("open", ID, NAME, ID, KEY, KEY),
    ("fetch", ID, NAME, COUNT), ("close", ID, NAME), ("cancel", ID), ("sessions",), ("marks",), ("flush",),
    ("sweep", COUNT), ("checkpoint",),
]
WRITES = ["insert", "update", "put", "delete", "lock"]
FORMS = [(word, fields, re.compile(" ".join([word, *(pattern for pattern, _ in fields)]), re.ASCII))
         for word, *fields in COMMANDS]


def parsed(line):
    """The word and the parts of a command; None where the line is none."""
    text = line.decode("latin-1")
    for word, fields, form in FORMS:
        found = form.fullmatch(text)
        if found:
            parts = [int(part) if most else part for part, (_, most) in zip(found.groups(), fields)]
            in_range = all(part <= most for part, (_, most) in zip(parts, fields) if most)
            return (word, parts) if in_range else None
    return None


def generated(count, tables, blocks):
    """The lines of the commands that `gen` makes: each of four draws of one sequence, which begins with their count."""
    x = count

    def draw():
        nonlocal x
        x = (x * 6364136223846793005 + 1442695040888963407) % 2**64
        return x // 2**33

    for value in range(1, count + 1):
        # Of a hundred the last that makes a command, and what it is.
        a, s, k, t = draw() % 100, 1 + draw() % 8, draw() % (8 * blocks), 1 + draw() % tables
        lines = {24: f"insert {s} {t} {k} {value}", 54: f"update {s} {t} {k} {value}", 64: f"delete {s} {t} {k}",
                 69: f"lock {s} {t} {k}", 79: f"commit {s}", 84: f"rollback {s}",
                 92: f"open {s} c {t} 0 {2**64 - 1}", 97: f"fetch {s} c 4", 98: f"close {s} c", 99: f"cancel {s}"}
        yield next(line for last, line in lines.items() if a <= last).encode()


class Refused(Exception):
    """Why a call did nothing."""


# ---- Books


class Owner:
    """The transaction that has a slot of a book."""

    def __init__(self, start):
        self.start, self.touched = start, set()


class Book:
    """What is known of a rollback segment."""

    def __init__(self):
        self.writes = self.lost = 0
        # Of each turn that is kept, the oldest first, the greatest number of a commit with a record there.
        self.turns = [0, 0]
        self.newest, self.owners = [0] * SLOTS, [None] * SLOTS
        # How often each slot was taken, and its newest number as it was taken last.
        self.wraps, self.before = [0] * SLOTS, [0] * SLOTS

    def copied(self):
        other = Book()
        other.writes, other.lost, other.turns = self.writes, self.lost, list(self.turns)
        other.newest, other.owners = list(self.newest), list(self.owners)
        other.wraps, other.before = list(self.wraps), list(self.before)
        return other

    @staticmethod
    def turn_of(record):
        return 2 + (record - 1) // TURN_RECORDS

    @property
    def last_turn(self):
        return self.turn_of(max(self.writes, 1))

    @property
    def oldest_turn(self):
        return self.last_turn - len(self.turns) + 1

    def running(self):
        return [owner for owner in self.owners if owner]

    def needs_turn(self):
        return self.writes > 0 and self.writes % TURN_RECORDS == 0

    def is_pinned(self):
        return any(self.turn_of(owner.start + 1) == self.oldest_turn for owner in self.running())

    def is_taken(self):
        """Whether each slot has an owner."""
        return len(self.running()) == SLOTS

    def is_full(self):
        return self.needs_turn() and len(self.turns) == MOST_TURNS and self.is_pinned()

    def begin(self):
        """Takes the slot without an owner that has the least newest number; gives its place."""
        slot = min((at for at in range(SLOTS) if not self.owners[at]), key=lambda at: (self.newest[at], at))
        self.owners[slot] = Owner(self.writes)
        self.wraps[slot] += 1
        self.before[slot] = self.newest[slot]
        self.lost = max(self.lost, self.newest[slot])
        return slot

    def mark(self, slot):
        """One record more of that slot's owner; gives its number."""
        if self.needs_turn():
            if not self.is_pinned():
                self.lost = max(self.lost, self.turns.pop(0))
            self.turns.append(0)
        self.writes += 1
        self.owners[slot].touched.add(self.last_turn)
        return self.writes

    def finish(self, slot, number):
        """The owner committed."""
        for turn in self.owners[slot].touched:
            self.turns[turn - self.oldest_turn] = number
        self.newest[slot] = number
        self.owners[slot] = None


# ---- Slot entries


EXACT, BOUND = "exactly", "at most"

# How a commit is known: its number, or one at or before which it was.
Told = collections.namedtuple("Told", ["kind", "number"])


class Entry(collections.namedtuple("Entry", ["transaction", "record", "told", "below"])):
    """A slot entry of a home that isn't free: its transaction (a segment, a slot there and its wrap), the first record
    of that for the home, how its commit is known there (None as long as the entry is open), and what the entry was
    before that record (None where it was free)."""

    __slots__ = ()

    def __deepcopy__(self, _):
        return self


# ---- Copies

# How a home is read where a copy may serve: it is built from the block, as there is none; a copy has it; it is built
# from one of a later number; or from the block, as that one has a bound above the number that is asked for.
READS = BUILT, SERVED, WENT_ON, PASSED = ["built", "served", "gone on from", "passed over"]
# And that a copy had what undo alone couldn't give any more, and that one gave way to another.
OUTLIVED, GAVE_WAY = "outlived undo", "gave way"


class Copies:
    """Homes as they were at a commit's number, so many at most: of each home and number the entries that it had then,
    and which group had changed the home last when it was kept. The one that was used longest ago comes first."""

    def __init__(self, most):
        self.most, self.kept = most, {}

    def least(self, home, number, group):
        """The least number from that one on whose copy serves: no other group has changed the home since."""
        return min((n for (at, n), (_, last) in self.kept.items() if at == home and n >= number and last == group),
                   default=None)

    def use(self, home, number):
        """The entries of a copy, which is the latest used from now on."""
        copy = self.kept[home, number] = self.kept.pop((home, number))
        return copy[0]

    def keep(self, home, number, group, entries):
        """A copy more, the latest used, in the place of one of the same home and number. Where that is one too many,
        the one that was used longest ago gives way. Gives whether another one did."""
        self.kept.pop((home, number), None)
        self.kept[home, number] = entries, group
        full = len(self.kept) > self.most
        if full:
            del self.kept[next(iter(self.kept))]
        return full and bool(self.kept)


# ---- Sessions


class Change:
    """A write that was done: its key and that one's home, what it gives the key, and which entry of the home it took,
    with what that was before."""

    # What a lock gives: the row stays as it is. (None is that of a delete: no row.)
    HELD = object()

    def __init__(self, at, home, value, place, before):
        self.at, self.home, self.value, self.place, self.before = at, home, value, place, before


class Live(collections.namedtuple("Live", ["change", "older", "count"])):
    """The newest live change of a transaction, its older ones (None where there is none), and how many all are."""

    __slots__ = ()

    def __deepcopy__(self, _):
        return self


class Dead:
    """A transaction that ran as the file was opened: its segment, slot and wrap there, and its live changes."""

    def __init__(self, place, live):
        self.place, self.live = place, live

    @property
    def count(self):
        return self.live.count if self.live else 0

    def writes_in(self, home):
        """Whether a live change is of that home."""
        live = self.live
        while live and live.change.home != home:
            live = live.older
        return live is not None


class Session:
    """A session's transaction and its open cursors. The transaction has its mode, with the number and rows of its
    snapshot where it has one of its own, its live changes, in order, its segment, slot and wrap there, and its
    savepoints: of each name, in order of setting, how many changes were before it."""

    def __init__(self, number):
        self.number, self.cursors = number, {}
        self.fresh()

    def fresh(self):
        """No transaction runs. The cursors stay."""
        self.place, self.savepoints = None, {}
        self.mode, self.snapshot = READ_COMMITTED, None
        self.keep([])
        for cursor in self.cursors.values():
            cursor.seen = 0

    def keep(self, changes):
        """The live changes are these."""
        # The keys that they hold, what each of these has by them, and their homes.
        self.changes, self.held, self.own, self.homes, self.live = [], set(), {}, set(), None
        for change in changes:
            self.add(change)

    def add(self, change):
        self.changes.append(change)
        self.held.add(change.at)
        if change.value is not Change.HELD:
            self.own[change.at] = change.value
        self.homes.add(change.home)
        self.live = Live(change, self.live, len(self.changes))


class Cursor:
    """A query: its table and range of keys, the number of its snapshot, the rows that it gives, and how many changes of
    the transaction that runs it has seen; also the transaction of which it saw changes, whether that runs or not."""

    def __init__(self, table, keys, number, rows, session):
        self.table, self.keys, self.number, self.rows = table, keys, number, rows
        self.seen, self.transaction = len(session.changes), session.place if session.changes else None
        self.taken = 0

    def homes(self, blocks):
        """The homes that its next fetch reads, as far as that comes: from that of the last row on to that of the next
        one, or to the last of the table, those that a key of the range may have."""
        (lo, hi), ways = self.keys, [key % blocks for key, _ in self.rows]
        first = ways[self.taken - 1] if self.taken > 0 else 0
        last = ways[self.taken] if self.taken < len(ways) else blocks - 1
        return ((self.table, home) for home in range(first, last + 1) if (home - lo) % blocks <= hi - lo)


class Waiter:
    """A session in the queue, with the write that it has to try again, and the session for whose end it waits: None
    where that has come, and it is ready."""

    def __init__(self, session, write, on):
        self.session, self.write, self.on = session, write, on


class Moment:
    """What a file has after some group of its log: its rows and number, its books, and what is under way: how many
    groups put that back, and of each transaction its live changes, by its segment, slot and wrap. (Between groups that
    an opening made these are left open.) Also the entries that the homes had before that group which it changed."""

    def __init__(self, rows, number, books, owed, before, under_way):
        self.rows, self.number, self.books, self.owed, self.before = rows, number, tuple(books), owed, before
        self.under_way = under_way

    def marks(self):
        return [(book.writes, book.lost) for book in self.books]


def changed(rows, changes):
    """The rows with the changes over them; a value of None is that of no row."""
    return {at: value for at, value in {**rows, **changes}.items() if value is not None}


class Model:
    """A run over a file. Of each group that was made in it there is a moment; the first one is that of a new file. The
    log goes round: where all slots but one have groups, all that was made so far comes home, and the head moves. A run
    keeps so many copies of homes."""

    def __init__(self, tables, blocks, segments, log, copies=COPIES):
        self.tables, self.blocks, self.log = tables, blocks, log
        self.moments = [Moment({}, 0, [Book() for _ in range(segments)], 0, {}, {})]
        # Of each home that was written, by its table and number, its entries; and of those that changed since the last
        # group what they were then.
        self.homes, self.before = {}, {}
        # The numbers of the transactions that committed.
        self.numbers = {}
        # Of each row, the numbers of this run's commits that changed it, in order. (A lock changes nothing.)
        self.changers = {}
        # The groups by which readers have cleaned a home, and those of commits that were to be made last later.
        self.cleanings, self.later = set(), set()
        # The copies that this run keeps, and how often each use was made of one in all runs.
        self.copies, self.uses = Copies(copies), collections.Counter()
        # How many groups there were each time the head moved behind them, and each time they were made last; 0 is the
        # head of a new file.
        self.moves, self.lasts = [0], [0]
        self.restart(0, 0)

    def restart(self, groups, front, keeps=False):
        """Opens the file as it is after so many groups, of which so many stand in front of its head: what was under way
        then is put back, or is kept as dead transactions."""
        for moment in reversed(self.moments[groups + 1 :]):
            self.homes.update(moment.before)
        del self.moments[groups + 1 :]
        left = self.moments[groups]
        self.rows, self.number = left.rows, left.number
        # What the file has as it is opened; what puts back may move the head once more.
        self.opened, self.opened_front = groups, front
        self.moves = [move for move in self.moves if move <= front]
        self.lasts = [*(last for last in self.lasts if last < groups), groups]
        self.sessions = {number: Session(number) for number in range(1, SESSIONS + 1)}
        # In order of arrival.
        self.queue = []
        # The replies to the writes that were tried again behind the last line.
        self.resumed = []
        self.changers.clear()
        # Of each home that this run has changed the last group that did.
        self.changed_by, self.copies = {}, Copies(self.copies.most)
        self.books = [book.copied() for book in left.books]
        self.numbers = {transaction: n for transaction, n in self.numbers.items() if n <= self.number}
        self.cleanings = {group for group in self.cleanings if group <= groups}
        self.later = {group for group in self.later if group <= groups}
        # By their slots, counted over all segments.
        self.dead = {SLOTS * place[0] + place[1]: Dead(place, live)
                     for place, live in sorted(left.under_way.items()) if keeps}
        self.before = {}
        if not keeps:
            self.put_all_back(left)

    def put_all_back(self, left):
        """What was under way at that moment is put back."""
        for book in self.books:
            book.owners = [None] * SLOTS
        # In which order changes are put back is left open. The first such group stands for all of them.
        self.before = {home: entries for home, entries in self.homes.items() if any(map(self.runs, entries))}
        for home, entries in self.before.items():
            self.homes[home] = tuple(entry.below if self.runs(entry) else entry for entry in entries)
        for owed in range(left.owed - 1, -1, -1):
            self.make_room()
            self.moments.append(Moment(self.rows, self.number, self.books, owed, self.before, {}))
            self.before = {}

    def begun(self):
        """A model of such a file, with the same rows, with which a run begins."""
        other = Model(self.tables, self.blocks, len(self.books), self.log, self.copies.most)
        other.rows = self.rows
        return other

    def checkpoint(self):
        """What isn't durable yet is made so, what was put back among it, and the head moves. The end of the script does
        the same."""
        self.flush()
        if self.front < self.logged:
            self.moves.append(self.logged)

    def flush(self):
        """All that was logged is made last, with the commits that wait for it. The head stays."""
        self.lasts.append(self.logged)
        return f"flushed {self.number}"

    @property
    def durable(self):
        """How many groups last, whatever happens."""
        return self.lasts[-1]

    def waiting(self, groups):
        """The groups of the commits among the first so many groups that nothing had made last before another group
        came."""
        last = max(last for last in self.lasts if last <= groups)
        return [group for group in self.later if last < group <= groups]

    @property
    def front(self):
        """How many groups stand in front of the head."""
        return self.moves[-1]

    @property
    def logged(self):
        return len(self.moments) - 1

    def under_way_now(self):
        """The transactions that run, each with its live changes."""
        running = [*self.dead.values(), *(session for session in self.sessions.values() if session.place)]
        return {it.place: it.live for it in running}

    def make_room(self):
        """Sees to it that the log has room for one more group. One slot stays free."""
        if self.logged - self.front == self.log - 1:
            self.checkpoint()

    def grow(self, home=None):
        """One group more, which changes a home, or none."""
        self.make_room()
        running = self.under_way_now()
        # One group puts each live change back, and one frees each slot that is taken.
        owed = sum((live.count if live else 0) + 1 for live in running.values())
        self.moments.append(Moment(self.rows, self.number, self.books, owed, self.before, running))
        self.before = {}
        if home:
            self.changed_by[home] = self.logged

    def book(self, segment):
        """A book to change. The moments keep those of before."""
        book = self.books[segment] = self.books[segment].copied()
        return book

    def generate(self, count):
        """What `gen` writes: it makes its commands one after another as a run does their lines, and counts what they
        and the writes that were tried again are answered."""
        counts = collections.Counter()
        for line in generated(count, self.tables, self.blocks):
            replies = [re.sub(rb"^\d+ ", b"", reply) for reply in self.line(line)]
            counts.update(reply.split(b" ")[0] for reply in replies)
        others = sum(counts.values()) - sum(counts[word] for word in [b"ok", b"committed", b"row", b"end", b"waits"])
        told = count, counts[b"committed"], counts[b"row"], counts[b"waits"], others, self.number
        return b"commands %d committed %d rows %d waits %d refused %d now %d\n" % told

    # ---- Lines

    def line(self, line, said=lambda place: b""):
        """The replies to a line, to which the program's are those that `said` gives by their places."""
        own = self.own_replies(line, said)
        self.resumed = self.resume(lambda place: said(len(own) + place))
        return own + self.resumed

    def own_replies(self, line, said):
        """The replies to a line without those to the writes that are tried again behind it."""
        if len(line) > LINE_BYTES:
            return [b"bad line"]
        line = line[:-1] if line.endswith(b"\r") else line
        if not line or line.startswith(b"#"):
            return []
        command = parsed(line)
        if not command:
            return [b"bad line"]
        word, parts = command
        if word == "marks":
            marks = [(at, book.writes, book.lost) for at, book in enumerate(self.books)]
            return [b"segment %d writes %d lost %d" % told for told in marks]
        if word == "sessions":
            told = map(self.under_way, self.sessions.values())
            return [line.encode() for line in told if line]
        if word == "flush":
            return [self.flush().encode()]
        if word == "sweep":
            return [self.sweep(*parts).encode()]
        if word == "checkpoint":
            self.checkpoint()
            return [b"ok"]
        number, *parts = parts
        return self.replies(word, number, parts, said)

    def replies(self, word, number, parts, said):
        """The replies to the calls of a command."""
        answers = self.answers(word, number, parts, lambda place: said(place).decode("latin-1").partition(" ")[2])
        return [b"%d %s" % (number, text.encode("latin-1")) for text in answers]

    def answers(self, word, number, parts, said):
        """The replies without the session's number, also those that `said` gives."""
        given = []
        try:
            if number not in self.sessions:
                raise Refused("no session")
            if self.is_queued(number) != (word == "cancel"):
                raise Refused("not waiting" if word == "cancel" else "waiting")
            for text in self.calls(word, self.sessions[number], parts, said):
                given.append(text)
        except Refused as why:
            given.append(str(why))
        return given

    def calls(self, word, session, parts, said):
        if word in WRITES:
            return [self.write(session, said, word, *parts)]
        if word == "fetch":
            return self.fetch(session, said, *parts)
        if word == "get":
            return [self.get(session, said, *parts)]
        calls = {"commit": self.commit, "set": self.set_mode, "savepoint": self.savepoint, "rollback": self.rollback,
                 "open": self.open, "close": self.close, "cancel": self.cancel}
        return [calls[word](session, *parts)]

    def under_way(self, session):
        """What a session has under way, in words; None where that is nothing."""
        waits = [f" waits {waiter.on}" if waiter.on else " ready" for waiter in self.queue
                 if waiter.session == session.number]
        counts = f"changes {len(session.changes)} cursors {len(session.cursors)}"
        has_any = session.changes or session.savepoints or session.cursors or session.mode != READ_COMMITTED or waits
        return f"session {session.number} {counts} mode {session.mode}{''.join(waits)}" if has_any else None

    # ---- The queue

    def is_queued(self, number):
        return any(waiter.session == number for waiter in self.queue)

    def wait(self, session, write, on):
        """The session waits behind all others for the end of another one, which holds the key; unless following who
        waits for whom from there leads to the session."""
        waits_for, at = {waiter.session: waiter.on for waiter in self.queue}, on
        while at is not None and at != session.number:
            at = waits_for.get(at)
        if at is not None:
            raise Refused(f"deadlock {on}")
        self.queue.append(Waiter(session.number, write, on))
        return f"waits {on}"

    def cancel(self, session):
        self.queue = [waiter for waiter in self.queue if waiter.session != session.number]
        return "ok"

    def resume(self, said):
        """While one is ready, the first of the ready ones leaves the queue and tries its write again. Gives their
        replies, to which the program's are those that `said` gives."""
        replies = []
        while True:
            ready = next((waiter for waiter in self.queue if waiter.on is None), None)
            if not ready:
                return replies
            self.queue.remove(ready)
            word, *parts = ready.write
            first = len(replies)
            replies += self.replies(word, ready.session, parts, lambda place: said(first + place))

    # ---- Writes and their ends

    def home_full(self, table, key):
        """Whether sixteen other keys of the key's home are in use, and it isn't."""
        home = key % self.blocks
        used = {k for t, k in self.rows if k % self.blocks == home and t == table}
        for session in self.sessions.values():
            used.update(k for t, k in session.held if k % self.blocks == home and t == table)
        return len(used) >= HOME_KEYS and key not in used

    def begins_in(self):
        """The segment with the fewest owners, the lowest of these."""
        return min(range(len(self.books)), key=lambda at: (len(self.books[at].running()), at))

    def write(self, session, said, word, table, key, value=None):
        if session.mode == READ_ONLY:
            raise Refused("read only")
        if not 1 <= table <= self.tables:
            raise Refused("no table")
        if value is not None and len(value) > VALUE_BYTES:
            raise Refused("value too long")
        at, home = (table, key), (table, key % self.blocks)
        self.clear_home(home)
        others = {number: other for number, other in self.sessions.items() if other is not session}
        for number, other in others.items():
            if at in other.held:
                return self.wait(session, (word, table, key, value), number)
        if session.mode == SERIALIZABLE:
            self.serialize(session.snapshot[0], at, home, said(0))
        there = (session.own[at] if at in session.own else self.rows.get(at)) is not None
        if word != "put" and there == (word == "insert"):
            raise Refused("duplicate" if there else "not found")
        if not there and self.home_full(table, key):
            raise Refused("block full")
        if sum(home in other.homes for other in others.values()) >= HOME_SESSIONS:
            raise Refused("slots full")
        segment = session.place[0] if session.place else self.begins_in()
        if self.books[segment].is_full() or not session.place and self.books[segment].is_taken():
            self.clear_segment(segment)
        book = self.books[segment]
        if book.is_full():
            raise Refused(f"rollback full {segment} {book.writes - min(owner.start for owner in book.running())}")
        # How transactions stand as the call begins decides, so that comes before a slot is taken.
        self.clean(home)
        book = self.book(segment)
        if not session.place:
            slot = book.begin()
            session.place = segment, slot, book.wraps[slot]
        record = book.mark(session.place[1])
        place, before = self.take_entry(home, session.place, record)
        session.add(Change(at, home, Change.HELD if word == "lock" else value, place, before))
        self.grow(home)
        return "ok"

    def serialize(self, number, at, home, reply):
        """A row that a commit above the number has changed can't be written, nor one of a home that can't be read at
        the number."""
        self.read(self.entries(home), number, reply)
        for by in self.changers.get(at, []):
            if by > number:
                raise Refused(f"cannot serialize {number} {by}")

    def commit(self, session, later=None):
        """A commit: it lasts before its number is told, or is to be made last later. One of a transaction that has no
        change makes nothing last."""
        if not session.changes:
            return self.end_without(session)
        segment, slot, _ = session.place
        self.rows, self.number = changed(self.rows, session.own), self.number + 1
        self.book(segment).finish(slot, self.number)
        self.numbers[session.place] = self.number
        for at in session.own:
            self.changers.setdefault(at, []).append(self.number)
        self.ended(session)
        self.grow()
        if later:
            self.later.add(self.logged)
            return f"numbered {self.number}"
        self.flush()
        return f"committed {self.number}"

    def end_without(self, session):
        """The end of a transaction that has no change, or none any more: its slot, if it has one, is free."""
        if session.place:
            segment, slot, _ = session.place
            self.book(segment).owners[slot] = session.place = None
            self.grow()
        self.ended(session)
        return "ok"

    def ended(self, session):
        """The session has no transaction any more, and who waits for it is ready."""
        session.fresh()
        for waiter in self.queue:
            if waiter.on == session.number:
                waiter.on = None

    def set_mode(self, session, mode):
        if session.mode != READ_COMMITTED or session.changes or session.savepoints:
            raise Refused("not first")
        session.mode = mode
        session.snapshot = None if mode == READ_COMMITTED else (self.number, self.rows)
        return "ok"

    def savepoint(self, session, name):
        if len(session.savepoints.keys() - {name}) == NAMES:
            raise Refused("too many savepoints")
        # Also where it stood before, it is the latest now.
        session.savepoints.pop(name, None)
        session.savepoints[name] = len(session.changes)
        return "ok"

    def rollback(self, session, name=None):
        if name is None:
            self.put_back(session, 0)
            return self.end_without(session)
        if name not in session.savepoints:
            raise Refused("no savepoint")
        names = list(session.savepoints)
        for later in names[names.index(name) + 1 :]:
            del session.savepoints[later]
        self.put_back(session, session.savepoints[name])
        return "ok"

    def put_back(self, session, kept):
        """Puts back the session's changes but for the first ones, the newest first."""
        session.cursors = {name: cursor for name, cursor in session.cursors.items() if cursor.seen <= kept}
        while len(session.changes) > kept:
            session.changes.pop()
            self.take_back(session)
        session.keep(session.changes)

    def take_back(self, transaction):
        """Puts back the newest live change of a session or of a dead transaction."""
        change, transaction.live, _ = transaction.live
        self.set_entry(change.home, change.place, change.before)
        self.grow(change.home)

    # ---- Dead transactions

    def take_dead(self, dead, most):
        """Puts back the changes of a dead transaction, the newest first and so many at most, and frees its slot where
        none is left. Gives how many."""
        taken, (segment, slot, _) = min(most, dead.count), dead.place
        for _ in range(taken):
            self.take_back(dead)
        if not dead.live:
            del self.dead[SLOTS * segment + slot]
            self.book(segment).owners[slot] = None
            self.grow()
        return taken

    def sweep(self, most):
        """Puts back so many changes of dead transactions at most, those of the lowest slots first."""
        left = most
        for dead in list(self.dead.values()):
            left -= self.take_dead(dead, left)
        return f"swept {most - left}"

    def clear_home(self, home):
        """The dead transactions that have a change in the home go whole, in the order of their entries there."""
        for entry in self.entries(home):
            for dead in [dead for dead in self.dead.values() if entry and dead.place == entry.transaction]:
                if dead.writes_in(home):
                    self.take_dead(dead, dead.count)

    def clear_segment(self, segment):
        """All dead transactions of the segment go whole."""
        for dead in [dead for dead in self.dead.values() if dead.place[0] == segment]:
            self.take_dead(dead, dead.count)

    # ---- Cursors

    def open(self, session, name, table, lo, hi):
        if not 1 <= table <= self.tables:
            raise Refused("no table")
        if name in session.cursors:
            raise Refused("cursor there")
        if len(session.cursors) == NAMES:
            raise Refused("too many cursors")
        session.cursors[name] = self.query(session, table, lo, hi)
        return "ok"

    def query(self, session, table, lo, hi):
        """A cursor over a range as the session opens it now. It has no name yet."""
        number, seen = session.snapshot or (self.number, self.rows)
        seen = changed(seen, session.own)
        rows = [(key, value) for (t, key), value in seen.items() if t == table and lo <= key <= hi]
        rows.sort(key=lambda row: (row[0] % self.blocks, row[0]))
        return Cursor(table, (lo, hi), number, rows, session)

    def get(self, session, said, table, key):
        """What a cursor over one key would give first, if it were opened now; it gets no name."""
        if not 1 <= table <= self.tables:
            raise Refused("no table")
        first, = self.rows_of(self.query(session, table, key, key), said, 1)
        return "not found" if first == "end" else first

    def cursor(self, session, name):
        if name not in session.cursors:
            raise Refused("no cursor")
        return session.cursors[name]

    def fetch(self, session, said, name, count):
        return self.rows_of(self.cursor(session, name), said, count)

    def rows_of(self, cursor, said, count):
        """The next rows of a cursor, so many at most."""
        for place in range(count):
            for home in cursor.homes(self.blocks):
                self.clean_for_reader(home)
                self.view(home, cursor, said(place))
            if cursor.taken == len(cursor.rows):
                yield "end"
                return
            yield "row %d %s" % cursor.rows[cursor.taken]
            cursor.taken += 1

    def close(self, session, name):
        self.cursor(session, name)
        del session.cursors[name]
        return "ok"

    # ---- Homes

    def entries(self, home):
        return self.homes.get(home, (None,) * ENTRIES)

    def set_entry(self, home, place, entry):
        entries = self.entries(home)
        self.before.setdefault(home, entries)
        self.homes[home] = entries[:place] + (entry,) + entries[place + 1 :]

    def runs(self, entry):
        """Whether the transaction of an entry runs."""
        return entry is not None and entry.transaction not in self.numbers

    def look(self, transaction):
        """How the commit of a transaction is known by its slot."""
        segment, slot, wrap = transaction
        book = self.books[segment]
        if book.wraps[slot] == wrap:
            return Told(EXACT, self.numbers[transaction])
        return Told(BOUND, book.before[slot])

    def unclean(self, home):
        """The open entries of the home whose transactions have committed, by their places."""
        return [(place, entry) for place, entry in enumerate(self.entries(home))
                if entry and not entry.told and not self.runs(entry)]

    def clean(self, home):
        """Each of these tells how its commit is known."""
        for place, entry in self.unclean(home):
            self.set_entry(home, place, entry._replace(told=self.look(entry.transaction)))

    def clean_for_reader(self, home):
        """A fetch reads the home, and cleans it by one group where that is to be done."""
        if not self.unclean(home):
            return
        self.clean(home)
        self.grow(home)
        self.cleanings.add(self.logged)

    def take_entry(self, home, transaction, record):
        """The transaction takes an entry for a change: its own open one, else the first that is free, else the first of
        those with the least number. Gives its place, and what it was."""
        entries = self.entries(home)
        own = [place for place, entry in enumerate(entries) if entry and entry.transaction == transaction]
        free = [place for place, entry in enumerate(entries) if not entry]
        told = [place for place, entry in enumerate(entries) if entry and entry.told]
        place = own[0] if own else free[0] if free else min(told, key=lambda at: (entries[at].told.number, at))
        if not own:
            self.set_entry(home, place, Entry(transaction, record, None, entries[place]))
        return place, entries[place]

    def view(self, home, cursor, reply):
        """A cursor reads the home, which is clean, at its number. Where nothing in it is above that, it is read as it
        stands. Else a copy may serve, and what had to be taken back is kept as one; but not for a cursor that has seen
        changes of its own there."""
        now, number = self.entries(home), cursor.number
        if not any(self.is_above(entry, number) for entry in now):
            return
        if not self.shares(now, cursor):
            self.read(now, number, reply)
            return
        how, start = self.start(home, number)
        self.uses[how] += 1
        if how != SERVED:
            self.read(start, number, reply)
            self.uses[GAVE_WAY] += self.copies.keep(home, number, self.changed_by.get(home, 0),
                                                    self.taken_back(start, number))
        self.uses[OUTLIVED] += how in (SERVED, WENT_ON) and bool(list(self.missing(now, number)))

    def shares(self, entries, cursor):
        """Whether a cursor has seen no change of its own in a home of these entries, as far as they tell: it has seen
        none at all, or its transaction runs and has no entry there."""
        own = cursor.transaction
        here = any(entry and not entry.told and entry.transaction == own for entry in entries)
        return own is None or own not in self.numbers and not here

    def start(self, home, number):
        """How a home is read at a number by one whom copies may serve, and the entries with which that begins."""
        at = self.copies.least(home, number, self.changed_by.get(home, 0))
        if at is None:
            return BUILT, self.entries(home)
        copy = self.copies.use(home, at)
        if at == number:
            return SERVED, copy
        if any(self.is_above(entry, number) and self.is_bound(entry) for entry in copy):
            return PASSED, self.entries(home)
        return WENT_ON, copy

    def read(self, entries, number, reply):
        """Reads a home of these entries as it was at a number. Where that needs what was given up it is too old, and
        that reply is the program's, where it tells what a segment has lost that is concerned."""
        concerned = [f"too old {number} {self.books[segment].lost}" for segment in self.missing(entries, number)]
        if concerned:
            raise Refused(reply if reply in concerned else concerned[0])

    def missing(self, entries, number):
        """The segments that have given up what it takes to read a home of these entries at a number. What runs and what
        committed above it is taken back, entry by entry down to one that committed at it or before; where that is in
        doubt, or a record is gone, there is no way on."""
        for entry in entries:
            while self.is_above(entry, number):
                if not self.runs(entry) and (self.is_bound(entry) or self.is_gone(entry)):
                    yield entry.transaction[0]
                    break
                entry = entry.below

    def taken_back(self, entries, number):
        """The entries once all that is above the number is taken back."""
        return tuple(self.last_up_to(entry, number) for entry in entries)

    def last_up_to(self, entry, number):
        """What is left of an entry then."""
        while self.is_above(entry, number):
            entry = entry.below
        return entry

    def is_above(self, entry, number):
        """Whether the transaction of an entry runs, or may have committed above the number."""
        return entry is not None and (self.runs(entry) or self.told(entry).number > number)

    def is_bound(self, entry):
        """Whether no more is known of an entry's commit than a bound."""
        return not self.runs(entry) and self.told(entry).kind == BOUND

    def told(self, entry):
        return entry.told or self.look(entry.transaction)

    def is_gone(self, entry):
        book = self.books[entry.transaction[0]]
        return book.turn_of(entry.record) < book.oldest_turn
