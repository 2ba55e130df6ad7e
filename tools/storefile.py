"""Reads a file of the store by docs/FORMAT.md, and never writes. tools/inspect, tools/copy and the tests use it.

It is a second reading of the format: nothing of it is shared with the program."""
import contextlib
import os
import struct

UNIT = 2048
VERSION = 1
MAGIC = b"RBS7FILE"
RANGES = {"tables": (1, 16), "blocks": (1, 4096), "segments": (1, 16), "log": (64, 4096)}

# A block of rows: its slot entries, and the cells behind them.
ENTRIES, FIRST_ENTRY, ENTRY_BYTES = 8, 32, 48
CELLS, FIRST_CELL, CELL_BYTES, VALUE_BYTES = 16, 416, 92, 80
EMPTY, ROW, STUB = 0, 1, 2
FREE, OPEN, EXACT, BOUND = 0, 1, 2, 3

# A segment: its header, with table slots and extents, and its undo blocks.
SEGMENT_BLOCKS, TABLE_SLOTS, FIRST_SLOT, SLOT_BYTES = 33, 16, 32, 64
EXTENTS, FIRST_EXTENT, EXTENT_BYTES, EXTENT_BLOCKS, EXTENT_RECORDS = 8, 1056, 32, 4, 40
HEAD, WRITES, LOST = 1312, 1320, 1328
RECORDS, FIRST_RECORD, RECORD_BYTES = 10, 32, 192
UNUSED, ACTIVE, COMMITTED, ENDED = 0, 1, 2, 3
STATES = ["never taken", "active", "committed", "ended"]
KINDS = {1: "put", 2: "gone", 3: "held"}

PATCHES, GROUP_BYTES, BLOCK_HEAD = 40, 2000, 32

# The units of a file: the identity, two control copies and the chooser, then the log slots, the twin area with a header
# and its images, and the homes of the blocks. A block's head has its log number, its kind and its own number.
FIRST_COPY_UNIT, CHOOSER_UNIT, FIRST_SLOT_UNIT, TWIN_IMAGES, FIRST_NAME = 1, 3, 4, 8, 8
COPY, LAST_HEAD = struct.Struct(">IxxxxQ"), 2**61
HEAD_OF = struct.Struct(">QBxxxI")
ZEROS = bytes(UNIT - BLOCK_HEAD)


class NotAStore(Exception):
    """What in the file is not as docs/FORMAT.md says."""


def bytes_of(file, most=-1):
    """The bytes of a regular file, or the first ones of them."""
    if os.path.exists(file) and not os.path.isfile(file):
        raise NotAStore("it is no regular file")
    with open(file, "rb") as opened:
        return opened.read(most)


class Identity:
    """How many tables, blocks a table, segments and log slots the file has."""

    def __init__(self, tables, blocks, segments, log):
        self.tables, self.blocks, self.segments, self.log = tables, blocks, segments, log

    @classmethod
    def of(cls, first_unit):
        """The identity that the first unit of a file names."""
        if len(first_unit) < UNIT or first_unit[:8] != MAGIC:
            raise NotAStore("it doesn't begin with the identity of a store")
        version, tables, segments, blocks, log = struct.unpack_from(">IHHII", first_unit, 8)
        if version != VERSION:
            raise NotAStore(f"it is of form {version}, and this tool reads form {VERSION}")
        identity = cls(tables, blocks, segments, log)
        for name, (least, most) in RANGES.items():
            if not least <= getattr(identity, name) <= most:
                raise NotAStore(f"its identity has {name}={getattr(identity, name)}, which isn't {least} to {most}")
        return identity

    @property
    def table_blocks(self):
        """How many blocks of rows there are. The header of the first segment is the one behind them."""
        return self.tables * self.blocks

    @property
    def all_blocks(self):
        return self.table_blocks + SEGMENT_BLOCKS * self.segments

    def header(self, segment):
        """The number of the block that is the header of a segment."""
        return self.table_blocks + SEGMENT_BLOCKS * segment

    def kind(self, block):
        """What a block is: 1 of rows, 2 a header, 3 of undo records."""
        if block < self.table_blocks:
            return 1
        return 3 if (block - self.table_blocks) % SEGMENT_BLOCKS else 2

    @property
    def bytes(self):
        return self.home_at(self.all_blocks)

    def slot_at(self, slot):
        """Where a log slot begins in the file."""
        return (FIRST_SLOT_UNIT + slot) * UNIT

    def copy_at(self, copy):
        """Where a control copy begins."""
        return (FIRST_COPY_UNIT + copy) * UNIT

    @property
    def chooser_at(self):
        """Where the byte stands that chooses a control copy."""
        return CHOOSER_UNIT * UNIT

    def twin_at(self, part):
        """Where a part of the twin area begins: 0 is its header, 1 to 8 are its images."""
        return self.slot_at(self.log + part)

    def home_at(self, block):
        """Where the home of a block begins."""
        return self.twin_at(1 + TWIN_IMAGES + block)

    def name(self, block):
        """What a block is, in words."""
        if block < self.table_blocks:
            table, home = divmod(block, self.blocks)
            return f"table {table + 1} block {home}"
        segment, place = divmod(block - self.table_blocks, SEGMENT_BLOCKS)
        return f"segment {segment} undo block {place - 1}" if place else f"segment {segment}"

    def words(self):
        return [f"{name}={getattr(self, name)}" for name in RANGES]


class Patch:
    """Some bytes that take the place of those of a block."""

    def __init__(self, block, offset, bytes_):
        self.block, self.offset, self.bytes = block, offset, bytes_

    def part(self, first, size, count):
        """Which of some parts of a block it is the whole of; None where it isn't that of one."""
        at, within = divmod(self.offset - first, size)
        return at if within == 0 and 0 <= at < count and len(self.bytes) == size else None

    def slot(self, identity):
        """The table slot that it writes and its place; None where it writes none."""
        at = self.part(FIRST_SLOT, SLOT_BYTES, TABLE_SLOTS)
        return None if identity.kind(self.block) != 2 or at is None else (at, Slot(self.bytes))

    def meaning(self, identity):
        """What the patch does, in words, where it is one that the program writes."""
        words = [self.of_rows, self.of_header, self.of_undo][identity.kind(self.block) - 1](identity)
        return words or f"block {self.block} offset {self.offset}: {len(self.bytes)} bytes"

    def of_rows(self, identity):
        where, cell = identity.name(self.block), self.part(FIRST_CELL, CELL_BYTES, CELLS)
        if cell is not None:
            return f"{where} cell {cell}: {Cell(self.bytes)}"
        entry, (at, within) = self.part(FIRST_ENTRY, ENTRY_BYTES, ENTRIES), divmod(self.offset - FIRST_CELL, CELL_BYTES)
        if entry is not None:
            return f"{where} entry {entry}: {Entry(self.bytes)}"
        return f"{where} cell {at}: lock {self.bytes[0]}" if (within, len(self.bytes)) == (1, 1) else None

    def of_header(self, identity):
        where, slot = identity.name(self.block), self.slot(identity)
        if slot:
            return f"{where} slot {slot[0]}: {slot[1]}"
        extent, within = divmod(self.offset - FIRST_EXTENT, EXTENT_BYTES)
        if (within, len(self.bytes)) == (0, 16) and extent < EXTENTS:
            return f"{where} extent {extent}: {Extent(self.bytes)}"
        if (self.offset, len(self.bytes)) == (HEAD, 4):
            return "{} head: extent {}, {} records".format(where, *struct.unpack(">HH", self.bytes))
        name = {WRITES: "writes", LOST: "lost"}.get(self.offset)
        return f"{where} {name}: {int.from_bytes(self.bytes, 'big')}" if name and len(self.bytes) == 8 else None

    def of_undo(self, identity):
        record = self.part(FIRST_RECORD, RECORD_BYTES, RECORDS)
        return None if record is None else f"{identity.name(self.block)} record {record}: {Undo(self.bytes)}"


class Address:
    """Where an undo record is: its block, its place in it, and the turn of its extent; turn 0 is that of none."""

    def __init__(self, bytes_):
        self.block, self.record, self.turn = struct.unpack_from(">IHxxQ", bytes_)

    def __str__(self):
        return f"block {self.block} record {self.record} turn {self.turn}" if self.turn else "none"


class Entry:
    """What a block of rows says of a transaction that changed it."""

    def __init__(self, bytes_):
        self.kind, self.segment, self.slot, self.wrap, self.number = struct.unpack_from(">BxxxHHQQ", bytes_)
        self.newest, (self.length,) = Address(bytes_[24:40]), struct.unpack_from(">I", bytes_, 40)

    @property
    def transaction(self):
        return self.segment, self.slot, self.wrap

    def __str__(self):
        if self.kind == FREE:
            return "free"
        kind = {OPEN: "open", EXACT: f"exactly {self.number}", BOUND: f"at most {self.number}"}.get(self.kind, "?")
        return (f"{kind}, segment {self.segment} slot {self.slot} wrap {self.wrap}, chain of {self.length} from "
                f"{self.newest}")


class Cell:
    """A place for one row of a block."""

    def __init__(self, bytes_):
        self.state, self.lock, length, self.key = struct.unpack_from(">BBHQ", bytes_)
        self.length, self.value = length, bytes_[12 : 12 + min(length, VALUE_BYTES)]

    def __str__(self):
        lock = f", locked by entry {self.lock - 1}" if self.lock else ""
        if self.state == ROW:
            return f"row {self.key} {self.value.decode(errors='replace')}{lock}"
        return f"deleted {self.key}{lock}" if self.state == STUB else "empty"


class Slot:
    """What a segment says of the transaction that took one of its table slots last."""

    def __init__(self, bytes_):
        self.state, self.touched, self.live, self.wrap = struct.unpack_from(">BBxxIQ", bytes_)
        self.newest, self.before = struct.unpack_from(">QQ", bytes_, 16)
        self.newest_at = Address(bytes_[32:48])
        self.first, self.start = struct.unpack_from(">QQ", bytes_, 48)

    def __str__(self):
        state = STATES[self.state] if self.state < len(STATES) else f"state {self.state}"
        words = f"{state}, wrap {self.wrap}, newest {self.newest}, before {self.before}"
        if self.state != ACTIVE:
            return words
        return f"{words}, {self.live} live from {self.newest_at}, start {self.start}"


class Extent:
    """The turn of an extent, 0 outside of the ring, and the greatest number of a commit with a record in it."""

    def __init__(self, bytes_):
        self.turn, self.newest = struct.unpack_from(">QQ", bytes_)

    def __str__(self):
        return f"turn {self.turn}, newest {self.newest}"


class Undo:
    """A change of a row, and what stood in its block before."""

    def __init__(self, bytes_):
        self.wrap, self.key, self.number, self.home, self.table = struct.unpack_from(">QQIIH", bytes_)
        self.slot, self.kind, self.entry, self.cell = struct.unpack_from(">BBBB", bytes_, 26)
        self.previous = Address(bytes_[32:48])
        self.entry_before, self.cell_before = bytes(bytes_[48:96]), bytes(bytes_[96:188])

    def __str__(self):
        kind = KINDS.get(self.kind, "?")
        return (f"slot {self.slot} wrap {self.wrap} change {self.number}, {kind} table {self.table} "
                f"key {self.key}; before: {Cell(self.cell_before)}")


class Segment:
    """A rollback segment: its header, and the records of its undo blocks."""

    def __init__(self, store, number):
        self.store, self.number = store, number
        self.at = store.identity.header(number)
        header = store.block(self.at)
        self.slots = [Slot(header[at : at + SLOT_BYTES]) for at in places(FIRST_SLOT, SLOT_BYTES, TABLE_SLOTS)]
        self.extents = [Extent(header[at : at + 16]) for at in places(FIRST_EXTENT, EXTENT_BYTES, EXTENTS)]
        self.head, self.records = struct.unpack_from(">HH", header, HEAD)
        self.writes, self.lost = struct.unpack_from(">QQ", header, WRITES)

    def ring(self):
        """The extents that are in use, the oldest turn first."""
        return sorted((e for e in range(EXTENTS) if self.extents[e].turn), key=lambda e: self.extents[e].turn)

    def active(self):
        return [at for at, slot in enumerate(self.slots) if slot.state == ACTIVE]

    def has(self, address):
        """Whether an address is of a record that the segment has."""
        extent, block = divmod(address.block - self.at - 1, EXTENT_BLOCKS)
        if not (address.turn and 0 <= extent < EXTENTS and address.record < RECORDS):
            return False
        made = self.records if extent == self.head else EXTENT_RECORDS
        return self.extents[extent].turn == address.turn and RECORDS * block + address.record < made

    def record(self, address):
        """The undo record of an address that the segment has."""
        at = FIRST_RECORD + RECORD_BYTES * address.record
        return Undo(self.store.block(address.block)[at : at + RECORD_BYTES])

    def live(self, at):
        """The live records of a slot, newest first, as far as their addresses lead; no more than the slot says."""
        found, address = [], self.slots[at].newest_at
        while len(found) < self.slots[at].live and self.has(address):
            found.append(self.record(address))
            address = found[-1].previous
        return found

    def faults(self, commit_number):
        """What is wrong with it, in words."""
        turns = [extent.turn for extent in self.extents]
        kept = [turn for turn in turns if turn]
        in_front = 2 <= len(kept) and turns[: len(kept)] == kept
        if not in_front or sorted(kept) != list(range(min(kept), min(kept) + len(kept))):
            yield f"the turns of its extents are {turns}"
        elif self.head >= len(kept) or turns[self.head] != max(kept) or self.records > EXTENT_RECORDS:
            yield f"its head is extent {self.head} with {self.records} records"
        if max(self.lost, *(extent.newest for extent in self.extents)) > commit_number:
            yield "a number that it lost, or that of an extent, is above the file's commit number"
        for at, slot in enumerate(self.slots):
            if slot.state > ENDED or slot.before > slot.newest:
                yield f"slot {at}: {slot}"
        for at in self.active():
            yield from self.slot_faults(at, commit_number)

    def slot_faults(self, at, commit_number):
        """What is wrong with the live records of an Active slot."""
        slot, live = self.slots[at], self.live(at)
        identity = self.store.identity
        if slot.first not in [extent.turn for extent in self.extents if extent.turn] or slot.start > self.writes:
            yield f"slot {at}: it began in turn {slot.first} behind {slot.start} records"
        last = live[-1].previous if live else slot.newest_at
        if len(live) != slot.live or last.turn:
            yield f"slot {at}: {len(live)} of {slot.live} live records, which lead on to {last}"
        for number, undo in zip(range(slot.live, 0, -1), live):
            own = (undo.slot, undo.wrap, undo.number) == (at, slot.wrap, number)
            if not (own and undo.home < identity.table_blocks and undo.entry < ENTRIES and undo.cell < CELLS):
                yield f"slot {at}: live record {number} is {undo}"
            elif not self.store.could_stand(undo, commit_number):
                entry = Entry(undo.entry_before)
                yield f"slot {at}: live record {number} keeps what can't stand in its block: entry {entry}; {undo}"


def places(first, size, count):
    """The offsets of some parts of a block, one behind the other."""
    return range(first, first + size * count, size)


class Head:
    """Where the log of a file begins, as the chosen control copy says it: a slot, and the number of the group that stands
    there or will. The log goes round: behind the last slot of the file comes slot 0."""

    def __init__(self, content, identity):
        self.content, self.identity = content, identity
        self.chooser = content[identity.chooser_at]
        self.copy = self.chooser % 2
        self.slot, self.number = self.in_copy(self.copy)
        if self.slot >= identity.log:
            raise NotAStore(f"control copy {self.copy}, which is chosen, has the head of the log in slot {self.slot}, of "
                            f"{identity.log} that there are")
        if not 1 <= self.number <= LAST_HEAD:
            raise NotAStore(f"control copy {self.copy}, which is chosen, has the head of the log at number {self.number}, "
                            f"and a head has 1 to {LAST_HEAD}")

    def in_copy(self, copy):
        """The slot and the number that a control copy has, whatever they are."""
        return COPY.unpack_from(self.content, self.identity.copy_at(copy))

    def slot_of(self, place):
        """The slot of a place of the log: place 0 is that of the head."""
        return (self.slot + place) % self.identity.log

    def gate(self, place):
        """The gate of the slot of a place: open exactly where it is 1."""
        return self.content[self.identity.slot_at(self.slot_of(place))]

    def group_at(self, place):
        """The group of a place; None where its gate isn't open, or where it is the last place, which stays free."""
        if place == self.identity.log - 1 or self.gate(place) != 1:
            return None
        return self.group_in(place)

    def group_in(self, place):
        """The group of a place, whatever its gate is."""
        slot, wanted = self.slot_of(place), self.number + place
        at = self.identity.slot_at(slot)
        length, number = struct.unpack_from(">xxHxxxxQ", self.content, at)
        if number != wanted:
            raise NotAStore(f"log slot {slot} is open with the log number {number}, and {wanted} belongs there")
        if not 11 <= length <= GROUP_BYTES:
            raise NotAStore(f"log slot {slot} has a group of {length} bytes, and a group has 11 to {GROUP_BYTES}")
        try:
            return Group(number, slot, patches_of(self.content[at + 16 : at + 16 + length], self.identity))
        except (NotAStore, struct.error) as why:
            raise NotAStore(f"log slot {slot} is open without a whole group: {why}")

    def groups_from(self, place):
        """The whole groups that stand from a place on with the numbers of their places, whatever their gates are. Those of
        earlier laps have lower numbers."""
        found = []
        with contextlib.suppress(NotAStore):
            while place + len(found) < self.identity.log - 1:
                found.append(self.group_in(place + len(found)))
        return found

    def groups(self):
        """The groups of the log, in order."""
        found = []
        while (group := self.group_at(len(found))) is not None:
            found.append(group)
        return found


class Group:
    """A group of the log: its number, the slot where it stands, and its patches."""

    def __init__(self, number, slot, patches):
        self.number, self.slot, self.patches = number, slot, patches


def patches_of(group, identity):
    """The patches that the bytes of a group spell."""
    (count,) = struct.unpack_from(">H", group)
    patches, at = [], 2
    for _ in range(count):
        block, offset, length = struct.unpack_from(">IHH", group, at)
        patches.append(Patch(block, offset, group[at + 8 : at + 8 + length]))
        at += 8 + length
        if block >= identity.all_blocks or offset < BLOCK_HEAD or length < 1 or offset + length > UNIT:
            raise NotAStore(f"a patch of {length} bytes at offset {offset} of block {block}")
    if not 1 <= count <= PATCHES or at != len(group):
        raise NotAStore(f"{count} patches, which take {at} of {len(group)} bytes")
    return patches


class LogEnd:
    """The slot where the log ends: its gate, and the whole groups with the next numbers that stand from it on, or from
    the slot after it on. A run doesn't read them."""

    def __init__(self, head, place):
        self.slot, self.gate = head.slot_of(place), head.gate(place)
        self.at = head.identity.slot_at(self.slot)
        self.unread = head.groups_from(place) or head.groups_from(place + 1)


class Twin:
    """The twin area: its gate, and where that is open the numbers of the blocks that its images are of, in order."""

    def __init__(self, content, identity):
        at = identity.twin_at(0)
        self.gate, count = content[at], content[at + 1]
        self.batch = []
        if not self.is_open:
            return
        if not 1 <= count <= TWIN_IMAGES:
            raise NotAStore(f"the gate of the twin area is open with a count of {count}, and a batch has 1 to "
                            f"{TWIN_IMAGES} images")
        self.batch = list(struct.unpack_from(f">{count}I", content, at + FIRST_NAME))
        if max(self.batch) >= identity.all_blocks or len(set(self.batch)) < count:
            raise NotAStore(f"the gate of the twin area is open with images of the blocks {self.batch}, of "
                            f"{identity.all_blocks} that there are")

    @property
    def is_open(self):
        return self.gate == 1


class Version:
    """Where the newest version of a block is: its number, the image of the twin area that the file keeps of it (None
    where it keeps the home), the log number of what it keeps, and the groups of the log that aren't in that."""

    def __init__(self, block, image, log_number, groups):
        self.block, self.image, self.log_number, self.groups = block, image, log_number, groups

    @property
    def is_home(self):
        """Whether it stands whole at home."""
        return self.image is None and not self.groups

    def __str__(self):
        where = "at home" if self.image is None else f"in image {self.image} of the twin area"
        if not self.groups:
            return f"whole {where}"
        return f"{where} as of group {self.log_number}, and then by {listed('group', self.groups)} of the log"


def listed(one, numbers):
    """Numbers in words, of many of them the first and the last."""
    if len(numbers) == 1:
        return f"{one} {numbers[0]}"
    few = numbers if len(numbers) <= 8 else [*numbers[:3], "..", *numbers[-1:]]
    return f"{one}s {', '.join(map(str, few))}"


class Store:
    """What a file says: its identity, the head of its log and the groups from there on, its twin area, and the blocks as
    they are after these."""

    def __init__(self, content):
        self.content, self.identity = content, Identity.of(content[:UNIT])
        identity = self.identity
        if len(content) != identity.bytes:
            raise NotAStore(f"it has {len(content):,} bytes, and a file with {' '.join(identity.words())} has "
                            f"{identity.bytes:,}")
        self.head = Head(content, identity)
        self.groups = self.head.groups()
        self.log_end = LogEnd(self.head, len(self.groups))
        self.twin = Twin(content, identity)
        # Of each block the patches of it, with the numbers of their groups; and the blocks that were asked for.
        self.patches = {}
        for group in self.groups:
            for patch in group.patches:
                self.patches.setdefault(patch.block, []).append((group.number, patch))
        self.blocks = {}
        self.segments = [Segment(self, number) for number in range(identity.segments)]

    @classmethod
    def read(cls, file):
        return cls(bytes_of(file))

    @property
    def commits(self):
        """How many groups of the log are commits: they alone write a table slot as committed."""
        return sum(map(self.is_commit, self.groups))

    def is_commit(self, group):
        return any(slot[1].state == COMMITTED for slot in (patch.slot(self.identity) for patch in group.patches) if slot)

    def is_cleaning(self, group):
        """Whether a group is one by which a reader cleaned a block: it alone changes nothing of a segment."""
        return all(self.identity.kind(patch.block) == 1 for patch in group.patches)

    @property
    def cleanings(self):
        return sum(map(self.is_cleaning, self.groups))

    @property
    def last(self):
        """The number of the last group that was made: the one in front of the head's, where the log has none."""
        return self.head.number - 1 + len(self.groups)

    @property
    def free(self):
        """How many slots have no group of the log. One of them stays so."""
        return self.identity.log - len(self.groups)

    @property
    def owed(self):
        """How many groups put back what is under way: one for each live change, and one for each slot."""
        return sum(segment.slots[at].live + 1 for segment in self.segments for at in segment.active())

    def block(self, number):
        """The bytes of a block, with the groups of the log rolled forward."""
        if number not in self.blocks:
            self.blocks[number] = self.rolled(number)
        return self.blocks[number]

    def rolled(self, number, last=2**64 - 1):
        """What the file keeps of a block, with the groups of the log that aren't in it; or only the first of these."""
        at = self.kept_at(number)
        block = bytearray(self.content[at : at + UNIT])
        log_number, _, _ = HEAD_OF.unpack_from(block)
        for group, patch in self.patches.get(number, []):
            if log_number < group <= last:
                write(block, patch.offset, patch.bytes)
                write(block, 0, struct.pack(">Q", group))
        return block

    def kept_at(self, number):
        """Where in the file what it keeps of a block begins: an image behind an open gate of the twin area, or else its
        home."""
        if number in self.twin.batch:
            return self.identity.twin_at(1 + self.twin.batch.index(number))
        return self.identity.home_at(number)

    def version(self, number):
        """Where the newest version of a block is."""
        log_number, _, _ = HEAD_OF.unpack_from(self.content, self.kept_at(number))
        groups = sorted({group for group, _ in self.patches.get(number, []) if group > log_number})
        image = self.twin.batch.index(number) if number in self.twin.batch else None
        return Version(number, image, log_number, groups)

    def versions(self):
        """Where the newest version of each block is that doesn't stand whole at home."""
        found = (self.version(number) for number in sorted({*self.twin.batch, *self.patches}))
        return [version for version in found if not version.is_home]

    def is_written(self, number):
        """Whether a block of rows was written: a new one has no log number, and zeros behind its head."""
        at = self.kept_at(number)
        log_number, _, _ = HEAD_OF.unpack_from(self.content, at)
        return log_number > 0 or number in self.patches or self.content[at + BLOCK_HEAD : at + UNIT] != ZEROS

    def written(self):
        """The blocks of rows that were written, by their numbers."""
        return {number: self.block(number) for number in range(self.identity.table_blocks) if self.is_written(number)}

    def new_block(self, number):
        """The bytes of a block of a new file."""
        block, kind = bytearray(UNIT), self.identity.kind(number)
        HEAD_OF.pack_into(block, 0, 0, kind, number)
        if kind == 2:
            # A new segment has turn 2 in extent 0, the head, and turn 1 in extent 1.
            for extent, turn in enumerate([2, 1]):
                struct.pack_into(">Q", block, FIRST_EXTENT + EXTENT_BYTES * extent, turn)
        return block

    @property
    def commit_number(self):
        """The greatest commit number that a table slot of a segment has."""
        return max(slot.newest for segment in self.segments for slot in segment.slots)

    def put_back(self):
        """The blocks of rows as they are once what is under way is put back, each transaction's newest change first.
        This changes a copy alone."""
        blocks = {number: bytearray(block) for number, block in self.written().items()}
        for segment in self.segments:
            for at in segment.active():
                for undo in segment.live(at):
                    block = blocks.setdefault(undo.home, bytearray(self.block(undo.home)))
                    write(block, FIRST_ENTRY + ENTRY_BYTES * undo.entry, undo.entry_before)
                    write(block, FIRST_CELL + CELL_BYTES * undo.cell, undo.cell_before)
        return blocks

    def homes(self, blocks=None):
        """Each block of rows that was written: its table, its number in the table, its entries and its cells. They are
        those once what is under way is put back, where no others are named."""
        blocks = self.put_back() if blocks is None else blocks
        for number in sorted(blocks):
            table, home = divmod(number, self.identity.blocks)
            content = bytes(blocks[number])
            entries = [Entry(content[at : at + ENTRY_BYTES]) for at in places(FIRST_ENTRY, ENTRY_BYTES, ENTRIES)]
            cells = [Cell(content[at : at + CELL_BYTES]) for at in places(FIRST_CELL, CELL_BYTES, CELLS)]
            yield table + 1, home, entries, cells

    def rows(self):
        """The rows of the last commit as table, key and value, in the order in which a cursor gives them."""
        found = []
        for table, _, _, cells in self.homes():
            found += [(table, cell.key, cell.value) for cell in sorted(cells, key=lambda c: c.key) if cell.state == ROW]
        return found

    def marks(self):
        """How many records each segment made, and what it lost."""
        return [(segment.writes, segment.lost) for segment in self.segments]

    def faults(self):
        """What an opening refuses the blocks for, in words (docs/FORMAT.md, Opening)."""
        yield from self.head_faults()
        number = self.commit_number
        for segment in self.segments:
            yield from (f"segment {segment.number}: {fault}" for fault in segment.faults(number))
        for table, home, entries, cells in self.homes(self.written()):
            where = f"table {table} block {home}"
            yield from (f"{where} {fault}" for fault in self.entry_faults(entries, number))
            yield from (f"{where} {fault}" for fault in self.cell_faults(home, entries, cells))

    def heads(self):
        """The head of each block that the file keeps: its log number, its kind and its own number."""
        return (HEAD_OF.unpack_from(self.content, self.kept_at(number)) for number in range(self.identity.all_blocks))

    @property
    def newest(self):
        """The greatest log number that the head of a block has."""
        return max(log_number for log_number, _, _ in self.heads())

    def head_faults(self):
        """What is wrong with the heads of the blocks, in words."""
        last, later = self.last, []
        for number, (log_number, kind, told) in enumerate(self.heads()):
            name, wanted = self.identity.name(number), self.identity.kind(number)
            if (kind, told) != (wanted, number):
                yield f"{name}: its head has kind {kind} and number {told}, in place of {wanted} and {number}"
            if log_number > last:
                later.append(f"{name}: it is as of group {log_number}, and the last one is group {last}")
        yield from later[:1]
        if later[1:]:
            yield f"of such blocks there are {len(later)}"

    def is_entry(self, entry, commit_number):
        """Whether a slot entry is free, or names what there is by numbers that were given."""
        if entry.kind == FREE:
            return True
        if entry.kind > BOUND or entry.segment >= self.identity.segments or entry.slot >= TABLE_SLOTS:
            return False
        few = 1 <= entry.length <= EXTENTS * EXTENT_RECORDS and entry.number <= commit_number
        return few and 1 <= entry.wrap <= self.segments[entry.segment].slots[entry.slot].wrap

    def could_stand(self, undo, commit_number):
        """Whether the entry and the cell that a live record keeps could stand in its block."""
        entry, cell = Entry(undo.entry_before), Cell(undo.cell_before)
        if not self.is_entry(entry, commit_number) or cell.length > VALUE_BYTES or cell.state > STUB:
            return False
        return not cell.lock if cell.state == EMPTY else (cell.key - undo.home) % self.identity.blocks == 0

    def entry_faults(self, entries, commit_number):
        for at, entry in enumerate(entries):
            if not self.is_entry(entry, commit_number):
                yield f"entry {at}: {entry}"

    def cell_faults(self, home, entries, cells):
        keys = [cell.key for cell in cells if cell.state == ROW or cell.lock]
        if len(set(keys)) != len(keys):
            yield "has a key in two cells"
        for at, cell in enumerate(cells):
            if cell.state > STUB or cell.length > VALUE_BYTES or cell.lock > ENTRIES:
                yield f"cell {at}: state {cell.state}, length {cell.length}, lock {cell.lock}"
            elif cell.lock and (cell.state == EMPTY or entries[cell.lock - 1].kind == FREE):
                yield f"cell {at}: it is {cell}, and locked by entry {cell.lock - 1}"
            elif cell.state != EMPTY and cell.key % self.identity.blocks != home:
                yield f"cell {at}: key {cell.key} belongs to another block"


def write(block, at, bytes_):
    block[at : at + len(bytes_)] = bytes_
