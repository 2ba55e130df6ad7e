"""What the lines of a script are: their commands and parts, and what is wrong with one that is no command. tools/explain
and tools/shell use it. It shares nothing with the program."""

LINE_BYTES = 512
VALUE_BYTES, NAME_BYTES, COUNT = 80, 16, 10**6
SESSIONS, TABLES = 16, 16
NAME = b"abcdefghijklmnopqrstuvwxyz0123456789_"
MODES = [b"read-committed", b"read-only", b"serializable"]

# The parts of each command behind its word. A V takes all that is left of the line, and `later` is that word.
COMMANDS = {
    b"insert": ["S", "T", "K", "V"],
    b"update": ["S", "T", "K", "V"],
    b"put": ["S", "T", "K", "V"],
    b"delete": ["S", "T", "K"],
    b"lock": ["S", "T", "K"],
    b"commit": ["S", "later"],
    b"set": ["S", "M"],
    b"savepoint": ["S", "P"],
    b"rollback": ["S", "P"],
    b"cancel": ["S"],
    b"get": ["S", "T", "K"],
    b"open": ["S", "C", "T", "LO", "HI"],
    b"fetch": ["S", "C", "N"],
    b"close": ["S", "C"],
    b"sessions": [],
    b"marks": [],
    b"flush": [],
    b"sweep": ["N"],
    b"checkpoint": [],
}

# The commands that may end before their last part.
SHORTER = {b"commit", b"rollback"}

# What each command does, and what stands for its parts, for who types them.
DOES = {
    b"insert": "makes a row",
    b"update": "gives a row another value",
    b"put": "makes a row, or gives it another value where it is there",
    b"delete": "removes a row",
    b"lock": "keeps other sessions from writing a row until the transaction ends",
    b"commit": "makes the session's changes durable, and ends its transaction; with later they wait for a flush",
    b"set": "sets the mode of the session's transaction, before anything else in it",
    b"savepoint": "marks the place after the session's changes so far",
    b"rollback": "undoes the session's changes, and ends its transaction; with P those after the savepoint alone",
    b"cancel": "ends the wait of a session, whose write isn't made",
    b"get": "gives the row of a key, without a cursor",
    b"open": "opens a cursor over a range of keys",
    b"fetch": "gives the next rows of a cursor",
    b"close": "closes a cursor",
    b"sessions": "shows what each session has under way, and for whom it waits",
    b"marks": "shows how much undo each rollback segment has made and given up",
    b"flush": "makes all that waits durable, and tells the number of the last commit",
    b"sweep": "undoes changes that earlier runs left under way, so many at most, and tells how many",
    b"checkpoint": "makes all durable, also what the next run undoes, brings all blocks home, and empties the log",
}
PARTS = {
    "S": f"the session, 1 to {SESSIONS}",
    "T": f"the table, from 1, {TABLES} at most",
    "K": "the key, 0 to 2^64 - 1",
    "V": f"the value: 1 to {VALUE_BYTES} visible ASCII characters, without a space",
    "M": "the mode: " + ", ".join(mode.decode() for mode in MODES),
    "later": "this word: a flush makes the changes durable, or another commit of changes, a checkpoint or the end",
    "P": f"the name of a savepoint: 1 to {NAME_BYTES} letters a to z, digits and _",
    "C": f"the name of a cursor: 1 to {NAME_BYTES} letters a to z, digits and _",
    "LO": "the lowest key of the range",
    "HI": "the highest key of the range",
    "N": f"how many rows or changes at most, 1 to {COUNT}",
}

# The parts that are a word as it stands.
WORDS = {"later"}
NAMES = {"P": "the savepoint's name", "C": "the cursor's name"}
NUMBERS = {
    "S": ("the session", 0, 2**16 - 1),
    "T": ("the table", 0, 2**16 - 1),
    "K": ("the key", 0, 2**64 - 1),
    "LO": ("the lowest key", 0, 2**64 - 1),
    "HI": ("the highest key", 0, 2**64 - 1),
    "N": ("the count", 1, COUNT),
}


def shown(text):
    return repr(text[:40])[1:] + ("..." if len(text) > 40 else "")


def number_fault(text, what, least, most):
    if not text:
        return f"{what} is missing: parts are separated by one space"
    if not text.isdigit():
        return f"{what} is {shown(text)}: digits alone"
    if text[:1] == b"0" and text != b"0":
        return f"{what} is {shown(text)}: no leading zeros"
    if not least <= int(text) <= most:
        return f"{what} is {shown(text)}: it goes from {least} to {most}"
    return None


def name_fault(text, what):
    if not text:
        return f"{what} is missing: parts are separated by one space"
    if any(byte not in NAME for byte in text):
        return f"{what} is {shown(text)}: letters a to z, digits and _"
    if len(text) > NAME_BYTES:
        return f"{what} has {len(text)} bytes: {NAME_BYTES} at most"
    return None


def mode_fault(text):
    if text not in MODES:
        return f"the mode is {shown(text)}: it is one of {', '.join(mode.decode() for mode in MODES)}"
    return None


def value_fault(text):
    if not text:
        return "the value is missing"
    if b" " in text:
        return f"the value is {shown(text)}: no space in it or after it"
    if any(not 0x21 <= byte <= 0x7E for byte in text):
        return f"the value is {shown(text)}: visible ASCII bytes alone, 0x21 to 0x7E"
    return None


def word_part_fault(part, text):
    return None if text == part.encode() else f"its last part is {shown(text)}: it is '{part}', or isn't there"


def part_fault(part, text):
    if part in NAMES:
        return name_fault(text, NAMES[part])
    if part in NUMBERS:
        return number_fault(text, *NUMBERS[part])
    if part in WORDS:
        return word_part_fault(part, text)
    return mode_fault(text) if part == "M" else value_fault(text)


def forms(word):
    """The forms of a command."""
    whole = [word.decode(), *COMMANDS[word]]
    return [" ".join(form) for form in ([whole[:-1], whole] if word in SHORTER else [whole])]


def parts_of(line):
    """The word of a line, and the parts behind it; those of a value aren't split."""
    word, *rest = line.split(b" ", 1)
    wanted = COMMANDS.get(word, [])
    return word, wanted, rest[0].split(b" ", len(wanted) - 1) if rest else []


def is_skipped(line):
    """Whether a line without a fault is a comment or empty, and so has no reply."""
    return line in (b"", b"\r") or line.startswith(b"#")


def session_of(line):
    """The session of a line, as it is written there; None where the line names none."""
    _, wanted, parts = parts_of(line)
    return dict(zip(wanted, parts)).get("S")


def with_session(line, session):
    """A line as the program takes it. One that is a command stays as it is; else the session's number is put after its
    word, where that makes it a command."""
    whole = session_put(line, session)
    return whole if fault_of(line) and not fault_of(whole) else line


def session_put(line, session):
    """A line with the session's number put after its word, where that is of a command which names a session."""
    word, *rest = line.split(b" ", 1)
    if "S" not in COMMANDS.get(word, []):
        return line
    return b" ".join([word, b"%d" % session, *rest])


def typed_fault(line, session):
    """What is wrong with a line in which the session may be left out. One that is short of parts is taken to do so, and one
    whose value would have a space then."""
    _, wanted, parts = parts_of(line)
    whole = session_put(line, session)
    left_out = len(parts) < len(wanted) or has_spaced_value(whole) and not has_spaced_value(line)
    return fault_of(whole if left_out else line)


def has_spaced_value(line):
    """Whether a line is a command but for a space in its value."""
    word, wanted, parts = parts_of(line)
    spaced = wanted[-1:] == ["V"] and len(parts) == len(wanted) and b" " in parts[-1]
    return spaced and not fault_of(b" ".join([word, *parts[:-1], b"v"]))


def fault_of(line):
    """What is wrong with a line, in words; None where it is a command, a comment or empty."""
    if len(line) > LINE_BYTES:
        return f"it has {len(line)} bytes: {LINE_BYTES} at most, a comment too"
    line = line[:-1] if line.endswith(b"\r") else line
    if not line or line.startswith(b"#"):
        return None
    word, wanted, parts = parts_of(line)
    if word not in COMMANDS:
        return word_fault(word)
    form = " or ".join(f"'{form}'" for form in forms(word))
    if len(parts) > len(wanted):
        return f"there is something after its word: the form is {form}"
    for part, text in zip(wanted, parts):
        if part == wanted[-1] and part != "V" and b" " in text:
            return f"there is something after its last part: the form is {form}"
        fault = part_fault(part, text)
        if fault:
            return f"{fault}; the form is {form}"
    missing = (wanted[:-1] if word in SHORTER else wanted)[len(parts) :]
    return f"{', '.join(missing)} missing: the form is {form}" if missing else None


def word_fault(word):
    names = ", ".join(name.decode() for name in COMMANDS)
    if not word:
        return "it begins with a space"
    if word.strip().lower() in COMMANDS:
        return f"{shown(word)}: commands are in small letters, and one space follows"
    return f"{shown(word)} is no command: {names}"


def refusal_of(line):
    """Why a command is refused whatever the file has; None where that depends."""
    line = line[:-1] if line.endswith(b"\r") else line
    _, wanted, parts = parts_of(line)
    given = dict(zip(wanted, parts))
    if not 1 <= int(given.get("S", b"1")) <= SESSIONS:
        return f"no session: sessions are numbered from 1 to {SESSIONS}"
    if not 1 <= int(given.get("T", b"1")) <= TABLES:
        return f"no table: tables are numbered from 1, and a file has {TABLES} at most"
    if len(given.get("V", b"")) > VALUE_BYTES:
        return f"value too long: it has {len(given['V'])} bytes, and {VALUE_BYTES} at most are taken"
    return None
