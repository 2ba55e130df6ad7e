"""The cases of docs/ISOLATION.md: its dialogues, and what the program answers in their place. tools/cases and tests/tools
use it."""
import re
import textwrap

import program as rbsh
from program import TOP

PAGE = TOP / "docs" / "ISOLATION.md"

# The sessions that a mode of all sessions is set in.
WRITERS = (2, 3)


class Dialogue:
    """A case in one of its modes: lines, each with the replies that the page has under it."""

    def __init__(self, mode, steps):
        self.mode, self.steps = mode, steps

    @property
    def lines(self):
        return [line for line, _ in self.steps]

    @classmethod
    def of(cls, mode, rows):
        """The dialogue of a column: its rows are a line, or nothing where another reply follows, and a reply. A '-' stands
        where a line isn't in it, and such a line has no reply."""
        steps = []
        if mode.startswith("serializable"):
            steps += [(f"set {session} serializable", [f"{session} ok"]) for session in WRITERS]
        for line, reply in rows:
            if line and reply != "-":
                steps.append((line, []))
            if reply not in ("", "-"):
                steps[-1][1].append(reply)
        return cls(mode, steps)


class Case:
    """A case: its heading, what the literature calls it, and its dialogues."""

    def __init__(self, name, labels, dialogues):
        self.name, self.labels, self.dialogues = name, labels, dialogues

    @property
    def title(self):
        return f"{self.name} ({', '.join(self.labels)})" if self.labels else self.name

    @classmethod
    def of(cls, heading, table):
        """The case of a heading and of the indented lines under it."""
        name, labels = re.fullmatch(r"(.+?)(?: \((.+)\))?", heading).groups()
        head, *rows = table
        _, first, second = (found.start() for found in re.finditer(r"\S+( \S+)*", head))
        columns = [(first, second), (second, None)]
        return cls(name, labels.split(", ") if labels else [], [
            Dialogue.of(head[start:end].strip(), [(row[:first].strip(), row[start:end].strip()) for row in rows if row])
            for start, end in columns])


def indented(text):
    """The lines of the page that are indented, without what they are indented by."""
    return textwrap.dedent("\n".join(line for line in text.splitlines() if line.startswith("    "))).splitlines()


def cases():
    """The lines by which each case begins, and the cases in the order of the page."""
    text = PAGE.read_text().split("\n## The cases, line by line\n")[1].split("\n## ")[0]
    begin, *parts = re.split(r"(?m)^### (.+)$", text)
    return indented(begin), [Case.of(heading, indented(part)) for heading, part in zip(parts[::2], parts[1::2])]


def replies(program, file, lines):
    """The replies to each of the lines, in one run over the file. After each there is a bad line, which ends them; a line
    has at least one reply."""
    script = "".join(f"{line}\n?\n" for line in lines).encode()
    found, part = [], []
    for reply in rbsh.run([program, *rbsh.run_words(file)], script).wants(0).out.decode().splitlines():
        if part and reply == "bad line":
            found.append(part)
            part = []
        else:
            part.append(reply)
    return found


def played(program, file, begin, dialogue):
    """What the program answers to each line of a dialogue, over a file that isn't there yet."""
    rbsh.run([program, *rbsh.format_words(file)]).wants(0)
    replies(program, file, begin)
    return replies(program, file, dialogue.lines)
