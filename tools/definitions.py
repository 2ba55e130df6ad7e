"""The definitions of the sources: those of crates/*/specs, and the types and functions that crates/*/src declare, each with the
comment above it. tools/tell prints them; it and tools/attacks know the crates from here."""
import pathlib
import re

TOP = pathlib.Path(__file__).resolve().parent.parent
CRATES = TOP / "crates"

# The first line of a definition, or of a lemma beside it, and of what a source declares.
SPEC_HEAD = re.compile(r"( *)(?:(?:abbrev|unfoldable)( pub)?|(pub )?(?:record|data)|(?<!.)(pub)(?= [\w']+ :)) ([\w']+)")
CODE_HEAD = re.compile(r"( *)(pub(?:\(crate\))? )?(?:const )?(fn|const|struct|enum|trait|type) (\w+)")
# What has functions of its own: a trait, or the calls of a type.
OWNER = re.compile(r"(?:pub )?(?:trait|impl)(?:<.*?>)? (?:[\w:]+(?:<.*?>)? for )?(\w+)")
CLAUSE = re.compile(r"^ +(requires|ensures)(?: (\w+))? \{", re.M)


def crates():
    """The names of all crates, lowest first."""
    lines = [line.split("#")[0] for line in (TOP / "crates.txt").read_text(encoding="utf-8").splitlines()]
    return [line.split(":")[0].split()[0] for line in lines if ":" in line]


class Definition:
    """What a source calls by a name: where it stands, the comment above it, and its text, without the body of a function."""

    def __init__(self, path, number, kind, name, is_public, comment, text):
        self.path, self.number, self.kind, self.name = path.relative_to(CRATES), number, kind, name
        self.is_public, self.comment, self.text = is_public, comment, text

    @property
    def short(self):
        """The name without that of the type whose call it is."""
        return self.name.split("::")[-1]

    def clauses(self, word):
        """The names of the clauses behind a word, in order; a clause without one is a dash."""
        return [name or "-" for which, name in CLAUSE.findall(self.text) if which == word]


def depth(line):
    return len(line) - len(line.lstrip(" "))


def comment_above(lines, at, mark):
    """The comment that ends above a line, without its marks. In a source attributes and remarks may stand between."""
    above = []
    while at > 0 and lines[at - 1].lstrip().startswith(("//", "#[") if mark == "///" else mark):
        at -= 1
        if lines[at].lstrip().startswith(mark):
            above.append(lines[at].strip()[len(mark) :].strip())
    return " ".join(reversed(above))


def spec_end(lines, at):
    """Behind the last line of the definition that begins at this one."""
    edge = depth(lines[at])
    for end in range(at + 1, len(lines)):
        line = lines[end]
        is_outer = line.strip() and depth(line) <= edge
        if is_outer and (not lines[end - 1].strip() or line.lstrip().startswith("--") or SPEC_HEAD.match(line)):
            return end
    return len(lines)


def code_end(lines, at, kind):
    """Behind the last line of what is declared here. Of a function that is the last one of its contract."""
    edge = lines[at][: depth(lines[at])]
    for end in range(at, len(lines)):
        if kind == "fn" and lines[end] in (edge + "{", edge + "{}"):
            return end
        if kind != "fn" and lines[end] == edge + "}":
            return end + 1
        if lines[end].endswith(";") and (kind == "fn" or depth(lines[end]) == len(edge)):
            return end + 1
        if kind == "fn" and lines[end].endswith(" {") and not CLAUSE.match(lines[end]):
            return end + 1
    return len(lines)


def of_specs(path):
    """The definitions of a file of specs/."""
    lines = path.read_text(encoding="utf-8").splitlines()
    for at, line in enumerate(lines):
        head = SPEC_HEAD.match(line)
        if head:
            text = "\n".join(lines[at : spec_end(lines, at)]).rstrip()
            is_public = any(head.group(2, 3, 4))
            yield Definition(path, at + 1, "definition", head.group(5), is_public, comment_above(lines, at, "--"), text)


def of_source(path):
    """What a file of src/ declares. What a trait has is as public as the trait."""
    lines, owner, is_open = path.read_text(encoding="utf-8").splitlines(), "", False
    for at, line in enumerate(lines):
        if line and not line[0].isspace():
            named = OWNER.match(line)
            owner, is_open = (named.group(1), line.startswith("pub trait")) if named else ("", False)
        head = CODE_HEAD.match(line)
        if head and len(head.group(1)) <= 4:
            kind, name = head.group(3), head.group(4)
            full = f"{owner}::{name}" if owner and head.group(1) else name
            is_public = head.group(2) == "pub " or bool(is_open and head.group(1))
            text = "\n".join(lines[at : code_end(lines, at, kind)]).rstrip()
            yield Definition(path, at + 1, kind, full, is_public, comment_above(lines, at, "///"), text)


def of_crate(crate):
    """All definitions of a crate, those of specs/ first, each file in order."""
    for path in sorted((CRATES / crate / "specs").glob("**/*.antt")):
        yield from of_specs(path)
    for path in sorted((CRATES / crate / "src").glob("**/*.rt")):
        yield from of_source(path)
