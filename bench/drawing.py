"""Draws line charts as SVG into docs/, for bench/run: each with a title, what was measured and where, an axis of each
way, and the name of each line at its end. Where the values span orders of magnitude, both scales are logarithmic."""
import html
import math
import pathlib
import textwrap

DOCS = pathlib.Path(__file__).resolve().parent.parent / "docs"

# The measures of a picture: its size, the edges of the part that has the lines, and how far apart texts are.
WIDE, HIGH = 860, 460
LEFT, TOP, BOTTOM, LINE = 74, 58, 56, 17

# How wide a letter of a label is at most, and how many letters a line of what is said has.
LETTER, LETTERS = 7.2, 122

# How many marks an even scale has at most, but for its 0.
UP_MARKS = 6

COLOURS = {"rbsh": "#0b5cad", "sqlite": "#b8480a", "device": "#5b6470"}
STYLE = """text { font: 13px sans-serif; fill: #222 }
.title { font-size: 17px; font-weight: bold }
.said, .mark { font-size: 12.5px; fill: #505050 }
.middle { text-anchor: middle } .right { text-anchor: end }
.grid { stroke: #e4e4e4 } .axis { stroke: #707070 }
polyline { fill: none; stroke-width: 2.2 } .dashed { stroke-dasharray: 6 4 }
"""


class Line:
    """A line of a chart: its name, whose it is, its points, and whether it is dashed."""

    def __init__(self, name, whose, points, dashed=False):
        self.name, self.whose, self.points, self.dashed = name, whose, points, dashed


class Axis:
    """One way of a chart: what it shows, its marks, and where each value stands between its two ends."""

    def __init__(self, label, marks, start, end, log):
        self.label, self.marks, self.start, self.end, self.log = label, marks, start, end, log

    def at(self, value):
        low, high, value = (math.log(v) if self.log else v for v in (self.marks[0], self.marks[-1], value))
        return self.start + (value - low) / (high - low) * (self.end - self.start)


def even_marks(values):
    """From 0 to above all values, in steps of 1, 2 or 5 times a power of ten."""
    most = max(values)
    power = 10 ** math.floor(math.log10(most / UP_MARKS))
    step = next(n * power for n in (1, 2, 5, 10) if n * power * UP_MARKS >= most)
    return [n * step for n in range(math.ceil(most / step) + 1)]


def log_marks(values):
    """From below all values to above them, by the powers of ten, and by 2 and 5 times these where they are few."""
    least, most = min(values), max(values)
    powers = range(math.floor(math.log10(least)), math.ceil(math.log10(most)) + 1)
    marks = [n * 10**power for power in powers for n in ((1, 2, 5) if most / least < 1000 else (1,))]
    low, high = max(mark for mark in marks if mark <= least), min(mark for mark in marks if mark >= most)
    return [mark for mark in marks if low <= mark <= high]


def text(x, y, words, kind=""):
    return f'<text class="{kind}" x="{x:.0f}" y="{y:.0f}">{html.escape(words)}</text>'


def stroke(kind, *ends):
    """A straight line from one place to another one."""
    return '<line class="{}" x1="{:.1f}" y1="{:.1f}" x2="{:.1f}" y2="{:.1f}"/>'.format(kind, *ends)


def spread(places):
    """Places near those of some labels that are so far apart that no label covers another one."""
    order, places = sorted(range(len(places)), key=places.__getitem__), list(places)
    for _ in range(100):
        for above, below in zip(order, order[1:]):
            lacks = max(0, LINE - (places[below] - places[above]))
            places[above], places[below] = places[above] - lacks / 2, places[below] + lacks / 2
    return places


def axes(across, up):
    """The two axes, their marks and labels, and a thin line for each mark of the one that goes up."""
    for mark in up.marks:
        yield stroke("grid", across.start, up.at(mark), across.end, up.at(mark))
        yield text(across.start - 8, up.at(mark) + 4, f"{round(mark, 9):,}", "mark right")
    yield stroke("axis", across.start, up.start, across.end, up.start)
    for mark in across.marks:
        yield stroke("axis", across.at(mark), up.start, across.at(mark), up.start + 5)
        yield text(across.at(mark), up.start + 20, f"{mark:,}", "mark middle")
    yield text((across.start + across.end) / 2, up.start + 42, across.label, "middle")
    yield text(across.start - 60, up.end - 16, up.label)


def drawn(lines, across, up):
    """The lines, their points, and the name of each behind its end."""
    names = spread([up.at(line.points[-1][1]) for line in lines])
    for line, name in zip(lines, names):
        places = [(across.at(x), up.at(y)) for x, y in line.points]
        path = " ".join(f"{x:.1f},{y:.1f}" for x, y in places)
        yield f'<polyline class="{line.whose}{" dashed" * line.dashed}" points="{path}"/>'
        yield from (f'<circle class="{line.whose}" cx="{x:.1f}" cy="{y:.1f}" r="3.2"/>' for x, y in places)
        yield text(across.end + 12, name + 4, line.name, line.whose)


def draw(name, title, said, across, up, lines, log=False):
    """Draws docs/NAME.svg, the lines by what goes across and what goes up, under a title and what is said of it. Across
    there is a mark where it was measured."""
    told = textwrap.wrap(said, LETTERS)
    top = TOP + LINE * len(told) + 22
    right = WIDE - 24 - LETTER * max(len(line.name) for line in lines)
    xs, ys = zip(*(point for line in lines for point in line.points))
    across = Axis(across, sorted(set(xs)), LEFT, right, log)
    up = Axis(up, (log_marks if log else even_marks)(ys), HIGH - BOTTOM, top, log)
    colours = "".join(f"polyline.{whose} {{ stroke: {colour} }} circle.{whose}, text.{whose} {{ fill: {colour} }}\n"
                      for whose, colour in COLOURS.items())
    parts = [f'<svg xmlns="http://www.w3.org/2000/svg" viewBox="0 0 {WIDE} {HIGH}" width="{WIDE}" height="{HIGH}" '
             f'role="img" aria-label="{html.escape(title)}">', f"<style>\n{STYLE}{colours}</style>",
             f'<rect width="{WIDE}" height="{HIGH}" rx="6" fill="#fff" stroke="#d4d4d4"/>',
             text(14, 30, title, "title"),
             *(text(14, 34 + LINE * at, words, "said") for at, words in enumerate(told, 1)),
             *axes(across, up), *drawn(lines, across, up), "</svg>"]
    (DOCS / f"{name}.svg").write_text("\n".join(parts) + "\n")
