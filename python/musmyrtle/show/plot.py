"""A picture of signals over time: an SVG for light and dark grounds, without scripts and without parts from outside."""
import math
from bisect import bisect_right
from collections.abc import Iterable, Iterator, Sequence
from dataclasses import dataclass
from html import escape
from operator import itemgetter

from musmyrtle.show.series import Line, Number, Panel
from musmyrtle.visible import cut, visible

WIDTH, LEFT, RIGHT, HEIGHT = 960, 96, 16, 150
"""The pixels of a picture, of the margins of its plots, and of the height of a plot."""
HEAD, TITLE, FOOT, ROW = 34, 26, 40, 17
"""The pixels of the heading, above a plot, below it, and of a line of its key."""
MOST_TICKS, MOST_NAMES = 6, 12
LONGEST_NAME, LONGEST_LABEL = 14, 130
MOST_SHOWN = 3
"""The labels of a key that are printed for lines that are alike."""
COLOURS = (("#0072b2", "#5ab8f0"), ("#c44d00", "#ff9d5c"), ("#007a5a", "#35cba0"), ("#9b4a85", "#e79fce"),
           ("#7d6200", "#e5b93f"), ("#882255", "#e98bb4"), ("#4d4d4d", "#c4c4c4"), ("#2f6f9f", "#93cdf7"))
"""The colours of lines on light and on dark ground."""
DASHES = ("", "7 3", "2 2", "9 3 2 3")
MOST_LINES = len(COLOURS) * len(DASHES)
"""The lines of a plot that can be told apart."""
UNITS = ((1_000_000.0, "s"), (1_000.0, "ms"), (1.0, "us"))


@dataclass(frozen=True)
class Axis:
    """The times of a picture in macroticks, and how its axis counts them: in units of so many macroticks."""

    first: int
    last: int
    unit: str
    size: float

    @classmethod
    def of(cls, first: int, last: int, macrotick: float | None) -> "Axis":
        """Returns the axis of some macroticks, in seconds or parts of them if the macrotick has microseconds."""
        if macrotick is None:
            return cls(first, last, "MT", 1.0)
        size, unit = next((it for it in UNITS if (last - first) * macrotick >= 2 * it[0]), UNITS[-1])
        return cls(first, last, unit, size / macrotick)

    def x(self, at: float) -> float:
        """Returns the place of a macrotick, at the border of the plot if it is outside."""
        share = (min(max(at, self.first), self.last) - self.first) / (self.last - self.first)
        return LEFT + share * (WIDTH - LEFT - RIGHT)

    def ticks(self) -> list[tuple[float, str]]:
        """Returns the places of the marks with their texts."""
        values = ticks_of(self.first / self.size, self.last / self.size, 2 * MOST_TICKS)
        return [(self.x(it * self.size), f"{it:g}") for it in values]


@dataclass(frozen=True)
class Scale:
    """The values of a plot, from the lowest to the highest, with its marks."""

    low: float
    high: float
    ticks: list[tuple[float, str]]
    top: float

    @classmethod
    def of(cls, panel: Panel, top: float) -> "Scale":
        """Returns the scale of a plot that begins at a height. Named values have their names as marks."""
        values = panel.values
        low, high = (float(values[0]), float(values[-1])) if values else (0.0, 1.0)
        if low == high:
            room = abs(low) / 2 or 1.0
            low, high = low - room, high + room
        names = names_of(panel, values)
        marks = names or [(it, f"{it:g}") for it in ticks_of(low, high, MOST_TICKS)]
        return cls(low, high, marks, top)

    def y(self, value: float) -> float:
        """Returns the height of a value."""
        share = (value / 2 - self.low / 2) / (self.high / 2 - self.low / 2)
        return self.top + HEIGHT - 6 - share * (HEIGHT - 12)


def names_of(panel: Panel, values: Sequence[Number]) -> list[tuple[float, str]]:
    """Returns the values with their names, or nothing if they have none, or if they are too many."""
    known = {float(panel.signal.factor * raw + panel.signal.offset): it.name for it in panel.signal.values
             for raw in range(it.first, min(it.last, it.first + MOST_NAMES) + 1)}
    if not known or len(values) > MOST_NAMES:
        return []
    return [(float(it), cut(known[it], LONGEST_NAME) if it in known else f"{it:g}") for it in values]


def ticks_of(low: float, high: float, most: int) -> list[float]:
    """Returns round values between two, at steps of 1, 2 or 5 times a power of ten."""
    if not high > low or not math.isfinite(high - low):
        return []
    size = 10.0 ** math.floor(math.log10((high - low) / most))
    step = next((it * size for it in (1, 2, 5, 10) if (high - low) / (it * size) <= most), 10 * size)
    first = math.ceil(low / step - 1e-9)
    return [it * step for it in range(first, first + most + 1) if it * step <= high + step * 1e-9]


def picture(title: str, panels: Sequence[Panel], axis: Axis) -> str:
    """Returns the picture of some plots, one below the other."""
    made, top = list[str](), float(HEAD)
    for panel in panels:
        texts, top = drawn(panel, axis, top)
        made += texts
    head = shown(title, 150)
    return "".join([
        f'<svg xmlns="http://www.w3.org/2000/svg" viewBox="0 0 {WIDTH} {round(top)}" width="{WIDTH}" '
        f'height="{round(top)}" role="img">\n<title>{head}</title>\n<style>{style()}</style>\n'
        f'<rect class="ground" width="100%" height="100%"/>\n<text class="head" x="12" y="22">{head}</text>\n',
        *made, "</svg>\n"])


def style() -> str:
    """Returns the style of a picture."""
    light = " ".join(f".c{it} {{ stroke: {colours[0]}; }}" for it, colours in enumerate(COLOURS))
    dark = " ".join(f".c{it} {{ stroke: {colours[1]}; }}" for it, colours in enumerate(COLOURS))
    dashes = " ".join(f".d{it} {{ stroke-dasharray: {dash}; }}" for it, dash in enumerate(DASHES) if dash)
    return f"""
text {{ font: 12px sans-serif; fill: #222; }} .head {{ font-size: 14px; font-weight: bold; }} .ground {{ fill: #fff; }}
path {{ fill: none; stroke-width: 1.5; }} .grid {{ stroke: #ddd; stroke-width: 1; }} .frame {{ stroke: #888; }}
.right {{ text-anchor: end; }} .middle {{ text-anchor: middle; }} .unit {{ fill: #666; }}
{light} {dashes}
.committed {{ stroke: #999; stroke-width: 4; opacity: .45; }}
.stale {{ stroke: #b5b5b5; stroke-width: 2.5; }} .lost {{ stroke-width: 2; stroke-dasharray: none; }}
.lost:not([class*=" "]) {{ stroke: #d00000; }}
@media (prefers-color-scheme: dark) {{
text {{ fill: #ddd; }} .ground {{ fill: #16181c; }} .grid {{ stroke: #33373d; }} .frame {{ stroke: #777; }}
.unit {{ fill: #999; }} .stale {{ stroke: #6a6f76; }} .lost:not([class*=" "]) {{ stroke: #ff5c5c; }}
{dark} }}
"""


def drawn(panel: Panel, axis: Axis, top: float) -> tuple[list[str], float]:
    """Returns a plot that begins at a height, and the height at which it ends."""
    scale = Scale.of(panel, top + TITLE)
    unit = f" [{panel.signal.unit}]" if panel.signal.unit else ""
    receiver = f" at {panel.receiver}" if panel.receiver else ""
    title = shown(f"{panel.signal.name}{unit} of frame {panel.layout.name}{receiver}", 150)
    made = [f'<g>\n<title>{title}</title>\n<text x="{LEFT}" y="{text(scale.top - 8)}">{title}</text>\n',
            *framed(axis, scale)]
    lines, number = panel.merged(), 0
    has_many = sum(not it.is_committed for it, _ in lines) > 1
    row = scale.top + HEIGHT + FOOT
    keys = list[str]()
    for line, labels in sorted(lines, key=lambda it: not it[0].is_committed):
        kind = "committed" if line.is_committed else f"c{number % len(COLOURS)} d{number // len(COLOURS) % len(DASHES)}"
        number += not line.is_committed
        made += line_of(line, kind, axis, scale, kind if has_many else "")
        keys.append(f'<path class="{kind}" d="M{LEFT} {text(row - 4)}h26"/><text x="{LEFT + 34}" y="{text(row)}">'
                    f'{shown(label_of(labels), LONGEST_LABEL)}</text>\n')
        row += ROW
    marks = list(explained(lines, row))
    return [*made, *keys, *marks, "</g>\n"], row + ROW * len(marks) + 4


def framed(axis: Axis, scale: Scale) -> Iterator[str]:
    """Yields the frame of a plot with its marks and their texts."""
    bottom, right = scale.top + HEIGHT, WIDTH - RIGHT
    for x, word in axis.ticks():
        yield (f'<path class="grid" d="M{text(x)} {text(scale.top)}V{text(bottom)}"/>'
               f'<text class="middle" x="{text(x)}" y="{text(bottom + 15)}">{word}</text>\n')
    for value, word in scale.ticks:
        yield (f'<path class="grid" d="M{LEFT} {text(scale.y(value))}H{right}"/>'
               f'<text class="right" x="{LEFT - 6}" y="{text(scale.y(value) + 4)}">{shown(word, 20)}</text>\n')
    yield f'<path class="frame" d="M{LEFT} {text(scale.top)}H{right}V{text(bottom)}H{LEFT}Z"/>\n'
    yield f'<text class="right unit" x="{right}" y="{text(bottom + 29)}">time [{axis.unit}]</text>\n'


def line_of(line: Line, kind: str, axis: Axis, scale: Scale, mark: str) -> Iterator[str]:
    """Yields the elements of a line: its steps, grey where its values are stale, and a mark for each lost frame.

    Beside other lines the marks have the colour of the line, by the class MARK.
    """
    yield element(kind, steps(line, axis.first, axis.last, axis, scale))
    stale = "".join(steps(line, max(begin, axis.first), min(end, axis.last), axis, scale)
                    for begin, end in line.stale if begin < axis.last and end > axis.first)
    yield element("stale", stale)
    marks = dict.fromkeys((text(axis.x(at)), text(scale.y(value) if value is not None else scale.top + HEIGHT - 6))
                          for at, value in line.lost if axis.first <= at <= axis.last)
    yield element(f"lost {mark}".rstrip(), "".join(f"M{x} {y}m-4-4l8 8m0-8l-8 8" for x, y in marks))


def element(kind: str, path: str) -> str:
    """Returns a path, or nothing for an empty one."""
    return f'<path class="{kind}" d="{path}"/>\n' if path else ""


def steps(line: Line, first: int, last: int, axis: Axis, scale: Scale) -> str:
    """Returns the path of a line between two macroticks."""
    pen, changes = Pen(), line.changes
    for number in range(max(0, bisect_right(changes, first, key=itemgetter(0)) - 1), len(changes)):
        at, value = changes[number]
        if at >= last:
            break
        end = changes[number + 1][0] if number + 1 < len(changes) else last
        if value is None:
            pen.lift()
        else:
            pen.go(text(axis.x(max(at, first))), scale.y(value))
            pen.draw(text(axis.x(min(end, last))))
    return pen.path()


class Pen:
    """Draws steps. Of many steps at one place it draws the first, the lowest, the highest and the last one."""

    def __init__(self) -> None:
        self.parts, self.heights = list[str](), list[float]()
        self.at: str | None = None
        """The place of the pen, or None while it is lifted."""

    def lift(self) -> None:
        """Ends the line."""
        self.flush()
        self.at = None

    def go(self, x: str, y: float) -> None:
        """Goes to a height. A line that goes on is at the place already."""
        if self.at is None:
            self.parts.append(f"M{x} {text(y)}")
            self.at = x
            return
        self.heights.append(y)
        if len(self.heights) > 4:
            first, *others, last = self.heights
            self.heights = [first, min(others), max(others), last]

    def draw(self, x: str) -> None:
        """Draws to a place at the same height."""
        if x != self.at:
            self.flush()
            self.parts.append(f"H{x}")
            self.at = x

    def flush(self) -> None:
        """Draws the steps at the place of the pen."""
        self.parts += [f"V{text(it)}" for it in self.heights]
        self.heights = []

    def path(self) -> str:
        """Returns all that is drawn."""
        self.flush()
        return "".join(self.parts)


def label_of(labels: Sequence[str]) -> str:
    """Returns the label of lines that are alike."""
    more = f" and {len(labels) - MOST_SHOWN} more" if len(labels) > MOST_SHOWN else ""
    return "; ".join(labels[:MOST_SHOWN]) + more


def explained(lines: Iterable[tuple[Line, list[str]]], row: float) -> Iterator[str]:
    """Yields the rows of a key that explain grey parts and marks, from a height on, if a plot has some."""
    found = [it for it, _ in lines]
    if any(it.stale for it in found):
        yield (f'<path class="stale" d="M{LEFT} {text(row - 4)}h26"/><text x="{LEFT + 34}" y="{text(row)}">'
               "the held value is older than the limit</text>\n")
        row += ROW
    if any(it.lost for it in found):
        yield (f'<path class="lost" d="M{LEFT + 13} {text(row - 4)}m-4-4l8 8m0-8l-8 8"/><text x="{LEFT + 34}" '
               f'y="{text(row)}">a frame was lost</text>\n')


def shown(words: str, most: int) -> str:
    """Returns a text for an element."""
    return escape(visible(cut(words, most)))


def text(number: float) -> str:
    """Returns a place with at most one decimal."""
    return f"{number:.1f}".removesuffix(".0")
