"""Tables in three forms: aligned text for people, JSON with one object a line, and CSV."""
import csv
import io
import json
import math
import re
from collections.abc import Callable, Iterable, Iterator, Mapping, Sequence
from dataclasses import dataclass, field
from functools import partial
from typing import NamedTuple

from musmyrtle.visible import cut, visible

Plain = int | float | str | bool | None | Sequence[int] | Sequence[Mapping[str, "int | str | None"]]
"""A value of a JSON object."""
BOLD, RED, USUAL = "\x1b[1m", "\x1b[31m", "\x1b[0m"
ABSENT = "-"
COMPUTED = tuple("=+-@\t\r'\uff1d\uff0b\uff0d\uff20")
"""The first signs of texts that a spreadsheet computes, in both widths, and the one that marks a text."""
LONGEST_TEXT = 120
LONGEST_NUMBERS = 360
"""The characters of a list of numbers in a text. Of a longer one the numbers that are left out are counted."""
LEAST_STEPS = 4
"""The fewest numbers at equal distances above 1 that a text has as `0-6/2`."""
MOST_BYTES, FIRST_BYTES = 16, 8
"""The bytes that a text shows whole. Of more it shows the first ones and the last one."""
MOST_SPELLED = 4096
"""The values of a column whose texts are kept."""
SIGNAL = "signal"
"""The kind of the rows of signals below others in CSV."""
BYTES = re.compile("x(?:[0-9a-f]{2})*")
NUMERIC = re.compile(r"[0-9.]+|-")


class Name(NamedTuple):
    """A node or a buffer: its number, its key `name` in the cluster file if there is one, and which of the two it is.
    """

    number: int
    name: str | None
    kind: str

    def __str__(self) -> str:
        """Returns `pedal (0)`, or `node 0` without a name, or with an empty one."""
        return f"{cut(self.name)} ({self.number})" if self.name else f"{self.kind} {self.number}"


class Time(NamedTuple):
    """A time in macroticks, and in microseconds where the cluster file has `macrotick_us`."""

    macroticks: int
    microseconds: float | None

    def __str__(self) -> str:
        return str(self.macroticks) if self.microseconds is None else decimal(self.microseconds)


class Receiver(NamedTuple):
    """A receive buffer or a receive FIFO that stored a frame, or is for it. The FIFO has no buffer."""

    node: Name
    buffer: Name | None

    def __str__(self) -> str:
        """Returns `brake (1) position (1)`, or `brake (1) FIFO`."""
        return f"{self.node} {self.buffer or 'FIFO'}"

    @property
    def word(self) -> str:
        """Returns the receiver as `fr_view commits` spells it: `1:b1`, or `1:queue`."""
        return f"{self.node.number}:" + ("queue" if self.buffer is None else f"b{self.buffer.number}")

    @property
    def object(self) -> dict[str, int | str | None]:
        """Returns the object that stands for it in JSON."""
        buffer = self.buffer or Name(0, None, "")
        return {"node": self.node.number, "node_name": self.node.name,
                "buffer": None if self.buffer is None else buffer.number, "buffer_name": buffer.name}


class Numbers(NamedTuple):
    """Numbers in ascending order, such as slots: a list in JSON, ranges in CSV, and ranges with steps in texts."""

    numbers: tuple[int, ...]

    def __str__(self) -> str:
        """Returns `1-3,5` for 1, 2, 3 and 5."""
        return ranges(self.numbers)

    @property
    def text(self) -> str:
        """Returns the text for people."""
        return numbers_text(self.numbers)


class Receivers(NamedTuple):
    """The receivers of a frame: a list of objects in JSON, and the words of `fr_view commits` in CSV."""

    receivers: tuple[Receiver, ...]

    def __str__(self) -> str:
        return ", ".join(map(str, self.receivers))


class Exact(NamedTuple):
    """A number with all its decimals, or as a text in JSON if it is infinite or no number."""

    number: int | float

    def __str__(self) -> str:
        return repr(self.number)

    @property
    def plain(self) -> int | float | str:
        """Returns the value in JSON."""
        return self.number if math.isfinite(self.number) else str(self.number)


Value = int | float | str | bool | None | Name | Time | Numbers | Receivers | Exact


def ranges(numbers: Iterable[int]) -> str:
    """Returns `1-3,5` for 1, 2, 3 and 5, which are in ascending order."""
    found: list[list[int]] = []
    for number in numbers:
        if found and number == found[-1][-1] + 1:
            found[-1].append(number)
        else:
            found.append([number])
    return ",".join(f"{it[0]}-{it[-1]}" if len(it) > 1 else str(it[0]) for it in found)


def stepped(numbers: Sequence[int]) -> Iterator[tuple[str, int]]:
    """Yields the parts of a list of numbers in ascending order, as scenarios spell them, and how many each part has.

    The parts of 1, 2, 3, 5, 8, 10, 12 and 14 are `1-3`, `5` and `8-14/2`.
    """
    first = 0
    while first < len(numbers):
        last = first + 1
        step = numbers[last] - numbers[first] if last < len(numbers) else 0
        while last < len(numbers) and numbers[last] - numbers[last - 1] == step:
            last += 1
        count = last - first
        if count > 1 and step == 1:
            yield f"{numbers[first]}-{numbers[last - 1]}", count
        elif count >= LEAST_STEPS:
            yield f"{numbers[first]}-{numbers[last - 1]}/{step}", count
        else:
            last = first + 1
            yield str(numbers[first]), 1
        first = last


def numbers_text(numbers: Sequence[int]) -> str:
    """Returns numbers in ascending order for people, as `0-1022/2`, or `0,3,7 and 50 more` for a very long list."""
    text, shown = "", 0
    for part, count in stepped(numbers):
        if shown and len(text) + 1 + len(part) > LONGEST_NUMBERS:
            return f"{text} and {len(numbers) - shown} more"
        text, shown = f"{text},{part}" if shown else part, shown + count
    return text


def decimal(number: float) -> str:
    """Returns a number with at most three decimal places."""
    return f"{number:.3f}".rstrip("0").rstrip(".")


@dataclass(frozen=True)
class Column:
    """A column: its key in JSON and CSV, its heading in a text, and the kind of its values.

    The kind `name` has two keys, KEY and KEY_name, and `time` has KEY_mt and KEY_us. Values of the kind `bytes` are cut
    in texts, and those of `plain` too if they are very long. Values of `whole` aren't, since each name in them is. The
    kind `numbers` has texts of numbers, which texts for people have as ranges. A heading that is empty leaves the
    column out of texts.
    """

    key: str
    heading: str
    kind: str = "plain"
    words: Mapping[str, str] = field(default_factory=dict, hash=False)
    """Words for people, for those of the programs."""
    meaning: str = ""
    """The measure of the values. Texts have it below the table, if the column is shown."""

    @property
    def keys(self) -> tuple[str, ...]:
        """Returns the keys of the column in JSON and CSV."""
        if self.kind == "name":
            return self.key, f"{self.key}_name"
        return (f"{self.key}_mt", f"{self.key}_us") if self.kind == "time" else (self.key,)

    def fields(self, value: Value) -> dict[str, Plain]:
        """Returns the keys and values of an object in JSON."""
        if isinstance(value, Name):
            return {self.keys[0]: value.number, self.keys[1]: value.name}
        if isinstance(value, Time):
            return {self.keys[0]: value.macroticks, self.keys[1]: value.microseconds}
        if isinstance(value, Receivers):
            return {self.key: [it.object for it in value.receivers]}
        if isinstance(value, Numbers):
            return {self.key: value.numbers}
        if isinstance(value, Exact):
            return {self.key: value.plain}
        return {**dict.fromkeys(self.keys), self.keys[0]: value}

    def cells(self, value: Value) -> list[str]:
        """Returns the cells of the value in CSV."""
        if isinstance(value, Receivers):
            return [",".join(it.word for it in value.receivers)]
        if isinstance(value, Numbers | Exact):
            return [str(value)]
        return ["" if it is None else cell(it) for it in self.fields(value).values()]

    def text(self, value: Value) -> str:
        """Returns the value for people, in one line."""
        if isinstance(value, Numbers):
            return value.text or ABSENT
        text = "" if value is None else spelled(value)
        if self.kind == "bytes":
            text = shortened(text)
        if self.kind == "numbers":
            text = numbers_text([int(it) for it in text.split()])
        text = self.words.get(text, text) or ABSENT
        return visible(text if self.kind in ("whole", "numbers") else cut(text, LONGEST_TEXT))


def shortened(text: str) -> str:
    """Returns `x0123456789abcdef..cd` for many bytes, and other texts as they are."""
    is_long = len(text) > 1 + 2 * MOST_BYTES and BYTES.fullmatch(text)
    return f"{text[:1 + 2 * FIRST_BYTES]}..{text[-2:]}" if is_long else text


def cell(value: object) -> str:
    """Returns a value for CSV.

    A text that a spreadsheet would compute has an apostrophe in front, by which it is a text there, and so has one that
    begins with an apostrophe. Numbers stay as they are, and `-` alone computes nothing.
    """
    text = visible(spelled(value))
    return f"'{text}" if isinstance(value, str) and text != ABSENT and text.startswith(COMPUTED) else text


def spelled(value: object) -> str:
    """Returns a value as a text: numbers with a point for decimals, truth values in lower case."""
    if isinstance(value, bool):
        return "true" if value else "false"
    return decimal(value) if isinstance(value, float) else str(value)


@dataclass(slots=True)
class Part:
    """The values of some columns that follow one another, which several rows share. They are spelled once."""

    values: Mapping[str, Value]
    texts: list[str] | None = None


class Parts(Mapping[str, Value]):
    """The values of a row, as parts in the order of the columns. Each column is in one of them."""

    __slots__ = ("parts",)

    def __init__(self, *parts: Part) -> None:
        self.parts = parts

    def __getitem__(self, key: str) -> Value:
        for it in self.parts:
            if key in it.values:
                return it.values[key]
        raise KeyError(key)

    def __iter__(self) -> Iterator[str]:
        return (key for it in self.parts for key in it.values)

    def __len__(self) -> int:
        return sum(len(it.values) for it in self.parts)


@dataclass(frozen=True, slots=True)
class Row:
    """A row: the values by the keys of their columns, and whether it shows an error, which is red on a terminal."""

    values: Mapping[str, Value]
    is_error: bool = False
    below: "tuple[Row, ...] | None" = None
    """The rows of signals in its payload, or None if they aren't asked for."""


@dataclass(frozen=True)
class Section:
    """A table, whose KIND is the first key of each row in JSON and CSV.

    A text has the title above the table and the meanings of columns below it, and leaves out columns without a value.
    Without rows it has the line NOTHING, if that isn't empty. JSON and CSV need each row once, so that rows may be made
    as they are printed.
    """

    kind: str
    title: str
    columns: tuple[Column, ...]
    rows: Iterable[Row]
    nothing: str = ""
    below: tuple[Column, ...] = ()
    """The columns of the rows below each row: of a key `signals` in JSON, of rows of the kind `signal` in CSV."""


class Spelled(dict[tuple[type, Value], str]):
    """The texts of a column's values. Most values come in many rows, and each is spelled once.

    A key has the type, since 1, 1.0 and true are equal. An exact number isn't kept, since its own number has a type.
    """

    def __init__(self, spell: Callable[[Value], str]) -> None:
        super().__init__()
        self.spell = spell

    def __missing__(self, key: tuple[type, Value]) -> str:
        text = self.spell(key[1])
        if key[0] is not Exact:
            if len(self) >= MOST_SPELLED:
                self.clear()
            self[key] = text
        return text


class Spelling:
    """The texts of rows: of each column, or joined by a separator."""

    def __init__(self, columns: Iterable[tuple[str, Spelled]], separator: str | None = None) -> None:
        self.columns, self.separator = tuple(columns), separator

    def row(self, row: Row) -> list[str]:
        """Returns the texts of a row, which are to be joined by the separator."""
        values = row.values
        if type(values) is not Parts:
            get = values.get
            return [texts[type(value := get(key)), value] for key, texts in self.columns]
        found: list[str] = []
        for part in values.parts:
            if part.texts is None:
                part.texts = self.part(part.values)
            found += part.texts
        return found

    def pieces(self, row: Row) -> tuple[list[str], ...]:
        """Returns the texts of a row in pieces, of which those of shared parts are the same lists."""
        values = row.values
        if type(values) is not Parts:
            return (self.row(row),)
        for part in values.parts:
            if part.texts is None:
                part.texts = self.part(part.values)
        return tuple(part.texts or [] for part in values.parts)

    def part(self, values: Mapping[str, Value]) -> list[str]:
        """Returns the texts of a part of a row."""
        texts = [texts[type(value := values[key]), value] for key, texts in self.columns if key in values]
        return texts if self.separator is None else [self.separator.join(texts)]


def as_json(sections: Iterable[Section]) -> Iterator[str]:
    """Yields an object a line. All characters are ASCII, so that no terminal obeys one."""
    known: dict[Column, Spelled] = {}
    for section in sections:
        spelling = Spelling(((it.key, known.setdefault(it, Spelled(partial(json_fields, it))))
                             for it in section.columns), ", ")
        front = json.dumps({"kind": section.kind})[:-1]
        inner = Spelling(((it.key, Spelled(partial(json_fields, it))) for it in section.below), ", ")
        for row in section.rows:
            more = [] if row.below is None else [
                f'"signals": [{", ".join("{" + ", ".join(inner.row(it)) + "}" for it in row.below)}]']
            yield f"{', '.join([front, *spelling.row(row), *more])}}}\n"


def json_fields(column: Column, value: Value) -> str:
    """Returns the keys of a column with their values, as an object has them."""
    return json.dumps(column.fields(value)).replace("\x7f", "\\u007f")[1:-1]


def as_csv(sections: Sequence[Section]) -> Iterator[str]:
    """Yields one table for all sections: a heading with the keys of all columns, each once, and a line for each row."""
    keys = list(dict.fromkeys(key for section in sections for column in (*section.columns, *section.below)
                              for key in column.keys))
    yield csv_line(["kind", *keys])
    for section in sections:
        spelling, inner = csv_spelling(section.columns, keys), csv_spelling(section.below, keys)
        for row in section.rows:
            yield f"{','.join([section.kind, *spelling.row(row)])}\n"
            yield from (f"{','.join([SIGNAL, *inner.row(it)])}\n" for it in row.below or ())


def csv_spelling(columns: Iterable[Column], keys: Sequence[str]) -> Spelling:
    """Returns the texts of the cells of columns in the places of all keys. Those of other columns stay empty."""
    own = {key: (column, place) for column in columns for place, key in enumerate(column.keys)}
    empty = Spelled(lambda _: "")
    return Spelling(((own[it][0].key, Spelled(partial(csv_cell, *own[it]))) if it in own else ("", empty)
                     for it in keys), ",")


def csv_cell(column: Column, place: int, value: Value) -> str:
    """Returns a cell of a value, as a line has it."""
    # Alone, an empty cell would have quotes.
    return csv_line(["", column.cells(value)[place]])[1:-1]


def csv_line(cells: Iterable[str]) -> str:
    """Returns a line of CSV."""
    line = io.StringIO()
    csv.writer(line, lineterminator="\n").writerow(cells)
    return line.getvalue()


def as_text(sections: Iterable[Section], is_coloured: bool = False) -> Iterator[str]:
    """Yields the tables for people, with an empty line between them."""
    is_first = True
    for section in sections:
        front = "" if is_first else "\n"
        for line in text_lines(section, is_coloured):
            yield f"{front}{line}\n"
            front, is_first = "", False


def below_text(words: Sequence[str]) -> str:
    """Returns the line of a signal below a row, as `    speed=87.5 km/h` or `    gear=drive`."""
    signal, value, unit, name = words[:4]
    return f"    {signal}={name}" if name != ABSENT else f"    {signal}={value}{'' if unit == ABSENT else f' {unit}'}"


class Placing:
    """The places of texts in the columns of a table. Rows come in pieces, and a piece that rows share is placed once.

    A column is as wide as its longest text, and stands at the right if all of its texts are numbers.
    """

    def __init__(self, headings: Sequence[str], rows: Iterable[tuple[list[str], ...]]) -> None:
        self.widths = [len(it) for it in headings]
        self.is_right, self.is_kept = [True] * len(headings), [False] * len(headings)
        self.known: dict[tuple[int, int], str] = {}
        """The texts of pieces by their identities and first columns. The rows keep the pieces."""
        seen: dict[int, set[int]] = {}
        for pieces in rows:
            first = 0
            for piece in pieces:
                its = seen.setdefault(first, set())
                if id(piece) not in its:
                    its.add(id(piece))
                    self.measure(piece, first)
                first += len(piece)

    def measure(self, piece: Sequence[str], first: int) -> None:
        """Notes the lengths of some texts, from a column on."""
        for place, text in enumerate(piece, first):
            if len(text) > self.widths[place]:
                self.widths[place] = len(text)
            if text != ABSENT:
                self.is_kept[place] = True
                if self.is_right[place] and not NUMERIC.fullmatch(text):
                    self.is_right[place] = False

    def line(self, pieces: Iterable[Sequence[str]]) -> str:
        """Returns the line of a row."""
        found, first = [], 0
        for piece in pieces:
            key = id(piece), first
            text = self.known.get(key)
            if text is None:
                if len(self.known) >= MOST_SPELLED:
                    self.known.clear()
                text = self.known[key] = self.placed(piece, first)
            if text:
                found.append(text)
            first += len(piece)
        return "  ".join(found).rstrip()

    def placed(self, piece: Sequence[str], first: int) -> str:
        """Returns some texts in their columns, from a column on. Columns without any text are left out."""
        return "  ".join(word.rjust(self.widths[place]) if self.is_right[place] else word.ljust(self.widths[place])
                         for place, word in enumerate(piece, first) if self.is_kept[place])


def text_lines(section: Section, is_coloured: bool) -> Iterator[str]:
    """Yields the lines of one table for people."""
    shown = [it for it in section.columns if it.heading]
    spelling = Spelling((it.key, Spelled(it.text)) for it in shown)
    inner = Spelling((it.key, Spelled(it.text)) for it in section.below)
    rows, errors, below = list[tuple[list[str], ...]](), set[int](), dict[int, list[str]]()
    for number, row in enumerate(section.rows):
        rows.append(spelling.pieces(row))
        if row.is_error:
            errors.add(number)
        if row.below:
            below[number] = [below_text(inner.row(it)) for it in row.below]
    if not rows:
        if section.nothing:
            yield section.nothing
        return
    headings = [it.heading for it in shown]
    placing = Placing(headings, rows)

    def coloured(text: str, colour: str) -> str:
        return f"{colour}{text}{USUAL}" if is_coloured else text

    if section.title:
        yield coloured(section.title, BOLD)
    yield coloured(placing.line((headings,)), BOLD)
    for number, pieces in enumerate(rows):
        line = placing.line(pieces)
        yield coloured(line, RED) if number in errors else line
        yield from below.get(number, ())
    for it, is_kept in zip(shown, placing.is_kept):
        if it.meaning and is_kept:
            yield f"{it.heading.partition(' [')[0]}: {it.meaning}"
