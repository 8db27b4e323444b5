"""The one language of the words that select: cycles, places, nodes and buffers, in filters and campaigns of faults.

Parts are separated by commas: cycles are `0-10/2,13`, places `s3-5,d7,m*`, nodes `brake,0,3-5`, and buffers
`brake.force,2.0-1`. A range is `C-D`, or `C-D/STEP` for each STEPth number from C on, as in a scenario. `*` stands for
every cycle and for every window.
"""
import re
from argparse import ArgumentTypeError
from collections.abc import Iterable, Mapping, Sequence
from dataclasses import dataclass

from musmyrtle.named_windows import EVERY, EVERY_DYNAMIC, EVERY_STATIC, spelled
from musmyrtle.names import name_in, tables_of
from musmyrtle.visible import cut

ALL = "all"
"""The place of all that a node sends, in campaigns alone."""
SPAN = re.compile(r"([0-9]{1,4})(?:-([0-9]{1,4})(?:/([0-9]{1,4}))?)?")
SEGMENTS = "smd"
RIGHT_PLACES = "static slots as 1 or s3-5, dynamic slots as d7, minislots as m4, s*, m* or *"
CHANNELS = "AB"


@dataclass(frozen=True)
class Span:
    """Every STEPth number from FIRST on up to LAST."""

    first: int
    last: int
    step: int = 1

    @classmethod
    def of(cls, word: str) -> "Span | None":
        """Returns the numbers of a word such as `3`, `3-5` or `0-14/2`, or None for another word."""
        found = SPAN.fullmatch(word)
        if found is None:
            return None
        first, step = int(found[1]), int(found[3] or 1)
        last = int(found[2] or first)
        return cls(first, last, step) if first <= last and step else None

    @property
    def numbers(self) -> range:
        """Returns the numbers."""
        return range(self.first, self.last + 1, self.step)

    def __str__(self) -> str:
        step = "" if self.step == 1 else f"/{self.step}"
        return str(self.first) if self.first == self.last else f"{self.first}-{self.last}{step}"


# ---- cycles


@dataclass(frozen=True)
class SelectedCycles:
    """Cycles of a run, as `0-10/2,13`, each in one of the parts."""

    parts: tuple[Span, ...]

    @property
    def numbers(self) -> list[int]:
        """Returns the cycles in ascending order."""
        return sorted({number for part in self.parts for number in part.numbers})

    def missing(self, cycles: int) -> int | None:
        """Returns the last of the cycles that a run of so many doesn't have, or None."""
        last = self.numbers[-1]
        return last if last >= cycles else None

    def __str__(self) -> str:
        return ",".join(map(str, self.parts))


def cycles_of(word: str) -> SelectedCycles:
    """Returns the cycles of a text such as `8-16`, `0-10/2` or `0-10/2,13`. Raises `ArgumentTypeError`."""
    parts = []
    for part in word.split(","):
        found = Span.of(part)
        if found is None:
            raise ArgumentTypeError(why_no_cycles(part))
        parts.append(found)
    named = SelectedCycles(tuple(parts))
    if len(named.numbers) < sum(len(it.numbers) for it in parts):
        # Two fault lines for one cycle would be refused.
        named = SelectedCycles(tuple(filter(None, map(Span.of, spelled(named.numbers)))))
    return named


def some_cycles(word: str) -> SelectedCycles | None:
    """Returns the cycles of a text such as `0-10/2,13`, or None for all if a part is `*`. Raises `ArgumentTypeError`.
    """
    some = [it for it in word.split(",") if it != EVERY]
    found = cycles_of(",".join(some)) if some else None
    return None if EVERY in word else found


def why_no_cycles(part: str) -> str:
    """Returns why a part of a word has no cycles."""
    found = SPAN.fullmatch(part)
    if found and found[2] and int(found[1]) > int(found[2]):
        return f"{part!r} has no cycle, since {found[1]} is above {found[2]}"
    if found:
        return f"{part!r} has no cycle, since its step is 0"
    return f"{part!r} is no cycle, and no range as 8-16 or 0-14/2"


def cycles_in(word: str, cycles: int) -> Sequence[int]:
    """Returns the cycles that a fault names in a run of so many: `*` stands for every one."""
    return range(cycles) if word == EVERY else cycles_of(word).numbers


# ---- places


@dataclass(frozen=True)
class Place:
    """Some windows of a cycle: static slots `s`, dynamic slots `d`, minislots `m`, or slots of either sort.

    The segment is empty for slots by number alone. The numbers are None for all of the segment, or for all windows.
    """

    segment: str
    span: Span | None

    @classmethod
    def of(cls, part: str) -> "Place | None":
        """Returns the place of a part such as `3-5`, `s3`, `d7`, `m4`, `m*` or `*`, or None for another one."""
        if part == EVERY:
            return cls("", None)
        if part in (EVERY_STATIC, EVERY_DYNAMIC):
            return cls(part[0], None)
        segment = part[:1] if part[:1] and part[:1] in SEGMENTS else ""
        span = Span.of(part.removeprefix(segment))
        return None if span is None else cls(segment, span)

    def has(self, slot: int | None, minislot: int | None, is_static: bool) -> bool:
        """Returns whether a window is one of these, by its slot and its minislot, either of which may be unknown."""
        if self.span is None:
            return not self.segment or is_static == (self.segment == "s")
        if self.segment == "m":
            return minislot in self.span.numbers
        is_right = not self.segment or is_static == (self.segment == "s")
        return is_right and slot is not None and slot in self.span.numbers


def places_in(word: str) -> tuple[Place, ...]:
    """Returns the places of a text such as `1,s3-5,d7,m*`. Raises `ArgumentTypeError`."""
    return tuple(map(place_in, word.split(",")))


def place_in(part: str) -> Place:
    """Returns the place of a part of a word. Raises `ArgumentTypeError`."""
    found = Place.of(part)
    if found is None:
        raise ArgumentTypeError(f"{part!r} is no place: places are {RIGHT_PLACES}")
    return found


def single_slot(places: tuple[Place, ...]) -> int | None:
    """Returns the slot if the places are a single one, and otherwise None."""
    spans = [it.span for it in places if it.segment != "m"]
    only = spans[0] if len(places) == len(spans) == 1 else None
    return only.first if only and only.first == only.last else None


def places_of(word: str) -> frozenset[str]:
    """Returns the places of faults of a text such as `1,s3-5,d7,m*,all`, where a number alone is a static slot.

    Every window is all that a node sends. Raises `ArgumentTypeError`.
    """
    found: set[str] = set()
    for part in word.split(","):
        if part in (ALL, EVERY):
            found.add(ALL)
            continue
        try:
            place = place_in(part)
        except ArgumentTypeError as error:
            raise ArgumentTypeError(f"{error}, and {ALL}") from None
        if place.span is None:
            found.add(part)
        else:
            found |= {f"{place.segment or 's'}{number}" for number in place.span.numbers}
    return frozenset(found)


# ---- channels


def channels_of(word: str) -> str:
    """Returns the channels of a text such as `A`, `AB` or `A,B`, in this order. Raises `ArgumentTypeError`."""
    for part in word.split(","):
        if part not in (*CHANNELS, CHANNELS):
            raise ArgumentTypeError(f"{part!r} is no channel: expected A, B or AB")
    return "".join(it for it in CHANNELS if it in word)


# ---- nodes and buffers


class UnknownWord(ValueError):
    """A word names no node or buffer of the cluster, or several. The message has the reason."""


@dataclass(frozen=True)
class Directory:
    """The keys `name` of the nodes of a cluster and of their buffers, or None where there is no such text."""

    nodes: list[str | None]
    buffers: list[list[str | None]]

    @classmethod
    def of(cls, document: Mapping[str, object]) -> "Directory":
        """Returns the names in the document of a cluster file."""
        tables = tables_of(document.get("node"))
        return cls([name_in(it) for it in tables],
                   [[name_in(it) for it in tables_of(table.get("buffer"))] for table in tables])

    def numbers_of_nodes(self, words: Iterable[str]) -> frozenset[int]:
        """Returns the nodes of words such as `brake,0,3-5`. A number needn't be that of a node. Raises `UnknownWord`.
        """
        return frozenset(number for word in words for number in numbers_by_name(word, self.nodes, "node"))

    def receivers(self, words: Iterable[str], nodes: frozenset[int] = frozenset()) -> "Receivers":
        """Returns the buffers of words such as `brake.force,2`.

        A part without a dot is a node with all its buffers, or if NODES are given the buffers of these that it names.
        Raises `UnknownWord`.
        """
        buffers: set[tuple[int, int]] = set()
        whole: set[int] = set()
        for part in (part for word in words for part in word.split(",")):
            found = self.candidates(part, nodes)
            if len(found) > 1:
                raise UnknownWord(f"{cut(part)} names several buffers or nodes: give numbers, as 0.1")
            if not found:
                raise UnknownWord(self.why_none(part, nodes))
            buffers |= found[0].buffers
            whole |= found[0].nodes
        return Receivers(frozenset(buffers), frozenset(whole))

    def candidates(self, part: str, nodes: frozenset[int]) -> list["Receivers"]:
        """Returns what a part may name: names can have dots, so that it may be taken apart at any of these."""
        found: list[Receivers] = []
        for at in (at for at, it in enumerate(part) if it == "."):
            for node in self.nodes_named(part[:at]):
                found += self.buffers_named(frozenset([node]), part[at + 1:])
        if nodes:
            found += self.buffers_named(nodes, part)
        else:
            found += [Receivers(frozenset(), frozenset([node])) for node in self.nodes_named(part)]
        return found

    def nodes_named(self, word: str) -> frozenset[int]:
        """Returns the nodes of this number or name, or none."""
        try:
            found = numbers_by_name(word, self.nodes, "node")
        except UnknownWord:
            return frozenset()
        return frozenset(it for it in found if it < len(self.nodes))

    def buffers_named(self, nodes: frozenset[int], word: str) -> list["Receivers"]:
        """Returns the buffers of these nodes that have this number or name, as one candidate, or none."""
        found: set[tuple[int, int]] = set()
        for node in (it for it in nodes if it < len(self.buffers)):
            try:
                numbers = numbers_by_name(word, self.buffers[node], f"buffer of node {node}")
            except UnknownWord:
                continue
            if all(it < len(self.buffers[node]) for it in numbers):
                found |= {(node, it) for it in numbers}
        return [Receivers(frozenset(found), frozenset())] if found else []

    def why_none(self, part: str, nodes: frozenset[int]) -> str:
        """Returns why a part names no buffer."""
        node = next((node for at in range(len(part), 0, -1) for node in self.nodes_named(part[:at])
                     if part[at:at + 1] == "."), None)
        if node is None and not nodes:
            right = "NODE.BUFFER or NODE, each by its number or name"
            return f"{cut(part)} names no node and no buffer: expected {right}; {shown_names('node', self.nodes)}"
        of = min(nodes) if node is None else node
        names = shown_names("buffer", self.buffers[of] if of < len(self.buffers) else [])
        return f"{cut(part)} names no buffer of node {of}, whose {names}"


@dataclass(frozen=True)
class Receivers:
    """Some buffers by node and number, and nodes with all their buffers and their receive FIFO."""

    buffers: frozenset[tuple[int, int]]
    nodes: frozenset[int]

    def has(self, node: int, buffer: int | None) -> bool:
        """Returns whether a buffer of a node is one of these, or its receive FIFO for None."""
        return node in self.nodes or (buffer is not None and (node, buffer) in self.buffers)


def numbers_by_name(word: str, names: Sequence[str | None], what: str) -> list[int]:
    """Returns the numbers of a word of numbers, ranges and names. Raises `UnknownWord`.

    A number that one of them has is this number, also if another one has it as a name, as in scenarios. A name may have
    a comma.
    """
    parts = [word] if word in names else word.split(",")
    return [number for part in parts for number in numbers_of_part(part, names, what)]


def numbers_of_part(part: str, names: Sequence[str | None], what: str) -> Sequence[int]:
    """Returns the numbers that a number, a range or a name stands for."""
    if part in map(str, range(len(names))):
        return [int(part)]
    named, span = [number for number, name in enumerate(names) if name == part], Span.of(part)
    if len(named) == 1 and (span is None or span.first == span.last):
        return named
    if len(named) > 1:
        raise UnknownWord(f"several {what}s have the name {cut(part)}; give the number")
    if named:
        raise UnknownWord(f"{cut(part)} is a range, and the name of {what} {named[0]}; give the numbers one by one")
    if span is None:
        raise UnknownWord(f"the cluster has {len(names)} {what}s, and none is {cut(part)}; {shown_names(what, names)}")
    return span.numbers


def shown_names(what: str, names: Sequence[str | None]) -> str:
    """Returns the names of nodes or buffers in a list."""
    return f"names: {', '.join(cut(it) for it in names if it is not None) or 'none'}"
