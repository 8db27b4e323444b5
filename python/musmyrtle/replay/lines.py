"""The lines of a replay: calls and faults that are alike in several cycles are one line, with lists."""
from collections.abc import Callable, Hashable, Iterable, Iterator
from dataclasses import dataclass
from typing import TypeVar

from musmyrtle.cluster import MOST_LINES, Buffer
from musmyrtle.named_windows import spelled
from musmyrtle.replay.sending import Actions
from musmyrtle.scenario import LONGEST_LINE
from musmyrtle.signals.layout import Layout
from musmyrtle.signals.texts import comment_of

BOTH, MOST_LISTED = "AB", 8
"""Both channels, and the places that share a line with lists of cycles."""
Key = TypeVar("Key", bound=Hashable)


@dataclass(frozen=True)
class Line:
    """A line of a scenario, and for how many lines it stands."""

    text: str
    count: int


def by_cycles(its: Iterable[tuple[Key, int]]) -> dict[Key, tuple[int, ...]]:
    """Returns the rising cycles of each key."""
    found: dict[Key, set[int]] = {}
    for key, cycle in its:
        found.setdefault(key, set()).add(cycle)
    return {key: tuple(sorted(cycles)) for key, cycles in found.items()}


def parts(words: list[str], most: int) -> Iterator[tuple[str, int]]:
    """Yields lists of at most so many words, each with their number."""
    for at in range(0, len(words), most):
        part = words[at:at + most]
        yield ",".join(part), len(part)


def both_of(its: dict[tuple[Key, str], tuple[int, ...]]) -> dict[tuple[Key, str], tuple[int, ...]]:
    """Returns the cycles by key and channels: those that both channels have are those of `AB`."""
    found: dict[tuple[Key, str], tuple[int, ...]] = {}
    for key in dict.fromkeys(key for key, _ in its):
        a, b = (frozenset(its.get((key, channel), ())) for channel in BOTH)
        for channels, cycles in ((BOTH, a & b), ("A", a - b), ("B", b - a)):
            if cycles:
                found[key, channels] = tuple(sorted(cycles))
    return found


def places_of(places: Iterable[str]) -> list[str]:
    """Returns the words for places: neighbouring static slots as one range."""
    numbers = sorted(int(it[1:]) for it in places if it.startswith("s"))
    others = sorted((it for it in places if not it.startswith("s")), key=lambda it: int(it[1:]))
    words, at = [], 0
    while at < len(numbers):
        end = at
        while end + 1 < len(numbers) and numbers[end + 1] == numbers[end] + 1:
            end += 1
        words.append(f"s{numbers[at]}" if end == at else f"s{numbers[at]}-{numbers[end]}")
        at = end + 1
    return words + others


class Lines:
    """The lines of a replay, with the names that scenarios can use and the signals of payloads as comments."""

    def __init__(self, actions: Actions, name_of: Callable[[int, int | None], str],
                 layout_of: Callable[[Buffer], Layout | None], silent: list[tuple[int, int]]) -> None:
        """NAME_OF spells a node, or a buffer of it. SILENT are nodes and cycles before the recording."""
        self.actions, self.name_of, self.layout_of = actions, name_of, layout_of
        self.lost = set(silent) | self.wholly_muted()

    def wholly_muted(self) -> set[tuple[int, int]]:
        """Returns the cycles in which all of several offers of a node are muted, each as node and cycle."""
        counts: dict[tuple[int, int], int] = {}
        for cycle, node, _, _ in self.actions.mutes:
            counts[node, cycle] = counts.get((node, cycle), 0) + 1
        return {(node, cycle) for (node, cycle), count in counts.items()
                if count > 1 and count == self.actions.offers[cycle, node]}

    def all(self) -> Iterator[Line]:
        """Yields all lines."""
        yield from self.calls()
        yield from self.lost_lines()
        yield from self.mutes()
        yield from self.babbles()
        yield from self.flips()

    def calls(self) -> Iterator[Line]:
        """Yields the commits by their first cycle, and then the withdraws, which come after the commits of a cycle."""
        commits = by_cycles(((buffer, payload), cycle) for cycle, buffer, payload in self.actions.commits)
        for (buffer, payload), cycles in sorted(commits.items(), key=lambda it: (it[1][0], it[0][0].slot)):
            yield from self.call("commit", buffer, cycles, payload)
        withdraws = by_cycles((buffer, cycle) for cycle, buffer in self.actions.withdraws)
        for buffer, cycles in withdraws.items():
            yield from self.call("withdraw", buffer, cycles, None)

    def call(self, kind: str, buffer: Buffer, cycles: tuple[int, ...], payload: bytes | None) -> Iterator[Line]:
        """Yields the lines of a call in some cycles."""
        node, name = self.name_of(buffer.node, None), self.name_of(buffer.node, buffer.number)
        data = "" if payload is None else f" x{payload.hex()}"
        layout = None if payload is None else self.layout_of(buffer)
        for words, count in parts(spelled(list(cycles)), MOST_LINES):
            text = f"{kind} {node} 0 {words} {name}{data}"
            room = LONGEST_LINE - len(text.encode()) - 1
            comment = comment_of(layout, payload, room) if layout and payload is not None else ""
            yield Line(f"{text} {comment}" if comment else text, count)

    def lost_lines(self) -> Iterator[Line]:
        """Yields the lines of nodes that are silent."""
        nodes: dict[tuple[int, ...], list[int]] = {}
        for node, cycles in by_cycles(self.lost).items():
            nodes.setdefault(cycles, []).append(node)
        for cycles, its in nodes.items():
            names = ",".join(self.name_of(it, None) for it in sorted(its))
            for words, count in parts(spelled(list(cycles)), MOST_LINES // len(its)):
                yield Line(f"lost {names} {words}", count * len(its))

    def mutes(self) -> Iterator[Line]:
        """Yields the lines of single offers that are lost."""
        muted = by_cycles((((node, place), channel), cycle) for cycle, node, channel, place in self.actions.mutes
                          if (node, cycle) not in self.lost)
        found: dict[tuple[int, str, tuple[int, ...]], list[str]] = {}
        for ((node, place), channels), cycles in both_of(muted).items():
            found.setdefault((node, channels, cycles), []).append(place)
        for (node, channels, cycles), places in found.items():
            yield from self.fault(f"mute {self.name_of(node, None)}", channels, cycles, places_of(places), "")

    def babbles(self) -> Iterator[Line]:
        """Yields the lines of further transmissions."""
        its = by_cycles((((node, place, data), channel), cycle)
                        for cycle, node, channel, place, data in self.actions.babbles)
        for ((node, place, data), channels), cycles in both_of(its).items():
            yield from self.fault(f"babble {self.name_of(node, None)}", channels, cycles, [place], f" x{data.hex()}")

    def flips(self) -> Iterator[Line]:
        """Yields the lines of flipped bits."""
        its = by_cycles((((place, bit), channel), cycle) for cycle, channel, place, bit in self.actions.flips)
        for ((place, bit), channels), cycles in both_of(its).items():
            yield from self.fault("corrupt", channels, cycles, [place], f" {bit}")

    def fault(self, front: str, channels: str, cycles: tuple[int, ...], places: list[str], end: str) -> Iterator[Line]:
        """Yields the lines of a fault at some places in some cycles."""
        for words, count in parts(spelled(list(cycles)), MOST_LINES // min(len(places), MOST_LISTED)):
            for named, more in parts(places, MOST_LINES // count):
                yield Line(f"{front} {channels} {words} {named}{end}", count * more)
