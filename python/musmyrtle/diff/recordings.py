"""The differences of two recordings of a bus: frames by cycle, slot and channel, and the findings in both.

The cycles are those that `fr_monitor --frames` prints. The second recording may begin in a later or earlier cycle than
the first one: its cycles are moved so that the cycle counts agree. If all that it has comes later or earlier then, its
cycles are moved by that, too.
"""
from collections import Counter
from collections.abc import Callable, Hashable, Iterator
from dataclasses import dataclass, field
from typing import Any

from musmyrtle.cluster import CYCLES
from musmyrtle.diff.differences import ADDED, CHANGED, REMOVED, Difference
from musmyrtle.diff.payloads import Payloads
from musmyrtle.diff.runs import Key, in_order, numbered
from musmyrtle.diff.shifts import (BEGIN, EVERYTHING, Contents, Cycles, alone_rows, common, shift_between, shift_row)
from musmyrtle.show.network import Network
from musmyrtle.show.recorded import Frame, Recorded
from musmyrtle.show.recordings import FOUND

COUNTED = ("records", "foreign", "symbols", "skipped")
"""The words of the line `records` that have counts."""
BROKEN = "broken"
"""The word in the place of the payload of a broken record."""
FRAME_KEYS = ("flags", "count", "begin", "node")
"""The facts of a frame that are compared beside its payload."""
FrameKey = tuple[int | None, int | None, str]


@dataclass
class Recording:
    """The frames and the counts of a recording, line by line."""

    network: Network
    counts: dict[str, int] = field(default_factory=dict)

    def __post_init__(self) -> None:
        self.found = Recorded(self.network)

    def add(self, line: str) -> None:
        """Adds a line of `fr_monitor --frames`."""
        words = line.split(" ")
        self.found.add(line)
        if words[0] == COUNTED[0]:
            self.counts |= {key: int(value) for key, value in zip(words[::2], words[1::2]) if key in COUNTED}
        elif words[0] == FOUND:
            self.counts[words[1]] = int(words[2])

    @property
    def frames(self) -> list[Frame]:
        """Returns all frames."""
        return list(self.found.frames.values())

    def cycle(self, frame: Frame, more: int = 0) -> int | None:
        """Returns the cycle of a frame on the axis of both channels, with so many more, or None if it isn't known."""
        cycle = self.found.on_axis(frame.channel, frame.cycle)
        return None if cycle is None else cycle + more

    def contents(self, more: int = 0) -> Contents:
        """Returns the frames of each cycle, without the words that have its number."""
        found: dict[int, list[Hashable]] = {}
        for it in self.frames:
            cycle = self.cycle(it, more)
            if cycle is not None:
                found.setdefault(cycle, []).append((it.slot, it.channel, it.data, it.flags, it.node))
        return {cycle: frozenset(its) for cycle, its in found.items()}

    def numbers(self, more: int = 0) -> Counter[int]:
        """Returns the number of frames of each cycle."""
        cycles = (self.cycle(it, more) for it in self.frames)
        return Counter(it for it in cycles if it is not None)

    @property
    def first_count(self) -> int | None:
        """Returns the cycle count of the first cycle, or None if no frame has one."""
        for it in self.frames:
            cycle = self.cycle(it)
            if it.data is not None and it.count is not None and cycle is not None:
                return (it.count - cycle) % len(CYCLES)
        return None


def shift_of(old: Recording, new: Recording) -> int:
    """Returns the cycles by which the second recording begins after the first one, from -31 to 32."""
    counts = old.first_count, new.first_count
    if counts[0] is None or counts[1] is None:
        return 0
    later = (counts[1] - counts[0]) % len(CYCLES)
    return later if later <= len(CYCLES) // 2 else later - len(CYCLES)


class Recordings:
    """The comparison of two recordings."""

    def __init__(self, old: Recording, new: Recording, payloads: Payloads) -> None:
        self.old, self.new, self.payloads, self.network = old, new, payloads, old.network
        self.begin = shift_of(old, new)
        """The cycles by which the second recording begins after the first one."""
        self.shift = shift_between(old.contents(), new.contents(self.begin))
        """The cycles by which all comes later in the second one, beside that."""

    def differences(self) -> Iterator[Difference]:
        """Yields all differences. Cycles are those of the first recording."""
        yield from (shift_row(key, it) for key, it in ((BEGIN, self.begin), (EVERYTHING, self.shift)) if it)
        numbers = self.old.numbers(), self.new.numbers(self.begin)
        whole = [Cycles(min(it, default=0), max(it, default=-1)) for it in numbers]
        both = common(whole[0], whole[1], self.shift)
        yield from alone_rows("frames", *(cycles.others(it) for cycles, it in zip(both, numbers)))
        sides = [numbered((frame for frame in it.frames if cycles.has(it.cycle(frame, begin))), self.key_in(it, shift))
                 for it, cycles, begin, shift in ((self.old, both[0], 0, 0),
                                                  (self.new, both[1], self.begin, self.begin - self.shift))]
        for key in sorted({**sides[0], **sides[1]}, key=in_order):
            yield from self.of_frame(key, *(it.get(key) for it in sides))
        yield from self.counts()

    def key_in(self, recording: Recording, shift: int) -> Callable[[Frame], FrameKey]:
        """Returns the cycle, slot and channel of frames of a recording, with so many cycles more."""
        return lambda frame: (recording.cycle(frame, shift), frame.slot, frame.channel)

    def of_frame(self, key: Key, old: Frame | None, new: Frame | None) -> Iterator[Difference]:
        """Yields the differences of a frame."""
        it = old or new
        assert it is not None
        place: dict[str, Any] = {"cycle": key[0], "slot": it.slot, "channel": it.channel,
                                 "node": None if it.node is None else self.network.node(it.node)}
        if old is None or new is None:
            yield Difference("recorded", REMOVED if old else ADDED, "data", text_of(old), text_of(new), **place)
            return
        if old.data != new.data:
            yield Difference("recorded", CHANGED, "data", text_of(old), text_of(new), **place)
            yield from self.signals(old, new, place)
        for name in (it for it in FRAME_KEYS if getattr(old, it) != getattr(new, it)
                     and not (it == "count" and self.shift)):
            yield Difference("recorded", CHANGED, name, getattr(old, name), getattr(new, name), **place)

    def signals(self, old: Frame, new: Frame, place: dict[str, Any]) -> Iterator[Difference]:
        """Yields the signals in which two frames of a place differ."""
        if old.data is None or new.data is None or new.slot is None or new.count is None:
            return
        for name, unit, one, other in self.payloads.of_frame(new.slot, new.channel, new.count, old.data, new.data):
            yield Difference("recorded", CHANGED, "signal", one, other, signal=name, unit=unit, **place)

    def counts(self) -> Iterator[Difference]:
        """Yields the numbers of records and of findings that differ."""
        for key in dict.fromkeys([*self.old.counts, *self.new.counts]):
            old, new = self.old.counts.get(key, 0), self.new.counts.get(key, 0)
            if old != new:
                yield Difference("count", CHANGED, key, old, new)


def text_of(frame: Frame | None) -> str | None:
    """Returns the payload of a frame, a word for a broken one, or None without a frame."""
    return None if frame is None else BROKEN if frame.data is None else frame.data
