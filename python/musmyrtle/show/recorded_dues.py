"""The slots of a recording in which frames with signals are due, by the lines of `fr_monitor --frames`.

A slot of a channel stands for a receiver that has all that the logger recorded. A frame with a finding is lost there,
and so is one that a static slot doesn't have in a cycle with later frames. A finding may come some frames after its
frame, which waits for it.
"""
from collections import deque
from collections.abc import Iterator
from dataclasses import dataclass, field

from musmyrtle.show.arrivals import NULL, Due
from musmyrtle.show.network import Network
from musmyrtle.show.recorded import OPENS, Axis
from musmyrtle.show.recordings import ELSEWHERE, FINDING, FRAME, number, text
from musmyrtle.show.windows import CHANNELS
from musmyrtle.signals.layout import Layout
from musmyrtle.signals.receiving import Destination, Layouts
from musmyrtle.signals.texts import bytes_of

WAITING = 64
"""The frames that wait for findings about them."""


@dataclass(frozen=True, slots=True)
class Heard(Due):
    """A slot in which a frame is due, with the record and its time in seconds if there is one.

    `cycle` is the count of its cycle. The destination has the number of the channel in the place of a node, and the
    slot in that of a buffer.
    """

    record: int | None
    seconds: str | None


@dataclass(slots=True)
class Track:
    """The place up to which the slots of a channel are known: its cycle on the channel, the count of that, a slot.

    `broken` are the frames with findings, by their cycle and slot.
    """

    cycle: int
    count: int
    slot: int
    broken: dict[tuple[int, int], list[str]] = field(default_factory=dict)


class RecordedDues:
    """The slots of a recording, whose lines are added one by one. With IS_WHOLE its first and last cycles are whole."""

    def __init__(self, network: Network, layouts: Layouts, is_whole: bool) -> None:
        self.network, self.layouts, self.is_whole = network, layouts, is_whole
        self.cluster, self.axis = network.cluster, Axis()
        self.waiting: deque[list[str]] = deque()
        self.wrong: set[str] = set()
        self.tracks: dict[str, Track] = {}
        self.broken: dict[str, dict[tuple[int, int], list[str]]] = {it: {} for it in CHANNELS}
        self.known: dict[tuple[str, int], list[tuple[int, int, Layout]]] = {}
        self.left_out = 0

    def add(self, line: str) -> Iterator[Heard]:
        """Adds a line, and yields the slots up to a frame that has waited long enough."""
        words = line.split(" ")
        if words[0] == FRAME:
            self.waiting.append(words)
            if text(words[11]) is not None:
                self.open(words, number(words[6]), number(words[12]))
        elif words[0] == OPENS:
            for it in (it for it in self.waiting if it[1] == words[1]):
                it[6] = words[2]
                self.open(it, number(words[2]), number(words[3]))
        elif words[0] == FINDING and words[6] not in ELSEWHERE:
            self.wrong.add(words[1])
        while len(self.waiting) > WAITING:
            yield from self.dues(self.waiting.popleft())

    def open(self, words: list[str], cycle: int | None, beside: int | None) -> None:
        """Notes the cycle of a good frame."""
        if cycle is not None:
            self.axis.open(words[4], int(words[3]), cycle, beside)

    def end(self) -> Iterator[Heard]:
        """Yields the slots of the frames that wait at the end."""
        while self.waiting:
            yield from self.dues(self.waiting.popleft())
        if self.is_whole:
            for channel, track in self.tracks.items():
                yield from self.lost(channel, track, None)

    @property
    def cycles(self) -> tuple[int, int]:
        """Returns the first cycle of the recording on the axis of both channels, and the one after the last."""
        last = [self.axis.place(channel, it.cycle) or 0 for channel, it in self.tracks.items()]
        return min(0, self.axis.first()), max(last, default=0) + 1

    # ---- frames

    def dues(self, words: list[str]) -> Iterator[Heard]:
        """Yields the slots of a channel up to a good frame, and the one of this frame. Others are kept, and counted."""
        payload, channel, cycle = bytes_of(words[11]), words[4], number(words[6])
        if words[1] in self.wrong or payload is None:
            self.wrong.discard(words[1])
            self.left_out += 1
            if cycle is not None and words[5] != "-":
                self.broken[channel][cycle, int(words[5])] = words
            return
        count, slot = int(words[3]), int(words[5])
        track = self.tracks.get(channel)
        if track is None:
            track = self.tracks[channel] = Track(cycle or 0, count, 0 if self.is_whole else slot - 1)
        if cycle is not None and cycle > track.cycle:
            yield from self.lost(channel, track, None)
            track.cycle, track.count, track.slot = cycle, count, 0
            self.broken[channel] = {key: it for key, it in self.broken[channel].items() if key[0] >= cycle}
        yield from self.lost(channel, track, slot)
        track.slot = slot
        layout, sender = self.layouts.of(slot, channel, count), number(words[9])
        if layout is not None and sender is not None:
            its = None if NULL in words[10] else payload
            yield self.heard(channel, track, slot, sender, layout, words, its, its is None)

    def lost(self, channel: str, track: Track, last: int | None) -> Iterator[Heard]:
        """Yields the slots of an open cycle before a slot, or up to its end, that have no good frame."""
        broken = {slot: it for (cycle, slot), it in self.broken[channel].items() if cycle == track.cycle}
        its = {slot: (sender, layout) for slot, sender, layout in self.static(channel, track.count)}
        for slot, words in broken.items():
            layout, sender = self.layouts.of(slot, channel, track.count), number(words[9])
            if not self.cluster.is_static(slot) and layout is not None and sender is not None:
                its[slot] = sender, layout
        for slot in sorted(it for it in its if track.slot < it and (last is None or it < last)):
            yield self.heard(channel, track, slot, *its[slot], broken.get(slot), None, False)

    def static(self, channel: str, count: int) -> list[tuple[int, int, Layout]]:
        """Returns the static slots in which a frame with signals is due, each with its owner and the layout."""
        if (channel, count) not in self.known:
            found = ((it.slot, it.node, self.layouts.of(it.slot, channel, count)) for it in self.cluster.buffers()
                     if it.transmits and self.cluster.is_static(it.slot) and channel in it.channels
                     and it.cycles.admit(count) and self.cluster.nodes[it.node].owns(it.slot, channel, count))
            self.known[channel, count] = [(slot, node, layout) for slot, node, layout in found if layout is not None]
        return self.known[channel, count]

    def heard(self, channel: str, track: Track, slot: int, sender: int, layout: Layout, words: list[str] | None,
              payload: bytes | None, is_null: bool) -> Heard:
        """Returns a slot with the frame of a line, or without one."""
        begin = number(words[7]) if words else None
        start = (self.axis.place(channel, track.cycle) or 0) * self.cluster.parameters.cycle_mt
        return Heard(track.count, start + (self.begin_of(slot) if begin is None else begin), slot, channel, sender,
                     Destination(CHANNELS.index(channel), slot), layout, payload, is_null,
                     int(words[1]) if words else None, words[2] if words else None)

    def begin_of(self, slot: int) -> int:
        """Returns the earliest macrotick of a cycle at which a slot begins."""
        its = self.cluster.parameters
        static = min(slot - 1, its.static_slots)
        return static * its.static_mt + (slot - 1 - static) * its.minislot_mt
