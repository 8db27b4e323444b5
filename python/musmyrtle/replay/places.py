"""The windows in which the frames of a recording were seen.

A frame that fits is in the slot of its header, if its time agrees. Any other one is in the window of its time, which
the static frames before and after it give.
"""
from bisect import bisect
from collections.abc import Iterable
from dataclasses import dataclass, field
from decimal import Decimal
from itertools import pairwise
from statistics import median

from musmyrtle.cluster import Cluster
from musmyrtle.replay.captured import Seen

IN_PLACE = frozenset(("Words", "Bits", "Preamble", "NullFrame", "NoBuffer", "Channels", "Closed", "Late", "Time"))
"""The findings of frames in their slot."""
MOST_WRONG = 10
"""Times are of use if at most one of so many static frames disagrees with its neighbours."""


@dataclass(frozen=True, slots=True)
class Heard:
    """A frame of a recording: its record, its place by its header, its findings, and its bytes.

    `cycle` is that of the recording, from 0, or None if it isn't known. `is_cut` if bytes of it are missing.
    """

    record: int
    seconds: str | None
    channel: str
    cycle: int | None
    slot: int | None
    findings: frozenset[str]
    seen: Seen
    is_good: bool
    begin: int | None

    @property
    def nanoseconds(self) -> int | None:
        """Returns its time."""
        return None if self.seconds is None else int(Decimal(self.seconds).scaleb(9))


Cell = tuple[int, str]
"""A cycle of the recording and a channel."""


@dataclass
class Windows:
    """The frames of a recording by cycle and channel: by their slot, or in the dynamic segment by their minislot.

    `left` are those without a window of their own, each with the reason.
    """

    of_slot: dict[Cell, dict[int, Heard]] = field(default_factory=dict)
    of_minislot: dict[Cell, list[tuple[int, Heard]]] = field(default_factory=dict)
    left: list[tuple[Heard, int | None, str]] = field(default_factory=list)

    def put(self, it: Heard, cycle: int, slot: int) -> None:
        """Puts a frame into a slot, which has at most one."""
        if self.is_early(it, cycle):
            return
        its = self.of_slot.setdefault((cycle, it.channel), {})
        if slot in its:
            self.left.append((it, cycle, f"another frame was seen in its window, that of slot {slot}"))
        else:
            its[slot] = it

    def put_later(self, it: Heard, cycle: int, minislot: int) -> None:
        """Puts a frame into the window that is open at a minislot."""
        if not self.is_early(it, cycle):
            self.of_minislot.setdefault((cycle, it.channel), []).append((minislot, it))

    def is_early(self, it: Heard, cycle: int) -> bool:
        """Returns whether a frame comes before the first cycle, and keeps it as one without a window."""
        if cycle < 0:
            self.left.append((it, cycle, "it was seen before the first cycle that is known"))
        return cycle < 0


class Clock:
    """The macroticks of a recording by its times: those of static frames that fit, and between them in proportion."""

    def __init__(self, cluster: Cluster, frames: Iterable[Heard], nanoseconds: float) -> None:
        """NANOSECONDS is the length of a macrotick, of use if the static frames that fit are of one time."""
        self.cluster, self.margin = cluster, cluster.parameters.static_mt / 2
        its = sorted((time, place, it.record) for it in frames if it.is_good and not it.findings
                     and (time := it.nanoseconds) is not None and (place := self.place_of(it)) is not None)
        rates = [(two[0] - one[0]) / (two[1] - one[1]) for one, two in pairwise(its) if two[1] > one[1]]
        self.rate = median(rates) if rates else nanoseconds
        agrees = [self.rate > 0 and abs(two[0] - one[0] - self.rate * (two[1] - one[1])) < self.margin * self.rate
                  for one, two in pairwise(its)]
        kept = [it for it, before, after in zip(its, [False, *agrees], [*agrees, False]) if before or after]
        kept = kept if rates else its[:1]
        self.is_of_use = bool(kept) and (not rates or (len(its) - len(kept)) * MOST_WRONG <= len(its))
        self.times, self.macroticks = [it[0] for it in kept], [it[1] for it in kept]
        self.sure = {it[2] for it in kept}
        """The records of the frames that give the times."""

    def place_of(self, it: Heard) -> int | None:
        """Returns the macrotick of a static frame by its header."""
        its = self.cluster.parameters
        if it.cycle is None or it.slot is None or not 1 <= it.slot <= its.static_slots:
            return None
        return it.cycle * its.cycle_mt + (it.slot - 1) * its.static_mt

    def macrotick(self, nanoseconds: int | None) -> float | None:
        """Returns the macrotick of a time, or None if times are of no use."""
        if nanoseconds is None or not self.is_of_use:
            return None
        after = bisect(self.times, nanoseconds)
        if 0 < after < len(self.times):
            (one, two), (first, second) = self.times[after - 1:after + 1], self.macroticks[after - 1:after + 1]
            return first + (nanoseconds - one) / (two - one) * (second - first)
        end = min(after, len(self.times) - 1)
        return self.macroticks[end] + (nanoseconds - self.times[end]) / self.rate


class Placing:
    """Finds the windows of frames."""

    def __init__(self, cluster: Cluster, frames: list[Heard], macrotick_us: float | None) -> None:
        """Captures of the bench have a macrotick as a microsecond, as clusters without `macrotick_us`."""
        clock = Clock(cluster, frames, 1000 * (macrotick_us or 1))
        self.its, self.clock, self.windows = cluster.parameters, clock, Windows()
        self.static_end = self.its.static_slots * self.its.static_mt
        times = {it.record: self.clock.macrotick(it.nanoseconds) for it in frames}
        # Of two frames in a window, the one that fits stays.
        for it in sorted(frames, key=lambda it: not self.is_right(it, times[it.record])):
            self.place(it, times[it.record])
        for later in self.windows.of_minislot.values():
            later.sort(key=lambda it: (it[0], it[1].record))

    def place(self, it: Heard, time: float | None) -> None:
        """Puts a frame at the macrotick TIME, if that is known, into its window."""
        is_known = it.cycle is not None and it.slot is not None
        if is_known and (time is None or self.is_right(it, time)):
            self.windows.put(it, it.cycle or 0, it.slot or 0)
        elif time is None:
            self.windows.left.append((it, it.cycle, "it isn't known in which window it was sent"))
        else:
            self.place_by_time(it, time)

    def is_right(self, it: Heard, time: float | None) -> bool:
        """Returns whether a frame fits into the slot of its header."""
        return it.is_good and it.findings <= IN_PLACE and self.agrees(it, time)

    def agrees(self, it: Heard, time: float | None) -> bool:
        """Returns whether the place of a frame by its header agrees with its time, if there is one."""
        if time is None or it.record in self.clock.sure:
            return True
        if it.cycle is None or it.slot is None:
            return False
        own = self.clock.place_of(it)
        if own is not None:
            return abs(time - own) <= self.clock.margin
        begin = it.cycle * self.its.cycle_mt
        return begin + self.static_end - self.clock.margin <= time < begin + self.its.cycle_mt

    def place_by_time(self, it: Heard, time: float) -> None:
        """Puts a frame into the window of its time."""
        cycle = int((time + self.clock.margin) // self.its.cycle_mt)
        offset = time - cycle * self.its.cycle_mt
        if offset < self.static_end - self.clock.margin:
            self.windows.put(it, cycle, round(offset / self.its.static_mt) + 1)
        elif self.its.minislots:
            minislot = round((offset - self.static_end) / self.its.minislot_mt) + 1
            self.windows.put_later(it, cycle, min(max(minislot, 1), self.its.minislots))
        else:
            self.windows.left.append((it, cycle, "it was sent outside of all slots"))
