"""A quick model of the dynamic segment, for the search. The proved program judges what the search finds.

In the model each frame is sent in each of its cycles. A slot opens latest when all frames before it are sent, so the
delay of a slot is a sum, and a frame that moves back lets all others come earlier. So the last place can be given to
any frame that bears it, and then the place before it: if some order meets all deadlines, this finds one.
"""
from collections.abc import Iterable, Iterator, Sequence
from dataclasses import dataclass, field
from itertools import islice

from musmyrtle.cluster import Cycles
from musmyrtle.design.frames import Frame


@dataclass(frozen=True)
class Entry:
    """A frame on one channel of the dynamic segment, with its cycles."""

    frame: Frame
    channel: str
    cycles: Cycles
    further: int
    """The minislots that it takes beyond the one of an empty slot."""
    slack: int
    """The minislots by which its slot may open later than the earliest."""
    latest: int
    """The latest minislot of its node."""
    slot: int | None = None
    """The slot, if it is fixed: its number from the first dynamic slot on, from 0."""


@dataclass
class Lane:
    """The order of one channel: the entries of each slot, and by how many minislots each one comes too late."""

    slots: dict[int, list[Entry]] = field(default_factory=dict)
    misses: list[tuple[Entry, int]] = field(default_factory=list)

    @property
    def cost(self) -> int:
        """Returns the minislots by which all late entries are too late."""
        return sum(late for _, late in self.misses)


def loads_of(groups: Iterable[Sequence[Entry]], cycles: int) -> list[int]:
    """Returns for each cycle the further minislots of all entries."""
    loads = [0] * cycles
    for group in groups:
        for it in group:
            for cycle in range(it.cycles.base, cycles, it.cycles.repetition):
                loads[cycle] += it.further
    return loads


def take(loads: list[int], group: Sequence[Entry]) -> None:
    """Takes the minislots of the entries of a slot off the loads."""
    for it in group:
        for cycle in range(it.cycles.base, len(loads), it.cycles.repetition):
            loads[cycle] -= it.further


def lateness(group: Sequence[Entry], loads: Sequence[int], place: int, offset: int) -> int:
    """Returns by how many minislots the entries of a slot are too late behind all others of LOADS, 0 if none is.

    Several entries of one slot have different cycles, so none of them delays another one.
    """
    most = 0
    for it in group:
        delay = max(loads[it.cycles.base::it.cycles.repetition]) - it.further + offset
        most = max(most, delay - it.slack, place + 1 + delay - it.latest)
    return most


def ordered(groups: Iterable[Sequence[Entry]], offset: int = 0) -> Lane:
    """Returns the order of the slots of a channel, with fixed slots where they are.

    OFFSET is the number of minislots that are kept free before the first slot. The last place goes to the first group
    that bears it, those with the most slack first. If none does, it goes to the one that is least late.
    """
    free = sorted((it for it in groups if it[0].slot is None), key=patience)
    fixed = {it[0].slot: it for it in groups if it[0].slot is not None}
    cycles = max((it.cycles.repetition for group in [*free, *fixed.values()] for it in group), default=1)
    loads, lane = loads_of([*free, *fixed.values()], cycles), Lane()
    last = max(fixed, default=-1) + len(free)
    for place in range(last, -1, -1):
        if place in fixed:
            put(lane, fixed[place], loads, place, offset)
        elif free:
            chosen = next_of(free, loads, place, offset)
            is_late = lateness(chosen, loads, place, offset) > 0
            rooms = sum(1 for it in range(place) if it not in fixed)
            if is_late and fixed and rooms >= len(free):
                continue
            free.remove(chosen)
            put(lane, chosen, loads, place, offset)
    lane.slots = dict(sorted(lane.slots.items()))
    return lane


def put(lane: Lane, group: Sequence[Entry], loads: list[int], place: int, offset: int) -> None:
    """Gives a place to the entries of a slot, and notes those that are late there."""
    for it in group:
        late = lateness([it], loads, place, offset)
        if late:
            lane.misses.append((it, late))
    take(loads, group)
    lane.slots[place] = list(group)


def patience(group: Sequence[Entry]) -> tuple[int, int, str]:
    """Returns the place of a group among those that are tried: the most slack first."""
    return -min(min(it.slack + it.further, it.latest) for it in group), len(group), group[0].frame.name


def next_of(free: list[Sequence[Entry]], loads: Sequence[int], place: int, offset: int) -> Sequence[Entry]:
    """Returns the first group that bears the place, or the one that is least late."""
    best, least = free[0], -1
    for it in free:
        late = lateness(it, loads, place, offset)
        if not late:
            return it
        if least < 0 or late < least:
            best, least = it, late
    return best


def merged(lane: Lane) -> Lane:
    """Returns the order with fewer slots: neighbours whose cycles differ share one."""
    found: list[list[Entry]] = []
    for group in lane.slots.values():
        mates = found[-1] if found else []
        if found and all(not one.cycles.meet(it.cycles) for one in mates for it in group):
            mates.extend(group)
        else:
            found.append(list(group))
    return Lane({number: group for number, group in enumerate(found)}, list(lane.misses))


def measured(lane: Lane, offset: int = 0) -> Lane:
    """Returns the order with the misses that its slots have."""
    cycles = max((it.cycles.repetition for group in lane.slots.values() for it in group), default=1)
    loads, found = [0] * cycles, Lane(lane.slots)
    for place, group in lane.slots.items():
        for it in group:
            delay = max(loads[it.cycles.base::it.cycles.repetition]) + offset
            late = max(delay - it.slack, place + 1 + delay - it.latest)
            if late > 0:
                found.misses.append((it, late))
        for it in group:
            for cycle in range(it.cycles.base, cycles, it.cycles.repetition):
                loads[cycle] += it.further
    return found


def compacted(lane: Lane, offset: int = 0, work: int = 200_000) -> Lane:
    """Returns the order with fewer slots, in which no frame is late: frames of different cycles share a slot.

    Two slots become one at either of their places, if all deadlines are still met then. Fixed slots stay. WORK limits
    the trials, each of which counts all slots.
    """
    if lane.misses or any(it.slot is not None for group in lane.slots.values() for it in group):
        return lane
    groups, place = list(merged(lane).slots.values()), 0
    while place < len(groups):
        trials = max(0, work) // (1 + len(groups))
        shorter = None
        for it in islice(joinings(groups, place), trials):
            work -= 1 + len(groups)
            if not measured(numbered(it), offset).misses:
                shorter = it
                break
        if shorter is None:
            place += 1
        else:
            groups, place = shorter, min(place, len(shorter))
    return numbered(groups)


def joinings(groups: Sequence[list[Entry]], place: int) -> Iterator[list[list[Entry]]]:
    """Yields the orders in which the slot at a place and a later one are one slot, at the first or the second place."""
    first = groups[place]
    for other in range(place + 1, len(groups)):
        second = groups[other]
        if all(not one.cycles.meet(it.cycles) for one in first for it in second):
            both, between = [*first, *second], list(groups[place + 1:other])
            yield [*groups[:place], both, *between, *groups[other + 1:]]
            yield [*groups[:place], *between, both, *groups[other + 1:]]


def numbered(groups: Iterable[list[Entry]]) -> Lane:
    """Returns the order of some slots without gaps."""
    return Lane(dict(enumerate(groups)))
