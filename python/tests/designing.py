"""Things that the tests of `design` share: networks as texts, and schedules that are judged without the package.

Slots and orders are compared with searches through all possibilities, which share no code with the package. They follow
docs/RULES.md: a dynamic slot takes one minislot, or those of a frame that begins by the latest minislot of its node.
"""
from collections.abc import Iterator, Sequence
from itertools import product

from musmyrtle.design.frames import Frame
from musmyrtle.design.packing import Item

NETWORK = """[params]
cycle_mt = 5000

[[node]]
name = "engine"

[[node]]
name = "brakes"

[[message]]
name = "speed"
sender = "engine"
receivers = ["brakes"]
bytes = 16
period_ms = 10
channels = "AB"

[[message]]
name = "pedal"
sender = "brakes"
receivers = ["engine"]
bytes = 4
period_ms = 5
channels = "AB"

[[message]]
name = "alarm"
sender = "brakes"
receivers = ["engine"]
bytes = 12
period_ms = 20
deadline_ms = 6
sporadic = true
"""

Want = tuple[int, str, int]
"""A static frame: its sender, its channels and its repetition."""
Urgent = tuple[int, int, int]
"""A dynamic frame: its node, the minislots that it fills, and its deadline in macroticks."""


def items_of(wants: Sequence[Want]) -> list[Item]:
    """Returns the frames for the package."""
    return [Item(Frame(f"m{number}", sender, (), 2, 1, None, True, channels, "state"), repetition)
            for number, (sender, channels, repetition) in enumerate(wants)]


def least_by_trial(wants: Sequence[Want], sync: Sequence[int]) -> int:
    """Returns the least number of static slots, by trying all places for 0, 1, 2 .. slots."""
    count = 0
    while not Trial(wants, sync, count).fits():
        count += 1
    return count


class Trial:
    """All ways to put frames into so many slots."""

    def __init__(self, wants: Sequence[Want], sync: Sequence[int], count: int) -> None:
        self.wants, self.count = sorted(wants, key=lambda it: it[2]), count
        self.owner = {(slot, channel): -1 for slot in range(count) for channel in "AB"}
        self.taken: dict[tuple[int, str], set[int]] = {it: set() for it in self.owner}
        self.has_room = len(sync) <= count
        for slot, node in enumerate(sync[:count]):
            # All slots are alike at first, so each sync node may have the next one.
            self.owner[slot, "A"] = self.owner[slot, "B"] = node

    def fits(self) -> bool:
        return self.has_room and self.put(0)

    def put(self, number: int) -> bool:
        """Returns whether the frames from this one on find places."""
        if number == len(self.wants):
            return True
        sender, channels, repetition = self.wants[number]
        for these in ("A", "B") if channels == "either" else (channels,):
            for slot in range(self.count):
                places = [(slot, it) for it in these]
                owners = [self.owner[it] for it in places]
                if any(it not in (-1, sender) for it in owners):
                    continue
                for base in range(repetition):
                    cycles = set(range(base, 8, repetition))
                    if any(self.taken[it] & cycles for it in places):
                        continue
                    for it in places:
                        self.owner[it], self.taken[it] = sender, self.taken[it] | cycles
                    if self.put(number + 1):
                        return True
                    for it, owner in zip(places, owners):
                        self.owner[it], self.taken[it] = owner, self.taken[it] - cycles
        return False


class Segment:
    """A dynamic segment with minislots of 5 macroticks, in which all schedules of few frames are tried."""

    def __init__(self, minislots: int, idle: int, cycle: int, frames: Sequence[Urgent]) -> None:
        self.minislots, self.idle, self.cycle, self.frames = minislots, idle, cycle, frames

    def most(self, node: int) -> int:
        """Returns the greatest latest minislot of a node."""
        longest = max(filled for its, filled, _ in self.frames if its == node)
        return self.minislots - longest - self.idle + 1

    def is_possible(self) -> bool:
        """Returns whether slots, cycles of repetition 1 or 2 and latest minislots exist that meet all deadlines."""
        nodes = sorted({node for node, _, _ in self.frames})
        if any(self.most(node) < 1 for node in nodes):
            return False
        filters = [(repetition, base) for repetition in (1, 2) for base in range(repetition)]
        latest = [range(self.most(node), 0, -1) for node in nodes]
        return any(self.meets(chosen, dict(zip(nodes, limits))) for chosen in self.choices(filters)
                   for limits in product(*latest))

    def choices(self, filters: Sequence[tuple[int, int]]) -> Iterator[list[tuple[int, int, int]]]:
        """Yields the slot, repetition and base of each frame, in which no slot has two frames in a cycle."""
        count = len(self.frames)
        for slots in product(range(count), repeat=count):
            for chosen in product(filters, repeat=count):
                places = [(slot, cycle) for slot, (repetition, base) in zip(slots, chosen)
                          for cycle in range(base, 2, repetition)]
                if len(set(places)) == len(places) and all(
                        repetition * self.cycle <= max(self.cycle, frame[2])
                        for (repetition, _), frame in zip(chosen, self.frames)):
                    yield [(slot, *it) for slot, it in zip(slots, chosen)]

    def starts(self, cycle: int, chosen: Sequence[tuple[int, int, int]], latest: dict[int, int]) -> dict[int, int]:
        """Returns the last minislot at which each frame of a cycle can begin."""
        begins, found = {1}, dict[int, int]()
        for slot in range(len(self.frames)):
            number = next((it for it, (its, repetition, base) in enumerate(chosen)
                           if its == slot and cycle % repetition == base), None)
            after = {it + 1 for it in begins}
            if number is not None:
                node, filled, _ = self.frames[number]
                found[number] = max(begins)
                after |= {it + filled + self.idle for it in begins if it <= latest[node]}
            begins = after
        return found

    def meets(self, chosen: Sequence[tuple[int, int, int]], latest: dict[int, int]) -> bool:
        """Returns whether each frame meets its deadline in the worst case."""
        starts = [self.starts(cycle, chosen, latest) for cycle in range(2)]
        for number, (node, filled, deadline) in enumerate(self.frames):
            sure = [cycle for cycle in range(2) if starts[cycle].get(number, self.minislots + 1) <= latest[node]]
            if not sure:
                return False
            first, waits = chosen[number][0] * 5, []
            for cycle in sure:
                later = 1 if (cycle + 1) % 2 in sure else 2
                end = (starts[(cycle + later) % 2][number] - 1 + filled) * 5
                waits.append(later * self.cycle + end - first)
            if max(waits) > deadline:
                return False
        return True
