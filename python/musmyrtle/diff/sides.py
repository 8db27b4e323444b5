"""The part of a run that is compared with a part of another one: commits, answers to tasks, and transmissions."""
from collections import Counter
from collections.abc import Hashable
from dataclasses import dataclass, replace

from musmyrtle.cluster import CYCLES
from musmyrtle.diff.shifts import Contents, Cycles
from musmyrtle.show.arrivals import HEADER, NULL, TRAILER
from musmyrtle.show.facts import Call, Commit, Facts, Transmission


@dataclass(frozen=True)
class Side:
    """The commits, answers and transmissions of a run, or of a part of it."""

    commits: list[Commit]
    calls: list[Call]
    record: list[Transmission]

    @classmethod
    def of(cls, facts: Facts) -> "Side":
        """Returns all of a run."""
        return cls(facts.commits, facts.calls, facts.record)

    def contents(self) -> Contents:
        """Returns what each cycle has, without the words that have its number."""
        found: dict[int, list[Hashable]] = {}
        for commit in self.commits:
            found.setdefault(commit.cycle, []).append((commit.node, commit.buffer, commit.task, commit.data))
        for call in self.calls:
            found.setdefault(call.cycle, []).append((call.node, call.task, call.kind, call.buffer, call.data))
        for it in self.record:
            found.setdefault(it.cycle, []).append(
                (it.slot, it.minislot, it.channel, it.node, it.what, it.end, it.flags, it.bit, payload_of(it)))
        return {cycle: tuple(its) for cycle, its in found.items()}

    def numbers(self) -> dict[str, Counter[int]]:
        """Returns the numbers of commits, calls and data frames of each cycle."""
        return {"commits": Counter(it.cycle for it in self.commits), "calls": Counter(it.cycle for it in self.calls),
                "data frames": Counter(it.cycle for it in self.record if it.flags and NULL not in it.flags)}

    def part(self, cycles: Cycles, shift: int) -> "Side":
        """Returns the part in some cycles, which are then SHIFT cycles earlier. Its frames are their payloads."""
        def earlier(cycle: int | None) -> int | None:
            return None if cycle is None else cycle - shift
        return Side(
            [replace(it, cycle=it.cycle - shift, ended=earlier(it.ended)) for it in self.commits
             if cycles.has(it.cycle)],
            [replace(it, cycle=it.cycle - shift, came=earlier(it.came),
                     count=None if it.count is None else (it.count - shift) % len(CYCLES)) for it in self.calls
             if cycles.has(it.cycle)],
            [replace(it, cycle=it.cycle - shift, data=payload_of(it)) for it in self.record if cycles.has(it.cycle)])


def payload_of(it: Transmission) -> str | None:
    """Returns the payload of a frame, whose header has the cycle count, and all bytes of what is no frame."""
    if it.data is None or it.frame is None:
        return it.data
    return f"x{it.data[1 + 2 * HEADER:-2 * TRAILER]}"
