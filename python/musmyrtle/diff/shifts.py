"""The cycles by which all that is in one run or recording comes later in the other one.

A cycle has a content, by which it is compared with others. A change of the content from one cycle to the next is found
again in the other run, and the distance of both is a shift that may explain all differences.
"""
from collections import Counter
from collections.abc import Hashable, Iterator, Mapping
from dataclasses import dataclass

from musmyrtle.diff.differences import ADDED, REMOVED, Difference
from musmyrtle.show.tables import Numbers

LATER, EARLIER = "later", "earlier"
BEGIN, EVERYTHING = "begin", "everything"
"""The parts that are shifted: the begin of a recording, or all that it has."""
MOST_PLACES, MOST_SHIFTS = 4, 8
"""The places of a change that are compared, and the shifts that are tried."""
SHARE = 5
"""With a shift at most one in so many cycles differs of those that differ without it."""
Contents = Mapping[int, Hashable]
"""The contents of cycles, by their numbers."""


@dataclass(frozen=True)
class Cycles:
    """The cycles of a run or a recording that are compared, by its own numbers: from the first one up to the last."""

    first: int
    last: int

    def has(self, cycle: int | None) -> bool:
        """Returns whether a cycle is compared. One that isn't known is."""
        return cycle is None or self.first <= cycle <= self.last

    def others(self, numbers: Mapping[int, int]) -> Iterator[tuple[Numbers, int]]:
        """Yields the cycles that aren't compared, before and after these, with the sum of their numbers."""
        for its in ([it for it in numbers if it < self.first], [it for it in numbers if it > self.last]):
            count = sum(numbers[it] for it in its)
            if count:
                yield Numbers(tuple(sorted(its))), count


def shift_between(old: Contents, new: Contents) -> int:
    """Returns the cycles by which the contents of one come later in the other, or 0 if that doesn't explain them."""
    if not old or not new:
        return 0
    unshifted = unequal(old, new, 0)
    if not unshifted:
        return 0
    votes: Counter[int] = Counter()
    places = changes_in(new)
    for change, its in changes_in(old).items():
        votes.update(there - here for here in its for there in places.get(change, ()))
    tried = [it for it, _ in votes.most_common(MOST_SHIFTS) if it]
    best = min(((unequal(old, new, it), abs(it), it) for it in tried), default=(unshifted, 0, 0))
    return best[2] if best[0] * SHARE <= unshifted else 0


def changes_in(contents: Contents) -> dict[tuple[Hashable, Hashable], list[int]]:
    """Returns the first places of each change from one content to another one."""
    found: dict[tuple[Hashable, Hashable], list[int]] = {}
    for cycle, content in contents.items():
        before = contents.get(cycle - 1)
        if before is not None and before != content:
            its = found.setdefault((before, content), [])
            if len(its) < MOST_PLACES:
                its.append(cycle)
    return found


def unequal(old: Contents, new: Contents, shift: int) -> int:
    """Returns the cycles whose contents differ, of those that both have. Without two of them no shift is known."""
    both = [(content, new[cycle + shift]) for cycle, content in old.items() if cycle + shift in new]
    return sum(one != other for one, other in both) if len(both) > 1 else len(old)


def common(old: Cycles, new: Cycles, shift: int) -> tuple[Cycles, Cycles]:
    """Returns the cycles of both that are compared: by the shift, each has a partner."""
    first, last = max(old.first, new.first - shift), min(old.last, new.last - shift)
    return Cycles(first, last), Cycles(first + shift, last + shift)


def shift_row(key: str, shift: int) -> Difference:
    """Returns the row of a shift."""
    return Difference("shift", LATER if shift > 0 else EARLIER, key, by=abs(shift))


def alone_rows(key: str, old: Iterator[tuple[Numbers, int]], new: Iterator[tuple[Numbers, int]]
               ) -> Iterator[Difference]:
    """Yields a row for the cycles that only one side has."""
    for cycles, count in old:
        yield Difference("alone", REMOVED, key, count, None, cycles=cycles)
    for cycles, count in new:
        yield Difference("alone", ADDED, key, None, count, cycles=cycles)
