"""The cycles and the windows of a run that a line of a scenario names."""
import re
from dataclasses import dataclass
from functools import cached_property

EVERY = "*"
MOST_CYCLE, MOST_PLACE = 1023, 8000
EVERY_STATIC, EVERY_DYNAMIC = "s*", "m*"
NUMBER = r"(0|[1-9][0-9]{0,3})"
CYCLES = re.compile(rf"{NUMBER}(?:-{NUMBER}(?:/{NUMBER})?)?")
PLACE = re.compile(r"\*|[sm]\*|[smd]([1-9][0-9]{0,3})|s([1-9][0-9]{0,3})-([1-9][0-9]{0,3})")


@dataclass(frozen=True)
class RunCycles:
    """Every STEPth cycle from FIRST on up to LAST, or up to the end of the run for None."""

    first: int = 0
    last: int | None = None
    step: int = 1

    @classmethod
    def of(cls, word: str) -> "RunCycles | None":
        """Returns the cycles that a word of version 3 names, or None where it has no form of CYCLES."""
        found = CYCLES.fullmatch(word)
        if found is None:
            return cls() if word == EVERY else None
        first = int(found[1])
        last, step = int(found[2] or first), int(found[3] or 1)
        return cls(first, last, step) if first <= last <= MOST_CYCLE and 1 <= step <= MOST_CYCLE else None

    def within(self, cycles: int) -> range:
        """Returns those of a run of so many cycles."""
        return range(self.first, cycles if self.last is None else min(cycles, self.last + 1), self.step)

    def cut(self, cycles: int) -> "RunCycles":
        """Returns these cycles, without those that a run of so many lacks. FIRST stays."""
        last = max(self.first, cycles - 1)
        return self if self.last is None or self.last <= last else RunCycles(self.first, last, self.step)

    @property
    def is_one(self) -> bool:
        """Returns whether this is a single cycle."""
        return self.last is not None and self.first + self.step > self.last

    @cached_property
    def bits(self) -> int:
        """Returns the cycles as bits of a number: a 1 and STEP - 1 zeros, as many times as there are cycles."""
        count = len(self.within(MOST_CYCLE + 1))
        return ((1 << self.step * count) - 1) // ((1 << self.step) - 1) << self.first

    def __str__(self) -> str:
        if self.last is None:
            return EVERY
        step = "" if self.step == 1 else f"/{self.step}"
        return str(self.first) if self.first == self.last else f"{self.first}-{self.last}{step}"


def spelled(cycles: list[int]) -> list[str]:
    """Returns the fewest simple words for some rising cycles: a range wherever three or two neighbours have one step.

    Two cycles that aren't neighbours are two words, which are easier to read than a range with a step.
    """
    words, at = [], 0
    while at < len(cycles):
        end = at + 1
        step = cycles[end] - cycles[at] if end < len(cycles) else 1
        while end < len(cycles) and cycles[end] - cycles[end - 1] == step:
            end += 1
        if end - at < 3 and step > 1:
            end = at + 1
        words.append(str(RunCycles(cycles[at], cycles[end - 1], step)))
        at = end
    return words


@dataclass(frozen=True)
class FaultPlace:
    """The windows of a cycle that a fault line names.

    The segment is `s` for static slots, `m` for minislots, `d` for a dynamic slot, and `*` for every window. The
    numbers of the first and the last one are None for all.
    """

    segment: str
    first: int | None = None
    last: int | None = None

    @classmethod
    def of(cls, word: str) -> "FaultPlace | None":
        """Returns the windows that a word of version 3 names, or None where it has no form of PLACE."""
        found = PLACE.fullmatch(word)
        if found is None:
            return None
        first, last = int(found[1] or found[2] or 0), int(found[1] or found[3] or 0)
        if first == 0:
            return cls(word[0])
        return cls(word[0], first, last) if first <= last <= MOST_PLACE else None

    @property
    def has_static(self) -> bool:
        return self.segment in "*s"

    @property
    def has_dynamic(self) -> bool:
        return self.segment != "s"

    def has(self, slot: int | None, minislot: int | None) -> bool:
        """Returns whether a window is one of them: the slot of a channel in it, if any, and the minislot of a dynamic
        one."""
        if self.segment != EVERY and (self.segment == "s") != (minislot is None):
            return False
        found = minislot if self.segment == "m" else slot
        return self.first is None or found is not None and self.first <= found <= (self.last or 0)

    @cached_property
    def claims(self) -> int:
        """Returns the windows as bits of a number, one of which each other place that shares a window asks for."""
        if self.first is not None:
            return numbered(self.segment, self.first, self.last or 0) | ANY[self.segment]
        return sum(EVERY_WINDOW[it] for it in ("sm" if self.segment == EVERY else self.segment))

    @cached_property
    def asks(self) -> int:
        """Returns the bits one of which each other place that shares a window claims.

        A dynamic slot may open at each minislot, so it is taken to share a window with each.
        """
        if self.first is not None:
            other = {"s": 0, "m": ANY["d"], "d": ANY["m"]}[self.segment]
            return numbered(self.segment, self.first, self.last or 0) | EVERY_WINDOW[self.segment] | other
        static, dynamic = EVERY_WINDOW["s"] | ANY["s"], EVERY_WINDOW["m"] | ANY["m"] | ANY["d"]
        return {"s": static, "m": dynamic, EVERY: static | dynamic}[self.segment]

    def __str__(self) -> str:
        if self.first is None:
            return EVERY if self.segment == EVERY else f"{self.segment}{EVERY}"
        return f"{self.segment}{self.first}" + ("" if self.first == self.last else f"-{self.last}")


EVERY_WINDOW, ANY = {"s": 1, "m": 2, "d": 2}, {"s": 4, "m": 8, "d": 16}
"""The bits for every window of a segment, and for any static slot, any minislot and any dynamic slot."""
SEGMENTS = "smd"


def numbered(segment: str, first: int, last: int) -> int:
    """Returns the bits for numbers of a segment. Each number has three, after those for every and any."""
    count = last - first + 1
    return ((1 << 3 * count) - 1) // 7 << 3 * first + 2 + SEGMENTS.index(segment)
