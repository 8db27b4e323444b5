"""The lines of a scenario: calls of tasks, and fault lines with those that they meet."""
from collections.abc import Iterable
from dataclasses import dataclass, field
from functools import cached_property

from musmyrtle.named_windows import MOST_CYCLE, FaultPlace, RunCycles

FORMS = {
    "commit": ("NODE", "TASK", "CYCLE", "BUFFER", "HEX"),
    "withdraw": ("NODE", "TASK", "CYCLE", "BUFFER"),
    "read": ("NODE", "TASK", "CYCLE", "BUFFER"),
    "pop": ("NODE", "TASK", "CYCLE"),
    "babble": ("NODE", "CHANNEL", "CYCLES", "PLACE", "HEX"),
    "mute": ("NODE", "CHANNEL", "CYCLES", "PLACE"),
    "corrupt": ("CHANNEL", "CYCLES", "PLACE", "BIT"),
    "end": (),
}
"""The words of a line after its kind, in versions 1 and 2."""
EXPECTATIONS = {
    "expect": ("NODE", "CYCLES", "BUFFER", "HEX"),
    "expect-none": ("NODE", "CYCLES", "BUFFER"),
}
"""The same of the lines of version 3 that say what a receive buffer holds at the end of a cycle."""
FAULTS = ("babble", "mute", "corrupt")
LOST = "lost"


@dataclass(frozen=True)
class Line:
    """A line of the scenario: its number from 1, and its words.

    The words are those of version 2, but for cycles and places: the number of a node or buffer is in the place of its
    name. A line of version 3 for two channels is two of these, and `lost` is two lines `mute`.
    """

    number: int
    words: tuple[str, ...]
    begins: tuple[int, ...] = ()
    """The column in the text for each of the words, or nothing where they are those of the text."""
    is_lost: bool = False

    @property
    def kind(self) -> str:
        return self.words[0]

    @property
    def form(self) -> tuple[str, ...]:
        """Returns the names of the words after the kind."""
        return EXPECTATIONS[self.kind] if self.kind in EXPECTATIONS else FORMS[self.kind]

    @property
    def written(self) -> str:
        """Returns the kind that the text has."""
        return LOST if self.is_lost else self.kind

    def word(self, name: str) -> str:
        return self.words[1 + self.form.index(name)]

    def column(self, name: str) -> int:
        """Returns the column where the word of this name begins."""
        at = 1 + self.form.index(name)
        return self.begins[at] if self.begins else sum(len(it) + 1 for it in self.words[:at]) + 1

    def value(self, name: str) -> int:
        return int(self.word(name))

    @cached_property
    def cycles(self) -> RunCycles:
        """Returns the cycles that it names."""
        found = RunCycles.of(self.word("CYCLE" if "CYCLE" in self.form else "CYCLES"))
        assert found is not None
        return found

    @property
    def size(self) -> int:
        """Returns the number of its bytes."""
        return (len(self.word("HEX")) - 1) // 2


@dataclass(frozen=True)
class FaultLine(Line):
    @cached_property
    def place(self) -> FaultPlace:
        """Returns the windows of a cycle that it names."""
        found = FaultPlace.of(self.word("PLACE"))
        assert found is not None
        return found

    @property
    def sort(self) -> "Sort":
        return self.kind, "" if self.kind == "corrupt" else self.word("NODE"), self.word("CHANNEL")


Sort = tuple[str, str, str]
"""The kind, node and channel of a fault line."""


class FaultLines:
    """The fault lines so far, found by the windows of a run of CYCLES cycles that they name."""

    def __init__(self, cycles: int = MOST_CYCLE + 1) -> None:
        self.cycles = cycles
        self.sorts: dict[Sort, LinesOfSort] = {}

    def add(self, line: FaultLine) -> None:
        self.sorts.setdefault(line.sort, LinesOfSort()).add(line, line.cycles.cut(self.cycles))

    def meeting(self, line: FaultLine) -> FaultLine | None:
        """Returns the first line so far that is the same sort of fault for a common window."""
        found = self.sorts.get(line.sort)
        return found.meeting(line, line.cycles.cut(self.cycles)) if found else None


@dataclass
class LinesOfCycles:
    """Lines for the same cycles, which are bits of a number: each with its place among all lines, and the windows that
    they claim together."""

    cycles: int
    claims: int = 0
    lines: list[tuple[int, FaultLine]] = field(default_factory=list)

    def meeting(self, asks: int) -> tuple[int, FaultLine]:
        """Returns the first line that claims one of the windows, and its place."""
        return next(it for it in self.lines if it[1].place.claims & asks)


class LinesOfSort:
    """Fault lines of one kind, node and channel.

    They are kept by their first and last cycle and step, not by each cycle: a line may name all of 1,024. Those of one
    cycle are apart, so that a line of one cycle is compared with few of them.
    """

    def __init__(self) -> None:
        self.of_one: dict[int, LinesOfCycles] = {}
        self.of_several: dict[RunCycles, LinesOfCycles] = {}
        self.claims = self.cycles = self.count = 0

    def add(self, line: FaultLine, cycles: RunCycles) -> None:
        """Adds a line for these cycles."""
        its = self.of_one.get(cycles.first) if cycles.is_one else self.of_several.get(cycles)
        if its is None:
            its = LinesOfCycles(cycles.bits)
            if cycles.is_one:
                self.of_one[cycles.first] = its
            else:
                self.of_several[cycles] = its
        its.lines.append((self.count, line))
        its.claims |= line.place.claims
        self.claims |= line.place.claims
        self.cycles |= cycles.bits
        self.count += 1

    def meeting(self, line: FaultLine, cycles: RunCycles) -> FaultLine | None:
        """Returns the first line that is for a window in common with one for these cycles."""
        asks = line.place.asks
        if not asks & self.claims or not cycles.bits & self.cycles:
            return None
        of_one: Iterable[LinesOfCycles] = self.of_one.values()
        if cycles.is_one:
            of_one = [self.of_one[cycles.first]] if cycles.first in self.of_one else []
        found = [it for it in (first_meeting(of_one, cycles.bits, asks),
                               first_meeting(self.of_several.values(), cycles.bits, asks)) if it]
        return min(found, key=lambda it: it[0])[1] if found else None


def first_meeting(lines: Iterable[LinesOfCycles], cycles: int, asks: int) -> tuple[int, FaultLine] | None:
    """Returns the first line for one of the cycles that claims one of the windows, and its place.

    The lines come in the order of the first ones.
    """
    found: tuple[int, FaultLine] | None = None
    for it in lines:
        if found and it.lines[0][0] > found[0]:
            break
        if asks & it.claims and cycles & it.cycles:
            first = it.meeting(asks)
            found = min(found or first, first, key=lambda its: its[0])
    return found
