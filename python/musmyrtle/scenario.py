"""A scenario: the lines of its tasks and its faults, and the first line at fault and the further ones.

All three versions are read. A line of version 3 is kept as the lines of version 2 that it stands for, but for its
cycles and places, with the column of each word in the text.
"""
import re
from collections.abc import Iterator
from dataclasses import dataclass, field

from musmyrtle.file_kinds import SCENARIO, Kind, kind_of
from musmyrtle.findings import Finding
from musmyrtle.mending import MARK, wide_hint
from musmyrtle.names import LineNames, Names
from musmyrtle.places import Place
from musmyrtle.scenario_lines import EXPECTATIONS, FaultLine, Line
from musmyrtle.scenario_words import NEWEST, Words
from musmyrtle.texts import FILE_LIMIT

MOST_LINES = 4096
LONGEST_LINE = 1200
MOST_CALLS = 262_144
"""The calls that a scenario may make in the cycles of its run."""
MAGICS = {f"frscenario {version}": version for version in range(1, NEWEST + 1)}


@dataclass
class Scenario:
    file: str
    text: list[str] = field(default_factory=list)
    scripts: dict[tuple[int, int], list[Line]] = field(default_factory=dict)
    """The lines of each task, by node and task; scripts are numbered in the order of these."""
    faults: list[FaultLine] = field(default_factory=list)
    """The fault lines in their order, one for each channel."""
    expectations: list[Line] = field(default_factory=list)
    """The lines of version 3 that say what receive buffers hold, in their order."""
    refusals: list[tuple[str, Finding]] = field(default_factory=list)
    version: int = NEWEST
    skipped: list[int] = field(default_factory=list)
    """The numbers of the lines of version 3 that name only cycles that the run doesn't have."""

    def place(self, number: int, column: int | None = None) -> Place:
        return Place(self.file, number, column, self.text[number - 1] if number <= len(self.text) else "")

    def place_of(self, line: Line, name: str | None = None) -> Place:
        return self.place(line.number, line.column(name) if name else None)

    def numbered(self) -> list[tuple[tuple[int, int], list[Line]]]:
        return sorted(self.scripts.items())

    def calls(self, cycles: int) -> Iterator[tuple[int, Line]]:
        """Yields each call of a run of so many cycles, with its cycle.

        They come by node, then task, then cycle, and those of one task in one cycle in the order of their lines.
        """
        for _, lines in self.numbered():
            by_cycle: dict[int, list[Line]] = {}
            for line in lines:
                for cycle in line.cycles.within(cycles):
                    by_cycle.setdefault(cycle, []).append(line)
            yield from ((cycle, line) for cycle in sorted(by_cycle) for line in by_cycle[cycle])

    def count_of(self, line: Line, cycles: int | None) -> int:
        """Returns the number of calls that a line makes in a run of so many cycles."""
        return 1 if self.version < NEWEST or cycles is None else len(line.cycles.within(cycles))


NEARLY = re.compile(r"\s*frscenario\s*v?([123])\s*", re.IGNORECASE)
"""A first line that means a version."""
OTHER_VERSION = re.compile(r"frscenario (0|[1-9][0-9]{0,3})")


class Reading:
    """The reading of a scenario's bytes, for a run of so many cycles of a cluster with these names.

    Both are for version 3 alone: without CYCLES no line is left out, and without NAMES no name is known.
    """

    def __init__(self, file: str, data: bytes, cycles: int | None = None, names: Names | None = None):
        self.scenario, self.version = Scenario(file), 1
        self.cycles, self.names = cycles, LineNames(names)
        self.meant = 2
        """The lines for which the lines with words stand, and the first and the last one."""
        self.beyond: int | None = None
        """The line with which they are more than a scenario may have."""
        self.read(data)

    def refuse(self, refusal: str, headline: str, reason: str, number: int | None = None,
               column: int | None = None) -> None:
        place = None if number is None else self.scenario.place(number, column)
        self.scenario.refusals.append((refusal, Finding(headline, reason, place)))

    def read(self, data: bytes) -> None:
        if len(data) > FILE_LIMIT:
            self.refuse("TooLong", f"the scenario has {len(data)} bytes", f"It has at most {FILE_LIMIT}.")
            return
        try:
            text = data.decode()
        except UnicodeDecodeError as error:
            kind = None if kind_of(data) is SCENARIO else kind_of(data)
            headline = f"the file is {kind.name}" if kind else f"the byte 0x{data[error.start]:02x} is no UTF-8"
            number = data.count(b"\n", 0, error.start) + 1
            self.scenario.text = data.decode(errors="replace").split("\n")
            reason = kind.sentence if kind else wide_hint(data) or "A scenario is UTF-8, and but for comments ASCII."
            self.refuse("BadMagic", headline, reason.strip(), number)
            return
        lines = text.split("\n")
        self.scenario.text = lines
        if len(lines) < 2 or lines[0] not in MAGICS:
            self.refuse("BadMagic", *bad_magic(lines, kind_of(data)), 1)
            return
        self.version = self.scenario.version = MAGICS[lines[0]]
        self.read_lines(lines)
        self.count_lines()
        self.count_calls()

    def read_lines(self, lines: list[str]) -> None:
        """Reads the lines after the first. Bytes after the last line feed are no line."""
        for number, line in enumerate(lines[1:], 2):
            is_last = number == len(lines)
            if is_last and not line:
                break
            if number > MOST_LINES:
                headline = f"the scenario has more than {MOST_LINES} lines, and no `end` before"
                reason = f"Expected `end` in line {MOST_LINES} at the latest."
                self.refuse("TooManyLines", headline, reason, number)
                return
            if len(line.encode()) > LONGEST_LINE:
                headline = f"line {number} has {len(line.encode())} bytes"
                self.refuse(f"BadLine {number}", headline, f"A line has at most {LONGEST_LINE}.", number)
            elif is_last:
                break
            elif self.read_line(number, line):
                self.read_end(number, lines)
                return
        self.refuse("Truncated", *self.truncated(lines), len(lines) if lines[-1] else len(lines) - 1)

    def read_end(self, number: int, lines: list[str]) -> None:
        if number + 1 < len(lines) or lines[number]:
            headline = f"after `end`, in line {number}, the file goes on"
            reason = "Expected nothing after `end` and its line feed."
            self.refuse(f"BadLine {number + 1}", headline, reason, number + 1)

    def read_line(self, number: int, text: str) -> bool:
        """Reads a line and returns whether it is `end`."""
        line = Words.of(text, self.version, self.names)
        if not line.words:
            return False
        found = line.wrong()
        if found:
            headline, reason, column = found
            self.refuse(f"BadLine {number}", headline, reason, number, column)
        elif line.kind == "end":
            return True
        else:
            self.meant += len(line.meant())
            if self.beyond is None and self.meant > MOST_LINES:
                self.beyond = number
            self.add(line.lines(number))
        return False

    def add(self, lines: list[Line]) -> None:
        """Keeps the lines for which one stands, but those of version 3 that name only cycles that the run lacks."""
        kept = lines
        if self.version == NEWEST and self.cycles is not None:
            kept = [it for it in lines if it.cycles.first < self.cycles]
        if not kept:
            self.scenario.skipped.append(lines[0].number)
        for line in kept:
            if isinstance(line, FaultLine):
                self.scenario.faults.append(line)
            elif line.kind in EXPECTATIONS:
                self.scenario.expectations.append(line)
            else:
                self.scenario.scripts.setdefault((int(line.words[1]), int(line.words[2])), []).append(line)

    def count_lines(self) -> None:
        """Refuses more lines in place of those with lists than a scenario may have. Only the calls come later."""
        if self.beyond is not None:
            headline = f"the scenario stands for {self.meant} lines, with the lines of lists counted one by one"
            reason = f"It has at most {MOST_LINES}. The lines up to this one stand for more. Expected shorter lists."
            self.refuse("TooManyLines", headline, reason, self.beyond)

    def count_calls(self) -> None:
        """Refuses more calls in the run than there may be. This comes after all other faults."""
        lines = sorted((line for script in self.scenario.scripts.values() for line in script),
                       key=lambda it: it.number)
        count, first = 0, None
        for line in lines:
            count += self.scenario.count_of(line, self.cycles)
            first = first or (line.number if count > MOST_CALLS else None)
        if first:
            headline = f"the scenario makes {count} calls in {self.cycles} cycles"
            reason = f"It makes at most {MOST_CALLS}. The lines up to line {first} make more. Expected fewer cycles."
            self.refuse("TooManyCalls", headline, reason, first)

    def truncated(self, lines: list[str]) -> tuple[str, str]:
        """Returns the reason for a text that ends before the line feed of `end`."""
        return truncated(lines, Words.of(lines[-1], self.version).words == ("end",))


def bad_magic(lines: list[str], kind: Kind | None = None) -> tuple[str, str]:
    """Returns why a text of this kind doesn't begin as a scenario, and what is expected."""
    right = "Expected `frscenario 3`, `frscenario 2` or `frscenario 1`, and a line feed."
    if lines == [""]:
        return "the scenario is empty", right
    if lines[0].endswith("\r"):
        return "the first line ends with a carriage return", f"Lines end with a line feed alone. {right}"
    if lines[0] in MAGICS:
        return "the first line has no line feed", right
    if lines[0].startswith(MARK):
        return "the file begins with a byte order mark", f"Expected a file saved as UTF-8 without that mark. {right}"
    if kind is not None and kind is not SCENARIO:
        return f"the file is {kind.name}, and no scenario", f"{kind.sentence}{right}"
    if lines[0].lstrip(" \t").startswith("#") or not lines[0].strip():
        return "the first line doesn't name the format", f"Comments and empty lines come after it. {right}"
    found = NEARLY.fullmatch(lines[0])
    if found:
        return f"the first line isn't `frscenario {found[1]}`", f"Expected small letters and one space. {right}"
    version = OTHER_VERSION.fullmatch(lines[0])
    hint = f"There is no version {version[1]}. " if version else ""
    return "the first line doesn't name the format", f"{hint}{right}"


def truncated(lines: list[str], is_end: bool) -> tuple[str, str]:
    """Returns the reason for a text without the line feed of `end`. IS_END says whether its last line is `end`."""
    if is_end:
        return "the line `end` has no line feed", "Expected a line feed at the end of the file."
    if lines[-1]:
        reason = "Expected the rest of the line, and then `end` in a line."
        return "the file ends within a line, before `end`", reason
    return "the file ends without the line `end`", "Expected `end` as the last line."
