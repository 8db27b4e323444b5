"""The lines of a scenario whose faults had no effect in a run, and of its lists the choices without one, by the record.

docs/formats/views.md says what an effect is. The programs report whole lines, and only of runs with history.
"""
from collections.abc import Iterator
from dataclasses import dataclass

from musmyrtle.floods import MOST_ALIKE, SHOWN
from musmyrtle.names import LineNames, Names
from musmyrtle.scenario import Scenario
from musmyrtle.scenario_lines import FaultLine
from musmyrtle.scenario_words import NEWEST, Words

BABBLE, MUTE, CORRUPT = "babble", "mute", "corrupt"
PASSED = "passed"


@dataclass
class Choice:
    """One of the lines for which a line with lists stands: its words, and the fault lines of single channels."""

    text: str
    lines: tuple[FaultLine, ...]
    has_effect: bool = False


@dataclass(frozen=True)
class Sent:
    """The words of a transmission, or of a bit that a fault names, in the record."""

    kind: str
    cycle: int
    minislot: int | None
    slot: int | None
    channel: str
    node: str

    def is_of(self, line: FaultLine) -> bool:
        """Returns whether a fault line names it."""
        if line.kind != self.kind or line.word("CHANNEL") != self.channel:
            return False
        if line.kind != CORRUPT and line.word("NODE") != self.node:
            return False
        cycles = line.cycles
        is_late = cycles.last is not None and self.cycle > cycles.last
        return not is_late and self.cycle >= cycles.first and (self.cycle - cycles.first) % cycles.step == 0 and \
            line.place.has(self.slot, self.minislot)


class Effects:
    """The effects of a scenario's fault lines in a run of so many cycles, by the lines of its record."""

    def __init__(self, scenario: Scenario, names: Names, cycles: int) -> None:
        self.choices: dict[int, list[Choice]] = {}
        for line in scenario.faults:
            self.choices.setdefault(line.number, [])
        for number, its in self.choices.items():
            its += choices_in(scenario, number, LineNames(names), cycles)
        self.waiting = {str(it) for it in self.choices}
        """The lines of which a choice has no effect so far."""
        self.window, self.lines = "", list[str]()
        """The window of the last line, and its lines, if a fault flips a bit."""
        self.has_bits = any(it.kind == CORRUPT for it in scenario.faults)

    @property
    def has_lists(self) -> bool:
        """Returns whether a line stands for several."""
        return any(len(its) > 1 for its in self.choices.values())

    def add(self, line: str) -> None:
        """Adds a line of the record."""
        if self.has_bits:
            window = line.partition(" ")[0]
            if window != self.window:
                self.window, self.lines = window, []
            self.lines.append(line)
        if line.endswith(" -"):
            return
        words = line.split(" ")
        if words[6] != CORRUPT:
            self.note(words, BABBLE if words[6] == BABBLE else MUTE)
        elif self.is_flipped(words[4], int(words[7])):
            self.note(words, CORRUPT)

    def is_flipped(self, channel: str, bit: int) -> bool:
        """Returns whether exactly one transmission passed on a channel in the window, and has the bit."""
        sent = (it.split(" ") for it in self.lines)
        sizes = [4 * (len(it[11]) - 1) for it in sent if it[4] == channel and it[7] == PASSED]
        return len(sizes) == 1 and bit < sizes[0]

    def note(self, words: list[str], kind: str) -> None:
        """Notes the effect of a fault of a kind on a transmission or a bit, if its line still waits for one."""
        if words[-1] not in self.waiting:
            return
        sent = Sent(kind, int(words[1]), number(words[2]), number(words[3]), words[4], words[5])
        its = self.choices[int(words[-1])]
        for choice in its:
            choice.has_effect = choice.has_effect or any(sent.is_of(it) for it in choice.lines)
        if all(it.has_effect for it in its):
            self.waiting.remove(words[-1])

    def idle(self) -> list[int]:
        """Returns the lines without any effect, in their order."""
        return [number for number, its in self.choices.items() if not any(it.has_effect for it in its)]

    def partly_idle(self) -> dict[int, list[Choice]]:
        """Returns the choices without an effect of each line of which others have one."""
        found = {number: [it for it in its if not it.has_effect] for number, its in self.choices.items()}
        return {number: its for number, its in found.items() if 0 < len(its) < len(self.choices[number])}

    def told(self) -> Iterator[str]:
        """Yields a line for people on each list of which a part has no effect, or one line on many."""
        found = self.partly_idle()
        if len(found) > MOST_ALIKE:
            numbers = ", ".join(str(it) for it in list(found)[:SHOWN])
            yield (f"{len(found)} lines struck nothing in some of the lines of their lists: lines {numbers} and "
                   f"{len(found) - SHOWN} more")
            return
        for line, its in found.items():
            more = f" and {len(its) - SHOWN} more" if len(its) > SHOWN else ""
            yield (f"line {line} struck nothing in {len(its)} of its {len(self.choices[line])} lines: "
                   f"{', '.join(f'`{it.text}`' for it in its[:SHOWN])}{more}")


def choices_in(scenario: Scenario, line: int, names: LineNames, cycles: int) -> Iterator[Choice]:
    """Yields the lines for which a line of faults stands. Of version 3 only those that name cycles of the run."""
    for it in Words.of(scenario.text[line - 1], scenario.version, names).meant():
        lines = [its for its in it.lines(line) if isinstance(its, FaultLine)]
        kept = tuple(its for its in lines if scenario.version < NEWEST or its.cycles.first < cycles)
        if kept:
            yield Choice(" ".join(it.words), kept)


def number(word: str) -> int | None:
    """Returns the number of a word, or None for `-`."""
    return None if word == "-" else int(word)
