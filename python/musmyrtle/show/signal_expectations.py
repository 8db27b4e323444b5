"""Expectations of signals: the lines of a file, with their places, and what is wrong with them.

A line is `NODE.SIGNAL CYCLES >= 80`, `NODE.SIGNAL CYCLES age <= 10ms`, or `NODE.SIGNAL CYCLES lost 0`.
"""
import operator
import re
from argparse import ArgumentTypeError
from collections.abc import Callable
from dataclasses import dataclass
from fractions import Fraction
from typing import Any

from musmyrtle.findings import Finding, joined
from musmyrtle.lint.lint import read_bytes, unreadable
from musmyrtle.named_windows import EVERY
from musmyrtle.output import CANNOT_BE_USED, Stop
from musmyrtle.places import Place as FilePlace
from musmyrtle.selections import SelectedCycles, UnknownWord, cycles_of
from musmyrtle.show.ages import RIGHT as RIGHT_AGE
from musmyrtle.show.ages import Age
from musmyrtle.show.choice import Place, Words
from musmyrtle.show.network import Network
from musmyrtle.signals.refusals import BadValue, SignalValue
from musmyrtle.signals.signal import Coding, Signal
from musmyrtle.signals.texts import value_in
from musmyrtle.signals.values import raw_bytes, raw_named
from musmyrtle.texts import FILE_LIMIT
from musmyrtle.visible import cut

SIGNS: dict[str, Callable[[Any, Any], bool]] = {
    "==": operator.eq, "!=": operator.ne, "<": operator.lt, "<=": operator.le, ">": operator.gt, ">=": operator.ge}
EQUAL = ("==", "!=")
AGE, LOST = "age", "lost"
FORMS = "NODE.SIGNAL CYCLES >= VALUE, NODE.SIGNAL CYCLES age <= AGE, or NODE.SIGNAL CYCLES lost COUNT"
COUNT = re.compile("[0-9]{1,9}")
WORD = re.compile(r"[^ \t]+")


@dataclass(frozen=True)
class Expectation:
    """A line: the signals at receivers that it names, its cycles or all, and what is compared with a limit by a sign.

    `what` is `age`, `lost`, or empty for the value. The limit of a value is one of its signal's, and an age is limited
    in macroticks.
    """

    line: int
    word: str
    places: tuple[Place, ...]
    cycles: SelectedCycles | None
    what: str
    sign: str
    limit: SignalValue
    text: str
    """The words after the cycles."""

    def has_cycle(self, cycle: int) -> bool:
        """Returns whether it names a cycle of the run."""
        return self.cycles is None or any(cycle in it.numbers for it in self.cycles.parts)


class BadExpectations(Exception):
    """A file of expectations has faults."""

    def __init__(self, findings: list[Finding]) -> None:
        super().__init__(findings)
        self.findings = findings


class BadWord(Exception):
    """A word of a line is wrong: its column, a headline, and what is right."""

    def __init__(self, at: int, headline: str, reason: str) -> None:
        super().__init__(at, headline, reason)
        self.at, self.headline, self.reason = at, headline, reason


def expectations_in(file: str, network: Network, words: Words) -> list[Expectation]:
    """Returns the expectations of a file.

    Raises `BadExpectations` for faults, and `Stop` for a file that can't be read.
    """
    data = read_bytes(file)
    if data is None:
        raise Stop(CANNOT_BE_USED, unreadable(file, "the file of --expect").headline)
    if len(data) > FILE_LIMIT:
        raise BadExpectations([Finding(f"the file has {len(data)} bytes", f"It has at most {FILE_LIMIT}.",
                                       FilePlace(file, 1, None))])
    reader, found, faults = LineReader(network, words), list[Expectation](), list[Finding]()
    for number, line in enumerate(data.decode(errors="replace").removeprefix("\ufeff").splitlines(), 1):
        try:
            read = reader.read(number, line.partition("#")[0])
        except BadWord as error:
            faults.append(Finding(error.headline, error.reason, FilePlace(file, number, error.at + 1, line, 0, None)))
            continue
        found += [read] if read else []
    if faults:
        raise BadExpectations(faults)
    return found


class LineReader:
    """Reads the lines of a file of expectations about a network."""

    def __init__(self, network: Network, words: Words) -> None:
        self.network, self.words = network, words

    def read(self, number: int, line: str) -> Expectation | None:
        """Returns the expectation of a line, or None for one without words. Raises `BadWord`."""
        its = list(WORD.finditer(line))
        if not its:
            return None
        if len(its) < 4:
            raise BadWord(len(line.rstrip()), "the line has too few words", f"Expected {FORMS}.")
        try:
            places = tuple(self.words.places(its[0][0]))
        except UnknownWord as error:
            raise BadWord(its[0].start(), str(error), "Expected a signal of a receiver.") from None
        cycles = self.cycles(its[1])
        what = its[2][0] if its[2][0] in (AGE, LOST) else ""
        at = 3 if what else 2
        sign = its[at][0] if its[at][0] in SIGNS else "==" if what == LOST else None
        if sign is None:
            raise BadWord(its[at].start(), f"{cut(its[at][0])} is no sign", f"Expected {joined(list(SIGNS), 'or')}, in "
                                                                            f"{FORMS}.")
        rest = its[at + (its[at][0] in SIGNS):]
        if not rest:
            raise BadWord(len(line.rstrip()), "the line ends after the sign", f"Expected {FORMS}.")
        begin, text = rest[0].start(), line[rest[0].start():].rstrip()
        limit = self.limit(what, sign, text, begin, places)
        return Expectation(number, its[0][0], places, cycles, what, sign, limit, line[its[2].start():].rstrip())

    def cycles(self, word: re.Match[str]) -> SelectedCycles | None:
        """Returns the cycles of a word, or None for all."""
        if word[0] == EVERY:
            return None
        try:
            return cycles_of(word[0])
        except ArgumentTypeError as error:
            raise BadWord(word.start(), str(error), "Expected cycles as 0-10/2,13, or * for all.") from None

    def limit(self, what: str, sign: str, text: str, at: int, places: tuple[Place, ...]) -> SignalValue:
        """Returns the limit after a sign."""
        if what == LOST:
            if not COUNT.fullmatch(text):
                raise BadWord(at, f"{cut(text)} is no number of lost frames", "Expected a whole number.")
            return int(text)
        if what == AGE:
            age = Age.of(text)
            if age is None:
                raise BadWord(at, f"{cut(text)} is no age", f"Expected {RIGHT_AGE}.")
            try:
                return age.macroticks(self.network)
            except Stop as error:
                raise BadWord(at, str(error), "Expected a unit that is known.") from None
        limits = [self.value(sign, text, at, self.words.signal(it)) for it in places]
        # Two numbers that are none aren't equal.
        if len({repr(it) for it in limits}) > 1:
            raise BadWord(0, "the signals of the line have other values for this word", "Expected one of them, as "
                                                                                        "NODE.BUFFER.SIGNAL.")
        return limits[0]

    def value(self, sign: str, text: str, at: int, signal: Signal) -> SignalValue:
        """Returns the value of a signal with which it is compared."""
        try:
            value = value_in(signal, text)
            if isinstance(value, bytes):
                raw_bytes(signal, value)
            if isinstance(value, str) and not any(it.name == value for it in signal.values):
                raw_named(signal, value)
            if isinstance(value, str) and sign not in EQUAL:
                return signal.factor * raw_named(signal, value) + signal.offset
        except BadValue as error:
            raise BadWord(at, str(error), "Expected a value of the signal.") from None
        is_number = isinstance(value, int | float | Fraction) and value == value
        if sign not in EQUAL and not is_number:
            what = "bytes" if signal.coding is Coding.BYTES else "the invalid value" if value is None else cut(text)
            raise BadWord(at, f"{sign} can't compare {what}", "Expected == or !=.")
        return value
