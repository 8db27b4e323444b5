"""The judgement of expectations of signals in a run.

A line is judged at the end of each of its cycles, as `expect` of a scenario: by what a task has that reads the receive
buffer at the begin of the next cycle. Lost frames are counted over all cycles of the line.
"""
import math
import struct
from collections.abc import Callable, Iterable, Iterator
from dataclasses import dataclass, field
from fractions import Fraction

from musmyrtle.missed import NOTHING
from musmyrtle.show.arrivals import Due
from musmyrtle.show.choice import Place, Words
from musmyrtle.show.network import Network
from musmyrtle.show.samples import Held, Holdings
from musmyrtle.show.signal_expectations import AGE, EQUAL, LOST, SIGNS, Expectation
from musmyrtle.show.tables import Column, Row, Section, decimal
from musmyrtle.signals.layout import Read
from musmyrtle.signals.receiving import Destination
from musmyrtle.signals.signal import FLOATS, Signal
from musmyrtle.signals.texts import NONE, hex_of
from musmyrtle.visible import cut

MET, MISSED, UNJUDGED = "met", "missed", "never judged"
KIND, TITLE = "expectation", "Expectations"


@dataclass
class Verdict:
    """The verdict on a line in a run: the cycles in which it was judged, and the first miss with what was there."""

    judged: int = 0
    missed: int = 0
    cycle: int | None = None
    found: str | None = None
    receiver: Destination | None = None
    lost: int = 0
    """The frames that were lost in its cycles."""

    @property
    def outcome(self) -> str:
        """Returns the word for it."""
        return MISSED if self.missed else MET if self.judged else UNJUDGED

    def miss(self, cycle: int, receiver: Destination, found: str) -> None:
        """Notes a miss."""
        self.missed += 1
        if self.cycle is None:
            self.cycle, self.receiver, self.found = cycle, receiver, found


@dataclass
class Line:
    """A line with its verdict, and with the last value that was compared at each place."""

    expectation: Expectation
    verdict: Verdict = field(default_factory=Verdict)
    known: dict[Place, tuple[Read, bool]] = field(default_factory=dict)
    """The last value at each place, and whether it was met."""


class Judge:
    """Judges the lines in one run. It sees each window that is due, and at each end of a cycle what is held.

    CYCLES returns the cycles of the run, once its last window was seen.
    """

    def __init__(self, expectations: Iterable[Expectation], network: Network, words: Words,
                 cycles: Callable[[], int]) -> None:
        self.lines = [Line(it) for it in expectations]
        self.network, self.words, self.cycles = network, words, cycles
        self.lossy: dict[tuple[Destination, str], list[Line]] = {}
        for line in self.lines:
            for it in dict.fromkeys((it.destination, it.frame) for it in line.expectation.places):
                if line.expectation.what == LOST:
                    self.lossy.setdefault(it, []).append(line)
        self.steady = [it for it in self.lines if it.expectation.what != LOST]

    def watch(self, dues: Iterable[Due], holdings: Holdings) -> Iterator[Due]:
        """Yields windows, and judges at the end of each cycle what the windows before it left."""
        cycle = 0
        for due in dues:
            while cycle < due.cycle:
                self.end(cycle, holdings)
                cycle += 1
            if due.layout is not None and not due.is_null:
                self.count(due)
            yield due
        for it in range(cycle, self.cycles()):
            self.end(it, holdings)
        for line in self.lines:
            self.close(line)

    # ---- losses

    def count(self, due: Due) -> None:
        """Counts a window of data in the lines about losses that are for it."""
        for line in self.lossy.get((due.destination, due.layout.name if due.layout else ""), ()):
            its, verdict = line.expectation, line.verdict
            if its.has_cycle(due.cycle):
                verdict.judged += 1
                verdict.lost += due.payload is None
                if due.payload is None and verdict.cycle is None:
                    verdict.cycle, verdict.receiver = due.cycle, due.destination

    def close(self, line: Line) -> None:
        """Ends a line about losses, which are known now."""
        its, verdict = line.expectation, line.verdict
        if its.what != LOST:
            return
        if verdict.judged and not SIGNS[its.sign](verdict.lost, its.limit):
            verdict.missed, verdict.found = 1, f"{verdict.lost} lost"
        else:
            verdict.cycle = verdict.receiver = None

    # ---- values and ages

    def end(self, cycle: int, holdings: Holdings) -> None:
        """Judges the other lines at the end of a cycle."""
        for line in self.steady:
            if line.expectation.has_cycle(cycle):
                for place in line.expectation.places:
                    self.judge(line, place, cycle, holdings)

    def judge(self, line: Line, place: Place, cycle: int, holdings: Holdings) -> None:
        """Judges a line at one place: not while the receiver holds another frame, or one without the signal."""
        verdict = line.verdict
        held = self.held(place, holdings)
        if held is None:
            verdict.judged += 1
            verdict.miss(cycle, place.destination, NOTHING)
            return
        read = self.read(place, held)
        if read is None:
            return
        verdict.judged += 1
        if line.expectation.what == AGE:
            age = (cycle + 1) * self.network.cluster.parameters.cycle_mt - held.begin
            if not SIGNS[line.expectation.sign](age, line.expectation.limit):
                verdict.miss(cycle, place.destination, self.age_text(age))
            return
        known = line.known.get(place)
        if known is None or known[0] is not read:
            known = line.known[place] = read, is_met(line.expectation, read)
        if not known[1]:
            verdict.miss(cycle, place.destination, value_text(read))

    def held(self, place: Place, holdings: Holdings) -> Held | None:
        """Returns what a receiver holds. Of a FIFO it is the newest frame of the signal's slots."""
        if place.destination.buffer is not None:
            return holdings.held.get((place.destination, 0))
        newest: Held | None = None
        for slot in self.words.slots(place):
            its = holdings.held.get((place.destination, slot))
            if its and (newest is None or its.begin > newest.begin):
                newest = its
        return newest

    def read(self, place: Place, held: Held) -> Read | None:
        """Returns the signal in what is held, or None."""
        if held.layout is None or held.layout.name != place.frame:
            return None
        return next((it for it in held.reads if it.signal.name == place.signal), None)

    def age_text(self, age: int) -> str:
        """Returns an age for people."""
        time = self.network.time(age)
        return f"{age} MT" if time.microseconds is None else f"{decimal(time.microseconds)} us"

    # ---- the table

    @property
    def outcomes(self) -> set[str]:
        """Returns the outcomes of the lines."""
        return {it.verdict.outcome for it in self.lines}

    def rows(self, fault: str | None) -> list[Row]:
        """Returns a row for each line, in the order of the file."""
        return [self.row(it, fault) for it in self.lines]

    def row(self, line: Line, fault: str | None) -> Row:
        """Returns the row of a line."""
        its, verdict = line.expectation, line.verdict
        node, buffer = verdict.receiver or (None, None)
        return Row({
            "fault": fault, "line": its.line, "signal": its.word, "cycles": "*" if its.cycles is None else
            str(its.cycles), "expected": its.text, "outcome": verdict.outcome, "cycle": verdict.cycle,
            "receiver": None if node is None else self.network.node(node),
            "buffer": None if node is None or buffer is None else self.network.buffer(node, buffer),
            "found": verdict.found, "others": max(0, verdict.missed - 1), "judged": verdict.judged,
        }, verdict.outcome != MET)


def is_met(its: Expectation, read: Read) -> bool:
    """Returns whether a value is as a line expects it. An invalid value is only equal or unequal to others."""
    limit, compare, signal = its.limit, SIGNS[its.sign], read.signal
    if isinstance(limit, str):
        return compare(None if read.number is None else read.name, limit)
    if limit is None or isinstance(limit, bytes) or isinstance(read.raw, bytes) or read.number is None:
        return its.sign in EQUAL and compare(read.number, limit)
    if isinstance(read.raw, float):
        if limit != limit:
            return math.isnan(read.raw) == (its.sign == "==")
        # The limit is a raw value, too, so that 0.1 is equal to what becomes of it in 32 bits.
        turned = 1 if signal.factor > 0 else -1
        return compare(turned * read.raw, turned * raw_float(signal, limit))
    return compare(read.raw * signal.factor + signal.offset, limit)


def raw_float(signal: Signal, value: object) -> float:
    """Returns the raw value of a signal that is nearest to a physical one."""
    if not isinstance(value, Fraction):
        return float(value) if isinstance(value, int | float) else math.nan
    form = FLOATS[signal.bits]
    try:
        found: float = struct.unpack(form, struct.pack(form, float((value - signal.offset) / signal.factor)))[0]
    except OverflowError:
        return math.copysign(math.inf, (value - signal.offset) / signal.factor)
    return found


def value_text(read: Read) -> str:
    """Returns a value for people, with its name."""
    number = read.number
    if number is None:
        return NONE
    if isinstance(number, bytes):
        return hex_of(number)
    name = read.name
    return repr(number) if name is None else f"{cut(name)} ({number!r})"


def section(network: Network, rows: Iterable[Row], has_faults: bool) -> Section:
    """Returns the table of expectations."""
    columns = (Column("fault", "fault" if has_faults else "", "whole"), Column("line", "line"),
               Column("signal", "signal", "whole"), Column("cycles", "cycles"), Column("expected", "expected"),
               Column("outcome", "outcome"), Column("cycle", "first in"), Column("receiver", "receiver", "name"),
               Column("buffer", "buffer", "name"), Column("found", "found"), Column("others", "others"),
               Column("judged", "judged"))
    return Section(KIND, TITLE, columns, rows, "The file has no expectation.")
