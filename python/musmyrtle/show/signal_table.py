"""The table of signals over time: a row for each signal of each window in which a receiver is due to get a frame."""
from collections.abc import Iterable, Iterator

from musmyrtle.show.arrivals import Due
from musmyrtle.show.network import Network
from musmyrtle.show.samples import LOST, Sample
from musmyrtle.show.selection import Selection
from musmyrtle.show.tables import Column, Exact, Part, Parts, Row, Section, Value
from musmyrtle.signals.layout import Layout, Read
from musmyrtle.signals.signal import Signal
from musmyrtle.signals.texts import hex_of

KIND, NOTHING = "sample", "No signal is selected."
AGE = "from the window of the frame that the receiver holds to this window"
WHAT = {"null": "null frame"}
MOST_KNOWN = 4096
"""The parts of rows that are kept."""


def columns(network: Network, has_faults: bool) -> tuple[Column, ...]:
    """Returns the columns of signals over time. Texts have that of the fault if there are several runs."""
    return (Column("fault", "fault" if has_faults else "", "whole"), network.column("begin", "begin"),
            Column("cycle", "cycle"), Column("slot", "slot"), Column("channel", "channel"),
            Column("sender", "sender", "name"), Column("receiver", "receiver", "name"),
            Column("buffer", "buffer", "name"), Column("frame", ""), Column("signal", "signal", "whole"),
            Column("value", "value"), Column("unit", "unit"), Column("name", "name"), Column("raw", "raw", "bytes"),
            Column("in_range", ""), network.column("age", "age", AGE), Column("what", "what", words=WHAT))


def values_of(signal: Signal, read: Read | None) -> dict[str, Value]:
    """Returns the value of a signal by its keys: it is null if it is invalid, or if there is none."""
    if read is None:
        return {"signal": signal.name, "value": None, "unit": None, "name": None, "raw": None, "in_range": None}
    number = read.number
    return {"signal": signal.name, "value": plain(number), "unit": signal.unit or None,
            "name": None if number is None else read.name, "raw": plain(read.raw), "in_range": read.is_in_range}


def plain(value: int | float | bytes | None) -> Value:
    """Returns a number or bytes as a value of a table."""
    return hex_of(value) if isinstance(value, bytes) else None if value is None else Exact(value)


class Rows:
    """Makes the rows of the samples of a run with a fault, or with none. Parts that rows share are made once."""

    def __init__(self, network: Network, selection: Selection, fault: str | None = None) -> None:
        self.network, self.selection, self.fault = network, selection, fault
        self.due: tuple[Due, Layout, Part] | None = None
        self.reads: dict[tuple[int, int], tuple[Read | None, Part, bool]] = {}
        """The parts of signals, by the identity of the signal and of what was read, which most receivers share."""
        self.ages: dict[tuple[int | None, str], Part] = {}

    def of(self, samples: Iterable[Sample]) -> Iterator[Row]:
        """Yields the rows of the selected samples."""
        for it in samples:
            if self.is_selected(it.due):
                read, part, is_wrong = self.signal(it)
                is_error = is_wrong or it.what == LOST
                if is_error or not self.selection.is_errors:
                    yield Row(Parts(self.front(it), part, self.age(it.age, it.what)), is_error)

    def is_selected(self, due: Due) -> bool:
        """Returns whether the rows of a window are printed."""
        chosen = self.selection
        return chosen.has_cycle(due.cycle) and (chosen.places is None and chosen.channels is None or any(
            chosen.has_place(due.slot, at) for at in due.channels))

    def front(self, it: Sample) -> Part:
        """Returns the values of a window and its receiver."""
        due = it.due
        if self.due is None or self.due[0] is not due or self.due[1] is not it.layout:
            network, (node, buffer) = self.network, due.destination
            self.due = due, it.layout, Part({
                "fault": self.fault, "begin": network.time(due.begin), "cycle": due.cycle, "slot": due.slot,
                "channel": due.channels, "sender": network.node(due.sender), "receiver": network.node(node),
                "buffer": None if buffer is None else network.buffer(node, buffer), "frame": it.layout.name})
        return self.due[2]

    def signal(self, it: Sample) -> tuple[Read | None, Part, bool]:
        """Returns the values of a signal, and whether it is out of its limits."""
        key = id(it.signal), id(it.read)
        known = self.reads.get(key)
        if known is None or known[0] is not it.read:
            if len(self.reads) >= MOST_KNOWN:
                self.reads.clear()
            is_wrong = it.read is not None and not it.read.is_in_range
            known = self.reads[key] = it.read, Part(values_of(it.signal, it.read)), is_wrong
        return known

    def age(self, age: int | None, what: str) -> Part:
        """Returns the values of an age and a fate."""
        key = age, what
        if key not in self.ages:
            if len(self.ages) >= MOST_KNOWN:
                self.ages.clear()
            self.ages[key] = Part({"age": None if age is None else self.network.time(age), "what": what})
        return self.ages[key]


def section(network: Network, rows: Iterable[Row], has_faults: bool) -> Section:
    """Returns the table."""
    return Section(KIND, "", columns(network, has_faults), rows, NOTHING)
