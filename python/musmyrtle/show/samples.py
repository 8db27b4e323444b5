"""Signals over time, as each receiver has them: a sample of each chosen signal in each window that is due."""
from collections.abc import Callable, Iterable, Iterator
from dataclasses import dataclass
from typing import NamedTuple

from musmyrtle.show.arrivals import Due
from musmyrtle.signals.layout import Layout, Read
from musmyrtle.signals.receiving import Destination
from musmyrtle.signals.signal import Signal

NEW, STORED, LOST, NULL = "new", "stored", "lost", "null"
"""The fates of a signal: it was stored as new, or with an update bit 0; its frame was lost, or had no data."""


@dataclass(frozen=True, slots=True)
class Sample:
    """A signal at a receiver in a window: what the receiver holds after it, and for how many macroticks.

    `read` and `age` are None if the receiver doesn't hold the signal.
    """

    due: Due
    layout: Layout
    signal: Signal
    read: Read | None
    age: int | None
    what: str


class Held(NamedTuple):
    """The frame that a receiver holds, and the begin of its window. A frame without signals has no layout."""

    begin: int
    layout: Layout | None
    payload: bytes
    reads: tuple[Read, ...]


class Holdings:
    """The last frame of each receiver. A FIFO has one for each slot, the newest.

    CHOSEN returns the chosen signals of a frame at a receiver.
    """

    def __init__(self, chosen: Callable[[Destination, Layout], tuple[Signal, ...]]) -> None:
        self.chosen = chosen
        self.held: dict[tuple[Destination, int], Held] = {}
        self.last: dict[tuple[str, int], tuple[bytes, tuple[Read, ...]]] = {}
        """The last payload of a frame with its signals, which most receivers get one after the other."""

    def samples(self, dues: Iterable[Due]) -> Iterator[Sample]:
        """Yields the samples of windows, in their order."""
        for due in dues:
            yield from self.stored(due) if due.payload is not None else self.unchanged(due)

    def of(self, due: Due) -> tuple[Destination, int]:
        """Returns the key of what a receiver holds."""
        return due.destination, due.slot if due.destination.buffer is None else 0

    def stored(self, due: Due) -> Iterator[Sample]:
        """Yields the signals of a frame that is stored now."""
        layout, payload = due.layout, due.payload or b""
        reads = () if layout is None else self.reads(layout, self.chosen(due.destination, layout), payload)
        self.held[self.of(due)] = Held(due.begin, layout, payload, reads)
        if layout is not None:
            for it in reads:
                yield Sample(due, layout, it.signal, it, 0, NEW if it.is_new else STORED)

    def unchanged(self, due: Due) -> Iterator[Sample]:
        """Yields the signals that a receiver goes on to hold, since no data came."""
        layout, held, what = due.layout, self.held.get(self.of(due)), NULL if due.is_null else LOST
        if layout is None:
            return
        if held is None or held.layout is not layout:
            for signal in self.chosen(due.destination, layout):
                yield Sample(due, layout, signal, None, None, what)
            return
        for it in held.reads:
            yield Sample(due, layout, it.signal, it, due.begin - held.begin, what)

    def reads(self, layout: Layout, signals: tuple[Signal, ...], payload: bytes) -> tuple[Read, ...]:
        """Returns the chosen signals of a payload."""
        key = layout.name, id(signals)
        last = self.last.get(key)
        if last is None or last[0] != payload:
            last = self.last[key] = payload, tuple(layout.reads(payload, signals))
        return last[1]
