"""The differences of two runs of a cluster: commits, transmissions, answers to tasks, reports, missed expectations."""
from collections.abc import Callable, Hashable, Iterable, Iterator, Mapping
from dataclasses import asdict
from typing import Any, TypeVar

from musmyrtle.diff.differences import ADDED, ARRIVED, CHANGED, LOST, REMOVED, Difference
from musmyrtle.diff.payloads import Payloads
from musmyrtle.diff.shifts import EVERYTHING, Cycles, alone_rows, common, shift_between, shift_row
from musmyrtle.diff.sides import Side
from musmyrtle.findings import counted
from musmyrtle.missed import Miss
from musmyrtle.outcomes import NodeOutcome
from musmyrtle.show.facts import Call, Commit, Facts, Transmission
from musmyrtle.show.tables import Receiver, Receivers, Value
from musmyrtle.world.replies import ReceiveBuffer

T = TypeVar("T")
Key = tuple[Hashable, ...]
SENT_KEYS = ("minislot", "end", "flags", "data", "bit")
"""The words of a transmission that are compared. The end says whether it passed, and the window and the line of the
scenario may differ all the same."""
ANSWER_KEYS = ("came", "count", "slot", "channel", "data")


def numbered(things: Iterable[T], key_of: Callable[[T], Key]) -> dict[Key, T]:
    """Returns things by their keys. Those of one key are numbered, so that each has a key of its own."""
    found: dict[Key, T] = {}
    counts: dict[Key, int] = {}
    for it in things:
        key = key_of(it)
        counts[key] = counts.get(key, -1) + 1
        found[*key, counts[key]] = it
    return found


def pairs(old: Mapping[Key, T], new: Mapping[Key, T]) -> Iterator[tuple[T | None, T | None]]:
    """Yields the things of both runs by their keys."""
    for key in dict.fromkeys([*old, *new]):
        yield old.get(key), new.get(key)


class Runs:
    """The comparison of two runs of a cluster. If all comes later or earlier in the second one, one row says it."""

    def __init__(self, old: Facts, new: Facts, payloads: Payloads) -> None:
        self.old, self.new, self.payloads, self.network = old, new, payloads, old.network
        self.sides = Side.of(old), Side.of(new)
        self.shift = shift_between(*(it.contents() for it in self.sides))
        self.both_miss: list[Miss] = []
        """The expectations that both runs missed alike, once the differences are known: those of the first one."""

    def differences(self) -> Iterator[Difference]:
        """Yields all differences. Cycles are those of the first run."""
        if self.shift:
            yield from self.shifted()
        yield from self.commits()
        yield from self.calls()
        if not self.shift:
            yield from self.reports()
        yield from self.misses()
        yield from self.transmissions()

    def shifted(self) -> Iterator[Difference]:
        """Shifts the second run. Yields the shift, and what one run alone has in cycles without a partner."""
        yield shift_row(EVERYTHING, self.shift)
        whole = Cycles(0, self.old.inputs.cycles - 1)
        both = common(whole, whole, self.shift)
        numbers = [it.numbers() for it in self.sides]
        for key in numbers[0]:
            yield from alone_rows(key, *(cycles.others(its[key]) for cycles, its in zip(both, numbers)))
        self.sides = self.sides[0].part(both[0], 0), self.sides[1].part(both[1], self.shift)

    # ---- commits

    def commits(self) -> Iterator[Difference]:
        """Yields the commits that one run alone has, and those with another payload, fate or receivers."""
        sides = (numbered(it.commits, lambda commit: (commit.node, commit.buffer, commit.task, commit.cycle))
                 for it in self.sides)
        for old, new in pairs(*sides):
            yield from self.of_commit(old, new)

    def of_commit(self, old: Commit | None, new: Commit | None) -> Iterator[Difference]:
        """Yields the differences of a commit."""
        it = old or new
        assert it is not None
        place: dict[str, Any] = {
            "node": self.network.node(it.node), "buffer": self.network.buffer(it.node, it.buffer), "task": it.task,
            "cycle": it.cycle}
        if old is None or new is None:
            yield Difference("commit", REMOVED if old else ADDED, "data", old.data if old else None,
                             new.data if new else None, **place)
            return
        yield from self.data("commit", place, old.data, new.data,
                             self.payloads.of_buffer(it.node, it.buffer, old.data, new.data))
        for key in ("fate", "ended"):
            if getattr(old, key) != getattr(new, key):
                yield Difference("commit", CHANGED, key, getattr(old, key), getattr(new, key), **place)
        receivers = self.receivers(old), self.receivers(new)
        if receivers[0] != receivers[1]:
            change = CHANGED if old.is_delivered == new.is_delivered else LOST if old.is_delivered else ARRIVED
            yield Difference("commit", change, "receivers", *receivers, **place)

    def receivers(self, commit: Commit) -> Receivers:
        """Returns the receivers of all transmissions of a commit, each once."""
        found: dict[str, Receiver] = {}
        for sent in commit.sent:
            found |= {it.word: it for it in self.network.receivers(sent.receivers).receivers}
        return Receivers(tuple(found[it] for it in sorted(found)))

    def data(self, kind: str, place: Mapping[str, Any], old: Value, new: Value,
             signals: Iterable[tuple[str, str | None, Value, Value]]) -> Iterator[Difference]:
        """Yields the difference of two payloads, and those of their signals."""
        if old == new:
            return
        yield Difference(kind, CHANGED, "data", old, new, **place)
        for name, unit, one, other in signals:
            yield Difference(kind, CHANGED, "signal", one, other, signal=name, unit=unit, **place)

    # ---- the bus

    def transmissions(self) -> Iterator[Difference]:
        """Yields the transmissions that one run alone has, and those with another end or other bytes."""
        sides = [numbered(it.record, place_of) for it in self.sides]
        for key in sorted({**sides[0], **sides[1]}, key=in_order):
            old, new = (it.get(key) for it in sides)
            it = old or new
            assert it is not None
            place: dict[str, Any] = {
                "cycle": it.cycle, "slot": it.slot, "minislot": it.minislot, "channel": it.channel, "what": it.what,
                "node": None if it.node is None else self.network.node(it.node)}
            if old is None or new is None:
                yield Difference("sent", REMOVED if old else ADDED, "end", end_of(old), end_of(new), **place)
                continue
            for name in (it for it in SENT_KEYS if getattr(old, it) != getattr(new, it)):
                yield Difference("sent", CHANGED, name, getattr(old, name), getattr(new, name), **place)

    # ---- tasks

    def calls(self) -> Iterator[Difference]:
        """Yields the reads and pops that one run alone has, and those with another answer."""
        sides = (numbered(it.calls, lambda call: (call.node, call.task, call.cycle, call.kind, call.buffer))
                 for it in self.sides)
        for old, new in pairs(*sides):
            it = old or new
            assert it is not None
            place: dict[str, Any] = {
                "node": self.network.node(it.node), "task": it.task, "cycle": it.cycle, "call": it.kind,
                "buffer": None if it.buffer is None else self.network.buffer(it.node, it.buffer)}
            if old is None or new is None:
                yield Difference("call", REMOVED if old else ADDED, "data", old.data if old else None,
                                 new.data if new else None, **place)
                continue
            yield from self.data("call", place, old.data, new.data, self.signals(old, new))
            for key in (it for it in ANSWER_KEYS if it != "data" and getattr(old, it) != getattr(new, it)):
                yield Difference("call", CHANGED, key, getattr(old, key), getattr(new, key), **place)

    def signals(self, old: Call, new: Call) -> Iterator[tuple[str, str | None, Value, Value]]:
        """Yields the signals in which two answers differ, if both have a frame of one slot."""
        if old.data and new.data and old.slot == new.slot and old.slot and new.channel and new.count is not None:
            yield from self.payloads.of_frame(old.slot, new.channel, new.count, old.data, new.data)

    # ---- the end

    def reports(self) -> Iterator[Difference]:
        """Yields the values of the reports that differ."""
        old, new = self.old.ended[0], self.new.ended[0]
        if old.windows != new.windows:
            yield Difference("report", CHANGED, "windows", old.windows, new.windows)
        for number, (one, other) in enumerate(zip(old.nodes, new.nodes)):
            yield from self.report(number, one, other)

    def report(self, node: int, old: NodeOutcome, new: NodeOutcome) -> Iterator[Difference]:
        """Yields the values of a node's report that differ."""
        name = self.network.node(node)
        for number, its in enumerate(zip(old.buffers, new.buffers)):
            for key, one, other in differing_fields(*map(fields_of, its)):
                yield Difference("report", CHANGED, key, one, other, node=name,
                                 buffer=self.network.buffer(node, number))
        if old.queue and new.queue:
            for key, one, other in differing_fields(asdict(old.queue), asdict(new.queue)):
                yield Difference("report", CHANGED, f"FIFO {key}", one, other, node=name)
        for channel in "AB":
            for key, one, other in differing_fields(asdict(old.counters[channel]), asdict(new.counters[channel])):
                yield Difference("report", CHANGED, key, one, other, node=name, channel=channel)

    def misses(self) -> Iterator[Difference]:
        """Yields the expectations that one run alone missed, or for another reason."""
        sides = (numbered(it.inputs.misses, lambda miss: (miss.node, miss.buffer, miss.cycle, miss.expected))
                 for it in (self.old, self.new))
        for old, new in pairs(*sides):
            it = old or new
            assert it is not None
            if old and new and (old.found, old.others) == (new.found, new.others):
                self.both_miss.append(old)
                continue
            change = CHANGED if old and new else REMOVED if old else ADDED
            yield Difference("missed", change, None, missed_text(old), missed_text(new), cycle=it.cycle,
                             node=self.network.node_if_any(it.node),
                             buffer=self.network.buffer_if_any(it.node, it.buffer))


def place_of(it: Transmission) -> Key:
    """Returns the key of a transmission: its cycle, slot, channel, node and kind, and the minislot without a slot."""
    return it.cycle, it.slot, it.minislot if it.slot is None else None, it.channel, it.node, it.what


def in_order(key: Key) -> tuple[Any, ...]:
    """Returns what keys are sorted by, whose parts may be None: those without a part come after those with one."""
    return tuple((it is None, "" if it is None else it) for it in key)


def end_of(it: Transmission | None) -> str | None:
    """Returns the end of a transmission with its bytes, or the bit that a fault names, or None without one."""
    return None if it is None else f"bit {it.bit}" if it.end is None else f"{it.end} {it.data}"


def fields_of(buffer: Any) -> dict[str, Value]:
    """Returns the values of a buffer in a report."""
    found: dict[str, Value] = asdict(buffer)
    if isinstance(buffer, ReceiveBuffer):
        found["payload"] = None if buffer.payload is None else f"x{buffer.payload.hex()}"
    return found


def differing_fields(old: Mapping[str, Value], new: Mapping[str, Value]) -> Iterator[tuple[str, Value, Value]]:
    """Yields the fields that differ, with both values."""
    for key in old:
        if old[key] != new[key]:
            yield key, old[key], new[key]


def missed_text(miss: Miss | None) -> str | None:
    """Returns what a missed expectation expected and what the buffer had, or None if it was met."""
    if miss is None:
        return None
    more = f", and in {counted(miss.others, 'other cycle')}" if miss.others else ""
    return f"expected {miss.expected}, found {miss.found}{more}"
