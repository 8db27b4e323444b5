"""Scenarios made by a program: names, several cycles and lost nodes, written as lines of a scenario.

    from musmyrtle import Scenario

    scenario = Scenario("cluster.toml", cycles=16)
    pedal = scenario.task("brakes")
    pedal.every(2).commit("pedal", b"\\0\\1")
    scenario.lose("gateway", cycles=range(8, 16))
    scenario.babble("door", slot=3, data=b"\\0")
    Path("brakes.scenario").write_text(scenario.text())
"""
import os
from collections.abc import Callable, Iterable, Mapping, Sequence
from dataclasses import dataclass
from itertools import groupby
from pathlib import Path
from typing import Any

from musmyrtle.cluster_file import document_of, payload_length
from musmyrtle.named_windows import EVERY, EVERY_STATIC, MOST_PLACE, FaultPlace, spelled
from musmyrtle.names import Names
from musmyrtle.scenario import LONGEST_LINE
from musmyrtle.scenario_words import NEWEST
from musmyrtle.signals.refusals import Given, SignalValue
from musmyrtle.world.bounds import (
    babble_hex, bit_number, buffer_number, node_number, payload_hex, run_cycles, task_number, within,
)
from musmyrtle.world.layouts import Layouts
from musmyrtle.world.refusals import BadName
from musmyrtle.world.session import FileName

Cycles = Iterable[int] | int | None
LONGEST_COMMENT = LONGEST_LINE - 64
"""The bytes of a payload and its comment in a line. The words before them need less than 64."""


class ScenarioText(str):
    """The text of a scenario, with the line feed after `end` that a scenario has to end with.

    `print` adds a line feed to what it prints, so it prints the text without the last one. For the same reason `str`
    and an f-string give the text without it. All else, as `write`, `write_text` and `encode`, has the whole text.
    """

    def __str__(self) -> str:
        return self.removesuffix("\n")


@dataclass(frozen=True)
class Task:
    """A task of a node, whose calls become lines in the chosen cycles of the run.

    Buffers are given by number, 0 to 63, or by name. Raises `ValueError` for others, and `UnknownName`.
    """

    scenario: "Scenario"
    node: int
    number: int
    cycles: tuple[int, ...]

    def every(self, step: int, first: int = 0) -> "Task":
        """Returns the same task, in the cycle FIRST of its cycles and in each one STEP cycles after that.

        Raises `ValueError` for a step below 1 or a first cycle below 0.
        """
        if step < 1 or first < 0:
            raise ValueError(f"every {step} cycles from cycle {first}: 1 cycle is the least, and cycle 0 the first")
        return Task(self.scenario, self.node, self.number, self.cycles[first::step])

    def at(self, cycles: Cycles) -> "Task":
        """Returns the same task, in these cycles of the run, or in all for None. Raises as `Scenario.cycles_of`."""
        return Task(self.scenario, self.node, self.number, self.scenario.cycles_of(cycles))

    def commit(self, buffer: str | int, payload: bytes | Iterable[bytes] | Given | None = None,
               **signals: SignalValue) -> None:
        """Commits a payload in each of the cycles: this one, or one after another of these.

        Values of signals, as a mapping by names or as `speed=87.5`, are a payload in which all other signals are
        initial. The line has the signals in a comment. Raises `ValueError` for a payload that isn't 0 to 127 two-byte
        words, and where there are fewer payloads than cycles. Of signals it raises what `Node.commit` raises.
        """
        number = self.scenario.buffer(self.node, buffer)
        if payload is None or isinstance(payload, Mapping):
            if payload is None and not signals:
                raise TypeError("a commit needs a payload, or values of signals")
            word = self._commented(number, {**(payload or {}), **signals})
            self._lines("commit", self.cycles, number, word)
            return
        if signals:
            raise TypeError(f"a commit has a payload or values of signals, and not both: {', '.join(signals)}")
        for word, cycles in in_cycles(payload, self.cycles, lambda it: self._hex(number, it)):
            self._lines("commit", cycles, number, word)

    def _hex(self, buffer: int, payload: bytes) -> str:
        return payload_hex(payload, lambda: payload_length(self.scenario.data, self.node, buffer))

    def _commented(self, buffer: int, given: Given) -> str:
        """Returns the word for a payload of signals, and a comment with these."""
        # Scenarios of bytes alone needn't wait for the import.
        from musmyrtle.signals.texts import comment_of, hex_of
        layouts = self.scenario.layouts
        payload = layouts.encoded(self.node, buffer, given, None)
        word = hex_of(payload)
        return f"{word} {comment_of(layouts.sent_by(self.node, buffer), payload, LONGEST_COMMENT - len(word))}"

    def withdraw(self, buffer: str | int) -> None:
        """Takes the last commit of the buffer back in each of the cycles."""
        self._lines("withdraw", self.cycles, self.scenario.buffer(self.node, buffer))

    def read(self, buffer: str | int) -> None:
        """Reads the receive buffer in each of the cycles."""
        self._lines("read", self.cycles, self.scenario.buffer(self.node, buffer))

    def pop(self) -> None:
        """Takes a frame out of the receive FIFO in each of the cycles."""
        self._lines("pop", self.cycles)

    def _lines(self, kind: str, cycles: Iterable[int], *words: object) -> None:
        lines = self.scenario.scripts.setdefault((self.node, self.number), [])
        lines += [(kind, self.node, self.number, named, *words) for named in self.scenario.spelled(cycles)]


def in_cycles(payload: bytes | Iterable[bytes], cycles: Sequence[int],
              spelled: Callable[[bytes], str]) -> list[tuple[str, Sequence[int]]]:
    """Returns the words for the payload of some cycles, each with its cycles: this one, or one after another of these.

    Raises `ValueError` where there are fewer payloads than cycles.
    """
    if isinstance(payload, bytes):
        return [(spelled(payload), cycles)]
    payloads = list(payload)
    if len(payloads) < len(cycles):
        raise ValueError(f"{len(payloads)} payloads for {len(cycles)} cycles")
    return alike(zip(cycles, map(spelled, payloads)))


def alike(payloads: Iterable[tuple[int, str]]) -> list[tuple[str, Sequence[int]]]:
    """Returns the payloads of cycles, those of neighbours that are the same once, with their cycles."""
    grouped = groupby(payloads, lambda it: it[1])
    return [(word, [cycle for cycle, _ in its]) for word, its in grouped]


class Scenario:
    """The lines of a scenario for a cluster and a run of some cycles.

    Nodes and buffers are given by number, 0 to 15 and 0 to 63, or by the key `name` of their tables in the cluster
    file. Raises `ValueError` for numbers out of range, and `UnknownName`.
    """

    def __init__(self, cluster: FileName, cycles: int) -> None:
        """Reads a cluster file, for a run of 1 to 1024 cycles.

        Raises `OSError`, `ValueError` for other numbers and for what is no TOML, and `BadName`.
        """
        self.cycle_count = run_cycles(cycles)
        self.data = Path(cluster).read_bytes()
        self.names = Names.of(self.data)
        self.layouts = Layouts(os.fspath(cluster), self.data)
        if self.names.wrong:
            raise BadName(self.names.wrong)
        self.cluster: dict[str, Any] = document_of(self.data)
        self.scripts: dict[tuple[int, int], list[tuple[object, ...]]] = {}
        self.faults: list[tuple[object, ...]] = []
        self.expectations: list[tuple[object, ...]] = []

    def node(self, node: str | int) -> int:
        """Returns the number of a node. Raises `ValueError` out of 0 to 15, and `UnknownName`."""
        return self.names.node(node) if isinstance(node, str) else node_number(node)

    def buffer(self, node: int, buffer: str | int) -> int:
        """Returns the number of a buffer of the node. Raises `ValueError` out of 0 to 63, and `UnknownName`."""
        return self.names.buffer(node, buffer) if isinstance(buffer, str) else buffer_number(buffer)

    def task(self, node: str | int, number: int = 0) -> Task:
        """Returns a task of the node, 0 to 7, in every cycle of the run."""
        return Task(self, self.node(node), task_number(number), tuple(range(self.cycle_count)))

    def cycles_of(self, cycles: Cycles) -> tuple[int, ...]:
        """Returns these cycles of the run in order, or all for None. Those after its last one are left out.

        Raises `ValueError` for a cycle below 0.
        """
        if cycles is None:
            return tuple(range(self.cycle_count))
        named = sorted({cycles} if isinstance(cycles, int) else set(cycles))
        if named and named[0] < 0:
            raise ValueError(f"there is no cycle {named[0]}: the first one is cycle 0")
        return tuple(cycle for cycle in named if cycle < self.cycle_count)

    def spelled(self, cycles: Iterable[int]) -> list[str]:
        """Returns the words that name these rising cycles of the run: `*` for all, and ranges where there are some."""
        named = list(cycles)
        return [EVERY] if len(named) == self.cycle_count else spelled(named)

    # ---- faults

    def babble(self, node: str | int, data: bytes, *, slot: int | None = None, minislot: int | None = None,
               place: str | None = None, channels: str = "AB", cycles: Cycles = None) -> None:
        """Has the node send these bytes too, 262 at most, in the windows of a place.

        SLOT is a static or a dynamic slot, and MINISLOT the window that opens there. PLACE is written as in a fault
        line, as `s2-4`, `m*` or `*`. Without any of these three it is every static slot. CHANNELS are `A`, `B` or
        `AB`. Raises `ValueError` for several of the three, for numbers out of 1 to 8000, and for other channels.
        """
        self._fault("babble", channels, cycles, self.place_of(slot, minislot, place), self.node(node), babble_hex(data))

    def mute(self, node: str | int, *, slot: int | None = None, minislot: int | None = None, place: str | None = None,
             channels: str = "AB", cycles: Cycles = None) -> None:
        """Has the node's offers lost in the windows of a place, as in `babble`, which has the errors too."""
        self._fault("mute", channels, cycles, self.place_of(slot, minislot, place), self.node(node))

    def corrupt(self, bit: int, *, slot: int | None = None, minislot: int | None = None, place: str | None = None,
                channels: str = "AB", cycles: Cycles = None) -> None:
        """Has a bit of the only transmission there flipped, 0 to 65535, in the windows of a place, as in `babble`."""
        self._fault("corrupt", channels, cycles, self.place_of(slot, minislot, place), None, bit_number(bit))

    def lose(self, node: str | int, *, cycles: Cycles = None) -> None:
        """Has everything lost that the node sends in these cycles, as if it were silent."""
        number = self.node(node)
        self.faults += [("lost", number, named) for named in self.spelled(self.cycles_of(cycles))]

    def place_of(self, slot: int | None, minislot: int | None, place: str | None) -> str:
        """Returns the word for the windows of a fault line, of which at most one of the three is given.

        A slot after the static ones is a dynamic slot. Raises `ValueError` for several, and for what is no place.
        """
        if sum(it is not None for it in (slot, minislot, place)) > 1:
            raise ValueError("a fault is at one place: a slot, a minislot or a place, and not several of these")
        if place is not None:
            if FaultPlace.of(place) is None:
                raise ValueError(f"the place is {place!r}, and has to be '*', 's*', 's3', 's3-5', 'm*', 'm7' or 'd70', "
                                 f"with numbers from 1 to {MOST_PLACE}")
            return place
        if minislot is not None:
            return f"m{within('the minislot', minislot, 1, MOST_PLACE)}"
        if slot is None:
            return EVERY_STATIC
        number = within("the slot", slot, 1, MOST_PLACE)
        parameters = self.cluster.get("params")
        static_slots = parameters.get("static_slots") if isinstance(parameters, dict) else None
        return f"d{number}" if isinstance(static_slots, int) and number > static_slots else f"s{number}"

    def _fault(self, kind: str, channels: str, cycles: Cycles, place: str, node: int | None, *words: object) -> None:
        if channels not in ("A", "B", "AB"):
            raise ValueError(f"the channels are {channels!r}, and have to be 'A', 'B' or 'AB'")
        who = () if node is None else (node,)
        named = self.spelled(self.cycles_of(cycles))
        self.faults += [(kind, *who, channels, cycle, place, *words) for cycle in named]

    # ---- expectations

    def expect(self, node: str | int, buffer: str | int, payload: bytes | Iterable[bytes], *,
               cycles: Cycles = None) -> None:
        """Expects a payload in a receive buffer at the end of each of these cycles, or one after another of these.

        The run reports each payload that it misses, and ends with status 3. Raises `ValueError` as `Task.commit` does.
        """
        where = self.node(node), self.buffer(self.node(node), buffer)
        for word, named in in_cycles(payload, self.cycles_of(cycles), payload_hex):
            self._expectation("expect", where, named, word)

    def expect_none(self, node: str | int, buffer: str | int, *, cycles: Cycles = None) -> None:
        """Expects a receive buffer to be empty at the end of each of these cycles: no frame has come to it."""
        where = self.node(node), self.buffer(self.node(node), buffer)
        self._expectation("expect-none", where, self.cycles_of(cycles))

    def _expectation(self, kind: str, where: tuple[int, int], cycles: Iterable[int], *words: object) -> None:
        node, buffer = where
        self.expectations += [(kind, node, named, buffer, *words) for named in self.spelled(cycles)]

    # ---- the text

    def text(self) -> ScenarioText:
        """Returns the text, of version 3: the calls of each task in their order, the faults, and the expectations.

        Cycles with one step are one line, and so are both channels. It can be printed and written to a file. Both make
        a scenario that is accepted.
        """
        lines = [f"frscenario {NEWEST}"]
        for _, calls in sorted(self.scripts.items()):
            lines += [" ".join(map(str, words)) for words in calls]
        lines += [" ".join(map(str, words)) for words in (*self.faults, *self.expectations)]
        return ScenarioText("".join(f"{line}\n" for line in [*lines, "end"]))

    def __str__(self) -> str:
        """Returns the text, so that `file.write(str(scenario))` writes it whole."""
        return self.text()
