"""A cluster file: its parameters and nodes, its first fault and the further ones.

The faults are looked for in the order in which `fr_bench` looks for them, so that the first one is the program's.
"""
from collections.abc import Iterable
from dataclasses import dataclass, field
from functools import cached_property
from typing import Any

from musmyrtle.findings import MOST_REASONS, alike, joined, shown
from musmyrtle.other_words import FIFOS, value_meant
from musmyrtle.places import Path

PARAMETERS = {
    "static_slots": (2, 1023), "minislots": (0, 8000), "static_words": (0, 127), "static_mt": (1, 1000),
    "minislot_mt": (1, 100), "symbol_mt": (0, 1000), "nit_mt": (1, 1000), "cycle_mt": (4, 20000), "idle": (0, 2),
    "words_per_minislot": (1, 127),
}
NODE_KEYS = ("tasks", "latest_a", "latest_b", "host_entries", "slot_entries", "own", "queue", "buffer")
OWN_KEYS = ("slot", "channels", "sync", "startup", "base", "repetition")
QUEUE_KEYS = ("capacity", "first", "last", "channels", "base", "repetition")
BUFFER_KEYS = ("kind", "slot", "channels", "base", "repetition", "preamble", "words")
CHANNELS = ("A", "B", "AB")
GUARDS = ("AB", "A", "B", "none")
KINDS = ("event", "state", "receive")
REPETITIONS = (1, 2, 4, 8, 16, 32, 64)
CYCLES = range(64)
LAST_SLOT = 2047
MOST_NODES = 16
MOST_LINES = 64


@dataclass(frozen=True)
class Cycles:
    """The cycles that leave `base` when divided by `repetition`."""

    base: int = 0
    repetition: int = 1

    def admit(self, cycle: int) -> bool:
        return cycle % self.repetition == self.base

    @cached_property
    def bits(self) -> int:
        """Returns the cycles of `CYCLES` as bits of a number."""
        return sum(1 << cycle for cycle in CYCLES if self.admit(cycle))

    def meet(self, other: "Cycles") -> bool:
        """Returns whether both admit some cycle."""
        return (self.base - other.base) % min(self.repetition, other.repetition) == 0

    def __str__(self) -> str:
        return "every cycle" if self.repetition == 1 else f"cycles {self.base}, {self.base + self.repetition} .."


@dataclass(frozen=True)
class Ownership:
    node: int
    number: int
    path: Path
    slot: int
    channels: str
    cycles: Cycles
    is_sync: bool
    is_startup: bool = False

    def __str__(self) -> str:
        return f"ownership line {self.number} of node {self.node}"


@dataclass(frozen=True)
class Queue:
    node: int
    path: Path
    capacity: int
    first: int
    last: int
    channels: str
    cycles: Cycles

    def __str__(self) -> str:
        return f"the receive FIFO of node {self.node}"


@dataclass(frozen=True)
class Buffer:
    node: int
    number: int
    path: Path
    kind: str
    slot: int
    channels: str
    cycles: Cycles
    words: int
    """The words of a transmit buffer's frames; 0 for a receive buffer."""

    @property
    def transmits(self) -> bool:
        return self.kind != "receive"

    def __str__(self) -> str:
        return f"buffer {self.number} of node {self.node}"


@dataclass
class Node:
    number: int
    path: Path
    tasks: int = 1
    latest: dict[str, int] = field(default_factory=lambda: {"A": 0, "B": 0})
    host_entries: int = 256
    slot_entries: int = 4096
    owned: list[Ownership] = field(default_factory=list)
    queue: Queue | None = None
    buffers: list[Buffer] = field(default_factory=list)

    def owns(self, slot: int, channel: str, cycle: int) -> bool:
        return any(it.slot == slot and channel in it.channels and it.cycles.admit(cycle) for it in self.owned)


@dataclass(frozen=True)
class Parameters:
    static_slots: int
    minislots: int
    static_words: int
    static_mt: int
    minislot_mt: int
    symbol_mt: int
    nit_mt: int
    cycle_mt: int
    idle: int
    words_per_minislot: int

    def minislots_of(self, words: int) -> int:
        """Returns the minislots that a frame of so many words fills, without the idle ones after it."""
        return -(-(words + 4) // self.words_per_minislot)

    def length_of(self, slot: int, words: int) -> int:
        """Returns the macroticks from the start of a slot to the end of its frame of so many words.

        A frame ends with its static slot, or with the last minislot that it fills.
        """
        return self.static_mt if slot <= self.static_slots else self.minislots_of(words) * self.minislot_mt

    @property
    def windows(self) -> int:
        """Returns the largest number of windows in a cycle."""
        return self.static_slots + self.minislots


@dataclass
class Cluster:
    parameters: Parameters
    guard: str
    nodes: list[Node]

    def is_static(self, slot: int) -> bool:
        return slot <= self.parameters.static_slots

    def buffers(self) -> list[Buffer]:
        return [buffer for node in self.nodes for buffer in node.buffers]

    def owned(self) -> list[Ownership]:
        return [line for node in self.nodes for line in node.owned]


@dataclass(frozen=True)
class Fault:
    """A reason to refuse a file: the words of the refusal, the place, and the reason."""

    refusal: str
    headline: str
    reason: str
    path: Path = ()
    notes: tuple[tuple[str, Path], ...] = ()


def question(value: str, words: tuple[str, ...]) -> str:
    """Returns the question for the words that are meant by a value, or nothing where none is known."""
    if words == KINDS and value.lower() in FIFOS:
        return " A receive FIFO is the key `queue` of its node."
    meant = joined([f'"{it}"' for it in value_meant(value, words)], "or")
    return f" Is {meant} meant?" if meant else ""


class Reader:
    """Reads the keys of one table, and notes their faults."""

    def __init__(self, table: dict[str, Any], path: Path, who: str, refusal: str, known: tuple[str, ...],
                 faults: list[Fault]):
        self.table, self.path, self.who, self.refusal = table, path, who, refusal
        self.known, self.faults = known, faults

    def note(self, headline: str, reason: str, path: Path | None = None,
             notes: Iterable[tuple[str, Path]] = ()) -> None:
        self.faults.append(Fault(self.refusal, headline, reason, self.path if path is None else path, tuple(notes)))

    def missing(self, key: str, right: str) -> None:
        # The nearest known word is looked for only if it is printed.
        meant = alike(self.table, self.known, key) if len(self.faults) < MOST_REASONS else []
        notes = [(f"`{it}` is an unknown key: is `{key}` meant?", (*self.path, it)) for it in meant]
        self.note(f"{self.who} has no `{key}`", f"Expected `{key}` with {right}.", notes=notes)

    def wrong(self, key: str, right: str, hint: str = "") -> None:
        found = shown(self.table[key])
        self.note(f"`{key}` of {self.who} is {found}", f"Expected {right}.{hint}", (*self.path, key))

    def number(self, key: str, least: int, greatest: int, usual: int | None = None, why: str = "") -> int:
        right = f"a whole number from {least} to {greatest}{why}"
        if key not in self.table:
            if usual is None:
                self.missing(key, right)
            return least if usual is None else usual
        value = self.table[key]
        if type(value) is int and least <= value <= greatest:
            return value
        self.wrong(key, right)
        return least

    def flag(self, key: str) -> bool:
        value = self.table.get(key, False)
        if type(value) is not bool:
            self.wrong(key, "true or false, without quotes")
            return False
        return value

    def word(self, key: str, words: tuple[str, ...]) -> str:
        right = joined([f'"{it}"' for it in words], "or")
        if key not in self.table:
            self.missing(key, right)
            return words[0]
        value = self.table[key]
        if isinstance(value, str) and value in words:
            return value
        self.wrong(key, right, question(value, words) if isinstance(value, str) else "")
        return words[0]

    def cycles(self) -> Cycles:
        before = len(self.faults)
        base = self.number("base", 0, 63, 0)
        repetition = self.table.get("repetition", 1)
        if type(repetition) is not int or repetition not in REPETITIONS:
            self.wrong("repetition", joined([str(it) for it in REPETITIONS], "or"))
        if len(self.faults) > before:
            return Cycles()
        if base >= repetition:
            self.wrong("base", f"a number below `repetition`, which is {repetition}")
        else:
            return Cycles(base, repetition)
        return Cycles()

    def tables(self, key: str) -> list[dict[str, Any]] | None:
        """Returns the tables of an array of at most 64 tables, or nothing for any other value."""
        value = self.table.get(key, [])
        if not isinstance(value, list):
            self.wrong(key, "an array of tables")
            return None
        if len(value) > MOST_LINES:
            self.wrong(key, f"an array of at most {MOST_LINES} tables")
            return None
        for number, item in enumerate(value):
            if not isinstance(item, dict):
                headline = f"item {number} of `{key}` of {self.who} is {shown(item)}"
                self.note(headline, "Expected a table.", (*self.path, key, number))
                return None
        return value


class Reading:
    """The reading of a document: the cluster, as far as there is one, and the faults in the program's order."""

    def __init__(self, document: dict[str, Any]):
        self.document = document
        self.faults: list[Fault] = []
        self.parameters = self.read_parameters()
        self.guard = self.read_guard()
        self.nodes = [] if self.parameters is None else self.read_nodes(self.parameters)

    @property
    def cluster(self) -> Cluster | None:
        if self.faults or self.parameters is None:
            return None
        return Cluster(self.parameters, self.guard, self.nodes)

    def read_parameters(self) -> Parameters | None:
        held = self.document.get("params")
        table: dict[str, Any] = held if isinstance(held, dict) else {}
        path: Path = ("params",) if "params" in self.document else ()
        values = []
        for key, (least, greatest) in PARAMETERS.items():
            reader = Reader(table, path, "`[params]`", "", tuple(PARAMETERS), self.faults)
            value = reader.table.get(key)
            kind = "Missing" if key not in reader.table else "NotANumber" if type(value) is not int else "OutOfRange"
            reader.refusal = f"Params {kind} {key}"
            values.append(reader.number(key, least, greatest))
            if not isinstance(held, dict):
                self.faults[-1] = self.without_parameters(self.faults[-1])
                return None
        parameters = None if self.faults else Parameters(*values)
        return self.summed(parameters) if parameters else None

    def without_parameters(self, fault: Fault) -> Fault:
        found = "no table `[params]`"
        if "params" in self.document:
            found = f"under `params` {shown(self.document['params'])}, which is no table"
        keys = joined([f"`{it}`" for it in PARAMETERS])
        reason = f"Expected a table `[params]` with {keys}."
        return Fault(fault.refusal, f"the file has {found}", reason, fault.path)

    def summed(self, it: Parameters) -> Parameters | None:
        static, dynamic = it.static_slots * it.static_mt, it.minislots * it.minislot_mt
        total = static + dynamic + it.symbol_mt + it.nit_mt
        if total == it.cycle_mt:
            return it
        parts = f"{it.static_slots} * {it.static_mt} + {it.minislots} * {it.minislot_mt} + {it.symbol_mt} + {it.nit_mt}"
        less = "more" if total > it.cycle_mt else "less"
        headline = f"the parts of the cycle are {total} macroticks long, and `cycle_mt` is {it.cycle_mt}"
        reason = (f"static_slots * static_mt + minislots * minislot_mt + symbol_mt + nit_mt is {parts} = {total}, "
                  f"{abs(total - it.cycle_mt)} {less} than `cycle_mt`. Expected {total} there, or other parts.")
        self.faults.append(Fault("Params CycleSum", headline, reason, ("params", "cycle_mt")))
        return None

    def read_guard(self) -> str:
        guard = self.document.get("guard", "AB")
        if type(guard) is not str or guard not in GUARDS:
            right = joined([f'"{it}"' for it in GUARDS], "or")
            headline = f"`guard` at the top of the file is {shown(guard)}"
            hint = question(guard, GUARDS) if type(guard) is str else ""
            self.faults.append(Fault("BadGuard", headline, f"Expected {right}.{hint}", ("guard",)))
            return "AB"
        return "" if guard == "none" else guard

    def read_nodes(self, parameters: Parameters) -> list[Node]:
        nodes = self.document.get("node")
        if isinstance(nodes, list) and 1 <= len(nodes) <= MOST_NODES:
            return [self.read_node(number, table, parameters) for number, table in enumerate(nodes)]
        right = f"Expected 1 to {MOST_NODES} tables `[[node]]`."
        if "node" not in self.document:
            meant = alike(self.document, ("node",), "node")
            notes = tuple((f"`{it}` is an unknown key: is `node` meant?", (it,)) for it in meant)
            self.faults.append(Fault("TooManyNodes", "the file has no node", right, notes=notes))
            return []
        if isinstance(nodes, dict):
            right = "Expected `[[node]]`, with two brackets at each side, for each node."
            self.faults.append(Fault("TooManyNodes", "`node` is one table, `[node]`", right, ("node",)))
            return []
        is_long = isinstance(nodes, list) and len(nodes) > MOST_NODES
        place: Path = ("node", *([MOST_NODES] if is_long else []))
        found = f"the file has {len(nodes)} nodes" if isinstance(nodes, list) else f"`node` is {shown(nodes)}"
        self.faults.append(Fault("TooManyNodes", found, right, place))
        return []

    def read_node(self, number: int, table: object, parameters: Parameters) -> Node:
        path: Path = ("node", number)
        node, refusal = Node(number, path), f"BadNode {number}"
        if not isinstance(table, dict):
            self.faults.append(Fault(refusal, f"node {number} is {shown(table)}", "Expected a table.", path))
            return node
        reader = Reader(table, path, f"node {number}", refusal, NODE_KEYS, self.faults)
        node.tasks = reader.number("tasks", 0, 8, 1)
        for channel in "AB":
            key = f"latest_{channel.lower()}"
            node.latest[channel] = reader.number(key, 0, parameters.minislots, 0, ", which is `minislots`")
        node.host_entries = reader.number("host_entries", 1, 16384, 256)
        node.slot_entries = reader.number("slot_entries", 2, 65536, 4096)
        for place, line in enumerate(reader.tables("own") or []):
            node.owned.append(self.read_own(number, place, line, parameters))
        if "queue" in table:
            node.queue = self.read_queue(reader, number)
        for place, line in enumerate(reader.tables("buffer") or []):
            node.buffers.append(self.read_buffer(number, place, line, parameters))
        return node

    def read_own(self, node: int, number: int, table: dict[str, Any], parameters: Parameters) -> Ownership:
        path: Path = ("node", node, "own", number)
        who = f"ownership line {number} of node {node}"
        reader = Reader(table, path, who, f"BadNode {node}", OWN_KEYS, self.faults)
        slot = reader.number("slot", 1, parameters.static_slots, None, ", which is `static_slots`")
        channels = reader.word("channels", CHANNELS)
        cycles = reader.cycles()
        is_sync, is_startup = reader.flag("sync"), reader.flag("startup")
        if is_startup and not is_sync:
            reader.wrong("startup", "`sync = true` beside it: a startup frame is a sync frame as well")
        return Ownership(node, number, path, slot, channels, cycles, is_sync, is_startup)

    def read_queue(self, node: Reader, number: int) -> Queue | None:
        table = node.table["queue"]
        path: Path = ("node", number, "queue")
        if not isinstance(table, dict):
            node.wrong("queue", "a table with " + joined([f"`{it}`" for it in QUEUE_KEYS[:4]]))
            return None
        reader = Reader(table, path, f"the receive FIFO of node {number}", f"BadNode {number}", QUEUE_KEYS, self.faults)
        capacity = reader.number("capacity", 1, 256)
        before = len(self.faults)
        first = reader.number("first", 1, LAST_SLOT)
        last = reader.number("last", 1, LAST_SLOT)
        channels = reader.word("channels", CHANNELS)
        cycles = reader.cycles()
        if len(self.faults) == before and first > last:
            reader.wrong("first", f"a slot not above `last`, which is {last}")
        return Queue(number, path, capacity, first, last, channels, cycles)

    def read_buffer(self, node: int, number: int, table: dict[str, Any], parameters: Parameters) -> Buffer:
        path: Path = ("node", node, "buffer", number)
        who = f"buffer {number} of node {node}"
        reader = Reader(table, path, who, f"BadBuffer {node} {number}", BUFFER_KEYS, self.faults)
        before = len(self.faults)
        kind = reader.word("kind", KINDS)
        slot = reader.number("slot", 1, LAST_SLOT)
        channels = reader.word("channels", CHANNELS)
        cycles = reader.cycles()
        words = 0
        if len(self.faults) == before and kind != "receive":
            reader.flag("preamble")
            words = parameters.static_words
            if slot > parameters.static_slots:
                words = reader.number("words", 0, 127, None, f", since slot {slot} is dynamic")
        return Buffer(node, number, path, kind, slot, channels, cycles, words)
