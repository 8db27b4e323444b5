"""The text of a cluster file, made of a network and its schedule."""
from collections.abc import Iterator
from dataclasses import dataclass, field

from musmyrtle.cluster import MOST_LINES, MOST_NODES, PARAMETERS, Cycles
from musmyrtle.descriptions.minislots import in_file
from musmyrtle.descriptions.naming import NameBook
from musmyrtle.descriptions.network import FrameTable, Network, Node, SignalTable
from musmyrtle.descriptions.report import Report
from musmyrtle.descriptions.scheduling import BufferLine, OwnLine, Schedule
from musmyrtle.descriptions.toml_text import Value, comment, inline, quoted, value_text
from musmyrtle.names import LONGEST_NAME
from musmyrtle.places import Path
from musmyrtle.signals.reading import MOST_SIGNALS

LONGEST_FRAME_NAME = 128
MOST_HOST_ENTRIES, MOST_SLOT_ENTRIES = 16384, 65536
CYCLES_OF_ROOM = 64
"""The cycles for which a node's journal has room for a commit of each buffer in each cycle, and for all windows."""


@dataclass
class Built:
    """A node of the cluster file with its lines."""

    node: Node
    name: str
    own: list[OwnLine] = field(default_factory=list)
    buffers: list[BufferLine] = field(default_factory=list)
    is_listener: bool = False


class Builder:
    """Makes the text, and keeps which elements the frames and signals in it come from."""

    def __init__(self, schedule: Schedule, guard: str, is_split: bool, report: Report) -> None:
        self.schedule, self.guard, self.is_split, self.report = schedule, guard, is_split, report
        self.network: Network = schedule.network
        self.node_names = NameBook(LONGEST_NAME, report, "n")
        self.frame_names = NameBook(LONGEST_FRAME_NAME, report)
        self.frames: dict[str, FrameTable] = {}
        """The frames with signals by their paths."""
        self.names: dict[str, str] = {}
        """The names of frames by their paths."""
        self.origins: dict[Path, str] = {}
        """The paths of the elements from which the tables at some paths of the cluster file come."""
        for it in self.network.sendings:
            if it.layout.signals and it.layout.path not in self.frames:
                self.frames[it.layout.path] = it.layout
                self.names[it.layout.path] = self.frame_names.name(it.layout.name)

    def lines(self) -> list[str]:
        """Returns the lines of the cluster file."""
        self.add_idle_time()
        self.note_lengths()
        built = [it for node in self.network.nodes for it in self.built(node)]
        self.add_origins(built)
        if not 1 <= len(built) <= MOST_NODES:
            why = ("choose some by --nodes A,B; the others become stand-ins, which only send" if built else
                   "no node is attached to the cluster")
            self.report.refuse("TooManyNodes", self.network.path, f"it has {len(built)} nodes, and expected are 1 to "
                               f"{MOST_NODES}: {why}")
        return [comment(self.network.path), f'guard = "{self.guard}"', "", *self.parameters(),
                *(line for it in built for line in self.node(it)), *self.frame_tables()]

    def add_origins(self, built: list[Built]) -> None:
        """Keeps from which elements nodes, frames and signals come."""
        for number, it in enumerate(built):
            self.origins["node", number] = it.node.path or it.name
        for number, frame in enumerate(self.frames.values()):
            self.origins["frame", number] = frame.path
            for place, signal in enumerate(frame.signals):
                self.origins["frame", number, "signal", place] = signal.path

    def add_idle_time(self) -> None:
        """Adds `nit_mt`: what is left of the cycle, since action points have no length in a cluster file."""
        p, times = self.network.parameters, self.network.times
        rest = p["cycle_mt"] - p["static_slots"] * p["static_mt"] - p["minislots"] * p["minislot_mt"] - p["symbol_mt"]
        if rest < times.idle_time:
            self.report.refuse("CycleSum", self.network.path, f"slots, minislots and symbol window leave {rest} "
                               f"macroticks of {p['cycle_mt']}, and the network idle time is {times.idle_time}")
        elif rest != times.idle_time:
            apart = times.action_point_difference
            why = f": {apart} are of the action points, and the dynamic segment begins as early" if apart else ""
            self.report.note(f"nit_mt is {rest}, and the network idle time is {times.idle_time}{why}")
        p["nit_mt"] = rest

    def note_lengths(self) -> None:
        """Notes the frames whose length in minislots isn't the standard's."""
        schedule, words = self.schedule, self.network.parameters["words_per_minislot"]
        differing = {}
        for it in schedule.dynamic:
            length = schedule.words(it)
            file, bus = in_file(length, words), schedule.lengths.on_the_bus(length)
            if file != bus:
                differing[it.frame] = f"{it.frame} {file} for {bus}"
        text = (f"words_per_minislot is {words}, by which these frames have other lengths in minislots than on the "
                "bus; `guaranteed` and `worst` of latency hold for those of the file")
        for frame in differing.values():
            self.report.note(text, frame)
        if schedule.dynamic and not self.network.times.is_start_known:
            self.report.note(f"the transmission start sequence is taken to have {self.network.times.start_bits} bits")

    def parameters(self) -> Iterator[str]:
        """Yields the lines of `[params]` and `[physical]`, and refuses values out of their ranges."""
        yield "[params]"
        for key, (least, most) in PARAMETERS.items():
            value = self.network.parameters[key]
            if not least <= value <= most:
                self.report.refuse("OutOfRange", self.network.path, f"{key} is {value}, and expected is {least} to "
                                   f"{most}")
            yield f"{key} = {value}"
        times = self.network.times
        yield from ("", "[physical]", f"bit_rate = {value_text(1_000_000 / times.bit_us)}",
                    f"macrotick_us = {value_text(times.macrotick_us)}", f"tss_bits = {times.start_bits}")

    # ---- nodes

    def built(self, node: Node) -> list[Built]:
        """Returns a node, and the nodes that listen for it if it is split."""
        name = self.node_names.name(node.name)
        sent = self.schedule.buffers(node, True)
        received = [] if node.parts else self.schedule.buffers(node, False)
        found, room = Built(node, name, list(self.schedule.own(node))), max(0, MOST_LINES - len(sent))
        listeners = []
        if self.is_split and len(received) > room:
            rest, received = received[room:], received[:room]
            for number, first in enumerate(range(0, len(rest), MOST_LINES), 2):
                word = self.node_names.name(node.name, f".{number}")
                listeners.append(Built(node, word, [], rest[first:first + MOST_LINES], True))
            self.report.note("receive buffers beyond 64 are those of nodes that only listen",
                             f"{len(rest)} of {node.name}")
        found.buffers = [*sent, *received]
        self.check(found, len(sent))
        return [found, *listeners]

    def check(self, it: Built, sent: int) -> None:
        """Refuses a node with too much, and notes one that is attached to one channel alone."""
        if len(it.own) > MOST_LINES:
            self.report.refuse("TooManyOwn", it.node.path, f"{it.name} has {len(it.own)} ownership lines, and "
                               f"expected are at most {MOST_LINES}")
        if len(it.buffers) > MOST_LINES:
            why = ("" if sent > MOST_LINES else
                   "; with --split the receive buffers beyond go to nodes that only listen")
            self.report.refuse("TooManyBuffers", it.node.path, f"{it.name} has {len(it.buffers)} buffers, of which "
                               f"{sent} send, and expected are at most {MOST_LINES}{why}")
        if len(it.node.channels) == 1:
            self.report.note("nodes are attached to one channel alone, and count what they see on the other",
                             f"{it.name} to {''.join(it.node.channels)}")
        if not it.node.parts:
            self.schedule.note_latest(it.node)

    def node(self, it: Built) -> Iterator[str]:
        """Yields the lines of a node."""
        parts = f": stands for {', '.join(part.name for part in it.node.parts)}" if it.node.parts else ""
        p = self.network.parameters
        windows = p["static_slots"] + p["minislots"]
        yield from ("", comment(f"{it.node.path or it.name}{parts}"), "[[node]]", f"name = {quoted(it.name)}")
        if not it.is_listener:
            latest = self.schedule.latest(it.node)
            yield from (f"latest_{channel.lower()} = {latest}" for channel in sorted(it.node.channels) if latest)
        host = CYCLES_OF_ROOM * max(4, len(it.buffers))
        yield f"host_entries = {min(MOST_HOST_ENTRIES, host)}"
        yield f"slot_entries = {min(MOST_SLOT_ENTRIES, 2 * CYCLES_OF_ROOM * windows)}"
        yield from self.queue(it)
        if it.own:
            yield from ("own = [", *(f"  {inline(own_keys(line))}," for line in it.own), "]")
        if it.buffers:
            book = NameBook(LONGEST_NAME, self.report, "b")
            yield from ("buffer = [", *(f"  {inline(self.buffer_keys(line, book))}," for line in it.buffers), "]")

    def queue(self, it: Built) -> Iterator[str]:
        """Yields the line of a receive FIFO."""
        fifo = it.node.fifo
        if fifo and not it.is_listener:
            yield "queue = " + inline({"capacity": fifo.capacity, "first": fifo.first, "last": fifo.last,
                                       "channels": fifo.channel, **filter_keys(fifo.cycles)})

    def buffer_keys(self, line: BufferLine, book: NameBook) -> dict[str, Value]:
        """Returns the keys of a buffer. Several buffers of one frame have its name with a number behind."""
        keys: dict[str, Value] = {"name": book.name(line.frame.name, is_noted=not book.taken), "kind": line.kind,
                                  "slot": line.slot, "channels": line.channels, **filter_keys(line.cycles)}
        if line.words is not None:
            keys["words"] = line.words
        if line.has_preamble:
            keys["preamble"] = True
        if line.frame.path in self.names:
            keys["frame"] = self.names[line.frame.path]
        return keys

    # ---- frames

    def frame_tables(self) -> Iterator[str]:
        """Yields the lines of all tables `[[frame]]`."""
        for path, frame in self.frames.items():
            if len(frame.signals) > MOST_SIGNALS:
                self.report.refuse("TooManySignals", path, f"it has {len(frame.signals)} signals, and expected are at "
                                   f"most {MOST_SIGNALS}")
            yield from ("", comment(path), "[[frame]]", f"name = {quoted(self.names[path])}", f"bytes = {frame.length}")
            if frame.unused:
                yield f"unused = {frame.unused}"
            names = self.names_of_signals(frame)
            yield "signal = ["
            for it in frame.signals:
                behind = f" {comment(it.comment)}" if it.comment else ""
                yield f"  {inline(signal_keys(it, names))},{behind}"
            yield "]"

    def names_of_signals(self, frame: FrameTable) -> dict[SignalTable, str]:
        """Returns the names of the signals of a frame."""
        book = NameBook(LONGEST_FRAME_NAME, self.report)
        return {it: book.name(it.name) for it in frame.signals}


def filter_keys(cycles: Cycles) -> dict[str, Value]:
    """Returns the keys of a cycle counter filter, or none for every cycle."""
    return {} if cycles.repetition == 1 else {"base": cycles.base, "repetition": cycles.repetition}


def own_keys(line: OwnLine) -> dict[str, Value]:
    """Returns the keys of an ownership line."""
    keys: dict[str, Value] = {"slot": line.slot, "channels": line.channels}
    if line.is_sync:
        keys["sync"] = True
    if line.is_startup:
        keys["startup"] = True
    return keys | filter_keys(line.cycles)


def signal_keys(signal: SignalTable, names: dict[SignalTable, str]) -> dict[str, Value]:
    """Returns the keys of a signal, with the names of its selectors."""
    keys: dict[str, Value] = {**signal.keys, "name": names[signal]}
    if signal.when:
        keys["when"] = {names[selector]: code for selector, code in signal.when}
    return keys
