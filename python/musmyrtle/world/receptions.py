"""The frames that receive buffers and receive FIFOs store while a world goes on, for listeners and as a stream.

The reports of the nodes have them: a receive buffer has stored a frame if its report names another entry than before,
and a FIFO if it holds or has lost more frames. The record of the window has the frame of a FIFO.
"""
from collections.abc import Callable, Iterable, Iterator
from dataclasses import dataclass, field
from enum import Enum
from types import TracebackType
from typing import TYPE_CHECKING, Final

from musmyrtle.signals.refusals import Raw, ReadValue
from musmyrtle.world.refusals import refusal
from musmyrtle.world.replies import Channel, Record, Sent, Window, bytes_of, channel_of, record_of, window_of

if TYPE_CHECKING:
    from musmyrtle.cluster import Node, Queue
    from musmyrtle.signals.layout import Layout
    from musmyrtle.world.layouts import Layouts

CYCLES = 64
WINDOW, CYCLE, EMPTY = "window", "cycle", "- -"
"""The requests for a single window and for a cycle, and the words of a receive buffer that holds nothing."""
CHANNELS: tuple[Channel, ...] = ("A", "B")
HEADER, TRAILER = 5, 3
"""The bytes of a frame before and after its payload."""


class Fifo(Enum):
    """The word for the receive FIFO of a node, in the place of a buffer."""

    FIFO = "FIFO"


FIFO: Final = Fifo.FIFO


@dataclass(frozen=True, slots=True)
class Reception:
    """A frame that a receive buffer or a receive FIFO stored, with its receiver, the sender by the schedule, and where
    and when it came.

    `buffer` is None for the FIFO. `cycle` is the cycle of the run, from 0. `window` is the number of the window, or
    None for a dynamic slot if the world did a whole cycle at once. `reception["speed"]` is a signal, as of a `Frame`.
    """

    node: int
    node_name: str | None
    buffer: int | None
    buffer_name: str | None
    sender: int | None
    sender_name: str | None
    slot: int
    channel: Channel
    cycle: int
    window: int | None
    payload: bytes
    layouts: "Layouts" = field(repr=False, compare=False)

    @property
    def is_fifo(self) -> bool:
        """Returns whether the receive FIFO of the node stored the frame."""
        return self.buffer is None

    def __getitem__(self, name: str) -> ReadValue:
        """Returns a signal: the name of its raw value if it has one, otherwise the physical value, or None if invalid.
        """
        return self._layout().read(name, self.payload).value

    def raw(self, name: str) -> Raw:
        """Returns the raw value of a signal."""
        return self._layout().read(name, self.payload).raw

    def is_new(self, name: str) -> bool:
        """Returns whether all update bits of a signal are 1, as they are if it has none."""
        return self._layout().read(name, self.payload).is_new

    def signals(self) -> dict[str, ReadValue]:
        """Returns all signals that the payload has, by their names."""
        return {it.signal.name: it.value for it in self._layout().reads(self.payload)}

    def _layout(self) -> "Layout":
        return self.layouts.received(self.slot, self.channel, self.cycle % CYCLES)


Listener = Callable[[Reception], object]


class Listening:
    """A listener of a world, until `stop` is called or its block ends."""

    def __init__(self, listener: Listener, node: int | None, buffer: int | Fifo | None,
                 stopping: Callable[["Listening"], None]) -> None:
        self.listener, self.node, self.buffer, self._stopping = listener, node, buffer, stopping

    def wants(self, it: Reception) -> bool:
        """Returns whether a frame is for the listener."""
        return self.node in (None, it.node) and self.buffer in (None, FIFO if it.buffer is None else it.buffer)

    def wants_fifo(self, node: int) -> bool:
        """Returns whether the frames of a node's receive FIFO are for the listener."""
        return self.node in (None, node) and self.buffer in (None, FIFO)

    def stop(self) -> None:
        """Ends listening. A second time does nothing."""
        self._stopping(self)

    def __enter__(self) -> "Listening":
        return self

    def __exit__(self, kind: type[BaseException] | None, error: BaseException | None, trace: TracebackType | None
                 ) -> None:
        self.stop()


class Receptions:
    """The frames that the receivers of a world held at its last step, and the listeners that hear of changes.

    SEND returns the replies to requests between which no other comes.
    """

    def __init__(self, layouts: "Layouts", send: Callable[[list[str]], list[str]]) -> None:
        self.layouts, self.send = layouts, send
        self.listeners: list[Listening] = []
        self.held: dict[int, dict[int, str]] = {}
        """The words of each receive buffer by node, as its report had them."""

    def listen(self, listener: Listener, node: int | None, buffer: int | Fifo | None) -> Listening:
        """Begins to listen. Frames that buffers hold already aren't heard of."""
        made = Listening(listener, node, buffer, self.stop)
        self.listeners.append(made)
        nodes = [it for it in self.nodes() if it not in self.held]
        for number, report in zip(nodes, self.send([f"report {it}" for it in nodes])):
            self.held[number] = dict(words_in(report))
        return made

    def stop(self, listening: Listening) -> None:
        """Ends listening. The buffers of nodes without a listener aren't followed any more."""
        if listening in self.listeners:
            self.listeners.remove(listening)
            nodes = self.nodes() if self.listeners else []
            self.held = {node: its for node, its in self.held.items() if node in nodes}

    def nodes(self) -> list[int]:
        """Returns the nodes that have a receive buffer, of which a listener wants to hear."""
        wanted = {it.node for it in self.listeners if it.buffer is not FIFO}
        return [it.number for it in self.layouts.cluster().nodes if (None in wanted or it.number in wanted)
                and any(not buffer.transmits for buffer in it.buffers)]

    def fifos(self) -> "list[Queue]":
        """Returns the receive FIFOs of which a listener wants to hear."""
        queues = [it.queue for it in self.layouts.cluster().nodes if it.queue]
        return [it for it in queues if any(its.wants_fifo(it.node) for its in self.listeners)]

    def step(self, line: str) -> tuple[str, list[Reception]]:
        """Does a step of the world by a request. Returns its reply, and the frames that were stored in it.

        A cycle is done window by window if a listener wants to hear of a FIFO, which can store several frames in it.
        """
        fifos = self.fifos()
        if not fifos or line not in (WINDOW, CYCLE):
            return self.whole_step(line)
        found: list[Reception] = []
        while True:
            reply, its = self.window(fifos)
            found += its
            kind, *words = reply.split(" ")
            if line == WINDOW or kind not in ("open", "sealed") or window_of(words).opens_cycle:
                return reply, found

    def whole_step(self, line: str) -> tuple[str, list[Reception]]:
        """Does a step at once. Returns its reply, and the frames that receive buffers stored in it."""
        nodes = self.nodes()
        at, now, reply, *reports = self.send(["at", "now", line, *(f"report {it}" for it in nodes)])
        kind, *words = now.split(" ")
        if kind == "over" or reply.startswith("refused "):
            return reply, []
        number, minislot, slot = int(words[0]), int(words[2]), words[3]
        first = number - int(slot) + 1 if minislot == 0 else 0
        cycle, window = int(at.split(" ")[1]), number if line == WINDOW else None
        return reply, [it for node, report in zip(nodes, reports)
                       for it in self.changes(node, report, cycle, first, window)]

    # ---- receive FIFOs

    def window(self, fifos: "list[Queue]") -> tuple[str, list[Reception]]:
        """Does a window. Returns its reply, and the frames that receive buffers and these FIFOs stored in it."""
        at, now = self.send(["at", "now"])
        kind, *words = now.split(" ")
        if kind == "over":
            return self.whole_step(WINDOW)
        window, cycle = window_of(words), int(at.split(" ")[1])
        due = [it for it in fifos if self.channels(it, window)]
        before = self.send([f"report {it.node}" for it in due])
        reply, found = self.whole_step(WINDOW)
        if due and not reply.startswith("refused "):
            record, *after = self.send([f"record {window.number}", *(f"report {it.node}" for it in due)])
            if record.startswith("refused "):
                raise refusal(record, f"record {window.number}")
            for queue, old, new in zip(due, before, after):
                count = sum(total_of(new)) - sum(total_of(old))
                if count:
                    its = record_of(record.split("\n")[1:])
                    found += (self.fifo_reception(queue, its, channel, cycle)
                              for channel in self.stored(queue, its, window, cycle, count))
        return reply, sorted(found, key=lambda it: it.node)

    def channels(self, queue: "Queue", window: Window) -> list[Channel]:
        """Returns the channels on which a FIFO admits a frame in a window, and no receive buffer of its node does."""
        node: Node = self.layouts.cluster().nodes[queue.node]
        found: list[Channel] = []
        for channel in CHANNELS:
            slot = window.slot(channel)
            if slot is not None and queue.first <= slot <= queue.last and channel in queue.channels \
                    and queue.cycles.admit(window.cycle) and not any(
                        not it.transmits and it.slot == slot and channel in it.channels
                        and it.cycles.admit(window.cycle) for it in node.buffers):
                found.append(channel)
        return found

    def stored(self, queue: "Queue", record: Record, window: Window, cycle: int, count: int) -> list[Channel]:
        """Returns the channels whose frames a FIFO stored in a window, if it stored so many."""
        from musmyrtle.arrived import has_checksums, suits
        its = self.layouts.cluster().parameters
        alone = {it: passed(record, it) for it in self.channels(queue, window)}
        found = [it for it, sent in alone.items() if len(sent) == 1 and sent[0].node != queue.node]
        if len(found) <= count:
            return found
        words = its.static_words if window.is_static else None
        return [it for it in found if record.corrupt.get(it) is None and has_checksums(alone[it][0].data, it)
                and suits(alone[it][0].data, window.slot(it) or 0, cycle, words)][:count]

    def fifo_reception(self, queue: "Queue", record: Record, channel: Channel, cycle: int) -> Reception:
        """Returns the frame that a FIFO stored of a channel."""
        names, slot = self.layouts.names(), record.window.slot(channel) or 0
        sender = self.layouts.sender(slot, channel, cycle % CYCLES)
        return Reception(queue.node, names.nodes[queue.node], None, None, sender,
                         None if sender is None else names.nodes[sender], slot, channel, cycle, record.window.number,
                         passed(record, channel)[0].data[HEADER:-TRAILER], self.layouts)

    # ---- receive buffers

    def changes(self, node: int, report: str, cycle: int, first: int, window: int | None) -> Iterator[Reception]:
        """Yields the frames that a node stored since its report before, by buffer.

        The step was in a cycle whose first window is FIRST. WINDOW is its own number if it was a single window.
        """
        held = self.held.setdefault(node, {})
        for buffer, words in words_in(report):
            if held.get(buffer) != words:
                held[buffer] = words
                if words != EMPTY:
                    yield self.reception(node, buffer, words, cycle, first, window)

    def reception(self, node: int, buffer: int, words: str, cycle: int, first: int, window: int | None) -> Reception:
        """Returns the frame of the words of a receive buffer, as `48:A x2222`."""
        cluster, names = self.layouts.cluster(), self.layouts.names()
        slot, (origin, payload) = cluster.nodes[node].buffers[buffer].slot, words.split(" ")
        channel = channel_of(origin.partition(":")[2])
        number = first + slot - 1 if window is None and cluster.is_static(slot) else window
        sender = self.layouts.sender(slot, channel, cycle % CYCLES)
        return Reception(node, names.nodes[node], buffer, names.buffers[node][buffer], sender,
                         None if sender is None else names.nodes[sender], slot, channel, cycle, number,
                         bytes_of(payload), self.layouts)

    def tell(self, found: Iterable[Reception]) -> None:
        """Tells the listeners of frames, each in the order in which it began to listen."""
        for it in found:
            for listening in list(self.listeners):
                if listening.wants(it):
                    listening.listener(it)


def words_in(report: str) -> Iterator[tuple[int, str]]:
    """Yields the number of each receive buffer in a report, and its words."""
    for line in report.split("\n"):
        if line.startswith("rx "):
            _, number, words = line.split(" ", 2)
            yield int(number), words


def passed(record: Record, channel: Channel) -> list[Sent]:
    """Returns the transmissions that passed on a channel."""
    return [it for it in record.sent if it.channel == channel and it.fate == "passed" and it.data]


def total_of(report: str) -> tuple[int, int]:
    """Returns the frames that the receive FIFO of a report holds, and those that it lost."""
    for line in report.split("\n"):
        if line.startswith("queue "):
            _, length, lost = line.split(" ")
            return int(length), int(lost)
    return 0, 0
