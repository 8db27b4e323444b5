"""The receive buffers and receive FIFOs that are for a frame, and the frames with signals that they get."""
from collections.abc import Iterator
from dataclasses import dataclass
from typing import NamedTuple

from musmyrtle.cluster import CYCLES, Buffer, Cluster, Queue
from musmyrtle.signals.frames import Frames
from musmyrtle.signals.layout import Layout
from musmyrtle.signals.refusals import UnknownSignal


class Destination(NamedTuple):
    """A receive buffer of a node by its number, or the receive FIFO of the node if the number is None."""

    node: int
    buffer: int | None


@dataclass(frozen=True)
class Route:
    """A transmit buffer whose frames have signals, and a receive buffer or a receive FIFO that may store them."""

    sender: Buffer
    destination: Destination
    layout: Layout


class Destinations:
    """The receive buffers and receive FIFOs that admit a frame, by its slot, channel and cycle counter.

    A FIFO admits only what no receive buffer of its node admits.
    """

    def __init__(self, cluster: Cluster) -> None:
        self.buffers: dict[int, list[Buffer]] = {}
        for it in cluster.buffers():
            if not it.transmits:
                self.buffers.setdefault(it.slot, []).append(it)
        self.queues = [it.queue for it in cluster.nodes if it.queue]
        self.known: dict[tuple[int, str, int], tuple[Destination, ...]] = {}

    def of(self, slot: int, channel: str, cycle: int) -> tuple[Destination, ...]:
        """Returns all that admit a frame, those of its sender too, by node."""
        place = slot, channel, cycle % len(CYCLES)
        if place not in self.known:
            self.known[place] = tuple(sorted(self.found(*place), key=lambda it: (it.node, it.buffer or 0)))
        return self.known[place]

    def found(self, slot: int, channel: str, count: int) -> Iterator[Destination]:
        """Yields all that admit a frame."""
        nodes = set()
        for it in self.buffers.get(slot, ()):
            if channel in it.channels and it.cycles.admit(count):
                nodes.add(it.node)
                yield Destination(it.node, it.number)
        for queue in self.queues:
            if queue.node not in nodes and admits(queue, slot, channel, count):
                yield Destination(queue.node, None)


def admits(queue: Queue, slot: int, channel: str, count: int) -> bool:
    """Returns whether the filter of a receive FIFO admits a frame."""
    return queue.first <= slot <= queue.last and channel in queue.channels and queue.cycles.admit(count)


def routes_of(frames: Frames) -> list[Route]:
    """Returns the routes of all frames with signals, by sender and then by receiver."""
    destinations = Destinations(frames.cluster)
    return [Route(sender, it, frames.claims[sender.node, sender.number])
            for sender in frames.cluster.buffers()
            if sender.transmits and (sender.node, sender.number) in frames.claims
            for it in receivers_of(sender, destinations)]


def receivers_of(sender: Buffer, destinations: Destinations) -> list[Destination]:
    """Returns the receive buffers and FIFOs of other nodes that may store the frames of a transmit buffer."""
    counts = [it for it in CYCLES if sender.cycles.admit(it)]
    found = dict.fromkeys(it for channel in sender.channels for count in counts
                          for it in destinations.of(sender.slot, channel, count) if it.node != sender.node)
    return sorted(found, key=lambda it: (it.node, it.buffer is None, it.buffer or 0))


class Layouts:
    """The layout of a received frame by its slot, channel and cycle counter, or None if its sender has no signals."""

    def __init__(self, frames: Frames) -> None:
        self.frames = frames
        self.known: dict[tuple[int, str, int], Layout | None] = {}

    def of(self, slot: int, channel: str, cycle: int) -> Layout | None:
        """Returns the layout that the sender of this place has."""
        place = slot, channel, cycle % len(CYCLES)
        if place not in self.known:
            try:
                self.known[place] = self.frames.received(*place)
            except UnknownSignal:
                self.known[place] = None
        return self.known[place]
