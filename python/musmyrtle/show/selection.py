"""The rows that a command prints: those of some nodes, buffers, places, channels and cycles, and errors alone."""
from collections.abc import Iterable
from dataclasses import dataclass

from musmyrtle.cluster import LAST_SLOT
from musmyrtle.lint.command import USAGE
from musmyrtle.output import Stop
from musmyrtle.selections import Directory, Place, Receivers, UnknownWord, shown_names
from musmyrtle.show.engines import Inputs
from musmyrtle.show.idle_cycle import idle_cycle_of
from musmyrtle.show.network import Network


@dataclass(frozen=True)
class Selection:
    """The nodes, buffers, places, channels and cycles of the run to print, each of them all if it is None."""

    nodes: frozenset[int] | None = None
    places: tuple[Place, ...] | None = None
    channels: frozenset[str] | None = None
    cycles: frozenset[int] | None = None
    is_errors: bool = False
    """True if only errors are printed."""
    buffers: Receivers | None = None
    static_slots: int = 0

    def has_node(self, node: int | None) -> bool:
        """Returns whether rows of a node are printed."""
        return self.nodes is None or node in self.nodes

    def has_buffer(self, node: int, buffer: int | None) -> bool:
        """Returns whether rows of a buffer are printed, or those of a receive FIFO for None."""
        return self.buffers is None or self.buffers.has(node, buffer)

    def has_cycle(self, cycle: int) -> bool:
        """Returns whether rows of a cycle of the run are printed."""
        return self.cycles is None or cycle in self.cycles

    def has_place(self, slot: int | None, channel: str | None, minislot: int | None = None) -> bool:
        """Returns whether a row with this slot, channel and minislot is printed, each of which may be unknown."""
        is_static = minislot is None if slot is None else slot <= self.static_slots
        has_window = self.places is None or any(it.has(slot, minislot, is_static) for it in self.places)
        return has_window and (self.channels is None or channel in self.channels)


def directory_of(network: Network) -> Directory:
    """Returns the names of a network."""
    return Directory(network.node_names, network.buffer_names)


def numbers_of_nodes(words: Iterable[str], network: Network) -> frozenset[int] | None:
    """Returns the numbers of nodes that are given by numbers, ranges or names, or None if none is given.

    Raises `Stop` if no node has a number or a name, or several have the name.
    """
    try:
        found = directory_of(network).numbers_of_nodes(words)
    except UnknownWord as error:
        raise Stop(USAGE, str(error)) from None
    count = len(network.node_names)
    missing = sorted(it for it in found if it >= count)
    if missing:
        names = shown_names("node", network.node_names)
        raise Stop(USAGE, f"the cluster has {count} nodes, and none is {missing[0]}; {names}")
    return found or None


def known_buffers(words: list[str], nodes: frozenset[int] | None, network: Network) -> Receivers | None:
    """Returns the buffers that are given, or None. Raises `Stop` if the cluster doesn't have one of them."""
    if not words:
        return None
    try:
        return directory_of(network).receivers(words, nodes or frozenset())
    except UnknownWord as error:
        raise Stop(USAGE, str(error)) from None


def known_places(places: tuple[Place, ...] | None, inputs: Inputs, has_minislots: bool) -> tuple[Place, ...] | None:
    """Returns places that are given, or None. Raises `Stop` if the cluster doesn't have one of them.

    Its slots are those that open in a cycle in which nothing is sent. A slot that never opens can be given too if a
    buffer is for it.
    """
    if places is None:
        return None
    opened = idle_cycle_of(inputs).all_slots
    known = opened | {buffer.slot for node in inputs.network.cluster.nodes for buffer in node.buffers}
    parameters = inputs.network.cluster.parameters
    last = parameters.static_slots
    dynamic = range(last + 1, min(last + parameters.minislots, LAST_SLOT) + 1)
    for place in places:
        if place.segment == "m" and place.span and not has_minislots:
            raise Stop(USAGE, f"m{place.span}: rows of this command have no minislot; give slots, as s1 or d{last + 1}")
        if place.segment == "m":
            require(place, range(1, parameters.minislots + 1), "minislot")
        elif place.segment == "s":
            require(place, range(1, last + 1), "static slot")
        elif place.segment == "d":
            require(place, [*dynamic, *(it for it in known if it > last)], "dynamic slot")
        elif place.span and set(place.span.numbers) - known:
            missing = min(set(place.span.numbers) - known)
            raise Stop(USAGE, f"the cluster has no slot {missing}: its slots are 1 to {max(opened)}")
    return places


def require(place: Place, known: "range | list[int]", what: str) -> None:
    """Raises `Stop` if a number of the place isn't known, or if nothing is."""
    if not known:
        raise Stop(USAGE, f"the cluster has no {what}s")
    missing = set(place.span.numbers) - set(known) if place.span else set()
    if missing:
        raise Stop(USAGE, f"the cluster has no {what} {min(missing)}: its {what}s are {min(known)} to {max(known)}")
