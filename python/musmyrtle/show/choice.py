"""The signals that a command chooses: by words such as `brake.speed`, and by the options for nodes, buffers and names.
"""
from collections.abc import Iterable, Iterator, Sequence
from dataclasses import dataclass

from musmyrtle.findings import joined, nearest
from musmyrtle.lint.command import USAGE
from musmyrtle.output import Stop
from musmyrtle.selections import Directory, UnknownWord
from musmyrtle.show.network import Network
from musmyrtle.show.selection import Selection, directory_of
from musmyrtle.signals.layout import Layout
from musmyrtle.signals.receiving import Destination, Route
from musmyrtle.signals.signal import Signal
from musmyrtle.visible import cut

EVERY = "*"
"""The word for all signals of a receiver."""
MOST_NAMES = 12
"""The names that a message has."""
RIGHT = "NODE.SIGNAL or NODE.BUFFER.SIGNAL of a receiver, as brake.speed, or NODE.* for all"


@dataclass(frozen=True)
class Place:
    """A signal of a frame, as a receiver gets it."""

    destination: Destination
    frame: str
    signal: str


class Chosen:
    """The signals that are chosen at each receiver, in the order of their frames."""

    def __init__(self, routes: Iterable[Route], places: Iterable[Place] | None, selection: Selection,
                 names: Sequence[str] | None) -> None:
        """Takes all routes, the places that words name, the selected receivers, and the names of signals, if any."""
        named = None if places is None else set(places)
        self.signals: dict[tuple[Destination, str], tuple[Signal, ...]] = {}
        shared: dict[tuple[str, tuple[str, ...]], tuple[Signal, ...]] = {}
        for it in routes:
            to, layout = it.destination, it.layout
            if not (selection.has_node(to.node) and selection.has_buffer(*to)):
                continue
            found = tuple(signal for name, signal in layout.signals.items() if (names is None or name in names)
                          and (named is None or Place(to, layout.name, name) in named))
            if found:
                # The same signals at several receivers are one tuple, by which their values are read once.
                key = layout.name, tuple(signal.name for signal in found)
                self.signals[to, layout.name] = shared.setdefault(key, found)
        self.destinations = {to for to, _ in self.signals}

    def with_places(self, places: Iterable[Place], routes: Iterable[Route]) -> "Chosen":
        """Returns the signals that are chosen, and those of further places."""
        its = [Place(to, frame, it.name) for (to, frame), signals in self.signals.items() for it in signals]
        return Chosen(routes, [*its, *places], Selection(), None)

    def of(self, destination: Destination, layout: Layout) -> tuple[Signal, ...]:
        """Returns the chosen signals of a frame at a receiver."""
        return self.signals.get((destination, layout.name), ())

    def wants(self, destination: Destination, layout: Layout | None) -> bool:
        """Returns whether a receiver's frames with this layout, or with none, are needed.

        A frame without a chosen signal replaces the one that a receive buffer holds. In a FIFO it replaces nothing.
        """
        if destination.buffer is None:
            return layout is not None and (destination, layout.name) in self.signals
        return destination in self.destinations


class Words:
    """The words for signals of a network: NODE.SIGNAL, NODE.BUFFER.SIGNAL, NODE.FRAME.SIGNAL, or * for all signals."""

    def __init__(self, network: Network, routes: Sequence[Route]) -> None:
        self.network, self.routes = network, routes
        self.directory: Directory = directory_of(network)

    def places(self, word: str) -> list[Place]:
        """Returns the signals that a word names. Raises `UnknownWord` if there is none, with what may be meant."""
        found = list(dict.fromkeys(self.candidates(word)))
        if not found:
            raise UnknownWord(self.why_none(word))
        return found

    def chosen(self, words: Iterable[str]) -> list[Place] | None:
        """Returns the signals that the words of a command name, or None without words. Raises `Stop`."""
        try:
            return [place for word in words for place in self.places(word)] or None
        except UnknownWord as error:
            raise Stop(USAGE, str(error)) from None

    def signal(self, place: Place) -> Signal:
        """Returns the signal of a place."""
        return next(it.layout.signals[place.signal] for it in self.routes if it.layout.name == place.frame)

    def slots(self, place: Place) -> list[int]:
        """Returns the slots of the frames that bring a signal to its receiver."""
        return list(dict.fromkeys(it.sender.slot for it in self.routes if it.destination == place.destination
                                  and it.layout.name == place.frame))

    def candidates(self, word: str) -> Iterator[Place]:
        """Yields what a word may name: names can have dots, so that it may be taken apart at any of these."""
        for front, back in parts_of(word):
            nodes = self.directory.nodes_named(front)
            for it in self.routes:
                if it.destination.node in nodes:
                    for name in self.signals_of(it, back):
                        yield Place(it.destination, it.layout.name, name)

    def signals_of(self, route: Route, word: str) -> Iterator[str]:
        """Yields the signals of a route that the rest of a word names."""
        yield from named(word, route.layout)
        node, buffer = route.destination
        for front, back in parts_of(word):
            is_buffer = buffer is not None and any(
                (node, buffer) in it.buffers for it in self.directory.buffers_named(frozenset([node]), front))
            if is_buffer or front == route.layout.name:
                yield from named(back, route.layout)

    def why_none(self, word: str) -> str:
        """Returns why a word names no signal."""
        node = next((it for front, _ in parts_of(word) for it in self.directory.nodes_named(front)), None)
        if node is None:
            nodes = [cut(it) for it in self.network.node_names if it]
            return f"{cut(word)} names no signal of a receiver: expected {RIGHT}; the nodes are {', '.join(nodes)}"
        names = list(dict.fromkeys(name for it in self.routes if it.destination.node == node
                                   for name in it.layout.signals))
        rest = next(back for front, back in parts_of(word) if node in self.directory.nodes_named(front))
        if not names:
            return f"{cut(word)} names no signal: {self.network.node(node)} receives no frame with signals"
        sending = [it.destination.node for it in self.routes if it.sender.node == node and rest in it.layout.signals]
        if sending:
            others = joined([str(self.network.node(it)) for it in dict.fromkeys(sending)])
            return f"{self.network.node(node)} sends {cut(rest)}, and doesn't receive it; its receivers are {others}"
        meant = nearest(rest.rpartition(".")[2], names)
        more = f"is {meant} meant?" if meant else f"it receives {listed(names)}"
        return f"{cut(word)} names no signal that {self.network.node(node)} receives; {more}"


def parts_of(word: str) -> Iterator[tuple[str, str]]:
    """Yields the two parts of a word at each of its dots."""
    for at, it in enumerate(word):
        if it == ".":
            yield word[:at], word[at + 1:]


def named(word: str, layout: Layout) -> Iterator[str]:
    """Yields the signals of a frame that a name or `*` stands for."""
    if word == EVERY:
        yield from layout.signals
    elif word in layout.signals:
        yield word


def listed(names: list[str]) -> str:
    """Returns names for a message."""
    more = [f"{len(names) - MOST_NAMES} more"] if len(names) > MOST_NAMES else []
    return joined([*names[:MOST_NAMES], *more])


def known_names(words: Iterable[str], routes: Iterable[Route]) -> list[str] | None:
    """Returns the names of signals that are given as `speed,gear`, or None. Raises `Stop` for an unknown one."""
    found = [part for word in words for part in word.split(",")]
    known = list(dict.fromkeys(name for it in routes for name in it.layout.signals))
    for it in found:
        if it not in known:
            meant = nearest(it, known)
            more = f"is {meant} meant?" if meant else f"they are {listed(known)}" if known else "there is none"
            raise Stop(USAGE, f"no signal that a node receives has the name {cut(it)}; {more}")
    return found or None
