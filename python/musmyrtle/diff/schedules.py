"""The differences of what follows from two cluster files: receivers, open guardians, latencies and loads.

All numbers are those that the programs print. They are compared by the pairs of nodes and buffers of the two files.
"""
from collections.abc import Hashable, Iterator, Mapping
from dataclasses import dataclass
from functools import cached_property
from typing import TypeVar

from musmyrtle.cluster import CYCLES
from musmyrtle.diff.clusters import pairs_of_buffers, pairs_of_nodes
from musmyrtle.diff.differences import ADDED, CHANGED, REMOVED, Difference
from musmyrtle.diff.pairing import Item
from musmyrtle.diff.tables import Table, one_of
from musmyrtle.latencies import Latency, Load
from musmyrtle.links import links_in
from musmyrtle.show.engines import Inputs
from musmyrtle.show.latency import latencies
from musmyrtle.show.tables import Name, Numbers, Value, numbers_text
from musmyrtle.texts import Text

K = TypeVar("K", bound=Hashable)
T = TypeVar("T")
Place = tuple[int, int | None]
"""The numbers of a node and of its buffer in the pairs of both files, or None for the receive FIFO."""
LATENCY_KEYS = ("state", "guaranteed", "first", "last", "latest")
LOAD_KEYS = ("owned", "static", "least", "most", "slack")
NOT_OPEN = "-"


@dataclass
class Schedule:
    """A cluster file as the programs print what follows from it."""

    inputs: Inputs

    @cached_property
    def receivers(self) -> dict[tuple[Place, Place, str], int]:
        """Returns the cycles in which a buffer sends to a receiver on a channel, as the bits of a number."""
        found: dict[tuple[Place, Place, str], int] = {}
        for link in links_in(self.inputs.of_cluster("fr_view", "links").lines):
            if link.buffer is None:
                continue
            for it in self.inputs.network.receivers(link.receivers).receivers:
                receiver = it.node.number, None if it.buffer is None else it.buffer.number
                key = (link.node, link.buffer), receiver, link.channel
                cycles = link.cycles.bits & self.admitted(*receiver, link.slot, link.channel)
                found[key] = found.get(key, 0) | cycles
        return found

    def admitted(self, node: int, buffer: int | None, slot: int, channel: str) -> int:
        """Returns the cycles in which a receive buffer, or a receive FIFO for None, admits a slot, as bits.

        A FIFO admits what no receive buffer of its node does.
        """
        its = self.inputs.network.cluster.nodes[node]
        if buffer is not None:
            return its.buffers[buffer].cycles.bits
        found = its.queue.cycles.bits if its.queue else 0
        for it in its.buffers:
            if not it.transmits and it.slot == slot and channel in it.channels:
                found &= ~it.cycles.bits
        return found

    @cached_property
    def guardians(self) -> dict[tuple[int, str], dict[int, str]]:
        """Returns the open macroticks of each guardian, as `0-20,60-80`, by node and channel and then by cycle.

        The cycles are those of `CYCLES`: the program prints the ones that all later ones repeat.
        """
        found: dict[tuple[int, str], dict[int, list[str]]] = {}
        for words in (it.split(" ") for it in self.inputs.of_cluster("fr_bench", "plan").lines):
            if words[0] == "guard":
                its = found.setdefault((int(words[1]), words[2]), {})
                its.setdefault(int(words[3]), []).append(f"{words[4]}-{words[5]}")
        count = max((it.cycles.repetition for it in self.inputs.network.cluster.owned()), default=1)
        return {key: {cycle: ",".join(its.get(cycle % count, [NOT_OPEN])) for cycle in CYCLES}
                for key, its in found.items()}

    @cached_property
    def latencies(self) -> tuple[dict[Place, Latency], list[Load]]:
        """Returns the latencies of transmit buffers, and the loads of channels."""
        found, loads = latencies(self.inputs)
        return {(it.node, it.buffer): it for it in found}, loads


class Partners:
    """The names of the nodes and buffers of both files, and their numbers in the pairs."""

    def __init__(self, old: Text, new: Text) -> None:
        self.nodes: list[Name] = []
        self.buffers: list[list[tuple[Name, int | None]]] = []
        self.numbers: tuple[dict[Place, Place], dict[Place, Place]] = ({}, {})
        """The place in the pairs for each place of the first and of the second file."""
        for number, pair in enumerate(pairs_of_nodes(old, new)):
            item = one_of(pair)
            self.nodes.append(Name(item.number, item.name, "node"))
            its = self.numbered(number, (pair.old, pair.new))
            self.buffers.append(its)

    def numbered(self, number: int, nodes: tuple[Item[Table] | None, Item[Table] | None]
                 ) -> list[tuple[Name, int | None]]:
        """Returns the names and slots of the buffers of a pair of nodes, and keeps their numbers."""
        for numbers, node in zip(self.numbers, nodes):
            if node is not None:
                numbers[node.number, None] = number, None
        found = []
        for place, pair in enumerate(pairs_of_buffers(*(it.value if it else {} for it in nodes))):
            item = one_of(pair)
            found.append((Name(item.number, item.name, "buffer"), item.value.get("slot")))
            for numbers, node, buffer in zip(self.numbers, nodes, (pair.old, pair.new)):
                if node is not None and buffer is not None:
                    numbers[node.number, buffer.number] = number, place
        return found

    def node(self, place: Place) -> Name:
        """Returns the name of the node of a place."""
        return self.nodes[place[0]]

    def buffer(self, place: Place) -> Name | None:
        """Returns the name of the buffer of a place, or None for a receive FIFO."""
        return None if place[1] is None else self.buffers[place[0]][place[1]][0]

    def slot(self, place: Place) -> int | None:
        """Returns the slot of the buffer of a place."""
        return None if place[1] is None else self.buffers[place[0]][place[1]][1]


class Schedules:
    """The comparison of what follows from two cluster files."""

    def __init__(self, inputs: tuple[Inputs, Inputs], texts: tuple[Text, Text]) -> None:
        self.old, self.new = map(Schedule, inputs)
        self.partners = Partners(*texts)

    def differences(self) -> Iterator[Difference]:
        """Yields all differences."""
        yield from self.receivers()
        yield from self.guardians()
        yield from self.latencies()
        yield from self.loads()

    def receivers(self) -> Iterator[Difference]:
        """Yields the senders and receivers whose cycles differ."""
        sides = []
        for side, schedule in enumerate((self.old, self.new)):
            places = self.partners.numbers[side]
            sides.append({(places[sender], places[receiver], channel): cycles
                          for (sender, receiver, channel), cycles in schedule.receivers.items()})
        for key, old, new in differing(*sides):
            sender, receiver, channel = key
            yield Difference("receiver", change_of(old, new), None, cycles_text(old), cycles_text(new),
                             node=self.partners.node(sender), buffer=self.partners.buffer(sender),
                             receiver=self.partners.node(receiver), receiver_buffer=self.partners.buffer(receiver),
                             channel=channel)

    def guardians(self) -> Iterator[Difference]:
        """Yields the open macroticks that differ, with the cycles of each difference."""
        sides = []
        for side, schedule in enumerate((self.old, self.new)):
            places = self.partners.numbers[side]
            sides.append({(places[node, None][0], channel): its
                          for (node, channel), its in schedule.guardians.items()})
        for (node, channel), old, new in differing(*sides):
            cycles: dict[tuple[str | None, str | None], list[int]] = {}
            for cycle in CYCLES:
                pair = old[cycle] if old else None, new[cycle] if new else None
                if pair[0] != pair[1]:
                    cycles.setdefault(pair, []).append(cycle)
            for pair, its in cycles.items():
                yield Difference("guardian", CHANGED, None, *pair, node=self.partners.nodes[node], channel=channel,
                                 cycles=Numbers(tuple(its)))

    def latencies(self) -> Iterator[Difference]:
        """Yields the values of the table of latencies that differ."""
        units = [it.inputs.network.macrotick for it in (self.old, self.new)]
        is_timed = None not in units
        sides = []
        for side, schedule in enumerate((self.old, self.new)):
            places, macrotick = self.partners.numbers[side], units[side] if is_timed else None
            sides.append({places[place]: values_of(it, macrotick) for place, it in schedule.latencies[0].items()})
        for place, old, new in differing(*sides):
            for key in (it for it in (*LATENCY_KEYS, "worst") if (old or {}).get(it) != (new or {}).get(it)):
                unit = ("us" if is_timed else "MT") if key == "worst" else None
                yield Difference("latency", change_of(old, new), key, (old or {}).get(key), (new or {}).get(key),
                                 node=self.partners.node(place), buffer=self.partners.buffer(place),
                                 slot=self.partners.slot(place), unit=unit)

    def loads(self) -> Iterator[Difference]:
        """Yields the loads of channels that differ."""
        for old, new in zip(self.old.latencies[1], self.new.latencies[1]):
            for key in (it for it in LOAD_KEYS if getattr(old, it) != getattr(new, it)):
                yield Difference("load", CHANGED, key, getattr(old, key), getattr(new, key), channel=old.channel)


def values_of(it: Latency, macrotick: float | None) -> dict[str, Value]:
    """Returns the values of a latency by their keys, the worst one in microseconds if a macrotick is given."""
    worst = it.worst if it.worst is None or macrotick is None else it.worst * macrotick
    return {**{key: getattr(it, key) for key in LATENCY_KEYS}, "worst": worst}


def change_of(old: object, new: object) -> str:
    """Returns what became of a thing, of which one file may have none."""
    return CHANGED if old and new else ADDED if new else REMOVED


def cycles_text(bits: int | None) -> str | None:
    """Returns cycles as `0-62/2`, or None for none."""
    return None if bits is None else numbers_text([it for it in CYCLES if bits >> it & 1])


def differing(old: Mapping[K, T], new: Mapping[K, T]) -> Iterator[tuple[K, T | None, T | None]]:
    """Yields the keys whose values differ, with both values, or None where one has no such key."""
    for key in dict.fromkeys([*old, *new]):
        if old.get(key) != new.get(key):
            yield key, old.get(key), new.get(key)
