"""The text of a cluster file for a schedule."""
from collections import defaultdict
from collections.abc import Iterator, Mapping
from dataclasses import dataclass, field
from fractions import Fraction
from typing import Any

from musmyrtle.cluster import PARAMETERS, Cycles, Parameters
from musmyrtle.descriptions.toml_text import BARE, comment, inline, quoted, value_text
from musmyrtle.design.frames import Frame
from musmyrtle.design.network import Network
from musmyrtle.design.packing import KEY_SLOT, Placed
from musmyrtle.design.scheduling import Schedule
from musmyrtle.signals.exact import exact_in_file
from musmyrtle.toml_values import Moment
from musmyrtle.version import version

CYCLES_OF_ROOM = 64
MOST_HOST_ENTRIES, MOST_SLOT_ENTRIES = 16384, 65536


@dataclass(frozen=True)
class Line:
    """A buffer of the cluster file: its node and number, and the place whose frame it sends or receives."""

    node: int
    number: int
    placed: Placed


@dataclass
class Built:
    """The text of a cluster file, and its transmit buffers."""

    text: str
    sent: list[Line] = field(default_factory=list)


class Builder:
    """Makes the cluster file of a schedule that has parameters."""

    def __init__(self, network: Network, schedule: Schedule, parameters: Parameters) -> None:
        self.network, self.schedule, self.parameters = network, schedule, parameters
        self.places = sorted([*schedule.slots.placed, *schedule.dynamic],
                             key=lambda it: (it.slot, it.channels, it.cycles.base))
        copies: dict[str, int] = defaultdict(int)
        for it in self.places:
            copies[it.frame.name] += 1
        self.several = {name for name, count in copies.items() if count > 1}
        self.sent: list[Line] = []

    def built(self) -> Built:
        """Returns the cluster file."""
        lines = [comment(f"made by musmyrtle design {version()}"), f"guard = {quoted(self.network.guard)}", "",
                 *self.parameter_lines()]
        for number in range(len(self.network.nodes)):
            lines += self.node_lines(number)
        for it in self.schedule.frames:
            if it.signals:
                lines += self.frame_lines(it)
        return Built("\n".join(lines) + "\n", self.sent)

    def parameter_lines(self) -> Iterator[str]:
        """Yields the tables `[physical]` and `[params]`."""
        yield from ("[physical]", f"bit_rate = {number_text(self.network.bit_rate)}",
                    f"macrotick_us = {number_text(self.network.macrotick_us)}", "", "[params]")
        yield from (f"{key} = {getattr(self.parameters, key)}" for key in PARAMETERS)

    def node_lines(self, number: int) -> Iterator[str]:
        """Yields the table of a node."""
        node = self.network.nodes[number]
        own, buffers = list(self.own_lines(number)), list(self.buffer_lines(number))
        yield from ("", "[[node]]", f"name = {quoted(node.name)}")
        if node.tasks != 1:
            yield f"tasks = {node.tasks}"
        latest = self.schedule.latest.get(number)
        if latest is not None:
            yield from (f"latest_a = {latest}", f"latest_b = {latest}")
        yield f"host_entries = {min(MOST_HOST_ENTRIES, CYCLES_OF_ROOM * max(4, len(buffers)))}"
        yield f"slot_entries = {min(MOST_SLOT_ENTRIES, 2 * CYCLES_OF_ROOM * self.parameters.windows)}"
        for key, lines in (("own", own), ("buffer", buffers)):
            if lines:
                yield from (f"{key} = [", *(f"  {it}," for it in lines), "]")

    def own_lines(self, number: int) -> Iterator[str]:
        """Yields the ownership lines of a node. The first slot on both channels of a sync node has its sync frames."""
        slots: dict[int, str] = {}
        for (slot, channel), owner in sorted(self.schedule.slots.owners.items()):
            if owner == number:
                slots[slot] = slots.get(slot, "") + channel
        key = next((slot for slot, channels in slots.items() if channels == "AB"), None) \
            if number in self.schedule.sync else None
        is_startup = self.network.nodes[number].is_startup or not any(it.is_sync for it in self.network.nodes)
        for slot, channels in slots.items():
            flags: dict[str, Any] = {"sync": True} if slot == key else {}
            if slot == key and is_startup:
                flags["startup"] = True
            yield inline({"slot": slot, "channels": channels, **flags})

    def buffer_lines(self, number: int) -> Iterator[str]:
        """Yields the buffers of a node: those that send, then those that receive."""
        count = 0
        for it in self.places:
            if it.frame.sender == number:
                self.sent.append(Line(number, count, it))
                count += 1
                words = {} if it.frame.is_static else {"words": it.frame.words}
                yield inline({**self.keys_of(it, it.frame.kind), **words, **frame_key(it.frame)})
        yield from self.empty_buffers(number)
        for it in self.places:
            if number in it.frame.receivers:
                yield inline({**self.keys_of(it, "receive"), **frame_key(it.frame)})

    def keys_of(self, it: Placed, kind: str) -> dict[str, Any]:
        """Returns the keys that a buffer that sends has, as one that receives."""
        name = f"{it.frame.name[:30]}.{it.channels}" if it.frame.name in self.several else it.frame.name
        return {"name": name, "kind": kind, "slot": it.slot, "channels": it.channels, **filter_keys(it.cycles)}

    def empty_buffers(self, number: int) -> Iterator[str]:
        """Yields a buffer for each slot of a sync node in which it has no frame, so that the slot isn't forgotten."""
        slots = self.schedule.slots
        empty = sorted(place for place, owner in slots.owners.items() if owner == number and not slots.used[place])
        for slot in sorted({slot for slot, _ in empty}):
            channels = "".join(channel for it, channel in empty if it == slot)
            yield inline({"name": KEY_SLOT, "kind": "state", "slot": slot, "channels": channels})

    def frame_lines(self, it: Frame) -> Iterator[str]:
        """Yields the table of a frame with signals."""
        yield from ("", "[[frame]]", f"name = {quoted(it.name)}", f"bytes = {max(1, it.bytes)}", "signal = [")
        yield from (f"  {table_text(signal)}," for signal in it.signals)
        yield "]"


def number_text(value: int | float) -> str:
    """Returns a number of the network file as it spells it."""
    return str(getattr(value, "text", value))


def filter_keys(cycles: Cycles) -> dict[str, Any]:
    """Returns the keys of a cycle counter filter, or none for every cycle."""
    return {} if cycles.repetition == 1 else {"base": cycles.base, "repetition": cycles.repetition}


def frame_key(it: Frame) -> dict[str, Any]:
    """Returns the key of the signals of a frame, if it has any."""
    return {"frame": it.name} if it.signals else {}


def table_text(table: Mapping[str, Any]) -> str:
    """Returns a table of the network file in one line."""
    return "{" + ", ".join(f"{key if BARE.fullmatch(key) else quoted(key)} = {any_text(it)}"
                           for key, it in table.items()) + "}"


def any_text(value: Any) -> str:
    """Returns a value of the network file as TOML."""
    if isinstance(value, dict):
        return table_text(value)
    if isinstance(value, list):
        return f"[{', '.join(map(any_text, value))}]"
    if isinstance(value, Moment):
        return str(value)
    if isinstance(value, float):
        exact = exact_in_file(value)
        return number_text(value) if exact is None or hasattr(value, "text") else value_text(Fraction(exact))
    return value_text(value)
