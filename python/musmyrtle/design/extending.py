"""The text of a kept cluster file with further buffers, slots, nodes and frames. All that it had stays as it was."""
from collections.abc import Iterator, Mapping
from typing import Any

from musmyrtle.cluster import Parameters
from musmyrtle.descriptions.toml_text import BARE, comment, quoted
from musmyrtle.design.building import (CYCLES_OF_ROOM, MOST_HOST_ENTRIES, MOST_SLOT_ENTRIES, Built, Line, any_text,
                                       filter_keys, frame_key, table_text)
from musmyrtle.design.keeping import Kept, admits
from musmyrtle.design.packing import KEY_SLOT, Placed
from musmyrtle.design.scheduling import Schedule
from musmyrtle.version import version


class Extender:
    """Adds the new places of a schedule to a kept cluster file. Comments aren't kept."""

    def __init__(self, kept: Kept, schedule: Schedule, parameters: Parameters) -> None:
        self.kept, self.schedule, self.parameters = kept, schedule, parameters
        self.document = plain(kept.text.document)
        places = [*schedule.slots.placed, *schedule.dynamic]
        new = [it for it in places if not it.frame.is_kept]
        self.new = sorted(new, key=lambda it: (it.slot, it.channels, it.cycles.base))
        names = [it.frame.name for it in self.new]
        self.several = {it for it in names if names.count(it) > 1} if len(set(names)) < len(names) else set()
        self.sent = [Line(it.frame.sender, kept.numbers[it.frame.name], it) for it in kept.placed]

    def built(self) -> Built:
        """Returns the cluster file."""
        for number in range(len(self.kept.network.nodes)):
            self.extend_node(number)
        frames = [it for it in self.schedule.frames if it.signals and not it.is_kept]
        if frames:
            self.document.setdefault("frame", []).extend(
                {"name": it.name, "bytes": max(1, it.bytes), "signal": [dict(signal) for signal in it.signals]}
                for it in frames)
        lines = [comment(f"extended by musmyrtle design {version()}"), *document_lines(self.document)]
        return Built("\n".join(lines) + "\n", self.sent)

    def extend_node(self, number: int) -> None:
        """Adds the slots and buffers of a node, which may be new."""
        nodes = self.document["node"]
        is_new = number == len(nodes)
        if is_new:
            wish = self.kept.network.nodes[number]
            tasks: dict[str, Any] = {"tasks": wish.tasks} if wish.tasks != 1 else {}
            nodes.append({"name": wish.name, **tasks})
        node = nodes[number]
        latest = self.schedule.latest.get(number)
        if latest is not None:
            node.update(self.latest_keys(number, latest))
        own = list(self.own_lines(number))
        buffers = list(self.buffers(number, len(node.get("buffer", []))))
        if is_new:
            node["host_entries"] = min(MOST_HOST_ENTRIES, CYCLES_OF_ROOM * max(4, len(buffers)))
            node["slot_entries"] = min(MOST_SLOT_ENTRIES, 2 * CYCLES_OF_ROOM * self.parameters.windows)
        for key, lines in (("own", own), ("buffer", buffers)):
            if lines:
                node.setdefault(key, []).extend(lines)

    def latest_keys(self, number: int, latest: int) -> dict[str, int]:
        """Returns the latest minislots of a node: those that it has, unless its longest frame allows less."""
        if number >= len(self.kept.cluster.nodes):
            return {"latest_a": latest, "latest_b": latest}
        held, found = self.kept.cluster.nodes[number].latest, {}
        for channel in "AB":
            value = min(held[channel] or latest, latest)
            if value != held[channel] and (held[channel] or self.sends_on(number, channel)):
                found[f"latest_{channel.lower()}"] = value
        return found

    def sends_on(self, number: int, channel: str) -> bool:
        return any(it.frame.sender == number and not it.frame.is_static and channel in it.channels for it in self.new)

    def own_lines(self, number: int) -> Iterator[dict[str, Any]]:
        """Yields the new ownership lines of a node."""
        held = {(it.slot, channel) for it in self.kept.cluster.owned() for channel in it.channels}
        slots: dict[int, str] = {}
        for (slot, channel), owner in sorted(self.schedule.slots.owners.items()):
            if owner == number and (slot, channel) not in held:
                slots[slot] = slots.get(slot, "") + channel
        key = next((it for it, channels in slots.items() if channels == "AB"), None) \
            if number in self.schedule.sync else None
        for slot, channels in slots.items():
            flags: dict[str, Any] = {"sync": True} if slot == key else {}
            if slot == key and self.kept.network.nodes[number].is_startup:
                flags["startup"] = True
            yield {"slot": slot, "channels": channels, **flags}

    def buffers(self, number: int, first: int) -> Iterator[dict[str, Any]]:
        """Yields the new buffers of a node, whose numbers begin with FIRST."""
        for it in self.new:
            if it.frame.sender == number:
                self.sent.append(Line(number, first, it))
                first += 1
                words = {} if it.frame.is_static else {"words": it.frame.words}
                yield {**self.keys_of(it, it.frame.kind), **words, **frame_key(it.frame)}
        slots = self.schedule.slots
        for (slot, channel), owner in sorted(slots.owners.items()):
            if owner == number and number in self.schedule.sync and not slots.used[slot, channel]:
                yield {"name": f"{KEY_SLOT}.{channel}", "kind": "state", "slot": slot, "channels": channel}
        received = [it for it in self.new if number in it.frame.receivers]
        received += [it for node, it in self.kept.added_receivers if node == number]
        for it in received:
            if not admits(self.kept.cluster, number, it):
                yield {**self.keys_of(it, "receive"), **frame_key(it.frame)}

    def keys_of(self, it: Placed, kind: str) -> dict[str, Any]:
        """Returns the keys that a buffer that sends has, as one that receives."""
        name = f"{it.frame.name[:30]}.{it.channels}" if it.frame.name in self.several else it.frame.name
        return {"name": name[:32].replace(" ", "_"), "kind": kind, "slot": it.slot, "channels": it.channels,
                **filter_keys(it.cycles)}


def plain(value: Any) -> Any:
    """Returns a copy of a value of a document, in which tables can be extended."""
    if isinstance(value, dict):
        return {key: plain(it) for key, it in value.items()}
    return [plain(it) for it in value] if isinstance(value, list) else value


def document_lines(document: Mapping[str, Any]) -> Iterator[str]:
    """Yields a document as TOML: values first, then tables, then arrays of tables."""
    tables = {key: it for key, it in document.items() if isinstance(it, dict)}
    arrays = {key: it for key, it in document.items() if is_tables(it)}
    for key, it in document.items():
        if key not in tables and key not in arrays:
            yield f"{key_text(key)} = {any_text(it)}"
    for key, it in tables.items():
        yield from ("", f"[{key_text(key)}]", *(f"{key_text(name)} = {any_text(held)}" for name, held in it.items()))
    for key, items in arrays.items():
        for table in items:
            yield from ("", f"[[{key_text(key)}]]")
            for name, held in table.items():
                if is_tables(held):
                    yield from (f"{key_text(name)} = [", *(f"  {table_text(it)}," for it in held), "]")
                else:
                    yield f"{key_text(name)} = {any_text(held)}"


def is_tables(value: Any) -> bool:
    """Returns whether a value is an array of tables."""
    return isinstance(value, list) and bool(value) and all(isinstance(it, dict) for it in value)


def key_text(key: str) -> str:
    """Returns a key of TOML."""
    return key if BARE.fullmatch(key) else quoted(key)
