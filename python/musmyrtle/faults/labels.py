"""The names of faults, nodes and buffers on a page, in a summary and on a terminal."""
from collections.abc import Iterable
from dataclasses import dataclass, field

from musmyrtle.cluster_file import document_of
from musmyrtle.faults.listing import ALL_STATIC, SingleFault
from musmyrtle.names import tables_of
from musmyrtle.visible import cut, visible

ONE_CHANNEL = "one channel"
"""The label of a fault that leaves the other channel as it is."""


@dataclass(frozen=True)
class Labels:
    """The names of nodes and buffers by their keys `name`, made safe to show, and cut where they are long.

    A thing without a name is shown by its number.
    """

    nodes: dict[int, str] = field(default_factory=dict)
    buffers: dict[tuple[int, int], str] = field(default_factory=dict)

    @classmethod
    def read(cls, cluster: bytes) -> "Labels":
        """Returns the names that a cluster file has. A key `name` that is empty or isn't a string is none. A file that
        is no TOML has no names."""
        try:
            document = document_of(cluster)
        except ValueError:
            return cls()
        found = cls()
        for number, node in enumerate(tables_of(document.get("node"))):
            if isinstance(name := node.get("name"), str) and name:
                found.nodes[number] = visible(cut(name))
            for place, buffer in enumerate(tables_of(node.get("buffer"))):
                if isinstance(name := buffer.get("name"), str) and name:
                    found.buffers[number, place] = visible(cut(name))
        return found

    def node(self, number: int) -> str:
        """Returns `node 7 pedal`."""
        return " ".join(filter(None, (f"node {number}", self.nodes.get(number))))

    def thing(self, node: int, thing: str) -> str:
        """Returns `rx 12 (angle)`, `FIFO`, or the thing as the table has it."""
        kind, _, number = thing.partition(" ")
        name = self.buffers.get((node, int(number))) if number else None
        return f"{thing} ({name})" if name else "FIFO" if kind == "queue" else thing


def fault_label(fault: SingleFault) -> str:
    """Returns the words of a fault, and whether it is on one channel only."""
    return str(fault) if fault.is_of_both else f"{fault} ({ONE_CHANNEL})"


def channels_label(channels: str) -> str:
    return "A and B" if len(channels) > 1 else f"{channels} ({ONE_CHANNEL})"


def grouped(faults: Iterable[SingleFault]) -> str:
    """Returns `mute on A (one channel) s1-s3 s5; noise on A and B s2`, each kind and channel once."""
    places: dict[tuple[str, str], list[str]] = {}
    for fault in faults:
        places.setdefault((fault.kind, fault.channels), []).append(fault.place)
    return "; ".join(f"{kind} on {channels_label(channels)} {' '.join(ranges(names))}"
                     for (kind, channels), names in places.items())


def ranges(places: list[str]) -> list[str]:
    """Returns `s1-s3` for s1, s2, s3, in the order of the first of each range."""
    found: list[list[str]] = []
    for place in places:
        last = found[-1][-1] if found else ""
        is_next = place[1:].isdecimal() and last[1:].isdecimal() and place[0] == last[0] \
            and int(place[1:]) == int(last[1:]) + 1
        if is_next and place != ALL_STATIC:
            found[-1].append(place)
        else:
            found.append([place])
    return [it[0] if len(it) == 1 else f"{it[0]}-{it[-1]}" for it in found]
