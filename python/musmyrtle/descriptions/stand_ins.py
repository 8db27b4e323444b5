"""More nodes than a cluster file can have: some are chosen, and the others become stand-ins, which only send."""
from dataclasses import dataclass

from musmyrtle.cluster import MOST_LINES
from musmyrtle.descriptions.network import Node
from musmyrtle.descriptions.report import Refused, Report
from musmyrtle.descriptions.scheduling import Schedule


@dataclass
class Bin:
    """A stand-in with what its parts need: transmit buffers, ownership lines, and one latest minislot."""

    node: Node
    buffers: int = 0
    lines: int = 0
    latest: int | None = None

    def has_room(self, buffers: int, lines: int, latest: int | None) -> bool:
        """Returns whether one more part fits."""
        return (self.buffers + buffers <= MOST_LINES and self.lines + lines <= MOST_LINES
                and (None in (latest, self.latest) or latest == self.latest))

    def add(self, node: Node, buffers: int, lines: int, latest: int | None) -> None:
        """Adds a part."""
        self.node.parts.append(node)
        self.node.channels |= node.channels
        self.buffers, self.lines = self.buffers + buffers, self.lines + lines
        if latest is not None:
            self.latest = latest


def chosen_nodes(schedule: Schedule, names: list[str], report: Report) -> list[Node]:
    """Returns the nodes of these names in the order of the description, and the stand-ins for all others.

    Each stand-in is filled while there is room. Raises `Refused` for a name that no node has.
    """
    nodes = schedule.network.nodes
    for name in names:
        if name not in [it.name for it in nodes]:
            raise Refused("NoNode", "--nodes", f"no node has the name {name}: {', '.join(it.name for it in nodes)}")
    bins: list[Bin] = []
    for node in nodes:
        if node.name in names:
            continue
        sent, lines = len(schedule.buffers(node, True)), len(list(schedule.own(node)))
        latest = schedule.latest(node) if any(node in it.senders for it in schedule.dynamic) else None
        found = next((it for it in bins if it.has_room(sent, lines, latest)), None)
        if found is None:
            found = Bin(Node(f"stand-in-{len(bins) + 1}", ""))
            bins.append(found)
        found.add(node, sent, lines, latest)
        left = len(schedule.buffers(node, False))
        fifo = " and its receive FIFO" if node.fifo else ""
        report.note("nodes are parts of stand-ins, which send their frames and receive nothing",
                    f"{node.name} of {found.node.name} with {sent} transmit buffers, without its {left} receive "
                    f"buffers{fifo}")
    if bins:
        report.note("the guardian of a stand-in is open in the slots of all its parts, and a fault of it is one of all "
                    "of them")
    return [it for it in nodes if it.name in names] + [it.node for it in bins]
