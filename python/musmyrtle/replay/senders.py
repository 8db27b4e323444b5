"""The frames that the nodes of a cluster send in each slot by their configuration."""
from dataclasses import dataclass

from musmyrtle.cluster import CYCLES, Buffer, Cluster, Ownership
from musmyrtle.names import tables_of
from musmyrtle.replay.bits import data_header, null_frame
from musmyrtle.texts import Text

Slot = tuple[int, str]
"""A slot on a channel."""


@dataclass(frozen=True)
class Forms:
    """The frames of a slot in a cycle: the header of the sender's data frames, and its null frame in a static slot."""

    node: int
    buffer: Buffer | None
    data: bytes | None
    null: bytes | None


class Senders:
    """The senders of the slots of a cluster by the cycle count. A node without tasks sends null frames alone."""

    def __init__(self, cluster: Cluster, text: Text) -> None:
        self.cluster = cluster
        self.preambles = {(it.node, it.number): bool(its.get("preamble", False))
                          for node, table in zip(cluster.nodes, tables_of(text.document.get("node")))
                          for it, its in zip(node.buffers, tables_of(table.get("buffer")))}
        self.counts = [self.at(count) for count in CYCLES]

    def at(self, count: int) -> dict[Slot, Forms]:
        """Returns the senders of all slots in a cycle with this count."""
        buffers = {(it.slot, channel): it for it in self.cluster.buffers()
                   if it.transmits and it.cycles.admit(count) for channel in it.channels}
        owners = {(it.slot, channel): it for it in self.cluster.owned() if it.cycles.admit(count)
                  for channel in it.channels}
        return {it: self.forms(it[0], count, buffers.get(it), owners.get(it)) for it in [*owners, *buffers]}

    def forms(self, slot: int, count: int, buffer: Buffer | None, owner: Ownership | None) -> Forms:
        """Returns what the sender of a slot sends."""
        is_sync, is_startup = (owner.is_sync, owner.is_startup) if owner else (False, False)
        node = owner.node if owner else buffer.node if buffer else 0
        null = None if owner is None else null_frame(slot, self.cluster.parameters.static_words, count, is_sync,
                                                     is_startup)
        if buffer is None or not self.cluster.nodes[node].tasks:
            return Forms(node, None, None, null)
        has_preamble = self.preambles[buffer.node, buffer.number]
        return Forms(node, buffer, data_header(slot, buffer.words, count, has_preamble, is_sync, is_startup), null)
