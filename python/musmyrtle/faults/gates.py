"""The gate of `--fail-on`: the costs for which the command ends with status 3, of all receivers or of named ones."""
from collections.abc import Iterable
from dataclasses import dataclass

from musmyrtle.cluster import Buffer, Cluster
from musmyrtle.faults.costs import LOSSES, Difference
from musmyrtle.selections import Receivers

OF_RECEIVERS, OF_SENDERS = ("lost", "older", "changed"), ("pending", "unsent")
"""The costs of receive buffers and FIFOs, and those of transmit buffers."""
WORSE = "worse"
FAIL_ON = (*OF_RECEIVERS, *OF_SENDERS, WORSE)


@dataclass(frozen=True)
class Gate:
    """Some effects, and the buffers and FIFOs at which they count, or None for all."""

    effects: frozenset[str] = frozenset()
    receivers: Receivers | None = None

    def found(self, differences: Iterable[Difference]) -> list[Difference]:
        """Returns the differences that have one of the effects. One that isn't comparable counts as lost."""
        wanted = self.effects | (set(LOSSES) if "lost" in self.effects else set())
        return [it for it in differences if it.effect in wanted and self.is_named(it)]

    def worse(self, differences: Iterable[Difference]) -> list[Difference]:
        """Returns those of the differences that are worse than before, if these count."""
        return [it for it in differences if WORSE in self.effects and self.is_named(it)]

    def is_named(self, it: Difference) -> bool:
        """Returns whether a difference is at one of the buffers or FIFOs."""
        if self.receivers is None:
            return True
        what, _, number = it.thing.partition(" ")
        is_of_buffer = what in ("rx", "tx", "queue")
        return it.node is not None and is_of_buffer and self.receivers.has(it.node, int(number) if number else None)

    def idle(self, cluster: Cluster) -> str | None:
        """Returns why one of the receivers can have none of the effects, so that the gate would never close for it."""
        if self.receivers is None or WORSE in self.effects:
            return None
        for node, buffer in sorted(self.receivers.buffers):
            if not self.effects & set(effects_of(cluster.nodes[node].buffers[buffer])):
                return self.why_idle(f"buffer {buffer} of node {node}", cluster.nodes[node].buffers[buffer])
        for node in sorted(self.receivers.nodes):
            it = cluster.nodes[node]
            possible = {effect for buffer in it.buffers for effect in effects_of(buffer)}
            if not self.effects & (possible | set(OF_RECEIVERS if it.queue else ())):
                return f"node {node} has no buffer that --fail-on {','.join(sorted(self.effects))} is for"
        return None

    def why_idle(self, what: str, buffer: Buffer) -> str:
        """Returns the reason for a buffer, with the effects that it can have."""
        sort = "transmit" if buffer.transmits else "receive"
        return (f"{what} is a {sort} buffer, whose costs are {', '.join(effects_of(buffer))}, and --fail-on "
                f"{','.join(sorted(self.effects))} has none of these")


def effects_of(buffer: Buffer) -> tuple[str, ...]:
    """Returns the costs that a buffer can have."""
    return OF_SENDERS if buffer.transmits else OF_RECEIVERS
