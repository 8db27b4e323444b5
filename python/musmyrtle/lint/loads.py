"""The load of each channel: slots and minislots that there are, that are used, and that are missing."""
from collections.abc import Iterable

from musmyrtle.cluster import Buffer, Cluster
from musmyrtle.latencies import Load
from musmyrtle.lint.sending import first_minislot
from musmyrtle.show.tables import Column, Row, Section

TITLE = "Load: static slots of 64 cycles, and minislots that dynamic frames take in a cycle, with idle ones"
SLACK = "the least number of minislots from the latest start of a slot to its node's latest minislot"
MISSING = "the greatest number of minislots by which a slot can start after it"
COLUMNS = (Column("channel", "channel"), Column("owned", "owned static slots"), Column("static", "of"),
           Column("static_percent", "%"), Column("least", "least minislots"), Column("least_percent", "%"),
           Column("most", "most minislots"), Column("most_percent", "%"), Column("minislots", "of"),
           Column("slack", "slack", meaning=SLACK), Column("missing", "missing", meaning=MISSING))


def load_section(loads: Iterable[Load], cluster: Cluster) -> Section:
    """Returns the table of the channels of a cluster."""
    return Section("load", TITLE, COLUMNS, [row_of(it, cluster) for it in loads])


def row_of(it: Load, cluster: Cluster) -> Row:
    """Returns the row of a channel."""
    minislots = cluster.parameters.minislots
    return Row({"channel": it.channel, "owned": it.owned, "static": it.static,
                "static_percent": percent(it.owned, it.static), "least": it.least,
                "least_percent": percent(it.least, minislots), "most": it.most,
                "most_percent": percent(it.most, minislots), "minislots": minislots, "slack": it.slack,
                "missing": missing(cluster, it.channel)})


def percent(used: int, available: int) -> float | None:
    """Returns the used part in percent, with one decimal, or None if nothing is available."""
    return round(100 * used / available, 1) if available else None


def missing(cluster: Cluster, channel: str) -> int:
    """Returns by how many minislots a slot can start after the latest minislot of its node, 0 if none can.

    Tasks commit at any time, and there are no faults, as in `fr_view latency`.
    """
    sending = [it for it in cluster.buffers() if it.transmits and not cluster.is_static(it.slot)
               and channel in it.channels and cluster.nodes[it.node].tasks]
    sending.sort(key=lambda it: it.slot)
    cycles = max((it.cycles.repetition for it in sending), default=0)
    return max((missing_of(cluster, channel, [it for it in sending if it.cycles.admit(cycle)])
                for cycle in range(cycles)), default=0)


def missing_of(cluster: Cluster, channel: str, sending: list[Buffer]) -> int:
    """Returns the same for one cycle, with the buffers that send in it, by slot.

    All starts of a slot are kept as bits, since a frame that starts too late isn't sent: the latest start of a slot
    needn't come from that of the slot before.
    """
    parameters, most = cluster.parameters, 0
    slot = parameters.static_slots + 1
    starts = 1 << first_minislot(cluster, slot)
    for buffer in sending:
        starts <<= buffer.slot - slot
        latest = cluster.nodes[buffer.node].latest[channel]
        most = max(most, starts.bit_length() - 1 - latest)
        in_time = starts & ((2 << latest) - 1)
        starts = starts << 1 | in_time << parameters.minislots_of(buffer.words) + parameters.idle
        slot = buffer.slot + 1
    return most
