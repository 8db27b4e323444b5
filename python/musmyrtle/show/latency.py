"""The command `latency`: the transmit buffers and the channels of a cluster, in runs without faults."""
from musmyrtle.findings import counted
from musmyrtle.latencies import Latency, Load, read_latencies, read_way, words_for_way
from musmyrtle.lint.command import USAGE
from musmyrtle.lint.loads import load_section
from musmyrtle.output import Stop
from musmyrtle.show.engines import Inputs
from musmyrtle.show.network import Network
from musmyrtle.show.selection import Selection
from musmyrtle.show.tables import Column, Row, Section

WAYS = (Column("cycle", "cycle"), Column("minislot", "minislot"), Column("slot", "slot"),
        Column("node", "node", "name"), Column("buffer", "buffer", "name"))
STATE = "holds for the frame lengths of the file, as worst does; a longer length isn't the safe side"
WORST = "from a commit just after the fetch of its slot to the end of its frame"


def latencies(inputs: Inputs) -> tuple[list[Latency], list[Load]]:
    """Returns what `fr_view latency` prints. Raises `Stop` for another output."""
    try:
        return read_latencies(inputs.of_cluster("fr_view", "latency").lines)
    except ValueError as error:
        raise Stop(USAGE, f"{inputs.program('fr_view')} prints no latencies: {error}") from None


def way(inputs: Inputs, slot: int | None, channel: str | None) -> list[Section]:
    """Returns the way to the latest start of a slot, if one slot and a channel are given."""
    if slot is None or channel is None or len(channel) > 1:
        return []
    network = inputs.network
    words = [*words_for_way(slot, channel), "--", inputs.task.file(inputs.task.cluster)]
    try:
        found = read_way(inputs.ask("fr_view", words).lines)
    except ValueError as error:
        raise Stop(USAGE, f"{inputs.program('fr_view')} prints no way: {error}") from None
    if found is None:
        return [Section("way", "", WAYS, [], f"Slot {slot} is static: it begins at the same macrotick of each cycle.")]
    rows = [Row({"cycle": found.cycle, "minislot": it.minislot, "slot": it.slot, "node": network.node(it.node),
                 "buffer": network.buffer(it.node, it.buffer)}) for it in found.frames]
    rows.append(Row({"cycle": found.cycle, "minislot": found.minislot, "slot": slot}))
    title = (f"Slot {slot} on {channel} begins at minislot {found.minislot} of cycle {found.cycle} at the latest, "
             f"after {counted(len(found.frames), 'frame')}")
    return [Section("way", title, WAYS, rows)]


def latency(network: Network, found: list[Latency], loads: list[Load], selection: Selection) -> list[Section]:
    """Returns the tables of `latency`. All numbers are those that `fr_view latency` prints."""
    rows = [row_of(network, it) for it in found if is_selected(it, selection)]
    shown = [it for it in loads if selection.channels is None or it.channel in selection.channels]
    return [Section("latency", "Transmit buffers in runs without faults", columns(network), rows,
                    "No transmit buffer is selected."),
            load_section(shown, network.cluster)]


def is_selected(it: Latency, selection: Selection) -> bool:
    """Returns whether the row of a buffer is printed, which may be for both channels."""
    return selection.has_node(it.node) and any(selection.has_place(it.slot, channel) for channel in it.channels)


def columns(network: Network) -> tuple[Column, ...]:
    """Returns the columns of transmit buffers."""
    return (Column("node", "node", "name"), Column("buffer", "buffer", "name"), Column("slot", "slot"),
            Column("channels", "channels"), Column("base", ""), Column("repetition", ""), Column("cycles", "cycles"),
            Column("first", "first"), Column("last", "last"), Column("latest", "latest"),
            Column("state", "state", meaning=STATE), Column("guaranteed", "sure cycles"),
            network.column("worst", "worst", WORST))


def row_of(network: Network, it: Latency) -> Row:
    """Returns the row of a transmit buffer."""
    return Row({
        "node": network.node(it.node), "buffer": network.buffer(it.node, it.buffer), "slot": it.slot,
        "channels": it.channels, "base": it.cycles.base, "repetition": it.cycles.repetition, "cycles": str(it.cycles),
        "first": it.first, "last": it.last, "latest": it.latest, "state": it.state, "guaranteed": it.guaranteed,
        "worst": None if it.worst is None else network.time(it.worst),
    }, it.is_starving)
