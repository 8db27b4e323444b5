"""The command `check`: the parameters of a cluster, and its nodes."""
from musmyrtle.cluster import PARAMETERS
from musmyrtle.findings import joined
from musmyrtle.lint.standard import MACROTICKS, OF_PARAMETERS
from musmyrtle.show.engines import Inputs
from musmyrtle.show.network import Network
from musmyrtle.show.tables import Column, Row, Section

OTHER_UNITS = {"words_per_minislot": "two-byte words"}


def check(inputs: Inputs) -> list[Section]:
    """Returns the tables of `check`. The numbers are those that `fr_bench check` prints."""
    printed = inputs.of_cluster("fr_bench", "check")
    values = [int(word) for word in printed.lines[0].split(" ")[1:]]
    return [parameters(inputs.network, values), nodes(inputs.network)]


def parameters(network: Network, values: list[int]) -> Section:
    """Returns the table of the ten parameters."""
    rows = []
    for key, value in zip(PARAMETERS, values):
        rule = OF_PARAMETERS.get(key)
        unit = rule.unit if rule else OTHER_UNITS.get(key)
        time = network.time(value) if unit == MACROTICKS else None
        rows.append(Row({"key": key, "value": value, "unit": unit, "time": time,
                         "standard": rule.name if rule else None}))
    columns = (Column("key", "parameter"), Column("value", "value"), Column("unit", "unit"),
               network.column("time", "time"), Column("standard", "in the standard"))
    guard = joined(list(network.cluster.guard)) or "neither channel"
    return Section("parameter", f"Parameters; guardians on {guard}", columns, rows)


def nodes(network: Network) -> Section:
    """Returns the table of the nodes."""
    rows = []
    for node in network.cluster.nodes:
        slots = sorted({it.slot for it in node.owned})
        sends = sum(it.transmits for it in node.buffers)
        rows.append(Row({
            "node": network.node(node.number), "tasks": node.tasks, "slots": " ".join(map(str, slots)),
            "latest_a": node.latest["A"], "latest_b": node.latest["B"], "transmit": sends,
            "receive": len(node.buffers) - sends, "capacity": node.queue.capacity if node.queue else None,
            "sync": any(it.is_sync for it in node.owned), "startup": any(it.is_startup for it in node.owned),
        }))
    columns = (Column("node", "node", "name"), Column("tasks", "tasks"), Column("slots", "static slots", "numbers"),
               Column("latest_a", "latest A"), Column("latest_b", "latest B"), Column("transmit", "transmit buffers"),
               Column("receive", "receive buffers"), Column("capacity", "FIFO"),
               Column("sync", "sync", words=YES), Column("startup", "startup", words=YES))
    return Section("node", "Nodes", columns, rows)


YES = {"true": "yes", "false": "no"}
