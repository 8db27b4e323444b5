"""The command `plan`: who sends where, who is to receive it, and when the guardians are open."""
from musmyrtle.links import Link, links_in
from musmyrtle.show.engines import Inputs
from musmyrtle.show.network import Network
from musmyrtle.show.tables import Column, Name, Row, Section, Value


def plan(inputs: Inputs) -> list[Section]:
    """Returns the tables of `plan`: the senders of `fr_view links`, and the open windows of `fr_bench plan`."""
    lines = [line.split(" ") for line in inputs.of_cluster("fr_bench", "plan").lines]
    network = inputs.network
    sent = [sender(network, it) for it in links_in(inputs.of_cluster("fr_view", "links").lines)]
    guards = [guard(network, words) for words in lines if words[0] == "guard"]
    return [Section("sender", "Senders", sender_columns(network), sent, "No node sends."),
            Section("guardian", "Open windows of the bus guardians", guard_columns(network), guards)]


def sender_columns(network: Network) -> tuple[Column, ...]:
    """Returns the columns of senders."""
    return (Column("segment", ""), Column("slot", "slot"), Column("channel", "channel"), Column("node", "node", "name"),
            Column("buffer", "buffer", "name"), Column("mode", "mode"), Column("base", ""), Column("repetition", ""),
            Column("cycles", "cycles"), network.column("begin", "begin"), network.column("end", "end"),
            Column("words", "words"), Column("receivers", "receivers", "whole"))


def guard_columns(network: Network) -> tuple[Column, ...]:
    """Returns the columns of open windows."""
    return (Column("node", "node", "name"), Column("channel", "channel"), Column("cycle", "cycle"),
            network.column("begin", "from"), network.column("end", "to"))


def sender(network: Network, it: Link) -> Row:
    """Returns the row of a sender."""
    buffer: Name | None = None if it.buffer is None else network.buffer(it.node, it.buffer)
    values: dict[str, Value] = {
        "segment": it.segment, "slot": it.slot, "channel": it.channel, "node": network.node(it.node), "buffer": buffer,
        "mode": "null frames" if it.buffer is None else network.cluster.nodes[it.node].buffers[it.buffer].kind,
        "base": it.cycles.base, "repetition": it.cycles.repetition, "cycles": str(it.cycles), "words": it.words,
        "receivers": network.receivers(it.receivers),
    }
    if it.begin is not None and it.end is not None:
        values |= {"begin": network.time(it.begin), "end": network.time(it.end)}
    return Row(values)


def guard(network: Network, words: list[str]) -> Row:
    """Returns the row of an open window from the words of its line."""
    return Row({"node": network.node(int(words[1])), "channel": words[2], "cycle": int(words[3]),
                "begin": network.time(int(words[4])), "end": network.time(int(words[5]))})
