"""The command `commits`: a row for each transmission of each commit, or for the fate of one that wasn't sent.

A latency is the difference of two times that `fr_view windows` prints. The time to the end of the frame has the length
of the frame as well.
"""
from collections.abc import Iterator

from musmyrtle.show.facts import ARRIVED, Commit, Facts, Sent
from musmyrtle.show.log import ENDS
from musmyrtle.show.network import Network
from musmyrtle.show.reasons import why
from musmyrtle.show.selection import Selection
from musmyrtle.show.tables import Column, Row, Section, Value

FATES = {**ENDS, ARRIVED: "arrived"}
LATENCY = "from the start of the commit's cycle, in which calls come first, to the start of the frame's window"
TO_END = "from there to the end of the frame, as worst of musmyrtle latency"


def commits(facts: Facts, selection: Selection) -> list[Section]:
    """Returns the table of `commits`.

    Nodes and buffers select the sender or a receiver, and cycles that of the commit. With errors alone it has commits
    without a receiver, and transmissions that didn't arrive.
    """
    rows = [row for it in facts.commits if selection.has_cycle(it.cycle) for row in rows_of(facts, it, selection)]
    return [Section("commit", "", columns(facts.network), rows, "No commit is selected.")]


def columns(network: Network) -> tuple[Column, ...]:
    """Returns the columns of commits."""
    return (Column("node", "node", "name"), Column("buffer", "buffer", "name"), Column("task", ""),
            Column("cycle", "cycle"), Column("entry", ""), Column("data", "bytes", "bytes"), Column("fate", ""),
            Column("ended_cycle", ""), Column("sent_cycle", "sent in"), Column("slot", "slot"),
            Column("channel", "channel"), network.column("begin", "begin"),
            network.column("latency", "latency", LATENCY), network.column("to_end", "to end", TO_END),
            Column("end", "end", words=FATES), Column("receivers", "receivers", "whole"),
            Column("why", "why", "whole"))


def rows_of(facts: Facts, commit: Commit, selection: Selection) -> Iterator[Row]:
    """Yields the selected rows of a commit."""
    buffer = facts.network.cluster.nodes[commit.node].buffers[commit.buffer]
    is_named = selection.has_node(commit.node) and selection.has_buffer(commit.node, commit.buffer)
    if not commit.sent and is_named and any(
            selection.has_place(buffer.slot, channel) for channel in buffer.channels):
        unsent: dict[str, Value] = {"slot": buffer.slot, "channel": buffer.channels, "end": commit.fate,
                                    "receivers": facts.network.receivers("-"), "why": why(facts, commit)}
        yield Row(front(facts, commit) | unsent, True)
    reason = None if commit.is_delivered or not commit.sent else why(facts, commit)
    for sent in commit.sent:
        if is_selected(commit, sent, selection):
            yield row_of(facts, commit, sent, reason)


def is_selected(commit: Commit, sent: Sent, selection: Selection) -> bool:
    """Returns whether the row of a transmission is printed."""
    places = [(commit.node, commit.buffer), *receivers_of(sent)]
    return (any(selection.has_node(node) for node, _ in places)
            and any(selection.has_buffer(*it) for it in places) and selection.has_place(sent.slot, sent.channel)
            and (not selection.is_errors or sent.end != ARRIVED or not commit.is_delivered))


def receivers_of(sent: Sent) -> list[tuple[int, int | None]]:
    """Returns the receivers of a transmission by node and buffer, or None for a receive FIFO."""
    words = [it.split(":") for it in sent.receivers.split(",") if it != "-"]
    return [(int(node), None if what == "queue" else int(what.removeprefix("b"))) for node, what in words]


def front(facts: Facts, commit: Commit) -> dict[str, Value]:
    """Returns the values that all rows of a commit have."""
    return {"node": facts.network.node(commit.node), "buffer": facts.network.buffer(commit.node, commit.buffer),
            "task": commit.task, "cycle": commit.cycle, "entry": commit.entry, "data": commit.data,
            "fate": commit.fate, "ended_cycle": commit.ended}


def row_of(facts: Facts, commit: Commit, sent: Sent, why_lost: str | None) -> Row:
    """Returns the row of one transmission. Its latencies count from the start of the commit's cycle."""
    network = facts.network
    cluster = network.cluster
    length = cluster.parameters.length_of(sent.slot, cluster.nodes[commit.node].buffers[commit.buffer].words)
    begin = facts.begin(sent.cycle, sent.slot, sent.channel)
    latency = None if begin is None else begin - facts.windows.begin_of_cycle(commit.cycle)
    return Row(front(facts, commit) | {
        "sent_cycle": sent.cycle, "slot": sent.slot, "channel": sent.channel,
        "begin": None if begin is None else network.time(begin),
        "latency": None if latency is None else network.time(latency),
        "to_end": None if latency is None else network.time(latency + length),
        "end": sent.end, "receivers": network.receivers(sent.receivers), "why": why_lost,
    }, sent.end != ARRIVED)
