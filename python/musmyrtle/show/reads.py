"""The command `reads`: what tasks read and popped, what each FIFO holds at the end, and what it lost."""
from collections.abc import Iterator

from musmyrtle.faults.fifos import StoredFrame
from musmyrtle.show.facts import Call, Facts
from musmyrtle.show.network import Network
from musmyrtle.show.selection import Selection
from musmyrtle.show.sources import READING, Source, Sources
from musmyrtle.show.tables import Column, Row, Section, Value

AGE = "from the start of the frame's window to the start of the call's cycle, in which calls come first"
LATENCY = "from the start of the commit's cycle to the start of the call's cycle"


def reads(facts: Facts, selection: Selection) -> list[Section]:
    """Returns the tables of `reads`.

    Nodes and buffers select the reading one, and cycles that of the call, or of the frame in a FIFO. With errors alone
    they have calls without a frame, and overwritten frames.
    """
    sources = Sources(facts.commits)
    calls = [(it, sources.of(it)) for it in facts.calls if it.kind in READING]
    rows = [row_of(facts, it, source) for it, source in calls if is_selected(it, selection)]
    nodes = [it.number for it in facts.network.cluster.nodes if it.queue and selection.has_node(it.number)
             and selection.has_buffer(it.number, None)]
    held = [row for node in nodes for row in fifo_rows(facts, node, selection)]
    return [Section("call", "Calls", call_columns(facts.network), rows, "No call is selected."),
            Section("fifo", "Receive FIFOs: waiting and overwritten frames", fifo_columns(facts.network), held)]


def call_columns(network: Network) -> tuple[Column, ...]:
    """Returns the columns of calls."""
    return (Column("node", "node", "name"), Column("task", ""), Column("cycle", "cycle"), Column("call", "call"),
            Column("buffer", "buffer", "name"), Column("data", "bytes", "bytes"), Column("frame_cycle", "sent in"),
            Column("cycle_count", ""), Column("slot", "slot"), Column("channel", "channel"),
            Column("sender", "sender", "name"), Column("sender_buffer", "its buffer", "name"),
            Column("commit_cycle", "commit"), network.column("age", "age", AGE),
            network.column("latency", "latency", LATENCY))


def fifo_columns(network: Network) -> tuple[Column, ...]:
    """Returns the columns of frames in receive FIFOs."""
    return (Column("node", "node", "name"), Column("state", "state"), Column("frame_cycle", "sent in"),
            Column("slot", "slot"), Column("channel", "channel"), Column("flags", "flags"),
            Column("data", "bytes", "bytes"))


def is_selected(call: Call, selection: Selection) -> bool:
    """Returns whether the row of a call is printed."""
    return (selection.has_node(call.node) and selection.has_cycle(call.cycle)
            and selection.has_buffer(call.node, call.buffer)
            and selection.has_place(call.slot, call.channel) and (call.data is None or not selection.is_errors))


def row_of(facts: Facts, call: Call, source: Source | None) -> Row:
    """Returns the row of a call.

    Its age counts from the start of the frame's window to the cycle of the call, and its latency from the start of the
    commit's cycle.
    """
    network = facts.network
    values: dict[str, Value] = {
        "node": network.node(call.node), "task": call.task, "cycle": call.cycle, "call": call.kind,
        "buffer": None if call.buffer is None else network.buffer(call.node, call.buffer), "data": call.data,
        "cycle_count": call.count, "slot": call.slot, "channel": call.channel,
    }
    if source is not None:
        commit, sent = source
        now, begin = facts.windows.begin_of_cycle(call.cycle), facts.begin(sent.cycle, sent.slot, sent.channel)
        values |= {
            "frame_cycle": sent.cycle, "sender": network.node(commit.node), "commit_cycle": commit.cycle,
            "sender_buffer": network.buffer(commit.node, commit.buffer),
            "age": None if begin is None else network.time(now - begin),
            "latency": network.time(now - facts.windows.begin_of_cycle(commit.cycle)),
        }
    return Row(values, call.data is None)


def fifo_rows(facts: Facts, node: int, selection: Selection) -> Iterator[Row]:
    """Yields the frames that a FIFO overwrote, and those that it holds at the end, the oldest first."""
    fifo = facts.fifo(node)
    states = [("overwritten", fifo.overwritten), *([] if selection.is_errors else [("waiting", fifo.waiting)])]
    for state, frames in states:
        for frame in frames:
            if selection.has_cycle(frame.cycle) and selection.has_place(frame.slot, frame.channel):
                yield fifo_row(facts.network, node, state, frame)


def fifo_row(network: Network, node: int, state: str, frame: StoredFrame) -> Row:
    """Returns the row of a frame in a receive FIFO."""
    return Row({"node": network.node(node), "state": state, "frame_cycle": frame.cycle, "slot": frame.slot,
                "channel": frame.channel, "flags": frame.flags, "data": frame.payload}, state == "overwritten")
