"""The command `run`: what a person wants to know at the end of a run.

The counts are those of the reports. Their slots and cycles are the rows of `fr_view received` with the same word.
"""
from collections import Counter
from collections.abc import Iterator

from musmyrtle.show.facts import Facts
from musmyrtle.show.reasons import why
from musmyrtle.show.received import ERRORS
from musmyrtle.show.tables import Column, Numbers, Row, Section
from musmyrtle.visible import cut
from musmyrtle.world.replies import Counters, Queue, ReceiveBuffer


def run(facts: Facts) -> list[Section]:
    """Returns the tables of `run`."""
    facts.inputs.passes_misses_on = facts.inputs.passes_idle_on = False
    return [totals(facts), missed(facts), undelivered(facts), empty_buffers(facts), overwriting(facts), errors(facts),
            idle(facts)]


def totals(facts: Facts) -> Section:
    """Returns the numbers of the whole run."""
    outcome = facts.ended[0]
    delivered = sum(it.is_delivered for it in facts.commits)
    columns = (Column("nodes", "nodes"), Column("cycles", "cycles"), facts.network.column("time", "time"),
               Column("windows", "windows"), Column("commits", "commits"), Column("delivered", "delivered"),
               Column("idle_faults", "faults without effect"))
    time = facts.network.time(facts.windows.begin_of_cycle(facts.inputs.cycles))
    return Section("total", "Run", columns, [Row({
        "nodes": len(outcome.nodes), "cycles": facts.inputs.cycles, "time": time, "windows": outcome.windows,
        "commits": len(facts.commits), "delivered": delivered, "idle_faults": len(idle_faults(facts))})])


def missed(facts: Facts) -> Section:
    """Returns the expectations of the scenario that the run missed."""
    network = facts.network
    rows = [Row({"line": it.line, "node": network.node_if_any(it.node), "cycle": it.cycle, "expected": it.expected,
                 "buffer": network.buffer_if_any(it.node, it.buffer), "found": it.found, "others": it.others}, True)
            for it in facts.inputs.misses]
    columns = (Column("line", "line"), Column("node", "node", "name"), Column("buffer", "buffer", "name"),
               Column("cycle", "cycle"), Column("expected", "expected", "bytes"), Column("found", "found", "bytes"),
               Column("others", "other cycles"))
    nothing = "Each expectation was met." if facts.scenario.expectations else ""
    return Section("missed", "Expectations that the run missed", columns, rows, nothing)


def undelivered(facts: Facts) -> Section:
    """Returns the commits that no receiver stored."""
    network = facts.network
    rows = [Row({"node": network.node(it.node), "buffer": network.buffer(it.node, it.buffer), "task": it.task,
                 "cycle": it.cycle, "data": it.data, "fate": it.fate, "why": why(facts, it)}, True)
            for it in facts.commits if not it.is_delivered]
    columns = (Column("node", "node", "name"), Column("buffer", "buffer", "name"), Column("task", ""),
               Column("cycle", "cycle"), Column("data", "bytes", "bytes"), Column("fate", ""),
               Column("why", "why", "whole"))
    return Section("undelivered", "Commits that no node received", columns, rows, "Each commit was received.")


def empty_buffers(facts: Facts) -> Section:
    """Returns the receive buffers without a frame, by node."""
    columns = (Column("node", "node", "name"), Column("count", "count"), Column("buffers", "buffers"),
               Column("names", "names"), Column("slots", "slots"))
    rows = list(empty_rows(facts))
    return Section("empty", "Receive buffers that hold nothing", columns, rows, "Each receive buffer holds a frame.")


def empty_rows(facts: Facts) -> Iterator[Row]:
    """Yields a row for each node with empty receive buffers."""
    network = facts.network
    for node, ended in zip(network.cluster.nodes, facts.ended[0].nodes):
        empty = [it for it, state in zip(node.buffers, ended.buffers)
                 if isinstance(state, ReceiveBuffer) and state.payload is None]
        if empty:
            names = [network.buffer(node.number, it.number).name for it in empty]
            yield Row({"node": network.node(node.number), "count": len(empty),
                       "buffers": Numbers(tuple(it.number for it in empty)),
                       "names": ", ".join(cut(it) for it in names if it is not None) or None,
                       "slots": Numbers(tuple(sorted({it.slot for it in empty})))})


def overwriting(facts: Facts) -> Section:
    """Returns the receive FIFOs that overwrote frames."""
    network = facts.network
    rows = [Row({"node": network.node(node.number), "capacity": node.queue.capacity, "waiting": ended.queue.waiting,
                 "overwritten": ended.queue.lost}, True)
            for node, ended in zip(network.cluster.nodes, facts.ended[0].nodes)
            if node.queue and isinstance(ended.queue, Queue) and ended.queue.lost]
    columns = (Column("node", "node", "name"), Column("capacity", "capacity"), Column("waiting", "frames"),
               Column("overwritten", "overwritten"))
    nothing = "No receive FIFO overwrote a frame." if any(it.queue for it in network.cluster.nodes) else ""
    return Section("overwriting", "Receive FIFOs that overwrote frames", columns, rows, nothing)


def errors(facts: Facts) -> Section:
    """Returns the error counters that aren't 0."""
    rows = [row for node, ended in enumerate(facts.ended[0].nodes) for channel in "AB"
            for row in error_rows(facts, node, channel, ended.counters[channel])]
    columns = (Column("node", "node", "name"), Column("channel", "channel"), Column("error", "error"),
               Column("count", "count"), Column("slots", "in slots"), Column("cycles", "in cycles"),
               Column("lines", "fault lines"))
    return Section("error", "Errors that nodes counted", columns, rows, "No node counted an error.")


def error_rows(facts: Facts, node: int, channel: str, counters: Counters) -> Iterator[Row]:
    """Yields a row for each error counter of a node on a channel, with the slots and cycles that it counted."""
    for error in ERRORS:
        count = int(getattr(counters, error))
        if count:
            seen = facts.errors.get((node, channel, error), [])
            lines = {it.line for cycle, slot in seen for it in facts.causes.of((cycle, slot, channel))}
            slots = Counter(slot for _, slot in seen)
            yield Row({
                "node": facts.network.node(node), "channel": channel, "error": error, "count": count,
                "slots": Numbers(tuple(sorted(slots))), "cycles": Numbers(tuple(sorted({it for it, _ in seen}))),
                "lines": Numbers(tuple(sorted(lines))),
            }, True)


def idle(facts: Facts) -> Section:
    """Returns the fault lines of the scenario that had no effect in the whole run, and such parts of those with lists.
    """
    rows = [Row({"line": line, "fault": text}) for line, text in idle_faults(facts)]
    return Section("idle", "Faults without effect", (Column("line", "line"), Column("fault", "fault")), rows)


def idle_faults(facts: Facts) -> list[tuple[int, str | None]]:
    """Returns the number and the text of each line without effect, and of each line for which a list stands."""
    lines = facts.inputs.text.decode(errors="replace").split("\n")
    found: list[tuple[int, str | None]] = [(it, lines[it - 1] if it <= len(lines) else None) for it in facts.ended[1]]
    if len(facts.scenario.faults) > len({it.number for it in facts.scenario.faults}):
        facts.run()
    parts = facts.inputs.effects.partly_idle() if facts.inputs.effects else {}
    found += [(line, it.text) for line, its in parts.items() for it in its]
    return sorted(found, key=lambda it: it[0])
