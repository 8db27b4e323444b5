"""The report of a design: tables of messages, channels and nodes, notes, and what isn't met."""
from collections.abc import Iterator, Sequence
from textwrap import wrap

from musmyrtle.cluster import MOST_LINES
from musmyrtle.design.bottlenecks import misses_of
from musmyrtle.design.judging import Judged, Verdict
from musmyrtle.design.network import Network
from musmyrtle.design.scheduling import Schedule, cycles_left
from musmyrtle.lint.loads import load_section
from musmyrtle.show.network import Network as Shown
from musmyrtle.show.options import WIDTH
from musmyrtle.show.tables import BOLD, RED, USUAL, Column, Name, Row, Section, as_text
from musmyrtle.visible import visible

ROOM = (Column("node", "node", "name"), Column("slots", "static slots"), Column("free", "free cycles of them"),
        Column("unowned", "static slots without an owner"), Column("buffers", "free buffers"))
MISSES = (Column("name", "what", "whole"), Column("reason", "bottleneck", "whole"),
          Column("change", "smallest change", "whole"))
NOTES = (Column("note", "note", "whole"),)
INDENT, MOST_PARAGRAPHS = "    ", 20
MARGIN = "from worst to the deadline"


def sections_of(network: Network, schedule: Schedule, verdict: Verdict | None) -> Iterator[Section]:
    """Yields the tables of a report."""
    if verdict is not None and verdict.shown is not None:
        yield message_section(verdict)
        yield load_section(verdict.loads, verdict.shown.cluster)
        yield room_section(network, schedule, verdict)
    misses = [*schedule.misses, *([] if verdict is None else misses_of(schedule, verdict))]
    if misses:
        rows = [Row({"name": it.name, "reason": it.reason, "change": it.change or None}, True) for it in misses]
        yield Section("miss", "What isn't met", MISSES, rows)
    if schedule.notes:
        yield Section("note", "Notes", NOTES, [Row({"note": it}) for it in schedule.notes])


def text_of(sections: Sequence[Section], is_coloured: bool) -> Iterator[str]:
    """Yields the report for people, in which misses and notes are paragraphs."""
    yield from as_text([it for it in sections if it.kind not in ("miss", "note")], is_coloured)
    for it in sections:
        if it.kind in ("miss", "note"):
            is_miss = it.kind == "miss"
            yield f"\n{BOLD}{it.title}{USUAL}\n" if is_coloured else f"\n{it.title}\n"
            rows = list(it.rows)
            for row in rows[:MOST_PARAGRAPHS]:
                text = "\n".join(paragraphs(row))
                yield f"{RED}{text}{USUAL}\n" if is_coloured and is_miss else f"{text}\n"
            if len(rows) > MOST_PARAGRAPHS:
                yield f"and {len(rows) - MOST_PARAGRAPHS} more\n"


def paragraphs(row: Row) -> Iterator[str]:
    """Yields the lines of a miss or a note."""
    values = {key: visible(str(it)) for key, it in row.values.items() if it is not None}
    first = values.get("note") or f"{values['name']}: {values['reason']}"
    yield from wrap(first, WIDTH, subsequent_indent=INDENT, break_long_words=False, break_on_hyphens=False)
    if "change" in values:
        yield from wrap(f"{INDENT}what helps: {values['change']}", WIDTH, subsequent_indent=INDENT)


def message_section(verdict: Verdict) -> Section:
    """Returns the table of messages."""
    shown = verdict.shown
    assert shown is not None
    columns = (Column("message", "message", "whole"), Column("frame", "frame", "whole"), Column("node", "node", "name"),
               Column("buffer", "", "name"), Column("slot", "slot"), Column("channels", "channels"),
               Column("base", ""), Column("repetition", ""), Column("cycles", "cycles"), shown.column("worst", "worst"),
               shown.column("deadline", "deadline"), shown.column("margin", "margin", MARGIN))
    rows = [row for it in verdict.rows for row in message_rows(it, shown)]
    return Section("message", "Messages, by the proved program", columns, rows)


def message_rows(it: Judged, shown: Shown) -> Iterator[Row]:
    """Yields a row for each message of a transmit buffer."""
    placed, worst = it.line.placed, it.latency.worst
    margin = None if worst is None or it.deadline is None else shown.time(it.deadline - worst)
    names = [(member.name, placed.frame.name if member.bits else None) for member in placed.frame.members]
    for name, frame in names or [(placed.frame.name, None)]:
        yield Row({
            "message": name, "frame": frame, "node": shown.node(it.line.node),
            "buffer": shown.buffer(it.line.node, it.line.number), "slot": placed.slot, "channels": placed.channels,
            "base": placed.cycles.base, "repetition": placed.cycles.repetition, "cycles": str(placed.cycles),
            "worst": None if worst is None else shown.time(worst),
            "deadline": None if it.deadline is None else shown.time(it.deadline), "margin": margin}, not it.is_met)


def room_section(network: Network, schedule: Schedule, verdict: Verdict) -> Section:
    """Returns the table of the room for growth."""
    slots, parameters, rows = schedule.slots, schedule.parameters, []
    assert parameters is not None and verdict.shown is not None
    unowned = sum(1 for slot in range(1, parameters.static_slots + 1) if slots.is_free(slot, "AB"))
    for number, node in enumerate(network.nodes):
        own = [(slot, channel) for (slot, channel), owner in slots.owners.items() if owner == number]
        free = sum(cycles_left(slots, slot, channel) for slot, channel in own)
        buffers = MOST_LINES - len(verdict.shown.cluster.nodes[number].buffers)
        rows.append(Row({"node": Name(number, node.name, "node"), "slots": len({slot for slot, _ in own}),
                         "free": free, "unowned": unowned, "buffers": buffers}))
    return Section("room", "Room for growth", ROOM, rows)
