"""The command `log`: the record of the bus, a row for each transmission and each bit that a fault names."""
from musmyrtle.show.facts import ARRIVED, Facts, Transmission
from musmyrtle.show.network import Network
from musmyrtle.show.selection import Selection
from musmyrtle.show.tables import Column, Row, Section

ENDS = {"turned": "bit flipped", "overrun": "too long", "blocked": "stopped by guardian", "muted": "lost"}
"""Words for people, for the fates of transmissions."""


def log(facts: Facts, selection: Selection) -> list[Section]:
    """Returns the table of `log`. With errors alone it has what didn't arrive as it was sent, and what nodes babble."""
    rows = [row_of(facts, it) for it in facts.record if is_selected(it, selection)]
    return [Section("transmission", "", columns(facts.network), rows, "No transmission is selected.")]


def columns(network: Network) -> tuple[Column, ...]:
    """Returns the columns of the record."""
    return (Column("cycle", "cycle"), Column("window", ""), Column("minislot", ""), network.column("begin", "begin"),
            Column("slot", "slot"), Column("channel", "channel"), Column("node", "node", "name"),
            Column("what", "what"), Column("passed", ""), Column("end", "end", words=ENDS), Column("frame", "frame"),
            Column("flags", "flags"), Column("bit", "bit"), Column("data", "bytes", "bytes"), Column("line", "line"))


def is_error(it: Transmission) -> bool:
    """Returns whether a transmission didn't arrive as it was sent, or a fault made it."""
    return it.end != ARRIVED or it.what != "offer"


def is_selected(it: Transmission, selection: Selection) -> bool:
    """Returns whether the row of a transmission is printed."""
    return (selection.has_node(it.node) and selection.has_cycle(it.cycle)
            and selection.has_place(it.slot, it.channel, it.minislot) and (is_error(it) or not selection.is_errors))


def row_of(facts: Facts, it: Transmission) -> Row:
    """Returns the row of a transmission."""
    network, begin = facts.network, facts.windows.begins[it.window]
    return Row({
        "cycle": it.cycle, "window": it.window, "minislot": it.minislot, "begin": network.time(begin), "slot": it.slot,
        "channel": it.channel, "node": None if it.node is None else network.node(it.node), "what": it.what,
        "passed": it.passed, "end": it.end, "frame": it.frame, "flags": it.flags, "bit": it.bit, "data": it.data,
        "line": it.line,
    }, is_error(it))
