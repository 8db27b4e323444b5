"""The differences of two cluster files, as rows of tables."""
from collections.abc import Iterable, Iterator, Mapping, Sequence
from dataclasses import replace

from musmyrtle.show.tables import LONGEST_TEXT, Column, Row, Section, Value

CHANGED, ADDED, REMOVED, RENAMED, ORDER = "changed", "added", "removed", "renamed", "order"
LOST, ARRIVED = "lost", "arrived"
"""A commit that a node received in the first run alone, or in the second run alone."""
NODE, BUFFER, SLOT = Column("node", "node", "name"), Column("buffer", "buffer", "name"), Column("slot", "slot")
FRAME, SIGNAL = Column("frame", "frame"), Column("signal", "signal")
RECEIVER, ITS_BUFFER = Column("receiver", "receiver", "name"), Column("receiver_buffer", "its buffer", "name")
CHANNEL, CYCLE, CYCLES = Column("channel", "channel"), Column("cycle", "cycle"), Column("cycles", "cycles", "whole")
CHANGE, KEY, UNIT = Column("change", "change"), Column("key", "key"), Column("unit", "unit")
VALUES = Column("old", "old"), Column("new", "new")
CHANGES = CHANGE, KEY, *VALUES
DETAILS = CHANGE, KEY, SIGNAL, UNIT, *VALUES

KINDS: dict[str, tuple[str, tuple[Column, ...]]] = {
    "parameter": ("Parameters", (Column("table", "table"), *CHANGES)),
    "node": ("Nodes", (NODE, *CHANGES)),
    "slot": ("Static slots of nodes", (NODE, SLOT, *CHANGES)),
    "fifo": ("Receive FIFOs", (NODE, *CHANGES)),
    "buffer": ("Buffers", (NODE, BUFFER, SLOT, *CHANGES)),
    "frame": ("Frames", (FRAME, *CHANGES)),
    "signal": ("Signals", (FRAME, SIGNAL, *CHANGES)),
    "receiver": ("Cycles in which a buffer sends to a receiver",
                 (NODE, BUFFER, RECEIVER, ITS_BUFFER, CHANNEL, CHANGE, *VALUES)),
    "guardian": ("Macroticks in which a guardian is open", (NODE, CHANNEL, CYCLES, *VALUES)),
    "latency": ("Transmit buffers in runs without faults", (NODE, BUFFER, SLOT, CHANGE, KEY, UNIT, *VALUES)),
    "load": ("Loads of channels", (CHANNEL, KEY, *VALUES)),
    "shift": ("Shift", (KEY, CHANGE, Column("by", "cycles"))),
    "alone": ("Cycles of one side alone", (CYCLES, CHANGE, KEY, *VALUES)),
    "commit": ("Commits", (NODE, BUFFER, Column("task", ""), CYCLE, *DETAILS)),
    "call": ("Answers to tasks", (NODE, Column("task", "task"), CYCLE, Column("call", "call"), BUFFER, *DETAILS)),
    "report": ("Reports at the end", (NODE, BUFFER, CHANNEL, KEY, *VALUES)),
    "missed": ("Missed expectations", (NODE, BUFFER, CYCLE, CHANGE, *VALUES)),
    "sent": ("Transmissions on the bus",
             (CYCLE, SLOT, Column("minislot", "minislot"), CHANNEL, NODE, Column("what", "what"), *CHANGES)),
    "recorded": ("Frames", (CYCLE, SLOT, CHANNEL, NODE, *DETAILS)),
    "count": ("Counts", (KEY, *VALUES)),
}
"""The kinds of rows in the order of the tables, each with a title and columns."""
ERRORS = (LOST,)
"""The changes whose rows are red on a terminal."""
BEFORE = 24
"""The characters before the first difference that two long texts show."""


class Difference:
    """A difference: its kind, what became of the thing, the key that differs, and both values, or None for absent ones.

    Names are those of the first file, if it has the thing.
    """

    def __init__(self, kind: str, change: str = CHANGED, key: str | None = None, old: Value = None, new: Value = None,
                 **place: Value) -> None:
        """Takes the values of the other columns of its table by their keys. Raises `ValueError` for an unknown one."""
        unknown = place.keys() - {it.key for _, columns in KINDS.values() for it in columns}
        if unknown:
            raise ValueError(f"no table of differences has {', '.join(sorted(unknown))}")
        self.kind, self.change = kind, change
        self.values: dict[str, Value] = {"change": change, "key": key, "old": old, "new": new, **place}

    @property
    def row(self) -> Row:
        """Returns the row of the table of its kind."""
        return Row({it.key: self.values.get(it.key) for it in KINDS[self.kind][1]}, self.change in ERRORS)


def sections_of(differences: Iterable[Difference]) -> list[Section]:
    """Returns the tables of differences, one for each kind that has some."""
    rows: dict[str, list[Row]] = {it: [] for it in KINDS}
    for it in differences:
        rows[it.kind].append(it.row)
    return [Section(kind, title, columns, rows[kind]) for kind, (title, columns) in KINDS.items() if rows[kind]]


def for_people(sections: Sequence[Section]) -> Iterator[Section]:
    """Yields tables in which two long values begin shortly before they differ, since texts are cut."""
    for section in sections:
        yield replace(section, rows=[Row(apart(it.values), it.is_error) for it in section.rows])


def apart(values: Mapping[str, Value]) -> dict[str, Value]:
    """Returns the values of a row, with those of `old` and `new` from shortly before their first difference on."""
    found = dict(values)
    old, new = found.get("old"), found.get("new")
    if isinstance(old, str) and isinstance(new, str) and max(len(old), len(new)) > LONGEST_TEXT:
        same = next((at for at, (one, other) in enumerate(zip(old, new)) if one != other), min(len(old), len(new)))
        if same > BEFORE:
            found |= {"old": f"..{old[same - BEFORE:]}", "new": f"..{new[same - BEFORE:]}"}
    return found
