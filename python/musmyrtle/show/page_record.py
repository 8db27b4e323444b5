"""The record of the bus for the page of a run."""
from array import array

from musmyrtle.show.causes import Causes
from musmyrtle.show.facts import Transmission
from musmyrtle.show.page_columns import NOTHING, Columns, Contents, Words

WORDS = ("what", "passed", "end", "flags")


class Record:
    """The lines of `fr_view record`, which are added one by one and kept in columns.

    CAUSES tells which of them are effects of faults.
    """

    def __init__(self, causes: Causes) -> None:
        self.causes = causes
        self.window, self.sent = -1, dict[str, list[tuple[str | None, int]]]()
        """The last window, and on each channel the end and the node of each of its transmissions."""
        self.windows, self.channels, self.nodes = array("I"), Words(), array("B")
        self.words = {key: Words() for key in WORDS}
        self.frames, self.bits, self.lines = array("H"), array("H"), array("H")
        self.effects, self.data = array("B"), Contents()

    def add(self, it: Transmission) -> None:
        """Adds a line. Those of a window come together, and the bits that faults name last."""
        if it.window != self.window:
            self.window, self.sent = it.window, {"A": [], "B": []}
        if it.node is not None:
            self.sent[it.channel].append((it.end, it.node))
        self.effects.append(self.is_effect(it))
        self.windows.append(it.window)
        self.channels.add(it.channel)
        self.nodes.append(NOTHING["u8"] if it.node is None else it.node)
        for key, words in self.words.items():
            words.add(getattr(it, key) or "-")
        for column, value in ((self.frames, it.frame), (self.bits, it.bit), (self.lines, it.line)):
            column.append(NOTHING["u16"] if value is None else value)
        self.data.add(it.data)

    def is_effect(self, it: Transmission) -> bool:
        """Returns whether `fr_view reasons` has a line for the fault of this one and a transmission of the window."""
        place = it.cycle, it.slot or 0, it.channel
        return it.line is not None and self.causes.has(place, self.sent[it.channel], it.line)

    def fill(self, columns: Columns) -> None:
        """Adds the columns of the record."""
        columns.rising("record_window", self.windows)
        columns.words("record_channel", self.channels)
        columns.numbers("record_node", "u8", self.nodes)
        for key, words in self.words.items():
            columns.words(f"record_{key}", words)
        columns.numbers("record_frame", "u16", self.frames)
        columns.numbers("record_bit", "u16", self.bits)
        columns.numbers("record_line", "u16", self.lines)
        columns.numbers("record_effect", "u8", self.effects)
        columns.contents("record_data", self.data)
