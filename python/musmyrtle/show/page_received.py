"""The columns of what each node received in a run, by the lines of `fr_view received`.

A column of states has a place for each node, window and channel, in this order. Receivers are rare, and have columns of
their own. A run with too many places has none of these, and its page the numbers of errors in each cycle alone.
"""
from array import array
from collections import Counter
from collections.abc import Sequence
from typing import NamedTuple

from musmyrtle.show.page_columns import Columns
from musmyrtle.show.received import observations_in

MOST_PLACES = 64_000_000
"""The most places of nodes, windows and channels that a page shows."""


class Known(NamedTuple):
    """The words of a line after the node: for each channel the number of its state, and that of its receivers."""

    states: tuple[int, ...]
    receivers: tuple[int, ...]
    errors: int


class Received:
    """The lines of a run with so many windows and nodes, which are added one by one."""

    def __init__(self, windows: int, nodes: int) -> None:
        self.windows, count = windows, 2 * windows * nodes
        self.places = bytearray(count if count <= MOST_PLACES else 0)
        self.states, self.receivers = {"": 0}, {"-": 0}
        self.stored_places, self.stored_by = array("I"), array("H")
        self.counted: Counter[tuple[int, int]] = Counter()
        self.known: dict[str, Known] = {}

    @property
    def is_shown(self) -> bool:
        """Returns whether the page has a place for each observation."""
        return bool(self.places)

    def add(self, line: str) -> None:
        """Adds a line."""
        window, cycle, node, rest = line.split(" ", 3)
        its = self.known.get(rest) or self.learned(rest)
        if not self.places:
            if its.errors:
                self.counted[int(node), int(cycle)] += its.errors
            return
        place = 2 * (int(node) * self.windows + int(window))
        for at, (state, receivers) in enumerate(zip(its.states, its.receivers), place):
            self.places[at] = state
            if receivers:
                self.stored_places.append(at)
                self.stored_by.append(receivers)

    def learned(self, rest: str) -> Known:
        """Returns the numbers of the words of a line after the node."""
        found = observations_in(rest)
        states = tuple(number_of(f"{it.seen} {it.counted}", self.states) for it in found)
        receivers = tuple(number_of(it.receivers, self.receivers) for it in found)
        self.known[rest] = Known(states, receivers, sum(it.is_error for it in found))
        return self.known[rest]

    def fill(self, columns: Columns) -> None:
        """Adds the columns."""
        if not self.is_shown:
            add_nothing_seen(columns)
            add_counted([(*key, count) for key, count in sorted(self.counted.items())], columns)
            return
        # The first state is none, so that the column of a run without windows isn't empty.
        columns.add("seen_state", "u8", array("B", b"\0" + self.places), words=list(self.states))
        order = sorted(range(len(self.stored_places)), key=self.stored_places.__getitem__)
        words = list(self.receivers)
        columns.rising("stored_place", [self.stored_places[it] for it in order])
        columns.words("stored_by", (words[self.stored_by[it]] for it in order))
        add_counted((), columns)


def number_of(word: str, numbers: dict[str, int]) -> int:
    """Returns the number of a word, which is the next one for a new word."""
    return numbers.setdefault(word, len(numbers))


def add_nothing_seen(columns: Columns) -> None:
    """Adds the columns of observations without an entry."""
    columns.words("seen_state", [])
    columns.rising("stored_place", [])
    columns.words("stored_by", [])


def add_counted(counted: Sequence[tuple[int, int, int]], columns: Columns) -> None:
    """Adds the errors that nodes counted in cycles: node, cycle and number. A page with observations has them there."""
    columns.numbers("counted_node", "u8", (it[0] for it in counted))
    columns.numbers("counted_cycle", "u32", (it[1] for it in counted))
    columns.numbers("counted_errors", "u32", (it[2] for it in counted))
