"""The windows of a session in which receivers are due to get frames with signals, by the record that it wrote.

The record has all that was sent, and whether it arrived. By the rules of the cluster a receiver stores each valid data
frame that it admits. A frame in the record is one of its channel, with right checksums.
"""
import re
from collections.abc import Callable, Iterable, Iterator
from itertools import groupby
from typing import IO

from musmyrtle.arrived import suits
from musmyrtle.cluster import Cluster, Parameters
from musmyrtle.lint.command import REFUSED
from musmyrtle.output import Stop, pass_on
from musmyrtle.show.arrivals import Arrivals, Due, Stored, first_word, sent_in
from musmyrtle.show.engines import COMMAND, Inputs
from musmyrtle.show.facts import ARRIVED, Transmission
from musmyrtle.signals.layout import Layout
from musmyrtle.signals.receiving import Destination, Destinations, Layouts
from musmyrtle.visible import cut, visible

LINE = re.compile(r"([0-9]{1,10}) ([0-9]{1,7}) (-|[0-9]{1,4}) (-|[0-9]{1,4}) [AB] "
                  r"(?:- corrupt [0-9]{1,4} (?:-|[0-9]{1,4})|"
                  r"([0-9]{1,2}) (?:offer|babble) (?:passed|blocked|muted) [a-z]+ (?:[0-9]{1,4} [a-z-]{4}|- -) "
                  r"x(?:[0-9a-f]{2}){0,262} (?:-|[0-9]{1,4}))")
"""A line of a record, with its window, cycle, minislot, slot and node."""
LONGEST = 1024
"""The bytes of a line, more than any has."""


class SessionArrivals(Arrivals):
    """The windows of a session in which wanted receivers are due to get a frame, in their order.

    LINES are those of its record.
    """

    def __init__(self, inputs: Inputs, destinations: Destinations, layouts: Layouts,
                 wanted: Callable[[Destination, Layout | None], bool], lines: Iterable[str]) -> None:
        super().__init__(inputs, destinations, layouts, wanted, True)
        self.lines, self.done = lines, 0
        self.parameters = inputs.network.cluster.parameters

    @property
    def cycles(self) -> int:
        """Returns the cycles of the session, once all its windows were seen."""
        return self.done

    def __iter__(self) -> Iterator[Due]:
        """Yields the windows, each as often as it has wanted receivers. Raises `Stop` for a line that is none."""
        for _, lines in groupby(self.lines, first_word):
            sent = sent_in(lines)
            if sent:
                self.done = sent[0].cycle + 1
            places = self.places(sent)
            if places:
                yield from self.dues(begin_of(sent[0], self.parameters), places, sent, self.stored(sent))

    def stored(self, sent: list[Transmission]) -> Stored:
        """Returns the receivers that store the frames of a window."""
        return Stored((it.channel, to) for it in sent if is_stored(it, self.parameters.static_words)
                      for to in self.destinations.of(it.slot or 0, it.channel, it.cycle) if to.node != it.node)


def begin_of(it: Transmission, parameters: Parameters) -> int:
    """Returns the macrotick of the session at which the window of a transmission begins."""
    start = it.cycle * parameters.cycle_mt
    if it.minislot is None:
        return start + ((it.slot or 1) - 1) * parameters.static_mt
    return start + parameters.static_slots * parameters.static_mt + (it.minislot - 1) * parameters.minislot_mt


def is_stored(it: Transmission, static_words: int) -> bool:
    """Returns whether a transmission arrives as a data frame that suits its slot."""
    if it.end != ARRIVED or it.frame is None or it.slot is None or it.data is None:
        return False
    return suits(bytes.fromhex(it.data[1:]), it.slot, it.cycle, static_words if it.minislot is None else None)


def lines_in(name: str, source: IO[bytes], cluster: Cluster) -> Iterator[str]:
    """Yields the lines of a record, each once it is read. A last line that isn't whole is left out, with a note.

    Raises `Stop` for a line that no record of this cluster has.
    """
    window = 0
    for number in range(1, 1 << 62):
        data = source.readline(LONGEST)
        if not data:
            return
        if not data.endswith(b"\n") and len(data) < LONGEST:
            pass_on(f"{COMMAND}: the last line of {visible(name)} is left out, since it isn't whole")
            return
        line = data[:-1].decode("ascii", errors="replace")
        found = LINE.fullmatch(line)
        if found is None or not is_of(cluster, found) or int(found[1]) < window:
            raise Stop(REFUSED, visible(f"{name} is refused: line {number}, `{cut(line)}`, is no line that `fr_world "
                                        "--record` writes of this cluster"))
        window = int(found[1])
        yield line


def is_of(cluster: Cluster, found: re.Match[str]) -> bool:
    """Returns whether a cluster has the place and the node of a line."""
    its = cluster.parameters
    if found[3] == "-":
        has_place = found[4] != "-" and 1 <= int(found[4]) <= its.static_slots
    else:
        has_place = 1 <= int(found[3]) <= its.minislots
    return has_place and (found[5] is None or int(found[5]) < len(cluster.nodes))
