"""The windows in which receivers are due to get frames with signals, and what became of these frames.

The programs say it: `fr_view record` what was sent, `fr_view received` what each node stored, and `fr_view windows`
when each window begins. Their lines are read side by side as they come, so that nothing is kept of a long run.
"""
from collections.abc import Callable, Iterable, Iterator
from dataclasses import dataclass
from itertools import chain, groupby, islice

from musmyrtle.lint.command import USAGE
from musmyrtle.output import Stop
from musmyrtle.show.engines import ENDLESS, Inputs
from musmyrtle.show.facts import ARRIVED, Transmission, transmission_of
from musmyrtle.show.received import observations_in
from musmyrtle.show.windows import CHANNELS
from musmyrtle.signals.layout import Layout
from musmyrtle.signals.receiving import Destination, Destinations, Layouts

HEADER, TRAILER = 5, 3
"""The bytes of a frame before and after its payload."""
FIFO, NULL = "queue", "n"
Stored = frozenset[tuple[str, Destination]]
"""The receivers that stored the frame of a channel."""


@dataclass(frozen=True, slots=True)
class Due:
    """A window in which a receiver is due to get a frame: its cycle of the run, and its begin in macroticks.

    `channels` are that of the stored frame, or those on which frames were sent. `sender` is the node that sent it.
    `layout` is None for a frame without signals, and `payload` for one that wasn't stored. A null frame has no data.
    """

    cycle: int
    begin: int
    slot: int
    channels: str
    sender: int
    destination: Destination
    layout: Layout | None
    payload: bytes | None
    is_null: bool


class Arrivals:
    """The windows of a run in which wanted receivers are due to get a frame, in their order.

    WANTED tells whether the frames of a receiver are wanted that have a layout, or none. An endless run keeps no
    history.
    """

    def __init__(self, inputs: Inputs, destinations: Destinations, layouts: Layouts,
                 wanted: Callable[[Destination, Layout | None], bool], is_endless: bool) -> None:
        self.inputs, self.destinations, self.layouts, self.wanted = inputs, destinations, layouts, wanted
        self.is_endless = is_endless
        self.known: dict[tuple[int, str, int], tuple[Destination, ...]] = {}

    @property
    def cycles(self) -> int:
        """Returns the cycles of the run."""
        return self.inputs.cycles

    def __iter__(self) -> Iterator[Due]:
        """Yields the windows, each as often as it has wanted receivers. Raises `Stop` where the run is refused."""
        ask = self.inputs.lines_of_run
        # The first refuses the run, if it is refused. From then on all three programs run at the same time.
        record = begun(ask("record", *([ENDLESS] if self.is_endless else [])))
        windows, received = begun(ask("windows", ENDLESS)), begun(ask("received", ENDLESS))
        begins, stored = Begins(windows), stored_in(received)
        window, now = -1, Stored()
        for number, lines in groupby(record, first_word):
            sent = sent_in(lines)
            places = self.places(sent)
            if not places:
                continue
            while window < int(number):
                window, now = next(stored, (int(number), Stored()))
            begin = begins.of(int(number))
            yield from self.dues(begin, places, sent, now if window == int(number) else Stored())
        for rest in (windows, received):
            # The failure of a program is known at its end.
            for _ in rest:
                pass

    def places(self, sent: list[Transmission]) -> dict[Destination, str]:
        """Returns the wanted receivers that may store something of a window, with the channels."""
        found: dict[Destination, str] = {}
        for channel in CHANNELS:
            its = [it for it in sent if it.channel == channel]
            if its:
                slot, cycle = its[0].slot or 0, its[0].cycle
                for it in self.wanted_at(slot, channel, cycle):
                    found[it] = found.get(it, "") + channel
        return found

    def wanted_at(self, slot: int, channel: str, cycle: int) -> tuple[Destination, ...]:
        """Returns the wanted receivers that admit a slot."""
        place = slot, channel, cycle % 64
        if place not in self.known:
            layout = self.layouts.of(*place)
            self.known[place] = tuple(it for it in self.destinations.of(*place) if self.wanted(it, layout))
        return self.known[place]

    def dues(self, begin: int, places: dict[Destination, str], sent: list[Transmission], stored: Stored
             ) -> Iterator[Due]:
        """Yields the receivers that are due in a window. A FIFO stores the frames of both channels."""
        for destination, channels in places.items():
            for its in channels if destination.buffer is None else (channels,):
                on = [it for it in its if (it, destination) in stored]
                found = self.stored_due(begin, destination, on[0], sent) if on else \
                    self.lost_due(begin, destination, its, sent)
                if found:
                    yield found

    def stored_due(self, begin: int, destination: Destination, channel: str, sent: list[Transmission]) -> Due:
        """Returns the window of a frame that a receiver stored. Raises `Stop` if nothing arrived there."""
        for it in sent:
            if it.channel == channel and it.end == ARRIVED and it.frame is not None:
                slot = it.slot or 0
                return Due(it.cycle, begin, slot, channel, it.node or 0, destination,
                           self.layouts.of(slot, channel, it.cycle), payload_of(it), False)
        raise Stop(USAGE, f"{self.inputs.program('fr_view')} prints that node {destination.node} stored a frame on "
                          f"{channel} in cycle {sent[0].cycle}, in which none arrived")

    def lost_due(self, begin: int, destination: Destination, channels: str, sent: list[Transmission]) -> Due | None:
        """Returns the window of a frame that a receiver didn't store, or None if no other node was to send one."""
        offers = [it for it in sent if it.what == "offer" and it.channel in channels and it.node != destination.node]
        if not offers:
            return None
        data = [it for it in offers if NULL not in (it.flags or "")]
        first = (data or offers)[0]
        slot = first.slot or 0
        return Due(first.cycle, begin, slot, "".join(it.channel for it in data or offers), first.node or 0,
                   destination, self.layouts.of(slot, first.channel, first.cycle), None, not data)


class Begins:
    """The begins of windows, by the lines of `fr_view windows`, which number them without gaps."""

    def __init__(self, lines: Iterator[str]) -> None:
        self.lines, self.passed = lines, 0

    def of(self, window: int) -> int:
        """Returns the macrotick of the run at which a window begins. It isn't before the one that was asked for."""
        line = next(islice(self.lines, window - self.passed, None))
        self.passed = window + 1
        return int(line.split(" ", 4)[3])


def sent_in(lines: Iterable[str]) -> list[Transmission]:
    """Returns the transmissions of a window that have a slot, by its lines of the record."""
    return [it for it in map(transmission_of, lines) if it.slot is not None and it.data]


def first_word(line: str) -> str:
    """Returns the first word of a line."""
    return line.partition(" ")[0]


def begun(lines: Iterator[str]) -> Iterator[str]:
    """Returns lines of a program that has begun to print them. Raises `Stop` where it refuses the run."""
    return chain(list(islice(lines, 1)), lines)


def payload_of(it: Transmission) -> bytes:
    """Returns the payload of a frame in the record."""
    return bytes.fromhex((it.data or "")[1 + 2 * HEADER:-2 * TRAILER])


def stored_in(lines: Iterable[str]) -> Iterator[tuple[int, Stored]]:
    """Yields the windows in which something was stored, and by which receivers, by the lines of `fr_view received`."""
    known: dict[str, Stored] = {}
    # Most lines have no receiver.
    kept = (line for line in lines if " b" in line or FIFO in line)
    for window, its in groupby(kept, first_word):
        found = Stored()
        for line in its:
            rest = line.split(" ", 2)[2]
            if rest not in known:
                known[rest] = receivers_in(rest)
            found |= known[rest]
        if found:
            yield int(window), found


def receivers_in(rest: str) -> Stored:
    """Returns the receivers in the words of a line from the node on."""
    node, _, words = rest.partition(" ")
    return Stored((channel, Destination(int(node), None if word == FIFO else int(word[1:])))
                  for channel, it in zip(CHANNELS, observations_in(words)) if it.receivers != "-"
                  for word in it.receivers.split(","))
