"""The frames of a recording and their findings, from the lines that `fr_monitor --frames` prints."""
from dataclasses import dataclass, field

from musmyrtle.show.network import Network
from musmyrtle.show.recordings import (BACK, ELSEWHERE, FINDING, FRAME, LastFrames, Place, back_row, finding_row,
                                       number, text)
from musmyrtle.show.tables import Name

OPENS = "opens"


@dataclass(slots=True)
class Frame:
    """A record of a frame: its number and time, and the place that its header names.

    `cycle` is the number of its cycle on its channel, `begin` and `length` are those of its slot in macroticks, and
    `node` may send there. A broken record has no flags and no data, and the nearest cycle with the count of its header.
    `reasons` has its findings in words.
    """

    record: int
    seconds: str | None
    count: int | None
    channel: str
    slot: int | None
    cycle: int | None
    begin: int | None
    length: int | None
    node: int | None
    flags: str | None
    data: str | None
    reasons: list[str] = field(default_factory=list)


@dataclass(slots=True)
class Note:
    """A finding, or the return of a slot, in words.

    `frame` is the frame that it is about. `cycle` is the number of the cycle on the channel in which a frame was
    missing.
    """

    place: Place
    name: str
    why: str
    node: int | None
    frame: Frame | None
    cycle: int | None


@dataclass(slots=True)
class Lane:
    """A channel: the latest number of a cycle with each count, as the lines of its frames have both.

    `base` is the number of its first cycle on the axis that both channels share.
    """

    latest: dict[int, int] = field(default_factory=dict)
    base: int | None = None


class Axis:
    """The axis of cycles that both channels of a recording share."""

    def __init__(self) -> None:
        self.lanes = {"A": Lane(), "B": Lane()}

    def open(self, channel: str, count: int, cycle: int, beside: int | None) -> None:
        """Notes a cycle of a channel with a count, beside which the other channel has the cycle BESIDE.

        The first BESIDE of the channel that begins later shifts its cycles, so that both have one axis. This is form:
        no count is compared here.
        """
        lane, other = self.lanes[channel], self.lanes["B" if channel == "A" else "A"]
        lane.latest[count] = cycle
        if lane.base is None:
            lane.base = (0 if other.base is None or beside is None else other.base + beside) - cycle

    def first(self) -> int:
        """Returns the first cycle of the channels on the axis."""
        return min((it.base for it in self.lanes.values() if it.base is not None), default=0)

    def place(self, channel: str, cycle: int) -> int | None:
        """Returns the place of a channel's cycle on the axis, or None before the channel has one."""
        base = self.lanes[channel].base
        return None if base is None else base + cycle


class Recorded:
    """The lines of a recording, which are added one by one."""

    def __init__(self, network: Network) -> None:
        self.network = network
        self.frames: dict[int, Frame] = {}
        self.notes: list[Note] = []
        self.axis = Axis()
        self.last = LastFrames()
        self.records = 0

    def add(self, line: str) -> None:
        """Adds a line. Those of the summary but its first have nothing for a page."""
        words = line.split(" ")
        if words[0] == FRAME:
            self.add_frame(words)
        elif words[0] == OPENS:
            self.open(self.frames[int(words[1])], number(words[2]), number(words[3]))
        elif words[0] in (FINDING, BACK):
            self.add_note(words)
        elif words[0] == "records":
            self.records = int(words[1])

    def add_frame(self, words: list[str]) -> None:
        """Adds the frame of a line. A broken one is in the cycle that its header names."""
        self.last.add(words)
        place = Place.of(words)
        cycle, begin, length, node = map(number, words[6:10])
        frame = Frame(place.record or 0, place.seconds, place.cycle, place.channel, place.slot, cycle, begin, length,
                      node, text(words[10]), text(words[11]))
        self.frames[frame.record] = frame
        if frame.data is not None:
            self.open(frame, cycle, number(words[12]))

    def open(self, frame: Frame, cycle: int | None, beside: int | None) -> None:
        """Puts a good frame into a cycle, beside which the other channel has the cycle BESIDE."""
        frame.cycle = cycle
        if cycle is not None and frame.count is not None:
            self.axis.open(frame.channel, frame.count, cycle, beside)

    def add_note(self, words: list[str]) -> None:
        """Adds a finding, or the return of a slot."""
        is_finding = words[0] == FINDING
        row = finding_row(self.network, words, self.last.sender(words)) if is_finding else back_row(self.network, words)
        place, node, name, why = Place.of(words), row.values["node"], str(row.values["name"]), str(row.values["why"])
        frame, cycle = None, None
        if name == "Missing" and place.cycle is not None:
            cycle = self.axis.lanes[place.channel].latest.get(place.cycle)
        elif name not in ELSEWHERE and place.record is not None:
            frame = self.frames.get(place.record)
        if frame is not None and name != BACK:
            frame.reasons.append(why)
        its_node = node.number if isinstance(node, Name) else None
        self.notes.append(Note(place, name, why, its_node, frame, cycle))

    def on_axis(self, channel: str, cycle: int | None) -> int | None:
        """Returns the number of a channel's cycle in the recording, from 0, if it is known."""
        place = None if cycle is None else self.axis.place(channel, cycle)
        return None if place is None else place - self.axis.first()
