"""The replies of a world, as values."""
from dataclasses import dataclass, field
from typing import TYPE_CHECKING, Literal, cast

from musmyrtle.signals.refusals import Raw, ReadValue, UnknownSignal

if TYPE_CHECKING:
    from musmyrtle.signals.layout import Layout
    from musmyrtle.world.layouts import Layouts

Channel = Literal["A", "B"]


@dataclass(frozen=True, slots=True)
class Frame:
    """A frame that a task read or popped: its payload, the slot of its frame ID, 1 to 2047, and the cycle, 0 to 63.

    `channel` is the channel on which the node received it. It is None for a frame of a receive FIFO in a world without
    history, which doesn't keep it.

    `frame["speed"]` is a signal, by the layout that its sender has in the cluster file. All that reads signals raises
    `UnknownSignal` for a name that the payload hasn't, and for a frame without a layout, and `BadSignals` for faults in
    the frames of the file.
    """

    payload: bytes
    slot: int
    cycle: int
    preamble: bool = False
    null: bool = False
    sync: bool = False
    startup: bool = False
    channel: Channel | None = None
    layouts: "Layouts | None" = field(default=None, repr=False, compare=False)

    def __getitem__(self, name: str) -> ReadValue:
        """Returns a signal: the name of its raw value if it has one, otherwise the physical value, or None if invalid.
        """
        return self._layout().read(name, self.payload).value

    def raw(self, name: str) -> Raw:
        """Returns the raw value of a signal."""
        return self._layout().read(name, self.payload).raw

    def is_new(self, name: str) -> bool:
        """Returns whether all update bits of a signal are 1, as they are if it has none."""
        return self._layout().read(name, self.payload).is_new

    def signals(self) -> dict[str, ReadValue]:
        """Returns all signals that the payload has, by their names."""
        return {it.signal.name: it.value for it in self._layout().reads(self.payload)}

    def _layout(self) -> "Layout":
        if self.layouts is None:
            raise UnknownSignal("the frame comes from no world, so that its signals aren't known")
        return self.layouts.received(self.slot, self.channel, self.cycle)


@dataclass(frozen=True, slots=True)
class Received:
    """A frame that a task received: the channel, the cycle of the run in which it came, from 0, and whether it is new.

    A frame of a receive buffer is new unless the `receive` of this buffer before, by any task of the node, returned it
    too. A frame of the receive FIFO is always new.
    """

    frame: Frame
    channel: Channel
    cycle: int
    new: bool


@dataclass(frozen=True, slots=True)
class Window:
    """A transmission opportunity, the same for all nodes: a static slot, or a minislot at which a channel opens a slot.

    `number` counts the windows of the run from 0, and `cycle` is 0 to 63. `minislot` is 0 in the static segment and
    counts from 1 in the dynamic one. `a` and `b` are the slots that the channels open, if any.
    """

    number: int
    cycle: int
    minislot: int
    a: int | None
    b: int | None

    @property
    def is_static(self) -> bool:
        """Returns whether it is a static slot."""
        return self.minislot == 0

    @property
    def opens_cycle(self) -> bool:
        """Returns whether it is the first window of its cycle."""
        return self.is_static and self.a == 1

    def slot(self, channel: Channel) -> int | None:
        """Returns the slot, 1 to 2047, that the channel opens in it, or None."""
        return self.a if channel == "A" else self.b


@dataclass(frozen=True, slots=True)
class Sent:
    """A transmission of the record: its node, channel and bytes, whether it is a babble, and its fate."""

    node: int
    channel: Channel
    babble: bool
    fate: Literal["passed", "blocked", "muted"]
    data: bytes


@dataclass(frozen=True, slots=True)
class Record:
    """A sealed window: its transmissions, and for each channel the bit that a fault flips, counted from 0."""

    window: Window
    sent: tuple[Sent, ...]
    corrupt: dict[Channel, int]


@dataclass(frozen=True, slots=True)
class TransmitBuffer:
    """The number of commits of a transmit buffer, and their fates: `committed` is the sum of the others."""

    committed: int
    sent: int
    overwritten: int
    pending: int
    withdrawn: int


@dataclass(frozen=True, slots=True)
class ReceiveBuffer:
    """The content of a receive buffer: the entry of the journal that stored it, its channel and its payload, or None.
    """

    entry: int | None
    channel: Channel | None
    payload: bytes | None


@dataclass(frozen=True, slots=True)
class Queue:
    """A receive FIFO: the number of frames that wait in it, and of those that it lost."""

    waiting: int
    lost: int


@dataclass(frozen=True, slots=True)
class Counters:
    """The number of valid frames that a node received on a channel, and of each kind of error."""

    valid: int
    syntax: int
    content: int
    boundary: int
    conflict: int


@dataclass(frozen=True, slots=True)
class Moment:
    """A time of a run: the cycle of the run and the macrotick in it, both from 0, and the number of sealed windows."""

    cycle: int
    macrotick: int
    windows: int


@dataclass(frozen=True, slots=True)
class Report:
    """The buffers of a node by number, its receive FIFO if it has one, and its counters on A and B.

    `text` is the report as `fr_bench audit` prints it.
    """

    buffers: tuple[TransmitBuffer | ReceiveBuffer, ...]
    queue: Queue | None
    a: Counters
    b: Counters
    text: str


def number_or_none(word: str) -> int | None:
    """Returns the number that a word spells, or None for `-`."""
    return None if word == "-" else int(word)


def channel_of(word: str) -> Channel:
    """Returns the channel of a word that is `A` or `B`."""
    return cast(Channel, word)


def window_of(words: list[str]) -> Window:
    """Returns the window of the words after `open`, `sealed` or `window`."""
    number, cycle, minislot, slot_a, slot_b = words
    return Window(int(number), int(cycle), int(minislot), number_or_none(slot_a), number_or_none(slot_b))


def bytes_of(word: str) -> bytes:
    """Returns the bytes of a word `x..`."""
    return bytes.fromhex(word[1:])


def frame_of(words: list[str], channel: Channel | None, layouts: "Layouts") -> Frame | None:
    """Returns the frame of the words after `frame`, received on this channel, or None for `-`."""
    return None if words == ["-"] else known_frame(words, channel, layouts)


def known_frame(words: list[str], channel: Channel | None, layouts: "Layouts") -> Frame:
    """Returns the frame of four words, received on this channel."""
    cycle, slot, flags, payload = words
    preamble, null, sync, startup = (mark != "-" for mark in flags)
    return Frame(bytes_of(payload), int(slot), int(cycle), preamble, null, sync, startup, channel, layouts)


def received_of(words: list[str], layouts: "Layouts") -> Received | None:
    """Returns the frame of the words after `frame` in the reply to `receive` or `next`, or None for `-`."""
    if words == ["-"]:
        return None
    *frame_words, channel_word, cycle, age = words
    channel = channel_of(channel_word)
    return Received(known_frame(frame_words, channel, layouts), channel, int(cycle), age == "new")


def origin_channel(reply: str) -> Channel | None:
    """Returns the channel of the reply `origin ENTRY:CHANNEL`, or None for `origin -`."""
    _, _, channel = reply.partition(":")
    return channel_of(channel) if channel else None


def record_of(lines: list[str]) -> Record:
    """Returns the record of the lines of `record W`, the first of which is its window."""
    sent: list[Sent] = []
    corrupt: dict[Channel, int] = {}
    window = window_of(lines[0].split(" ")[1:])
    for line in lines[1:]:
        kind, *words = line.split(" ")
        if kind == "sent":
            node, channel, what, fate, data = words
            known_fate = cast(Literal["passed", "blocked", "muted"], fate)
            sent.append(Sent(int(node), channel_of(channel), what == "babble", known_fate, bytes_of(data)))
        else:
            corrupt[channel_of(words[0])] = int(words[1])
    return Record(window, tuple(sent), corrupt)


def receive_buffer_of(words: list[str]) -> ReceiveBuffer:
    """Returns the content of a receive buffer from the words after its number."""
    if words[0] == "-":
        return ReceiveBuffer(None, None, None)
    entry, channel = words[0].split(":")
    return ReceiveBuffer(int(entry), channel_of(channel), bytes_of(words[1]))


def report_of(text: str) -> Report:
    """Returns the report of a text as `fr_bench audit` prints it."""
    buffers: list[TransmitBuffer | ReceiveBuffer] = []
    queue: Queue | None = None
    channels: list[Counters] = []
    for line in text.splitlines():
        kind, *words = line.split(" ")
        if kind == "tx":
            buffers.append(TransmitBuffer(*map(int, words[1:])))
        elif kind == "rx":
            buffers.append(receive_buffer_of(words[1:]))
        elif kind == "queue":
            queue = Queue(*map(int, words))
        else:
            channels.append(Counters(*map(int, words)))
    a, b = channels
    return Report(tuple(buffers), queue, a, b, text)
