"""The output of `fr_view latency`: what a schedule guarantees each transmit buffer, and the load of each channel."""
from collections.abc import Iterable, Sequence
from dataclasses import dataclass

from musmyrtle.cluster import Cycles

BLOCKED, POSSIBLE, GUARANTEED, IDLE = "blocked", "possible", "guaranteed", "idle"
STATES = (BLOCKED, POSSIBLE, GUARANTEED, IDLE)


@dataclass(frozen=True)
class Latency:
    """The line of a transmit buffer. Minislots are none in a static slot, or where its slot never opens."""

    node: int
    buffer: int
    slot: int
    channels: str
    cycles: Cycles
    first: int | None
    last: int | None
    latest: int | None
    state: str
    guaranteed: int
    """The cycles of the 64 in which a pending commit is always sent."""
    worst: int | None
    """The macroticks from a commit to the end of its frame in the worst case."""

    @property
    def is_starving(self) -> bool:
        """Returns whether the schedule can keep a commit from being sent."""
        return self.state in (BLOCKED, POSSIBLE)


@dataclass(frozen=True)
class Load:
    """The line of a channel: static slots with an owner and all of them, over 64 cycles, and minislots."""

    channel: str
    owned: int
    static: int
    least: int
    most: int
    slack: int


@dataclass(frozen=True)
class Frame:
    """A frame that is sent before a slot: its sender, its slot, and the minislot at which it begins."""

    node: int
    buffer: int
    slot: int
    minislot: int


@dataclass(frozen=True)
class Way:
    """The latest start of a dynamic slot, with the frames that are sent before it then."""

    cycle: int
    minislot: int
    frames: tuple[Frame, ...]


def number(word: str) -> int | None:
    """Returns the number of a word, or None for `-`."""
    return None if word == "-" else int(word)


def latency_of(words: list[str]) -> Latency:
    """Returns the latency of the words of a line. Raises `ValueError` for other words."""
    node, buffer, slot, channels, base, repetition, first, last, latest, state, cycles, worst = words
    if state not in STATES:
        raise ValueError(f"{state!r} is no state of a transmit buffer")
    return Latency(int(node), int(buffer), int(slot), channels, Cycles(int(base), int(repetition)), number(first),
                   number(last), number(latest), state, int(cycles), number(worst))


def load_of(words: list[str]) -> Load:
    """Returns the load of the words of a line. Raises `ValueError` for other words."""
    _, channel, owned, static, least, most, slack = words
    return Load(channel, int(owned), int(static), int(least), int(most), int(slack))


def read_latencies(lines: Iterable[str]) -> tuple[list[Latency], list[Load]]:
    """Returns the transmit buffers and the channels of the output. Raises `ValueError` for another text."""
    found: list[Latency] = []
    loads: list[Load] = []
    for line in lines:
        words = line.split(" ")
        if words[0] == "channel":
            loads.append(load_of(words))
        else:
            found.append(latency_of(words))
    if [it.channel for it in loads] != ["A", "B"]:
        raise ValueError("expected a line for each channel")
    return found, loads


def words_for_way(slot: int, channel: str) -> list[str]:
    """Returns the words by which `fr_view` is asked for the way to the latest start of a slot."""
    return ["latency", "--slot", str(slot), "--channel", channel]


def read_way(lines: Sequence[str]) -> Way | None:
    """Returns the way of the output, or None for a static slot. Raises `ValueError` for another text."""
    if not lines:
        return None
    cycle, minislot = map(int, lines[0].split(" "))
    frames = []
    for line in lines[1:]:
        node, buffer, slot, begin = map(int, line.split(" "))
        frames.append(Frame(node, buffer, slot, begin))
    return Way(cycle, minislot, tuple(frames))
