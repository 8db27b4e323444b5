"""Faults that a test brings into windows of a world."""
from dataclasses import dataclass

from musmyrtle.names import LineNames, Names
from musmyrtle.scenario_lines import FAULTS, LOST
from musmyrtle.scenario_words import NEWEST, Words
from musmyrtle.world.bounds import babble_hex, bit_number, channel_name, node_number
from musmyrtle.world.replies import Channel


@dataclass(frozen=True, slots=True)
class Babble:
    """A node that sends these bytes, at most 262 of them, beside its controller's offers.

    NODE is 0 to 15 and CHANNEL `A` or `B`. Raises `ValueError` for others and for more bytes.
    """

    node: int
    channel: Channel
    data: bytes

    def __post_init__(self) -> None:
        node_number(self.node)
        channel_name(self.channel)
        babble_hex(self.data)

    def __str__(self) -> str:
        return f"babble {node_number(self.node)} {self.channel} {babble_hex(self.data)}"


@dataclass(frozen=True, slots=True)
class Mute:
    """A node whose controller's offer is lost on a channel.

    NODE is 0 to 15 and CHANNEL `A` or `B`. Raises `ValueError` for others.
    """

    node: int
    channel: Channel

    def __post_init__(self) -> None:
        node_number(self.node)
        channel_name(self.channel)

    def __str__(self) -> str:
        return f"mute {node_number(self.node)} {self.channel}"


@dataclass(frozen=True, slots=True)
class Corrupt:
    """A flipped bit, counted from 0, where exactly one transmission passes on the channel.

    CHANNEL is `A` or `B` and BIT 0 to 65535. Raises `ValueError` for others.
    """

    channel: Channel
    bit: int

    def __post_init__(self) -> None:
        channel_name(self.channel)
        bit_number(self.bit)

    def __str__(self) -> str:
        return f"corrupt {self.channel} {bit_number(self.bit)}"


Fault = Babble | Mute | Corrupt


def is_fault_line(text: str) -> bool:
    """Returns whether the text is meant as a fault line, which has more words than the fault of one window."""
    kind, *words = text.partition("#")[0].split() or [""]
    return kind in FAULTS and len(words) > 3 or kind == LOST


def fault_line(text: str, names: Names | None = None) -> str:
    """Returns the request for a fault line of a scenario, which may end with a line feed.

    It has numbers in the place of NAMES, and no comment. Raises `ValueError`, with the expected form, for any other
    text.
    """
    line = text.removesuffix("\n")
    words = Words.of(line, NEWEST, LineNames(names))
    found = words.wrong() if words.words else ("the line is empty", "Expected a fault line of a scenario.", 1)
    if found:
        headline, right, _ = found
        raise ValueError(f"no fault line: {headline}. {right}")
    if len(words.meant()) > 1:
        raise ValueError(f"no fault line: `{line[:60]}` has lists. A session takes a fault line for each of the "
                         f"{len(words.meant())} lines for which it stands")
    if not is_fault_line(line):
        kinds = "`babble`, `mute`, `corrupt` or `lost`"
        raise ValueError(f"no fault line: `{line[:60]}`. It begins with {kinds}")
    return " ".join(words.numbers)
