"""A network: nodes, and the messages that a schedule has to carry in time. docs/DESIGN.md has the meaning of each key.
"""
from collections.abc import Mapping, Sequence
from dataclasses import dataclass, field
from typing import Any

from musmyrtle.places import Path
from musmyrtle.texts import Text

EITHER = "either"
CHOICES = ("A", "B", "AB", EITHER)
STATIC, DYNAMIC = "static", "dynamic"
REPETITIONS = (1, 2, 4, 8, 16, 32, 64)


@dataclass(frozen=True)
class NodeWish:
    """A node of the network file. `sync` and `startup` are None where the file leaves the choice."""

    name: str
    tasks: int = 1
    is_sync: bool = False
    is_startup: bool = False


@dataclass(frozen=True)
class Message:
    """A message, or a signal of `bits` bits that shares its frame with others. Times are in macroticks."""

    name: str
    sender: int
    receivers: tuple[int, ...]
    bytes: int
    """The bytes of its frame; of a signal 0."""
    period: int
    deadline: int | None
    """The greatest time from a commit to the end of the frame, or None for a period and the frame's own slot."""
    is_sporadic: bool = False
    is_static: bool = True
    channels: str = EITHER
    slot: int | None = None
    base: int | None = None
    repetition: int | None = None
    kind: str = "state"
    bits: int = 0
    signals: tuple[Mapping[str, Any], ...] = ()
    """The tables of its signals, with the keys of a cluster file."""
    path: Path = ()

    @property
    def words(self) -> int:
        """Returns the two-byte words of its frame."""
        return (self.bytes + 1) // 2


@dataclass
class Network:
    """A network file that has been read."""

    text: Text
    guard: str = "AB"
    bit_rate: int | float = 10_000_000
    macrotick_us: int | float = 1
    params: dict[str, Sequence[int]] = field(default_factory=dict)
    """The numbers to choose from, by the keys of a cluster file. A key that the file leaves out isn't there."""
    nodes: list[NodeWish] = field(default_factory=list)
    messages: list[Message] = field(default_factory=list)

    @property
    def bits_of_macrotick(self) -> float:
        """Returns the bits that a macrotick has at the bit rate."""
        return self.bit_rate * self.macrotick_us / 1_000_000
