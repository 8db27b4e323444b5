"""The senders of each slot and their receivers, as `fr_view links` prints them."""
from collections.abc import Iterable
from dataclasses import dataclass

from musmyrtle.cluster import Cycles


@dataclass(frozen=True, slots=True)
class Link:
    """A sender of a slot on a channel, in some cycles. Without a buffer it sends null frames there.

    `begin` and `end` are macroticks of the cycle, and None for a dynamic slot. `receivers` are spelled `0:b1,2:queue`,
    or `-`.
    """

    node: int
    buffer: int | None
    segment: str
    slot: int
    channel: str
    cycles: Cycles
    words: int
    begin: int | None
    end: int | None
    receivers: str


def link_of(line: str) -> Link:
    """Returns the link of a line. Raises `ValueError` for another line."""
    node, buffer, segment, slot, channel, base, repetition, words, begin, end, receivers = line.split(" ")
    return Link(int(node), number(buffer), segment, int(slot), channel, Cycles(int(base), int(repetition)), int(words),
                number(begin), number(end), receivers)


def links_in(lines: Iterable[str]) -> list[Link]:
    """Returns the links of some lines. Raises `ValueError` for other lines."""
    return [link_of(line) for line in lines]


def number(word: str) -> int | None:
    """Returns the number of a word, or None for `-`."""
    return None if word == "-" else int(word)
