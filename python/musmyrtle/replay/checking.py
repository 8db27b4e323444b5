"""The comparison of a recording with the run of its replay, of which `fr_view bus` makes a capture."""
import struct
from collections.abc import Iterable, Iterator
from dataclasses import dataclass
from io import BytesIO

from musmyrtle.cluster import Parameters
from musmyrtle.replay.captured import CHANNEL_BIT, FILE_HEADER, RECORD_HEADER, Seen
from musmyrtle.replay.places import Cell, Heard, Windows

SECONDS_TO_MACROTICKS = 1_000_000
"""Captures of the bench have a macrotick as a microsecond."""


@dataclass(frozen=True)
class Difference:
    """A frame of the recording that the run doesn't give back, or a frame that it gives beside, at a place.

    `other` is the frame that the run has in the same static slot.
    """

    cycle: int
    channel: str
    slot: str
    heard: Heard | None
    other: Seen | None = None


def records_of_bus(data: bytes) -> Iterator[tuple[int, str, Seen]]:
    """Yields the macrotick, the channel and the frame of each record of a capture of the bench."""
    source = BytesIO(data)
    source.read(FILE_HEADER)
    while len(head := source.read(RECORD_HEADER)) == RECORD_HEADER:
        seconds, microseconds, length, _ = struct.unpack("<IIII", head)
        record = source.read(length)
        yield (seconds * SECONDS_TO_MACROTICKS + microseconds, "B" if record[0] & CHANNEL_BIT else "A",
               Seen.of(record))


class Given:
    """The frames that a run gives, by place: those of static slots, and the dynamic ones of a cycle in their order."""

    def __init__(self, its: Parameters, data: bytes) -> None:
        self.static: dict[tuple[int, str, int], Seen] = {}
        self.dynamic: dict[Cell, list[Seen]] = {}
        static_end = its.static_slots * its.static_mt
        for macrotick, channel, seen in records_of_bus(data):
            cycle, offset = divmod(macrotick, its.cycle_mt)
            if offset < static_end:
                self.static[cycle, channel, offset // its.static_mt + 1] = seen
            else:
                self.dynamic.setdefault((cycle, channel), []).append(seen)


def differences(given: Given, windows: Windows, its: Parameters, shift: int, cycles: range) -> Iterator[Difference]:
    """Yields all differences of the run and the recording, whose cycle 0 is the cycle SHIFT of the run."""
    static, dynamic = wanted(windows, its, shift, cycles)
    for key in sorted({*static, *given.static}):
        heard, seen = static.get(key), given.static.get(key)
        if seen != (heard and heard.seen):
            yield Difference(key[0], key[1], f"slot {key[2]}", heard, seen)
    for cell in sorted({*dynamic, *given.dynamic}):
        yield from unequal(cell, dynamic.get(cell, []), given.dynamic.get(cell, []))


def wanted(windows: Windows, its: Parameters, shift: int, cycles: range
           ) -> tuple[dict[tuple[int, str, int], Heard], dict[Cell, list[Heard]]]:
    """Returns the frames of a recording, as `Given` has those of a run."""
    static: dict[tuple[int, str, int], Heard] = {}
    dynamic: dict[Cell, list[Heard]] = {}
    for (cycle, channel), slots in windows.of_slot.items():
        for slot, heard in slots.items():
            if cycle not in cycles:
                continue
            if slot <= its.static_slots:
                static[cycle + shift, channel, slot] = heard
            else:
                dynamic.setdefault((cycle + shift, channel), []).append(heard)
    for (cycle, channel), later in windows.of_minislot.items():
        if cycle in cycles:
            dynamic.setdefault((cycle + shift, channel), []).extend(it for _, it in later)
    for its_frames in dynamic.values():
        its_frames.sort(key=lambda it: it.record)
    return static, dynamic


def unequal(cell: Cell, heard: list[Heard], seen: list[Seen]) -> Iterator[Difference]:
    """Yields the differences of the dynamic frames of a cycle and channel: of both orders, what follows their front."""
    front = 0
    while front < min(len(heard), len(seen)) and heard[front].seen == seen[front]:
        front += 1
    rest = seen[front:]
    for it in heard[front:]:
        if it.seen in rest:
            # Frames before it in the run are beside the recording.
            for other in rest[:rest.index(it.seen)]:
                yield Difference(*cell, dynamic_slot(other), None)
            rest = rest[rest.index(it.seen) + 1:]
        else:
            yield Difference(*cell, dynamic_slot(it.seen), it)
    for other in rest:
        yield Difference(*cell, dynamic_slot(other), None)


def dynamic_slot(seen: Seen) -> str:
    """Returns the words for the slot that the header of a dynamic frame names."""
    slot = int.from_bytes(seen.data[:2], "big") & 0x7FF
    return f"dynamic slot {slot}" if len(seen.data) >= 5 else "a dynamic slot"


def in_order(its: Iterable[Difference]) -> list[Difference]:
    """Returns differences by cycle."""
    return sorted(its, key=lambda it: (it.cycle, it.channel))
