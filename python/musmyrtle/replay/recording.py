"""The frames of a recording with their bytes: places and findings are those of `fr_monitor`."""
from collections.abc import Iterator
from dataclasses import dataclass, field
from typing import IO

from musmyrtle.replay.captured import FRAME_CRC, Seen, records_of
from musmyrtle.replay.places import Heard
from musmyrtle.show.network import Network
from musmyrtle.show.recorded import Recorded
from musmyrtle.show.recordings import BACK

WRONG_CRC = "FrameCrc"


@dataclass
class Listened:
    """The lines of `fr_monitor --frames`, which are added one by one."""

    network: Network
    counts: dict[str, int] = field(default_factory=dict)

    def __post_init__(self) -> None:
        self.found = Recorded(self.network)

    def add(self, line: str) -> None:
        """Adds a line."""
        self.found.add(line)
        words = line.split(" ")
        if words[0] == "records":
            self.counts = {key: int(value) for key, value in zip(words[::2], words[1::2])}

    def heard(self, source: IO[bytes]) -> Iterator[Heard]:
        """Yields the frames in the order of the records, with the bytes that SOURCE has."""
        findings: dict[int, set[str]] = {}
        for note in self.found.notes:
            if note.frame is not None and note.name != BACK:
                findings.setdefault(note.frame.record, set()).add(note.name)
        for number, record in records_of(source):
            frame = self.found.frames.get(number)
            if frame is None:
                continue
            seen, names = Seen.of(record), frozenset(findings.get(number, ()))
            if WRONG_CRC in names:
                seen = Seen(FRAME_CRC, seen.data)
            yield Heard(number, frame.seconds, frame.channel, self.found.on_axis(frame.channel, frame.cycle),
                        frame.slot, names, seen, frame.data is not None and not seen.error, frame.begin)

    def first_count(self) -> int | None:
        """Returns the cycle count of the first cycle, or None if no frame has one."""
        for it in self.found.frames.values():
            cycle = self.found.on_axis(it.channel, it.cycle)
            if it.data is not None and it.count is not None and cycle is not None and not it.reasons:
                return (it.count - cycle) % 64
        return None
