"""The lines of `fr_view received`: what each node received, and the error that it counted for that."""
from collections.abc import Iterable
from dataclasses import dataclass

from musmyrtle.show.windows import CHANNELS, Windows

ERRORS = ("syntax", "content", "boundary", "conflict")
"""The error counters in the order of a report. The lines have the same words."""
WORDS = 3
"""The words of an observation: what was observed, what was counted, and the receivers."""
Place = tuple[int, int]
"""A cycle of the run and a slot."""


@dataclass(frozen=True, slots=True)
class Observation:
    """An observation on a channel: the word for it, the bit of the slot status that was counted, and the receivers.

    Nothing counted is `-`, as are no receivers. Otherwise they are spelled `b0,queue`.
    """

    seen: str
    counted: str
    receivers: str

    @property
    def is_error(self) -> bool:
        """Returns whether the node counted an error."""
        return self.counted in ERRORS


def observations_in(text: str) -> list[Observation]:
    """Returns the observations on both channels, from the words of a line after the node."""
    words = text.split(" ")
    return [Observation(*words[at:at + WORDS]) for at in range(0, len(words), WORDS)]


def errors_in(lines: Iterable[str], windows: Windows) -> dict[tuple[int, str, str], list[Place]]:
    """Returns where nodes counted errors, by node, channel and counter."""
    found: dict[tuple[int, str, str], list[Place]] = {}
    known: dict[str, list[tuple[str, str]]] = {}
    for line in lines:
        window, cycle, node, rest = line.split(" ", 3)
        if rest not in known:
            known[rest] = [(channel, it.counted) for channel, it in zip(CHANNELS, observations_in(rest)) if it.is_error]
        for channel, error in known[rest]:
            place = int(cycle), windows.slots[channel][int(window)]
            found.setdefault((int(node), channel, error), []).append(place)
    return found
