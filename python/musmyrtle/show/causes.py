"""The facts for which commits weren't sent or weren't received, as `fr_view reasons` prints them."""
from collections.abc import Collection, Iterable
from dataclasses import dataclass

from musmyrtle.show.windows import number_of

LATE, CLOSED, EFFECT, STOPPED = "late", "closed", "effect", "stopped"
Place = tuple[int, int, str]
"""A cycle of the run, a slot and a channel."""


@dataclass(frozen=True, slots=True)
class Turn:
    """A cycle of the run in which a transmit buffer is due, but its slot can't be used.

    `minislot` is the one at which the slot opened, which is after `latest`, or None if the slot didn't open.
    """

    cycle: int
    slot: int
    latest: int
    minislot: int | None


@dataclass(frozen=True, slots=True)
class Effect:
    """A line of the scenario with an effect on a transmission on the bus: the end and the node of the transmission."""

    end: str
    node: int
    line: int


class Causes:
    """The lines of `fr_view reasons`. Turns are kept of the WANTED buffers, each a node and a number, or of all."""

    def __init__(self, lines: Iterable[str] = (), wanted: set[tuple[int, int]] | None = None) -> None:
        self.wanted = wanted
        self.turns: dict[tuple[int, int], list[Turn]] = {}
        """The turns of each buffer that couldn't be used, by node and number, in the order of the cycles."""
        self.effects: dict[Place, list[Effect]] = {}
        self.stopped: dict[Place, list[Effect]] = {}
        """The babbles that a bus guardian stopped."""
        self.lines: set[int] = set()
        """The lines of the scenario that had an effect, or whose babble a bus guardian stopped."""
        for line in lines:
            self.add(line.split(" "))

    def add(self, words: list[str]) -> None:
        """Adds a line by its words."""
        if words[0] in (LATE, CLOSED):
            cycle, node, buffer, slot = map(int, words[1:5])
            if self.wanted is None or (node, buffer) in self.wanted:
                minislot = int(words[7]) if words[0] == LATE else None
                self.turns.setdefault((node, buffer), []).append(Turn(cycle, slot, int(words[6]), minislot))
        elif words[0] in (EFFECT, STOPPED):
            self.lines.add(int(words[6]))
            found = self.stopped if words[0] == STOPPED else self.effects
            place = int(words[1]), number_of(words[2]), words[3]
            found.setdefault(place, []).append(Effect(words[4], int(words[5]), int(words[6])))

    def of(self, place: Place) -> list[Effect]:
        """Returns the effects of faults in a slot."""
        return self.effects.get(place, [])

    def has(self, place: Place, sent: Collection[tuple[str | None, int]], line: int) -> bool:
        """Returns whether a line of the scenario had an effect on one of the transmissions in a slot, or was stopped.

        SENT has the end and the node of each.
        """
        its = *self.effects.get(place, ()), *self.stopped.get(place, ())
        return any(it.line == line and (it.end, it.node) in sent for it in its)
