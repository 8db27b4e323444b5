"""The log of commits that `fr_view commits --endless` prints: a line for each thing that happens to a commit."""
from collections.abc import Iterable
from dataclasses import dataclass, field

from musmyrtle.show.facts import Commit, Sent


@dataclass(slots=True)
class Made:
    """A commit of a log, and what happened to it up to some line. It is pending as long as there is nothing."""

    node: int
    buffer: int
    task: int
    cycle: int
    entry: int
    data: str
    fate: str = "pending"
    ended: int | None = None
    ending: int | None = None
    sent: list[Sent] = field(default_factory=list)

    def commit(self) -> Commit:
        """Returns the commit with its fate."""
        return Commit(self.node, self.buffer, self.task, self.cycle, self.entry, self.data, self.fate, self.ended,
                      self.ending, tuple(self.sent))


def made_by(words: list[str]) -> Made:
    """Returns the commit of a line `commit NODE BUFFER TASK CYCLE ENTRY HEX`."""
    node, buffer, task, cycle, entry = map(int, words[1:6])
    return Made(node, buffer, task, cycle, entry, words[6])


def happens(it: Made, words: list[str]) -> None:
    """Notes the line of something that happened to the commit: `KIND NODE ENTRY`, and what belongs to it."""
    it.fate = words[0]
    if it.fate == "sent":
        cycle, slot, channel, end, receivers = words[3:8]
        it.sent.append(Sent(int(cycle), int(slot), channel, end, receivers))
    elif it.fate in ("overwritten", "withdrawn"):
        it.ended, it.ending = int(words[3]), int(words[4])


def commits_in(lines: Iterable[str]) -> list[Commit]:
    """Returns the commits of a log, by node and entry."""
    found: dict[tuple[int, int], Made] = {}
    for line in lines:
        words = line.split(" ")
        if words[0] == "commit":
            it = made_by(words)
            found[it.node, it.entry] = it
        else:
            happens(found[int(words[1]), int(words[2])], words)
    return [found[key].commit() for key in sorted(found)]
