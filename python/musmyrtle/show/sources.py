"""The commits from which the frames came that tasks read."""
from collections.abc import Iterable

from musmyrtle.show.causes import Place
from musmyrtle.show.facts import Call, Commit, Sent

READING = ("read", "pop")
Source = tuple[Commit, Sent]


class Sources:
    """The commits of the frames that tasks read, by the cycle of the run, the slot and the channel of each frame."""

    def __init__(self, commits: Iterable[Commit]) -> None:
        self.found: dict[Place, Source] = {(it.cycle, it.slot, it.channel): (commit, it) for commit in commits
                                           for it in commit.sent if it.receivers != "-"}

    def of(self, call: Call) -> Source | None:
        """Returns the commit and the transmission of the frame of a read or pop, or None without a commit."""
        if call.came is None or call.slot is None or call.channel is None:
            return None
        return self.found.get((call.came, call.slot, call.channel))
