"""The answer of a run, and what counts as no answer."""
import re
import signal
from dataclasses import dataclass

from musmyrtle.breaking import SIGNALLED
from musmyrtle.missed import MISSED, miss_of
from musmyrtle.program import OF_THE_MACHINE

REFUSED = 1
NO_REFUSALS = (*OF_THE_MACHINE, "Truncated")
"""Refusals that report a fault of the machine. The scenario of a run is whole, so none of them is about the run."""
REFUSAL = re.compile(r"refused ([A-Z][A-Za-z]*)( .*)?")
UNANSWERED = ("killed", "unreadable")
"""The effects of a run without an answer. Such a run is neither harmless nor harmful, and has to be repeated."""


@dataclass(frozen=True)
class Answer:
    """The status, the output and the standard error of a run. A status below 0 is the signal that killed it."""

    status: int
    output: str
    told: str

    @property
    def failure(self) -> tuple[str, str] | None:
        """Returns the effect and the reason, if there is no outcome.

        `refused` is an answer, `killed` and `unreadable` are none. With status 0 the output still has to be read, and
        also where the run missed expectations of the scenario, which no campaign compares.
        """
        last = self.told.strip().split("\n")[-1]
        if self.status == 0 or self.status == MISSED and miss_of(last):
            return None
        killer = signal_of(self.status)
        if killer is not None:
            return "killed", signal_name(killer)
        found = REFUSAL.fullmatch(last)
        if self.status == REFUSED and found and found[1] not in NO_REFUSALS:
            return "refused", last.removeprefix("refused ")
        return "unreadable", last if self.status == REFUSED and found else ": ".join(
            filter(None, (f"status {self.status}", last)))


def signal_of(status: int) -> int | None:
    """Returns the signal that ended a program.

    Python gives a status below 0 for it, and a shell one above 128.
    """
    number = -status if status < 0 else status - SIGNALLED
    return number if 0 < number < signal.NSIG else None


def signal_name(number: int) -> str:
    """Returns a signal as `signal 9 (SIGKILL)`."""
    try:
        return f"signal {number} ({signal.Signals(number).name})"
    except ValueError:
        return f"signal {number}"
