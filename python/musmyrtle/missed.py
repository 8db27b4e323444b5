"""The expectations of a scenario that a run missed, as the programs print them on standard error."""
import re
from collections.abc import Iterable
from dataclasses import dataclass

MISSED = 3
"""The status of a run that was done and printed, and missed expectations of its scenario."""
UNJUDGED = 5
"""The status of a run that was done and printed without history, and judged none of its scenario's expectations."""
NOT_JUDGED = " is not judged in a run without history"
"""The end of the message on such an expectation."""
NOTHING, NO_BUFFER = "nothing", "no receive buffer"
"""The words for an empty receive buffer, and for one that the cluster doesn't have."""
NUMBER = "([0-9]{1,9})"
FORM = re.compile(rf"line {NUMBER}: node {NUMBER} buffer {NUMBER} at the end of cycle {NUMBER}: "
                  rf"expected (x[0-9a-f]*|{NOTHING}), found (x[0-9a-f]*|{NOTHING}|{NO_BUFFER})"
                  rf"(?: \(and in {NUMBER} other cycles?\))?")


@dataclass(frozen=True)
class Miss:
    """A line of a scenario whose expectation the run missed: the first cycle, and the number of the others."""

    line: int
    node: int
    buffer: int
    cycle: int
    expected: str
    """The payload as `x0102`, or `nothing`."""
    found: str
    others: int

    def __str__(self) -> str:
        return self.text(f"node {self.node}", f"buffer {self.buffer}")

    def text(self, node: str, buffer: str) -> str:
        """Returns the report of the programs, with these words for the node and the buffer."""
        cycles = "cycle" if self.others == 1 else "cycles"
        more = f" (and in {self.others} other {cycles})" if self.others else ""
        return (f"line {self.line}: {node} {buffer} at the end of cycle {self.cycle}: expected {self.expected}, "
                f"found {self.found}{more}")


def miss_of(text: str) -> Miss | None:
    """Returns the missed expectation that a line of standard error reports, or None for another line."""
    found = FORM.fullmatch(text)
    if found is None:
        return None
    line, node, buffer, cycle = map(int, found.groups()[:4])
    return Miss(line, node, buffer, cycle, found[5], found[6], int(found[7] or 0))


def misses_of(status: int, lines: Iterable[str]) -> tuple[Miss, ...]:
    """Returns the missed expectations of a program that ended so. Only with status 3 has it any."""
    return tuple(it for it in map(miss_of, lines) if it) if status == MISSED else ()


def is_unjudged(status: int, lines: Iterable[str]) -> bool:
    """Returns whether a program that ended so was done, and judged none of the expectations."""
    return status == UNJUDGED and any(it.endswith(NOT_JUDGED) for it in lines)
