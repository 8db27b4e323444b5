"""Lines of the programs that are alike: more than ten are one line, with their number and the first three."""
import re
from collections.abc import Callable, Iterable, Iterator, Sequence

from musmyrtle.findings import counted
from musmyrtle.missed import Miss, miss_of

MOST_ALIKE, SHOWN = 10, 3
"""The lines that are alike and are all printed, and those that are printed of more."""
OF_A_LINE = re.compile(r"line ([0-9]{1,9}) ([^:]+)")
"""The form of a message about a line of the scenario."""
PLURALS = {"names no cycle of the run": "name no cycle of the run", "struck nothing": "struck nothing",
           "is not judged in a run without history": "are not judged in a run without history"}
"""The known messages, as they are said of several lines."""
MISSES = "expectations were missed"


def misses_text(misses: Sequence[Miss], spelled: Callable[[Miss], str] = str) -> str:
    """Returns the number of missed expectations and these, of more than ten the first three."""
    shown = misses if len(misses) <= MOST_ALIKE else misses[:SHOWN]
    more = f"; and {len(misses) - SHOWN} more" if len(misses) > MOST_ALIKE else ""
    return f"{counted(len(misses), 'expectation')}: {'; '.join(map(spelled, shown))}{more}"


def is_of_many(line: str) -> bool:
    """Returns whether a line is one of those that may be many."""
    return kind_of(line) is not None


def kind_of(line: str) -> str | None:
    """Returns what the lines that are like this one have in common, or None for another line."""
    if miss_of(line):
        return MISSES
    found = OF_A_LINE.fullmatch(line)
    return found[2] if found else None


def condensed(lines: Iterable[str], spelled: Callable[[Miss], str] = str) -> Iterator[str]:
    """Yields lines, of many that are alike only one, in the place of the first of them.

    SPELLED returns a missed expectation with the names of node and buffer.
    """
    groups: dict[str, list[str]] = {}
    for line in lines:
        kind = kind_of(line)
        groups.setdefault(line if kind is None else kind, []).append(line)
    for kind, its in groups.items():
        texts = [spelled(miss) if (miss := miss_of(it)) else it for it in its]
        if len(its) <= MOST_ALIKE or kind_of(its[0]) is None:
            yield from texts
        elif kind == MISSES:
            yield f"{len(its)} {kind}: {'; '.join(texts[:SHOWN])}; and {len(its) - SHOWN} more"
        else:
            numbers = ", ".join(it.split(" ", 2)[1] for it in its[:SHOWN])
            yield f"{len(its)} lines {PLURALS.get(kind, f'with `{kind}`')}: lines {numbers} and {len(its) - SHOWN} more"
