"""The findings in a file: a headline, the place, the reason, and related places."""
from collections.abc import Iterable
from dataclasses import dataclass
from itertools import islice
from textwrap import wrap

from musmyrtle.other_words import meant_by, plain
from musmyrtle.places import Place
from musmyrtle.visible import cut, visible

WIDTH = 100
MOST_REASONS = 20
"""The number of refusals that are printed with their reasons. For the others slow searches are left out."""
MOST_NOTES = 4
MOST_ALIKE = 64
"""The number of words among which the nearest one is searched."""
LONGEST_MEANT = 42
"""The length up to which a word can resemble the keys and words of the formats, which have 18 letters at most."""


@dataclass(frozen=True)
class Note:
    """A related place of a finding, and its content."""

    text: str
    place: Place | None = None


@dataclass(frozen=True)
class Finding:
    """One mistake, or one thing that can't work."""

    headline: str
    reason: str
    place: Place | None = None
    notes: tuple[Note, ...] = ()
    name: str = ""
    """The name by which a warning or a note is silenced."""


def joined(parts: list[str], last: str = "and") -> str:
    """Returns `a, b and c`."""
    if len(parts) < 2:
        return "".join(parts)
    return f"{', '.join(parts[:-1])} {last} {parts[-1]}"


def counted(number: int, name: str) -> str:
    """Returns `1 cycle`, `2 cycles`."""
    return f"{number} {name}" if number == 1 else f"{number or 'no'} {name}s"


def shown(value: object) -> str:
    """Returns a value of a TOML document in words that fit into a line."""
    if isinstance(value, bool):
        return "true" if value else "false"
    if isinstance(value, str):
        return f'"{cut(value)}"'
    if isinstance(value, dict):
        return "a table"
    if isinstance(value, list):
        return f"an array of {len(value)}"
    return cut(str(value))


def nearest(word: str, known: tuple[str, ...] | list[str]) -> str | None:
    """Returns the known word that another tool spells so, or the nearest one, if it may be meant."""
    if len(word) > LONGEST_MEANT:
        return None
    meant = meant_by(word, known)
    if meant:
        return meant[0]
    # Few files have such words, and each call of a command would wait for the import.
    from difflib import get_close_matches
    plain_words = {plain(it): it for it in known}
    found = get_close_matches(plain(word), plain_words, n=1, cutoff=0.6)
    return plain_words[found[0]] if found else None


def alike(words: Iterable[str], known: tuple[str, ...], meant: str) -> list[str]:
    """Returns the first unknown words whose nearest known word is the one meant."""
    unknown = islice((it for it in words if it not in known), MOST_ALIKE)
    return list(islice((it for it in unknown if nearest(it, known) == meant), MOST_NOTES))


def printable(place: Place, begin: int, end: int) -> str:
    """Returns a part of the line of a place. A tab is one space wide here, so that the mark below is in its column."""
    return visible(place.source[begin:end].replace("\t", " "))


def excerpt(place: Place) -> list[str]:
    """Returns the line of a place with a mark below it, and only the part round the mark if the line is long."""
    begin = place.column - 1 if place.column else 0
    first = max(0, begin + 1 - WIDTH // 2) if len(place.source) > WIDTH else 0
    number = f"{place.line:>7} | "
    before, after = printable(place, first, begin), printable(place, begin, first + WIDTH)
    if len(before) > WIDTH // 2:
        # Escapes are wider than the characters that they replace.
        before = before[-(WIDTH // 2):]
    lines = [f"{number}{before}{after[:WIDTH - len(before)]}".rstrip()]
    if place.column is not None:
        lines.append(" " * (len(number) + len(before)) + "^")
    return lines


def block(kind: str, finding: Finding, is_bold: bool = False) -> str:
    """Returns the text of a finding for people."""
    where = f"{finding.place}: " if finding.place else ""
    name = f" [{finding.name}]" if finding.name else ""
    head = visible(f"{where}{kind}: {finding.headline}{name}")
    lines = [f"\x1b[1m{head}\x1b[0m" if is_bold else head]
    lines += excerpt(finding.place) if finding.place else []
    reason = wrap(visible(finding.reason), WIDTH, break_long_words=False, break_on_hyphens=False)
    lines += [f"    {line}" for line in reason]
    for note in finding.notes:
        lines.append(visible(f"  {note.place}: {note.text}" if note.place else f"  {note.text}"))
        lines += excerpt(note.place) if note.place else []
    return "\n".join(lines) + "\n"
