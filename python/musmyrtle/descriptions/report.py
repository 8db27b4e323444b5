"""The refusals and the notes of an import: each thing once, with the path of its element."""
from collections.abc import Iterator
from contextlib import contextmanager
from dataclasses import dataclass, field

from musmyrtle.findings import joined

MOST_NAMED = 50
"""The things that one note names. Of more it counts the rest."""


class Refused(Exception):
    """A reason for which there is no cluster file: its name, the path of the element, and a sentence."""

    def __init__(self, name: str, path: str, reason: str) -> None:
        super().__init__(f"{name} {path}: {reason}" if path else f"{name}: {reason}")


@dataclass
class Report:
    """The refusals and the notes of an import, in the order in which they were found."""

    refusals: dict[str, None] = field(default_factory=dict)
    notes: dict[str, dict[str, None]] = field(default_factory=dict)
    """The things that each note is about, by its text."""

    def refuse(self, name: str, path: str, reason: str) -> None:
        """Adds a refusal."""
        self.refusals[str(Refused(name, path, reason))] = None

    @contextmanager
    def going_on(self) -> Iterator[None]:
        """Keeps a refusal, so that those of other elements are found too."""
        try:
            yield
        except Refused as refused:
            self.refusals[str(refused)] = None

    def note(self, text: str, about: str = "") -> None:
        """Adds a note, or one more thing that a note is about."""
        found = self.notes.setdefault(text, {})
        if about:
            found[about] = None

    def lines(self) -> list[str]:
        """Returns the notes, each in one line."""
        return [f"{text}: {few(list(about))}" if about else text for text, about in self.notes.items()]


def few(names: list[str]) -> str:
    """Returns names as `a, b and c`, of many only the first ones."""
    more = [f"{len(names) - MOST_NAMED} more"] if len(names) > MOST_NAMED else []
    return joined([*names[:MOST_NAMED], *more])
