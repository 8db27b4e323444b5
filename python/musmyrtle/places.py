"""Places in a file: the lines and columns of the keys and items of a TOML text."""
from bisect import bisect_right
from dataclasses import dataclass, field
from functools import cached_property
from itertools import accumulate

from musmyrtle.toml_tables import Array, Table

Path = tuple[str | int, ...]
"""The path to a value from the top of a document: keys of tables and numbers of items."""


@dataclass(frozen=True)
class Place:
    """A line of a file, counted from 1, and the column of a thing in it, if that is known."""

    file: str
    line: int
    column: int | None
    text: str = field(default="", repr=False)
    """A text with the line, from `begin` to `end` of it. A line may be as long as its file, so no place copies it."""
    begin: int = 0
    end: int | None = None

    @property
    def source(self) -> str:
        """Returns the text of the line."""
        return self.text[self.begin:self.end].rstrip("\r")

    def __str__(self) -> str:
        column = "" if self.column is None else f":{self.column}"
        return f"{self.file}:{self.line}{column}"


class Places:
    """The places of a document in its text. They are computed only when they are asked for."""

    def __init__(self, file: str, text: str, root: Table):
        self.file, self.text, self.root = file, text, root

    @cached_property
    def starts(self) -> list[int]:
        """Returns the offset at which each line begins, and one after the end of the last."""
        return list(accumulate((len(line) + 1 for line in self.text.split("\n")), initial=0))

    def at(self, offset: int) -> Place:
        """Returns the place of an offset in the text."""
        line = bisect_right(self.starts, offset)
        begin = self.starts[line - 1]
        return Place(self.file, line, offset - begin + 1, self.text, begin, self.starts[line] - 1)

    def of(self, path: Path) -> Place | None:
        """Returns the place of the key or the item at the end of a path, if there is one."""
        held: object = self.root
        begin = None
        for step in path:
            if isinstance(held, Table) and isinstance(step, str) and step in held:
                begin, held = held.begins[step], held[step]
            elif isinstance(held, Array) and isinstance(step, int) and step < len(held):
                begin, held = held.begins[step], held[step]
            else:
                return None
        return None if begin is None else self.at(begin)
