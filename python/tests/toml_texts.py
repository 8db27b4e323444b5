"""Documents of TOML written in random spellings, and changed in one random value."""
import copy
import random
from collections.abc import Iterator
from typing import Any

from musmyrtle.toml_values import Moment, Spelled

Path = tuple[str | int, ...]


class Writer:
    """Writes a document in a random spelling: comments, spaces, order of keys, inline tables, forms of numbers."""

    def __init__(self, dice: random.Random) -> None:
        self.dice = dice

    def chance(self, share: float = 0.5) -> bool:
        return self.dice.random() < share

    def document(self, document: dict[str, Any]) -> str:
        """Returns the text of a document, whose tables come last."""
        keys = list(document)
        self.dice.shuffle(keys)
        plain = [key for key in keys if not self.has_header(document[key])]
        lines = [f"{self.comment()}{self.key(key)}{self.space()}={self.space()}{self.value(document[key])}"
                 f"{self.comment(False)}\n" for key in plain]
        for key in (it for it in keys if it not in plain):
            value = document[key]
            if isinstance(value, dict):
                lines.append(f"{self.comment()}[{self.key(key)}]{self.comment(False)}\n{self.table(value)}")
            else:
                lines += [f"{self.comment()}[[{self.key(key)}]]\n{self.table(it)}" for it in value]
        return "".join(lines)

    def has_header(self, value: object) -> bool:
        """Returns whether a value may be a table with a header, or tables with headers, and is one this time."""
        is_tables = isinstance(value, list) and bool(value) and all(isinstance(it, dict) for it in value)
        return (isinstance(value, dict) or is_tables) and self.chance(0.8)

    def table(self, table: dict[str, Any]) -> str:
        keys = list(table)
        self.dice.shuffle(keys)
        return "".join(f"{self.comment()}{self.key(key)} ={self.space()}{self.value(table[key])}{self.comment(False)}\n"
                       for key in keys)

    def comment(self, is_line: bool = True) -> str:
        if not self.chance(0.15):
            return ""
        return self.dice.choice(["# lint\n", "\n", "  # x = 1\n"]) if is_line else self.dice.choice(["  # 5", " "])

    def space(self) -> str:
        return self.dice.choice(["", " ", "  "])

    def key(self, key: str) -> str:
        is_bare = key.isascii() and key.replace("_", "").replace("-", "").isalnum()
        return key if is_bare and self.chance(0.8) else self.string(key)

    def string(self, text: str) -> str:
        if self.chance(0.3) and text.isascii() and text.isprintable() and "'" not in text:
            return f"'{text}'"
        return '"' + "".join(f"\\u{ord(it):04x}" if not it.isalnum() or self.chance(0.05) else it for it in text) + '"'

    def value(self, value: Any) -> str:
        if isinstance(value, bool):
            return "true" if value else "false"
        if isinstance(value, int):
            return self.integer(value)
        if isinstance(value, Spelled):
            return self.decimal(value.text)
        if isinstance(value, Moment | float):
            return str(value)
        if isinstance(value, str):
            return self.string(value)
        if isinstance(value, dict):
            pairs = [f"{self.key(key)}{self.space()}={self.space()}{self.value(its)}" for key, its in value.items()]
            self.dice.shuffle(pairs)
            return "{" + ", ".join(pairs) + "}"
        line = self.dice.choice(["", " ", "\n", "# 3\n"])
        return f"[{line}" + f",{line}".join(map(self.value, value)) + "]"

    def integer(self, number: int) -> str:
        if number >= 0 and self.chance(0.3):
            return self.dice.choice([hex, oct, bin])(number)
        text = str(number)
        return f"{text[:-3]}_{text[-3:]}" if number > 999 and self.chance() else text

    def decimal(self, text: str) -> str:
        if "e" in text.lower() or "." not in text or not self.chance():
            return text
        return f"{text}0" if self.chance() else f"{text}e0"


def paths_of(value: Any, path: Path = ()) -> Iterator[Path]:
    """Yields the paths of all values in a document that are neither tables nor arrays."""
    if isinstance(value, dict):
        for key, its in value.items():
            yield from paths_of(its, (*path, key))
    elif isinstance(value, list):
        for number, its in enumerate(value):
            yield from paths_of(its, (*path, number))
    else:
        yield path


def at(document: Any, path: Path) -> Any:
    """Returns the value at a path."""
    for step in path:
        document = document[step]
    return document


def changed(document: dict[str, Any], path: Path, dice: random.Random) -> dict[str, Any]:
    """Returns a copy of a document with another value at a path."""
    found = copy.deepcopy(document)
    at(found, path[:-1])[path[-1]] = other(at(document, path), dice)
    return found


def other(value: Any, dice: random.Random) -> Any:
    """Returns a value of the same kind that is another one."""
    if isinstance(value, bool):
        return not value
    if isinstance(value, int):
        return dice.choice([it for it in (value + 1, value - 1, 2 * value, value // 2, 0, 1) if it != value])
    if isinstance(value, Spelled):
        return Spelled(dice.choice([f"{value.text}1", f"-{value.text.lstrip('-')}" if value else "0.5",
                                    f"{value.text}e-3" if value and "e" not in value.text else "7.25"]))
    if isinstance(value, str):
        words = {"AB": ["A", "B"], "A": ["B", "AB"], "B": ["A", "AB"], "event": ["state"], "state": ["event"],
                 "big": ["little"], "little": ["big"]}
        return dice.choice(words.get(value, [f"{value}x", value[1:] or "y", value.swapcase() + "_"]))
    return "another"
