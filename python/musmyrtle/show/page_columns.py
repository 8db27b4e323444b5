"""Columns of numbers, words and bytes, packed one after another for the page of a run.

A packed text is the length of the header in four bytes, the header in JSON, and the columns. Numbers have their lowest
byte first. Each column begins at a multiple of four bytes.
"""
import json
import struct
import sys
from array import array
from collections.abc import Iterable, Mapping, Sequence
from typing import Any

TYPES = {"u8": "B", "u16": "H", "u32": "I"}
NOTHING = {"u8": 0xff, "u16": 0xffff, "u32": 0xffffffff}
"""The number that stands for the absence of one, by type."""


def padded(data: bytes, filler: bytes = b"\0") -> bytes:
    """Returns the bytes with so many of FILLER that their number is a multiple of four."""
    return data + filler * (-len(data) % 4)


class Words:
    """A column of words that grows: each different word once, and the number of the word at each place."""

    def __init__(self) -> None:
        self.numbers: dict[str, int] = {}
        self.places = array("I")

    def add(self, word: str) -> None:
        """Adds a word at the end."""
        self.places.append(self.numbers.setdefault(word, len(self.numbers)))


class Contents:
    """A column of bytes that grows: the size and the bytes of each value."""

    def __init__(self) -> None:
        self.sizes, self.held = array("H"), bytearray()

    def add(self, value: str | None) -> None:
        """Adds a value that is spelled `x0a0b`. An absent one has no bytes."""
        held = bytes.fromhex(value[1:]) if value else b""
        self.sizes.append(len(held))
        self.held += held


def header_in(data: bytes) -> dict[str, Any]:
    """Returns the header of a packed text."""
    size: int = struct.unpack_from("<I", data)[0]
    header: dict[str, Any] = json.loads(data[4:4 + size])
    return header


class Columns:
    """Columns by name, with their types, in the order in which they were added."""

    def __init__(self) -> None:
        self.listed: list[dict[str, Any]] = []
        self.parts: list[bytes] = []

    def numbers(self, name: str, kind: str, values: Iterable[int | None]) -> None:
        """Adds a column of numbers of a type of `TYPES`."""
        if not (isinstance(values, array) and values.typecode == TYPES[kind]):
            absent = NOTHING[kind]
            values = array(TYPES[kind], (absent if it is None else it for it in values))
        self.add(name, kind, values)

    def rising(self, name: str, values: Sequence[int]) -> None:
        """Adds a column of numbers in ascending order, kept as differences, which are compressed far better."""
        self.add(name, "u32", array("I", (it - before for before, it in zip((0, *values), values))), is_rising=True)

    def words(self, name: str, values: Iterable[str] | Words) -> None:
        """Adds a column of words. The header has each different word once, and the column its number."""
        made = values if isinstance(values, Words) else Words()
        if not isinstance(values, Words):
            for it in values:
                made.add(it)
        kind = "u8" if len(made.numbers) <= 0xff else "u16" if len(made.numbers) <= 0xffff else "u32"
        self.add(name, kind, array(TYPES[kind], made.places), words=list(made.numbers))

    def contents(self, name: str, values: Iterable[str | None] | Contents) -> None:
        """Adds columns of the sizes and contents of values that are spelled `x0a0b`.

        An absent value has no bytes.
        """
        made = values if isinstance(values, Contents) else Contents()
        if not isinstance(values, Contents):
            for it in values:
                made.add(it)
        self.add(f"{name}_size", "u16", made.sizes)
        self.add(f"{name}_bytes", "u8", array("B", bytes(made.held)))

    def add(self, name: str, kind: str, values: "array[int]", **more: Any) -> None:
        """Adds a column, with MORE keys of its entry in the header."""
        if sys.byteorder == "big":
            values.byteswap()
        self.listed.append({"name": name, "type": kind, "count": len(values), **more})
        self.parts.append(padded(values.tobytes()))

    def packed(self, header: Mapping[str, Any]) -> bytes:
        """Returns the packed text of a header and the columns."""
        text = padded(json.dumps({**header, "columns": self.listed}).encode(), b" ")
        return b"".join((struct.pack("<I", len(text)), text, *self.parts))
