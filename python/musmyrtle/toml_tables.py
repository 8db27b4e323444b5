"""The tables and arrays of a TOML text, with the offsets at which their keys and items begin."""
from typing import Any

ON_THE_WAY, BY_HEADER, BY_DOTS, INLINE = range(4)
"""The origin of a table: the header of a table in it, its own header, a dotted key, or braces.

A table by the header of an inner one may still have a header of its own and dotted keys, one by dots further dotted
keys; and headers add tables to each but an inline one.
"""


class Table(dict[str, Any]):
    """A table. `begins` has the offset at which each of its keys begins, or the header that made it."""

    __slots__ = ("begins", "made")

    def __init__(self, made: int):
        self.begins: dict[str, int] = {}
        self.made = made


class Array(list[Any]):
    """An array, or the tables of headers with two brackets. `begins` has the offset at which each item begins."""

    __slots__ = ("begins", "is_of_headers")

    def __init__(self, is_of_headers: bool = False):
        self.begins: list[int] = []
        self.is_of_headers = is_of_headers
