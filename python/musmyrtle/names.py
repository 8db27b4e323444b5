"""The names that a cluster file has for its nodes and buffers: `name = "pedal"` in the table of each one.

Scenarios of version 3 use them in the place of numbers, and the Python package for all else. Other texts have numbers.
"""
import os
import re
from collections.abc import Iterable, Mapping
from functools import lru_cache
from pathlib import Path

from musmyrtle.cluster_file import document_of
from musmyrtle.findings import counted, nearest
from musmyrtle.visible import cut

LONGEST_NAME = 32
LINE_NAME = re.compile(rf"[A-Za-z0-9_.-]{{1,{LONGEST_NAME}}}")
RIGHT_NAME = f"1 to {LONGEST_NAME} letters, digits, `_`, `-` and `.`"


class UnknownName(KeyError):
    """The cluster file has no node, or the node no buffer, of this name, or more than one."""

    def __str__(self) -> str:
        return str(self.args[0])


class Names:
    """The numbers of nodes and of their buffers, by name. If two have one name, the first one counts.

    `wrong` describes the first key `name` that isn't a string, or is None.
    """

    def __init__(self, nodes: Mapping[str, int], buffers: list[dict[str, int]], wrong: str | None = None,
                 repeated: Iterable[tuple[int | None, str]] = ()) -> None:
        """Keeps the names of nodes and, by node, of buffers.

        REPEATED has each name that stands more than once, with the node of a buffer's name or None of a node's.
        """
        self.nodes, self.buffers, self.wrong = dict(nodes), buffers, wrong
        self._repeated = frozenset(repeated)

    @classmethod
    def read(cls, file: str | os.PathLike[str]) -> "Names":
        """Returns the names of a cluster file. Raises `OSError`, and `ValueError` where it is no TOML."""
        return cls.of(Path(file).read_bytes())

    @classmethod
    def of(cls, data: bytes) -> "Names":
        """Returns the names of a cluster file's bytes. Raises `ValueError` where they are no TOML."""
        return names_in(data)

    def is_repeated(self, node: int | None, name: str) -> bool:
        """Returns whether several buffers of the node, or several nodes for None, have the name."""
        return (node, name) in self._repeated

    def node(self, name: str) -> int:
        """Returns the number of the node of this name. Raises `UnknownName`."""
        return self._found(self.nodes, None, name, "no node of the cluster file")

    def buffer(self, node: int, name: str) -> int:
        """Returns the number of the buffer of this name. Raises `UnknownName`, also where there is no such node."""
        if not 0 <= node < len(self.buffers):
            raise UnknownName(f"the cluster file has {len(self.buffers)} nodes, and no node {node}")
        return self._found(self.buffers[node], node, name, f"no buffer of node {node}")

    def _found(self, places: dict[str, int], node: int | None, name: str, what: str) -> int:
        if name not in places:
            raise UnknownName(f"{what} has the name {name!r}; it knows: {', '.join(places) or 'none'}")
        if self.is_repeated(node, name):
            several = "several nodes" if node is None else f"several buffers of node {node}"
            raise UnknownName(f"{several} have the name {name!r}; give the number")
        return places[name]


class LineNames:
    """The names that lines of a scenario can use: those of a line's form that exactly one node or buffer has."""

    def __init__(self, names: Names | None = None) -> None:
        """Keeps the names of a cluster file. None stands for no names at all."""
        self._names = names or Names({}, [])

    def node(self, name: str) -> int | None:
        """Returns the number of the only node of this name, or None."""
        return self._found(self._names.nodes, None, name)

    def buffer(self, node: int, name: str) -> int | None:
        """Returns the number of the only buffer of the node that has this name, or None."""
        return self._found(self._of_node(node), node, name)

    def why_no_node(self, name: str) -> str:
        """Returns why a word names no node, as a sentence."""
        return self._why(self._names.nodes, None, name, "No node")

    def why_no_buffer(self, node: int, name: str) -> str:
        """Returns why a word names no buffer of the node, as a sentence."""
        nodes = len(self._names.buffers)
        if node >= nodes:
            return f"The cluster file has {counted(nodes, 'node')}, and no node {node}."
        return self._why(self._of_node(node), node, name, f"No buffer of node {node}")

    def _of_node(self, node: int) -> Mapping[str, int]:
        return self._names.buffers[node] if node < len(self._names.buffers) else {}

    def _found(self, places: Mapping[str, int], node: int | None, name: str) -> int | None:
        is_usable = is_line_name(name) and not self._names.is_repeated(node, name)
        return places.get(name) if is_usable else None

    def _why(self, places: Mapping[str, int], node: int | None, name: str, nothing: str) -> str:
        if name not in places:
            meant = nearest(name, [it for it in places if self._found(places, node, it) is not None])
            return f"{nothing} has this name." + (f" Is `{cut(meant)}` meant?" if meant else "")
        if self._names.is_repeated(node, name):
            return f"Several {'nodes' if node is None else f'buffers of node {node}'} have this name."
        return f"The name can't stand in a scenario, where names have {RIGHT_NAME}."


def is_line_name(name: str) -> bool:
    """Returns whether a name can stand in a line of a scenario."""
    return bool(LINE_NAME.fullmatch(name))


@lru_cache(maxsize=8)
def names_in(data: bytes) -> Names:
    """Returns the names of a cluster file's bytes. Raises `ValueError` where they are no TOML."""
    return named_in(document_of(data))


def named_in(document: Mapping[str, object]) -> Names:
    """Returns the names of the tables of a cluster file."""
    tables = tables_of(document.get("node"))
    wrong: list[str] = []
    repeated: list[tuple[int | None, str]] = []
    nodes = named(tables, None, wrong, repeated)
    buffers = [named(tables_of(table.get("buffer")), number, wrong, repeated) for number, table in enumerate(tables)]
    return Names(nodes, buffers, wrong[0] if wrong else None, repeated)


def tables_of(value: object) -> list[dict[str, object]]:
    """Returns the tables of an array, with an empty one in the place of anything that isn't a table."""
    return [item if isinstance(item, dict) else {} for item in value] if isinstance(value, list) else []


def name_in(table: Mapping[str, object]) -> str | None:
    """Returns the key `name` of a table, if it is a string."""
    name = table.get("name")
    return name if isinstance(name, str) else None


def named(tables: list[dict[str, object]], node: int | None, wrong: list[str],
          repeated: list[tuple[int | None, str]]) -> dict[str, int]:
    """Returns the places of tables, by name, and adds their faults to WRONG and REPEATED."""
    places: dict[str, int] = {}
    for place, table in enumerate(tables):
        name = table.get("name")
        if isinstance(name, str):
            if name in places:
                repeated.append((node, name))
            places.setdefault(name, place)
        elif name is not None:
            whose = f"node {place}" if node is None else f"buffer {place} of node {node}"
            wrong.append(f"the key `name` of {whose} is {name!r}, and has to be a string")
    return places
