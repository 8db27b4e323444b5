"""Changes of a new release of a description against an existing cluster file: the comparison of `musmyrtle diff`.

Keys that no description has, and an engineer adds, aren't compared: tasks, room of journals, the guard, and whether a
transmit buffer is for events or for states.
"""
from collections.abc import Mapping
from dataclasses import replace
from typing import Any

from musmyrtle.diff.clusters import compared
from musmyrtle.diff.differences import Difference
from musmyrtle.texts import Text

OF_ENGINEERS = ("guard", "tasks", "host_entries", "slot_entries")
"""The keys that aren't compared."""
TRANSMITS = ("event", "state")


def compare(old: Text, new: Text) -> list[Difference]:
    """Returns what differs in a new cluster file. Raises `BadSignals` as the comparison of two cluster files."""
    return compared(*(replace(it, document=described(it.document)) for it in (old, new)))


def described(document: Mapping[str, Any]) -> dict[str, Any]:
    """Returns a cluster file without the keys that come from no description."""
    found = without(document)
    if isinstance(found.get("node"), list):
        found["node"] = [of_node(it) if isinstance(it, dict) else it for it in found["node"]]
    return found


def of_node(node: Mapping[str, Any]) -> dict[str, Any]:
    """Returns a node without these keys. Its transmit buffers are neither for events nor for states."""
    found = without(node)
    if isinstance(found.get("buffer"), list):
        found["buffer"] = [{**it, "kind": "transmit"} if isinstance(it, dict) and it.get("kind") in TRANSMITS else it
                           for it in found["buffer"]]
    return found


def without(table: Mapping[str, Any]) -> dict[str, Any]:
    """Returns a table without the keys of engineers."""
    return {key: value for key, value in table.items() if key not in OF_ENGINEERS}
