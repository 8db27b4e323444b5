"""The comparison of two cluster files by their texts: what they mean, and the keys that no program reads."""
from collections.abc import Iterator, Mapping
from typing import Any

from musmyrtle.diff.differences import ADDED, ORDER, REMOVED, Difference
from musmyrtle.diff.frames import FRAME, FrameTables, frame_differences
from musmyrtle.diff.pairing import Pair, paired
from musmyrtle.diff.tables import (
    Table, alone, changed, content_of, is_in_order, items, key_differences, numbers_of, one_of, pair_differences,
    renamed, value_of,
)
from musmyrtle.diff.values import shown
from musmyrtle.names import tables_of
from musmyrtle.show.tables import Name
from musmyrtle.signals.frames import FILE
from musmyrtle.texts import Text

LISTS = ("own", "queue", "buffer")
"""The keys of a node with tables of their own."""
TABLES = ("params", "physical")
"""The tables at the top of a file whose keys are compared one by one."""


def compared(old: Text, new: Text) -> list[Difference]:
    """Returns the differences of two cluster files that `fr_bench` accepts: none if only comments and spelling differ.

    An absent key has its usual value. Keys that no program reads are compared too. Raises `BadSignals` if the file of a
    key `signals` can't be read.
    """
    frames = FrameTables.of(old), FrameTables.of(new)
    found = list(parameters(old.document, new.document, frames))
    for pair in pairs_of_nodes(old, new):
        found += node_differences(pair)
    return found + list(frame_differences(*frames) if all(it.is_whole for it in frames) else ())


# ---- pairs


def pairs_of_nodes(old: Text, new: Text) -> list[Pair[Table]]:
    """Returns the pairs of the nodes of two cluster files."""
    def content(node: Table) -> tuple[Any, ...]:
        buffers = [(it.get("name"), content_of("buffer", it)) for it in tables_of(node.get("buffer"))]
        queue = node.get("queue")
        return (*(content_of("own", it) for it in tables_of(node.get("own"))), None, *buffers, None,
                content_of("queue", queue) if isinstance(queue, Mapping) else None)
    return paired(*(items("node", tables_of(it.document.get("node")), lambda _: None, content, ("name", *LISTS))
                    for it in (old, new)))


def pairs_of_buffers(old: Table, new: Table) -> list[Pair[Table]]:
    """Returns the pairs of the buffers of two nodes. One without a name is known by what it sends or stores."""
    def identity(buffer: Table) -> tuple[object, ...]:
        return buffer.get("kind") == "receive", *(value_of("buffer", buffer, key)
                                                  for key in ("slot", "channels", "base", "repetition"))
    return paired(*(items("buffer", tables_of(it.get("buffer")), identity) for it in (old, new)))


def pairs_of_slots(old: Table, new: Table) -> list[Pair[Table]]:
    """Returns the pairs of the static slots of two nodes."""
    return paired(*(items("own", tables_of(it.get("own")), lambda own: value_of("own", own, "slot"))
                    for it in (old, new)))


# ---- differences


def parameters(old: Table, new: Table, frames: tuple[FrameTables, FrameTables]) -> Iterator[Difference]:
    """Yields the differences of parameters, of `[physical]`, and of all else that is no node and no frame."""
    compared_here = [it for it in TABLES if isinstance(old.get(it), dict) and isinstance(new.get(it), dict)]
    for table in compared_here:
        for key, *values in key_differences(table, old[table], new[table]):
            yield changed("parameter", key, *values, table=table)
    without = [*compared_here, "node"]
    if all(it.is_whole for it in frames):
        without.append(FRAME)
    else:
        for key, *values in key_differences("", frames[0].beside, frames[1].beside):
            yield changed("parameter", key, *values, table=FILE)
    for key, *values in key_differences("top", old, new, without):
        yield changed("parameter", key, *values)


def node_differences(pair: Pair[Table]) -> Iterator[Difference]:
    """Yields the differences of a node."""
    item, both = one_of(pair), pair.both
    name = Name(item.number, item.name, "node")
    if both is None:
        yield alone("node", pair, LISTS, node=name)
        yield from lists(name, *(it.value if it else {} for it in (pair.old, pair.new)))
        return
    old, new = both
    if old.number != new.number:
        yield Difference("node", ORDER, "number", old.number, new.number, node=name)
    if pair.is_renamed:
        yield renamed("node", pair, node=name)
        return
    for key, *values in key_differences("node", old.value, new.value, LISTS):
        yield changed("node", key, *values, node=name)
    yield from lists(name, old.value, new.value)


def lists(name: Name, old: Table, new: Table) -> Iterator[Difference]:
    """Yields the differences of the static slots, of the receive FIFO and of the buffers of a node."""
    yield from slots(name, old, new)
    yield from queue(name, old.get("queue"), new.get("queue"))
    yield from buffers(name, old, new)


def slots(name: Name, old: Table, new: Table) -> Iterator[Difference]:
    """Yields the differences of the static slots of a node."""
    pairs = pairs_of_slots(old, new)
    for pair in pairs:
        place: dict[str, Any] = {"node": name, "slot": one_of(pair).value.get("slot")}
        if pair.both is None:
            yield alone("slot", pair, **place)
            continue
        for key, *values in key_differences("own", pair.both[0].value, pair.both[1].value):
            yield changed("slot", key, *values, **place)
    if not is_in_order(pairs):
        numbers = numbers_of(pairs) or ("", "")
        yield Difference("node", ORDER, "order of own", *numbers, node=name)


def queue(name: Name, old: object, new: object) -> Iterator[Difference]:
    """Yields the differences of the receive FIFO of a node."""
    if isinstance(old, Mapping) and isinstance(new, Mapping):
        for key, *values in key_differences("queue", old, new):
            yield changed("fifo", key, *values, node=name)
    elif (old is None) != (new is None):
        yield Difference("fifo", ADDED if old is None else REMOVED, None, shown(old), shown(new), node=name)


def buffers(name: Name, old: Table, new: Table) -> Iterator[Difference]:
    """Yields the differences of the buffers of a node."""
    pairs = pairs_of_buffers(old, new)
    for pair in pairs:
        item = one_of(pair)
        yield from pair_differences("buffer", pair, node=name, buffer=Name(item.number, item.name, "buffer"),
                                    slot=item.value.get("slot"))
    numbers = numbers_of(pairs)
    if numbers:
        yield Difference("node", ORDER, "numbers of buffers", *numbers, node=name)
