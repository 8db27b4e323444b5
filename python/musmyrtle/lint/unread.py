"""Warnings of keys that no program reads."""
from collections.abc import Iterable, Iterator
from itertools import chain, islice
from typing import Any

from musmyrtle.cluster import BUFFER_KEYS, NODE_KEYS, OWN_KEYS, PARAMETERS, QUEUE_KEYS
from musmyrtle.findings import Finding, joined, nearest
from musmyrtle.other_words import has_no_key, meant_by
from musmyrtle.places import Path
from musmyrtle.signals.frames import BUFFER_FRAME, FILE
from musmyrtle.signals.reading import FRAME_KEYS, SIGNAL_KEYS
from musmyrtle.texts import Text
from musmyrtle.visible import cut

TOP_KEYS = ("guard", "params", "node", "physical", "frame", FILE)
SECOND_KEYS = ("frame",)
"""The keys at the top of the file that `signals` names."""
NAMED = ("name",)
"""The program doesn't read it, and host programs find nodes and buffers by it."""
PHYSICAL_KEYS = ("bit_rate", "macrotick_us", "tss_bits")
MOST_UNREAD = 20
"""The number of unread keys that have a warning each; the others are counted. A file has room for 200,000 of them."""


def tables_of(document: dict[str, Any]) -> Iterator[tuple[str, dict[str, Any], Path, tuple[str, ...]]]:
    """Yields each table that is read: its kind, its keys, its path, and the keys that are read in it."""
    yield "the top of the file", document, (), TOP_KEYS
    for name, keys in (("params", tuple(PARAMETERS)), ("physical", PHYSICAL_KEYS)):
        if isinstance(document.get(name), dict):
            yield f"`[{name}]`", document[name], (name,), keys
    for number, node in numbered_tables(document.get("node")):
        path: Path = ("node", number)
        yield f"node {number}", node, path, NODE_KEYS + NAMED
        for place, line in numbered_tables(node.get("own")):
            yield f"ownership line {place} of node {number}", line, (*path, "own", place), OWN_KEYS
        if isinstance(node.get("queue"), dict):
            yield f"the receive FIFO of node {number}", node["queue"], (*path, "queue"), QUEUE_KEYS
        for place, buffer in numbered_tables(node.get("buffer")):
            keys = (*BUFFER_KEYS, *NAMED, BUFFER_FRAME)
            yield f"buffer {place} of node {number}", buffer, (*path, "buffer", place), keys
    yield from tables_of_frames(document)


def tables_of_frames(document: dict[str, Any]) -> Iterator[tuple[str, dict[str, Any], Path, tuple[str, ...]]]:
    """Yields the same of each frame and each signal."""
    for number, frame in numbered_tables(document.get("frame")):
        yield f"frame {number}", frame, ("frame", number), FRAME_KEYS
        for place, signal in numbered_tables(frame.get("signal")):
            yield f"signal {place} of frame {number}", signal, ("frame", number, "signal", place), SIGNAL_KEYS


def numbered_tables(value: object) -> Iterator[tuple[int, dict[str, Any]]]:
    items = enumerate(value) if isinstance(value, list) else ()
    return ((number, item) for number, item in items if isinstance(item, dict))


def unread_keys(text: Text) -> tuple[list[Finding], int]:
    """Returns warnings of the first unread keys, and how many more there are."""
    return unread_of(text, tables_of(text.document))


def unread_keys_of_second(text: Text) -> tuple[list[Finding], int]:
    """Returns the same of the file that the key `signals` names."""
    top = "the top of the file", text.document, (), SECOND_KEYS
    return unread_of(text, chain([top], tables_of_frames(text.document)))


def unread_of(text: Text, tables: Iterable[tuple[str, dict[str, Any], Path, tuple[str, ...]]]
              ) -> tuple[list[Finding], int]:
    """Returns warnings of the first unread keys of tables, and how many more there are."""
    unread = ((key, table) for table in tables for key in table[1] if key not in table[3])
    found = [unread_key(text, key, *table) for key, table in islice(unread, MOST_UNREAD)]
    return found, sum(1 for _ in unread)


def unread_key(text: Text, key: str, who: str, table: dict[str, Any], path: Path, keys: tuple[str, ...]) -> Finding:
    free = [it for it in keys if it not in table]
    nearby = meant_by(key, free) or [it for it in (nearest(key, free),) if it]
    hint = f"{'Are' if len(nearby) > 1 else 'Is'} {joined([f'`{it}`' for it in nearby])} meant? " if nearby else ""
    if has_no_key(key):
        hint = "It is a parameter of the standard that the bench doesn't have. "
    reason = f"{hint}Keys of {who} are {joined([f'`{it}`' for it in keys])}."
    return text.finding(f"`{cut(key)}` of {who} is an unknown key", reason, (*path, key))


def idle_keys(text: Text, static_slots: int) -> Iterator[Finding]:
    """Yields keys that are read in other tables, and mean nothing in this one."""
    for number, node in numbered_tables(text.document.get("node")):
        for place, buffer in numbered_tables(node.get("buffer")):
            path: Path = ("node", number, "buffer", place)
            for key, why in idle_of(buffer, static_slots):
                yield text.finding(f"`{key}` of buffer {place} of node {number} isn't read", why, (*path, key))


def idle_of(buffer: dict[str, Any], static_slots: int) -> Iterator[tuple[str, str]]:
    is_receive = buffer.get("kind") == "receive"
    if is_receive and "preamble" in buffer:
        yield "preamble", "A receive buffer receives frames with any payload preamble indicator."
    if "words" in buffer and is_receive:
        yield "words", "A receive buffer receives frames of any length that the slot allows."
    elif "words" in buffer and type(buffer.get("slot")) is int and buffer["slot"] <= static_slots:
        yield "words", "In a static slot each frame has the `static_words` of `[params]`."
