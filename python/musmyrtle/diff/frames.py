"""The comparison of frames and signals, of a cluster file and of the file of its key `signals`."""
from collections.abc import Iterator, Sequence
from dataclasses import dataclass, field
from typing import Any

from musmyrtle.diff.differences import ORDER, Difference
from musmyrtle.diff.pairing import Pair, paired, pairs_of_both
from musmyrtle.diff.tables import (
    Table, changed, content_of, is_in_order, items, key_differences, one_of, pair_differences,
)
from musmyrtle.diff.values import shown
from musmyrtle.signals.frames import FILE, Definitions
from musmyrtle.signals.refusals import BadSignals
from musmyrtle.texts import Text

FRAME, SIGNALS = "frame", "signal"
"""The keys of the tables of frames, and of those of their signals."""


@dataclass(frozen=True)
class FrameTables:
    """The tables of frames of a cluster file and of its second file, and what the second file has beside them.

    `is_whole` is False if they aren't tables with tables of signals, as `[[frame]]` makes them. Then the values of the
    keys `frame` are compared as they are.
    """

    tables: tuple[Table, ...]
    beside: Table = field(default_factory=dict)
    is_whole: bool = True

    @classmethod
    def of(cls, text: Text) -> "FrameTables":
        """Returns the tables of a cluster file. Raises `BadSignals` if its second file can't be read."""
        # The signals of a refused frame are compared, too, so that they aren't read here.
        definitions = Definitions([text])
        second = definitions.second_text(text) if FILE in text.document else None
        if FILE in text.document and second is None:
            raise BadSignals(definitions.faults)
        documents: list[Table] = [it.document for it in (text, second) if it]
        lists = [it.get(FRAME, []) for it in documents]
        beside: Table = documents[1] if len(documents) > 1 else {}
        if not all(map(is_list_of_frames, lists)):
            return cls((), beside, False)
        return cls(tuple(it for tables in lists for it in tables),
                   {key: value for key, value in beside.items() if key != FRAME})


def is_list_of_frames(value: object) -> bool:
    """Returns whether a value is a list of tables, each with a list of tables of signals or none."""
    return is_list_of_tables(value) and all(is_list_of_tables(it.get(SIGNALS, [])) for it in tables_in(value))


def is_list_of_tables(value: object) -> bool:
    """Returns whether a value is a list of tables."""
    return isinstance(value, list) and len(tables_in(value)) == len(value)


def tables_in(value: object) -> list[Table]:
    """Returns the tables of a list."""
    return [it for it in value if isinstance(it, dict)] if isinstance(value, list) else []


def pairs_of_frames(old: Sequence[Table], new: Sequence[Table]) -> list[Pair[Table]]:
    """Returns the pairs of frames."""
    def content(frame: Table) -> tuple[Any, ...]:
        return tuple((it.get("name"), content_of("signal", it)) for it in frame.get(SIGNALS, ()))
    return paired(*(items("frame", it, lambda _: None, content, ("name", SIGNALS)) for it in (old, new)))


def frame_differences(old: FrameTables, new: FrameTables) -> Iterator[Difference]:
    """Yields the differences of frames and their signals."""
    for key, *values in key_differences("", old.beside, new.beside):
        yield changed("parameter", key, *values, table=FILE)
    pairs = pairs_of_frames(old.tables, new.tables)
    for pair in pairs:
        yield from differences_of(pair)
    if not is_in_order(pairs):
        yield Difference("frame", ORDER, "order", *orders(pairs))


def differences_of(pair: Pair[Table]) -> Iterator[Difference]:
    """Yields the differences of a frame."""
    name = name_of(pair)
    yield from pair_differences("frame", pair, (SIGNALS,), frame=name)
    if pair.is_renamed:
        return
    signals = [it.value.get(SIGNALS, []) if it else [] for it in (pair.old, pair.new)]
    pairs = paired(*(items("signal", it, lambda _: None) for it in signals))
    for its in pairs:
        yield from pair_differences("signal", its, frame=name, signal=name_of(its))
    if not is_in_order(pairs):
        yield Difference("frame", ORDER, "order of signals", *orders(pairs), frame=name)


def name_of(pair: Pair[Table]) -> str:
    """Returns the name of a frame or a signal, or its number without one."""
    item = one_of(pair)
    return str(item.number) if item.name is None else item.name


def orders(pairs: Sequence[Pair[Table]]) -> tuple[str, str]:
    """Returns the names of the items that both lists have, in the order of each list."""
    both = list(pairs_of_both(pairs))
    old = [name_of(Pair(it, None)) for it, _ in both]
    new = [name_of(Pair(it, None)) for _, it in sorted(both, key=lambda its: its[1].number)]
    return str(shown(", ".join(old))), str(shown(", ".join(new)))
