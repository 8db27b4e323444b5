"""The comparison of tables of cluster files, key by key: an absent key has its usual value."""
from collections.abc import Callable, Hashable, Iterator, Mapping, Sequence
from typing import Any

from musmyrtle.diff.differences import ADDED, CHANGED, REMOVED, RENAMED, Difference
from musmyrtle.diff.pairing import Item, Pair, pairs_of_both
from musmyrtle.diff.values import ABSENT, Canonical, canonical, exact, measured, shown, shown_apart
from musmyrtle.names import name_in
from musmyrtle.toml_values import Spelled

Table = Mapping[str, Any]
USUAL: dict[str, dict[str, Any]] = {
    "top": {"guard": "AB"},
    "node": {"tasks": 1, "latest_a": 0, "latest_b": 0, "host_entries": 256, "slot_entries": 4096},
    "own": {"sync": False, "startup": False, "base": 0, "repetition": 1},
    "queue": {"base": 0, "repetition": 1},
    "buffer": {"base": 0, "repetition": 1, "preamble": False},
    "frame": {"unused": 0},
    "signal": {"order": "little", "signed": False, "float": False, "bytes": False, "factor": 1, "offset": 0, "unit": "",
               "values": {}, "update": [], "when": {}},
}
"""The values of absent keys, by kinds of tables."""
EXACT = ("factor", "offset", "min", "max")
"""The keys of a signal that are exact numbers."""
RAW = ("initial", "invalid")
"""The keys of a signal that are raw values."""


def usual_of(kind: str, table: Table, key: str) -> Any:
    """Returns the value of an absent key, or None if it has none."""
    if kind == "signal" and key == "initial":
        bits = table.get("bits")
        is_bytes = table.get("bytes") is True and type(bits) is int and 0 <= bits <= 8 * 254
        return f"x{'00' * (bits // 8)}" if is_bytes and isinstance(bits, int) else 0
    return USUAL.get(kind, {}).get(key)


def value_of(kind: str, table: Table, key: str) -> Canonical:
    """Returns the value of a key without its spelling."""
    value = table[key] if key in table else usual_of(kind, table, key)
    if value is None:
        return ABSENT
    if kind == "physical":
        return measured(value)
    if kind == "signal" and key in EXACT:
        return exact(value)
    if kind == "signal" and key in RAW and table.get("float") is True and type(value) is int:
        return canonical(Spelled(str(value)))
    return canonical(value)


def content_of(kind: str, table: Table, without: Sequence[str] = ("name",)) -> Hashable:
    """Returns the values of all keys but some, without their spelling."""
    keys = (it for it in {**USUAL.get(kind, {}), **table} if it not in without)
    return frozenset((key, value_of(kind, table, key)) for key in keys)


def items(kind: str, tables: Sequence[Table], identity: Callable[[Table], Hashable],
          more: Callable[[Table], Hashable] = lambda _: None, without: Sequence[str] = ("name",)) -> list[Item[Table]]:
    """Returns the items of a list of tables. MORE is a part of their content, in place of the keys in WITHOUT."""
    return [Item(number, name_in(it), (content_of(kind, it, without), more(it)), identity(it), it)
            for number, it in enumerate(tables)]


def key_differences(kind: str, old: Table, new: Table, without: Sequence[str] = (), front: str = ""
                    ) -> Iterator[tuple[str, Any, Any]]:
    """Yields the keys of two tables whose values differ, with both values, or None where one has no value.

    A key of a table in them has the names of both, as `values.3`.
    """
    for key in dict.fromkeys([*old, *new]):
        if key in without or value_of(kind, old, key) == value_of(kind, new, key):
            continue
        one, other = (it[key] if key in it else usual_of(kind, it, key) for it in (old, new))
        if isinstance(one, Mapping) and isinstance(other, Mapping):
            yield from key_differences("", one, other, front=f"{front}{key}.")
        else:
            yield f"{front}{key}", one, other


# ---- rows


def changed(kind: str, key: str, old: Any, new: Any, **place: Any) -> Difference:
    """Returns the difference of a key."""
    one, other = shown_apart(old, new)
    return Difference(kind, CHANGED, key, one, other, **place)


def renamed(kind: str, pair: Pair[Table], **place: Any) -> Difference:
    """Returns the difference of the names of a thing that is the same otherwise."""
    both = pair.both
    names = [it.value.get("name") for it in both] if both else [None, None]
    one, other = shown_apart(*names)
    return Difference(kind, CHANGED if None in names else RENAMED, "name", one, other, **place)


def alone(kind: str, pair: Pair[Table], without: Sequence[str] = (), **place: Any) -> Difference:
    """Returns the difference of a thing that one file has, with its table."""
    table = shown({key: value for key, value in one_of(pair).value.items() if key not in without})
    if pair.old:
        return Difference(kind, REMOVED, None, table, None, **place)
    return Difference(kind, ADDED, None, None, table, **place)


def pair_differences(kind: str, pair: Pair[Table], without: Sequence[str] = (), **place: Any) -> Iterator[Difference]:
    """Yields the differences of a thing: that one file alone has it, that it is renamed, or its keys."""
    if pair.both is None:
        yield alone(kind, pair, without, **place)
    elif pair.is_renamed:
        yield renamed(kind, pair, **place)
    else:
        for key, *values in key_differences(kind, pair.both[0].value, pair.both[1].value, without):
            yield changed(kind, key, *values, **place)


def one_of(pair: Pair[Table]) -> Item[Table]:
    """Returns the item of the first file, or of the second one if the first has none."""
    item = pair.old or pair.new
    assert item is not None
    return item


def is_in_order(pairs: Sequence[Pair[Table]]) -> bool:
    """Returns whether the items that both lists have are in the same order."""
    numbers = [new.number for _, new in pairs_of_both(pairs)]
    return numbers == sorted(numbers)


def numbers_of(pairs: Sequence[Pair[Table]]) -> tuple[str, str] | None:
    """Returns the numbers of the items that have others in the second list, both in the order of the first one."""
    runs: list[list[tuple[int, int]]] = []
    for old, new in ((old.number, new.number) for old, new in pairs_of_both(pairs) if old.number != new.number):
        if runs and runs[-1][-1] == (old - 1, new - 1):
            runs[-1].append((old, new))
        else:
            runs.append([(old, new)])
    if not runs:
        return None
    one, other = (",".join(str(run[0][side]) if len(run) == 1 else f"{run[0][side]}-{run[-1][side]}" for run in runs)
                  for side in (0, 1))
    return one, other
