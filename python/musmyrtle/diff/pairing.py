"""The pairs of two lists: which item of the one is which item of the other.

Items are paired by their names where both have one. Others are paired by their whole content, then by what they are,
as the slot of a buffer, and then by their numbers. Two items with other names are paired only if all else is the same:
then the item is renamed.
"""
from collections.abc import Callable, Hashable, Iterator, Sequence
from dataclasses import dataclass, field
from typing import Generic, TypeVar

T = TypeVar("T")


@dataclass(frozen=True)
class Item(Generic[T]):
    """An item of a list: its number, its name if it has one, its content without the name, and what it is."""

    number: int
    name: str | None
    content: Hashable
    identity: Hashable
    value: T


@dataclass(frozen=True)
class Pair(Generic[T]):
    """An item of the first list and one of the second list. One of them is None where the other list has no such item.
    """

    old: Item[T] | None
    new: Item[T] | None

    @property
    def both(self) -> tuple[Item[T], Item[T]] | None:
        """Returns both items, or None where one list has no such item."""
        return (self.old, self.new) if self.old and self.new else None

    @property
    def is_renamed(self) -> bool:
        """Returns whether the two items have different names and the same content."""
        both = self.both
        return bool(both and both[0].name != both[1].name and both[0].content == both[1].content)


@dataclass
class Pairing(Generic[T]):
    """The pairing of two lists, step by step: the items without a partner yet, and the pairs."""

    olds: list[Item[T]]
    news: list[Item[T]]
    found: list[Pair[T]] = field(default_factory=list)

    def pair_by(self, key_of: Callable[[Item[T]], Hashable | None], allowed: Callable[[Item[T], Item[T]], bool]
                ) -> None:
        """Pairs the items of one key, in their order. Items whose key is None stay without a partner."""
        by_key: dict[Hashable, list[Item[T]]] = {}
        for it in self.news:
            by_key.setdefault(key_of(it), []).append(it)
        taken: set[int] = set()
        rest = []
        for old in self.olds:
            key = key_of(old)
            its = by_key.get(key, []) if key is not None else []
            new = next((it for it in its if allowed(old, it)), None)
            if new is None:
                rest.append(old)
                continue
            its.remove(new)
            taken.add(new.number)
            self.found.append(Pair(old, new))
        self.olds, self.news = rest, [it for it in self.news if it.number not in taken]


def paired(olds: Sequence[Item[T]], news: Sequence[Item[T]]) -> list[Pair[T]]:
    """Returns the pairs of two lists in the order of the first, with those of the second alone at the end."""
    pairing = Pairing(list(olds), list(news))
    pairing.pair_by(lambda it: it.name, lambda *_: True)
    pairing.pair_by(lambda it: (it.number, it.content), lambda *_: True)
    pairing.pair_by(lambda it: it.content, lambda *_: True)
    pairing.pair_by(lambda it: it.identity, may_be_one)
    pairing.pair_by(lambda it: it.number, may_be_one)
    alone = [*(Pair(it, None) for it in pairing.olds), *(Pair(None, it) for it in pairing.news)]
    return sorted([*pairing.found, *alone], key=place_of)


def may_be_one(old: Item[T], new: Item[T]) -> bool:
    """Returns whether two items may be one that was changed: two names that differ are those of two items."""
    return old.name is None or new.name is None


def place_of(pair: Pair[T]) -> tuple[bool, int]:
    """Returns the place of a pair in a list."""
    if pair.old is not None:
        return False, pair.old.number
    return True, pair.new.number if pair.new else 0


def pairs_of_both(pairs: Sequence[Pair[T]]) -> Iterator[tuple[Item[T], Item[T]]]:
    """Yields the pairs that both lists have."""
    for it in pairs:
        if it.both:
            yield it.both
