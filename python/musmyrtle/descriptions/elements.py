"""Elements of a description, which remember whether a reader has read them, and the values in them.

Nothing is lost silently: `unread` finds each element below those that were reached which no reader asked for.
"""
import re
from collections.abc import Iterable, Iterator
from fractions import Fraction
from functools import lru_cache

from musmyrtle.descriptions.report import Refused
from musmyrtle.signals.exact import in_range
from musmyrtle.visible import cut

NUMBER = re.compile(r"[+-]?(?:0|[1-9][0-9]{0,29})(?:\.[0-9]{1,30})?(?:[eE][+-]?[0-9]{1,3})?")
"""A decimal number. One with leading zeros is octal in AUTOSAR, and so it is refused."""
HEXADECIMAL = re.compile(r"0[xX]([0-9a-fA-F]{1,16})")
TRUTH = {"true": True, "1": True, "false": False, "0": False}
NO_CHILDREN: list["Element"] = []


class Element:
    """An element: its tag without a namespace, its text if it has no children, and what it is named in paths."""

    __slots__ = ("tag", "attributes", "text", "children", "parent", "path", "is_read")

    def __init__(self, tag: str, attributes: dict[str, str], parent: "Element | None", path: str | None = None) -> None:
        self.tag, self.attributes, self.parent, self.path = tag, attributes, parent, path
        self.text = ""
        self.children = NO_CHILDREN
        self.is_read = False

    def add(self, child: "Element") -> None:
        """Adds a child."""
        if self.children is NO_CHILDREN:
            self.children = []
        self.children.append(child)

    @property
    def name(self) -> str:
        """Returns the last name of its path, which is its own if it has one."""
        return path_of(self).rpartition("/")[2] if self.path is None else self.path.rpartition("/")[2]


def path_of(element: Element) -> str:
    """Returns the path of the nearest element that has one, and the tags from there on."""
    tags: list[str] = []
    at: Element | None = element
    while at is not None and at.path is None:
        tags.append(at.tag)
        at = at.parent
    return "/".join(["" if at is None else at.path or "", *reversed(tags)])


@lru_cache(maxsize=None)
def steps_of(path: str) -> tuple[str, ...]:
    """Returns the tags of a path."""
    return tuple(path.split("/"))


def every(element: Element, path: str) -> list[Element]:
    """Returns the elements at a path below an element. All on the way are read."""
    found = [element]
    for step in steps_of(path):
        found = [child for it in found for child in it.children if child.tag == step]
        for it in found:
            it.is_read = True
    return found


def one(element: Element, path: str) -> Element | None:
    """Returns the element at a path, or None. Raises `Refused` where there are several."""
    found = every(element, path)
    if len(found) > 1:
        raise Refused("Several", path_of(found[1]), f"there are {len(found)}, and expected is one")
    return found[0] if found else None


def needed(element: Element, path: str) -> Element:
    """Returns the element at a path. Raises `Refused` where there is none."""
    found = one(element, path)
    if found is None:
        raise Refused("Missing", f"{path_of(element)}/{path}", "the element isn't there")
    return found


def has(element: Element, path: str) -> bool:
    """Returns whether there is an element at a path."""
    return bool(every(element, path))


def text(element: Element, path: str) -> str:
    """Returns the text at a path, or an empty one where there is no such element."""
    found = one(element, path)
    return "" if found is None else found.text


def value_of(element: Element) -> Fraction:
    """Returns the number that is the text of an element. Raises `Refused`."""
    word = element.text
    hexadecimal = HEXADECIMAL.fullmatch(word)
    if hexadecimal:
        return Fraction(int(hexadecimal[1], 16))
    value = in_range(Fraction(word)) if NUMBER.fullmatch(word) else None
    if value is None:
        raise Refused("NotANumber", path_of(element), f"it is {shown(word)}, and expected is a number")
    return value


def fraction(element: Element, path: str, usual: Fraction | int | None = None) -> Fraction:
    """Returns the number at a path, or the usual one where there is no such element. Raises `Refused`."""
    found = one(element, path) if usual is not None else needed(element, path)
    return Fraction(usual or 0) if found is None else value_of(found)


def number(element: Element, path: str, usual: int | None = None) -> int:
    """Returns the whole number at a path, 0 or more, or the usual one. Raises `Refused`."""
    value = fraction(element, path, usual)
    if value.denominator != 1 or value < 0:
        raise Refused("NotANumber", path_of(needed(element, path)),
                      f"it is {shown(text(element, path))}, and expected is a whole number, 0 or more")
    return int(value)


def optional(element: Element, path: str) -> int | None:
    """Returns the whole number at a path, or None where there is no such element. Raises `Refused`."""
    return number(element, path) if has(element, path) else None


def truth(element: Element, path: str) -> bool:
    """Returns the truth value at a path, false where there is no such element. Raises `Refused`."""
    found = one(element, path)
    if found is None:
        return False
    if found.text.lower() not in TRUTH:
        raise Refused("NotABoolean", path_of(found), f"it is {shown(found.text)}, and expected is true or false")
    return TRUTH[found.text.lower()]


def shown(word: str) -> str:
    """Returns a text for a message."""
    return cut(word) if word else "empty"


def unread(reached: Iterable[Element]) -> Iterator[Element]:
    """Yields the elements below some that were reached, which no reader asked for, without those below them."""
    stack = list(reached)
    seen: set[int] = set()
    while stack:
        element = stack.pop()
        if id(element) in seen:
            continue
        seen.add(id(element))
        for child in element.children:
            if child.is_read:
                stack.append(child)
            else:
                yield child


def is_alike(one_element: Element, other: Element) -> bool:
    """Returns whether two elements have the same content."""
    stack = [(one_element, other)]
    while stack:
        a, b = stack.pop()
        if (a.tag, a.text, a.attributes, len(a.children)) != (b.tag, b.text, b.attributes, len(b.children)):
            return False
        stack += zip(a.children, b.children)
    return True
