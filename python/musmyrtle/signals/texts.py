"""The texts of signals: `NAME=VALUE` on a command line, and comments such as `# speed=87.5 km/h gear=drive`."""
from collections.abc import Iterable

from musmyrtle.signals.exact import exact_text
from musmyrtle.signals.layout import Layout, Read
from musmyrtle.signals.reading import HEX
from musmyrtle.signals.refusals import BadValue, Given, SignalValue
from musmyrtle.signals.signal import Coding, Signal
from musmyrtle.signals.values import right_value
from musmyrtle.visible import cut, visible

NONE = "none"
"""The word for the invalid value, unless a raw value has this name."""


def hex_of(data: bytes) -> str:
    """Returns bytes as scenarios spell them."""
    return f"x{data.hex()}"


def bytes_of(word: str) -> bytes | None:
    """Returns the bytes of a word such as `x0a0b`, or None for another word."""
    return bytes.fromhex(word[1:]) if HEX.fullmatch(word) else None


def given_values(layout: Layout, words: Iterable[str]) -> Given:
    """Returns the values of words `NAME=VALUE`. Raises `UnknownSignal`, and `BadValue` for what is none."""
    found: dict[str, SignalValue] = {}
    for word in words:
        name, sign, value = word.partition("=")
        if not sign:
            raise BadValue(f"{cut(word)} is no value of a signal: expected NAME=VALUE")
        if name in found:
            raise BadValue(f"{name} stands twice")
        found[layout.signal(name).name] = value_in(layout.signal(name), value)
    return found


def value_in(signal: Signal, word: str) -> SignalValue:
    """Returns the value of a word: the name of a raw value, a number, bytes as `x0a0b`, or `none` if it is invalid."""
    if any(it.name == word for it in signal.values):
        return word
    if word == NONE:
        return None
    if signal.coding is Coding.BYTES:
        data = bytes_of(word)
        if data is None:
            raise BadValue(f"{signal.name} is {cut(word)}, and has to be {right_value(signal)}, as x0a0b")
        return data
    if signal.coding is Coding.FLOAT and word in ("nan", "inf", "-inf"):
        return float(word)
    number = exact_text(word)
    return word if number is None else number


def text_of(read: Read) -> str:
    """Returns a value with its unit: `speed=87.5 km/h`, `gear=drive`, or `speed=none` if it is invalid.

    A value that isn't in its limits has a mark.
    """
    value = read.value
    text = NONE if value is None else hex_of(value) if isinstance(value, bytes) else \
        value if isinstance(value, str) else repr(value)
    unit = f" {read.signal.unit}" if read.signal.unit and isinstance(value, int | float) else ""
    return visible(f"{read.signal.name}={text}{unit}{'' if read.is_in_range else ' (out of range)'}")


def comment_of(layout: Layout, payload: bytes, most: int) -> str:
    """Returns the signals of a payload as a comment of at most MOST bytes. Of more signals the others are counted."""
    texts = [text_of(it) for it in layout.reads(payload)]
    if not texts:
        return ""
    kept = len(texts)
    while kept and len(comment(texts, kept).encode()) > most:
        kept -= 1
    return comment(texts, kept) if kept else ""


def comment(texts: list[str], kept: int) -> str:
    """Returns the comment with the first texts."""
    more = [f"and {len(texts) - kept} more"] if kept < len(texts) else []
    return "# " + " ".join([*texts[:kept], *more])
