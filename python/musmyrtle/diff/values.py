"""Values of cluster files that are compared: two spellings of one value are equal, and no two other values are."""
import math
import re
from collections.abc import Iterator, Mapping

from musmyrtle.show.tables import Exact, Value
from musmyrtle.signals.exact import exact_in_file, exact_text
from musmyrtle.toml_values import Moment, Spelled

Canonical = tuple[object, ...]
"""A value without its spelling. Its first item is the kind of the value."""
ABSENT = ("absent",)
BARE_KEY = re.compile(r"[A-Za-z0-9_-]+")
PARTS = re.compile(r"([+-]?)([0-9]+)(?:\.([0-9]+))?(?:[eE]([+-]?[0-9]{1,400}))?")
"""The sign, digits and exponent of a number. A longer exponent stays as it is spelled."""
ESCAPES = {"\b": "\\b", "\t": "\\t", "\n": "\\n", "\f": "\\f", "\r": "\\r", '"': '\\"', "\\": "\\\\"}


def canonical(value: object) -> Canonical:
    """Returns a value of a TOML document without its spelling: an integer and a float are never equal."""
    if isinstance(value, bool):
        return "boolean", value
    if isinstance(value, int):
        return "integer", value
    if isinstance(value, Spelled):
        return "float", *decimal(value.text)
    if isinstance(value, float):
        return "float", math.copysign(1, value), str(abs(value))
    if isinstance(value, str):
        return "string", value
    if isinstance(value, Moment):
        return "moment", value.text.upper().replace(" ", "T")
    if isinstance(value, Mapping):
        return "table", frozenset((key, canonical(its)) for key, its in value.items())
    return "array", *map(canonical, value if isinstance(value, list) else ())


def decimal(text: str) -> Canonical:
    """Returns the sign, the digits and the exponent of a number with a point or an exponent, without needless zeros."""
    found = PARTS.fullmatch(text.replace("_", ""))
    if found is None:
        return (text,)
    decimals = found[3] or ""
    digits = (found[2] + decimals).lstrip("0")
    kept = digits.rstrip("0")
    exponent = int(found[4] or 0) - len(decimals) + len(digits) - len(kept) if kept else 0
    return found[1] == "-", kept, exponent


def exact(value: object) -> Canonical:
    """Returns a number of a signal without its spelling: 0.01, 1e-2 and "1/100" are equal."""
    found = exact_in_file(value)
    return canonical(value) if found is None else ("number", found)


def measured(value: object) -> Canonical:
    """Returns a number of `[physical]` without its spelling: 1 and 1.0 are equal, and a text is no number."""
    return canonical(value) if isinstance(value, str) else exact(value)


# ---- values for people and for JSON


def shown(value: object) -> Value:
    """Returns a value for a table: numbers, truth values and strings as they are, and all others as TOML."""
    if value is None or isinstance(value, bool | int | str):
        return value
    if isinstance(value, Spelled):
        is_whole = exact_text(repr(float(value))) == exact_text(value.text.replace("_", "")) is not None
        return Exact(float(value)) if is_whole else value.text
    return "".join(spelled(value))


def shown_apart(old: object, new: object) -> tuple[Value, Value]:
    """Returns two different values for a table. Those that would look alike are TOML, as `1` and `"1"`."""
    found = shown(old), shown(new)
    if None not in found and str(found[0]) == str(found[1]):
        return "".join(spelled(old)), "".join(spelled(new))
    return found


def spelled(value: object) -> Iterator[str]:
    """Yields the parts of a value as TOML spells it, in one line."""
    if isinstance(value, bool):
        yield "true" if value else "false"
    elif isinstance(value, Spelled | Moment):
        yield value.text
    elif isinstance(value, str):
        yield quoted(value)
    elif isinstance(value, Mapping):
        yield "{"
        for number, (key, its) in enumerate(value.items()):
            yield (", " if number else "") + f"{key if BARE_KEY.fullmatch(key) else quoted(key)} = "
            yield from spelled(its)
        yield "}"
    elif isinstance(value, list):
        yield "["
        for number, its in enumerate(value):
            yield ", " if number else ""
            yield from spelled(its)
        yield "]"
    else:
        yield str(value)


def quoted(text: str) -> str:
    """Returns a string between quotes, with an escape for each character that TOML doesn't allow in it."""
    return '"' + "".join(
        ESCAPES.get(it) or (f"\\u{ord(it):04x}" if ord(it) < 0x20 or ord(it) == 0x7f else it) for it in text) + '"'
