"""Exact numbers of cluster files, command lines and host programs: 0.01 is a hundredth, and "1/3" a third."""
import math
import re
from decimal import Decimal
from fractions import Fraction

from musmyrtle.toml_values import Spelled

DECIMALS = re.compile(r"[+-]?[0-9]{1,60}(?:\.[0-9]{1,60})?(?:[eE][+-]?[0-9]{1,3})?")
"""Numbers with a bounded exponent: the exact value of 1e-999999999 would fill the memory."""
RATIO = re.compile(r"([+-]?[0-9]{1,60})/([0-9]{1,60})")
GREATEST = 10**100
RIGHT = 'a number from 1e-100 to 1e100 or its negative, or 0, or a text such as "1/3"'

Number = int | float | Fraction | Decimal


def in_range(value: Fraction) -> Fraction | None:
    """Returns a number, or None if it is out of the range of exact numbers."""
    above, below = abs(value.numerator), value.denominator
    return value if not above or above <= below * GREATEST and below <= above * GREATEST else None


def exact_text(text: str) -> Fraction | None:
    """Returns the number of a text such as `0.01`, `1e-3` or `1/3`, or None for another text."""
    if DECIMALS.fullmatch(text):
        return in_range(Fraction(text))
    ratio = RATIO.fullmatch(text)
    return in_range(Fraction(int(ratio[1]), int(ratio[2]))) if ratio and int(ratio[2]) else None


def exact_in_file(value: object) -> Fraction | None:
    """Returns the number that a value of a TOML document spells, or None where it spells none."""
    if type(value) is int:
        return Fraction(value)
    if isinstance(value, Spelled):
        return exact_text(value.text.replace("_", ""))
    return exact_text(value) if isinstance(value, str) else None


def exact_value(value: Number) -> Fraction | None:
    """Returns a number of a host program: a float is the shortest decimal that is read as the same float.

    Returns None if it is infinite, no number or out of the range of exact numbers.
    """
    if isinstance(value, float):
        return exact_text(repr(float(value))) if math.isfinite(value) else None
    if isinstance(value, Decimal):
        return exact_text(str(value)) if value.is_finite() else None
    return in_range(Fraction(value))


def plain(value: Fraction) -> int | float:
    """Returns a number as an integer if it is whole, and otherwise as the nearest float."""
    return int(value) if value.denominator == 1 else float(value)
