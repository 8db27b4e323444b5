"""Computation methods, which both formats spell alike, as the keys of a signal."""
from collections.abc import Callable, Iterator
from dataclasses import dataclass
from fractions import Fraction

from musmyrtle.descriptions.elements import Element, every, has, one, path_of, text, value_of
from musmyrtle.descriptions.network import Toml
from musmyrtle.descriptions.report import Refused
from musmyrtle.signals.reading import LONGEST_TEXT

SCALES = "COMPU-INTERNAL-TO-PHYS/COMPU-SCALES/COMPU-SCALE"
COEFFICIENTS = "COMPU-RATIONAL-COEFFS"
INFINITE = ("INF", "-INF", "+INF")
Say = Callable[[str], None]


@dataclass(frozen=True)
class Scale:
    """A range of raw values, with the coefficients of a quotient, a text, or neither."""

    low: Fraction | None
    high: Fraction | None
    above: tuple[Fraction, ...] | None
    below: tuple[Fraction, ...]
    text: str

    @property
    def line(self) -> tuple[Fraction, Fraction] | None:
        """Returns the factor and the offset, or None where it is no straight line that rises or falls."""
        above = [*(self.above or ()), Fraction(0), Fraction(0)]
        if any(above[2:]) or any(self.below[1:]) or not self.below or not self.below[0] or not above[1]:
            return None
        return above[1] / self.below[0], above[0] / self.below[0]


@dataclass
class Conversion:
    """A conversion: factor and offset, the limits of the raw values, names of raw values, and what can't be said."""

    factor: Fraction = Fraction(1)
    offset: Fraction = Fraction(0)
    low: Fraction | None = None
    high: Fraction | None = None
    values: dict[tuple[int, int], str] | None = None
    raw_since: str = ""
    """The category of a conversion that is no straight line, for which values stay raw."""

    def physical(self, raw: Fraction) -> Fraction:
        """Returns the physical value of a raw one."""
        return raw * self.factor + self.offset

    def keys(self) -> dict[str, Toml]:
        """Returns the keys that aren't as if absent."""
        found: dict[str, Toml] = {}
        if self.factor != 1:
            found["factor"] = self.factor
        if self.offset:
            found["offset"] = self.offset
        if self.low is not None and self.high is not None:
            found |= limits(self.physical(self.low), self.physical(self.high))
        if self.values:
            found["values"] = {str(first) if first == last else f"{first}-{last}": it
                               for (first, last), it in self.values.items()}
        return found


def limits(one_end: Fraction, other: Fraction) -> dict[str, Toml]:
    """Returns the keys of the limits of which these are the ends."""
    return {"min": min(one_end, other), "max": max(one_end, other)}


def limit(element: Element, path: str, step: int, say: Say) -> Fraction | None:
    """Returns a limit, or None where it is absent or infinite. One that is open is a step further within."""
    found = one(element, path)
    kind = found.attributes.get("INTERVAL-TYPE", "CLOSED") if found is not None else "INFINITE"
    if found is None or kind == "INFINITE" or found.text in INFINITE or not found.text:
        return None
    if kind not in ("CLOSED", "OPEN"):
        raise Refused("Limit", path_of(found), f"its INTERVAL-TYPE is {kind}, and expected is CLOSED, OPEN or INFINITE")
    value = value_of(found)
    if kind == "OPEN" and not (step and value.denominator == 1):
        say("an open limit is taken for a closed one")
        return value
    return value + step if kind == "OPEN" else value


def scales_of(method: Element, say: Say) -> Iterator[Scale]:
    """Yields the scales of a computation method."""
    for scale in every(method, SCALES):
        above, below = (None if one(scale, f"{COEFFICIENTS}/{it}") is None else
                        tuple(value_of(v) for v in every(scale, f"{COEFFICIENTS}/{it}/V"))
                        for it in ("COMPU-NUMERATOR", "COMPU-DENOMINATOR"))
        label = text(scale, "SHORT-LABEL")
        name = text(scale, "COMPU-CONST/VT") or (label if above is None else "")
        has_mask = has(scale, "MASK")
        if above is None and (not name or has_mask):
            say("a scale has neither a line nor a text of its own" if not has_mask else "texts of single bits are no "
                "names of values")
            name = ""
        yield Scale(limit(scale, "LOWER-LIMIT", 1, say), limit(scale, "UPPER-LIMIT", -1, say), above,
                    (Fraction(1),) if below is None else below, name)


def conversion_of(method: Element | None, say: Say) -> Conversion:
    """Returns the conversion of a computation method. SAY notes what is left out of it."""
    found = Conversion()
    if method is None:
        return found
    category, scales = text(method, "CATEGORY"), list(scales_of(method, say))
    found.values = named_values([it for it in scales if it.text], say)
    lines = [it for it in scales if it.above is not None]
    ways = {it.line for it in lines}
    if len(ways) == 1 and None not in ways:
        found.factor, found.offset = ways.pop() or (Fraction(1), Fraction(0))
        lows, highs = [it.low for it in lines if it.low is not None], [it.high for it in lines if it.high is not None]
        if len(lows) == len(highs) == len(lines):
            found.low, found.high = min(lows), max(highs)
    elif lines:
        found.raw_since = category or "without a category"
        say(f"conversion {found.raw_since} is no straight line, so that values stay raw")
    elif not scales and category not in ("IDENTICAL", ""):
        say(f"conversion {category} has no scales, so that values stay raw")
    return found


def named_values(scales: list[Scale], say: Say) -> dict[tuple[int, int], str]:
    """Returns the names of raw values, or of ranges of them."""
    found: dict[tuple[int, int], str] = {}
    for it in scales:
        low = it.high if it.low is None else it.low
        high = low if it.high is None else it.high
        if None in (it.low, it.high) and low is not None:
            say("a text has one limit alone, and is the name of that raw value")
        if low is None or high is None or low.denominator != 1 or high.denominator != 1 or low > high:
            say("a text has no whole raw values")
            continue
        if any(int(low) <= last and first <= int(high) for first, last in found):
            say("a raw value has several texts, of which the first one counts")
            continue
        if len(it.text) > LONGEST_TEXT:
            say(f"a text of more than {LONGEST_TEXT} characters is cut")
        found[int(low), int(high)] = it.text[:LONGEST_TEXT]
    return found
