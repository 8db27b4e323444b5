"""The values of signals as engineers mean them: physical numbers, names of raw values, bytes, and None for invalid."""
import math
from decimal import Decimal
from fractions import Fraction

from musmyrtle.findings import joined, nearest
from musmyrtle.signals.exact import Number, exact_value, plain
from musmyrtle.signals.refusals import BadValue, Raw, ReadValue, SignalValue
from musmyrtle.signals.signal import Coding, Signal
from musmyrtle.visible import cut

MOST_NAMES = 12
"""The names of values that a message has."""


def physical(signal: Signal, raw: Raw) -> int | float | bytes | None:
    """Returns the physical value of a raw one, or None if it is the invalid one."""
    if signal.is_invalid(raw):
        return None
    if isinstance(raw, bytes) or signal.factor == 1 and not signal.offset:
        return raw
    if isinstance(raw, float) and not math.isfinite(raw):
        return raw
    if isinstance(raw, int):
        a, b, c = signal.line
        whole, rest = divmod(raw * a + b, c)
        return (raw * a + b) / c if rest else whole
    value = Fraction(raw) * signal.factor + signal.offset
    try:
        return float(value)
    except OverflowError:
        return math.inf if value > 0 else -math.inf


def value_of(signal: Signal, raw: Raw) -> ReadValue:
    """Returns the name of a raw value if it has one, and otherwise the physical value."""
    name = None if signal.is_invalid(raw) else signal.name_of(raw)
    return physical(signal, raw) if name is None else name


def is_in_range(signal: Signal, raw: Raw) -> bool:
    """Returns whether a raw value is one that the limits allow, or has a name, or is the invalid one."""
    if signal.least is signal.most is None or isinstance(raw, bytes) or signal.is_invalid(raw):
        return True
    if isinstance(raw, int):
        least, most = signal.allowed
        return least <= raw <= most or signal.name_of(raw) is not None
    if isinstance(raw, float) and not math.isfinite(raw):
        return signal.least is None and signal.most is None
    return is_within(signal, Fraction(raw) * signal.factor + signal.offset)


def is_within(signal: Signal, value: Fraction) -> bool:
    """Returns whether a physical value is within the limits."""
    return (signal.least is None or value >= signal.least) and (signal.most is None or value <= signal.most)


def limits_text(signal: Signal) -> str:
    """Returns the limits for a message, as `0 to 655.34 km/h`."""
    ends = [str(it) if it is None or it.denominator != 1 and len(str(plain(it))) > 18 else str(plain(it))
            for it in (signal.least, signal.most)]
    unit = f" {signal.unit}" if signal.unit else ""
    if signal.least is None:
        return f"at most {ends[1]}{unit}"
    return f"{ends[0]} or more{unit}" if signal.most is None else f"{ends[0]} to {ends[1]}{unit}"


def raw_of(signal: Signal, value: SignalValue) -> Raw:
    """Returns the raw value that is nearest to a value. Raises `BadValue` for one that the signal can't have."""
    if value is None:
        if signal.invalid is None:
            raise BadValue(f"{signal.name} has no invalid value; expected {right_value(signal)}")
        return signal.invalid
    if signal.coding is Coding.BYTES:
        return raw_bytes(signal, value)
    if isinstance(value, str):
        return raw_named(signal, value)
    if not isinstance(value, int | float | Fraction | Decimal):
        raise BadValue(f"{signal.name} is {cut(repr(value))}, and has to be {right_value(signal)}")
    return raw_number(signal, value)


def raw_bytes(signal: Signal, value: SignalValue) -> bytes:
    """Returns the raw value of a signal of whole bytes."""
    if not isinstance(value, bytes | bytearray) or 8 * len(value) != signal.bits:
        found = f"{len(value)} bytes" if isinstance(value, bytes | bytearray) else cut(repr(value))
        raise BadValue(f"{signal.name} is {found}, and has to be {right_value(signal)}")
    return bytes(value)


def raw_named(signal: Signal, name: str) -> int:
    """Returns the raw value that alone has a name."""
    found = [it for it in signal.values if it.name == name]
    if not found:
        meant = nearest(name, [it.name for it in signal.values])
        hint = f"; is {cut(meant)!r} meant?" if meant else ""
        raise BadValue(f"{signal.name} is {cut(name)!r}, and has to be {right_value(signal)}{hint}")
    if len(found) > 1 or found[0].first != found[0].last:
        raws = joined([str(it) for it in found])
        raise BadValue(f"{signal.name} is {cut(name)!r}, the name of several raw values, {raws}: give a number")
    return found[0].first


def raw_number(signal: Signal, value: Number) -> Raw:
    """Returns the raw value that is nearest to a physical one; of two the greater one."""
    number = exact_value(value)
    if number is None:
        if signal.coding is Coding.FLOAT and isinstance(value, float) and signal.least is signal.most is None:
            return value
        raise BadValue(f"{signal.name} is {cut(str(value))}, and has to be {right_value(signal)}")
    raw, is_named = nearest_raw(signal, number)
    if not signal.fits(raw) or not is_named and not is_within(signal, number):
        raise BadValue(f"{signal.name} is {cut(str(value))}, and has to be {right_value(signal)}")
    if signal.is_invalid(raw):
        raise BadValue(f"{signal.name} is {cut(str(value))}, which is the invalid value: give None for that one")
    return raw


def nearest_raw(signal: Signal, number: Fraction) -> tuple[int | float, bool]:
    """Returns the raw value that is nearest to a physical one, and whether it has a name and is exactly this value."""
    if signal.coding is Coding.FLOAT:
        return float((number - signal.offset) / signal.factor), False
    a, b, c = signal.line
    top, bottom = number.numerator * c - number.denominator * b, number.denominator * a
    raw = (2 * top + bottom) // (2 * bottom)
    return raw, raw * bottom == top and signal.name_of(raw) is not None


def right_value(signal: Signal) -> str:
    """Returns the values that a signal can have, for a message."""
    if signal.coding is Coding.BYTES:
        return f"{signal.bits // 8} bytes"
    names = list(dict.fromkeys(it.name for it in signal.values))
    named = [repr(cut(it)) for it in names[:MOST_NAMES]] + ["another name"] * (len(names) > MOST_NAMES)
    if signal.least is not None or signal.most is not None:
        numbers = f"a number, {limits_text(signal)}"
    elif signal.coding is Coding.FLOAT:
        numbers = f"a number of {signal.bits} bits"
    else:
        ends = sorted(plain(Fraction(it) * signal.factor + signal.offset) for it in signal.limits)
        numbers = f"a number from {ends[0]} to {ends[1]}"
    return joined([*named, numbers], "or")
