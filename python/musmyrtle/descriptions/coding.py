"""The parts of signals that both formats have: places, codings, raw values and limits, as keys of a cluster file."""
import struct
from collections.abc import Callable
from fractions import Fraction

from musmyrtle.descriptions.conversions import Conversion
from musmyrtle.descriptions.elements import Element, path_of, shown, value_of
from musmyrtle.descriptions.network import FrameTable, SignalTable, Toml
from musmyrtle.descriptions.report import Refused, Report
from musmyrtle.descriptions.toml_text import GREATEST_INTEGER, number_text
from musmyrtle.signals.reading import LONGEST_TEXT
from musmyrtle.signals.signal import FLOATS, MOST_BITS

BIG, LITTLE, OPAQUE = "MOST-SIGNIFICANT-BYTE-FIRST", "MOST-SIGNIFICANT-BYTE-LAST", "OPAQUE"
Say = Callable[[str], None]
When = tuple[tuple[SignalTable, int], ...]
"""The selectors of a signal, each with the code at which the signal is there."""


def say_of(report: Report, name: str) -> Say:
    """Returns what notes a thing of a signal."""
    return lambda words: report.note(words, name)


def order_of(word: str, element: Element, bits: int) -> dict[str, Toml]:
    """Returns the key of an order of bytes. Raises `Refused` for a word that is none."""
    if word in (LITTLE, OPAQUE) or not word and bits == 1:
        return {}
    if word == BIG:
        return {"order": "big"}
    raise Refused("ByteOrder", path_of(element), f"it is {shown(word)}, and expected is {BIG} or {LITTLE}")


def as_bytes(keys: dict[str, Toml], bit: int, bits: int, path: str) -> None:
    """Makes a signal one of whole bytes. Raises `Refused` where it isn't."""
    if bits % 8 or bit % 8 not in (0, 7):
        raise Refused("Opaque", path, f"{bits} bits from bit {bit} on aren't whole bytes")
    keys.pop("order", None)
    keys |= {"bit": bit - bit % 8, "bytes": True}


def add_bytes(frame: FrameTable, pdu: Element, length: int | None, kind: str, at: int, update: list[int], when: When,
              report: Report) -> None:
    """Adds a PDU without signals, of so many bytes, as one signal of bytes. KIND says what it is in the description."""
    report.note(f"a PDU of the {kind} has no signals here, and is one of bytes" if length else
                f"a PDU of the {kind} has no signals and no length, and is left out", pdu.name)
    if length:
        keys: dict[str, Toml] = {"name": pdu.name, "bit": 8 * at, "bits": 8 * length, "bytes": True}
        if update:
            keys["update"] = list(update)
        frame.signals.append(SignalTable(path_of(pdu), keys, when))


def coded(keys: dict[str, Toml], kind: str, bits: int, path: str) -> None:
    """Adds the key of a coding: `float`, `signed` or nothing. Raises `Refused` for bits that the coding can't have."""
    if kind == "float" and bits not in FLOATS:
        raise Refused("FloatLength", path, f"a float has 16, 32 or 64 bits, and not {bits}")
    if not 1 <= bits <= MOST_BITS:
        raise Refused("Length", path, f"it has {bits} bits, and a number has 1 to {MOST_BITS}")
    if kind:
        keys[kind] = True


def converted(table: SignalTable, conversion: Conversion, say: Say) -> None:
    """Adds the keys of a conversion."""
    if "bytes" in table.keys:
        if conversion.keys() or conversion.raw_since:
            say("whole bytes have no conversion")
        return
    if "float" in table.keys and conversion.values:
        say("a float has no names of values")
        conversion.values = None
    if number_text(conversion.factor) is None or number_text(conversion.offset) is None:
        conversion.raw_since = "with too many digits"
        conversion.factor, conversion.offset = Fraction(1), Fraction(0)
        say("a factor or an offset has too many digits, so that values stay raw")
    table.keys |= conversion.keys()
    if conversion.raw_since:
        table.comment = f"conversion {conversion.raw_since}"
        table.keys.pop("min", None)
        table.keys.pop("max", None)


def fits_float(value: Fraction, bits: int) -> bool:
    """Returns whether a float of so many bits can have a value."""
    try:
        struct.pack(FLOATS[bits], float(value))
    except OverflowError:
        return False
    return True


def with_unit(table: SignalTable, unit: str, say: Say) -> None:
    """Adds a unit, if there is one."""
    if len(unit) > LONGEST_TEXT:
        say(f"a unit of more than {LONGEST_TEXT} characters is cut")
    if unit:
        table.keys["unit"] = unit[:LONGEST_TEXT]


def with_raw(table: SignalTable, key: str, element: Element, say: Say) -> None:
    """Adds a raw value, unless the signal can't have it."""
    keys, value = table.keys, value_of(element)
    bits = int(str(keys["bits"]))
    is_signed, is_float = "signed" in keys, "float" in keys
    least, most = (-(1 << bits - 1), (1 << bits - 1) - 1) if is_signed else (0, min((1 << bits) - 1, GREATEST_INTEGER))
    if "bytes" in keys or (not fits_float(value, bits) if is_float else
                           value.denominator != 1 or not least <= value <= most):
        say(f"its {key} value is none that the signal can have in a cluster file")
    elif key == "invalid" or value:
        keys[key] = float(value) if is_float else int(value)


def note_outside(frame: FrameTable, pdu: str, length: int, signals: list[SignalTable], report: Report) -> None:
    """Notes a PDU that ends at a byte after its frame, and signals that end after their PDU."""
    if length > frame.length:
        report.note("PDUs end after the length of their frame", pdu)
    for it in signals:
        bit, bits = int(str(it.keys["bit"])), int(str(it.keys["bits"]))
        begin = 8 * (bit // 8) + 7 - bit % 8 if "order" in it.keys else bit
        if begin + bits > 8 * length:
            report.note("signals end after the length of their PDU", it.name)


def clash_free(signals: list[SignalTable], report: Report) -> None:
    """Renames signals that stand twice in a frame, to `name.2`."""
    taken: set[str] = set()
    for it in signals:
        name, count = it.name, 2
        while it.name in taken:
            it.keys["name"] = f"{name}.{count}"
            count += 1
        if it.name != name:
            report.note("signals have a name of their frame twice, and are renamed", it.name)
        taken.add(it.name)


def physical_limits(ends: tuple[Fraction | None, Fraction | None], conversion: Conversion, is_raw: bool
                    ) -> dict[str, Toml]:
    """Returns the keys of limits, which are raw or physical."""
    low, high = (None if it is None else conversion.physical(it) if is_raw else it for it in ends)
    if is_raw and conversion.factor < 0:
        low, high = high, low
    return {key: it for key, it in (("min", low), ("max", high)) if it is not None and number_text(it) is not None}
