"""The tables `[[frame]]` of a cluster file, or of the file of its key `signals`: layouts, and what is wrong with them.

The programs ignore these tables, so a fault in them refuses no cluster. Commands and host programs that need a signal
refuse all signals of a file with a fault.
"""
import re
from collections.abc import Iterable
from dataclasses import replace
from fractions import Fraction
from typing import Any

from musmyrtle.cluster import Fault, Reader
from musmyrtle.findings import joined, shown
from musmyrtle.places import Path
from musmyrtle.signals.exact import RIGHT, exact_in_file
from musmyrtle.signals.layout import Layout
from musmyrtle.signals.refusals import Raw
from musmyrtle.signals.signal import FLOATS, MOST_BITS, MOST_BYTES, Coding, NamedValues, Order, Signal
from musmyrtle.visible import cut

FRAME_KEYS = ("name", "bytes", "unused", "signal")
SIGNAL_KEYS = ("name", "bit", "bits", "order", "signed", "float", "bytes", "factor", "offset", "unit", "min", "max",
               "values", "initial", "invalid", "update", "when")
NAME = re.compile(r"[A-Za-z0-9_.-]{1,128}")
RIGHT_NAME = "a string of 1 to 128 letters, digits, `_`, `-` and `.`"
LONGEST_TEXT, MOST_SIGNALS = 128, 1024
CODINGS = {"signed": Coding.SIGNED, "float": Coding.FLOAT, "bytes": Coding.BYTES}
RAWS = re.compile(r"(-?[0-9]{1,20})(?:-(-?[0-9]{1,20}))?")
HEX = re.compile("x(?:[0-9a-f]{2})*")
OF_NUMBERS = ("factor", "offset", "min", "max", "values")
"""The keys that a signal of whole bytes can't have."""


class TableReader(Reader):
    """Reads the keys of a frame or a signal, which `Reader` doesn't know from cluster files."""

    def name(self) -> str | None:
        """Returns the name of the table, or None after a fault."""
        if "name" not in self.table:
            self.missing("name", RIGHT_NAME)
            return None
        value = self.table["name"]
        if isinstance(value, str) and NAME.fullmatch(value):
            return value
        self.wrong("name", RIGHT_NAME)
        return None

    def exact(self, key: str) -> Fraction | None:
        """Returns the number of a key, or None if it is absent or after a fault."""
        if key not in self.table:
            return None
        value = exact_in_file(self.table[key])
        if value is None:
            self.wrong(key, RIGHT)
        return value

    def text(self, key: str) -> str:
        """Returns the text of a key, or an empty one."""
        value = self.table.get(key, "")
        if isinstance(value, str) and len(value) <= LONGEST_TEXT:
            return value
        self.wrong(key, f"a string of at most {LONGEST_TEXT} characters")
        return ""


class SignalReading:
    """The reading of one table of a signal."""

    def __init__(self, reader: TableReader, name: str, frame_bytes: int) -> None:
        self.reader, self.name, self.frame_bytes = reader, name, frame_bytes

    def read(self) -> Signal | None:
        """Returns the signal, or None after a fault."""
        reader, before = self.reader, len(self.reader.faults)
        coding = self.coding()
        order = Order(reader.word("order", ("little", "big"))) if "order" in reader.table else Order.LITTLE
        bit = reader.number("bit", 0, 8 * self.frame_bytes - 1, None, f", since the frame has {self.frame_bytes} bytes")
        bits = reader.number("bits", 1, 8 * MOST_BYTES if coding is Coding.BYTES else MOST_BITS)
        if len(reader.faults) > before:
            return None
        signal = Signal(self.name, bit, bits, order, coding)
        self.check_place(signal)
        if len(reader.faults) > before:
            return None
        signal = self.with_numbers(signal)
        signal = replace(signal, unit=reader.text("unit"), values=self.values(), update=self.update(), when=self.when())
        signal = replace(signal, initial=self.raw(signal, "initial", self.usual(signal)),
                         invalid=self.raw(signal, "invalid", None) if "invalid" in reader.table else None)
        return None if len(reader.faults) > before else signal

    def coding(self) -> Coding:
        """Returns the coding, of which at most one key may be true."""
        found = [key for key in CODINGS if self.reader.flag(key)]
        for key in found[1:]:
            self.reader.wrong(key, f"at most one of {joined([f'`{it}`' for it in CODINGS])}, and `{found[0]}` is true")
        return CODINGS[found[0]] if found else Coding.UNSIGNED

    def check_place(self, signal: Signal) -> None:
        """Notes the fault of a signal whose bits can't be those of its coding, or that ends after the frame."""
        reader = self.reader
        if signal.coding is Coding.FLOAT and signal.bits not in FLOATS:
            reader.wrong("bits", "16, 32 or 64, since `float` is true")
        if signal.coding is Coding.BYTES:
            first = 7 if signal.order is Order.BIG else 0
            if signal.bits % 8:
                reader.wrong("bits", "a multiple of 8, since `bytes` is true")
            if signal.bit % 8 != first:
                reader.wrong("bit", f"bit {first} of a byte, as {8 * (signal.bit // 8) + first}, since `bytes` is true "
                                    f'and `order` is "{signal.order.value}"')
            for key in (it for it in OF_NUMBERS if it in reader.table):
                reader.wrong(key, "no such key, since `bytes` is true")
        if signal.end > 8 * self.frame_bytes:
            room = 8 * self.frame_bytes - signal.begin
            headline = f"{reader.who} ends in byte {-(-signal.end // 8)}, and the frame has {self.frame_bytes} bytes"
            reader.note(headline, f"From bit {signal.bit} on it has room for {room} bits. Expected fewer `bits`, "
                                  f'another `bit`, or the other `order` than "{signal.order.value}".',
                        (*reader.path, "bits"))

    def with_numbers(self, signal: Signal) -> Signal:
        """Returns the signal with its factor, offset and limits."""
        reader = self.reader
        factor, offset, least, most = map(reader.exact, ("factor", "offset", "min", "max"))
        if factor is not None and not factor:
            reader.wrong("factor", "another number than 0, by which each raw value would have the same physical one")
        if least is not None and most is not None and least > most:
            reader.wrong("min", f"a number not above `max`, which is {shown(reader.table['max'])}")
        return replace(signal, factor=Fraction(1) if factor is None else factor,
                       offset=Fraction(0) if offset is None else offset, least=least, most=most)

    def values(self) -> tuple[NamedValues, ...]:
        """Returns the named raw values in ascending order."""
        reader, found = self.reader, list[tuple[NamedValues, str]]()
        held = reader.table.get("values", {})
        if not isinstance(held, dict) or "values" in reader.table and reader.table.get("float") is True:
            right = "no such key, since `float` is true" if isinstance(held, dict) else \
                'a table of names, as {0 = "park", 2-5 = "reserved"}'
            reader.wrong("values", right)
            return ()
        for key, name in held.items():
            raws = RAWS.fullmatch(key)
            first, last = (int(raws[1]), int(raws[2] or raws[1])) if raws else (1, 0)
            path: Path = (*reader.path, "values", key)
            if first > last:
                reader.note(f"`values` of {reader.who} has the key `{cut(key)}`",
                            "Expected a whole number, or two as 2-5, the first not above the second.", path)
            elif not isinstance(name, str) or not 1 <= len(name) <= LONGEST_TEXT:
                reader.note(f"`{key}` in `values` of {reader.who} is {shown(name)}",
                            f"Expected a name, a string of 1 to {LONGEST_TEXT} characters.", path)
            else:
                found.append((NamedValues(first, last, name), key))
        found.sort(key=lambda it: it[0].first)
        for (before, _), (it, key) in zip(found, found[1:]):
            if it.first <= before.last:
                reader.note(f"`{key}` in `values` of {reader.who} has raw values of `{before}` too",
                            "Expected each raw value once.", (*reader.path, "values", key))
        return tuple(it for it, _ in found)

    def update(self) -> tuple[int, ...]:
        """Returns the update bits."""
        held, last = self.reader.table.get("update", []), 8 * self.frame_bytes - 1
        if isinstance(held, list) and all(type(it) is int and 0 <= it <= last for it in held):
            return tuple(dict.fromkeys(held))
        self.reader.wrong("update", f"an array of bits, each from 0 to {last}, since the frame has {self.frame_bytes} "
                                    "bytes")
        return ()

    def when(self) -> tuple[tuple[str, int], ...]:
        """Returns the selectors with their codes."""
        held = self.reader.table.get("when", {})
        if isinstance(held, dict) and all(type(it) is int for it in held.values()):
            return tuple(held.items())
        self.reader.wrong("when", "a table of selectors with their raw values, as {mode = 1}")
        return ()

    def usual(self, signal: Signal) -> Raw:
        """Returns the initial raw value of a signal that has none in the file."""
        return bytes(signal.bits // 8) if signal.coding is Coding.BYTES else 0.0 if signal.coding is Coding.FLOAT else 0

    def raw(self, signal: Signal, key: str, usual: Raw | None) -> Any:
        """Returns the raw value of a key, or the usual one."""
        if key not in self.reader.table:
            return usual
        held: Any = self.reader.table[key]
        value: Raw | None
        if signal.coding is Coding.BYTES:
            value = bytes.fromhex(held[1:]) if isinstance(held, str) and HEX.fullmatch(held) else None
            right = f"{signal.bits // 8} bytes, as \"x{'00' * min(signal.bits // 8, 2)}\""
        elif signal.coding is Coding.FLOAT:
            value = float(held) if isinstance(held, int | float) and not isinstance(held, bool) else None
            right = f"a raw value, a number of {signal.bits} bits"
        else:
            value = held if type(held) is int else None
            right = "a raw value, a whole number from {} to {}".format(*signal.limits)
        if value is not None and signal.fits(value):
            return value
        self.reader.wrong(key, right)
        return usual


class FrameReading:
    """The reading of the tables `[[frame]]` of one document, with their faults in the order of the file."""

    def __init__(self, document: dict[str, Any]) -> None:
        self.faults: list[Fault] = []
        self.layouts: list[tuple[Layout, Path]] = []
        self.names: set[str] = set()
        """The names of all frames, also of those with faults."""
        held = document.get("frame", [])
        if isinstance(held, list):
            for number, table in enumerate(held):
                self.read_frame(number, table)
            return
        right = "Expected `[[frame]]`, with two brackets at each side, for each frame."
        self.faults.append(Fault("", f"`frame` at the top of the file is {shown(held)}", right, ("frame",)))

    def read_frame(self, number: int, table: object) -> None:
        """Reads a frame, and keeps its layout unless it has a fault."""
        path: Path = ("frame", number)
        if not isinstance(table, dict):
            self.faults.append(Fault("", f"frame {number} is {shown(table)}", "Expected a table.", path))
            return
        before, name = len(self.faults), table.get("name")
        who = f"frame {cut(name) if isinstance(name, str) and name else number}"
        reader = TableReader(table, path, who, "", FRAME_KEYS, self.faults)
        known = reader.name()
        self.names.update([known] if known else [])
        length = reader.number("bytes", 1, MOST_BYTES)
        unused = reader.number("unused", 0, 255, 0)
        if len(self.faults) == before:
            signals = self.read_signals(reader, length)
            self.check_selectors(reader, signals)
            if len(self.faults) == before and known is not None:
                self.layouts.append((Layout(known, length, {it.name: it for it, _ in signals}, unused), path))

    def read_signals(self, frame: TableReader, length: int) -> list[tuple[Signal, Path]]:
        """Returns the signals of a frame without those that have a fault."""
        held, found = frame.table.get("signal", []), dict[str, tuple[Signal, Path]]()
        if not isinstance(held, list) or len(held) > MOST_SIGNALS:
            frame.wrong("signal", f"an array of at most {MOST_SIGNALS} tables")
            return []
        places: dict[str, Path] = {}
        for number, table in enumerate(held):
            path: Path = (*frame.path, "signal", number)
            if not isinstance(table, dict):
                frame.note(f"signal {number} of {frame.who} is {shown(table)}", "Expected a table.", path)
                continue
            name = table.get("name")
            who = f"signal {cut(name) if isinstance(name, str) and name else number} of {frame.who}"
            reader = TableReader(table, path, who, "", SIGNAL_KEYS, self.faults)
            known = reader.name()
            if known is None:
                continue
            if known in places:
                reader.note(f"{frame.who} has two signals with the name {known}", "Expected each name once in a frame.",
                            (*path, "name"), [("the first one", (*places[known], "name"))])
                continue
            places[known] = path
            signal = SignalReading(reader, known, length).read()
            if signal:
                found[known] = signal, path
        return list(found.values())

    def check_selectors(self, frame: TableReader, signals: Iterable[tuple[Signal, Path]]) -> None:
        """Notes the faults of keys `when`: their selectors are numbers of the frame, which are always there."""
        known = {it.name: it for it, _ in signals}
        # The faults of a signal that couldn't be read are noted already.
        named = {it.get("name") for it in frame.table.get("signal", ()) if isinstance(it, dict)}
        for signal, path in signals:
            for name, code in signal.when:
                selector, place = known.get(name), (*path, "when", name)
                if selector is None and name not in named:
                    frame.note(f"{frame.who} has no signal {cut(name)}, which `when` of {signal.name} names",
                               f"Expected the name of a signal of {frame.who}.", place)
                elif selector and (selector.when or selector.coding in (Coding.FLOAT, Coding.BYTES)):
                    frame.note(f"`when` of {signal.name} in {frame.who} names {name}, which can't select signals",
                               "Expected a whole number, without a `when` of its own.", place)
                elif selector and not selector.fits(code):
                    least, most = selector.limits
                    frame.note(f"`{name}` in `when` of {signal.name} in {frame.who} is {code}",
                               f"Expected a raw value of {name}, from {least} to {most}.", place)
