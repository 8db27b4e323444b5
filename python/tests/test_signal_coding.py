"""Tests of the coding of signals: values by hand, and round trips beside a reference that goes bit by bit.

Bit 8n + k is bit k of byte n, and 0 is the least significant one. The position is the least significant bit of a
little-endian signal, and the most significant bit of a big-endian one.
"""
import importlib.util
import math
import random
import struct
import unittest
from decimal import Decimal
from fractions import Fraction

from musmyrtle.signals.layout import Layout
from musmyrtle.signals.refusals import BadValue, SignalValue, UnknownSignal
from musmyrtle.signals.signal import Coding, NamedValues, Order, Signal
from musmyrtle.signals.values import is_in_range, physical, raw_of, value_of

ROUNDS = 5000
BIG, LITTLE = Order.BIG, Order.LITTLE


def bits_of(signal: Signal) -> list[int]:
    """Returns the numbers of a signal's bits, the most significant one first, one step at a time."""
    if signal.order is LITTLE:
        return list(range(signal.bit + signal.bits - 1, signal.bit - 1, -1))
    found, byte, bit = [], signal.bit // 8, signal.bit % 8
    for _ in range(signal.bits):
        found.append(8 * byte + bit)
        byte, bit = (byte, bit - 1) if bit else (byte + 1, 7)
    return found


def slow_code(signal: Signal, payload: bytes) -> int:
    """Returns the bits of a signal as a number."""
    code = 0
    for number in bits_of(signal):
        code = 2 * code + (payload[number // 8] >> number % 8 & 1)
    return code


def slow_put(signal: Signal, payload: bytearray, code: int) -> None:
    """Writes the bits of a number into a signal."""
    for place, number in enumerate(reversed(bits_of(signal))):
        payload[number // 8] = payload[number // 8] & ~(1 << number % 8) | (code >> place & 1) << number % 8


def random_signal(chance: random.Random, length: int) -> Signal:
    """Returns a signal that fits into so many bytes."""
    while True:
        coding = chance.choice((Coding.UNSIGNED, Coding.SIGNED, Coding.FLOAT))
        bits = chance.choice((16, 32, 64)) if coding is Coding.FLOAT else chance.randint(1, 64)
        signal = Signal("it", chance.randrange(8 * length), bits, chance.choice((BIG, LITTLE)), coding)
        if max(bits_of(signal)) < 8 * length:
            return signal


class TestByHand(unittest.TestCase):
    def test_raw_values(self) -> None:
        """0x12 is 0001 0010, 0x34 is 0011 0100, 0x56 is 0101 0110."""
        payload = bytes.fromhex("123456")
        for signal, raw in (
                (Signal("it", 0, 8), 0x12), (Signal("it", 8, 16), 0x5634), (Signal("it", 7, 8, BIG), 0x12),
                (Signal("it", 7, 16, BIG), 0x1234), (Signal("it", 7, 24, BIG), 0x123456), (Signal("it", 4, 8), 0x41),
                (Signal("it", 3, 8, BIG), 0x23), (Signal("it", 3, 12, BIG), 0x234), (Signal("it", 1, 1), 1),
                (Signal("it", 0, 1), 0), (Signal("it", 1, 1, BIG), 1), (Signal("it", 10, 3), 0b101),
                (Signal("it", 12, 3, BIG), 0b101), (Signal("it", 1, 2, BIG), 0b10), (Signal("it", 1, 3, BIG), 0b100)):
            with self.subTest(signal=signal):
                self.assertEqual(signal.raw_in(payload), raw)

    def test_signed(self) -> None:
        for bits, code, raw in ((8, "ff", -1), (8, "80", -128), (8, "7f", 127), (4, "08", -8), (4, "f7", 7),
                                (1, "01", -1)):
            self.assertEqual(Signal("it", 0, bits, coding=Coding.SIGNED).raw_in(bytes.fromhex(code)), raw)

    def test_floats(self) -> None:
        """1.5 is 1.1 in binary: 0 01111 1000000000, 0 01111111 1.., 0 01111111111 1.."""
        for bits, code in ((16, "3e00"), (32, "3fc00000"), (64, "3ff8000000000000")):
            big, little = bytes.fromhex(code), bytes.fromhex(code)[::-1]
            self.assertEqual(Signal("it", 7, bits, BIG, Coding.FLOAT).raw_in(big), 1.5)
            self.assertEqual(Signal("it", 0, bits, LITTLE, Coding.FLOAT).raw_in(little), 1.5)
            payload = bytearray(len(big))
            Signal("it", 7, bits, BIG, Coding.FLOAT).put(payload, 1.5)
            self.assertEqual(payload, big)

    def test_bytes(self) -> None:
        signal, payload = Signal("it", 8, 16, coding=Coding.BYTES), bytearray(4)
        signal.put(payload, b"\1\2")
        self.assertEqual((payload, signal.raw_in(payload)), (b"\0\1\2\0", b"\1\2"))
        self.assertEqual((signal.end, signal.mask), (24, 0xFFFF00))
        self.assertEqual(Signal("it", 15, 16, BIG, Coding.BYTES).mask, 0xFFFF00)

    def test_update_bits(self) -> None:
        signal = Signal("it", 0, 8, update=(8, 17))
        for payload, is_new in (("000102", True), ("00ffff", True), ("000100", False), ("000002", False),
                                ("0001", False)):
            self.assertEqual(signal.is_new_in(bytes.fromhex(payload)), is_new, payload)
        self.assertTrue(Signal("it", 0, 8).is_new_in(b"\0"))


class TestReference(unittest.TestCase):
    def test_numbers(self) -> None:
        """Random signals in random payloads are read and written as bit by bit, and no other bit changes."""
        chance = random.Random(98)
        for _ in range(ROUNDS):
            length = chance.randint(1, 20) if chance.random() < 0.5 else 254
            signal = random_signal(chance, max(8, length))
            payload = chance.randbytes(max(8, length))
            code, raw = slow_code(signal, payload), signal.raw_in(payload)
            self.assertEqual(signal.mask, sum(1 << it for it in bits_of(signal)))
            if signal.coding is Coding.FLOAT:
                self.assertEqual(struct.pack({16: "e", 32: "f", 64: "d"}[signal.bits], raw),
                                 struct.pack({16: "e", 32: "f", 64: "d"}[signal.bits], struct.unpack(
                                     {16: ">e", 32: ">f", 64: ">d"}[signal.bits],
                                     code.to_bytes(signal.bits // 8, "big"))[0]))
            else:
                is_negative = signal.coding is Coding.SIGNED and code >> signal.bits - 1
                self.assertEqual(raw, code - 2**signal.bits if is_negative else code)
            self.assertTrue(signal.fits(raw))
            fresh = chance.randbytes(len(payload))
            written, expected = bytearray(fresh), bytearray(fresh)
            signal.put(written, raw)
            slow_put(signal, expected, code)
            if not (isinstance(raw, float) and math.isnan(raw)):
                self.assertEqual(written, expected, signal)

    def test_physical_values(self) -> None:
        """Each raw value has a physical one from which it comes again, also with factors such as 1/3."""
        chance = random.Random(99)
        for _ in range(ROUNDS):
            signal = random_signal(chance, 16)
            if signal.coding is Coding.FLOAT:
                continue
            factor = Fraction(chance.choice((1, -1)) * chance.randint(1, 1000), chance.choice((1, 3, 7, 10, 100, 1000)))
            offset = Fraction(chance.randint(-1000, 1000), chance.choice((1, 3, 10)))
            signal = Signal("it", signal.bit, signal.bits, signal.order, signal.coding, factor, offset)
            least, most = signal.limits
            raw = chance.randint(least, most)
            self.assertEqual(raw_of(signal, raw * factor + offset), raw)
            if signal.bits <= 32:
                value = physical(signal, raw)
                assert isinstance(value, int | float)
                self.assertEqual(raw_of(signal, value), raw)

    @unittest.skipUnless(importlib.util.find_spec("bitstruct"), "bitstruct isn't installed")
    def test_bitstruct(self) -> None:
        """The bits of big-endian signals follow one another in a payload as bitstruct takes them."""
        bitstruct, chance = importlib.import_module("bitstruct"), random.Random(100)
        for _ in range(ROUNDS):
            signal = random_signal(chance, 16)
            payload = chance.randbytes(16)
            kind = {Coding.UNSIGNED: "u", Coding.SIGNED: "s", Coding.FLOAT: "f"}[signal.coding]
            gap = signal.begin if signal.order is BIG else 128 - signal.end
            taken = payload if signal.order is BIG else payload[::-1]
            found = bitstruct.unpack(f"{f'p{gap}' if gap else ''}{kind}{signal.bits}", taken)[0]
            raw = signal.raw_in(payload)
            self.assertTrue(found == raw or math.isnan(found) and math.isnan(float(raw)), signal)

    @unittest.skipUnless(importlib.util.find_spec("canmatrix"), "canmatrix isn't installed")
    def test_canmatrix(self) -> None:
        canmatrix, chance = importlib.import_module("canmatrix"), random.Random(101)
        for _ in range(200):
            signal = random_signal(chance, 8)
            if signal.coding is Coding.FLOAT and signal.bits == 16:
                # It has no floats of 16 bits.
                continue
            other = canmatrix.Signal("it", size=signal.bits, is_little_endian=signal.order is LITTLE,
                                     is_signed=signal.coding is Coding.SIGNED, is_float=signal.coding is Coding.FLOAT)
            other.set_startbit(signal.bit, bitNumbering=1)
            frame = canmatrix.Frame("it", size=8)
            frame.add_signal(other)
            payload = chance.randbytes(8)
            found, raw = frame.unpack(payload)["it"].raw_value, signal.raw_in(payload)
            self.assertTrue(found == raw or math.isnan(found) and math.isnan(float(raw)), signal)


SPEED = Signal("speed", 7, 16, BIG, factor=Fraction(1, 100), unit="km/h", least=Fraction(0),
               most=Fraction(65534, 100), invalid=65535)
GEAR = Signal("gear", 28, 4, invalid=15, initial=1, values=(
    NamedValues(0, 0, "park"), NamedValues(1, 1, "drive"), NamedValues(2, 5, "reserved")))
NARROW = Signal("narrow", 0, 8, least=Fraction(0), most=Fraction(100), values=(NamedValues(254, 254, "error"),))


class TestValues(unittest.TestCase):
    def test_read(self) -> None:
        third = Signal("third", 0, 8, factor=Fraction(1, 3), offset=Fraction(-1))
        named = Signal("named", 0, 4, invalid=15, values=(NamedValues(15, 15, "invalid"),))
        for signal, raw, value in ((named, 15, None), (SPEED, 8750, 87.5), (SPEED, 65535, None),
                                   (SPEED, 100, 1), (GEAR, 1, "drive"),
                                   (GEAR, 3, "reserved"), (GEAR, 15, None), (GEAR, 9, 9), (third, 3, 0),
                                   (third, 4, 1 / 3), (Signal("it", 0, 8), 7, 7)):
            self.assertEqual(value_of(signal, raw), value)
            self.assertIs(type(value_of(signal, raw)), type(value))

    def test_given(self) -> None:
        given: tuple[tuple[Signal, SignalValue, int], ...] = (
            (SPEED, 87.5, 8750), (SPEED, Fraction(175, 2), 8750), (SPEED, Decimal("87.5"), 8750), (SPEED, None, 65535),
            (SPEED, 0.004, 0), (SPEED, 0.005, 1), (SPEED, 0.014, 1), (SPEED, 655.34, 65534), (GEAR, "park", 0),
            (GEAR, 3, 3), (GEAR, True, 1), (NARROW, "error", 254), (NARROW, 254, 254), (NARROW, 100, 100))
        for signal, value, raw in given:
            self.assertEqual(raw_of(signal, value), raw, (signal.name, value))

    def test_refused(self) -> None:
        refused: tuple[tuple[Signal, SignalValue, str], ...] = (
            (SPEED, 655.35, "speed is 655.35, and has to be a number, 0 to 655.34 km/h"),
            (SPEED, -0.01, "speed is -0.01, and has to be a number, 0 to 655.34 km/h"),
            (SPEED, float("nan"), "speed is nan, and"), (SPEED, b"1", "speed is b'1', and has to be a number"),
            (GEAR, "reserved", "gear is 'reserved', the name of several raw values, 2-5: give a number"),
            (GEAR, "drve", "'park', 'drive', 'reserved' or a number from 0 to 15; is 'drive' meant?"),
            (GEAR, 15, "gear is 15, which is the invalid value: give None"), (GEAR, 16, "a number from 0 to 15"),
            (NARROW, 253.6, "narrow is 253.6, and has to be 'error' or a number, 0 to 100"),
            (NARROW, 101, "narrow is 101, and has to be 'error' or a number, 0 to 100"),
            (NARROW, None, "narrow has no invalid value"),
            (Signal("it", 0, 16, coding=Coding.FLOAT), 65520, "it is 65520, and has to be a number of 16 bits"),
            (Signal("it", 0, 16, coding=Coding.BYTES), b"1", "it is 1 bytes, and has to be 2 bytes"),
            (Signal("it", 0, 16, coding=Coding.BYTES), 1, "it is 1, and has to be 2 bytes"))
        for signal, value, words in refused:
            with self.subTest(value=value), self.assertRaises(BadValue) as raised:
                raw_of(signal, value)
            self.assertIn(words, str(raised.exception))

    def test_floats(self) -> None:
        single = Signal("it", 0, 32, coding=Coding.FLOAT, invalid=math.nan)
        self.assertEqual(raw_of(single, 0.5), 0.5)
        self.assertEqual(raw_of(single, math.inf), math.inf)
        self.assertIsNone(value_of(single, math.nan))
        self.assertEqual(value_of(single, -math.inf), -math.inf)
        moved = Signal("it", 0, 32, coding=Coding.FLOAT, factor=Fraction(2), offset=Fraction(1), least=Fraction(0))
        self.assertEqual((raw_of(moved, 5), physical(moved, 2.0)), (2.0, 5.0))
        scaled = Signal("it", 0, 64, coding=Coding.FLOAT, factor=Fraction(10)**100)
        self.assertEqual(physical(scaled, -1e300), -math.inf)

    def test_ranges(self) -> None:
        for signal, raw, is_right in ((SPEED, 65534, True), (SPEED, 65535, True), (NARROW, 100, True),
                                      (NARROW, 101, False), (NARROW, 254, True)):
            self.assertEqual(is_in_range(signal, raw), is_right)


def layout(*signals: Signal, length: int = 4, unused: int = 0) -> Layout:
    return Layout("Data", length, {it.name: it for it in signals}, unused)


class TestFrames(unittest.TestCase):
    DATA = layout(SPEED, GEAR, unused=0xA5)
    MODES = layout(Signal("mode", 0, 8, initial=1, update=(31,)),
                   Signal("torque", 8, 8, when=(("mode", 1),), initial=7),
                   Signal("level", 8, 16, when=(("mode", 2),), initial=0x0909), unused=0xFF)

    def test_initial_values(self) -> None:
        """Speed 0 is in bytes 0 and 1, and gear 1 in the upper half of byte 3. The other bits are unused."""
        self.assertEqual(self.DATA.encoded({}).hex(), "0000a515")

    def test_given_values(self) -> None:
        """87.5 km/h is 8750, which is 0x222e."""
        payload = self.DATA.encoded({"speed": 87.5, "gear": "park"})
        self.assertEqual(payload.hex(), "222ea505")
        self.assertEqual({it.signal.name: it.value for it in self.DATA.reads(payload)},
                         {"speed": 87.5, "gear": "park"})

    def test_others_stay(self) -> None:
        self.assertEqual(self.DATA.encoded({"gear": "drive"}, bytes.fromhex("222e0000")).hex(), "222e0010")

    def test_a_longer_payload(self) -> None:
        """The bytes after the frame are 0, and aren't read."""
        self.assertEqual(self.DATA.encoded({}, length=6).hex(), "0000a5150000")
        self.assertEqual(self.DATA.encoded({}, bytes.fromhex("0000a515ffff"), 6).hex(), "0000a5150000")
        whole = layout(SPEED, length=1)
        self.assertEqual([it.signal.name for it in whole.reads(bytes(4))], [])
        with self.assertRaisesRegex(UnknownSignal, "the payload has 1 bytes"):
            whole.read("speed", bytes(4))

    def test_update_bits(self) -> None:
        """Bit 24 is of both, as that of a group, and bit 25 of one alone."""
        both = layout(Signal("a", 0, 8, update=(24,)), Signal("b", 8, 8, update=(24, 25)), unused=0xFF)
        self.assertEqual(both.encoded({}).hex(), "0000fffc")
        self.assertEqual(both.encoded({"a": 1}).hex(), "0100fffd")
        self.assertEqual(both.encoded({"b": 1}, both.encoded({"a": 1})).hex(), "0101ffff")
        self.assertEqual([it.is_new for it in both.reads(both.encoded({"a": 1}))], [True, False])

    def test_multiplexed(self) -> None:
        """Torque is there with mode 1. Level implies mode 2, and both bytes are its own."""
        first = self.MODES.encoded({})
        self.assertEqual(first.hex(), "0107ff7f")
        second = self.MODES.encoded({"level": 0x1234}, first)
        self.assertEqual(second.hex(), "023412ff")
        self.assertEqual([it.signal.name for it in self.MODES.reads(second)], ["mode", "level"])
        third = self.MODES.encoded({"mode": 1}, second)
        self.assertEqual(third.hex(), "0107ffff")
        self.assertEqual(self.MODES.encoded({"mode": 3}, second).hex(), "03ffffff")
        self.assertEqual(self.MODES.encoded({"mode": 2}, second).hex(), "023412ff")

    def test_multiplexed_refusals(self) -> None:
        for given in ({"mode": 1, "level": 1}, {"level": 1, "mode": 1}, {"torque": 1, "level": 1}):
            with self.subTest(given=given), self.assertRaisesRegex(BadValue, "is there while mode is"):
                self.MODES.encoded(given)
        with self.assertRaisesRegex(UnknownSignal, "level of frame Data is there while mode is 2, and here mode is 1"):
            self.MODES.read("level", self.MODES.encoded({}))

    def test_unknown_signals(self) -> None:
        with self.assertRaisesRegex(UnknownSignal, "no signal 'sped'; is speed meant"):
            self.DATA.encoded({"sped": 1})
        with self.assertRaisesRegex(UnknownSignal, "no signal 'x'; it has speed and gear"):
            self.DATA.read("x", bytes(4))

    def test_a_short_payload(self) -> None:
        self.assertEqual([it.signal.name for it in self.DATA.reads(bytes(2))], ["speed"])
        with self.assertRaisesRegex(UnknownSignal, "the payload has 2 bytes, and gear of frame Data ends in byte 4"):
            self.DATA.read("gear", bytes(2))

    def test_shared_bits(self) -> None:
        """Of two signals in the same bits the given one counts."""
        union = layout(Signal("all", 0, 16), Signal("low", 0, 8), length=2)
        self.assertEqual(union.encoded({"all": 0x0102}).hex(), "0201")
        self.assertEqual(union.encoded({"low": 7}, b"\2\1").hex(), "0701")

    def test_random_frames(self) -> None:
        """Given values are read again, and all other signals of an earlier payload are kept."""
        chance = random.Random(102)
        for _ in range(300):
            signals, taken = [], 0
            for number in range(12):
                it = random_signal(chance, 32)
                if not it.mask & taken and it.coding is not Coding.FLOAT:
                    taken |= it.mask
                    signals.append(Signal(f"s{number}", it.bit, it.bits, it.order, it.coding))
            made = layout(*signals, length=32, unused=chance.randrange(256))
            values = {it.name: chance.randint(*it.limits) for it in signals}
            given = {name: value for name, value in values.items() if chance.random() < 0.5}
            before = made.encoded(values)
            self.assertEqual({it.signal.name: it.raw for it in made.reads(before)}, values)
            unused = int.from_bytes(bytes([made.unused]) * 32, "little") & ~taken
            self.assertEqual(int.from_bytes(before, "little") & ~taken, unused)
            after = made.encoded(given)
            expected = {it.name: given.get(it.name, 0) for it in signals}
            self.assertEqual({it.signal.name: it.raw for it in made.reads(after)}, expected)
            self.assertEqual(made.encoded(given, before), before)


if __name__ == "__main__":
    unittest.main()
