"""A signal: where it is in a payload, how its raw value is coded there, and what the raw value means.

Bit 8n + k is bit k of byte n, and bit 0 of a byte is the least significant one. The position of a signal is its least
significant bit if its order is little, and its most significant bit if its order is big, as in AUTOSAR and DBC files.
"""
import math
import struct
from dataclasses import dataclass
from enum import Enum
from fractions import Fraction
from functools import cached_property

from musmyrtle.signals.refusals import Raw

FLOATS = {16: ">e", 32: ">f", 64: ">d"}
"""The formats of `struct` for IEEE 754, by the number of bits."""
MOST_BITS = 64
"""The bits of the longest number."""
MOST_BYTES = 254
"""The bytes of the longest payload."""


class Order(Enum):
    """The order of a signal's bytes: the least significant one first, or the most significant one."""

    LITTLE = "little"
    BIG = "big"


class Coding(Enum):
    """The coding of a raw value: two's complement, IEEE 754, whole bytes, or an unsigned number."""

    UNSIGNED = "unsigned"
    SIGNED = "signed"
    FLOAT = "float"
    BYTES = "bytes"


@dataclass(frozen=True)
class NamedValues:
    """The raw values from FIRST to LAST, which have a name."""

    first: int
    last: int
    name: str

    def __str__(self) -> str:
        return str(self.first) if self.first == self.last else f"{self.first}-{self.last}"


@dataclass(frozen=True)
class Signal:
    """A signal of a frame, as a cluster file describes it.

    The physical value is raw * factor + offset. `least` and `most` are physical; `initial` and `invalid` are raw.
    `update` are the bits that are 1 where the value is new. The signal is in a payload while each selector of `when`,
    another signal of the frame, has the raw value beside it.
    """

    name: str
    bit: int
    bits: int
    order: Order = Order.LITTLE
    coding: Coding = Coding.UNSIGNED
    factor: Fraction = Fraction(1)
    offset: Fraction = Fraction(0)
    unit: str = ""
    least: Fraction | None = None
    most: Fraction | None = None
    values: tuple[NamedValues, ...] = ()
    initial: Raw = 0
    invalid: Raw | None = None
    update: tuple[int, ...] = ()
    when: tuple[tuple[str, int], ...] = ()

    # ---- the place

    @cached_property
    def begin(self) -> int:
        """Returns the number of bits before it, in the direction in which its bits follow one another."""
        return 8 * (self.bit // 8) + 7 - self.bit % 8 if self.order is Order.BIG else self.bit

    @property
    def end(self) -> int:
        """Returns the bits that a payload must have, so that the signal is in it."""
        return self.begin + self.bits

    @cached_property
    def mask(self) -> int:
        """Returns the bits that it takes, each as the bit of its number."""
        if self.order is Order.LITTLE or self.coding is Coding.BYTES:
            return (1 << self.bits) - 1 << (8 * (self.bit // 8) if self.coding is Coding.BYTES else self.bit)
        return sum(1 << 8 * (at // 8) + 7 - at % 8 for at in range(self.begin, self.end))

    @property
    def limits(self) -> tuple[int, int]:
        """Returns the least and the greatest raw value that its bits can have, if it is an integer."""
        if self.coding is Coding.SIGNED:
            return -(1 << self.bits - 1), (1 << self.bits - 1) - 1
        return 0, (1 << self.bits) - 1

    def is_in(self, payload: bytes | bytearray) -> bool:
        """Returns whether the payload is long enough."""
        return self.end <= 8 * len(payload)

    def shift_in(self, payload: bytes | bytearray) -> int:
        """Returns the number of bits below it, if the payload is one number with the bytes in the signal's order."""
        return self.begin if self.order is Order.LITTLE else 8 * len(payload) - self.end

    @cached_property
    def line(self) -> tuple[int, int, int]:
        """Returns whole numbers a, b and c, with which the physical value is (raw * a + b) / c.

        They are much faster than fractions, and as exact.
        """
        a = self.factor.numerator * self.offset.denominator
        b = self.offset.numerator * self.factor.denominator
        return a, b, self.factor.denominator * self.offset.denominator

    @cached_property
    def allowed(self) -> tuple[float, float]:
        """Returns the least and the greatest integer that the limits allow as raw values, infinite without a limit.

        A negative factor turns them round.
        """
        ends = [None if it is None else (it - self.offset) / self.factor for it in (self.least, self.most)]
        least, most = ends if self.factor > 0 else ends[::-1]
        return -math.inf if least is None else math.ceil(least), math.inf if most is None else math.floor(most)

    # ---- raw values in payloads

    def raw_in(self, payload: bytes | bytearray) -> Raw:
        """Returns the raw value in a payload that is long enough."""
        if self.coding is Coding.BYTES:
            return bytes(payload[self.bit // 8:self.bit // 8 + self.bits // 8])
        value = int.from_bytes(payload, self.order.value) >> self.shift_in(payload) & (1 << self.bits) - 1
        if self.coding is Coding.FLOAT:
            number: float = struct.unpack(FLOATS[self.bits], value.to_bytes(self.bits // 8, "big"))[0]
            return number
        return value - (1 << self.bits) if self.coding is Coding.SIGNED and value >> self.bits - 1 else value

    def put(self, payload: bytearray, raw: Raw) -> None:
        """Writes a raw value that fits into a payload that is long enough."""
        if isinstance(raw, bytes):
            payload[self.bit // 8:self.bit // 8 + len(raw)] = raw
            return
        code = int.from_bytes(struct.pack(FLOATS[self.bits], raw), "big") if self.coding is Coding.FLOAT else int(raw)
        mask, shift = (1 << self.bits) - 1, self.shift_in(payload)
        whole = int.from_bytes(payload, self.order.value) & ~(mask << shift) | (code & mask) << shift
        payload[:] = whole.to_bytes(len(payload), self.order.value)

    def fits(self, raw: Raw) -> bool:
        """Returns whether its bits can have a raw value."""
        if self.coding is Coding.BYTES:
            return isinstance(raw, bytes) and 8 * len(raw) == self.bits
        if isinstance(raw, bytes):
            return False
        if self.coding is Coding.FLOAT:
            try:
                struct.pack(FLOATS[self.bits], raw)
            except OverflowError:
                return False
            return True
        least, most = self.limits
        return isinstance(raw, int) and least <= raw <= most

    # ---- the meaning of raw values

    def is_invalid(self, raw: Raw) -> bool:
        """Returns whether a raw value is the invalid one."""
        if isinstance(raw, float) and isinstance(self.invalid, float) and math.isnan(self.invalid):
            return math.isnan(raw)
        return self.invalid is not None and raw == self.invalid

    def name_of(self, raw: Raw) -> str | None:
        """Returns the name of a raw value, or None."""
        if not isinstance(raw, int):
            return None
        return next((it.name for it in self.values if it.first <= raw <= it.last), None)

    def is_new_in(self, payload: bytes | bytearray) -> bool:
        """Returns whether all its update bits are 1, as they are if it has none."""
        return all(bit // 8 < len(payload) and payload[bit // 8] >> bit % 8 & 1 for bit in self.update)
