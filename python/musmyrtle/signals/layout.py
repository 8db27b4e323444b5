"""The layout of a frame: its signals, read from payloads and written into them."""
from collections.abc import Iterable, Iterator, Mapping
from dataclasses import dataclass, field
from functools import cached_property

from musmyrtle.findings import joined, nearest
from musmyrtle.signals.refusals import BadValue, Given, Raw, ReadValue, UnknownSignal
from musmyrtle.signals.signal import Signal
from musmyrtle.signals.values import is_in_range, physical, raw_of, value_of
from musmyrtle.visible import cut

MOST_NAMES = 12
"""The names of signals that a message has."""


@dataclass(frozen=True)
class Read:
    """A signal as a payload has it: its raw value, and whether its update bits are 1."""

    signal: Signal
    raw: Raw
    is_new: bool

    @property
    def value(self) -> ReadValue:
        """Returns the name of the raw value if it has one, otherwise the physical value, or None if it is invalid."""
        return value_of(self.signal, self.raw)

    @property
    def number(self) -> int | float | bytes | None:
        """Returns the physical value, or None if it is invalid."""
        return physical(self.signal, self.raw)

    @property
    def name(self) -> str | None:
        """Returns the name of the raw value, or None."""
        return self.signal.name_of(self.raw)

    @property
    def is_in_range(self) -> bool:
        """Returns whether the value is one that the limits allow, or has a name, or is invalid."""
        return is_in_range(self.signal, self.raw)


@dataclass(frozen=True)
class Layout:
    """A frame of a cluster file: its length in bytes, its signals by name, and the byte that fills all other bits."""

    name: str
    length: int
    signals: Mapping[str, Signal] = field(default_factory=dict)
    unused: int = 0

    # These are the same for each payload, and host programs commit thousands of payloads a second.

    @cached_property
    def multiplexed(self) -> tuple[Signal, ...]:
        """Returns the signals that aren't in each payload."""
        return tuple(it for it in self.signals.values() if it.when)

    @cached_property
    def selectors(self) -> tuple[Signal, ...]:
        """Returns the signals that select others."""
        names = dict.fromkeys(name for it in self.multiplexed for name, _ in it.when)
        return tuple(self.signals[name] for name in names)

    @cached_property
    def update_mask(self) -> int:
        """Returns all update bits, each as the bit of its number."""
        return mask_of(bit for it in self.signals.values() for bit in it.update)

    # ---- reading

    def is_there(self, signal: Signal, payload: bytes | bytearray) -> bool:
        """Returns whether a payload has a signal: it is long enough, and the selectors have the signal's codes."""
        return signal.is_in(payload) and (not signal.when or self.is_selected(signal, payload))

    def is_selected(self, signal: Signal, payload: bytes | bytearray) -> bool:
        """Returns whether the selectors of a signal have its codes."""
        return all(
            self.signals[name].is_in(payload) and self.signals[name].raw_in(payload) == code
            for name, code in signal.when)

    def reads(self, payload: bytes, signals: Iterable[Signal] | None = None) -> Iterator[Read]:
        """Yields the signals that a payload has, in the order of the file, or of some signals those."""
        payload = payload[:self.length]
        for signal in self.signals.values() if signals is None else signals:
            if self.is_there(signal, payload):
                yield Read(signal, signal.raw_in(payload), signal.is_new_in(payload))

    def read(self, name: str, payload: bytes) -> Read:
        """Returns one signal of a payload. Raises `UnknownSignal` if the payload hasn't it."""
        signal, payload = self.signal(name), payload[:self.length]
        if not signal.is_in(payload):
            raise UnknownSignal(f"the payload has {len(payload)} bytes, and {name} of frame {self.name} ends in byte "
                                f"{-(-signal.end // 8)}")
        if not self.is_there(signal, payload):
            wanted = joined([f"{selector} is {code}" for selector, code in signal.when])
            found = joined([f"{it} is {self.signals[it].raw_in(payload)!r}" for it, _ in signal.when])
            raise UnknownSignal(f"{name} of frame {self.name} is there while {wanted}, and here {found}")
        return Read(signal, signal.raw_in(payload), signal.is_new_in(payload))

    def signal(self, name: str) -> Signal:
        """Returns the signal of a name. Raises `UnknownSignal`."""
        if name in self.signals:
            return self.signals[name]
        meant = nearest(name, list(self.signals))
        hint = f"; is {meant} meant?" if meant else f"; it has {self.listed()}"
        raise UnknownSignal(f"frame {self.name} has no signal {cut(name)!r}{hint}")

    def listed(self) -> str:
        """Returns the names of its signals for a message."""
        names = list(self.signals)
        more = [f"{len(names) - MOST_NAMES} more"] if len(names) > MOST_NAMES else []
        return joined([*names[:MOST_NAMES], *more]) or "no signal"

    # ---- writing

    def encoded(self, given: Given, before: bytes | None = None,
                length: int | None = None) -> bytes:
        """Returns the payload with these values: of all other signals as BEFORE has them, or initial ones.

        The selectors of given signals get their codes. Update bits are 1 for those given, and otherwise 0. The payload
        has LENGTH bytes, those after the frame 0, or as many as the frame. Raises `UnknownSignal` and `BadValue`.
        """
        raws = {name: raw_of(self.signal(name), value) for name, value in given.items()}
        for name, (selector, code) in [(name, it) for name in given for it in self.signals[name].when]:
            if raws.setdefault(selector, code) != code:
                raise BadValue(f"{name} of frame {self.name} is there while {selector} is {code}, and here {selector} "
                               f"is {raws[selector]!r}")
        size = self.length if length is None else length
        payload = self.based(before, raws)
        for signal in self.written(payload, before, raws):
            signal.put(payload, raws.get(signal.name, signal.initial))
        self.set_update_bits(payload, raws)
        return bytes(payload) + bytes(max(0, size - self.length))

    def based(self, before: bytes | None, raws: Mapping[str, Raw]) -> bytearray:
        """Returns the payload before values are written, with the selectors that are given or initial."""
        payload = self.old(before)
        if not self.selectors:
            return payload
        there = [] if before is None else [it for it in self.multiplexed if self.is_there(it, payload)]
        for selector in self.selectors:
            if before is None or selector.name in raws:
                selector.put(payload, raws.get(selector.name, selector.initial))
        gone = sum_of_masks(it for it in there if not self.is_there(it, payload))
        if gone:
            kept = int.from_bytes(payload, "little") & ~gone
            fill = int.from_bytes(bytes([self.unused]) * self.length, "little") & gone
            payload[:] = (kept | fill).to_bytes(self.length, "little")
        return payload

    def old(self, before: bytes | None) -> bytearray:
        """Returns the bytes of the frame in an earlier payload, or unused ones."""
        if before is None:
            return bytearray([self.unused]) * self.length
        return bytearray(before[:self.length].ljust(self.length, b"\0"))

    def written(self, payload: bytearray, before: bytes | None, raws: Mapping[str, Raw]) -> list[Signal]:
        """Returns the signals to write: those that come into the payload, and then those that are given."""
        candidates = self.multiplexed if before is not None else self.signals.values()
        old = self.old(before)
        new = [it for it in candidates if it.name not in raws and self.is_there(it, payload)
               and (before is None or not self.is_there(it, old))]
        return new + [self.signals[name] for name in raws]

    def set_update_bits(self, payload: bytearray, given: Iterable[str]) -> None:
        """Sets the update bits of given signals, and clears all others."""
        if self.update_mask:
            on = mask_of(bit for name in given for bit in self.signals[name].update)
            whole = int.from_bytes(payload, "little") & ~self.update_mask | on
            payload[:] = whole.to_bytes(self.length, "little")


def mask_of(bits: Iterable[int]) -> int:
    """Returns bits by their numbers as the bits of a number."""
    found = 0
    for bit in bits:
        found |= 1 << bit
    return found


def sum_of_masks(signals: Iterable[Signal]) -> int:
    """Returns all bits that some signals take."""
    found = 0
    for it in signals:
        found |= it.mask
    return found
