"""Warnings of slots that are too short for their frames at a bit rate.

A byte is ten bits on the bus: two of a start sequence, and eight. A transmission start sequence of at least three bits
and a frame start bit come before the first byte. Two bits of an end sequence come after the last byte; a dynamic frame
has at least two bits of a trailing sequence more (chapter 3). Eleven bits of silence show that the channel is idle
again (chapters 3 and 5). The idle phase of a dynamic slot comes after the frame, so only the silence may be in it. A
static slot also has an action point offset at both ends. Delays and the clocks' deviations come on top (chapter 5), and
aren't known.
"""
from collections.abc import Iterator
from dataclasses import dataclass
from typing import TypeGuard

from musmyrtle.cluster import PARAMETERS, Cluster, Parameters
from musmyrtle.findings import MOST_NOTES, Finding, counted, shown
from musmyrtle.lint.standard import rule_of
from musmyrtle.places import Path
from musmyrtle.texts import Text

BITS_OF_BYTE = 10
BYTES_BESIDE_PAYLOAD = 8
START, END, TRAILING, IDLE = 3 + 1, 2, 2, 11
UNITS = {"bit_rate": "bits a second", "macrotick_us": "microseconds"}
LONGEST_SLOT = PARAMETERS["static_mt"][1]
MACROTICK, NOMINAL_BIT_RATE = rule_of("gdMacrotick"), rule_of("gdBit").greatest


def bits_sent(words: int, is_dynamic: bool) -> int:
    """Returns the least bits that a frame of so many words takes, without the silence after it."""
    trailing = TRAILING if is_dynamic else 0
    return START + BITS_OF_BYTE * (BYTES_BESIDE_PAYLOAD + 2 * words) + END + trailing


def bit_and_macrotick(text: Text) -> tuple[float | None, float | None]:
    """Returns the bits a second and the microseconds of a macrotick, as far as the file has numbers for them."""
    table = text.document.get("physical")
    values = [table.get(key) if isinstance(table, dict) else None for key in UNITS]
    bit_rate, macrotick = (float(it) if is_number(it) else None for it in values)
    return bit_rate, macrotick


def is_number(value: object) -> TypeGuard[int | float]:
    return not isinstance(value, bool) and isinstance(value, int | float) and 1e-6 <= value < 1e12


def wrong_times(_: Cluster, text: Text) -> Iterator[Finding]:
    """Yields warnings of keys of `physical` that are no numbers."""
    if "physical" not in text.document:
        return
    table = text.document["physical"]
    if not isinstance(table, dict):
        yield text.finding("`physical` is no table", "It isn't read. Expected `[physical]`.", ("physical",))
        return
    for key, unit in UNITS.items():
        if not is_number(table.get(key)):
            found = f"is {shown(table[key])}" if key in table else "is missing"
            reason = ("Without it slots are compared with the most bits of a macrotick alone. Expected a number from "
                      f"1e-6 to 1e12, of {unit}.")
            yield text.finding(f"`{key}` of `[physical]` {found}", reason, ("physical", key))


def unchecked_bits(_: Cluster, text: Text) -> Iterator[Finding]:
    """Yields a note of a file that has no bits to compare with."""
    if "physical" not in text.document:
        reason = ("Without `bit_rate` and `macrotick_us` there is a warning only for frames that fit at no macrotick "
                  f"of {MACROTICK.range} at 10 Mbit/s. Expected a table `[physical]` with both, such as "
                  "`bit_rate = 10_000_000` and `macrotick_us = 1`.")
        yield text.finding("the file has no `[physical]`, so bits aren't checked", reason, ("params",))


@dataclass(frozen=True)
class Bits:
    """The bits of a macrotick; without both numbers of `[physical]` the most that it can have in the standard."""

    number: float
    is_known: bool

    @classmethod
    def of(cls, text: Text) -> "Bits":
        """Returns the bits by a cluster file."""
        bit_rate, macrotick = bit_and_macrotick(text)
        rate = NOMINAL_BIT_RATE if bit_rate is None else bit_rate
        time = MACROTICK.greatest if macrotick is None else macrotick
        return cls(rate * time / 1_000_000, bit_rate is not None and macrotick is not None)

    @property
    def most(self) -> str:
        """Returns ` at most` where the number is only the greatest one."""
        return "" if self.is_known else " at most"

    @property
    def why(self) -> str:
        """Returns the sentence about a number that isn't that of the file."""
        return "" if self.is_known else ("The file doesn't have both numbers of `[physical]`. By appendix B a "
                                         f"macrotick then has {self.number:g} bits at most. ")

    @property
    def notes(self) -> list[tuple[str, Path]]:
        """Returns the place of the numbers, if the file has them."""
        return [("`[physical]`", ("physical",))] if self.is_known else []


def short_slots(cluster: Cluster, text: Text) -> Iterator[Finding]:
    """Yields warnings of static slots and of minislots that are too short for their frames."""
    bits = Bits.of(text)
    yield from short_static_slots(cluster, text, bits)
    yield from short_minislots(cluster, text, bits)


def static_bits(cluster: Cluster, bits: Bits) -> tuple[int, float]:
    """Returns the bits that a static frame needs, and those that a static slot has."""
    parameters = cluster.parameters
    return bits_sent(parameters.static_words, False) + IDLE, parameters.static_mt * bits.number


def short_static_slots(cluster: Cluster, text: Text, bits: Bits) -> Iterator[Finding]:
    parameters = cluster.parameters
    needed, had = static_bits(cluster, bits)
    if needed > had:
        room = "is shorter than one bit" if had < 1 else f"has room for {had:g} bits{bits.most}"
        least = -int(-needed // bits.number)
        reason = (f"{bits.why}{parameters.static_words} words are {START} + {BITS_OF_BYTE} * ({BYTES_BESIDE_PAYLOAD} + "
                  f"2 * {parameters.static_words}) + {END} + {IDLE} = {needed} bits: start, bytes, end and silence "
                  f"(chapters 3 and 5). `static_mt` is {counted(parameters.static_mt, 'macrotick')} of "
                  f"{bits.number:g} bits{bits.most}. Expected ")
        reason += f"at least {least}." if least <= LONGEST_SLOT else (
            "`bit_rate` in bits a second and `macrotick_us` in microseconds, such as 10_000_000 and 1.")
        headline = f"a static slot {room}, and its frame needs {needed} at least"
        yield text.finding(headline, reason, ("params", "static_mt"), bits.notes)


def without_action_point(cluster: Cluster, text: Text) -> Iterator[Finding]:
    """Yields a warning where a static frame fits only without action point offsets at both ends."""
    bits = Bits.of(text)
    needed, had = static_bits(cluster, bits)
    least = 2 * rule_of("gdActionPointOffset").least
    if bits.is_known and needed <= had < needed + least * bits.number:
        headline = f"a static slot has {had - needed:g} bits left, too few for an action point offset"
        reason = (f"Its frame needs {needed} of {had:g} bits. `gdActionPointOffset` is at least 1 macrotick before the "
                  f"frame and after it, here 2 * {bits.number:g} bits (chapter 5 and appendix B). The bench doesn't "
                  f"model action points. Expected `static_mt` of at least {-int(-needed // bits.number) + least}.")
        yield text.finding(headline, reason, ("params", "static_mt"), bits.notes)


def short_minislots(cluster: Cluster, text: Text, bits: Bits) -> Iterator[Finding]:
    each = cluster.parameters.minislot_mt * bits.number
    short = []
    for buffer in cluster.buffers():
        why = None
        if buffer.transmits and not cluster.is_static(buffer.slot):
            why = why_short(cluster.parameters, buffer.words, each)
        if why:
            short.append((f"{buffer}: {why}", buffer.path))
    if short:
        headline = f"minislots are too short for the frames of {counted(len(short), 'buffer')}"
        reason = (f"{bits.why}p words are {START} + {BITS_OF_BYTE} * ({BYTES_BESIDE_PAYLOAD} + 2 * p) + {END} + "
                  f"{TRAILING} bits: start, bytes, end and trailing. {IDLE} of silence follow (chapters 3 and 5). A "
                  "frame has the minislots of its words. The `idle` ones come after it, and have room for the silence "
                  "alone. Expected a greater `minislot_mt`, or a smaller `words_per_minislot`.")
        yield text.finding(headline, reason, ("params", "minislot_mt"), short[:MOST_NOTES])


def why_short(parameters: Parameters, words: int, each: float) -> str | None:
    """Returns why minislots of so many bits each are too short for a dynamic frame, or nothing where they aren't.

    The frame has to end in the minislots of its words, and the silence after it in those and the idle ones.
    """
    filled, needed = parameters.minislots_of(words), bits_sent(words, True)
    for bits, minislots, what in ((needed, filled, ""), (needed + IDLE, filled + parameters.idle, " with the silence")):
        if bits > minislots * each:
            return (f"frames of {counted(words, 'word')} need {bits} bits{what}, and have "
                    f"{counted(minislots, 'minislot')} of {each:g} bits")
    return None
