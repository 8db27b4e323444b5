"""The script of the page reads signals as Python does: the same raw values, numbers, names and marks.

The layouts are random: both orders, all codings, factors such as 1/3, limits, names of ranges, invalid values, update
bits and multiplexed signals.
"""
import json
import math
import random
import unittest
from fractions import Fraction
from typing import Any

from musmyrtle.show.page_signals import layout_object
from musmyrtle.signals.exact import exact_in_file
from musmyrtle.signals.layout import Layout, Read
from musmyrtle.signals.reading import FrameReading
from musmyrtle.signals.values import physical
from musmyrtle.toml_values import Spelled
from tests.pages import Pages, needs_node

LAYOUTS, PAYLOADS = 2000, 6
FACTORS = (1, Spelled("0.01"), "1/3", "-20/51", Spelled("1e-30"), Spelled("2.5e20"), "7/11", Spelled("1e100"),
           Spelled("1e-100"), "123456789012345678901234567890/7")
LONGEST = 254


class Maker:
    """Random frames as tables of a cluster file."""

    def __init__(self, dice: random.Random) -> None:
        self.dice = dice

    def chance(self, share: float) -> bool:
        return self.dice.random() < share

    def frame(self) -> dict[str, Any]:
        size = self.dice.choice([1, 2, 4, 8, 8, 16, self.dice.randint(1, LONGEST)])
        signals = [self.signal(f"s{number}", size) for number in range(self.dice.randint(1, 6))]
        selectors = [it for it in signals if not it.get("float") and not it.get("bytes")]
        for it in signals[1:]:
            others = [its for its in selectors if its is not it]
            if others and self.chance(0.3):
                selector = self.dice.choice(others)
                if "when" not in selector and not any(it["name"] in its.get("when", {}) for its in signals):
                    it["when"] = {selector["name"]: self.dice.randint(*self.limits(selector))}
        return {"name": "F", "bytes": size, "signal": signals}

    def limits(self, signal: dict[str, Any]) -> tuple[int, int]:
        """Returns a few raw values, so that selectors have these codes at times."""
        bits = min(signal["bits"], 2)
        return (-(1 << bits - 1), (1 << bits - 1) - 1) if signal.get("signed") else (0, (1 << bits) - 1)

    def signal(self, name: str, size: int) -> dict[str, Any]:
        order, kind = self.dice.choice(["little", "big"]), self.dice.choice(["unsigned", "signed", "float", "bytes"])
        if kind == "bytes" or kind == "float" and size < 2:
            bits = 8 * self.dice.randint(1, min(size, 12))
            begin = 8 * self.dice.randint(0, size - bits // 8)
            kind = "bytes"
        else:
            bits = self.dice.choice([it for it in (16, 32, 64) if it <= 8 * size]) if kind == "float" else \
                self.dice.randint(1, min(64, 8 * size))
            begin = self.dice.randint(0, 8 * size - bits)
        bit = begin if order == "little" else 8 * (begin // 8) + 7 - begin % 8
        found: dict[str, Any] = {"name": name, "bit": bit, "bits": bits, "order": order}
        if kind != "unsigned":
            found[kind] = True
        if kind != "bytes":
            found |= self.numbers(kind, bits)
        elif self.chance(0.3):
            found["invalid"] = f"x{self.dice.randbytes(bits // 8).hex()}"
        if self.chance(0.3):
            found["update"] = [self.dice.randrange(8 * size) for _ in range(self.dice.randint(1, 3))]
        return found

    def numbers(self, kind: str, bits: int) -> dict[str, Any]:
        """Returns the keys of a signal that is a number."""
        found: dict[str, Any] = {"factor": self.dice.choice(FACTORS), "offset": self.dice.choice([0, -40, "1/7"])}
        if self.chance(0.4):
            ends = sorted(self.dice.randint(-10**6, 10**6) for _ in range(2))
            found |= {key: end for key, end in zip(("min", "max"), ends) if self.chance(0.7)}
        else:
            found |= self.limit(found, self.dice.choice([0, 1, -1, (1 << bits) - 1]))
        if kind == "float":
            special = (float("nan"), float("inf"), float("-inf"), 1.5, 0.0, -2)
            return found | ({"invalid": self.dice.choice(special)} if self.chance(0.4) else {})
        least, most = (-(1 << bits - 1), (1 << bits - 1) - 1) if kind == "signed" else (0, (1 << bits) - 1)
        if self.chance(0.4):
            found["invalid"] = self.dice.choice([least, most, self.dice.randint(least, most)])
        if self.chance(0.4):
            places = sorted({self.dice.randint(least, most) for _ in range(6)} | {0, 1})
            ends = [it if self.chance(0.5) else after - 1 for it, after in zip(places, [*places[1:], places[-1] + 1])]
            found["values"] = {f"{it}-{end}": f"n{at}" for at, (it, end) in enumerate(zip(places, ends))}
        return found

    def limit(self, found: dict[str, Any], raw: int) -> dict[str, str]:
        """Returns a limit that is exactly the value of a raw one, which the payloads often have."""
        factor, offset = exact_in_file(found["factor"]), exact_in_file(found["offset"])
        value = raw * (factor or Fraction(1)) + (offset or Fraction(0))
        text = f"{value.numerator}/{value.denominator}"
        return {self.dice.choice(["min", "max"]): text} if exact_in_file(text) is not None else {}

    def payload(self, size: int) -> bytes:
        """Returns a payload that may be shorter or longer than the frame, and often has few different bytes."""
        length = max(0, size + self.dice.choice([0, 0, 0, 0, 2, -1, -size]))
        some = self.dice.choice([bytes(range(256)), b"\0\xff", b"\0\1", b"\0\x3c\x7c\x7f\x80\xff"])
        return bytes(self.dice.choice(some) for _ in range(length))


def layout_of(frame: dict[str, Any]) -> Layout:
    reading = FrameReading({"frame": [frame]})
    assert not reading.faults, (reading.faults, frame)
    return reading.layouts[0][0]


def number_text(value: object) -> str | None:
    """Returns a number as the script spells it, or None for one that is none."""
    if isinstance(value, bytes) or not isinstance(value, int | float):
        return None
    number = float(value)
    if math.isnan(number):
        return "NaN"
    if math.isinf(number):
        return "Infinity" if number > 0 else "-Infinity"
    return repr(number)


def is_one(text: str | None, expected: str | None) -> bool:
    """Returns whether two spellings are of one number, with its sign."""
    if text is None or expected is None:
        return text is expected
    if "n" in text.lower():
        return text == expected
    return float(text) == float(expected) and math.copysign(1, float(text)) == math.copysign(1, float(expected))


@needs_node
class Coding(Pages):
    def test_random_layouts(self) -> None:
        maker = Maker(random.Random(5))
        frames = [maker.frame() for _ in range(LAYOUTS)]
        layouts = [layout_of(it) for it in frames]
        payloads = [[maker.payload(it.length) for _ in range(PAYLOADS)] for it in layouts]
        file = self.written("layouts", "".join(
            json.dumps({"frame": layout_object(layout), "payloads": [it.hex() for it in its]}) + "\n"
            for layout, its in zip(layouts, payloads)))
        lines = self.ran("signals.js", file).splitlines()
        self.assertEqual(len(lines), LAYOUTS)
        seen = 0
        for layout, its, line in zip(layouts, payloads, lines):
            for payload, found in zip(its, json.loads(line)):
                reads = {it.signal.name: it for it in layout.reads(payload)}
                for signal, it in zip(layout.signals.values(), found):
                    with self.subTest(signal=signal, payload=payload.hex()):
                        self.assertEqual(signal.name in reads, it is not None)
                        if it is not None:
                            self.compared(reads[signal.name], it)
                            seen += 1
        self.assertGreater(seen, 2 * LAYOUTS)

    def compared(self, read: Read, found: dict[str, Any]) -> None:
        """Compares a signal of the script with that of Python."""
        raw, signal = read.raw, read.signal
        if isinstance(raw, bytes):
            self.assertEqual(found["raw"], f"x{raw.hex()}")
        elif isinstance(raw, int):
            self.assertEqual(found["raw"], str(raw))
        else:
            self.assertTrue(is_one(found["raw"], number_text(raw)), (found["raw"], raw))
        self.assertEqual((found["isNew"], found["isInvalid"], found["name"], found["isInRange"]),
                         (read.is_new, signal.is_invalid(raw), read.name, read.is_in_range))
        value = None if isinstance(raw, bytes) or isinstance(raw, float) and not math.isfinite(raw) else \
            Fraction(raw) * signal.factor + signal.offset
        self.assertEqual(found["exact"], value if value is None else [str(value.numerator), str(value.denominator)])
        if value is not None:
            self.assertEqual(Fraction(found["text"]), value)
        if not signal.is_invalid(raw):
            number = physical(signal, raw)
            # The fraction 0 has no sign.
            expected = "0.0" if value == 0 else number_text(number)
            self.assertTrue(is_one(found["number"], expected), (found["number"], number))


if __name__ == "__main__":
    unittest.main()
