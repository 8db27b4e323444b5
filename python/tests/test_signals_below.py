"""Tests of the option `--signals` of the tables of a run, with values by hand, and of limits of raw values."""
import csv
import io
import json
import unittest
from fractions import Fraction

from musmyrtle.signals.signal import Coding, Order, Signal
from musmyrtle.signals.values import is_in_range
from tests.test_signals_over_time import EXAMPLE, OverTime

SPEED = {"signal": "speed", "value": 87.5, "unit": "km/h", "name": None, "raw": 8750, "new": True, "in_range": True}


class TestTables(OverTime):
    def test_text(self) -> None:
        """The dashboard reads 90 km/h in cycle 3."""
        lines = self.printed("reads", *EXAMPLE, "--signals").splitlines()
        self.assertEqual(lines[3:6], ["    speed=90 km/h", "    gear=drive", "    temperature=20 C"])

    def test_json(self) -> None:
        for command, words in (("log", ("--slot", "1", "--channel", "A", "--in-cycles", "0")),
                               ("commits", ("--node", "engine", "--in-cycles", "0", "--channel", "A", "--slot", "1"))):
            rows = [json.loads(line) for line in self.printed(command, *EXAMPLE, "--signals", "--json", *words)
                    .splitlines()]
            self.assertEqual([it["signal"] for it in rows[0]["signals"]], ["speed", "gear", "temperature"])
            self.assertEqual(rows[0]["signals"][0], SPEED)

    def test_rows_without_signals(self) -> None:
        """A null frame has none. Without the option there is no key."""
        words = "log", *EXAMPLE, "--slot", "2", "--in-cycles", "0", "--json"
        self.assertEqual([json.loads(it)["signals"] for it in self.printed(*words, "--signals").splitlines()], [[], []])
        self.assertNotIn("signals", self.printed(*words))

    def test_csv(self) -> None:
        words = "commits", *EXAMPLE, "--signals", "--csv", "--node", "engine", "--in-cycles", "2", "--channel", "A"
        rows = list(csv.DictReader(io.StringIO(self.printed(*words))))
        self.assertEqual([it["kind"] for it in rows[:4]], ["commit", "signal", "signal", "signal"])
        self.assertEqual([rows[1][it] for it in ("signal", "value", "unit", "raw", "data")],
                         ["speed", "90", "km/h", "9000", ""])
        self.assertEqual((rows[0]["signal"], rows[0]["data"]), ("", "x2328f13c00000000"))

    def test_run(self) -> None:
        """A commit that no node received has its signals, too."""
        scene = "frscenario 3\ncommit engine 0 0 data x222ef13c00000000\nlost engine 0\nend\n"
        rows = [json.loads(it) for it in self.printed("run", *self.scene(scene, 1), "--signals", "--json").splitlines()]
        found = [it for it in rows if it["kind"] == "undelivered"]
        self.assertEqual(found[0]["signals"][0], SPEED)

    def test_faults_in_frames(self) -> None:
        with open(EXAMPLE[0], encoding="utf-8") as file:
            text = file.read().replace("bit = 7, bits = 16", "bit = 7, bits = 33")
        status, output, error = self.asked("log", *self.scene(network=text), "--signals")
        self.assertEqual((status, output, "ends in byte 5" in error), (1, "", True))


class TestLimits(unittest.TestCase):
    def signal(self, factor: str, least: str | None, most: str | None) -> Signal:
        """Returns a signal of eight bits with limits."""
        low, high = (None if it is None else Fraction(it) for it in (least, most))
        return Signal("s", 0, 8, Order.LITTLE, Coding.SIGNED, Fraction(factor), Fraction(0), "", low, high)

    def test_raw_values_between_limits(self) -> None:
        """0.3 * 1 is below 0.5, and 0.3 * 2 above. A negative factor turns the limits round."""
        for factor, least, most, within, outside in (
                ("0.3", "0.5", "1", (2, 3), (1, 4)), ("-1", "-5", "3", (5, -3, 0), (6, -4)),
                ("-0.3", "0.5", None, (-2, -128), (-1, 0)), ("1", None, "7", (-128, 7), (8,)),
                ("1/3", "1/3", "1", (1, 3), (0, 4))):
            signal = self.signal(factor, least, most)
            with self.subTest(factor=factor, least=least):
                self.assertTrue(all(is_in_range(signal, it) for it in within))
                self.assertFalse(any(is_in_range(signal, it) for it in outside))


if __name__ == "__main__":
    unittest.main()
