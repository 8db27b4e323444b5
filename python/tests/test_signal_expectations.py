"""Tests of `signals --expect`: lines judged at the end of each cycle, with all values by hand.

The run is that of `test_signals_over_time`. At the ends of cycles 0 and 1 the brake has 87.5 km/h, and then 90. Frames
are lost in the cycles 3, 5 and 6. A cycle has 500 us, so at the end of cycle 3 the frame of cycle 2 is 1000 us old.
"""
import json
import os
import unittest
from typing import Any

from tests.test_signals_over_time import SCENE, OverTime, with_frames

KEYS = ("outcome", "cycle", "found", "others", "judged")


class Expecting(OverTime):
    def judged(self, lines: str, *more: str, scene: str = SCENE, network: str | None = None, cycles: int = 8
               ) -> tuple[int | str | None, list[tuple[Any, ...]]]:
        """Returns the status of the command, and the outcomes of some lines."""
        words = [*self.scene(scene, cycles, network), "--expect", self.written("expected", lines), *more]
        status, output, error = self.asked("signals", *words, "--json")
        self.assertEqual(error, "")
        rows = [json.loads(line) for line in output.splitlines()]
        return status, [tuple(it[key] for key in KEYS) for it in rows if it["kind"] == "expectation"]

    def check(self, line: str, status: int, *wanted: object) -> None:
        """Checks what becomes of one line."""
        with self.subTest(line=line):
            self.assertEqual(self.judged(f"{line}\n"), (status, [wanted]))


class TestValues(Expecting):
    def test_numbers(self) -> None:
        met, both = (0, "met", None, None, 0), (3, "missed", 2, "90", 5, 8)
        self.check("brake.speed * >= 80", *met, 8)
        self.check("brake.speed * == 87.5", *both)
        self.check("brake.speed * < 90", *both)
        self.check("brake.speed * <= 90", *met, 8)
        self.check("brake.speed 2-7/2 > 89.99", *met, 3)
        self.check("brake.speed 0-1,7 != 90", 3, "missed", 7, "90", 0, 3)
        self.check("brake.speed 0 == 175/2", *met, 1)

    def test_names(self) -> None:
        self.check("dashboard.gear * == drive", 0, "met", None, None, 0, 8)
        self.check("dashboard.gear * != drive", 3, "missed", 0, "drive (1)", 7, 8)
        self.check("dashboard.gear * > park", 0, "met", None, None, 0, 8)
        self.check("dashboard.gear 1 == 2", 3, "missed", 1, "drive (1)", 0, 1)
        self.check("dashboard.gear 1 == reserved", 3, "missed", 1, "drive (1)", 0, 1)

    def test_before_the_first_frame(self) -> None:
        """The frame of the brake comes in cycle 1. Before that its receivers hold nothing, and no age is right."""
        self.check("engine.pedal 0-2 == 30", 3, "missed", 0, "nothing", 0, 3)
        self.check("engine.pedal 0-2 age <= 10ms", 3, "missed", 0, "nothing", 0, 3)
        self.check("engine.pedal 1-2 == 30", 0, "met", None, None, 0, 2)

    def test_invalid_values_and_bytes(self) -> None:
        scene = ("frscenario 3\ncommit engine 0 0 data xffff0f3c00000000\ncommit brake 0 0 data x0010010203040506\n"
                 "end\n")
        for line, status, outcome in (
                ("brake.speed * == none", 0, "met"), ("brake.speed * != 5", 0, "met"),
                ("brake.speed * < 5", 3, "missed"), ("brake.speed * != none", 3, "missed"),
                ("brake.gear * != park", 0, "met"), ("engine.serial * == x010203040506", 0, "met"),
                ("engine.serial * != x010203040506", 3, "missed"), ("engine.force * == 5", 5, "never judged")):
            with self.subTest(line=line):
                found, rows = self.judged(line, scene=scene, cycles=1)
                self.assertEqual((found, [it[0] for it in rows]), (status, [outcome]))

    def test_no_number(self) -> None:
        scene = "frscenario 3\ncommit brake 0 0 data x00000000c07f0000\nend\n"
        for line, status in (("engine.force * == nan", 0), ("engine.force * != nan", 3), ("engine.force * < 1", 3),
                             ("engine.force * != 1", 0)):
            with self.subTest(line=line):
                self.assertEqual(self.judged(line, scene=scene, cycles=1)[0], status)

    def test_floats(self) -> None:
        """A tenth in 32 bits is 0x3dcccccd, which is equal to 0.1 here."""
        scene = "frscenario 3\ncommit brake 0 0 data x0000cdcccc3d0000\nend\n"
        for line, status in (("engine.force * == 0.1", 0), ("engine.force * <= 0.1", 0), ("engine.force * < 0.1", 3),
                             ("engine.force * > 0.0999", 0), ("engine.force * == nan", 3),
                             ("engine.force * != nan", 0), ("engine.force * != inf", 0),
                             ("engine.force * < inf", 0), ("engine.force * < 1e99", 0)):
            with self.subTest(line=line):
                self.assertEqual(self.judged(line, scene=scene, cycles=1)[0], status)


class TestAgesAndLosses(Expecting):
    def test_ages(self) -> None:
        """The greatest age is that of the frame of cycle 4 at the end of cycle 6: three cycles."""
        self.check("brake.speed * age <= 1.5ms", 0, "met", None, None, 0, 8)
        self.check("brake.speed * age <= 3cycles", 0, "met", None, None, 0, 8)
        self.check("brake.speed * age < 300MT", 3, "missed", 6, "1500 us", 0, 8)
        self.check("brake.speed * age <= 500us", 3, "missed", 3, "1000 us", 2, 8)
        self.check("brake.speed 3-4 age == 1cycle", 3, "missed", 3, "1000 us", 0, 2)

    def test_losses(self) -> None:
        self.check("brake.speed * lost 3", 0, "met", None, None, 0, 8)
        self.check("brake.speed * lost 0", 3, "missed", 3, "3 lost", 0, 8)
        self.check("brake.speed 0-4 lost <= 1", 0, "met", None, None, 0, 5)
        self.check("brake.speed 4-7 lost < 2", 3, "missed", 5, "2 lost", 0, 4)
        self.check("brake.speed 0-2 lost > 0", 3, "missed", None, "0 lost", 0, 3)
        self.check("dashboard.pedal 0 lost 0", 5, "never judged", None, None, 0, 0)


class TestLines(Expecting):
    def test_statuses(self) -> None:
        """A missed line has status 3, also beside one that isn't judged."""
        met, never, missed = "brake.speed * > 0\n", "brake.speed 90 > 0\n", "brake.speed * > 100\n"
        for lines, status in ((met, 0), (met + never, 5), (never + missed + met, 3), ("", 0), ("# nothing\n\n", 0)):
            with self.subTest(lines=lines):
                self.assertEqual(self.judged(lines)[0], status)

    def test_several_receivers(self) -> None:
        """A line of several receivers is missed if one of them misses it, and is judged for each."""
        status, rows = self.judged("1-2.speed 1-2 == 87.5\n")
        self.assertEqual((status, rows), (3, [("missed", 2, "90", 1, 4)]))

    def test_a_fifo(self) -> None:
        """It has the newest frame of the slot."""
        scene = ("frscenario 3\ncommit 0 0 0 1 x01" + 31 * "00" + "\ncommit 0 0 1 1 x02" + 31 * "00"
                 + "\nmute 0 A 1 m1\nend\n")
        lines = "brake.count 0-2 == 1\nbrake.count * lost 1\nbrake.count 1 age == 160MT\n"
        status, rows = self.judged(lines, scene=scene, network=with_frames(), cycles=3)
        self.assertEqual((status, [it[0] for it in rows]), (0, ["met"] * 3))

    def test_samples_beside_expectations(self) -> None:
        words = [*self.scene(), "--expect", self.written("expected", "dashboard.gear * == drive\n"), "--json"]
        kinds = [json.loads(line)["kind"] for line in self.printed("signals", *words).splitlines()]
        self.assertEqual(kinds, ["expectation"])
        rows = [json.loads(line) for line in self.printed("signals", *words, "brake.speed").splitlines()]
        self.assertEqual([it["kind"] for it in rows], [*["sample"] * 8, "expectation"])
        self.assertEqual({it["signal"] for it in rows[:8]}, {"speed"})

    def test_faults(self) -> None:
        """Each run is judged by itself."""
        words = [*self.scene(), "--expect", self.written("expected", "brake.speed * lost <= 3\n"), "--json"]
        status, output, _ = self.asked("signals", *words, "--fault", "lost engine 0")
        rows = [json.loads(line) for line in output.splitlines()]
        self.assertEqual((status, [(it["fault"], it["outcome"]) for it in rows]),
                         (3, [(None, "met"), ("lost engine 0", "missed")]))

    def test_a_text(self) -> None:
        words = [*self.scene(), "--expect", self.written("expected", "# speeds\nbrake.speed 1-5 == 87.5 # km/h\n")]
        self.assertEqual(self.asked("signals", *words), (3, (
            "Expectations\n"
            "line  signal       cycles  expected  outcome  first in  receiver   buffer      found  others  judged\n"
            "   2  brake.speed  1-5     == 87.5   missed          2  brake (1)  engine (1)     90       3       5\n"),
            ""))

    def test_expectations_of_the_scenario(self) -> None:
        """A missed expectation of the scenario has status 3, whatever the file has."""
        scene = SCENE.replace("end\n", "expect dashboard 3 engine x0000\nend\n")
        words = [*self.scene(scene), "--expect", self.written("expected", "brake.speed * > 0\n")]
        self.assertEqual(self.asked("signals", *words)[0], 3)
        words[words.index("--expect") + 1] = self.written("expected", "brake.speed * > 100\n")
        self.assertEqual(self.asked("signals", *words, "--endless")[0], 3)

    def test_wrong_lines(self) -> None:
        """Each is refused with its line and column."""
        for line, place, told in (
                ("brake.sped * > 1", "2:1", "is speed meant?"), ("brake.speed 5-3 > 1", "2:13", "5 is above 3"),
                ("brake.speed * => 1", "2:15", "=> is no sign"), ("brake.speed * > fast", "2:17", "'fast'"),
                ("brake.speed * >", "2:16", "too few words"), ("brake.speed * age <=", "2:21", "ends after the sign"),
                ("brake.speed * age <= 10", "2:22", "10 is no age"),
                ("brake.speed * lost none", "2:20", "no number of"),
                ("brake.gear * > reserved", "2:16", "several raw values"),
                ("brake.gear * == revers", "2:17", "is 'reverse' meant?"),
                ("engine.serial * > x010203040506", "2:19", "can't compare bytes"),
                ("engine.serial * == x01", "2:20", "6 bytes"), ("brake.speed * > none", "2:17", "the invalid value"),
                ("engine.force * > nan", "2:18", "can't compare nan"),
                ("\x1b[31m * > 1", "2:1", "\\x1b[31m")):
            with self.subTest(line=line):
                words = [*self.scene(), "--expect", self.written("expected", f"brake.speed * > 1\n{line}\n")]
                status, output, error = self.asked("signals", *words)
                self.assertEqual((status, output), (1, ""))
                self.assertIn(f"expected:{place}: error: ", error)
                self.assertIn(told, error)
                self.assertTrue(all(it.isprintable() or it == "\n" for it in error))

    def test_files(self) -> None:
        file = self.written("long", "#" * 1048577)
        status, output, error = self.asked("signals", *self.scene(), "--expect", file)
        self.assertEqual((status, output, "the file has 1048577 bytes" in error), (1, "", True))
        missing, folder, closed = str(self.folder / "missing"), str(self.folder), self.written("closed", "")
        os.chmod(closed, 0)
        for file, told in ((missing, "isn't there"), (folder, "is a folder"),
                           (closed, "can't be read: Permission denied")):
            if file != closed or os.geteuid():
                expected = f"musmyrtle: the file of --expect {file!r} {told}\n"
                self.assertEqual(self.asked("signals", *self.scene(), "--expect", file), (2, "", expected))
        file = self.written("expected", "brake.speed * > 1\n")
        status, _, error = self.asked("signals", *self.scene(), "--expect", file, "--svg", file)
        self.assertEqual((status, "is the file of --expect" in error), (2, True))


if __name__ == "__main__":
    unittest.main()
