"""Tests of `signals --record`: the signals of a session by the record that it wrote, with all values by hand."""
import io
import json
import subprocess
import sys
import unittest
from pathlib import Path
from unittest.mock import patch

from musmyrtle import World
from musmyrtle.faults.frames import data_frame
from tests.test_signals_over_time import CLUSTER, KEYS, SCENE, OverTime, with_frames
from tests.test_signal_recordings import VIEW

HALF, FIRST = bytes.fromhex("222ef13c00000000"), "frscenario 3\n"


class Records(OverTime):
    def record(self, scene: str = SCENE, cycles: int = 8, network: str | None = None) -> tuple[str, str]:
        """Returns the names of a cluster file and of the record of a run. A session has no lines of a scenario."""
        words = self.scene(scene, cycles, network)
        made = subprocess.run([VIEW, "record", *words], capture_output=True, text=True, check=True).stdout
        lines = [f"{it.rpartition(' ')[0]} -\n" for it in made.splitlines()]
        return words[0], self.written("record", "".join(lines))

    def of(self, keys: str, record: tuple[str, str], *words: str) -> list[tuple[object, ...]]:
        """Returns the values of some keys of the samples of a record."""
        return self.samples(keys, record[0], "--record", record[1], *words)


class TestRecord(Records):
    def test_values_ages_and_losses(self) -> None:
        """In the cycles 3, 5 and 6 the engine is lost, and in cycle 4 a bit of the frame on A is flipped."""
        self.assertEqual(self.of(KEYS, self.record(), "brake.speed"), [
            (0.0, 0, "A", 87.5, 8750, 0.0, "new"), (500.0, 1, "A", 87.5, 8750, 0.0, "new"),
            (1000.0, 2, "A", 90, 9000, 0.0, "stored"), (1500.0, 3, "AB", 90, 9000, 500.0, "lost"),
            (2000.0, 4, "B", 90, 9000, 0.0, "stored"), (2500.0, 5, "AB", 90, 9000, 500.0, "lost"),
            (3000.0, 6, "AB", 90, 9000, 1000.0, "lost"), (3500.0, 7, "A", 90, 9000, 0.0, "stored")])

    def test_a_session(self) -> None:
        """The engine is lost in cycle 1. The record is of the session itself."""
        record = self.folder / "record"
        with World(CLUSTER, record=record) as world:
            world["engine"]["data"].commit(HALF)
            world.cycle()
            for channel in "AB":
                world.ask(f"mute 0 {channel}")
            world.cycle()
            world.cycle()
        found = self.of("cycle receiver_name value age_us what", (CLUSTER, str(record)), "--signal", "speed")
        self.assertEqual(found, [
            (0, "brake", 87.5, 0.0, "new"), (0, "dashboard", 87.5, 0.0, "new"), (1, "brake", 87.5, 500.0, "lost"),
            (1, "dashboard", 87.5, 500.0, "lost"), (2, "brake", 87.5, 0.0, "new"), (2, "dashboard", 87.5, 0.0, "new")])

    def test_event_buffers_and_fifos(self) -> None:
        """As in a run: slot 3 opens at minislot 1, at macrotick 40 of its cycle."""
        scene = (f"{FIRST}commit 0 0 0 0 xfffe\ncommit 0 0 0 1 x01" + 31 * "00" + "\ncommit 0 0 1 1 x02" + 31 * "00"
                 + "\nmute 0 A 1 m1\nend\n")
        self.assertEqual(self.of("begin_mt buffer signal value age_mt what", self.record(scene, 3, with_frames())), [
            (0, 1, "angle", -2, 0, "new"), (40, None, "count", 1, 0, "new"), (100, 1, "angle", -2, 100, "null"),
            (140, None, "count", 1, 100, "lost"), (200, 1, "angle", -2, 200, "null")])

    def test_forged_frames(self) -> None:
        """A frame of another node is stored if it suits the slot: its ID, cycle count, length and channel are due."""
        third = with_frames() + '\n[[node]]\nname = "other"\nown = []\nbuffer = []\n'
        for slot, count, payload, channel, what in ((1, 0, "0007", "A", "new"), (2, 0, "0007", "A", "lost"),
                                                    (1, 1, "0007", "A", "lost"), (1, 0, "00070000", "A", "lost"),
                                                    (1, 0, "", "A", "lost"), (1, 0, "0007", "B", "lost")):
            frame = data_frame(slot, count, bytes.fromhex(payload), channel).hex()
            scene = f"{FIRST}commit 0 0 0 0 x0001\nmute 0 AB 0 s1\nbabble 2 A 0 s1 x{frame}\nend\n"
            with self.subTest(frame=frame):
                found = self.of("sender value what", self.record(scene, 1, third))
                self.assertEqual(found, [(2, 7, "new") if what == "new" else (0, None, "lost")])

    def test_a_forged_frame_in_the_dynamic_segment(self) -> None:
        """It collides with the pedal's own frame, so that the FIFO has neither."""
        third = with_frames() + '\n[[node]]\nname = "other"\nown = []\nbuffer = []\n'
        frame = data_frame(3, 0, bytes(32), "A").hex()
        scene = f"{FIRST}commit 0 0 0 1 x01{31 * '00'}\nbabble 2 A 0 m1 x{frame}\nend\n"
        self.assertEqual(self.of("signal value what", self.record(scene, 1, third)),
                         [("angle", None, "null"), ("count", None, "lost")])

    def test_selections_as_of_a_run(self) -> None:
        for words, cycles in (("--errors", [3, 5, 6]), ("--in-cycles 0-6/3", [0, 3, 6]), ("--channel B", [3, 4, 5, 6]),
                              ("--buffer brake.engine --errors", [3, 5, 6])):
            with self.subTest(words=words):
                self.assertEqual(self.of("cycle", self.record(), "brake.speed", *words.split()),
                                 [(it,) for it in cycles])

    def test_expectations(self) -> None:
        """A session ends with the cycle of its last line."""
        cluster, record = self.record()
        expected = self.written("expected", "brake.speed * lost 3\nbrake.speed 7 age <= 500us\nbrake.speed 8 == 90\n")
        words = "signals", cluster, "--record", record, "--expect", expected
        status, output, _ = self.asked(*words, "--json")
        found = [tuple(json.loads(it)[key] for key in ("line", "outcome", "judged")) for it in output.splitlines()]
        self.assertEqual((status, found), (5, [(1, "met", 8), (2, "met", 1), (3, "never judged", 0)]))

    def test_a_picture(self) -> None:
        """It has a line of the brake, its losses, and no line of commits."""
        cluster, record = self.record()
        file = self.folder / "speed.svg"
        status, _, error = self.asked("signals", cluster, "--record", record, "brake.speed", "--svg", str(file))
        text = file.read_text()
        self.assertEqual((status, error), (0, ""))
        self.assertIn(f"Signals of {cluster} with the session of {record}, 8 cycles", text)
        self.assertEqual(("brake engine" in text, "a frame was lost" in text, "committed by" in text),
                         (True, True, False))

    def test_a_record_without_windows(self) -> None:
        file = self.folder / "speed.svg"
        words = "signals", CLUSTER, "--record", self.written("record", ""), "--svg", str(file)
        self.assertEqual(self.asked(*words), (0, "No signal is selected.\n", ""))
        self.assertIn("no cycles", file.read_text())


class TestFiles(Records):
    def test_standard_input(self) -> None:
        cluster, record = self.record()
        with patch.object(sys, "stdin", io.TextIOWrapper(io.BytesIO(Path(record).read_bytes()))):
            self.assertEqual(len(self.of("cycle", (cluster, "-"), "brake.speed")), 8)

    def test_a_last_line_that_isnt_whole(self) -> None:
        cluster, record = self.record()
        Path(record).write_bytes(Path(record).read_bytes()[:-1])
        status, output, error = self.asked("signals", cluster, "--record", record, "dashboard.pedal", "--csv")
        self.assertEqual((status, len(output.splitlines()), "last line" in error and "isn't whole" in error),
                         (0, 9, True))

    def test_other_files(self) -> None:
        """Lines of another form, order or cluster are refused, and so is a capture."""
        right = "0 0 - 1 A 0 offer passed alone 1 --su x00 -\n"
        for text in ("frscenario 3\n", right.replace("offer", "offers"), right.replace("x00", "x0"), right + "\n",
                     right.replace(" - 1 ", " - 4 "), right.replace(" - 1 ", " - 0 "), right.replace(" - 1 ", " - - "),
                     right.replace(" - 1 ", " 1 4 "), right.replace("A 0", "A 3"),
                     right.replace("0 0 -", "1 0 -") + right, "x" * 2000, "\xe4\n", right.replace("A 0", "C 0")):
            with self.subTest(text=text[:60]):
                words = "signals", CLUSTER, "--record", self.written("record", text), "--csv"
                status, output, error = self.asked(*words)
                self.assertEqual((status, len(output.splitlines()), "is no line that `fr_world --record`" in error),
                                 (1, 0, True), error)

    def test_wrong_words(self) -> None:
        for words, told in ((("--cycles", "4"), "--cycles is for a run, and doesn't go with --record"),
                            (("--endless",), "--endless is for"), (("--fault", "lost engine 1"), "--fault is for"),
                            (("--each-fault-of", "engine"), "--each-fault-of is for"),
                            (("--recording", "x"), "--record is for a run"), (("--stale", "1ms"), "--stale wants"),
                            ((), "none can't be read")):
            status, output, error = self.asked("signals", CLUSTER, "--record", "none", *words)
            self.assertEqual((status, output, told in error), (2, "", True), error)

    def test_the_picture_spares_the_record(self) -> None:
        cluster, record = self.record()
        before = Path(record).read_text()
        status, _, error = self.asked("signals", cluster, "--record", record, "--svg", record)
        self.assertEqual((status, "the record" in error, Path(record).read_text()), (2, True, before))


if __name__ == "__main__":
    unittest.main()
