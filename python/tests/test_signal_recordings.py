"""Tests of `signals` of recordings, and of the tables for Wireshark, with all values by hand."""
import csv
import json
import os
import re
import shutil
import subprocess
import unittest
from pathlib import Path

from musmyrtle.show.network import Network
from musmyrtle.show.recorded_dues import RecordedDues
from musmyrtle.show.wireshark import BINDINGS, IDENTIFIERS, SIGNALS
from musmyrtle.signals.frames import Definitions, Frames
from musmyrtle.signals.receiving import Layouts
from musmyrtle.texts import read_text
from tests.test_signals_over_time import CLUSTER, SCENE, OverTime, with_frames

VIEW = os.environ.get("MUSMYRTLE_VIEW", str(Path(__file__).resolve().parents[2] / "fr_view"))


class Recordings(OverTime):
    def recording(self, scene: str = SCENE, cycles: int = 8, network: str | None = None) -> str:
        """Returns a capture of the bus of a run, at first of that of `test_signals_over_time`."""
        words = self.scene(scene, cycles, network)
        made = subprocess.run([VIEW, "bus", *words], capture_output=True, check=True).stdout
        file = self.folder / "bus.pcap"
        file.write_bytes(made)
        return str(file)

    def heard(self, keys: str, *words: str) -> list[tuple[object, ...]]:
        """Returns the values of some keys of the rows of a recording."""
        rows = map(json.loads, self.asked("signals", *words, "--json")[1].splitlines())
        return [tuple(row[key] for key in keys.split()) for row in rows]


class TestRecording(Recordings):
    def test_values_ages_and_losses(self) -> None:
        """In the cycles 3, 5 and 6 the engine is lost, and in cycle 4 a bit of the frame on A is flipped: record 23."""
        words = ("signals", CLUSTER, "--recording", self.recording(), "brake.speed")
        status, _, error = self.asked(*words)
        self.assertEqual((status, error), (
            3, "musmyrtle: 1 frame with a finding left out; `musmyrtle monitor` names the findings\n"))
        self.assertEqual(self.heard("record cycle value age_us what", *words[1:], "--channel", "A"), [
            (1, 0, 87.5, 0.0, "new"), (7, 1, 87.5, 0.0, "new"), (13, 2, 90, 0.0, "stored"),
            (None, 3, 90, 500.0, "lost"), (23, 4, 90, 1000.0, "lost"), (None, 5, 90, 1500.0, "lost"),
            (None, 6, 90, 2000.0, "lost"), (37, 7, 90, 0.0, "stored")])
        self.assertEqual(self.heard("record cycle age_us what", *words[1:], "--channel", "B", "--errors"),
                         [(None, 3, 500.0, "lost"), (None, 5, 500.0, "lost"), (None, 6, 1000.0, "lost")])

    def test_a_text_of_some_signals(self) -> None:
        """Before its first commit the brake sends a null frame."""
        words = ("signals", CLUSTER, "--recording", self.recording(), "--node", "brake", "--signal", "pedal,page",
                 "--channel", "B", "--slot", "2")
        _, output, _ = self.asked(*words)
        lines = output.splitlines()
        self.assertEqual([*lines[:2], *lines[3:5], lines[-1]], [
            "record       at [s]  cycle  slot  channel  sender     frame  signal  value  unit  name    raw  age [us]  "
            "what",
            "     4  0.000030000      0     2  B        brake (1)  Brake  pedal       -  -     -         -         -  "
            "null frame",
            "    10  0.000130000      1     2  B        brake (1)  Brake  pedal      30  %     -       300         0  "
            "new",
            "    10  0.000130000      1     2  B        brake (1)  Brake  page        0  -     forces    0         0  "
            "new",
            "age: from the slot of the last good data frame on the channel to this slot"])

    def test_the_borders_of_a_recording(self) -> None:
        """Slots before the first frame, and after the last one, are due only in a recording of whole cycles."""
        scene = "frscenario 3\nlost engine 0\nlost brake 2\nlost dashboard 2\nend\n"
        words = CLUSTER, "--recording", self.recording(scene, 3), "--signal", "speed,pedal", "--channel", "A"
        inner = [(1, 0, "null"), (0, 1, "null"), (1, 1, "null"), (0, 2, "null")]
        self.assertEqual(self.heard("sender cycle what", *words), inner)
        self.assertEqual(self.heard("sender cycle what", *words, "--whole"),
                         [(0, 0, "lost"), *inner, (1, 2, "lost")])

    def test_dynamic_frames_and_divided_slots(self) -> None:
        """A dynamic frame that isn't there is no loss, but a broken one is. The position is due in every second cycle.
        Slot 3 opens at minislot 1, at macrotick 40."""
        network = with_frames().replace('own = [{slot = 1, channels = "AB", sync = true}]',
                                        'own = [{slot = 1, channels = "AB", repetition = 2}]').replace(
            'slot = 1, channels = "AB", frame', 'slot = 1, channels = "AB", repetition = 2, frame').replace(
            'own = [{slot = 2, channels = "AB"}]', 'own = [{slot = 2, channels = "AB", sync = true}]')
        log = f"commit 0 0 {{}} 1 x01{'00' * 31}\n"
        scene = ("frscenario 3\n" + log.format(0) + log.format(2) + "commit 0 0 0 0 x0001\nlost 0 4\n"
                 "corrupt A 2 m1 100\nend\n")
        recording = self.recording(scene, 6, network)
        words = str(self.folder / "cluster.toml"), "--recording", recording, "--channel", "A"
        self.assertEqual(self.heard("cycle signal value age_mt what", *words), [
            (0, "angle", 1, 0, "new"), (0, "count", 1, 0, "new"), (2, "angle", 1, 200, "null"),
            (2, "count", 1, 200, "lost"), (4, "angle", 1, 400, "lost")])

    def test_a_picture(self) -> None:
        """The lines are those of a slot on both channels. They are grey from two cycles without a frame on: on A from
        400 macroticks of 800 to 700, and on B from 600 on."""
        file = self.folder / "speed.svg"
        recording = self.recording()
        words = "signals", CLUSTER, "--recording", recording, "brake.speed", "--svg", str(file)
        status, output, _ = self.asked(*words)
        text = file.read_text()
        self.assertEqual((status, output), self.asked(*words[:-2])[:2])
        found = [f"Signals of {CLUSTER} in the recording {recording}, 8 cycles", "channel A, slot 1",
                 "channel B, slot 1", "the held value is older than the limit", "a frame was lost", "time [ms]",
                 'class="stale" d="M520 66H838"', 'class="stale" d="M732 66H838"']
        self.assertEqual([it for it in found if it not in text], [])
        self.assertNotIn("committed by", text)
        self.asked(*words, "--stale", "5cycles")
        self.assertNotIn("older than the limit", file.read_text())

    def test_a_channel_that_begins_later(self) -> None:
        """Channel B begins with cycle 2. Both have one axis of time."""
        network = Network.of(read_text(CLUSTER, Path(CLUSTER).read_bytes()))
        assert network is not None
        dues = RecordedDues(network, Layouts(Frames(network.cluster, Definitions.of(read_text(
            CLUSTER, Path(CLUSTER).read_bytes())))), False)
        line = "frame {} 0.0 {} {} 1 {} 0 30 0 --su x222ef13c00000000 {}"
        frames = (0, "A", 0, "-"), (1, "A", 1, "-"), (2, "A", 2, "-"), (2, "B", 0, 2), (3, "A", 3, 1), (3, "B", 1, 3)
        found = [it for number, words in enumerate(frames) for it in dues.add(line.format(number, *words))]
        found += dues.end()
        self.assertEqual([(it.channels, it.begin) for it in found if it.slot == 1],
                         [("A", 0), ("A", 100), ("A", 200), ("B", 200), ("A", 300), ("B", 300)])
        self.assertEqual(dues.cycles, (0, 4))

    def test_wrong_words(self) -> None:
        for words, told in ((("--recording", "x", "--cycles", "4"), "--cycles is for a run"), ((), "are required"),
                            (("--whole", "--cycles", "4", "x"), "--whole needs --recording"),
                            (("--recording", str(self.folder / "none")), "can't be read")):
            status, output, error = self.asked("signals", CLUSTER, *words)
            self.assertEqual((status, output, told in error), (2, "", True), error)

    def test_another_file(self) -> None:
        status, output, error = self.asked("signals", CLUSTER, "--recording", self.written("x", SCENE), "--json")
        self.assertEqual((status, output, "refused NoCapture" in error), (1, "", True))


class TestFindings(Recordings):
    """The option `--signals` of `monitor`. In this cluster all payloads are too short by a word."""

    def setUp(self) -> None:
        super().setUp()
        self.longer = self.written("longer.toml", Path(CLUSTER).read_text().replace("static_words = 4",
                                                                                    "static_words = 5"))

    def test_text(self) -> None:
        """A null frame has no signals. Without the option no finding has."""
        words = "monitor", self.longer, self.recording(), "--channel", "A"
        lines = self.asked(*words, "--signals")[1].splitlines()
        self.assertEqual(lines[3:6], ["    speed=87.5 km/h", "    gear=drive", "    temperature=20 C"])
        self.assertEqual([lines[it].split()[:5] for it in (2, 6)], [["1", "0.000000000", "0", "A", "1"],
                                                                    ["3", "0.000030000", "0", "A", "2"]])
        self.assertNotIn("speed", self.asked(*words)[1])

    def test_json(self) -> None:
        """A missing frame has none, and one with a flipped bit is no payload. The frame that comes back has them."""
        words = "monitor", CLUSTER, self.recording(), "--channel", "A", "--json"
        rows = [json.loads(it) for it in self.asked(*words, "--signals")[1].splitlines()]
        found = [(it["name"], it["cycle"], [(its["signal"], its["value"]) for its in it["signals"]])
                 for it in rows if it["kind"] == "finding"]
        self.assertEqual(found, [("Missing", 3, []), ("LoggedFrame", 4, []),
                                 ("back", 7, [("speed", 90), ("gear", 1), ("temperature", 20)])])
        self.assertEqual({"signals" in it for it in rows if it["kind"] != "finding"}, {False})
        self.assertNotIn("signals", self.asked(*words)[1])

    def test_csv(self) -> None:
        rows = list(csv.DictReader(self.asked("monitor", self.longer, self.recording(), "--signals", "--csv")[1]
                                   .splitlines()))
        self.assertEqual([(it["kind"], it["signal"], it["value"], it["name"], it["raw"]) for it in rows[:3]],
                         [("finding", "", "", "Words", ""), ("signal", "speed", "87.5", "", "8750"),
                          ("signal", "gear", "1", "drive", "1")])

    def test_faults_in_frames(self) -> None:
        text = Path(CLUSTER).read_text().replace("bit = 7, bits = 16", "bit = 7, bits = 33")
        status, output, error = self.asked("monitor", self.written("x.toml", text), self.recording(), "--signals")
        self.assertEqual((status, output, "ends in byte 5" in error), (1, "", True))


class TestWireshark(Recordings):
    def test_tables(self) -> None:
        """The frame Engine has a gap of four bits behind the gear. The frame Brake is multiplexed."""
        folder = self.folder / "profile"
        status, output, error = self.asked("signals", CLUSTER, "--wireshark", str(folder))
        self.assertEqual((status, output, error),
                         (0, "", "musmyrtle: frame Brake is left out, since force is multiplexed\n"))
        self.assertEqual((folder / IDENTIFIERS).read_text(), '"00000001","Engine"\n')
        self.assertEqual((folder / SIGNALS).read_text().splitlines(), [
            '"00000001","4","0","speed","Engine.speed","uint","TRUE","16","16","0.01","0.0","FALSE","-1","FALSE"',
            '"00000001","4","1","gear","Engine.gear","uint","FALSE","8","4","1.0","0.0","FALSE","-1","FALSE"',
            '"00000001","4","2","gap_20","Engine.gap_20","uint","FALSE","8","4","1.0","0.0","FALSE","-1","TRUE"',
            '"00000001","4","3","temperature","Engine.temperature","uint","FALSE","8","8","1.0","-40.0","FALSE","-1",'
            '"FALSE"'])
        bindings = (folder / BINDINGS).read_text().splitlines()
        self.assertEqual((len(bindings), bindings[0], bindings[-1]),
                         (128, '"0","0","1","00000001"', '"1","3f","1","00000001"'))

    def test_what_the_tables_cant_say(self) -> None:
        for signals, told in (
                ('{name = "a", bit = 3, bits = 9, order = "big"}', "a is big-endian, and no whole bytes"),
                ('{name = "a", bit = 0, bits = 9}, {name = "b", bit = 8, bits = 2}', "b shares bits with another"),
                ('{name = "a", bit = 0, bits = 8, bytes = true}', "a is whole bytes"), ("", "it has no signals"),
                ('{name = "a", bit = 0, bits = 16, float = true}', "a is a float of 16 bits"),
                ('{name = "a", bit = 0, bits = 9, signed = true}', "a of frame Odd is shown as bits")):
            text = Path(CLUSTER).read_text() + f'\n[[frame]]\nname = "Odd"\nbytes = 4\nsignal = [{signals}]\n'
            with self.subTest(told=told):
                words = ("signals", self.written("cluster.toml", text), "--wireshark", str(self.folder / "p"))
                status, _, error = self.asked(*words)
                self.assertEqual((status, told in error), (0, True), error)

    def test_a_folder_that_cant_be_written(self) -> None:
        status, _, error = self.asked("signals", CLUSTER, "--wireshark", self.written("file", ""))
        self.assertEqual((status, "musmyrtle: --wireshark" in error), (2, True))

    @unittest.skipUnless(shutil.which("tshark"), "tshark isn't installed")
    def test_tshark(self) -> None:
        folder = str(self.folder / "profile")
        self.asked("signals", CLUSTER, "--wireshark", folder)
        found = subprocess.run(["tshark", "-o", "flexray.try_heuristic_first:TRUE", "-r", self.recording(), "-V", "-c",
                                "1"], capture_output=True, text=True, check=True,
                               env={**os.environ, "WIRESHARK_CONFIG_DIR": folder, "HOME": folder}).stdout
        self.assertEqual(re.findall(r"^    (\w+): (\S+) \[raw", found, re.MULTILINE),
                         [("speed", "87.5"), ("gear", "1"), ("temperature", "20")])


if __name__ == "__main__":
    unittest.main()
