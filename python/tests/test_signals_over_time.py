"""Tests of the command `signals` on a run of `examples/signals` and on other networks, with all values by hand.

A cycle of the example has 100 macroticks of 5 us. Slot 1 begins at macrotick 0, and slot 2 at 30, which is 150 us. The
speed 87.5 km/h is 8750, which is 0x222e, and 90 is 9000, which is 0x2328. Bit 4 of byte 2 is the update bit.
"""
import os
import subprocess
import sys
import unittest
from pathlib import Path
from typing import Any

from musmyrtle.faults.frames import data_frame
from tests.shows import EXAMPLES, NETWORK, Shows

TOP = Path(__file__).resolve().parents[2]
CLUSTER = str(EXAMPLES / "signals/cluster.toml")
EXAMPLE = (CLUSTER, str(EXAMPLES / "signals/scenario"), "--cycles", "4")
SCENE = """frscenario 3
commit engine 0 0 data x222ef13c00000000
commit engine 0 2 data x2328e13c00000000     # 90 km/h with the update bit 0
commit brake 0 1 data x2c0100004844fa00
lost engine 3
corrupt A 4 s1 60
lost engine 5-6
end
"""
WITHOUT_PLOT = "musmyrtle: serial of frame Brake isn't drawn, since it is whole bytes and no number\n"
KEYS = "begin_us cycle channel value raw age_us what"
FRAMES = """
[[frame]]
name = "Position"
bytes = 2
signal = [{name = "angle", bit = 7, bits = 16, order = "big", signed = true, unit = "deg", max = 100}]

[[frame]]
name = "Log"
bytes = 4
signal = [{name = "count", bit = 0, bits = 8}]
"""


def with_frames(network: str = NETWORK) -> str:
    """Returns the network of two nodes with frames of the position and of the log."""
    named = network.replace('slot = 1, channels = "AB"}', 'slot = 1, channels = "AB", frame = "Position"}', 1)
    return named.replace("words = 16}", 'words = 16, frame = "Log"}').replace("[[node]]", f"{FRAMES}\n[[node]]", 1)


class OverTime(Shows):
    def samples(self, keys: str, *words: str) -> list[tuple[Any, ...]]:
        """Returns the values of some keys of the samples."""
        return self.values("sample", keys, "signals", *words)

    def scene(self, scene: str = SCENE, cycles: int = 8, network: str | None = None) -> list[str]:
        """Returns the words of a run."""
        cluster = CLUSTER if network is None else self.written("cluster.toml", network)
        return [cluster, self.written("scenario", scene), "--cycles", str(cycles)]


class TestRun(OverTime):
    def test_values_ages_and_losses(self) -> None:
        self.assertEqual(self.samples(KEYS, *self.scene(), "brake.speed"), [
            (0.0, 0, "A", 87.5, 8750, 0.0, "new"), (500.0, 1, "A", 87.5, 8750, 0.0, "new"),
            (1000.0, 2, "A", 90, 9000, 0.0, "stored"), (1500.0, 3, "AB", 90, 9000, 500.0, "lost"),
            (2000.0, 4, "B", 90, 9000, 0.0, "stored"), (2500.0, 5, "AB", 90, 9000, 500.0, "lost"),
            (3000.0, 6, "AB", 90, 9000, 1000.0, "lost"), (3500.0, 7, "A", 90, 9000, 0.0, "stored")])

    def test_null_frames_and_multiplexed_signals(self) -> None:
        """Before the first commit the brake sends null frames. Then the page of the frame has the force and the slip.
        """
        wanted = [(150.0, 0, "pedal", None, None, "null"), (150.0, 0, "page", None, None, "null"),
                  (150.0, 0, "force", None, None, "null"), (150.0, 0, "slip", None, None, "null"),
                  (150.0, 0, "serial", None, None, "null"), (650.0, 1, "pedal", 30, 0.0, "new"),
                  (650.0, 1, "page", 0, 0.0, "new"), (650.0, 1, "force", 800.0, 0.0, "new"),
                  (650.0, 1, "slip", 0.25, 0.0, "new")]
        words = [*self.scene(), "engine.*", "--in-cycles", "0-1"]
        self.assertEqual(self.samples("begin_us cycle signal value age_us what", *words), wanted)

    def test_names_of_all_parties(self) -> None:
        found = self.rows("sample", "signals", *self.scene(), "dashboard.gear",
                          "--in-cycles", "0")
        self.assertEqual(found, [{
            "fault": None, "begin_mt": 0, "begin_us": 0.0, "cycle": 0, "slot": 1, "channel": "A", "sender": 0,
            "sender_name": "engine", "receiver": 2, "receiver_name": "dashboard", "buffer": 0,
            "buffer_name": "engine", "frame": "Engine", "signal": "gear", "value": 1, "unit": None, "name": "drive",
            "raw": 1, "in_range": True, "age_mt": 0, "age_us": 0.0, "what": "new"}])

    def test_an_endless_run_has_the_same(self) -> None:
        words = [*self.scene(), "brake.speed", "dashboard.pedal"]
        self.assertEqual(self.samples(KEYS, *words, "--endless"), self.samples(KEYS, *words))

    def test_a_text(self) -> None:
        self.assertEqual(self.printed("signals", *self.scene(), "brake.speed", "--in-cycles", "2-3"), (
            "begin [us]  cycle  slot  channel  sender      receiver   buffer      signal  value  unit   raw  age [us]  "
            "what\n"
            "      1000      2     1  A        engine (0)  brake (1)  engine (1)  speed      90  km/h  9000         0  "
            "stored\n"
            "      1500      3     1  AB       engine (0)  brake (1)  engine (1)  speed      90  km/h  9000       500  "
            "lost\n"
            "age: from the window of the frame that the receiver holds to this window\n"))

    def test_csv(self) -> None:
        lines = self.printed("signals", *self.scene(), "brake.speed", "--csv").splitlines()
        self.assertEqual((lines[0], lines[4]), (
            "kind,fault,begin_mt,begin_us,cycle,slot,channel,sender,sender_name,receiver,receiver_name,buffer,"
            "buffer_name,frame,signal,value,unit,name,raw,in_range,age_mt,age_us,what",
            "sample,,300,1500,3,1,AB,0,engine,1,brake,1,engine,Engine,speed,90,km/h,,9000,true,100,500,lost"))


class TestChoice(OverTime):
    def test_words(self) -> None:
        """A word names signals at receivers: by node, by node and buffer, by node and frame, or all of them."""
        for words, found in (
                ("brake.gear", {("brake", "gear")}), ("1.gear", {("brake", "gear")}),
                ("brake.engine.gear", {("brake", "gear")}), ("brake.1.gear", {("brake", "gear")}),
                ("brake.Engine.gear", {("brake", "gear")}), ("0-2.gear", {("brake", "gear"), ("dashboard", "gear")}),
                ("brake.engine.*", {("brake", "speed"), ("brake", "gear"), ("brake", "temperature")}),
                ("brake.speed dashboard.gear", {("brake", "speed"), ("dashboard", "gear")}),
                ("--node dashboard --signal gear,pedal", {("dashboard", "gear"), ("dashboard", "pedal")}),
                ("--buffer brake.engine --signal gear", {("brake", "gear")}),
                ("--node 1 --buffer engine --signal gear", {("brake", "gear")}),
                ("--slot 2 --signal pedal", {("engine", "pedal"), ("dashboard", "pedal")}),
                ("brake.gear --slot 2", set()), ("brake.gear --channel A", {("brake", "gear")}),
                ("dashboard.pedal --channel B", {("dashboard", "pedal")})):
            with self.subTest(words=words):
                self.assertEqual(set(self.samples("receiver_name signal", *self.scene(), *words.split())),
                                 found)

    def test_rows(self) -> None:
        for words, cycles in (("--errors", [3, 5, 6]), ("--in-cycles 0-6/3", [0, 3, 6]), ("--channel B", [3, 4, 5, 6]),
                              ("--channel B --in-cycles 4-5", [4, 5])):
            with self.subTest(words=words):
                self.assertEqual([it for it, in self.samples("cycle", *self.scene(), "brake.speed", *words.split())],
                                 cycles)

    def test_wrong_words(self) -> None:
        for words, told in (
                ("brake.sped", "brake (1) receives; is speed meant?"),
                ("brake.nothing", "it receives speed, gear and temperature"),
                ("engine.speed", "engine (0) sends speed, and doesn't receive it; its receivers are brake (1) and "
                                 "dashboard (2)"),
                ("speed", "expected NODE.SIGNAL or NODE.BUFFER.SIGNAL of a receiver, as brake.speed"),
                ("motor.speed", "the nodes are engine, brake, dashboard"),
                ("--signal sped", "no signal that a node receives has the name sped; is speed meant?"),
                ("--signal x", "they are speed, gear, temperature, pedal, page, force, slip and serial"),
                ("--in-cycles 9", "the run has no cycle 9: it has 8 cycles"), ("--stale 10ms", "--stale wants --svg"),
                ("--slot 9", "the cluster has no slot 9"), ("--node 3", "none is 3"),
                ("--svg x --stale 10", "is no age: expected a time as 10ms"),
                ("--kinds lost", "--kinds wants --each-fault-of NODE"),
                ("--each-fault-of motor", "none is motor"),
                ("--each-fault-of engine --fault-slots s9", "static slot 9"),
                ("--each-fault-of engine --fault-cycles 8", "the run has no cycle 8")):
            with self.subTest(words=words):
                status, output, error = self.asked("signals", *self.scene(), *words.split())
                self.assertEqual(status, 2, error)
                self.assertIn(told, error)
                self.assertEqual(output if "motor" not in words and "s9" not in words else "", "")

    def test_a_receiver_without_signals(self) -> None:
        network = with_frames().replace('frame = "Position"', "").replace('frame = "Log"', "")
        status, _, error = self.asked("signals", *self.scene("frscenario 3\nend\n", 2, network), "brake.angle")
        self.assertEqual((status, "brake (1) receives no frame with signals" in error), (2, True))


class TestOtherNetworks(OverTime):
    def test_event_buffers_and_fifos(self) -> None:
        """The position of cycle 0 is sent once; then the slot has null frames. The FIFO stores the first log, and loses
        the second one."""
        scene = ("frscenario 3\ncommit 0 0 0 0 xfffe\ncommit 0 0 0 1 x01" + 31 * "00" + "\ncommit 0 0 1 1 x02"
                 + 31 * "00" + "\nmute 0 A 1 m1\nend\n")
        words = self.scene(scene, 3, with_frames())
        self.assertEqual(self.samples("begin_mt buffer signal value age_mt what", *words), [
            (0, 1, "angle", -2, 0, "new"), (40, None, "count", 1, 0, "new"), (100, 1, "angle", -2, 100, "null"),
            (140, None, "count", 1, 100, "lost"), (200, 1, "angle", -2, 200, "null")])

    def test_a_buffer_before_the_fifo(self) -> None:
        """The FIFO isn't due for what a receive buffer of its node admits."""
        network = with_frames().replace('slot = 5, channels = "B"', 'slot = 3, channels = "A"')
        scene = "frscenario 3\ncommit 0 0 0-1 1 x01" + 31 * "00" + "\nmute 0 A 1 m1\nend\n"
        found = self.samples("cycle buffer_name what", *self.scene(scene, 2, network), "brake.count")
        self.assertEqual(found, [(0, "unused", "new"), (1, "unused", "lost")])

    def test_cycles_of_a_receive_buffer(self) -> None:
        network = with_frames().replace('kind = "receive", slot = 1, channels = "AB"',
                                        'kind = "receive", slot = 1, channels = "A", base = 1, repetition = 2')
        words = self.scene("frscenario 3\ncommit 0 0 0-3 0 x0001\nend\n", 4, network)
        self.assertEqual(self.samples("cycle channel what", *words), [(1, "A", "new"), (3, "A", "new")])

    def test_values_out_of_their_limits(self) -> None:
        words = self.scene("frscenario 3\ncommit 0 0 0 0 x0064\ncommit 0 0 1 0 x0065\nend\n", 3, with_frames())
        self.assertEqual(self.samples("value in_range", *words), [(100, True), (101, False), (101, False)])
        self.assertEqual(self.samples("cycle", *words, "--errors"), [(1,), (2,)])

    def test_a_forged_frame(self) -> None:
        """The brake babbles a frame of slot 1 where the pedal's own one is lost. It is stored, with its real sender."""
        frame = data_frame(1, 0, bytes.fromhex("0007"), "A").hex()
        scene = f"frscenario 3\ncommit 0 0 0 0 x0001\nmute 0 AB 0 s1\nbabble 2 A 0 s1 x{frame}\nend\n"
        third = with_frames() + ('\n[[node]]\nname = "other"\nown = []\nbuffer = []\n')
        found = self.samples("cycle channel sender value what", *self.scene(scene, 1, third))
        self.assertEqual(found, [(0, "A", 2, 7, "new")])

    def test_a_slot_that_two_senders_divide(self) -> None:
        """The buffer holds the frame of the other sender, so it doesn't hold the signal of the lost one."""
        network = with_frames().replace(
            'own = [{slot = 1, channels = "AB", sync = true}]', 'own = [{slot = 1, channels = "AB", repetition = 2}]'
        ).replace('slot = 1, channels = "AB", frame = "Position"}',
                  'slot = 1, channels = "AB", repetition = 2, frame = "Position"}')
        network += ('\n[[node]]\nname = "other"\nown = [{slot = 1, channels = "AB", base = 1, repetition = 2}]\nbuffer '
                    '= [{kind = "state", slot = 1, channels = "AB", base = 1, repetition = 2, frame = "Other"}]\n'
                    '[[frame]]\nname = "Other"\nbytes = 1\nsignal = [{name = "state", bit = 0, bits = 8}]\n')
        scene = ("frscenario 3\ncommit 0 0 0 0 x0001\ncommit 2 0 0 0 x0900\ncommit 0 0 2 0 x0002\n"
                 "mute 0 AB 2 s1\nmute 2 AB 3 s1\nend\n")
        found = self.samples("cycle sender frame value age_mt what", *self.scene(scene, 4, network), "brake.*")
        self.assertEqual(found, [
            (0, 0, "Position", 1, 0, "new"), (1, 2, "Other", 9, 0, "new"), (2, 0, "Position", None, None, "lost"),
            (3, 2, "Other", 9, 200, "lost")])

    def test_a_run_without_room(self) -> None:
        """A run whose history has no room is an endless one."""
        text = Path(CLUSTER).read_text().replace("slot_entries = 8192", "slot_entries = 12")
        words = self.scene(cycles=8, network=text)
        status, output, error = self.asked("signals", *words, "brake.speed", "--csv")
        self.assertEqual((status, len(output.splitlines()), error), (
            0, 9, "musmyrtle: the history of this run has no room, so the run is an endless one, as with --endless\n"))

    def test_many_cycles(self) -> None:
        status, _, error = self.asked("signals", CLUSTER, EXAMPLE[1], "--cycles", "1025")
        self.assertEqual((status, "needs --endless" in error), (2, True))
        scene = "frscenario 3\ncommit engine 0 0 data x222ef13c00000000\nlost engine 1000-1023\nend\n"
        found = self.samples("cycle age_us what", *self.scene(scene, 1100), "brake.speed", "--endless")
        self.assertEqual((len(found), found[1023], found[1024]), (1100, (1023, 12000.0, "lost"), (1024, 0.0, "new")))

    def test_times_without_microseconds(self) -> None:
        network = with_frames().replace("macrotick_us = 2", "")
        words = self.scene("frscenario 3\ncommit 0 0 0 0 x0001\nend\n", 1, network)
        self.assertEqual(self.samples("begin_mt begin_us age_mt age_us", *words), [(0, None, 0, None)])


class TestStatuses(OverTime):
    def test_missed_expectations_of_the_scenario(self) -> None:
        scene = SCENE.replace("end\n", "expect dashboard 3 engine x0000\nend\n")
        status, output, error = self.asked("signals", *self.scene(scene), "brake.speed", "--csv")
        self.assertEqual((status, len(output.splitlines())), (3, 9))
        self.assertIn("expected x0000, found x2328e13c00000000", error)
        status, _, error = self.asked("signals", *self.scene(scene), "brake.speed", "--csv", "--endless")
        self.assertEqual((status, "line 8 is not judged in a run without history" in error), (5, True))

    def test_refusals_print_nothing(self) -> None:
        """A refused run is explained, and leaves standard output and the picture as they were."""
        picture = self.written("speed.svg", "before")
        for form in ("--csv", "--json"):
            words = self.scene(SCENE.replace("lost engine 3", "lost engin 3"))
            status, output, error = self.asked("signals", *words, form, "--svg", picture)
            self.assertEqual((status, output), (1, ""))
            self.assertIn("refused BadLine 5", error)
        self.assertEqual(Path(picture).read_text(), "before")
        text = Path(CLUSTER).read_text().replace("bit = 7, bits = 16", "bit = 7, bits = 33")
        status, output, error = self.asked("signals", *self.scene(network=text))
        self.assertEqual((status, output, "ends in byte 5" in error), (1, "", True))


class TestStreams(OverTime):
    def ran(self, *words: str, **how: Any) -> "subprocess.CompletedProcess[bytes]":
        return subprocess.run([sys.executable, "-m", "musmyrtle.show.main", "signals", *words], stderr=subprocess.PIPE,
                              env={**os.environ, "PYTHONPATH": str(TOP / "python")}, check=False, **how)

    def test_a_full_disk(self) -> None:
        with open("/dev/full", "wb") as full:
            for form in ("--csv", "--json", "--errors"):
                found = self.ran(*self.scene(), form, stdout=full)
                self.assertEqual((found.returncode, found.stderr),
                                 (2, b"musmyrtle: the output can't be written: No space left on device\n"))

    def test_a_reader_that_ends(self) -> None:
        """The reader of the table goes away, and the picture is whole."""
        picture = self.folder / "speed.svg"
        words = [*self.scene(cycles=1000), "--csv", "--svg", str(picture)]
        reading, writing = os.pipe()
        os.close(reading)
        with os.fdopen(writing, "wb") as pipe:
            found = self.ran(*words, stdout=pipe)
        self.assertEqual((found.returncode, found.stderr.decode()), (0, WITHOUT_PLOT))
        self.assertTrue(picture.read_text().endswith("</svg>\n"))


if __name__ == "__main__":
    unittest.main()
