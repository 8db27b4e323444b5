"""Tests of host programs and scenarios that speak in signals, on the cluster of `examples/signals`.

87.5 km/h is 0x222e, and 90 km/h 0x2328. The gears park and drive are 0 and 1, and the initial temperature 60 is 0x3c.
Bit 20 is the update bit of the speed, so that byte 2 has 0xf or 0xe in its upper half.
"""
import os
import pickle
import unittest
from pathlib import Path
from tempfile import TemporaryDirectory

from musmyrtle import BadSignals, BadValue, Frame, Scenario, UnknownSignal, World
from tests.shows import EXAMPLES

CLUSTER = EXAMPLES / "signals/cluster.toml"


class TestWorld(unittest.TestCase):
    def opened(self, cluster: Path = CLUSTER, cycles: int | None = 16) -> World:
        world = World(cluster, cycles)
        self.addCleanup(world.close)
        return world

    def read(self, world: World, node: str = "dashboard", buffer: str = "engine") -> Frame:
        """Returns the frame that a receive buffer has after the next cycle."""
        world.cycle()
        frame = world[node][buffer].read()
        assert frame
        return frame

    def test_commits_and_reads(self) -> None:
        world = self.opened()
        world["engine"]["data"].commit(speed=87.5, gear="drive")
        frame = self.read(world)
        self.assertEqual(frame.payload.hex(), "222ef13c00000000")
        self.assertEqual((frame["speed"], frame["gear"], frame["temperature"]), (87.5, "drive", 20))
        self.assertEqual((frame.raw("speed"), frame.raw("gear"), frame.is_new("speed")), (8750, 1, True))
        self.assertEqual(frame.signals(), {"speed": 87.5, "gear": "drive", "temperature": 20})

    def test_others_stay_as_last_committed(self) -> None:
        """The second commit gives no speed, so that its update bit is 0. Bytes count as a commit too."""
        world = self.opened()
        data = world["engine"]["data"]
        data.commit(speed=87.5, gear="drive")
        data.commit(temperature=0)
        frame = self.read(world)
        self.assertEqual((frame.payload.hex(), frame.is_new("speed")), ("222ee12800000000", False))
        data.commit(bytes.fromhex("2328f02800000000"))
        data.commit(gear="drive")
        self.assertEqual(self.read(world).payload.hex(), "2328e12800000000")
        world.send(["commit 0 0 0 x0000f23c00000000"])
        data.commit({"speed": 90})
        self.assertEqual(self.read(world).payload.hex(), "2328f23c00000000")

    def test_a_refused_commit_changes_nothing(self) -> None:
        world = self.opened()
        data = world["engine"]["data"]
        data.commit(speed=87.5)
        with self.assertRaisesRegex(BadValue, "speed is 700, and has to be a number, 0 to 655.34 km/h"):
            data.commit(speed=700, gear="drive")
        with self.assertRaisesRegex(UnknownSignal, "no signal 'sped'; is speed meant"):
            data.commit(sped=1)
        data.commit(gear="drive")
        self.assertEqual(self.read(world).payload.hex(), "222ee13c00000000")

    def test_invalid_values(self) -> None:
        world = self.opened()
        world["engine"]["data"].commit(speed=None)
        frame = self.read(world)
        self.assertEqual((frame["speed"], frame.raw("speed")), (None, 65535))

    def test_multiplexed_signals(self) -> None:
        world = self.opened()
        world["brake"]["data"].commit(pedal=30, force=800)
        self.assertEqual(self.read(world, "engine", "brake").signals(),
                         {"pedal": 30, "page": "forces", "force": 800.0, "slip": 0})
        world["brake"]["data"].commit(serial=b"\1\2\3\4\5\6")
        frame = self.read(world, "engine", "brake")
        self.assertEqual(frame.signals(), {"pedal": 30, "page": "serial", "serial": b"\1\2\3\4\5\6"})
        with self.assertRaisesRegex(UnknownSignal, "force of frame Brake is there while page is 0, and here page is 1"):
            frame["force"]

    def test_all_ways_to_receive(self) -> None:
        """A world without history knows no channel of a popped frame, and knows that of a read one."""
        for cycles in (4, None):
            with self.subTest(cycles=cycles):
                text = CLUSTER.read_text().replace('name = "dashboard"\n', 'name = "dashboard"\nqueue = {capacity = 4, '
                                                   'first = 1, last = 1, channels = "AB"}\n')
                text = text[:text.rindex('  {name = "engine"')] + text[text.rindex('  {name = "brake"'):]
                with TemporaryDirectory() as folder:
                    world = self.opened(self.written(Path(folder), text), cycles)
                world["engine"]["data"].commit(speed=87.5)
                world.cycle()
                received = world["brake"]["engine"].receive()
                frames = [world["brake"]["engine"].read(), received.frame if received else None,
                          world["dashboard"].pop()]
                popped = world["dashboard"].next()
                frames.append(popped.frame if popped else None)
                self.assertEqual([it["speed"] if it else None for it in frames], [87.5] * 4)

    def written(self, folder: Path, text: str) -> Path:
        (folder / "cluster.toml").write_text(text)
        return folder / "cluster.toml"

    def test_frames_without_signals(self) -> None:
        world = self.opened(EXAMPLES / "three-nodes/cluster.toml")
        world.node(0).commit(0, b"\0\1")
        world.cycle()
        frame = world.node(1).read(1)
        assert frame
        with self.assertRaisesRegex(UnknownSignal, "of slot 1 has no signals: buffer 0 of node 0 can send it"):
            frame["speed"]
        with self.assertRaisesRegex(UnknownSignal, "buffer 0 of node 0 has no signals: expected `frame = "):
            world.node(0).commit(0, speed=1)
        with self.assertRaisesRegex(UnknownSignal, "comes from no world"):
            Frame(b"\0\0", 1, 0)["speed"]

    def test_wrong_calls(self) -> None:
        data = self.opened()["engine"]["data"]
        for call in (lambda: data.commit(), lambda: data.commit(bytes(8), speed=1)):
            with self.assertRaisesRegex(TypeError, "a commit (needs|has) a payload"):
                call()
        with self.assertRaisesRegex(UnknownSignal, "buffer 1 of node 0 is a receive buffer"):
            data.node["brake"].commit(pedal=1)

    def test_faults_of_the_file(self) -> None:
        """They are raised where a signal is used, with their places. Bytes need no signals."""
        text = CLUSTER.read_text().replace("bit = 7, bits = 16", "bit = 7, bits = 33")
        with TemporaryDirectory() as folder:
            world = self.opened(self.written(Path(folder), text))
        world["engine"]["data"].commit(bytes(8))
        with self.assertRaisesRegex(BadSignals, r"cluster.toml:26:29: signal speed of frame Engine ends in byte 5"):
            world["engine"]["data"].commit(speed=1)

    def test_a_second_file_and_another_folder(self) -> None:
        """The file of `signals` is beside the cluster file, wherever the program goes."""
        text = CLUSTER.read_text()
        begin, end = text.index("[[frame]]"), text.index("[[node]]")
        with TemporaryDirectory() as folder:
            (Path(folder) / "signals.toml").write_text(text[begin:end])
            self.written(Path(folder), 'signals = "signals.toml"\n' + text[:begin] + text[end:])
            self.addCleanup(os.chdir, os.getcwd())
            os.chdir(folder)
            world = self.opened(Path("cluster.toml"))
            os.chdir("/")
            world["engine"]["data"].commit(speed=87.5)
        self.assertEqual(self.read(world)["speed"], 87.5)

    def test_frames_stay_values(self) -> None:
        """The origin of a frame is no part of its value, and a copy in another process has its signals."""
        world = self.opened()
        world["engine"]["data"].commit(speed=87.5)
        frame = self.read(world)
        self.assertEqual(frame, Frame(frame.payload, 1, 0, sync=True, startup=True, channel="A"))
        self.assertNotIn("layouts", repr(frame))
        copy = pickle.loads(pickle.dumps(frame))
        self.assertEqual((copy, copy["speed"]), (frame, 87.5))


class TestScenario(unittest.TestCase):
    def test_commits(self) -> None:
        """Signals that aren't given are initial in each line."""
        scenario = Scenario(CLUSTER, cycles=6)
        scenario.task("engine").every(2).commit("data", speed=87.5, gear="drive")
        scenario.task("engine").at(3).commit("data", {"temperature": 0})
        self.assertEqual(scenario.text().splitlines(), [
            "frscenario 3",
            "commit 0 0 0-4/2 0 x222ef13c00000000 # speed=87.5 km/h gear=drive temperature=20 C",
            "commit 0 0 3 0 x0000e02800000000 # speed=0 km/h gear=park temperature=0 C", "end"])

    def test_refusals(self) -> None:
        task = Scenario(CLUSTER, cycles=4).task("engine")
        with self.assertRaisesRegex(BadValue, "speed is 700"):
            task.commit("data", speed=700)
        with self.assertRaisesRegex(TypeError, "and not both: speed"):
            task.commit("data", bytes(8), speed=7)
        with self.assertRaisesRegex(TypeError, "needs a payload"):
            task.commit("data")


if __name__ == "__main__":
    unittest.main()
