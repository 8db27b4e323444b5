"""Tests of listeners and of the stream of frames, over a real `fr_world`, with all values by hand.

In `examples/signals` the engine sends in slot 1, the first window of each cycle of three, and the brake in slot 2.
"""
import time
import unittest

from musmyrtle import FIFO, BadSignals, Fifo, Queue, Reception, UnknownName, UnknownSignal, World
from musmyrtle.faults.frames import data_frame
from tests.shows import EXAMPLES, NETWORK, Shows
from tests.test_signals_over_time import with_frames

SIGNALS = str(EXAMPLES / "signals/cluster.toml")
PEDAL = bytes.fromhex("2c0100004844fa00")


def places(found: list[Reception]) -> list[tuple[object, ...]]:
    return [(it.cycle, it.window, it.node_name, it.buffer_name, it.sender_name, it.slot, it.channel) for it in found]


class TestStream(Shows):
    def test_frames_of_all_receivers(self) -> None:
        with World(SIGNALS, cycles=2) as world:
            world["engine"]["data"].commit(speed=87.5, gear="drive")
            found = []
            for frame in world.frames():
                found.append(frame)
                if frame.cycle == 0 and frame.node_name == "brake":
                    self.assertEqual((frame["speed"], frame["gear"], frame.raw("speed"), frame.is_new("speed")),
                                     (87.5, "drive", 8750, True))
                    world["brake"]["data"].commit(PEDAL)
        self.assertEqual(places(found), [
            (0, 0, "brake", "engine", "engine", 1, "A"), (0, 0, "dashboard", "engine", "engine", 1, "A"),
            (1, 4, "engine", "brake", "brake", 2, "A"), (1, 3, "brake", "engine", "engine", 1, "A"),
            (1, 3, "dashboard", "engine", "engine", 1, "A"), (1, 4, "dashboard", "brake", "brake", 2, "A")])
        self.assertEqual(found[2].signals(), {"pedal": 30, "page": "forces", "force": 800.0, "slip": 0.25})
        self.assertEqual((found[2].node, found[2].buffer, found[2].sender, found[2].payload), (0, 1, 1, PEDAL))

    def test_some_frames(self) -> None:
        words: tuple[tuple[int | None, int | str | None, int | str | None, int], ...] = (
            (None, None, None, 4), (None, "dashboard", None, 2), (None, 1, "engine", 2), (None, "brake", 0, 0),
            (1, None, None, 2), (0, None, None, 0))
        for cycles, node, buffer, count in words:
            with self.subTest(node=node, buffer=buffer), World(SIGNALS, cycles=2) as world:
                world["engine"]["data"].commit(speed=1)
                self.assertEqual(len(list(world.frames(cycles, node, buffer))), count)

    def test_an_endless_world(self) -> None:
        with World(SIGNALS) as world:
            world["engine"]["data"].commit(speed=1)
            found = list(world.frames(cycles=70, node="brake"))
        self.assertEqual([it.cycle for it in found], list(range(70)))
        self.assertEqual(found[69]["speed"], 1)

    def test_frames_that_are_held_already_are_old(self) -> None:
        with World(SIGNALS, cycles=3) as world:
            world["engine"]["data"].commit(speed=1)
            world.cycle()
            with world.fault("lost 0 1"):
                found = list(world.frames(node="brake"))
        self.assertEqual([it.cycle for it in found], [2])


class TestFifos(Shows):
    """In the network the FIFO of the brake admits slot 3 on A, which opens in the third window of twelve."""

    def both(self) -> str:
        """Returns a cluster file in which the FIFO of the pedal admits the force of the brake, on both channels."""
        return self.written("cluster.toml", NETWORK.replace(
            'latest_a = 7\n', 'latest_a = 7\nqueue = {capacity = 1, first = 2, last = 2, channels = "AB"}\n').replace(
            'slot = 2, channels = "A"}', 'slot = 2, channels = "AB"}') + '\n[[node]]\nname = "other"\nbuffer = []\n')

    def test_a_stream(self) -> None:
        """A world without history hears the same, also frames that the FIFO overwrites. `next` takes the last one."""
        file = self.written("cluster.toml", with_frames())
        for cycles in (3, None):
            with self.subTest(cycles=cycles), World(file, cycles) as world:
                found: list[Reception] = []
                for number in range(3):
                    world["pedal"]["log"].commit(count=number)
                    found += world.frames(1, "brake")
                self.assertEqual([(it.cycle, it.window, it.buffer, it.buffer_name, it.is_fifo, it["count"])
                                  for it in found], [(it, 12 * it + 2, None, None, True, it) for it in range(3)])
                self.assertEqual((found[0].node_name, found[0].sender_name, found[0].slot, found[0].channel,
                                  found[0].payload), ("brake", "pedal", 3, "A", bytes(32)))
                taken = world["brake"].task(0).next()
                self.assertEqual((taken and taken.frame.payload[0], world["brake"].report().queue), (2, Queue(0, 2)))

    def test_both_channels(self) -> None:
        """A flipped bit and a frame of another cycle are stored on no channel. A and B are two frames of one window."""
        forged = data_frame(2, 5, b"\x11\x11", "A")
        for fault, channels in (
                ("", "AB"), ("corrupt A 0 s2 9", "B"), ("corrupt B 0 s2 70", "A"), ("mute 1 A 0 s2", "B"),
                ("lost 1 0", ""), ("corrupt A 0 s2 80", "AB"), (f"babble 2 B 0 s2 x{forged.hex()}", "A")):
            found: list[Reception] = []
            with self.subTest(fault=fault), World(self.both(), cycles=1) as world:
                world["brake"]["force"].commit(b"\x12\x34")
                if fault:
                    world.keep(fault)
                with world.listen(found.append, "pedal", FIFO):
                    world.cycle()
            self.assertEqual([(it.channel, it.window, it.payload) for it in found],
                             [(it, 1, b"\x12\x34") for it in channels])

    def test_a_frame_that_doesnt_suit(self) -> None:
        """The brake's own frames are lost on A, and the frame of the other node there is one of another cycle."""
        found: list[Reception] = []
        with World(self.both(), cycles=1) as world:
            world["brake"]["force"].commit(b"\x12\x34")
            world.keep("mute 1 A 0 s2")
            world.keep(f"babble 2 A 0 s2 x{data_frame(2, 5, bytes(2), 'A').hex()}")
            world.listen(found.append)
            world.cycle()
        self.assertEqual([(it.is_fifo, it.channel) for it in found], [(True, "B")])

    def test_selection(self) -> None:
        """A buffer by number is no FIFO, and `FIFO` is no buffer. Frames that were there before are old."""
        words: tuple[tuple[int | str | None, int | Fifo | None, list[str]], ...] = (
            (None, None, ["B", "F"]), ("brake", None, ["B", "F"]), (None, FIFO, ["F"]), ("brake", 1, ["B"]),
            ("pedal", None, []), ("pedal", FIFO, []))
        for node, buffer, wanted in words:
            with self.subTest(node=node, buffer=buffer), World(self.written("c", with_frames()), cycles=3) as world:
                world["pedal"]["position"].commit(angle=1)
                world["pedal"]["log"].commit(count=1)
                world.cycle()
                world["pedal"]["position"].commit(angle=2)
                world["pedal"]["log"].commit(count=2)
                found = list(world.frames(node=node, buffer=buffer))
                self.assertEqual([("F" if it.is_fifo else "B") for it in found], wanted)
                self.assertEqual({it.payload[-1] if it.slot == 1 else it.payload[0] for it in found},
                                 {2} if wanted else set())

    def test_a_buffer_before_the_fifo(self) -> None:
        network = with_frames().replace('slot = 5, channels = "B"', 'slot = 3, channels = "A"')
        with World(self.written("cluster.toml", network), cycles=1) as world:
            world["pedal"]["log"].commit(count=1)
            self.assertEqual([it.buffer_name for it in world.frames()], ["unused"])

    def test_exceptions(self) -> None:
        """The cycle is done before its listeners are called."""
        def fail(_: Reception) -> None:
            raise ArithmeticError

        with World(self.written("cluster.toml", with_frames()), cycles=2) as world:
            world["pedal"]["log"].commit(count=1)
            with world.listen(fail, "brake", FIFO):
                self.assertRaises(ArithmeticError, world.cycle)
            self.assertEqual((world.at().cycle, world.run(1)), (1, None))


class TestListeners(Shows):
    def test_windows(self) -> None:
        """Each window that is done alone has its number. A stopped listener hears nothing more."""
        found: list[Reception] = []
        with World(SIGNALS, cycles=3) as world:
            world["engine"]["data"].commit(speed=1)
            world["brake"]["data"].commit(PEDAL)
            with world.listen(found.append, "dashboard") as listening:
                for _ in range(2):
                    world.window()
                world.run(1)
            world.cycle()
            listening.stop()
        self.assertEqual([(it.cycle, it.window, it.slot) for it in found], [(0, 0, 1), (0, 1, 2)])

    def test_a_run(self) -> None:
        found: list[Reception] = []
        with World(SIGNALS, cycles=5) as world:
            world["engine"]["data"].commit(speed=1)
            world.listen(found.append, "brake")
            world.run(5)
        self.assertEqual([it.cycle for it in found], list(range(5)))

    def test_dynamic_slots_without_signals(self) -> None:
        """The window of a dynamic slot isn't known of a whole cycle. A frame without a layout has no signals."""
        network = NETWORK.replace('slot = 5, channels = "B"', 'slot = 3, channels = "A"')
        found: list[Reception] = []
        with World(self.written("cluster.toml", network), cycles=2) as world:
            world.node(0).commit(1, bytes(32))
            world.listen(found.append, "brake", "unused")
            world.cycle()
            with self.assertRaises(UnknownSignal):
                found[0]["speed"]
        self.assertEqual(places(found), [(0, None, "brake", "unused", "pedal", 3, "A")])

    def test_frames_with_faults_are_bytes(self) -> None:
        """A fault in the layouts matters to signals alone."""
        text = (EXAMPLES / "signals/cluster.toml").read_text().replace("bit = 7, bits = 16", "bit = 7, bits = 99")
        with World(self.written("cluster.toml", text), cycles=1) as world:
            world["engine"]["data"].commit(bytes(8))
            found = list(world.frames(node="brake"))
            self.assertEqual(found[0].payload, bytes(8))
            with self.assertRaises(BadSignals):
                found[0]["speed"]

    def test_exceptions(self) -> None:
        """An exception of a listener comes out of the step, which is done. The world goes on."""
        def fail(_: Reception) -> None:
            raise ArithmeticError

        with World(SIGNALS, cycles=3) as world:
            world["engine"]["data"].commit(speed=1)
            with world.listen(fail, "brake"):
                self.assertRaises(ArithmeticError, world.cycle)
            self.assertEqual(world.at().cycle, 1)
            self.assertRaises(UnknownName, world.listen, print, "motor")
            self.assertRaises(ValueError, world.listen, print, None, "engine")
            world.run(2)
            self.assertEqual(list(world.frames()), [])

    def test_speed(self) -> None:
        """A stream of signals does at least half the cycles a second of one of bytes."""
        def seconds(is_signals: bool) -> float:
            with World(SIGNALS) as world:
                world["engine"]["data"].commit(speed=1)
                begin = time.process_time()
                for frame in world.frames(cycles=600, node="brake"):
                    self.assertTrue(frame["speed"] if is_signals else frame.payload)
                return time.process_time() - begin

        seconds(True)
        self.assertLess(min(seconds(True) for _ in range(3)), 2 * min(seconds(False) for _ in range(3)))


if __name__ == "__main__":
    unittest.main()
