"""Tests of worlds without history, and of what host programs wait for."""
import threading
import unittest
from pathlib import Path
from tempfile import TemporaryDirectory

from musmyrtle import (
    BadCycles, Moment, Mute, NoHistory, NoQueue, NotKept, NotReceive, NoWindow, UnknownNode, World, at_slot, every,
    on_frame,
)

TOP = Path(__file__).resolve().parents[2]
THREE_NODES = TOP / "examples/three-nodes/cluster.toml"


def words(number: int) -> bytes:
    return number.to_bytes(2, "big")


class TestEndless(unittest.TestCase):
    def setUp(self):
        self.world = World(THREE_NODES)
        self.addCleanup(self.world.close)
        self.sender, self.receiver = self.world.node(0), self.world.node(1)

    def test_it_goes_on_after_1024_cycles(self):
        self.assertFalse(self.world.has_history)
        self.world.run(3_000)
        self.sender.commit(0, words(7))
        window = self.world.cycle()
        self.assertEqual(window.cycle, 3_001 % 64)
        self.assertEqual(self.receiver.read(1).payload, words(7))

    def test_the_time_and_the_counters_of_a_long_run(self):
        self.world.run(70_000)
        self.world.window()
        self.assertEqual(self.world.at(), Moment(70_000, 20, 490_001))
        self.assertEqual(self.receiver.status("A"), self.receiver.report().a)
        self.assertEqual(self.receiver.status("A").valid, 70_001)

    def test_a_read_has_its_channel_and_a_pop_has_none(self):
        """Slot 1 is sent on both channels, and slot 4 goes to the receive FIFO of node 0."""
        self.sender.commit(0, words(1))
        self.world.node(2).commit(0, words(2))
        self.world.cycle()
        self.assertEqual((self.receiver.read(1).channel, self.receiver.read(2).channel), ("A", "B"))
        frame = self.sender.pop()
        self.assertEqual((frame.payload, frame.slot, frame.channel), (words(2), 4, None))
        self.assertIsNone(self.sender.pop())
        self.assertIsNone(self.world.node(2).read(1))

    def test_a_received_frame_is_new_once(self):
        for world in (self.world, self.enterContext(World(THREE_NODES, cycles=8))):
            receiver, other = world.node(1), world.node(1).task(1)
            self.assertIsNone(receiver.receive(1))
            world.node(0).commit(0, words(1))
            world.cycle()
            first, again = receiver.receive(1), other.receive(1)
            self.assertEqual((first.channel, first.cycle, first.new, again.new), ("A", 0, True, False))
            self.assertEqual((first.frame, first.frame.payload), (receiver.read(1), words(1)))
            self.assertEqual(world.receive(1, 0, 2).new, True)
            world.node(0).commit(0, words(1))
            world.cycle()
            self.assertEqual((receiver.read(1).cycle, other.receive(1).new, receiver.receive(1).cycle), (1, True, 1))
            with self.assertRaises(NotReceive):
                world.node(0).receive(0)

    def test_the_next_frame_of_a_fifo(self):
        for world in (self.world, self.enterContext(World(THREE_NODES, cycles=4))):
            for number in range(2):
                world.node(2).commit(0, words(number))
                world.cycle()
            for number in range(2):
                got = world.next(0, number)
                self.assertEqual((got.frame.payload, got.frame.channel, got.cycle, got.new),
                                 (words(number), got.channel, number, True))
            self.assertIsNone(world.node(0).next())
            with self.assertRaises(NoQueue):
                world.next(1, 0)

    def test_the_cycle_of_a_frame_goes_on_after_63(self):
        self.world.run(1_000)
        self.sender.commit(0, words(3))
        self.world.cycle()
        got = self.receiver.receive(1)
        self.assertEqual((got.cycle, got.frame.cycle), (1_000, 1_000 % 64))

    def test_the_windows_of_the_last_cycles_are_kept(self):
        """A cycle has 7 windows: 5 static slots, and 2 of the 6 minislots open a slot if nothing is sent there."""
        with World(THREE_NODES, keep=2) as kept, World(THREE_NODES, cycles=10) as whole:
            for world in (kept, whole):
                world.run(8)
            last = kept.now().number - 1
            for number in range(last - 13, last + 1):
                self.assertEqual(kept.record(number), whole.record(number))
            with self.assertRaises(NotKept):
                kept.record(0)
            with self.assertRaises(NoWindow):
                kept.record(last + 1)

    def test_the_traces_of_some_nodes(self):
        with TemporaryDirectory() as folder:
            with World(THREE_NODES, traces=folder, trace_nodes=(2, 0)) as world:
                world.cycle()
            self.assertEqual(sorted(file.name for file in Path(folder).iterdir()), ["0", "2"])

    def test_what_cant_be_kept_or_traced(self):
        for given in ({"keep": 0}, {"keep": 65}, {"keep": 2, "cycles": 4}, {"trace_nodes": (0,)},
                      {"traces": "traces", "trace_nodes": ()}, {"traces": "traces", "trace_nodes": (16,)},
                      {"traces": "traces", "trace_nodes": (1, 1)}):
            with self.assertRaises(ValueError, msg=given):
                World(THREE_NODES, **given)

    def test_what_asks_for_history_is_refused(self):
        self.world.run(2)
        for call in (self.receiver.trace, lambda: self.world.capture("unwritten"),
                     lambda: self.world.page("unwritten")):
            with self.assertRaises(NoHistory):
                call()
        self.assertFalse(Path("unwritten").exists())
        last = self.world.now().number - 1
        self.assertEqual(self.world.record(last).window.number, last)
        for number, kind in ((0, NotKept), (last - 1, NotKept), (last + 1, NoWindow)):
            with self.assertRaises(kind):
                self.world.record(number)

    def test_its_cycles_can_be_given(self):
        with World(THREE_NODES, cycles=2_000, endless=True) as world:
            self.assertIsNotNone(world.run(1_999))
            self.assertIsNone(world.run(1))
        for cycles in (0, 4_000_001):
            with self.assertRaises(BadCycles):
                World(THREE_NODES, cycles=cycles, endless=True)
        with self.assertRaises(BadCycles):
            World(THREE_NODES, cycles=1_025)

    def test_a_cluster_with_too_many_windows_for_its_cycles(self):
        """2,000 windows a cycle: 4,000,000 cycles have more than 2^32 - 1."""
        lines = ["[params]", "static_slots = 1000", "minislots = 1000", "static_words = 1", "static_mt = 10",
                 "minislot_mt = 2", "symbol_mt = 0", "nit_mt = 10", "cycle_mt = 12010", "idle = 0",
                 "words_per_minislot = 1", "[[node]]", "own = []", "buffer = []"]
        with TemporaryDirectory() as folder:
            cluster = Path(folder) / "cluster.toml"
            cluster.write_text("".join(f"{line}\n" for line in lines))
            with self.assertRaises(BadCycles):
                World(cluster, cycles=4_000_000, endless=True)
            World(cluster).close()

    def test_a_transcript_while_another_thread_asks(self):
        over = threading.Event()

        def ask():
            while not over.is_set():
                self.world.now()

        thread = threading.Thread(target=ask)
        thread.start()
        try:
            for _ in range(300):
                self.world.transcript()
        finally:
            over.set()
            thread.join()

    def test_cycles_to_do_are_up_to_4000000(self):
        for cycles in (-1, 4_000_001):
            with self.assertRaises(ValueError):
                self.world.run(cycles)
            with self.assertRaises(ValueError):
                self.world.play(cycles=cycles)
        with World(THREE_NODES, cycles=8) as kept, self.assertRaises(ValueError):
            kept.run(1_025)

    def test_the_last_requests_are_remembered(self):
        self.world.send(["now"] * 10_005)
        self.sender.commit(0, words(1))
        asked = self.world.transcript().splitlines()
        self.assertEqual((len(asked), asked[-1]), (10_000, "commit 0 0 0 x0001"))

    def test_faults_of_blocks_come_in_it(self):
        self.world.run(1_500)
        with self.world.fault(Mute(0, "A"), when=lambda window: window.a == 1), self.world.fault("mute 0 B * s*"):
            self.sender.commit(0, words(9))
            self.world.run(2)
            self.assertIsNone(self.receiver.read(1))
        self.sender.commit(0, words(8))
        self.world.cycle()
        self.assertEqual(self.receiver.read(1).payload, words(8))


class TestWaits(unittest.TestCase):
    def setUp(self):
        self.world = World(THREE_NODES, cycles=16)
        self.addCleanup(self.world.close)
        self.sender, self.receiver = self.world.node(0), self.world.node(1)

    def test_every_so_many_cycles(self):
        seen = []

        def host():
            while True:
                seen.append(self.world.now().cycle)
                yield every(5)

        self.world.play(host(), cycles=16)
        self.assertEqual(seen, [0, 5, 10, 15])

    def test_a_slot_of_each_cycle(self):
        seen = []

        def host():
            for _ in range(3):
                yield at_slot(2)
                seen.append((self.world.now().cycle, self.world.now().a))

        self.world.play(host(), cycles=8)
        self.assertEqual(seen, [(0, 2), (1, 2), (2, 2)])

    def test_the_first_slot_of_the_next_cycle(self):
        """A cycle that begins as the wait ends isn't counted for the next wait."""
        seen = []

        def host():
            yield at_slot(1)
            seen.append(self.world.now().cycle)
            yield
            seen.append(self.world.now().cycle)
            yield at_slot(1)
            seen.append(self.world.now().cycle)
            yield every(5)
            seen.append(self.world.now().cycle)

        self.world.play(host(), cycles=12)
        self.assertEqual(seen, [1, 2, 3, 8])

    def test_a_frame_also_with_the_same_payload(self):
        seen = []

        def sender():
            for number in (1, 1, 2):
                self.sender.commit(0, words(number))
                yield every(2)

        def receiver():
            while True:
                yield on_frame(1, 1)
                seen.append((self.world.now().cycle, self.world.now().a, self.receiver.read(1).payload))

        self.world.play(receiver(), sender(), cycles=6)
        # Node 1 receives slot 1 by the time that slot 2 opens.
        self.assertEqual(seen, [(0, 2, words(1)), (2, 2, words(1)), (4, 2, words(2))])

    def test_hosts_without_a_wait_go_on_beside_those(self):
        turns = []

        def plain():
            for number in range(3):
                turns.append(("plain", number))
                yield

        def waiting():
            yield at_slot(2)
            turns.append(("slot", self.world.now().cycle))
            yield "anything else"
            turns.append(("cycle", self.world.now().cycle))

        self.world.play(plain(), waiting(), cycles=4)
        self.assertEqual(turns, [("plain", 0), ("slot", 0), ("plain", 1), ("cycle", 1), ("plain", 2)])

    def test_the_run_ends_while_a_host_waits(self):
        def host():
            yield at_slot(1023)

        self.assertIsNone(self.world.play(host(), cycles=16))

    def test_what_no_host_can_wait_for(self):
        for wait in (lambda: every(0), lambda: at_slot(0), lambda: at_slot(1024), lambda: on_frame(16, 0),
                     lambda: on_frame(0, 64)):
            with self.assertRaises(ValueError):
                wait()

        def host(node, buffer):
            yield on_frame(node, buffer)

        for node, buffer, kind in ((0, 0, NotReceive), (1, 63, NotReceive), (9, 0, UnknownNode)):
            with self.assertRaises(kind):
                self.world.play(host(node, buffer), cycles=1)


if __name__ == "__main__":
    unittest.main()
