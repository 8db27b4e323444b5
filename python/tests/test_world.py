"""Tests of worlds, and of scenarios that a program makes."""
import importlib
import inspect
import os
import subprocess
import sys
import unittest
from unittest.mock import patch
from pathlib import Path
from tempfile import TemporaryDirectory

import musmyrtle
from musmyrtle import (
    Babble, BadFault, BadLine, BadName, BusRefused, Corrupt, HostRefused, Moment, Mute, Names, NotAllPut,
    NotCollecting, NotReceive, NotSealed, NoWindow, Refused, Scenario, SessionOver, TooManyFaults,
    UnknownBuffer, UnknownName, UnknownNode, UnknownTask, Window, World, WrongLength, WrongTurn,
)
from musmyrtle.world.node import Buffer, Node
from musmyrtle.world.world_program import usual_world

TOP = Path(__file__).resolve().parents[2]
THREE_NODES = TOP / "examples/three-nodes/cluster.toml"
HOSTS = TOP / "examples/host-programs"


def words(number: int) -> bytes:
    return number.to_bytes(2, "big")


class TestWorld(unittest.TestCase):
    def setUp(self):
        self.world = World(THREE_NODES, cycles=8)
        self.addCleanup(self.world.close)
        self.sender, self.receiver = self.world.node(0), self.world.node(1)

    def test_a_payload_arrives_in_its_cycle(self):
        for number in range(4):
            self.sender.commit(0, words(number))
            self.world.cycle()
            frame = self.receiver.read(1)
            self.assertEqual((frame.payload, frame.slot, frame.cycle, frame.sync), (words(number), 1, number, True))
            self.assertEqual((frame.channel, self.receiver.read(2).channel), ("A", "B"))

    def test_steps_of_a_window(self):
        window = self.receiver.look()
        self.assertEqual(window, Window(0, 0, 0, 1, 1))
        with self.assertRaises(WrongTurn):
            self.receiver.put()
        self.receiver.fetch()
        self.receiver.put()
        self.assertEqual(self.world.window().number, 1)

    def test_the_time_of_the_run(self):
        """A cycle has 3 static slots of 20 macroticks, and from there 4 minislots of 5, to macrotick 80 of 90."""
        times = [self.world.at()]
        while times[-1].cycle < 2:
            self.world.window()
            times.append(self.world.at())
        starts = [0, 20, 40, 60, 65, 70, 75]
        self.assertEqual(times, [Moment(cycle, start, 7 * cycle + place) for cycle in range(2)
                                 for place, start in enumerate(starts)] + [Moment(2, 0, 14)])
        for node in range(3):
            for step in ("look", "fetch", "put"):
                self.world.ask(f"{step} {node}")
        self.world.seal()
        self.assertEqual(self.world.at(), Moment(2, 0, 15))
        self.assertIsNone(self.world.run(6))
        self.assertEqual(self.world.at(), Moment(8, 0, 56))

    def test_the_time_in_seconds(self):
        """A cycle has 90 macroticks, here of 2.5 us."""
        with self.assertRaisesRegex(ValueError, "`macrotick_us`"):
            self.world.seconds()
        folder = self.enterContext(TemporaryDirectory())
        file = Path(folder) / "physical.toml"
        file.write_text(THREE_NODES.read_text().replace("[params]", "[physical]\nmacrotick_us = 2.5\n[params]"))
        with World(file) as world:
            self.assertEqual(world.seconds(), 0)
            world.window()
            self.assertAlmostEqual(world.seconds(), 0.00005)
            world.run(3)
            self.assertAlmostEqual(world.seconds(), 0.000675)
            world.run(40_000)
            self.assertAlmostEqual(world.seconds(), 9.000675)

    def test_the_status_counters(self):
        self.sender.commit(0, words(7))
        self.world.inject(Corrupt("A", 60))
        self.world.cycle()
        report = self.receiver.report()
        for channel, counters in (("A", report.a), ("B", report.b)):
            self.assertEqual(self.receiver.status(channel), counters)
            self.assertEqual(self.world.status(1, channel), counters)
        self.assertEqual((report.a.valid, report.a.syntax, report.b.valid), (0, 1, 1))
        with self.assertRaises(UnknownNode):
            self.world.status(3, "A")
        for node, channel in ((16, "A"), (-1, "A"), (0, "C"), (0, "AB")):
            with self.assertRaises(ValueError):
                self.world.status(node, channel)

    def test_refusals_have_names_and_change_nothing(self):
        before = self.sender.report()
        for kind, call in ((WrongLength, lambda: self.sender.commit(0, b"1234")),
                           (UnknownBuffer, lambda: self.sender.commit(9, b"12")),
                           (NotReceive, lambda: self.sender.read(0)),
                           (UnknownNode, lambda: self.world.node(3).report()),
                           (NoWindow, lambda: self.world.record(0)),
                           (BadLine, lambda: self.world.ask("commit 0"))):
            with self.assertRaises(kind):
                call()
        self.assertTrue(issubclass(WrongLength, HostRefused) and issubclass(HostRefused, Refused))
        self.assertEqual(self.sender.report(), before)

    def test_refusals_of_the_bus_have_names(self):
        self.world.inject(Mute(0, "A"))
        for kind, call in ((UnknownNode, lambda: self.world.inject(Mute(3, "A"))),
                           (UnknownNode, lambda: self.world.inject(Babble(15, "A", b""))),
                           (TooManyFaults, lambda: self.world.inject(Mute(0, "A"))),
                           (NotAllPut, self.world.seal), (NotSealed, self.world.advance)):
            with self.assertRaises(kind) as raised:
                call()
            self.assertIsInstance(raised.exception, BusRefused)
        self.world.run(8)
        with self.assertRaises(NotCollecting):
            self.world.window()

    def test_numbers_out_of_range_are_not_sent(self):
        node, world = self.sender, self.world
        for call in (lambda: world.node(-1), lambda: world.node(16), lambda: node.task(8), lambda: node.task(-1),
                     lambda: Buffer(node, 64), lambda: node.commit(64, b""), lambda: node.withdraw(-1),
                     lambda: node.read(64), lambda: node.commit(0, b"1"), lambda: node.commit(0, bytes(256)),
                     lambda: world.run(-1), lambda: world.run(1025), lambda: world.play(cycles=1025),
                     lambda: world.play_scenario("frscenario 2\nend\n", 1025), lambda: world.record(-1),
                     lambda: world.record(2**32), lambda: Mute(16, "A"), lambda: Mute(0, "AB"),
                     lambda: Babble(-1, "A", b""), lambda: Babble(0, "C", b""), lambda: Babble(0, "A", bytes(263)),
                     lambda: Corrupt("A", 65536), lambda: Corrupt("a", 0), lambda: World(THREE_NODES, 0),
                     lambda: World(THREE_NODES, 1025), lambda: world.keep("mute 16 A * s*"),
                     lambda: world.keep("corrupt A * s0 1"), lambda: world.fault("mute 0 A 1024 s*")):
            with self.assertRaises(ValueError):
                call()
        with self.assertRaises(TypeError):
            node.read(0.5)
        self.assertEqual(world.transcript(), "")

    def test_the_greatest_numbers_are_sent(self):
        world = self.world
        for kind, call in ((UnknownNode, lambda: world.node(15).read(63)), (UnknownTask, self.sender.task(7).pop),
                           (UnknownBuffer, lambda: self.sender.commit(63, bytes(254))),
                           (NoWindow, lambda: world.record(2**32 - 1)), (UnknownNode, lambda: world.node(3)["speed"])):
            with self.assertRaises(kind):
                call()
        world.inject(Babble(2, "B", bytes(262)))
        world.inject(Corrupt("B", 65535))
        self.assertIsNone(world.run(8))
        self.assertEqual(world.node(True).number, 1)

    def test_a_guardian_stops_a_babble(self):
        self.sender.commit(0, words(7))
        with self.world.fault(Babble(2, "A", b"\0"), when=lambda window: window.is_static):
            self.world.cycle()
        self.assertEqual([(it.node, it.channel, it.babble, it.fate) for it in self.world.record(0).sent],
                         [(0, "A", False, "passed"), (0, "B", False, "passed"), (2, "A", True, "blocked")])
        self.assertEqual(self.receiver.read(1).payload, words(7))

    def test_a_mute_and_a_turned_bit(self):
        self.sender.commit(0, words(7))
        self.world.inject(Mute(0, "A"))
        self.world.inject(Corrupt("B", 3))
        self.world.cycle()
        record = self.world.record(0)
        self.assertEqual([it.fate for it in record.sent], ["muted", "passed"])
        self.assertEqual(record.corrupt, {"B": 3})
        self.assertIsNone(self.receiver.read(1))

    def test_a_fault_line_comes_where_it_says_until_its_block_ends(self):
        with self.world.fault("mute 0 A 1 s1"), self.world.fault("babble 2 A * s* x00"):
            self.world.run(2)
            with self.assertRaises(BadFault):
                self.world.keep("babble 2 A 2 s1 xff")
        self.world.run(1)
        fates = [[(it.node, it.fate) for it in self.world.record(number).sent if it.channel == "A"]
                 for number in (0, 7, 14)]
        self.assertEqual(fates, [[(0, "passed"), (2, "blocked")], [(0, "muted"), (2, "blocked")], [(0, "passed")]])

    def test_a_block_ends_its_own_fault_line(self):
        with self.world.fault("mute 0 A * s1"):
            with self.world.fault("mute 0 B * s1"):
                self.world.run(1)
            self.world.run(1)
        fates = [[it.fate for it in self.world.record(number).sent] for number in (0, 7)]
        self.assertEqual(fates, [["muted", "muted"], ["muted", "passed"]])

    def test_forget_ends_all_fault_lines(self):
        self.world.keep("mute 0 A * s1")
        self.world.keep("corrupt B 0 s1 3")
        self.world.forget()
        self.world.run(1)
        self.assertEqual([it.fate for it in self.world.record(0).sent], ["passed", "passed"])
        self.assertEqual(self.world.record(0).corrupt, {})
        with self.assertRaises(ValueError):
            self.world.keep("mute 0 A")

    def test_a_fault_line_may_end_as_in_a_file(self):
        self.world.keep("mute 0 A * s1\n")
        self.world.run(1)
        self.assertEqual([it.fate for it in self.world.record(0).sent], ["muted", "passed"])

    def test_a_fault_line_says_itself_where_it_comes(self):
        with self.assertRaisesRegex(ValueError, "give it no `when`"):
            self.world.fault("mute 0 A * s*", when=lambda window: window.is_static)
        for line, right in (("mute 0 A", "`mute` has 5"), ("mute 0 A s* *", "CYCLES is `s\\*`"),
                            ("read 0 0 0 1", "begins with `babble`"), ("mute 0 A * s*\nnow", "PLACE"),
                            ("", "empty")):
            with self.assertRaisesRegex(ValueError, right):
                self.world.fault(line)
        self.assertEqual(self.world.transcript(), "")

    def test_fault_lines_that_are_asked_are_kept_after_a_block(self):
        self.world.ask("mute 0 A * s1")
        self.world.send(["corrupt B * s1 3", "now"])
        with self.world.fault("mute 1 A * s2"):
            pass
        self.world.run(1)
        record = self.world.record(0)
        self.assertEqual(([it.fate for it in record.sent], record.corrupt), (["muted", "passed"], {"B": 3}))
        self.world.ask("forget")
        with self.world.fault("mute 0 B * s1"):
            self.world.run(1)
        self.assertEqual([it.fate for it in self.world.record(7).sent], ["passed", "muted"])
        self.assertEqual(self.world.transcript().splitlines()[-3:], ["run 1", "forget", "record 7"])

    def test_an_exception_of_a_block_is_not_replaced(self):
        for fault in ("mute 0 A * s1", Mute(0, "A")):
            for end in (lambda world: world.close(), lambda world: world._session._child.kill()):
                with World(THREE_NODES, cycles=8) as world:
                    with self.assertRaisesRegex(AssertionError, "^no frame$"), world.fault(fault):
                        end(world)
                        raise AssertionError("no frame")
        with World(THREE_NODES, cycles=8) as world:
            with self.assertRaises(SessionOver), world.fault("mute 0 A * s1"):
                world._session._child.kill()
            with self.assertRaises(SessionOver):
                world.now()

    def test_a_world_can_be_closed_in_a_block(self):
        with self.world.fault("mute 0 A * s1"), self.world.fault(Mute(0, "B")):
            self.world.close()

    def test_a_block_brings_nothing_that_is_there_already_and_nothing_after_the_seal(self):
        with self.world.fault(Mute(0, "A")):
            self.world.inject(Mute(0, "A"))
            self.world.window()
            for node in map(self.world.node, range(3)):
                node.look()
                node.fetch()
                node.put()
            self.world.seal()
            self.world.window()
            self.world.run(2)
        fates = [[it.fate for it in self.world.record(number).sent if it.node == 0] for number in (0, 1, 7)]
        self.assertEqual(fates, [["muted", "passed"], [], ["muted", "passed"]])

    def test_a_request_is_one_line(self):
        for asked in (["now\nnow"], ["now", "now\n"]):
            with self.assertRaises(ValueError):
                self.world.send(asked)
        self.assertEqual(self.world.ask("now"), "open 0 0 0 1 1")

    def test_a_whole_scenario(self):
        example = THREE_NODES.with_name("scenario").read_text()
        with World(THREE_NODES, cycles=4) as world:
            answers = world.play_scenario(example, 4)
            self.assertEqual(len(answers), sum(line.split(" ")[0] in ("commit", "withdraw", "read", "pop")
                                               for line in example.splitlines()))
            reports = ["".join(f"{line}\n" for line in world.block(f"report {node}")) for node in range(3)]
            self.assertIsNone(world.now())
        wanted = THREE_NODES.with_name("outcome-of-4-cycles").read_text()
        self.assertTrue(wanted.startswith("".join(f"node {node}\n{it}" for node, it in enumerate(reports))))

    def test_what_is_no_scenario_is_not_played(self):
        begin, end = "frscenario 2\n", "end\n"
        for text, said in (("nonsense", "line 1: the first line doesn't name the format"), ("", "line 1: .*empty"),
                           (begin, "line 1: the file ends without the line `end`"),
                           (f"{begin}comit 0 0 0 0 x0a0b\n{end}", "line 2: .* Is `commit` meant"),
                           (f"{begin}read 1 0 0 1\nread 1 0 4 1\n{end}", "line 3: there is no cycle 4 in 4 cycles"),
                           (f"{begin}mute 0 A 4 s*\n{end}", "line 2: there is no cycle 4 in 4 cycles"),
                           (f"{begin}pop 0 0 2\npop 0 0 1\n{end}", "line 3: cycle 1 comes after cycle 2"),
                           (f"{begin}pop 0 0 x\n{end}", "line 2: CYCLE is `x`. Expected a number"),
                           (f"{begin}pop 0 0 0\n{end}now\n", "line 4: after `end`")):
            with self.assertRaisesRegex(ValueError, f"^scenario {said}"):
                self.world.play_scenario(text, 4)
        self.assertEqual(self.world.transcript(), "")

    def test_a_scenario_of_version_3(self):
        """Ranges, comments and free spaces. Lines that name only later cycles are left out."""
        text = ("frscenario 3\n# two cycles\n\n commit 0 0\t0-1 0 x0a0b # twice\nread 1 0 1-9 1\npop 0 0 2-5\n"
                "mute 0 A 2 s*\nend\n")
        self.assertEqual(self.world.play_scenario(text, 2), [
            ("commit 0 0 0 x0a0b", "committed 0"), ("commit 0 0 0 x0a0b", "committed 15"),
            ("read 1 0 1", "frame 0 1 --s- x0a0b")])
        with self.assertRaisesRegex(ValueError, "^scenario line 2: NODE is `pedal`. No node has this name"):
            self.world.play_scenario("frscenario 3\npop pedal 0 0\nend\n", 1)

    def test_a_fault_line_of_two_channels(self):
        """`AB` and `lost` are one request. If it is refused for a channel, it isn't kept for the other one either."""
        with self.world.fault("mute 0 AB * s1"):
            self.world.keep("lost 1 *")
            self.assertEqual(self.world.transcript(), "mute 0 AB * s1\nlost 1 *\n")
            with self.assertRaises(BadFault):
                self.world.keep("mute 0 AB * s1")
            self.world.run(1)
        self.world.keep("mute 0 A * s1")
        with self.assertRaises(BadFault):
            self.world.keep("lost 0 0-3")
        self.world.forget()
        self.world.keep("mute 0 B * s1")
        with self.assertRaises(BadFault):
            self.world.keep("mute 0 AB * s1")
        self.world.keep("mute 0 A * s1")
        self.world.run(1)
        fates = [[it.fate for it in self.world.record(number).sent] for number in (0, 1, 7)]
        self.assertEqual(fates, [["muted", "muted"], ["muted", "muted"], ["muted", "muted"]])

    def test_a_fault_line_of_a_dynamic_slot(self):
        """Node 2 sends on A in slot 4, which opens at minislot 1, and in cycle 1 a bit of its frame is flipped."""
        sender = self.world.node(2)
        for _ in range(3):
            sender.commit(0, words(7))
            with self.world.fault(" corrupt\tA 1-7/8 d4 60 # so"):
                self.world.cycle()
        self.assertEqual(self.world.transcript().splitlines()[1], "corrupt A 1-7/8 d4 60")
        flipped = [it.window.number for it in map(self.world.record, range(21)) if it.corrupt]
        self.assertEqual(flipped, [10])

    def test_the_channel_of_a_frame_is_that_of_the_report_and_the_trace(self):
        """Slot 1 is sent on both channels, and the receive buffer is for channel A alone."""
        self.sender.commit(0, b"\0\7")
        self.world.cycle()
        frame = self.receiver.read(1)
        self.assertEqual((frame.payload, frame.channel), (b"\0\7", "A"))
        self.assertEqual(self.receiver.report().buffers[1].channel, "A")
        read = [line.split(" ") for line in self.receiver.trace().splitlines() if line.startswith("read ")]
        self.assertEqual([words[3].partition(":")[2] for words in read], ["A"])

    def test_a_program_that_knows_no_origin(self):
        """A program without the request refuses it, also after a read that it accepts."""
        with patch.object(self.world, "send", return_value=["frame 0 1 --s- x0007", "refused BadLine 2"]):
            with self.assertRaises(BadLine):
                self.receiver.read(1)

    def test_a_report_is_told_in_parts(self):
        self.sender.commit(0, words(1))
        self.world.run(2)
        report = self.sender.report()
        self.assertEqual((report.buffers[0].committed, report.buffers[0].sent), (1, 1))
        self.assertEqual(report.queue.lost, 0)
        self.assertEqual(self.receiver.report().buffers[1].payload, words(1))
        self.assertTrue(self.sender.trace().startswith("frtrace 3\n"))

    def test_host_programs_take_turns(self):
        def host():
            for number in range(3):
                self.sender.commit(0, words(number))
                yield

        self.assertIsNone(self.world.play(host(), cycles=8))
        self.assertIsNone(self.world.now())
        self.assertEqual(self.receiver.report().buffers[1].payload, words(2))

    def test_a_transcript_can_be_asked_again(self):
        self.test_a_payload_arrives_in_its_cycle()
        with self.assertRaises(WrongLength):
            self.sender.commit(0, b"")
        asked = self.world.transcript()
        command = [usual_world(), str(THREE_NODES), "--cycles", "8"]
        once, again = (subprocess.run(command, input=asked.encode(), stdout=subprocess.PIPE).stdout for _ in range(2))
        self.assertEqual(once, again)
        self.assertEqual(len(once.splitlines()), 1 + len(asked.splitlines()))

    def test_many_requests_in_one_write(self):
        self.assertEqual(self.world.send(["now", "commit 0 0 0 x01", "now"]),
                         ["open 0 0 0 1 1", "refused BadLine 2", "open 0 0 0 1 1"])

    def test_names(self):
        with World(HOSTS / "brakes.toml", cycles=1) as world:
            self.assertEqual(world["brake"]["position"].number, 1)
            for name in (lambda: world["clutch"], lambda: world["brake"]["force"]):
                with self.assertRaises(UnknownName):
                    name()

    def test_names_are_those_of_the_opening(self):
        with TemporaryDirectory() as folder:
            cluster = Path(folder) / "cluster.toml"
            text = (HOSTS / "brakes.toml").read_text()
            cluster.write_bytes(b"\xef\xbb\xbf" + text.encode())
            with World(cluster, cycles=1) as world, World(cluster, cycles=1) as other:
                cluster.write_text(text.replace('name = "brake"', 'name = "clutch"'))
                self.assertEqual(world["brake"]["position"].number, 1)
                cluster.unlink()
                self.assertEqual(other["brake"].number, 1)

    def test_a_wrong_name_is_told_at_the_opening(self):
        with TemporaryDirectory() as folder:
            cluster = Path(folder) / "cluster.toml"
            text = (HOSTS / "brakes.toml").read_text()
            for old, new, said in (('name = "brake"', "name = 5", "`name` of node 1 is 5, and has to be a string"),
                                   ('name = "speed"', "name = []", r"`name` of buffer 1 of node 0 is \[\]")):
                cluster.write_text(text.replace(old, new, 1))
                for opened in (World, Scenario):
                    with self.assertRaisesRegex(BadName, said):
                        opened(cluster, cycles=1)

    def test_a_name_of_several_is_of_none(self):
        text = (HOSTS / "brakes.toml").read_text()
        names = Names.of(text.replace('"radio"', '"brake"').replace('name = "speed"', 'name = "position"', 1).encode())
        self.assertEqual((names.node("pedal"), names.buffer(1, "speed")), (0, 0))
        for call, said in ((lambda: names.node("brake"), "several nodes"),
                           (lambda: names.buffer(0, "position"), "several buffers of node 0")):
            with self.assertRaisesRegex(UnknownName, said):
                call()

    def test_names_of_a_cluster_in_toml_1_1(self):
        with TemporaryDirectory() as folder:
            cluster = Path(folder) / "cluster.toml"
            text = (HOSTS / "brakes.toml").read_text()
            cluster.write_text(text.replace('channels = "AB", sync = true, startup = true}]',
                                            'channels = "AB",\n  sync = true, startup = true}]', 1))
            self.assertIn(",\n  sync", cluster.read_text())
            with World(cluster, cycles=1) as world:
                self.assertEqual(world["brake"]["position"].number, 1)
            self.assertEqual(Scenario(cluster, cycles=1).node("brake"), 1)

    def test_a_cluster_that_the_program_alone_can_read_has_no_names(self):
        with TemporaryDirectory() as folder:
            pipe = Path(folder) / "pipe"
            os.mkfifo(pipe)
            with subprocess.Popen(["sh", "-c", f"cat '{HOSTS}/brakes.toml' >'{pipe}'"]):
                world = World(pipe, cycles=1)
            with world, self.assertRaisesRegex(UnknownName, "no names are known: the cluster file is no regular file"):
                world["brake"]

    def test_a_text_that_is_no_toml_has_no_names(self):
        with self.assertRaisesRegex(ValueError, "^line 2, column 8: "):
            Names.of(b"[params]\nidle = zero\n")

    def test_a_world_that_is_not_opened_says_why(self):
        with self.assertRaises(SessionOver) as raised:
            World("/dev/null", 1)
        self.assertEqual(str(raised.exception), "refused Params Missing static_slots")

    def test_a_closed_world_is_over(self):
        self.world.close()
        self.world.close()
        with self.assertRaises(SessionOver):
            self.world.now()


class TestScenario(unittest.TestCase):
    def lines(self, scenario: Scenario) -> list[str]:
        return scenario.text().splitlines()[1:-1]

    def test_tasks(self):
        scenario = Scenario(HOSTS / "brakes.toml", cycles=6)
        scenario.task("brake").at([4, 1]).read("position")
        scenario.task("pedal").every(2, first=1).commit("position", [b"\0\1\0\0", b"\0\2\0\0", b"\0\3\0\0"])
        self.assertEqual(self.lines(scenario), [
            "commit 0 0 1 0 x00010000", "commit 0 0 3 0 x00020000", "commit 0 0 5 0 x00030000",
            "read 1 0 1 1", "read 1 0 4 1"])

    def test_faults(self):
        scenario = Scenario(THREE_NODES, cycles=4)
        scenario.babble(2, b"\0", slot=1)
        scenario.corrupt(9, minislot=2, channels="B", cycles=3)
        scenario.lose(2, cycles=range(2, 9))
        self.assertEqual(self.lines(scenario), [
            "babble 2 AB * s1 x00", "corrupt B 3 m2 9", "lost 2 2-3"])

    def test_places(self):
        scenario = Scenario(THREE_NODES, cycles=4)
        scenario.mute(0, slot=3)
        scenario.mute(0, slot=4, channels="A")
        for place in ("*", "s*", "m*", "s1-3", "m4", "d7"):
            scenario.mute(1, place=place)
        self.assertEqual(self.lines(scenario), ["mute 0 AB * s3", "mute 0 A * d4", *(
            f"mute 1 AB * {place}" for place in ("*", "s*", "m*", "s1-3", "m4", "d7"))])
        for more in ({"slot": 1, "minislot": 1}, {"slot": 1, "place": "*"}, {"place": "s4-2"}, {"place": "d0"},
                     {"place": "s8001"}, {"place": ""}):
            with self.assertRaises(ValueError):
                scenario.corrupt(0, **more)

    def test_cycles(self):
        """Cycles with one step are one line, and two that aren't neighbours two lines."""
        scenario = Scenario(THREE_NODES, cycles=16)
        for cycles in (None, range(16), range(3, 9), range(0, 16, 4), [1, 2, 7], [0, 1, 2, 5, 7, 9, 15], 3, 16, [0, 9]):
            scenario.lose(0, cycles=cycles)
        self.assertEqual([line.removeprefix("lost 0 ") for line in self.lines(scenario)], [
            "*", "*", "3-8", "0-12/4", "1-2", "7", "0-2", "5-9/2", "15", "3", "0", "9"])

    def test_calls_of_one_cycle_stand_in_their_order(self):
        """Equal payloads of neighbouring cycles are one line, and lines stand in the order of the calls."""
        scenario = Scenario(HOSTS / "brakes.toml", cycles=6)
        pedal = scenario.task("pedal")
        pedal.commit("position", [b"\0\1\0\0"] * 3 + [b"\0\2\0\0"] * 3)
        pedal.at([1, 3, 5]).withdraw("position")
        pedal.at(0).commit("position", b"\0\3\0\0")
        self.assertEqual(self.lines(scenario), [
            "commit 0 0 0-2 0 x00010000", "commit 0 0 3-5 0 x00020000", "withdraw 0 0 1-5/2 0",
            "commit 0 0 0 0 x00030000"])

    def test_numbers_out_of_range(self):
        scenario = Scenario(THREE_NODES, cycles=4)
        task = scenario.task(0)
        for call in (lambda: Scenario(THREE_NODES, 0), lambda: scenario.task(16), lambda: scenario.task(0, 8),
                     lambda: task.read(64), lambda: task.commit(0, b"1"), lambda: task.at(-1), lambda: task.every(0),
                     lambda: scenario.mute(0, slot=0), lambda: scenario.mute(0, minislot=8001),
                     lambda: scenario.corrupt(65536), lambda: scenario.babble(0, bytes(263)),
                     lambda: scenario.mute(0, channels="C")):
            with self.assertRaises(ValueError):
                call()
        self.assertEqual(self.lines(scenario), [])


class TestDocstrings(unittest.TestCase):
    def test_all_that_is_public_has_one(self):
        named = [getattr(musmyrtle, name) for name in musmyrtle.__all__]
        kinds = [*(it for it in named if inspect.isclass(it)), musmyrtle.world.session.Session,
                 musmyrtle.world.builder.Task]
        self.assertIn(Node, kinds)
        without = [f"{kind.__name__}.{name}" for kind in kinds for name, value in vars(kind).items()
                   if not name.startswith("_") and (inspect.isfunction(value) or isinstance(value, property))
                   and not inspect.getdoc(value)]
        self.assertEqual(without + [kind.__name__ for kind in kinds if not kind.__doc__], [])


class TestBrakes(unittest.TestCase):
    def setUp(self):
        sys.path.insert(0, str(HOSTS))
        self.addCleanup(sys.path.remove, str(HOSTS))
        self.brakes = importlib.import_module("brakes")

    def test_the_car_stops_beside_a_babbling_radio(self):
        with TemporaryDirectory() as folder:
            for guard, babble, speed in (("AB", False, 0.0), ("AB", True, 0.0), ("B", True, 0.0), ("none", True, 20.0)):
                with self.subTest(guard=guard, babble=babble):
                    cluster = self.brakes.with_guard(guard, Path(folder))
                    self.assertEqual(self.brakes.stopped(cluster, babble).speed, speed)

    def test_the_same_in_c(self):
        import shutil
        compiler = shutil.which("cc")
        if not compiler:
            self.skipTest("there is no C compiler")
        with TemporaryDirectory() as folder:
            program = Path(folder) / "host"
            subprocess.run([compiler, "-o", program, HOSTS / "host.c"], check=True)
            command = [program, usual_world(), HOSTS / "brakes.toml"]
            lines = subprocess.run(command, stdout=subprocess.PIPE, text=True, check=True).stdout.splitlines()
        self.assertEqual(lines, [f"frame {cycle} 1 --su x{100 * cycle:04x}0000" for cycle in range(8)])


class TestCruise(unittest.TestCase):
    def test_the_engine_drives_by_the_channel_that_has_guardians(self):
        """Channel A has none, so it carries nothing beside the babbling logger. The other car is as far away."""
        sys.path.insert(0, str(HOSTS))
        self.addCleanup(sys.path.remove, str(HOSTS))
        cruise = importlib.import_module("cruise")
        (calm, calm_speeds), (disturbed, speeds) = (cruise.driven(babble, cycles=1_200) for babble in (False, True))
        self.assertEqual((calm.heard, disturbed.heard), ({"A": 1_200, "B": 1_200}, {"A": 0, "B": 1_200}))
        self.assertEqual((calm.distance, calm_speeds), (disturbed.distance, speeds))
        self.assertEqual(len(speeds), 1_200)
        self.assertGreater(disturbed.closest, 10.0)


if __name__ == "__main__":
    unittest.main()
