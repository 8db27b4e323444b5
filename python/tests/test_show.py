"""The tables of `musmyrtle`: values worked out by hand, or from the documents."""
import json
import os
import sys
import unittest
from unittest import mock

from musmyrtle.show.tables import Column, Numbers, numbers_text, shortened
from tests.shows import FIRST, IDLE_NOTE, NETWORK, POP, SCENE, SECOND, THREE, WITH_IDLE, Shows


class Clusters(Shows):
    def test_parameters(self) -> None:
        """The parts of the cycle are `cycle_mt` macroticks, each of 2 us."""
        cluster = self.written("cluster.toml", NETWORK)
        self.assertEqual(self.values("parameter", "key value unit time_mt time_us standard", "check", cluster), [
            ("static_slots", 2, "slots", None, None, "gNumberOfStaticSlots"),
            ("minislots", 10, "minislots", None, None, "gNumberOfMinislots"),
            ("static_words", 1, "two-byte words", None, None, "gPayloadLengthStatic"),
            ("static_mt", 20, "macroticks", 20, 40, "gdStaticSlot"),
            ("minislot_mt", 5, "macroticks", 5, 10, "gdMinislot"),
            ("symbol_mt", 0, "macroticks", 0, 0, "gdSymbolWindow"),
            ("nit_mt", 10, "macroticks", 10, 20, "gdNIT"),
            ("cycle_mt", 100, "macroticks", 100, 200, "gMacroPerCycle"),
            ("idle", 0, "minislots", None, None, "gdDynamicSlotIdlePhase"),
            ("words_per_minislot", 5, "two-byte words", None, None, None),
        ])

    def test_nodes(self) -> None:
        cluster = self.written("cluster.toml", NETWORK)
        keys = "node node_name slots latest_a latest_b transmit receive capacity sync startup"
        self.assertEqual(self.values("node", keys, "check", cluster), [
            (0, "pedal", "1", 7, 0, 2, 0, None, True, False), (1, "brake", "2", 3, 0, 2, 2, 1, False, False)])

    def test_senders_and_receivers(self) -> None:
        cluster = self.written("cluster.toml", NETWORK)
        keys = "segment slot channel node_name buffer_name mode begin_us end_us words"
        found = self.rows("sender", "plan", cluster)
        self.assertEqual([tuple(row[key] for key in keys.split()) for row in found], [
            ("static", 1, "A", "pedal", "position", "event", 0, 40, 1),
            ("static", 1, "B", "pedal", "position", "event", 0, 40, 1),
            ("static", 2, "A", "brake", "force", "state", 40, 80, 1),
            ("static", 2, "B", "brake", None, "null frames", 40, 80, 1),
            ("dynamic", 3, "A", "pedal", "log", "event", None, None, 16),
            ("dynamic", 4, "A", "brake", "state", "event", None, None, 1)])
        position = [{"node": 1, "node_name": "brake", "buffer": 1, "buffer_name": "position"}]
        fifo = [{"node": 1, "node_name": "brake", "buffer": None, "buffer_name": None}]
        self.assertEqual([row["receivers"] for row in found], [position, position, [], [], fifo, []])

    def test_senders_are_those_of_the_program(self) -> None:
        """A program that stands in for `fr_view` prints links that the cluster doesn't have."""
        lines = "1 - dynamic 9 B 5 8 77 - - -\n0 0 static 7 A 3 4 2 11 13 1:b1,1:queue\n"
        program = self.folder / "fr_view"
        program.write_text(f"#!{sys.executable} -IS\nprint({lines!r}, end='')\n")
        program.chmod(0o755)
        with mock.patch.dict(os.environ, MUSMYRTLE_VIEW=str(program)):
            found = self.rows("sender", "plan", self.written("cluster.toml", NETWORK))
        receivers = [{"node": 1, "node_name": "brake", "buffer": 1, "buffer_name": "position"},
                     {"node": 1, "node_name": "brake", "buffer": None, "buffer_name": None}]
        self.assertEqual([tuple(it.values()) for it in found], [
            ("dynamic", 9, "B", 1, "brake", None, None, "null frames", 5, 8, "cycles 5, 13 ..", None, None, None, None,
             77, []),
            ("static", 7, "A", 0, "pedal", 0, "position", "event", 3, 4, "cycles 3, 7 ..", 11, 22, 13, 26,
             2, receivers)])

    def test_guardians(self) -> None:
        """The intervals of docs/formats/cluster.md."""
        self.assertEqual(self.values("guardian", "node channel cycle begin_mt end_mt begin_us", "plan", THREE[0])[:3], [
            (0, "A", 0, 0, 20, None), (0, "A", 0, 60, 80, None), (0, "B", 0, 0, 80, None)])

    def test_a_slot_that_nodes_divide(self) -> None:
        """In slot 3 of docs/formats/cluster.md node 0 sends in even cycles, and node 1 in odd ones."""
        cluster = THREE[0].replace("three-nodes", "divided-slot")
        found = self.values("sender", "slot channel node base repetition", "plan", cluster)
        self.assertEqual([it for it in found if it[0] == 3], [(3, "A", 0, 0, 2), (3, "A", 1, 1, 2)])


class Commits(Shows):
    def test_times_and_receivers(self) -> None:
        """Slot 3 begins at macrotick 40 of a cycle, and slot 2 at 20."""
        keys = "node_name buffer_name cycle fate sent_cycle slot channel begin_us latency_us end"
        self.assertEqual(self.values("commit", keys, "commits", *self.run_of()), [
            ("pedal", "position", 0, "sent", 0, 1, "A", 0, 0, "alone"),
            ("pedal", "position", 0, "sent", 0, 1, "B", 0, 0, "collided"),
            ("pedal", "log", 0, "sent", 0, 3, "A", 80, 80, "alone"),
            ("pedal", "log", 1, "sent", 1, 3, "A", 280, 80, "alone"),
            ("brake", "force", 0, "sent", 0, 2, "A", 40, 40, "alone"),
            ("brake", "force", 0, "sent", 1, 2, "A", 240, 240, "alone"),
            ("brake", "state", 0, "pending", None, 4, "A", None, None, "pending")])

    def test_the_line_of_the_guide(self) -> None:
        """The example of the README: `0 0 0 0 0 x0a0b = sent 0 1 A alone 1:b1 0 1 B collided -`."""
        keys = "node buffer task cycle entry data sent_cycle slot channel end"
        found = self.rows("commit", "commits", *THREE, "--in-cycles", "0", "--slot", "1")
        self.assertEqual([tuple(row[key] for key in keys.split()) for row in found], [
            (0, 0, 0, 0, 0, "x0a0b", 0, 1, "A", "alone"), (0, 0, 0, 0, 0, "x0a0b", 0, 1, "B", "collided")])
        self.assertEqual([row["receivers"] for row in found], [
            [{"node": 1, "node_name": None, "buffer": 1, "buffer_name": None}], []])

    def test_selection(self) -> None:
        run, keys = self.run_of(), "node cycle slot channel"
        for words, expected in (
            (("--node", "pedal", "--slot", "1"), [(0, 0, 1, "A"), (0, 0, 1, "B")]),
            (("--node", "0", "--in-cycles", "1"), [(0, 1, 3, "A")]),
            (("--channel", "B"), [(0, 0, 1, "B")]),
            # The brake receives the position on A and both frames of slot 3.
            (("--node", "brake", "--slot", "1-3"),
             [(0, 0, 1, "A"), (0, 0, 3, "A"), (0, 1, 3, "A"), (1, 0, 2, "A"), (1, 0, 2, "A")]),
            (("--errors",), [(0, 0, 1, "B"), (1, 0, 2, "A"), (1, 0, 2, "A"), (1, 0, 4, "A")]),
        ):
            with self.subTest(words):
                self.assertEqual(self.values("commit", keys, "commits", *run, *words), expected)

    def test_what_came_of_a_commit_at_a_node(self) -> None:
        found = self.printed("commits", *self.run_of(), "--node", "pedal", "--in-cycles", "0", "--slot", "1")
        self.assertEqual([line.split() for line in found.splitlines()[:3]], [
            "node buffer cycle bytes sent in slot channel begin [us] latency [us] to end [us] end receivers".split(),
            "pedal (0) position (0) 0 x0001 0 1 A 0 0 40 arrived brake (1) position (1)".split(),
            "pedal (0) position (0) 0 x0001 0 1 B 0 0 40 collided -".split()])

    def test_long_bytes(self) -> None:
        """A text has the first eight of more than 16 bytes, and the last one. JSON and CSV have all."""
        run = self.run_of()
        for command in ("commits", "log", "reads"):
            self.assertRegex(self.printed(command, *run), r"x[0-9a-f]{16}\.\.[0-9a-f]{2} ")
            for form in ("--json", "--csv"):
                self.assertNotIn("..", self.printed(command, *run, form))
                self.assertIn(FIRST.removeprefix("x"), self.printed(command, *run, form))
        self.assertEqual([shortened(it) for it in ("-", "x", f"x{'ab' * 16}", f"x{'ab' * 17}", "word" * 10)],
                         ["-", "x", f"x{'ab' * 16}", "xabababababababab..ab", "word" * 10])

    def test_many_numbers(self) -> None:
        """A text has ranges with steps from four numbers on, and counts what is left out of a very long list."""
        for numbers, expected in (((), "-"), ((4,), "4"), ((1, 2, 3, 5), "1-3,5"), ((1, 3, 5), "1,3,5"),
                                  ((0, 2, 4, 6), "0-6/2"), ((1, 2, 3, 5, 8, 10, 12, 14), "1-3,5,8-14/2"),
                                  ((1, 3, 4, 5, 9, 13, 17, 21), "1,3-5,9-21/4"), (range(0, 1024, 2), "0-1022/2")):
            self.assertEqual(Column("slots", "slots").text(Numbers(tuple(numbers))), expected)
        squares = [it * it for it in range(1, 301)]
        front, _, rest = numbers_text(squares).partition(" and ")
        shown = [int(it) for it in front.split(",")]
        self.assertEqual((shown, rest), (squares[:len(shown)], f"{300 - len(shown)} more"))
        self.assertTrue(350 < len(front) <= 360)
        self.assertEqual(Numbers((0, 2, 4, 6)).text, "0-6/2")
        self.assertEqual(Column("slots", "slots").cells(Numbers((0, 2, 4, 6))), ["0,2,4,6"])

    def test_many_static_slots(self) -> None:
        """A node owns 60 slots, which JSON has one by one."""
        slots = [it for it in range(1, 121) if it % 2]
        owned = ", ".join(f'{{slot = {it}, channels = "A"}}' for it in slots)
        network = NETWORK
        for old, new in (("static_slots = 2\n", "static_slots = 121\n"), ("static_mt = 20", "static_mt = 5"),
                         ("cycle_mt = 100", "cycle_mt = 665"), ("slot = 3", "slot = 123"), ("slot = 4", "slot = 124"),
                         ("slot = 5", "slot = 125"), ("first = 3, last = 3", "first = 123, last = 123"),
                         ('own = [{slot = 2, channels = "AB"}]', f"own = [{owned}]"),
                         ('{slot = 1, channels = "A"}', '{slot = 121, channels = "A"}'),
                         ('slot = 2, channels = "A"', 'slot = 3, channels = "A"')):
            network = network.replace(old, new)
        cluster = self.written("cluster.toml", network)
        row = self.rows("node", "check", cluster)[1]
        self.assertEqual(row["slots"], " ".join(map(str, [*slots[1:], 121])))
        self.assertIn(" 3-121/2 ", self.printed("check", cluster))


class Reads(Shows):
    def test_calls(self) -> None:
        """Both frames are of cycle 0. The calls of cycle 1 come at its start, at 200 us."""
        keys = ("node_name cycle call buffer data frame_cycle slot channel sender_name sender_buffer_name age_us "
                "latency_us")
        self.assertEqual(self.values("call", keys, "reads", *self.run_of()), [
            ("brake", 1, "read", 1, "x0001", 0, 1, "A", "pedal", "position", 200, 200),
            ("brake", 1, "pop", None, FIRST, 0, 3, "A", "pedal", "log", 120, 200)])

    def test_a_fifo_that_is_popped(self) -> None:
        self.assertEqual(self.values("fifo", "node_name state frame_cycle slot data", "reads", *self.run_of()), [
            ("brake", "waiting", 1, 3, SECOND)])

    def test_a_fifo_that_overwrites(self) -> None:
        run = self.run_of(scene=SCENE.replace(POP, ""))
        overwritten = ("brake", "overwritten", 0, 3, FIRST)
        keys = "node_name state frame_cycle slot data"
        self.assertEqual(self.values("fifo", keys, "reads", *run), [overwritten, ("brake", "waiting", 1, 3, SECOND)])
        self.assertEqual(self.values("fifo", keys, "reads", *run, "--errors"), [overwritten])

    def test_the_older_of_two_frames_with_the_same_bytes(self) -> None:
        """Cycle 64 has the cycle count of cycle 0. The FIFO holds both frames, and the first pop has the older one."""
        wider = NETWORK.replace("capacity = 1", "capacity = 2")
        commits = "".join(f"commit 0 0 {cycle} 1 {FIRST}\n" for cycle in (0, 64))
        scene = f"frscenario 1\n{commits}pop 1 0 65\npop 1 0 65\nend\n"
        run = [*self.run_of(wider, scene)[:2], "--cycles", "66"]
        found = self.values("call", "cycle frame_cycle commit_cycle", "reads", *run)
        self.assertEqual(found, [(65, 0, 0), (65, 64, 64)])

    def test_the_answers_of_the_guide(self) -> None:
        """Task 1 of node 0 pops the frame of cycle 0 and slot 4. Node 1 reads the frame of cycle 2 and slot 1.

        Slot 4 is the first after three of 20 macroticks. A cycle has 90, so the pop comes at 180, and the read at 270.
        """
        keys = "node task cycle call buffer data frame_cycle slot channel sender age_mt latency_mt"
        self.assertEqual(self.values("call", keys, "reads", *THREE), [
            (0, 1, 2, "pop", None, "x7001", 0, 4, "A", 2, 120, 180),
            (1, 0, 3, "read", 1, "x0c0d", 2, 1, "A", 0, 90, 90)])


class Log(Shows):
    def test_the_disturber_of_the_guide(self) -> None:
        """The lines of VIEWING: in slot 1 node 2 babbles, and its guardian stops that on A."""
        keys = "cycle window slot channel node what passed end frame flags data line"
        found = self.values("transmission", keys, "log", *THREE, "--slot", "1", "--in-cycles", "0")
        self.assertEqual(found, [
            (0, 0, 1, "A", 0, "offer", "passed", "alone", 1, "--s-", "x30010236000a0b18f7d3", None),
            (0, 0, 1, "B", 0, "offer", "passed", "collided", 1, "--s-", "x30010236000a0b3e7702", None),
            (0, 0, 1, "A", 2, "babble", "blocked", "blocked", None, None, "x00", 11),
            (0, 0, 1, "B", 2, "babble", "passed", "collided", None, None, "x00", 12)])

    def test_errors_and_times(self) -> None:
        keys = "cycle begin_us slot channel node_name what end bit line"
        run = self.run_of(scene=WITH_IDLE)
        self.assertEqual(self.values("transmission", keys, "log", *run, "--errors", told=IDLE_NOTE), [
            (0, 0, 1, "B", "pedal", "offer", "collided", None, None),
            (0, 0, 1, "B", "brake", "babble", "collided", None, 9),
            # Minislot 9 begins at macrotick 2 * 20 + 8 * 5. On B no frame comes, and it opens slot 3 + 8.
            (0, 160, 11, "B", None, "corrupt", None, 0, 10)])


class Runs(Shows):
    def test_totals(self) -> None:
        """Each of two cycles has two static slots, and ten minislots at which B opens a slot."""
        keys = "nodes cycles time_us windows commits delivered idle_faults"
        for scene, idle in ((SCENE, 0), (WITH_IDLE, 1)):
            run = self.run_of(scene=scene)
            self.assertEqual(self.values("total", keys, "run", *run), [(2, 2, 400, 24, 5, 3, idle)])

    def test_commits_that_were_not_delivered(self) -> None:
        self.assertEqual(self.values("undelivered", "node_name buffer_name cycle fate why", "run", *self.run_of()), [
            ("brake", "force", 0, "sent", "sent on A, and stored nowhere, in cycles 0-1"),
            ("brake", "state", 0, "pending", "slot 4 opened at minislot 5, latest is 3, in cycles 0-1")])

    def test_other_reasons(self) -> None:
        """The faults and calls come in the line 2, before `end`."""
        for lines, expected in (
            ("commit 0 0 0 0 x0001\nbabble 1 A 0 s1 x00\nbabble 1 B 0 s1 x00\n",
             "collided on A in cycle 0, by line 3; collided on B in cycle 0, by line 4"),
            ("commit 0 0 0 0 x0001\nmute 0 A 0 s1\nmute 0 B * s1\n",
             "lost on A in cycle 0, by line 3; lost on B in cycle 0, by line 4"),
            ("commit 0 0 0 0 x0001\ncorrupt A 0 s1 9\ncorrupt B 0 s1 9\n",
             "a bit was flipped on A in cycle 0, by line 3; a bit was flipped on B in cycle 0, by line 4"),
            ("commit 0 0 0 0 x0001\ncommit 0 0 0 0 x0002\n", "overwritten in cycle 0"),
            ("commit 0 0 0 0 x0001\nwithdraw 0 0 0 0\n", "withdrawn in cycle 0"),
            (f"commit 0 0 0 1 {FIRST}\ncommit 1 0 0 2 x2222\ncommit 1 0 1 2 x3333\n",
             "overwritten in cycle 1; slot 4 opened at minislot 5, latest is 3, in cycle 0"),
        ):
            with self.subTest(lines):
                run = self.run_of(scene=f"frscenario 2\n{lines}end\n")
                found = [it[0] for it in self.values("undelivered", "why", "run", *run)]
                self.assertEqual(found[0].replace(" with brake (1)", ""), expected)

    def test_a_commit_that_waits_at_the_end(self) -> None:
        """The buffer sends in each fourth cycle from 3 on, and the run ends before."""
        network = NETWORK.replace('{name = "position", kind = "event", slot = 1, channels = "AB"}',
                                  '{name = "position", kind = "event", slot = 1, channels = "AB", base = 3, '
                                  'repetition = 4}')
        run = self.run_of(network, "frscenario 2\ncommit 0 0 0 0 x0001\nend\n")
        self.assertEqual(self.values("undelivered", "fate why", "run", *run), [
            ("pending", "it waits at the end of the run; its buffer sends in cycles 3, 7 ..")])

    def test_a_reason_for_people_is_whole(self) -> None:
        """With a long name the reasons for both channels have 172 characters, 85 each."""
        run = self.run_of(NETWORK.replace('"brake"', f'"{"b" * 40}"'),
                          "frscenario 1\ncommit 0 0 0 0 x0001\nbabble 1 A 0 s1 x00\nbabble 1 B 0 s1 x00\nend\n")
        brake = f"{'b' * 40} (1)"
        expected = (f"collided on A with {brake} in cycle 0, by line 3; "
                    f"collided on B with {brake} in cycle 0, by line 4")
        self.assertEqual(len(expected), 172)
        for command in ("run", "commits"):
            self.assertIn(f"  {expected}\n", self.printed(command, *run))

    def test_a_guardian_protects_a_commit(self) -> None:
        """A guardian stops the babble of line 9 in the slot of another node."""
        run = self.run_of(NETWORK.replace('"none"', '"AB"'))
        self.assertEqual(self.values("commit", "end", "commits", *run, "--slot", "1"), [("alone",), ("alone",)])

    def test_buffers_and_fifos(self) -> None:
        run = self.run_of(scene=SCENE.replace(POP, ""))
        self.assertEqual(self.values("empty", "node_name count buffers names slots", "run", *run), [
            ("brake", 1, [3], "unused", [5])])
        self.assertEqual(self.values("overwriting", "node_name capacity waiting overwritten", "run", *run), [
            ("brake", 1, 1, 1)])
        self.assertEqual(self.values("overwriting", "node", "run", *self.run_of()), [])

    def test_errors_with_their_slots(self) -> None:
        """Both nodes send in slot 1 of cycle 0 on B, so each of them counts a conflict."""
        keys = "node_name channel error count slots cycles lines"
        self.assertEqual(self.values("error", keys, "run", *self.run_of()), [
            ("pedal", "B", "conflict", 1, [1], [0], [9]), ("brake", "B", "conflict", 1, [1], [0], [9])])

    def test_errors_of_the_example(self) -> None:
        """README: node 0 counts 8 syntax errors on B, and 4 conflicts with its own frames. Line 12 babbles there."""
        keys = "node channel error count slots cycles lines"
        self.assertEqual(self.values("error", keys, "run", *THREE)[:2], [
            (0, "B", "syntax", 8, [2, 3], [0, 1, 2, 3], [12]), (0, "B", "conflict", 4, [1], [0, 1, 2, 3], [12])])

    def test_faults_without_effect(self) -> None:
        run = self.run_of(scene=WITH_IDLE)
        self.assertEqual(self.values("idle", "line fault", "run", *run), [(10, "corrupt B 0 m9 0")])

    def test_a_scenario_of_version_3(self) -> None:
        """A line for two channels that has an effect on one of them isn't idle. Lines that are left out are named once.
        """
        lines = f"commit pedal 0 0 log {FIRST}\nmute pedal AB 0 d3 # the log\ncorrupt AB 1 m9 0\nlost brake 2-5\n"
        status, output, told = self.asked("run", *self.run_of(scene=f"frscenario 3\n{lines}end\n"), "--json")
        rows = [json.loads(line) for line in output.splitlines()]
        self.assertEqual((status, told), (0, "line 5 names no cycle of the run\n"))
        self.assertEqual([(it["line"], it["fault"]) for it in rows if it["kind"] == "idle"], [(4, "corrupt AB 1 m9 0")])
        self.assertEqual([it["why"] for it in rows if it["kind"] == "undelivered"], ["lost on A in cycle 0, by line 3"])

    def test_lines_after_the_end_of_the_run(self) -> None:
        """Lines for cycles that the run doesn't have are left out, also if their node isn't there."""
        lines = "commit 0 0 0 0 x0a0b\ncommit 9 0 4 0 x0000\nmute 7 A 4 s1\n"
        scenario = self.written("scenario", f"frscenario 3\n{lines}end\n")
        status, output, told = self.asked("run", THREE[0], scenario, "--cycles", "4", "--json")
        self.assertEqual((status, told), (0, "line 3 names no cycle of the run\nline 4 names no cycle of the run\n"))
        total = json.loads(output.splitlines()[0])
        self.assertEqual([total[key] for key in ("nodes", "cycles", "time_mt", "commits")], [3, 4, 360, 1])

    def test_a_run_in_which_nothing_is_wrong(self) -> None:
        scene = "frscenario 1\ncommit 0 0 0 0 x0001\nend\n"
        network = NETWORK.replace('  {name = "unused", kind = "receive", slot = 5, channels = "B"},\n', "")
        text = self.printed("run", *self.run_of(network, scene))
        self.assertEqual(text.split("\n\n")[1:], [
            "Each commit was received.", "Each receive buffer holds a frame.", "No receive FIFO overwrote a frame.",
            "No node counted an error.\n"])


if __name__ == "__main__":
    unittest.main()
