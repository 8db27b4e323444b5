"""Tests of a mistake of each kind for which a scenario or a run is refused: a text, and the words of its finding."""
from tests.cases import CLUSTER, SCENARIO, Cases

LINE = "commit 0 0 0 0 x0a0b"
LINES = (
    ("BadLine 2", "scenario:2:8", ("NODE is `16`", "from 0 to 15", "`commit NODE TASK CYCLE BUFFER HEX`"), LINE,
     "commit 16 0 0 0 x0a0b"),
    ("BadLine 2", "scenario:2:10", ("TASK is `8`",), LINE, "commit 0 8 0 0 x0a0b"),
    ("BadLine 2", "scenario:2:12", ("CYCLE is `1024`",), LINE, "commit 0 0 1024 0 x0a0b"),
    ("BadLine 2", "scenario:2:12", ("CYCLE is `00`", "without leading zeros"), LINE, "commit 0 0 00 0 x0a0b"),
    ("BadLine 2", "scenario:2:16", ("HEX is `x0A0B`", "lower-case"), LINE, "commit 0 0 0 0 x0A0B"),
    ("BadLine 2", "scenario:2:16", ("HEX is `x0a`", "an even number of bytes"), LINE, "commit 0 0 0 0 x0a"),
    ("BadLine 2", "scenario:2:15", ("the line has 5 words, and `commit` has 6",), LINE, "commit 0 0 0 0"),
    ("BadLine 2", "scenario:2:1", ("no line begins with `comit`", "Is `commit` meant?"), LINE, "comit 0 0 0 0 x0a0b"),
    ("BadLine 2", "scenario:2:1", ("version 1 has no line `withdraw`", "`frscenario 2`"), LINE, "withdraw 0 0 0 0"),
    ("BadLine 2", "scenario:2:1", ("version 1 has no line `expect`", "`frscenario 3`"), LINE, "expect 0 0 0 x0a0b"),
    ("BadLine 2", "scenario:2:8", ("a space too many",), LINE, "commit  0 0 0 0 x0a0b"),
    ("BadLine 2", "scenario:2:21", ("a carriage return",), LINE, LINE + "\r"),
    ("BadLine 2", "scenario:2:1", ("the line is empty",), LINE, ""),
    ("BadLine 2", "scenario:2:1", ("the line is a comment",), LINE, "# first"),
    ("BadLine 2", "scenario:2", ("has 1201 bytes", "at most 1200"), LINE, "x" * 1201),
    ("BadLine 11", "scenario:11:14", ("PLACE is `s0`", "`sN` for static slot N"), "A * s* x00", "A * s0 x00"),
    ("BadLine 11", "scenario:11:10", ("CHANNEL is `AB`", "`A` or `B`"), "babble 2 A", "babble 2 AB"),
    ("BadLine 11", "scenario:11:12", ("CYCLES is `?`", "or `*`"), "A * s*", "A ? s*"),
    ("BadLine 2", "scenario:2:16", ("BIT is `65536`",), LINE, "corrupt A * s1 65536"),
    ("BadLine 14", "scenario:14", ("after `end`, in line 13, the file goes on",), "\nend\n", "\nend\nx"),
    ("Truncated", "scenario:12", ("ends without the line `end`",), "end\n", ""),
    ("Truncated", "scenario:13", ("`end` has no line feed",), "end\n", "end"),
    ("Truncated", "scenario:13", ("ends within a line",), "end\n", "pop 0"),
    ("BadMagic", "scenario:1", ("doesn't name the format", "`frscenario 2`"), "frscenario 1", "frscenario 9"),
    ("BadMagic", "scenario:1", ("ends with a carriage return",), "frscenario 1", "frscenario 1\r"),
    ("BadMagic", "scenario:1", ("the scenario is empty",), SCENARIO, ""),
)
SCRIPTS = (
    ("BadScript 6", "scenario:13:5", ("there is no node 3", "The cluster has 3 nodes"), "end\n", "pop 3 0 0\nend\n"),
    ("BadScript 2", "scenario:13:7", ("node 0 has no task 2", "2 tasks", "cluster.toml:16:1"), "end\n",
     "pop 0 2 0\nend\n"),
    ("BadScript 0", "scenario:13:12", ("the run has no cycle 4", "It has 4 cycles"), "end\n",
     "commit 0 0 4 0 x0a0b\nend\n"),
    ("BadScript 1", "scenario:13:9",
     ("cycle 1 comes after cycle 2", "scenario:4:9: the line of the same task before it"),
     "end\n", "pop 0 1 1\nend\n"),
    ("BadScript 2", "scenario:13", ("node 1 has no receive FIFO", "cluster.toml:24:1: node 1"), "end\n",
     "pop 1 0 3\nend\n"),
    ("BadScript 0", "scenario:13:14", ("node 0 has no buffer 2", "It has 2 buffers"), "end\n",
     "commit 0 0 1 2 x0a0b\nend\n"),
    ("BadScript 0", "scenario:13:14",
     ("`commit` names buffer 1 of node 0, which is of kind receive", "a transmit buffer", "cluster.toml:21:3"),
     "end\n", "commit 0 0 1 1 x0a0b\nend\n"),
    ("BadScript 0", "scenario:13:12", ("`read` names buffer 0 of node 0, which is of kind event", "a receive buffer"),
     "end\n", "read 0 0 1 0\nend\n"),
    ("BadScript 0", "scenario:13:16",
     ("the payload has 4 bytes, and buffer 0 of node 0 sends 2", "1 word, which is 2 bytes", "`static_words`"),
     "end\n", "commit 0 0 1 0 x01020304\nend\n"),
)
FAULTS = (
    ("BadFault 2", "scenario:13:6", ("there is no node 3",), "end\n", "mute 3 A 0 s1\nend\n"),
    ("BadFault 2", "scenario:13:10", ("the run has no cycle 4",), "end\n", "mute 0 A 4 s1\nend\n"),
    ("BadFault 2", "scenario:13:12", ("there is no static slot 4", "3 static slots", "cluster.toml:4:1"), "end\n",
     "mute 0 A * s4\nend\n"),
    ("BadFault 2", "scenario:13:13", ("there is no minislot 5", "4 minislots"), "end\n", "corrupt A * m5 1\nend\n"),
    ("BadFault 2", "scenario:13:14",
     ("two lines babble of node 2 on A at s2 in cycle 3", "scenario:11:14: line 11 names it too"),
     "end\n", "babble 2 A 3 s2 x01\nend\n"),
)


SCENARIO_3 = """frscenario 3
# Two nodes have names.

commit pedal 0 0 0 x0a0b   # once
commit 0 1 2 0 x0c0d
\tpop pedal 1 2
commit brake 0 0-3 state x1111
read brake 0 3 1
commit 2 0 0-3/2 0 x7001
babble 2 AB * s* x00
lost brake 2-3
end
"""
CLUSTER_3 = CLUSTER.replace("tasks = 2\nown", 'name = "pedal"\ntasks = 2\nown', 1)
CLUSTER_3 = CLUSTER_3.replace("[[node]]\ntasks = 2\nown", '[[node]]\nname = "brake"\ntasks = 2\nown', 1)
CLUSTER_3 = CLUSTER_3.replace("latest_a = 4", 'name = "two words"\nlatest_a = 4')
CLUSTER_3 = CLUSTER_3.replace('{kind = "state", slot = 2', '{name = "state", kind = "state", slot = 2')
ONCE = "commit pedal 0 0 0 x0a0b"
LINES_3 = (
    ("BadLine 4", "scenario:4:8",
     ("NODE is `pedel`", "No node has this name. Is `pedal` meant?", "or the name of a node"), ONCE,
     "commit pedel 0 0 0 x0a0b"),
    ("BadLine 4", "scenario:4:8", ("NODE is `16`", "a number from 0 to 15"), ONCE, "commit 16 0 0 0 x0a0b"),
    ("BadLine 4", "scenario:4:20", ("BUFFER is `state`", "No buffer of node 0 has this name.", "a number from 0 to 63"),
     ONCE, "commit pedal   0 0 state x0a0b"),
    ("BadLine 4", "scenario:4:12", ("BUFFER is `b`", "The cluster file has 3 nodes, and no node 7."), ONCE,
     "read 7 0 0 b"),
    ("BadLine 4", "scenario:4:16", ("CYCLES is `3-2`", "C not above D"), ONCE, "commit pedal 0 3-2 0 x0a0b"),
    ("BadLine 4", "scenario:4:13", ("CYCLES is `0-3/0`", "`C-D/STEP`"), ONCE, "pop pedal 0 0-3/0"),
    ("BadLine 4", "scenario:4:13", ("CYCLES is `0/2`",), ONCE, "pop pedal 0 0/2"),
    ("BadLine 4", "scenario:4:13", ("CYCLES is `0-1024`",), ONCE, "pop pedal 0 0-1024"),
    ("BadLine 4", "scenario:4:13", ("CYCLES is `-3`",), ONCE, "pop pedal 0 -3"),
    ("BadLine 4", "scenario:4:6", ("NODE is `AB`",), ONCE, "lost AB 0"),
    ("BadLine 4", "scenario:4:11", ("the line has 2 words, and `lost` has 3", "`lost NODE CYCLES`"), ONCE,
     "lost pedal"),
    ("BadLine 4", "scenario:4:8", ("CHANNELS is `BA`", "`A`, `B` or `AB`"), ONCE, "mute 0 BA * s*"),
    ("BadLine 4", "scenario:4:13", ("PLACE is `s3-2`", "`sN-M` for N up to M"), ONCE, "mute 0 A *  s3-2"),
    ("BadLine 4", "scenario:4:12", ("PLACE is `d*`", "`dN` for dynamic slot N"), ONCE, "mute 0 A * d*"),
    ("BadLine 4", "scenario:4:12", ("PLACE is `m1-2`",), ONCE, "mute 0 A * m1-2"),
    ("BadLine 4", "scenario:4:12", ("PLACE is `d8001`", "N from 1 to 8000"), ONCE, "mute 0 A * d8001"),
    ("BadLine 4", "scenario:4:12", ("a carriage return stands in the line",), ONCE, "pop pedal 0\r 2"),
    ("BadLine 4", "scenario:4:1", ("no line begins with `losst`", "Is `lost` meant?"), ONCE, "losst pedal 2"),
    ("BadLine 4", "scenario:4:8", ("NODE is `pedel`", "Is `pedal` meant?", "`expect NODE CYCLES BUFFER HEX`"), ONCE,
     "expect pedel 0 0 x0a0b"),
    ("BadLine 4", "scenario:4:16", ("BUFFER is `64`",), ONCE, "expect brake 0 64 x0a0b"),
    ("BadLine 4", "scenario:4:14", ("CYCLES is `4-3`",), ONCE, "expect brake 4-3 state x0a0b"),
    ("BadLine 4", "scenario:4:22", ("HEX is `x0a`", "an even number of bytes, 254 at most"), ONCE,
     "expect brake 0 state x0a"),
    ("BadLine 4", "scenario:4:15", ("HEX is `x00",), ONCE, f"expect 1 0 0  {'x' + '00' * 256}"),
    ("BadLine 4", "scenario:4:17", ("the line has 4 words, and `expect` has 5",), ONCE, "expect 1 0 state"),
    ("BadLine 4", "scenario:4:28", ("the line has 5 words, and `expect-none` has 4",), ONCE,
     "expect-none 1 0 state x0a0b"),
    ("BadLine 4", "scenario:4:13", ("NODE is `AB`",), ONCE, "expect-none AB * 0"),
    ("BadLine 4", "scenario:4:1", ("no line begins with `expect-nothing`", "Is `expect-none` meant?"), ONCE,
     "expect-nothing brake 0 0"),
    ("BadLine 4", "scenario:4", ("has 1210 bytes",), ONCE, "#" * 1201),
    ("BadLine 12", "scenario:12:9", ("the line has 2 words, and `end` has 1",), "\nend\n", "\nend then\n"),
    ("BadLine 13", "scenario:13", ("after `end`, in line 12, the file goes on",), "\nend\n", "\n end # all\n\n"),
    ("Truncated", "scenario:12", ("`end` has no line feed",), "\nend\n", "\nend # all"),
    ("Truncated", "scenario:11", ("ends without the line `end`",), "end\n", ""),
)
RUNS_3 = (
    ("BadScript 0", "scenario:4:18", ("`commit` names buffer 1 of node 0, which is of kind receive",), ONCE,
     "commit pedal 0 0 1 x0a0b"),
    ("BadScript 3", "scenario:4:5", ("there is no node 3",), ONCE, "pop 3 0 3"),
    ("BadFault 0", "scenario:4:6", ("there is no node 3",), ONCE, "lost 3 0"),
    ("BadFault 0", "scenario:4:14", ("there is no static slot 4", "Expected `d4`"), ONCE, "mute 0 A 0-2 s2-4"),
    ("BadFault 0", "scenario:4:12", ("there is no dynamic slot 8", "dynamic slots 4 to 7"), ONCE, "mute 0 A * d8"),
    ("BadFault 0", "scenario:4:12", ("there is no dynamic slot 3", "Expected `s3`"), ONCE, "mute 0 A * d3"),
    ("BadFault 2", "scenario:10:15",
     ("two lines babble of node 2 on A at s2-3 in cycle 1", "scenario:4:17: line 4"), ONCE, "babble 2 AB 1-3 s2-3 x01"),
    ("BadFault 3", "scenario:11:1", ("two lines mute of node 1 on A at m2 in cycle 3", "A line `lost` is `mute`"), ONCE,
     "mute brake A 3 m2"),
)


class RefusedScenarios(Cases):
    def rows(self, rows):
        for refusal, place, words, *changes in rows:
            with self.subTest(refusal=refusal, changes=changes):
                self.refused(refusal, place, words, CLUSTER, self.changed(SCENARIO, changes).encode(), 4)

    def test_lines(self):
        self.rows(LINES)

    def test_lines_of_version_3(self):
        for rows in (LINES_3, RUNS_3):
            for refusal, place, words, *changes in rows:
                with self.subTest(refusal=refusal, changes=changes):
                    text = self.changed(SCENARIO_3, changes).encode()
                    self.refused(refusal, place, words, CLUSTER_3, text, 4)

    def test_names_that_no_line_can_have(self):
        for name, why in (("two words", "No node has this name."), ("brake", "Several nodes have this name."),
                          ("g\u00e9", "The name can't stand in a scenario")):
            cluster = CLUSTER_3.replace("two words", name)
            word = name.replace(" ", "-")
            text = self.changed(SCENARIO_3, (ONCE, f"pop {word} 0 0"))
            self.refused("BadLine 4", "scenario:4:5", (f"NODE is `{word}`", why), cluster, text, 4)

    def test_version_3_is_accepted(self):
        found, _ = self.look(CLUSTER_3, SCENARIO_3, 4)
        self.assertEqual((found.refusals, [it.name for it in found.notes]), ([], ["unchecked-bits"]))

    def test_lines_that_are_left_out(self):
        """A run of two cycles leaves out lines 5, 6, 8 and 11. A script that is left out has no number."""
        found, answer = self.look(CLUSTER_3, SCENARIO_3, 2)
        self.assertEqual((found.refusals, [it.name for it in found.notes]),
                         ([], ["unchecked-bits", "skipped-line"]))
        text = self.text(found, answer)
        self.assertIn("scenario:5: note: 4 lines of the scenario left out [skipped-line]", text)
        for line in (6, 8, 11):
            self.assertIn(f"scenario:{line}: line {line} is left out too", text)
        self.refused("BadScript 1", "scenario:7:22", ("has no buffer 9",), CLUSTER_3,
                     self.changed(SCENARIO_3, ("0-3 state", "0-3   9")), 2)

    def test_too_many_calls(self):
        """256 lines of 1,024 cycles have the most calls, and more than host entries. One more is too many."""
        lines = "pop pedal 0 *\n" * 256
        self.refused("NoRoom 0", "cluster.toml:15:1", ("has 262144 calls in the scenario",), CLUSTER_3,
                     f"frscenario 3\n{lines}end\n", 1024)
        words = ("the scenario makes 262145 calls in 1024 cycles", "It makes at most 262144.")
        self.refused("TooManyCalls", "scenario:258", words, CLUSTER_3, f"frscenario 3\n{lines}pop 0 0 1023\nend\n",
                     1024)
        self.refused("BadLine 259", "scenario:259:1", (), CLUSTER_3,
                     f"frscenario 3\n{lines}pop 0 0 1023\npopp\nend\n", 1024)

    def test_scripts(self):
        self.rows(SCRIPTS)

    def test_faults(self):
        self.rows(FAULTS)

    def test_what_a_terminal_might_obey_is_not_printed(self):
        found, answer = self.look(CLUSTER, "frscenario 1\n\x1b[2J 0\nend\n", 4)
        self.assertIn(r"no line begins with `\x1b[2J`", self.text(found, answer))
        self.assertNotIn("\x1b", self.text(found, answer))

    def test_too_many_lines(self):
        self.refused("TooManyLines", "scenario:4097", ("more than 4096 lines",), CLUSTER,
                     "frscenario 1\n" + "pop 0 0 0\n" * 4096, 4)

    def test_a_scenario_that_is_too_long(self):
        self.refused("TooLong", "None", ("1048577 bytes",), CLUSTER, "#" * 1_048_577, 4)

    def test_a_scenario_that_is_no_utf8(self):
        self.refused("BadMagic", "scenario:2", ("0xff is no UTF-8",), CLUSTER, b"frscenario 1\n\xff\nend\n", 4)

    def test_room_for_slot_entries(self):
        words = ("4 cycles want 56 slot entries of node 0, and it has 55", "2 * 4 * 7 = 56",
                 "`slot_entries = 56` or more")
        self.refused("NoRoom 0", "cluster.toml:16:1", words,
                     CLUSTER.replace("tasks = 2", "slot_entries = 55", 1).replace("tasks = 2", "tasks = 2"),
                     "frscenario 1\nend\n", 4)
        text = CLUSTER.replace("[[node]]", "[[node]]\nslot_entries = 65536")
        self.refused("NoRoom 0", "cluster.toml:16:1", (), CLUSTER.replace("tasks = 2", "slot_entries = 13", 1),
                     "frscenario 1\nend\n", 1)
        many = text.replace("minislots = 4", "minislots = 40").replace("cycle_mt = 90", "cycle_mt = 270")
        self.refused("NoRoom 0", "cluster.toml:16:1", ("at most 762 cycles, with `slot_entries = 65532`",), many,
                     "frscenario 1\nend\n", 1000)

    def test_room_for_host_entries(self):
        few = CLUSTER.replace("tasks = 2", "tasks = 2\nhost_entries = 2", 1)
        words = ("node 0 has 3 lines in the scenario, and room for 2", "`host_entries = 3` or more")
        self.refused("NoRoom 0", "cluster.toml:17:1", words, few, SCENARIO, 4)
