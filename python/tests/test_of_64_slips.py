"""Slips of a first day: 36 in cluster files, 20 in scenarios and 8 in traces, each with the text that mends it."""
from musmyrtle.lint.trace_why import TraceFile, Why, fault_of
from tests.cases import CLUSTER, SCENARIO, Cases
from tests.test_standard import PHYSICAL
from tests.test_traces import BUFFER, COMMITS, WITHDRAWN

EVENT = '{kind = "event", slot = 1, channels = "AB"}'
DYNAMIC = '{kind = "event", slot = 4, channels = "A", words = 1}'
OWN = 'own = [{slot = 1, channels = "AB", sync = true}]'
SECOND = 'own = [{slot = 2, channels = "AB"}]'
FIFO = "queue = {capacity = 2, first = 4, last = 7"

IN_CLUSTERS = (
    ("Expected `minislots` with a whole number from 0 to 8000", "minislots = 4\n", ""),
    ("`minislot` is an unknown key: is `minislots` meant?", "minislots = 4", "minislot = 4"),
    ("Expected a whole number from 0 to 127", "static_words = 1", "static_words = 128"),
    ("Expected a whole number from 1 to 1000", "static_mt = 20", 'static_mt = "20"'),
    ("Expected a whole number from 0 to 2", "idle = 0", "idle = 3"),
    ("10 more than `cycle_mt`. Expected 100 there", "nit_mt = 10", "nit_mt = 20"),
    ('Expected "AB", "A", "B" or "none"', 'guard = "A"', 'guard = "C"'),
    ("`guard` at the top of the file is true", 'guard = "A"', "guard = true"),
    ("The value is missing", "idle = 0", "idle ="),
    ("Expected `=` here", "idle = 0", "idle: 0"),
    ("Expected `[[node]]` for each of several", "[[node]]", "[node]"),
    ("`Node` is an unknown key: is `node` meant?", "[[node]]", "[[Node]]", "[[node]]", "[[Node]]", "[[node]]",
     "[[Node]]"),
    ("or the `}` of the inline table before", EVENT, EVENT[:-1]),
    ("Is the `]` of the array missing? cluster.toml:19:10: the array", '"A"},\n]', '"A"},\n'),
    ("Expected a whole number from 0 to 8", "tasks = 2", "tasks = 9"),
    ("Expected a whole number from 0 to 4, which is `minislots`", "latest_a = 4", "latest_a = 5"),
    ("Is `latest_a` meant?", "latest_a = 4", "lastest_a = 4"),
    ("from 1 to 3, which is `static_slots`", OWN, OWN.replace("1", "4")),
    ('Expected "A", "B" or "AB"', OWN, OWN.replace("AB", "BA")),
    ("Expected true or false, without quotes", OWN, OWN.replace("true", '"true"')),
    ("Expected `sync = true` beside it", OWN, OWN.replace("sync", "startup")),
    ("Expected 1, 2, 4, 8, 16, 32 or 64", OWN, OWN.replace("sync = true", "repetition = 128")),
    ("Expected a number below `repetition`, which is 2", OWN, OWN.replace("sync = true", "base = 2, repetition = 2")),
    ("both own slot 1 on A in cycle 0", SECOND, SECOND.replace("2", "1")),
    ("Expected a whole number from 1 to 256", FIFO, FIFO.replace("2", "0")),
    ("Expected a slot not above `last`, which is 3", FIFO, FIFO.replace("7", "3")),
    ('Expected "event", "state" or "receive"', EVENT, EVENT.replace("event", "transmit")),
    ("Expected `words` with a whole number from 0 to 127, since slot 4 is dynamic", ", words = 1", ""),
    ("there a transmit buffer is for one channel", DYNAMIC, DYNAMIC.replace('"A"', '"AB"')),
    ("Expected a line in `own` with slot = 3", EVENT, EVENT.replace("1", "3")),
    ("or at most 1 words", DYNAMIC, DYNAMIC.replace("words = 1", "words = 2")),
    ("Keys of buffer 0 of node 0 are `kind`, `slot`", EVENT, EVENT.replace("{", "{colour = 1, ")),
    ("has the name of node 0", "[[node]]", '[[node]]\nname = "a"', "[[node]]\ntasks = 2\nown = [{slot = 2",
     '[[node]]\nname = "a"\ntasks = 2\nown = [{slot = 2'),
    ("Expected `bit_rate = 10_000_000`, in bits a second", "[[node]]", PHYSICAL.format(1).replace("10_000_000", "10")),
    ("`gdNIT` of FlexRay 2.1 Rev A (appendix B). Expected 2 to 805", "nit_mt = 10", "nit_mt = 1", "= 90", "= 81"),
    ("Expected `sync = true, startup = true` at an ownership line", "guard", "guard"),
)
IN_SCENARIOS = (
    ("Expected `frscenario 3`, `frscenario 2` or `frscenario 1`", "frscenario 1", "frscenario 4"),
    ("the first line ends with a carriage return", "frscenario 1\n", "frscenario 1\r\n"),
    ("Expected `end` as the last line", "end\n", ""),
    ("Expected a line feed at the end of the file", "end\n", "end"),
    ("Expected nothing after `end`", "end\n", "end\n\n"),
    ("Is `commit` meant?", "commit", "comit"),
    ("Version 1 has no comments. `frscenario 3` in the first line has them", "pop 0 1 2", "# pop 0 1 2"),
    ("Version 1 has no empty lines", "pop 0 1 2", ""),
    ("Expected one space between two words", "pop 0 1 2", "pop 0  1 2"),
    ("Expected `commit NODE TASK CYCLE BUFFER HEX`", "commit 0 0 0 0 x0a0b", "commit 0 0 0 x0a0b"),
    ("two lower-case hexadecimal digits for each byte", "x0a0b", "x0A0B"),
    ("an even number of bytes", "x0a0b", "x0a"),
    ("Expected `frscenario 2` as the first line", "pop 0 1 2", "withdraw 0 1 2 0"),
    ("the payload has 4 bytes, and buffer 0 of node 0 sends 2", "x0a0b", "x0a0b0c0d"),
    ("It has 4 cycles, and the first is cycle 0", "pop 0 1 2", "pop 0 1 4"),
    ("Node 0 has 2 tasks, and the first is task 0", "pop 0 1 2", "pop 0 2 2"),
    ("Expected a table `queue` of node 1", "pop 0 1 2", "pop 1 1 2"),
    ("Expected a receive buffer", "read 1 0 3 1", "read 1 0 3 0"),
    ("Slot 5 is a dynamic slot, and `sN` is for static slots", "babble 2 A * s*", "babble 2 A * s5"),
    ("`frscenario 3` has this form", "babble 2 A *", "babble 2 AB *"),
)
IN_TRACES = (
    ("Expected lower-case hexadecimal digits: `a`", 8, "Line Form", BUFFER, "0a0ba32217", "0A0ba32217"),
    ("an even number instead of 19", 8, "Line Form", BUFFER, "a32217 noise", "a3221 noise"),
    ("`1`, `2`, `4`, `8`, `16`, `32` or `64`", 4, "Line Form", BUFFER, "AB 0 1", "AB 0 3"),
    ("the line `end` has no line feed", 13, "", BUFFER, "end\n", "end"),
    ("Is `fetch` meant?", 7, "Line Word", BUFFER, "fetch", "ftech"),
    ("Expected `frtrace 2` as the first line", 8, "Line Form", WITHDRAWN, "frtrace 2", "frtrace 1"),
    ("Expected `event` or `state`", 5, "Line Form", COMMITS, "tx event", "tx receive"),
    ("`-`, or the number of an entry with `:A` or `:B`", 9, "Line Form", BUFFER, "2:A", "2:C"),
)


class Slips(Cases):
    def said(self, cluster, scenario=None):
        return " ".join(self.text(*self.look(cluster, scenario, None if scenario is None else 4)).split())

    def test_there_are_64(self):
        self.assertEqual([len(it) for it in (IN_CLUSTERS, IN_SCENARIOS, IN_TRACES)], [36, 20, 8])

    def test_clusters(self):
        for text, *changes in IN_CLUSTERS:
            with self.subTest(text=text):
                self.assertIn(text.lower(), self.said(self.changed(CLUSTER, changes)).lower())

    def test_scenarios(self):
        for text, *changes in IN_SCENARIOS:
            with self.subTest(text=text):
                self.assertIn(text, self.said(CLUSTER, self.changed(SCENARIO, changes)))

    def test_traces(self):
        for text, line, reason, trace, *changes in IN_TRACES:
            with self.subTest(text=text):
                file = TraceFile("trace", self.written("trace", self.changed(trace, changes)), line)
                why = Why(f"BadLine {line}" if reason else "Truncated", line, reason)
                self.assertIn(text, " ".join(map(str, fault_of(why, file))))
