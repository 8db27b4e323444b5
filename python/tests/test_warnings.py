"""Tests of accepted texts that can't work or break a rule of the standard: a text, and the words of its warning."""
from tests.cases import CLUSTER, EXAMPLES, SCENARIO, Cases, without_allows

OWN = 'own = [{slot = 1, channels = "AB", sync = true}]'
SECOND_OWN = 'own = [{slot = 2, channels = "AB"}]'
DYNAMIC = '{kind = "event", slot = 4, channels = "A", words = 1}'
RECEIVE = '{kind = "receive", slot = 2, channels = "A"}'

UNREAD = (
    ("cluster.toml:35:1", ("`latestA` of node 2 is an unknown key", "Is `latest_a` meant?"), "latest_a = 4",
     "latestA = 4"),
    ("cluster.toml:21:4", ("`repitition` of buffer 1 of node 0", "Is `repetition` meant?"), RECEIVE,
     "{repitition = 2, " + RECEIVE[1:]),
    ("cluster.toml:17:36", ("`start_up` of ownership line 0 of node 0", "Is `startup` meant?"), "sync = true",
     "start_up = true"),
    ("cluster.toml:18:10", ("`size` of the receive FIFO of node 0",), "queue = {", "queue = {size = 3, "),
    ("cluster.toml:1:1", ("`gaurd` of the top of the file", "Is `guard` meant?"), 'guard = "A"', 'gaurd = "A"'),
    ("cluster.toml:4:1", ("`idel` of `[params]`", "Keys of `[params]` are `static_slots`,"), "static_slots",
     "idel = 4\nstatic_slots"),
    ("cluster.toml:20:47", ("`words` of buffer 0 of node 0 isn't read", "`static_words`"), '1, channels = "AB"}',
     '1, channels = "AB", words = 9}'),
    ("cluster.toml:21:48", ("`preamble` of buffer 1 of node 0 isn't read",), RECEIVE,
     RECEIVE[:-1] + ", preamble = true}"),
)
SENDING = (
    ("cluster.toml:36:20", ("buffer 0 of node 2 never sends: node 2 has no `latest_a`", "`latest_a = 1` or more"),
     "latest_a = 4\n", ""),
    ("cluster.toml:37:20", ("`latest_a` of node 2 is 0", "`latest_a` of node 2"), "latest_a = 4", "latest_a = 0"),
    ("cluster.toml:37:20", ("`latest_a` of node 2 is 2, too early for slot 6", "opens at minislot 3 at the earliest"),
     "latest_a = 4", "latest_a = 2", DYNAMIC, DYNAMIC.replace("4", "6")),
    ("cluster.toml:37:20", ("slot 9 can't be reached", "minislot 6", "a cycle has 4"), DYNAMIC,
     DYNAMIC.replace("4", "9")),
    ("cluster.toml:26:8", ("slot 3 is owned by node 1 on A, and never filled there",), SECOND_OWN,
     SECOND_OWN.replace("[", '[{slot = 3, channels = "A"}, ')),
    ("cluster.toml:26:8", ("slot 2 is owned by node 1 on B, and never filled",), '"state", slot = 2, channels = "AB"',
     '"state", slot = 2, channels = "A"'),
    ("cluster.toml:15:1", ("1 node with a sync slot: 0", "2 to 15 sync nodes (chapter 8"), "guard", "guard"),
    ("cluster.toml:26:52", ("node 1 has 2 sync slots: 2 and 3",), SECOND_OWN,
     'own = [{slot = 2, channels = "AB", sync = true},  {sync = true, slot = 3, channels = "AB"}]'),
    ("cluster.toml:17:19", ("sync slot 1 of node 0 is on channel A only", "chapter 8"), OWN,
     'own = [{slot = 1, channels = "A", sync = true}, {slot = 1, channels = "B"}]'),
)
RECEIVING = (
    ("cluster.toml:21:22", ("buffer 1 of node 0 receives nothing", "no node sends data in slot 3 on A"), RECEIVE,
     RECEIVE.replace("2", "3")),
    ("cluster.toml:21:22", ("slot 2 on A", "buffer 0 of node 1 sends in it on B"), '"state", slot = 2, channels = "AB"',
     '"state", slot = 2, channels = "B"'),
    ("cluster.toml:21:22", ("in cycles 1, 3 ..", "buffer 0 of node 1 sends in it in cycles 0, 2 .."), RECEIVE,
     RECEIVE[:-1] + ", base = 1, repetition = 2}",
     '"state", slot = 2, channels = "AB"', '"state", slot = 2, channels = "AB", base = 0, repetition = 2'),
    ("cluster.toml:21:22", ("no node receives its own frames",), RECEIVE, RECEIVE.replace("2", "1")),
    ("cluster.toml:18:1", ("nothing comes to the receive FIFO of node 0", "slots 5 to 7 on AB"), "first = 4",
     "first = 5"),
    ("cluster.toml:30:3", ("buffer 2 of node 1 and buffer 1 receive the same frames of slot 1 on A",),
     '"receive", slot = 1, channels = "B"', '"receive", slot = 1, channels = "AB"'),
    ("cluster.toml:18:1",
     ("the receive FIFO of node 0 stands behind 1 receive buffer", "frames of slot 2.",
      "buffer 1 of node 0 receives slot 2"),
     "first = 4", "first = 2"),
)
PHYSICAL = (
    ("cluster.toml:7:1", ("room for 100 bits, and its frame needs 117", "4 + 10 * (8 + 2 * 1) + 2 + 11 = 117",
                          "Expected at least 24"),
     "[[node]]", "[physical]\nbit_rate = 5_000_000\nmacrotick_us = 1\n[[node]]"),
    ("cluster.toml:8:1",
     ("too short for the frames of 1 buffer", "frames of 1 word need 108 bits, and have 1 minislot of 50 bits"),
     "[[node]]", "[physical]\nbit_rate = 10_000_000\nmacrotick_us = 1.0\n[[node]]"),
    ("cluster.toml:15:1", ("`macrotick_us` of `[physical]` is missing",
                           "Without it slots are compared with the most bits of a macrotick alone"), "[[node]]",
     "[physical]\nbit_rate = 10_000_000\n[[node]]"),
    ("cluster.toml:16:1", ("`bit_rate` of `[physical]` is \"10 Mbit\"",), "[[node]]",
     '[physical]\nbit_rate = "10 Mbit"\nmacrotick_us = 1\n[[node]]'),
)
STRIKES = (
    ("scenario:12:17", ("`babble` has no effect", "without bytes"), "babble 2 B * s* x00", "babble 2 B * s* x"),
    ("scenario:12:12", ("`mute` has no effect", "Node 1 doesn't own slot 1 on B in any cycle"), "babble 2 B * s* x00",
     "mute 1 B * s1"),
    ("scenario:12:12", ("Node 2 doesn't own a static slot on A in cycle 3",), "babble 2 B * s* x00", "mute 2 A 3 s*"),
    ("scenario:12:12", ("Node 0 begins nothing on A at minislot 1",), "babble 2 B * s* x00", "mute 0 A * m1"),
    ("scenario:12:13", ("A frame of a static slot has 80 bits", "No bit past the end"), "babble 2 B * s* x00",
     "corrupt A * s1 80"),
    ("scenario:12:13", ("No transmission with a bit 1 passes alone on B at s3 in any cycle",), "babble 2 B * s* x00",
     "corrupt B * s3 1"),
    ("scenario:12:12", ("Node 2 begins nothing on A at minislot 4 in cycle 0",), "babble 2 B * s* x00",
     "mute 2 A 0 m4"),
    ("scenario:12:12", ("Node 2 begins nothing on A at minislot 1 in cycle 2: no commit is pending",),
     "babble 2 B * s* x00", "mute 2 A 2 m1"),
    ("scenario:12:13", ("No transmission with a bit 0 passes alone on A at m1 in cycle 2",), "babble 2 B * s* x00",
     "corrupt A 2 m1 0"),
    ("scenario:12:13", ("passes alone on A at s3 in any cycle of the run",), "babble 2 B * s* x00", "corrupt A * s3 1"),
    ("scenario:12:13", ("The longest transmission has 2096 bits",), "babble 2 B * s* x00", "corrupt A 1 m2 2096"),
)
"""Node 2 commits to its dynamic buffer in cycles 0, 1 and 3. Its frame opens slot 4 at minislot 1, and has 80 bits. The
guardian of A stops its babbles there."""
FINE = ("mute 0 A * s1", "mute 1 B 2 s*", "mute 2 A 0 m1", "corrupt A 0 s1 79", "corrupt A * s* 0",
        "corrupt A 1 m1 79", "babble 0 B 0 m4 x00", "babble 1 A 0 s3 x00")


class Warnings(Cases):
    def rows(self, rows):
        for place, words, *changes in rows:
            with self.subTest(words=words):
                self.warned(place, words, self.changed(CLUSTER, changes))

    def test_keys_that_nothing_reads(self):
        self.rows(UNREAD)

    def test_what_is_never_sent(self):
        self.rows(SENDING)

    def test_what_is_never_received(self):
        self.rows(RECEIVING)

    def test_slots_that_are_too_short(self):
        self.rows(PHYSICAL)

    def test_faults_without_effect(self):
        for place, words, *changes in STRIKES:
            with self.subTest(words=words):
                self.warned(place, words, CLUSTER, self.changed(SCENARIO, changes), 4)

    def test_faults_with_an_effect(self):
        for line in FINE:
            with self.subTest(line=line):
                self.quiet("has no effect", CLUSTER, SCENARIO.replace("babble 2 B * s* x00", line), 4)

    def test_journals_that_are_too_small(self):
        few = CLUSTER.replace("tasks = 2", "tasks = 2\nslot_entries = 13", 1)
        self.warned("cluster.toml:17:1", ("1 cycle wants 14 slot entries of node 0, and it has 13",), few)
        self.quiet("slot entries", few.replace("13", "14"))
        self.warned("cluster.toml:17:1", ("9 cycles want 126",), few.replace("13", "125"), None, 9)

    def test_sixteen_sync_nodes(self):
        head = CLUSTER[: CLUSTER.index("[[node]]")].replace("static_slots = 3",
                                                            "static_slots = 16").replace("90", "350")
        nodes = [f'[[node]]\nown = [{{slot = {it}, channels = "AB", sync = true}}]\n' for it in range(1, 17)]
        self.warned("cluster.toml:15:1", ("16 nodes with a sync slot", "2 to 15"), head + "".join(nodes))
        self.quiet("with a sync slot", head + "".join(nodes[1:]))

    def test_the_car_has_queues_behind_buffers_and_a_divided_slot(self):
        car = EXAMPLES / "vehicle"
        found, _ = self.look((car / "cluster.toml").read_text(), (car / "scenario").read_text(), 8)
        self.assertEqual(found.warnings, [])
        bare = without_allows((car / "cluster.toml").read_text())
        found, _ = self.look(bare, (car / "scenario").read_text(), 8)
        self.assertEqual(sorted(it.name for it in found.warnings), ["divided-slot"] + 3 * ["fifo-behind-buffer"])

    def test_warnings_come_with_a_refusal_too(self):
        found, answer = self.look(CLUSTER.replace("latest_a = 4", "latestA = 4").replace("idle = 0", "idle = 3"))
        self.assertIn("cluster.toml:35:1: warning: `latestA` of node 2 is an unknown key", self.text(found, answer))
