"""Tests of the one language that selects cycles, places, nodes and buffers, by itself and in the commands."""
import unittest
from argparse import ArgumentTypeError
from pathlib import Path

from musmyrtle.selections import (
    Directory, Place, Receivers, Span, UnknownWord, channels_of, cycles_in, cycles_of, places_in, places_of,
    single_slot, some_cycles,
)
from tests.shows import THREE, Shows

NAMES = Directory(["gear", "brake", "a.b", "brake.x", "7", "2-3", "twin", "twin"],
                  [["in", "out"], ["x", "in.out", "1"], ["c", None], ["y"], [], [], [], []])


class TestCycles(unittest.TestCase):
    def test_parts(self):
        for word, numbers in (("13", [13]), ("3-5", [3, 4, 5]), ("0-10/2,13", [0, 2, 4, 6, 8, 10, 13]),
                              ("0-9/4", [0, 4, 8]), ("5,1", [1, 5]), ("007", [7]), ("0-1023/1023", [0, 1023])):
            self.assertEqual(cycles_of(word).numbers, numbers, word)
        self.assertEqual((list(cycles_in("*", 3)), list(cycles_in("1-9/4", 3))), ([0, 1, 2], [1, 5, 9]))

    def test_the_last_one_that_is_missing(self):
        self.assertEqual([cycles_of(it).missing(8) for it in ("0-7", "0-8/2,7", "3,9-12")], [None, 8, 12])

    def test_other_words(self):
        for word in ("", ",", "1,", "*", "5-3", "0-4/0", "1/2", "-1", "1 2", "s1", "12345", "0x1", "\u0661"):
            with self.assertRaises(ArgumentTypeError, msg=word):
                cycles_of(word)
        for word, why in (("0,5-3", "'5-3' has no cycle, since 5 is above 3"),
                          ("0-4/0", "'0-4/0' has no cycle, since its step is 0"),
                          ("0..4", "'0..4' is no cycle, and no range as 8-16 or 0-14/2")):
            with self.assertRaises(ArgumentTypeError) as refused:
                cycles_of(word)
            self.assertEqual(str(refused.exception), why)

    def test_every_cycle(self):
        self.assertEqual([some_cycles(it) for it in ("*", "*,3", "0-1,*")], [None] * 3)
        self.assertEqual(some_cycles("0-4/2,7"), cycles_of("0-4/2,7"))
        for word in ("*,", "**", "*,5-3", "0-*", ""):
            with self.assertRaises(ArgumentTypeError, msg=word):
                some_cycles(word)


class TestChannels(unittest.TestCase):
    def test_words(self):
        self.assertEqual([channels_of(it) for it in ("A", "B", "AB", "A,B", "B,A", "A,A", "AB,B")],
                         ["A", "B", "AB", "AB", "AB", "A", "AB"])
        for word in ("", "C", "BA", "A,", "a", "*", "AA"):
            with self.assertRaises(ArgumentTypeError, msg=word):
                channels_of(word)


class TestPlaces(unittest.TestCase):
    def test_parts(self):
        found = places_in("4,s3-5,d7,m1-9/4,s*,m*")
        self.assertEqual(found, (Place("", Span(4, 4)), Place("s", Span(3, 5)), Place("d", Span(7, 7)),
                                 Place("m", Span(1, 9, 4)), Place("s", None), Place("m", None)))
        self.assertEqual(places_of("4,s5-6,d7,m1-9/4,s*,m*,all"),
                         {"s4", "s5", "s6", "d7", "m1", "m5", "m9", "s*", "m*", "all"})
        self.assertEqual((places_in("*"), places_of("*"), places_of("*,s1")),
                         ((Place("", None),), {"all"}, {"all", "s1"}))

    def test_windows(self):
        """A window by slot and minislot: static slot 4, dynamic slot 7 at minislot 2, and minislot 3 without a slot."""
        windows = ((4, None, True), (7, 2, False), (None, 3, False))
        for word, has in (("4", (True, False, False)), ("s4", (True, False, False)), ("d4", (False,) * 3),
                          ("s7", (False,) * 3), ("d7", (False, True, False)), ("7", (False, True, False)),
                          ("m2-3", (False, True, True)), ("s*", (True, False, False)), ("m*", (False, True, True)),
                          ("*", (True, True, True))):
            place, = places_in(word)
            self.assertEqual(tuple(place.has(*it) for it in windows), has, word)

    def test_a_single_slot(self):
        self.assertEqual([single_slot(places_in(it)) for it in ("4", "s4", "d7", "3-4", "3,4", "m4", "s*", "*")],
                         [4, 4, 7, None, None, None, None, None])

    def test_other_words(self):
        for word in ("", "x1", "d*", "**", "s", "s5-3", "m4-", "all"):
            with self.assertRaises(ArgumentTypeError, msg=word):
                places_in(word)


class TestNames(unittest.TestCase):
    def refused(self, why: str, *words: str, nodes: frozenset[int] | None = None) -> None:
        with self.assertRaisesRegex(UnknownWord, why):
            NAMES.numbers_of_nodes(words) if nodes is None else NAMES.receivers(words, nodes)

    def test_nodes(self):
        for words, numbers in ((["gear"], {0}), (["0,brake", "3-4"], {0, 1, 3, 4}), (["4"], {4}),
                               (["0-6/3"], {0, 3, 6}), (["a.b,1"], {1, 2}), (["99"], {99})):
            self.assertEqual(NAMES.numbers_of_nodes(words), numbers, words)
        self.refused("^the cluster has 8 nodes, and none is gears; names: gear, brake, a.b, ", "gears")
        self.refused("^several nodes have the name twin; give the number$", "twin")
        self.refused("^2-3 is a range, and the name of node 5; give the numbers one by one$", "0,2-3")

    def test_a_number_is_no_name(self):
        """Of two nodes and one with the name 1, the word 1 is node 1; of one node, it is that with this name."""
        for names, number in (([None, None, "1"], 1), (["1"], 0)):
            self.assertEqual(Directory(names, []).numbers_of_nodes(["1"]), {number})

    def test_buffers(self):
        def found(*words: str, nodes: frozenset[int] = frozenset()) -> Receivers:
            return NAMES.receivers(words, nodes)
        for words, buffers in ((["gear.out"], {(0, 1)}), (["0.0,1.x", "a.b.c"], {(0, 0), (1, 0), (2, 0)}),
                               (["brake.in.out"], {(1, 1)}), (["brake.x.y"], {(3, 0)}), (["2.0-1"], {(2, 0), (2, 1)}),
                               (["brake.1"], {(1, 1)})):
            self.assertEqual(found(*words), Receivers(frozenset(buffers), frozenset()), words)
        self.assertEqual(found("gear,1.2"), Receivers(frozenset([(1, 2)]), frozenset([0])))
        of_nodes = found("in,1", nodes=frozenset([0]))
        self.assertEqual(of_nodes, Receivers(frozenset([(0, 0), (0, 1)]), frozenset()))

    def test_a_receiver(self):
        some = Receivers(frozenset([(0, 1)]), frozenset([2]))
        self.assertEqual([some.has(*it) for it in ((0, 1), (0, 2), (1, 1), (2, 7), (2, None), (0, None))],
                         [True, False, False, True, True, False])

    def test_words_that_name_no_buffer(self):
        none = frozenset[int]()
        self.refused("^brake.x names several buffers or nodes: give numbers, as 0.1$", "brake.x", nodes=none)
        self.refused("^gear.x names no buffer of node 0, whose names: in, out$", "gear.x", nodes=none)
        self.refused("^gear.2 names no buffer of node 0, ", "gear.2", nodes=none)
        self.refused("^gears names no node and no buffer: expected NODE.BUFFER or NODE, ", "gears", nodes=none)
        self.refused("^side names no buffer of node 0, whose names: in, out$", "side", nodes=frozenset([0]))


class TestFilters(Shows):
    """The run of two cycles of the network of two nodes, whose static slots are 1 and 2."""

    def test_places_of_the_log(self) -> None:
        run = self.run_of()
        every = self.values("transmission", "slot minislot", "log", *run)
        self.assertGreater(len(every), 6)
        static, late = [it for it in every if it[0] in (1, 2)], [it for it in every if it[1] == 9]
        for words, wanted in (("s*", static), ("s1", [it for it in static if it[0] == 1]), ("m9", late),
                              ("m*", [it for it in every if it[0] not in (1, 2)]), ("d3", [(3, 1), (3, 1)]),
                              ("m1", [(3, 1), (3, 1)]), ("s2,d3", [it for it in every if it[0] in (2, 3)]),
                              ("1-3", [it for it in every if it[0] in (1, 2, 3)])):
            with self.subTest(words):
                self.assertEqual(self.values("transmission", "slot minislot", "log", *run, "--slot", words), wanted)

    def test_words_for_all(self) -> None:
        """The words of a scenario for every window, cycle and channel leave the tables as they are without them."""
        run = self.run_of()
        for command in ("log", "commits", "reads"):
            every = self.printed(command, *run, "--json")
            for words in (("--slot", "*"), ("--in-cycles", "*"), ("--slot", "s1,*", "--in-cycles", "0,*")):
                self.assertEqual(self.printed(command, *run, "--json", *words), every, words)
        both = self.values("transmission", "slot channel", "log", *run)
        for word in ("AB", "A,B"):
            self.assertEqual(self.values("transmission", "slot channel", "log", *run, "--channel", word), both)
        self.assertEqual(self.values("latency", "slot", "latency", run[0], "--slot", "d4", "--channel", "AB"), [(4,)])

    def test_places_of_other_commands(self) -> None:
        run = self.run_of()
        self.assertEqual(self.values("commit", "slot", "commits", *run, "--slot", "m*"), [(3,), (3,), (4,)])
        self.assertEqual(self.values("latency", "slot", "latency", run[0], "--slot", "s*"), [(1,), (2,)])
        self.assertEqual(self.values("latency", "slot", "latency", run[0], "--slot", "d3-12"), [(3,), (4,)])
        way = self.printed("latency", run[0], "--slot", "d4", "--channel", "A")
        self.assertIn("Slot 4 on A begins at minislot 5", way)

    def test_cycles_and_nodes(self) -> None:
        cycles = self.values("transmission", "cycle", "log", *THREE, "--in-cycles", "0-3/3")
        self.assertEqual(set(cycles), {(0,), (3,)})
        run = self.run_of()
        for words in (("--node", "pedal,brake"), ("--node", "0-1"), ("--node", "0", "--node", "brake"),
                      ("--node", "1,0")):
            self.assertEqual(self.values("commit", "node", "commits", *run, *words), self.values(
                "commit", "node", "commits", *run), words)

    def test_buffers_of_commits(self) -> None:
        """A buffer is that of the commit, or one that received it. Buffer `position` of the brake receives slot 1."""
        run, keys = self.run_of(), "node buffer cycle channel"
        for words, wanted in (
                (("--buffer", "pedal.log"), [(0, 1, 0, "A"), (0, 1, 1, "A")]),
                (("--node", "pedal", "--buffer", "log"), [(0, 1, 0, "A"), (0, 1, 1, "A")]),
                (("--buffer", "0.1,brake.state"), [(0, 1, 0, "A"), (0, 1, 1, "A"), (1, 2, 0, "A")]),
                (("--buffer", "brake.position"), [(0, 0, 0, "A")]),
                (("--buffer", "0.0", "--channel", "B"), [(0, 0, 0, "B")]),
                (("--buffer", "brake"), [(0, 0, 0, "A"), (0, 1, 0, "A"), (0, 1, 1, "A"), (1, 0, 0, "A"), (1, 0, 0, "A"),
                                         (1, 2, 0, "A")])):
            with self.subTest(words):
                self.assertEqual(self.values("commit", keys, "commits", *run, *words), wanted)

    def test_buffers_of_reads(self) -> None:
        """The brake reads its buffer `position` and pops once, which is no buffer. A node alone has its FIFO, too."""
        run = self.run_of()
        for words, calls in (("brake.position", "read"), ("brake.force", ""), ("brake", "read pop"), ("1.1", "read")):
            found = self.values("call", "call", "reads", *run, "--buffer", words)
            self.assertEqual(found, [(it,) for it in calls.split()], words)
        is_shown = [bool(self.rows("fifo", "reads", *run, "--buffer", it)) for it in ("brake", "brake.position")]
        self.assertEqual(is_shown, [bool(self.rows("fifo", "reads", *run)), False])

    def test_wrong_words(self) -> None:
        run = self.run_of()
        places = "places are static slots as 1 or s3-5, dynamic slots as d7, minislots as m4, s*, m* or *"
        for words, told in (
                (("commits", *run, "--slot", "m4"),
                 ": m4: rows of this command have no minislot; give slots, as s1 or d3"),
                (("log", *run, "--slot", "s3"), ": the cluster has no static slot 3: its static slots are 1 to 2"),
                (("log", *run, "--slot", "d2"), ": the cluster has no dynamic slot 2: its dynamic slots are 3 to 12"),
                (("log", *run, "--slot", "m11"), ": the cluster has no minislot 11: its minislots are 1 to 10"),
                (("log", *run, "--slot", "all"), f" log: argument --slot: 'all' is no place: {places}"),
                (("log", *run, "--channel", "C"), " log: argument --channel: 'C' is no channel: expected A, B or AB"),
                (("log", *run, "--in-cycles", "0-1/0"),
                 " log: argument --in-cycles: '0-1/0' has no cycle, since its step is 0"),
                (("log", *run, "--node", "0-2"), ": the cluster has 2 nodes, and none is 2; names: pedal, brake"),
                (("commits", *run, "--buffer", "log"),
                 ": log names no node and no buffer: expected NODE.BUFFER or NODE, each by its number or name; "
                 "names: pedal, brake"),
                (("reads", *run, "--node", "pedal", "--buffer", "force"),
                 ": force names no buffer of node 0, whose names: position, log")):
            with self.subTest(words[0]):
                status, output, error = self.asked(*words)
                self.assertEqual((status, output), (2, ""))
                self.assertIn(f"musmyrtle{told}", error)


class TestDocument(unittest.TestCase):
    def test_the_forms_of_the_document(self):
        """The examples of docs/formats/commands.md are words of this language."""
        page = (Path(__file__).resolve().parents[2] / "docs/formats/commands.md").read_text()
        section = page.partition("## Selections")[2].partition("\n## ")[0]
        for example in ("0-10/2,13", "s3-5,d7,m*"):
            self.assertIn(f"`{example}`", section)
        self.assertEqual((cycles_of("0-10/2,13").numbers[-1], len(places_in("s3-5,d7,m*"))), (13, 3))
