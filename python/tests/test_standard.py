"""The rules of FlexRay 2.1 Rev A: each that a cluster file breaks is a warning with the parameter and its range."""
from musmyrtle.lint.allows import NAMES
from musmyrtle.lint.lint import OF_CLUSTER, Ran, Task, lint
from musmyrtle.lint.overwriting import Overwritten
from musmyrtle.lint.standard import RULES
from tests.cases import CLUSTER, EXAMPLES, SCENARIO, Cases

FORMATS = EXAMPLES.parent / "docs/formats"
PHYSICAL = "[physical]\nbit_rate = 10_000_000\nmacrotick_us = {}\n\n[[node]]"
OWN = 'own = [{slot = 2, channels = "AB"}]'
SYNC = ", sync = true"
BOTH = (SYNC, ", sync = true, startup = true", OWN, OWN.replace("}", ", sync = true, startup = true}"))

RANGES = (
    ("cluster.toml:11:1", ("`cycle_mt` is 9", "`gMacroPerCycle`", "10 to 16000 macroticks", "appendix B"),
     ("static_slots = 3", "static_slots = 2", "static_mt = 20", "static_mt = 1", "cycle_mt = 90", "cycle_mt = 9",
      "minislots = 4", "minislots = 0", "symbol_mt = 0", "symbol_mt = 5", "nit_mt = 10", "nit_mt = 2",
      '{kind = "event", slot = 4, channels = "A", words = 1},\n', "", "latest_a = 4\n", "")),
    ("cluster.toml:11:1", ("`cycle_mt` is 16001", "`gMacroPerCycle`"),
     ("minislots = 4", "minislots = 306", "minislot_mt = 5", "minislot_mt = 50", "nit_mt = 10", "nit_mt = 641",
      "cycle_mt = 90", "cycle_mt = 16001")),
    ("cluster.toml:7:1", ("`static_mt` is 3", "`gdStaticSlot`", "4 to 661 macroticks"),
     ("static_mt = 20", "static_mt = 3", "nit_mt = 10", "nit_mt = 61")),
    ("cluster.toml:7:1", ("`static_mt` is 662", "`gdStaticSlot`"),
     ("static_mt = 20", "static_mt = 662", "cycle_mt = 90", "cycle_mt = 2016")),
    ("cluster.toml:5:1", ("`minislots` is 7987", "`gNumberOfMinislots`", "0 to 7986 minislots"),
     ("minislots = 4", "minislots = 7987", "minislot_mt = 5", "minislot_mt = 2", "cycle_mt = 90", "cycle_mt = 16044",
      "tasks = 2", "slot_entries = 20000", "tasks = 2", "slot_entries = 20000", "tasks = 2", "slot_entries = 20000")),
    ("cluster.toml:8:1", ("`minislot_mt` is 1", "`gdMinislot`", "2 to 63 macroticks"),
     ("minislot_mt = 5", "minislot_mt = 1", "cycle_mt = 90", "cycle_mt = 74")),
    ("cluster.toml:8:1", ("`minislot_mt` is 64", "`gdMinislot`"),
     ("minislot_mt = 5", "minislot_mt = 64", "cycle_mt = 90", "cycle_mt = 326")),
    ("cluster.toml:9:1", ("`symbol_mt` is 143", "`gdSymbolWindow`", "0 to 142 macroticks"),
     ("symbol_mt = 0", "symbol_mt = 143", "cycle_mt = 90", "cycle_mt = 233")),
    ("cluster.toml:10:1", ("`nit_mt` is 1", "`gdNIT`", "2 to 805 macroticks"),
     ("nit_mt = 10", "nit_mt = 1", "cycle_mt = 90", "cycle_mt = 81")),
    ("cluster.toml:10:1", ("`nit_mt` is 806", "`gdNIT`"),
     ("nit_mt = 10", "nit_mt = 806", "cycle_mt = 90", "cycle_mt = 886")),
    ("cluster.toml:35:1", ("`latest_a` of node 2 is 7982", "`pLatestTx`", "0 to 7981 minislots"),
     ("minislots = 4", "minislots = 7986", "minislot_mt = 5", "minislot_mt = 2", "cycle_mt = 90", "cycle_mt = 16042",
      "latest_a = 4", "latest_a = 7982", "tasks = 2", "slot_entries = 20000", "tasks = 2", "slot_entries = 20000",
      "tasks = 2", "slot_entries = 20000")),
    ("cluster.toml:17:1", ("`macrotick_us` is 0.5", "`gdMacrotick`", "1 to 6 microseconds"),
     ("[[node]]", PHYSICAL.format(0.5))),
    ("cluster.toml:17:1", ("`macrotick_us` is 6.5", "`gdMacrotick`"), ("[[node]]", PHYSICAL.format(6.5))),
    ("cluster.toml:11:1", ("the cycle is 9 microseconds long: 90 macroticks of 0.1", "`gdCycle`", "10 to 16000 micro"),
     ("[[node]]", PHYSICAL.format(0.1))),
    ("cluster.toml:16:1", ("`bit_rate` is 5000000 bits a second", "10 Mbit/s alone", "`gdBit`"),
     ("[[node]]", PHYSICAL.format(1).replace("10_", "5_"))),
)
"""Values out of range, with the words of the warning: each bound from the standard, and one beyond."""
FITTING = (
    ("minislots = 4", "minislots = 306", "minislot_mt = 5", "minislot_mt = 50", "nit_mt = 10", "nit_mt = 640",
     "cycle_mt = 90", "cycle_mt = 16000"),
    ("static_mt = 20", "static_mt = 661", "cycle_mt = 90", "cycle_mt = 2013"),
    ("minislot_mt = 5", "minislot_mt = 63", "cycle_mt = 90", "cycle_mt = 322"),
    ("symbol_mt = 0", "symbol_mt = 142", "cycle_mt = 90", "cycle_mt = 232"),
    ("nit_mt = 10", "nit_mt = 805", "cycle_mt = 90", "cycle_mt = 885"),
    ("[[node]]", PHYSICAL.format(1)), ("[[node]]", PHYSICAL.format(6)),
)


class Standard(Cases):
    def test_parameters_out_of_their_ranges(self):
        for place, words, changes in RANGES:
            with self.subTest(words=words):
                self.warned(place, words, self.changed(CLUSTER, changes))

    def test_bounds_of_the_ranges(self):
        """The last value of each range has no warning of it."""
        for changes in FITTING:
            with self.subTest(changes=changes):
                found, _ = self.look(self.changed(CLUSTER, changes))
                self.assertEqual((found.refusals, [it.headline for it in found.warnings
                                                   if it.name in ("standard-range", "bit-rate")]), ([], []))

    def test_startup_nodes(self):
        self.warned("cluster.toml:15:1", ("the cluster has no startup nodes", "at least 2 coldstart nodes"), CLUSTER)
        self.warned("cluster.toml:15:1", ("the cluster has 1 startup node: 0",), self.changed(CLUSTER, BOTH[:2]))
        found, answer = self.look(self.changed(CLUSTER, BOTH))
        self.assertEqual((found.warnings, [it.name for it in found.notes]), ([], ["fault-tolerance", "unchecked-bits"]))
        self.assertIn("cluster.toml:15:1: note: the cluster has 2 startup nodes: 0 and 1 [fault-tolerance]",
                      self.text(found, answer))
        third = self.changed(CLUSTER, (*BOTH, "latest_a = 4", "own = [{slot = 3, channels = \"AB\", sync = true, "
                                       "startup = true}]\nlatest_a = 4"))
        self.assertEqual([it.name for it in self.look(third)[0].notes], ["unchecked-bits"])

    def test_divided_slots(self):
        """A slot is divided between nodes, or is without an owner in some cycles. Two lines of a node that share all
        cycles are no mistake."""
        shared = OWN.replace("}", '}, {slot = 3, channels = "A", repetition = 2}')
        other = ', {slot = 3, channels = "A", base = 1, repetition = 2}'
        self.warned("cluster.toml:17:50", ("slot 3 on A is divided among nodes 0 and 1", "version 3"),
                    self.changed(CLUSTER, (SYNC + "}", SYNC + "}" + other, OWN, shared)))
        self.warned("cluster.toml:26:37", ("slot 3 on A is node 1's in some cycles only",),
                    self.changed(CLUSTER, (OWN, shared)))
        self.quiet("in some cycles", self.changed(CLUSTER, (OWN, shared.replace("2}]", "2}" + other + "]"))))
        self.quiet("is divided", self.changed(CLUSTER, (SYNC, SYNC + '}, {slot = 3, channels = "A"', OWN,
                                                        OWN.replace("}", '}, {slot = 3, channels = "B"}'))))

    def test_static_frames_without_an_action_point_offset(self):
        """A frame of one word has 117 bits. 12 macroticks of 10 bits have 3 left, 13 have 13, and 14 have 23."""
        for macroticks, left in ((12, "3 bits left"), (13, "13 bits left"), (14, None)):
            cluster = self.changed(CLUSTER, ("[[node]]", PHYSICAL.format(1), "static_mt = 20",
                                             f"static_mt = {macroticks}", "cycle_mt = 90",
                                             f"cycle_mt = {3 * macroticks + 30}"))
            if left:
                self.warned("cluster.toml:7:1", (left, "`gdActionPointOffset`", "doesn't model action points",
                                                 "at least 14"), cluster)
            else:
                self.quiet("action point", cluster)

    def test_repeated_names(self):
        named = CLUSTER.replace("[[node]]", '[[node]]\nname = "brake"').replace("{kind", '{name = "angle", kind')
        self.warned("cluster.toml:26:1", ("node 1 has the name of node 0", "Host programs"), named)
        self.warned("cluster.toml:22:4", ("buffer 1 of node 0 has the name of buffer 0 of node 0",), named)

    def test_a_fifo_that_is_never_popped(self):
        """The run overwrites 3 frames of node 0, which the warning needs, and the scenario has its `pop` or not."""
        self.written("cluster.toml", CLUSTER)
        for scenario, overwritten, wanted in ((SCENARIO, {0: 3}, 0), (SCENARIO.replace("pop 0 1 2\n", ""), {0: 3}, 1),
                                              (SCENARIO.replace("pop 0 1 2\n", ""), {0: 0}, 0)):
            found = self.looked(scenario, overwritten)
            self.assertEqual([it.headline for it in found], wanted * [
                "the receive FIFO of node 0 overwrites 3 frames, and the scenario never pops it"])

    def looked(self, scenario, overwritten):
        task = Task(self.written("cluster.toml", CLUSTER), self.written("scenario", scenario), 4)
        return [it for it in lint(task, Ran(overwritten)).warnings if it.name == "fifo-overwrites"]

    def test_overwritten_frames_of_an_outcome(self):
        overwritten = Overwritten()
        with open(self.written("outcome", "node 0\nqueue 8 3\nnode 1\ntx 0 1 1 0 0 0\nnode 2\nqueue 1 0\n")) as outcome:
            overwritten.read(outcome)
        self.assertEqual(overwritten, {0: 3, 2: 0})


class Table(Cases):
    def rows_of(self, page, heading):
        """Returns the rows of the table of a page that has this heading."""
        text = (FORMATS / page).read_text()
        return text[text.index(heading):].split("\n\n")[0].split("\n")[2:]

    def test_the_table_of_rules_is_that_of_the_formats(self):
        rows = [rule.row for rule in RULES]
        self.assertEqual(self.rows_of("cluster.md", "| Parameter | In a cluster file | Range | Checked |"), rows)

    def test_the_names_are_those_of_the_formats(self):
        rows = self.rows_of("lint.md", "| Name | When |")
        self.assertEqual([row.split("`")[1] for row in rows], list(NAMES))

    def test_each_check_is_a_warning(self):
        self.assertEqual({rule.check for rule in RULES} - {"refused"} - set(NAMES), set())
        self.assertEqual({name for name, _ in OF_CLUSTER} - set(NAMES), set())
