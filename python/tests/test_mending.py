"""Tests of texts from which a mistake can be mended: the expected form, in words of the cluster file or the scenario.
"""
from tests.cases import CLUSTER, SCENARIO, Cases
from tests.test_standard import PHYSICAL

REFUSED = (
    ("BadNode 0", "cluster.toml:17:36", ("Expected 1, 2, 4, 8, 16, 32 or 64",), "sync = true",
     "repetition = 128"),
    ("TooManyNodes", "cluster.toml:15:1", ("`node` is one table, `[node]`", "Expected `[[node]]`, with two brackets"),
     CLUSTER[CLUSTER.index("[[node]]\ntasks = 2\nown = [{slot = 2"):], "", "[[node]]", "[node]"),
    ("Toml", "cluster.toml:24:2", ("`node` stands twice", "Expected `[[node]]` for each of several"), "[[node]]",
     "[node]", "[[node]]", "[node]"),
    ("Toml", "cluster.toml:24:3", ("`node` stands twice", "Expected `[[node]]` for each of several"), "[[node]]",
     "[node]"),
)


class Mending(Cases):
    def test_refusals(self):
        for refusal, place, words, *changes in REFUSED:
            with self.subTest(words=words):
                self.refused(refusal, place, words, self.changed(CLUSTER, tuple(changes)))

    def test_a_dynamic_slot_as_a_static_one(self):
        """Slot 6 opens at minislot 3, after 3 static slots; slot 8 can't open, with 4 minislots."""
        scenario = SCENARIO.replace("end\n", "mute 2 A 1 s6\nend\n")
        self.refused("BadFault 2", "scenario:13:12", ("there is no static slot 6", "The cluster has 3 static slots.",
                                                      "Slot 6 is a dynamic slot", "`m3`"), CLUSTER, scenario, 4)
        found, answer = self.look(CLUSTER, scenario.replace("s6", "s8"), 4)
        self.assertNotIn("dynamic slot", self.text(found, answer).partition(" warning:")[0])

    def test_one_reason_for_journals_of_the_same_room(self):
        """Each cycle has 7 windows of two entries: 300 cycles need 4200, and each of three nodes has room for 4096."""
        found, answer = self.look(CLUSTER, SCENARIO, 300)
        self.assertEqual([(refusal, finding.headline) for refusal, finding in found.refusals],
                         [("NoRoom 0", "300 cycles want 4200 slot entries of each of nodes 0, 1 and 2, and each has "
                           "4096")])
        for text in ("cluster.toml:24:1: node 1", "cluster.toml:33:1: node 2", "`slot_entries = 4200` or more"):
            self.assertIn(text, self.text(found, answer))
        other = self.changed(CLUSTER, ("tasks = 2", "tasks = 2\nslot_entries = 4200", "tasks = 2\nown = [{slot = 2",
                                       "tasks = 2\nslot_entries = 99\nown = [{slot = 2"))
        found, _ = self.look(other, SCENARIO, 300)
        self.assertEqual([refusal for refusal, _ in found.refusals], ["NoRoom 1", "NoRoom 2"])

    def test_bits_of_a_dynamic_frame(self):
        self.warned("cluster.toml:8:1", ("p words are 4 + 10 * (8 + 2 * p) + 2 + 2 bits", "11 of silence follow"),
                    self.changed(CLUSTER, ("[[node]]", PHYSICAL.format(1))))

    def test_a_slot_shorter_than_a_bit(self):
        """10 Mbit/s as `10`: a static slot of 20 macroticks has 0.0002 bits."""
        cluster = self.changed(CLUSTER, ("[[node]]", PHYSICAL.format(1).replace("10_000_000", "10")))
        self.warned("cluster.toml:7:1", ("a static slot is shorter than one bit", "`bit_rate` in bits a second"),
                    cluster)
        self.warned("cluster.toml:16:1", ("`bit_rate` is 10 bits a second", "`bit_rate = 10_000_000`"), cluster)
