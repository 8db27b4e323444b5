"""Tests of the faults that are proved to be harmless: which these are, and that their runs make no difference."""
import json
from dataclasses import replace

from musmyrtle.faults.listing import KINDS, Selection, SingleFault, is_stopped
from musmyrtle.faults.log import Log
from tests.campaigns import CampaignCases, cluster_of
from tests.cases import EXAMPLES
from tests.shows import THREE, Shows
from tests.two_nodes import SCENE, TWO_NODES

BABBLES = frozenset(["noise", "forged"])
EMPTY = "frscenario 3\nend\n"
CYCLES, MORE_CYCLES = 6, 8
"""The cycles of the runs, and those that the scenario of the car needs."""
MOST = 60
"""The faults of a cluster that a test runs, evenly spread over its list."""
SHARED = TWO_NODES.replace('own = [{slot = 2, channels = "A"}]', '''own = [
  {slot = 2, channels = "A"},
  {slot = 1, channels = "B", base = 1, repetition = 2},
]''').replace('{slot = 1, channels = "AB"}]', '''{slot = 1, channels = "A"},
  {slot = 1, channels = "B", base = 0, repetition = 2},
]''').replace('"event", slot = 1, channels = "AB"', '"event", slot = 1, channels = "A"') \
    .replace('guard = "A"', 'guard = "AB"')
"""Slot 1 on B is node 0's in even cycles and node 1's in odd ones. Both channels have guardians."""


def babble(node: int, channels: str, place: str, cycles: str = "*", kind: str = "noise") -> SingleFault:
    return SingleFault(kind, node, channels, cycles, place, ("babble 0 A * s1 xff",))


class TestWhich(CampaignCases):
    def stopped(self, text: str, *faults: SingleFault) -> list[bool]:
        return [is_stopped(it, cluster_of(text), 4) for it in faults]

    def test_the_own_slot(self):
        """A slot that the node owns on one of the channels in one of the cycles isn't another node's. The frames of
        node 1 in slot 1 on B come in odd cycles."""
        others = [babble(1, "A", "s1"), babble(0, "B", "s1", "1-3/2"), babble(1, "B", "s1", "0-2/2"),
                  babble(1, "AB", "s1", "0,2"), babble(0, "AB", "s2"), babble(1, "B", "s2", kind="forged")]
        own = [babble(0, "A", "s1"), babble(0, "B", "s1"), babble(1, "B", "s1"), babble(1, "AB", "s1"),
               babble(0, "B", "s1", "1-2"), babble(0, "AB", "s1", "1,3"), babble(1, "B", "s1", "0,1"),
               babble(1, "AB", "s2", kind="forged")]
        self.assertEqual(self.stopped(SHARED, *others), [True] * len(others))
        self.assertEqual(self.stopped(SHARED, *own), [False] * len(own))

    def test_channels_without_guardians(self):
        """Of the two nodes only A has guardians, and a fault of both channels comes through on B."""
        faults = [babble(1, channels, "s1") for channels in ("A", "B", "AB")]
        self.assertEqual(self.stopped(TWO_NODES, *faults), [True, False, False])
        self.assertEqual(self.stopped(TWO_NODES.replace('guard = "A"', 'guard = "none"'), *faults), [False] * 3)

    def test_places_and_kinds(self):
        """All static slots may have some of the node, and the dynamic segment has no guardians. A lost or a disturbed
        frame is no babble."""
        faults = [babble(1, "A", place) for place in ("s*", "m1", "m*", "d3", "all")]
        faults += [babble(1, "A", "s1", kind=kind) for kind in KINDS if kind not in BABBLES]
        self.assertEqual(self.stopped(TWO_NODES, *faults), [False] * len(faults))
        self.assertEqual(self.stopped(TWO_NODES, replace(babble(0, "A", "s1", kind="header"), node=None)), [False])


class TestRuns(CampaignCases):
    def proved(self, cluster: str, scenario: str, cycles: int = CYCLES) -> list[SingleFault]:
        """Runs faults that are proved harmless, and checks that they make no difference at all. Returns all of them."""
        campaign = self.campaign(cluster, scenario, cycles)
        listed = campaign.listing(Selection(BABBLES, is_proof_counted=True)).faults()
        found = [it for it in listed if it.is_proved]
        some = [replace(it, is_proved=False) for it in found[::len(found) // MOST + 1]]
        done = campaign.run(some, Log(None, (), False), lambda done, of: None)
        self.assertEqual([str(fault) for fault, differences in done if differences], [])
        self.assertEqual(len(done), len(some))
        return found

    def test_all_examples(self):
        """The car has 62 static slots, 16 nodes and two channels, and its scenario has babbles, too."""
        for file in sorted(EXAMPLES.glob("*/*.toml")):
            if file.parent.name == "networks":  # lists of messages, no clusters
                continue
            scenario = file.with_name("scenario")
            with self.subTest(file):
                text = scenario.read_text() if scenario.exists() else EMPTY
                found = self.proved(file.read_text(), text, MORE_CYCLES if file.parent.name == "vehicle" else CYCLES)
                is_guarded = 'guard = "none"' not in file.read_text()
                self.assertEqual(bool(found), is_guarded)

    def test_other_scenarios(self):
        """Beside a lost owner, a flipped bit, and another babble in the slot they make no difference either."""
        for lines in ("mute 0 A * s1\n", "corrupt A * s1 40\ncorrupt B 1 s1 15\n", "babble 0 A * s* x00\nlost 1 1\n"):
            for text in (TWO_NODES, SHARED):
                scene = SCENE.replace("frscenario 1", "frscenario 3").replace("end\n", f"{lines}end\n")
                self.assertNotEqual(self.proved(text, scene), [])


class TestCommand(Shows):
    WORDS = ("faults", *THREE, "--kinds", "noise,forged", "--nodes", "1,2")

    def test_counted_without_a_run(self) -> None:
        """Only A of the three nodes is guarded. There node 1 owns slot 2, so its babbles in slots 1 and 3 on A alone
        are proved, of two kinds. The scenario has babbles of node 2 in each static slot."""
        status, table, told = self.asked(*self.WORDS)
        self.assertEqual(status, 0)
        self.assertIn("\n4 faults proved harmless, without a run: ", told)
        listed = self.asked(*self.WORDS, "--list")[1].splitlines()
        proved = [line.split("\t") for line in listed if line.endswith("\tproved")]
        self.assertEqual([" ".join(it[:5]) for it in proved], [
            f"{kind} 1 A * {place}" for kind in ("noise", "forged") for place in ("s1", "s3")])
        total = json.loads(self.asked(*self.WORDS, "--json")[1].splitlines()[-1])
        self.assertEqual(total, {"kind": "total", "faults": len(listed), "runs": len(listed) - 4, "idle": 0,
                                 "proved": 4, "promise": "alike of fr_core"})
        rows = [json.loads(line) for line in self.asked(*self.WORDS, "--list", "--json")[1].splitlines()]
        self.assertEqual(sum(row["is_proved"] for row in rows), 4)

    def test_they_run_where_that_is_asked_for(self) -> None:
        """The table is the same, and the summary tells of their runs."""
        counted, ran = self.asked(*self.WORDS), self.asked(*self.WORDS, "--run-proved")
        self.assertEqual(counted[:2], ran[:2])
        self.assertNotIn("proved harmless", ran[2])
        self.assertIn("of the babbles in guarded static slots that aren't the node's own, 4, none made any difference",
                      ran[2])
        total = json.loads(self.asked(*self.WORDS, "--run-proved", "--json")[1].splitlines()[-1])
        self.assertEqual((total["faults"] - total["runs"], total["proved"], total["promise"]), (0, 0, None))
        self.assertNotIn("\tproved\n", self.asked(*self.WORDS, "--run-proved", "--list")[1])
