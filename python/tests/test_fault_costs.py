"""Tests of the costs of a fault: outcomes are read strictly, and one is compared with another."""
import unittest

from musmyrtle.faults.costs import COSTS, EFFECTS, FAILED, HARMLESS, IDLE, Calendar, Ended, differences
from musmyrtle.faults.listing import Selection
from musmyrtle.faults.table import verdict
from musmyrtle.outcomes import BadOutcome, read_outcome
from musmyrtle.selections import cycles_of
from tests.campaigns import PROGRAM, CampaignCases, cluster_of, scenario_of
from tests.cases import CLUSTER, SCENARIO
from tests.two_nodes import OUTCOME, SCENE, TWO_NODES

FRESH_A, FRESH_B, PERIODIC = "1:A x0c0d", "1:B x0c0d", "1:A x1111"


class TestOutcomes(unittest.TestCase):
    def test_an_outcome(self):
        found = read_outcome(OUTCOME, cluster_of(TWO_NODES))
        self.assertEqual((found.windows, len(found.nodes), found.nodes[0].queue), (4, 2, None))
        self.assertEqual(found.nodes[0].buffers[0].sent, 2)
        held = found.nodes[1].buffers[1]
        self.assertEqual((held.entry, held.channel, held.payload), (6, "A", b"\x0c\x0d"))
        self.assertEqual(found.nodes[1].counters["B"].valid, 2)

    def test_what_is_no_outcome(self):
        for old, new in (("node 0", "node 1"), ("tx 0 2 2", "tx 0 2 1"), ("tx 0 2", "tx 1 2"), ("rx 1", "rx  1"),
                         ("x1111", "x111"), ("x1111", "x11"), ("x1111", "X1111"), ("9:A", "09:A"), ("9:A", "9:C"),
                         ("9:A x1111", "- x1111"),
                         ("rx 2 - -\n", ""), ("rx 2 - -", "queue 0 0\nrx 2 - -"), ("A 2 0 0 0 0", "A 2 0 0 0"),
                         ("A 2 0", "A 2 00"), ("A 2 0", "A 2 -1"), ("windows 4\n", ""), ("settled\n", ""),
                         ("settled\n", "settled"),
                         ("settled\n", "settled\n\n"), ("node 1", "node 1\n"), ("\n", "\r\n")):
            with self.assertRaises(BadOutcome, msg=(old, new)):
                read_outcome(OUTCOME.replace(old, new, 1), cluster_of(TWO_NODES))
        with self.assertRaises(BadOutcome):
            read_outcome("", cluster_of(TWO_NODES))

    def test_cycles_of_entries(self):
        """Two windows a cycle in the first cycle, three in the second; node 0 has a line in cycles 0 and 1."""
        calendar = Calendar(scenario_of(SCENE), [0, 2, 5])
        self.assertEqual([calendar.cycle(0, it) for it in (2, 4, 7, 11, 13)], [0, 0, 1, 1, 2])
        self.assertEqual([calendar.cycle(1, it) for it in (2, 4, 6, 10, 12)], [0, 0, 1, 1, 2])
        self.assertEqual([calendar.cycle(2, it) for it in (1, 3, 5, 9, 11)], [0, 0, 1, 1, 2])

    def compared(self, without: str, having: str) -> list[tuple]:
        calendar = Calendar(scenario_of(SCENE), [0, 2])
        ends = [Ended(read_outcome(text, cluster_of(TWO_NODES)), calendar, {}) for text in (without, having)]
        return [(it.node, it.thing, it.effect, it.amount) for it in differences(*ends)]

    def changed(self, *changes: str) -> list[tuple]:
        text = OUTCOME
        for old, new in zip(changes[::2], changes[1::2]):
            self.assertIn(old, text)
            text = text.replace(old, new, 1)
        return self.compared(OUTCOME, text)

    def test_each_effect(self):
        self.assertEqual(self.changed(), [])
        self.assertEqual(self.changed("9:A x1111", "- -"), [(0, "rx 1", "lost", 1)])
        self.assertEqual(self.changed("9:A x1111", "4:A x1111"), [(0, "rx 1", "older", 1)])
        self.assertEqual(self.changed("9:A x1111", "4:A x2222"), [(0, "rx 1", "older", 1)])
        self.assertEqual(self.changed("9:A x1111", "9:A x2222"), [(0, "rx 1", "changed", 1)])
        self.assertEqual(self.changed("rx 2 - -", "rx 2 4:B x1111"), [(0, "rx 2", "changed", 1)])
        self.assertEqual(self.changed("6:A x0c0d", "6:B x0c0d"), [(1, "rx 1", "channel", 1)])
        self.assertEqual(self.changed("2 2 0 0 0", "2 1 0 1 0"), [(0, "tx 0", "pending", 1), (0, "tx 0", "unsent", 1)])
        self.assertEqual(self.changed("2 2 0 0 0", "2 1 1 0 0"), [(0, "tx 0", "unsent", 1)])
        self.assertEqual(self.changed("A 2 0 0 0 0", "A 0 2 0 0 1"), [(0, "A", "counted", 5)])
        older = OUTCOME.replace("9:A", "4:A")
        self.assertEqual(self.compared(older, OUTCOME), [(0, "rx 1", "newer", 1)])
        waiting = OUTCOME.replace("2 2 0 0 0", "2 1 0 1 0")
        self.assertEqual(self.compared(waiting, OUTCOME), [(0, "tx 0", "sent", 1)])

    def test_each_effect_on_commits_has_its_own_row(self):
        """Of six commits a starved buffer sends none: one is pending, and the five before it are overwritten. If the
        last one alone is late, a sent one and the pending one are two rows, and so are a late one and one sent more."""
        for without, having, wanted in (
                ("6 6 0 0 0", "6 0 5 1 0", [("pending", 1), ("unsent", 6)]),
                ("6 6 0 0 0", "6 5 0 1 0", [("pending", 1), ("unsent", 1)]),
                ("6 6 0 0 0", "6 4 2 0 0", [("unsent", 2)]),
                ("6 3 3 0 0", "6 4 1 1 0", [("pending", 1), ("sent", 1)]),
                ("6 3 3 0 0", "6 3 2 1 0", [("pending", 1)]),
                ("6 5 0 1 0", "6 4 2 0 0", [("unsent", 1)]),
                ("6 5 0 1 0", "6 6 0 0 0", [("sent", 1)]),
                ("6 5 0 1 0", "6 5 1 0 0", [("sent", 0)])):
            one, other = (OUTCOME.replace("2 2 0 0 0", it, 1) for it in (without, having))
            self.assertEqual(self.compared(one, other), [(0, "tx 0", *it) for it in wanted], having)

    def test_words_of_effects(self):
        """Each effect is a cost, harmless, a failure, or the lack of a run."""
        self.assertEqual(sorted(EFFECTS), sorted((*FAILED, *COSTS, *HARMLESS, IDLE)))


def heard(node: int, without: str, having: str, channel: str) -> tuple:
    amount = sum(abs(int(a) - int(b)) for a, b in zip(without.split(" "), having.split(" ")))
    return node, channel, "counted", amount, without, having


QUIET, TWICE = "0 0 0 0 0", "2 0 0 0 0"
"""The counts on a channel without a frame, and with a valid one in each of two cycles."""


def by_other_channel(counts: str) -> list[tuple]:
    """Returns the costs where node 1 gets the frame of slot 1 on B alone, and counts so on A."""
    return [(1, "rx 1", "channel", 1, FRESH_A, FRESH_B), heard(1, TWICE, counts, "A")]


def slot_2_lost(counts: str) -> list[tuple]:
    """Returns the costs where node 0 never gets the frame of slot 2, and counts so on A."""
    return [(0, "rx 1", "lost", 1, PERIODIC, "-"), heard(0, TWICE, counts, "A")]


LOST_1 = (1, "rx 1", "lost", 1, FRESH_A, "-")
SLOT_2_GONE_A = slot_2_lost(QUIET)[0]
FORGED_HELD = (0, "rx 2", "changed", 1, "-", "1:B xa55a")
OWN_CONFLICT_1 = [heard(0, TWICE, "2 0 0 0 2", "A"), *by_other_channel("0 2 0 0 0")]
OWN_CONFLICT_2 = [*slot_2_lost("0 2 0 0 0"), heard(1, TWICE, "2 0 0 0 2", "A")]
FLIPPED_1, FLIPPED_2 = by_other_channel("0 2 0 0 0"), slot_2_lost("0 2 0 0 0")
FLIPPED_B = [heard(1, TWICE, "0 2 0 0 0", "B")]
SLOT_1_GONE = (("mute", "s1"), ("mute", "s*"), ("lost", "all"))
SLOT_2_GONE = (("mute", "s2"), ("mute", "s*"), ("lost", "all"))
BY_HAND = {
    # Lost frames: of slot 1 there is another one on the other channel, of slot 2 there isn't.
    **{f"{kind} 0 A * {place}": by_other_channel(QUIET) for kind, place in SLOT_1_GONE},
    **{f"{kind} 0 B * {place}": [heard(1, TWICE, QUIET, "B")] for kind, place in SLOT_1_GONE},
    **{f"{kind} 1 A * {place}": slot_2_lost(QUIET) for kind, place in SLOT_2_GONE},
    # Babbles on the guarded channel: only in the node's own slot, where its frame and its babble collide.
    **{f"{kind} 0 A * {place}": found for kind in ("noise", "forged")
       for place, found in (("s1", OWN_CONFLICT_1), ("s2", []), ("s*", OWN_CONFLICT_1))},
    **{f"{kind} 1 A * {place}": found for kind in ("noise", "forged")
       for place, found in (("s1", []), ("s2", OWN_CONFLICT_2), ("s*", OWN_CONFLICT_2))},
    # Babbles on the other one, where slot 1 has a frame and slot 2 has none.
    **{f"{kind} {node} B * s1": [heard(0, QUIET, "0 0 0 0 2", "B"), heard(1, TWICE, counts, "B")]
       for kind in ("noise", "forged") for node, counts in ((0, "0 2 0 0 0"), (1, "0 0 0 0 2"))},
    "noise 0 B * s2": [heard(1, TWICE, "2 2 0 0 0", "B")],
    "noise 0 B * s*": [heard(0, QUIET, "0 0 0 0 2", "B"), heard(1, TWICE, "0 4 0 0 0", "B")],
    "noise 1 B * s2": [heard(0, QUIET, "0 2 0 0 0", "B")],
    "noise 1 B * s*": [heard(0, QUIET, "0 2 0 0 2", "B"), heard(1, TWICE, "0 0 0 0 2", "B")],
    "forged 0 B * s2": [heard(1, TWICE, "4 0 0 0 0", "B")],
    "forged 0 B * s*": [heard(0, QUIET, "0 0 0 0 2", "B"), heard(1, TWICE, "2 2 0 0 0", "B")],
    "forged 1 B * s2": [FORGED_HELD, heard(0, QUIET, TWICE, "B")],
    "forged 1 B * s*": [FORGED_HELD, heard(0, QUIET, "2 0 0 0 2", "B"), heard(1, TWICE, "0 0 0 0 2", "B")],
    # Both channels: a babble that the guardian of A stops costs what it costs on B alone. A babble that passes spoils
    # the node's own slot.
    "lost 0 AB * all": [LOST_1, heard(1, TWICE, QUIET, "A"), heard(1, TWICE, QUIET, "B")],
    "lost 1 AB * all": slot_2_lost(QUIET),
    "lost 1 B * all": [(None, "-", "idle", 0, "-", "-")],
    **{f"{kind} 0 AB * {place}": [
        heard(0, TWICE, "2 0 0 0 2", "A"), heard(0, QUIET, "0 0 0 0 2", "B"), LOST_1,
        heard(1, TWICE, "0 2 0 0 0", "A"), heard(1, TWICE, counts, "B")]
       for kind, place, counts in (("noise", "s1", "0 2 0 0 0"), ("forged", "s1", "0 2 0 0 0"),
                                   ("noise", "s*", "0 4 0 0 0"), ("forged", "s*", "2 2 0 0 0"))},
    "noise 0 AB * s2": [heard(1, TWICE, "2 2 0 0 0", "B")],
    "forged 0 AB * s2": [heard(1, TWICE, "4 0 0 0 0", "B")],
    **{f"{kind} 1 AB * s1": [heard(0, QUIET, "0 0 0 0 2", "B"), heard(1, TWICE, "0 0 0 0 2", "B")]
       for kind in ("noise", "forged")},
    "noise 1 AB * s2": [*slot_2_lost("0 2 0 0 0"), heard(0, QUIET, "0 2 0 0 0", "B"),
                        heard(1, TWICE, "2 0 0 0 2", "A")],
    "forged 1 AB * s2": [SLOT_2_GONE_A, FORGED_HELD, heard(0, TWICE, "0 2 0 0 0", "A"), heard(0, QUIET, TWICE, "B"),
                         heard(1, TWICE, "2 0 0 0 2", "A")],
    "noise 1 AB * s*": [*slot_2_lost("0 2 0 0 0"), heard(0, QUIET, "0 2 0 0 2", "B"),
                        heard(1, TWICE, "2 0 0 0 2", "A"), heard(1, TWICE, "0 0 0 0 2", "B")],
    "forged 1 AB * s*": [SLOT_2_GONE_A, FORGED_HELD, heard(0, TWICE, "0 2 0 0 0", "A"),
                         heard(0, QUIET, "2 0 0 0 2", "B"), heard(1, TWICE, "2 0 0 0 2", "A"),
                         heard(1, TWICE, "0 0 0 0 2", "B")],
    # A flipped bit makes a frame unreadable.
    **{f"{kind} - {place}": found for kind in ("header", "payload", "trailer")
       for place, found in (("A * s1", FLIPPED_1), ("A * s2", FLIPPED_2), ("B * s1", FLIPPED_B))},
}
"""The costs of each fault of the two nodes, in both cycles, by the rules of docs/RULES.md."""


class TestRuns(CampaignCases):
    def test_two_nodes_by_hand(self):
        campaign = self.campaign(TWO_NODES, SCENE, 2)
        self.assertEqual(campaign.folder.run(PROGRAM, ()).output, OUTCOME)
        found = self.found(campaign)
        self.assertEqual(set(found), set(BY_HAND))
        for name, wanted in BY_HAND.items():
            got = [(it.node, it.thing, it.effect, it.amount, it.without, it.having) for it in found[name]]
            self.assertEqual(got, wanted, name)

    def test_nodes_without_commits(self):
        """Node 1 alone has a transmit buffer and no commit."""
        scene = SCENE.replace("commit 1 0 0 0 x1111\n", "")
        self.assertEqual(self.campaign(TWO_NODES, scene, 2).quiet(), (1,))
        self.assertEqual(self.campaign(TWO_NODES, SCENE, 2).quiet(), ())

    def test_one_cycle_alone(self):
        """Lost in the second cycle, the frame of the first one stays."""
        campaign = self.campaign(TWO_NODES, SCENE, 2)
        found = self.found(campaign, Selection(frozenset(["mute"]), frozenset([1]), None, cycles_of("1")))
        got = [(it.thing, it.effect, it.amount, it.having) for it in found["mute 1 A 1 s2"]]
        self.assertEqual(got, [("rx 1", "older", 1, "0:A x1111"), ("A", "counted", 1, "1 0 0 0 0")])

    def test_a_range_of_cycles(self):
        """Both cycles of the run are all of them, and every second one is the first."""
        campaign = self.campaign(TWO_NODES, SCENE, 2)
        for word, same in (("0-1", None), ("0-1/2", cycles_of("0"))):
            narrowed = [self.found(campaign, Selection(cycles=it)) for it in (cycles_of(word), same)]
            self.assertEqual(*(list(it.values()) for it in narrowed))
            self.assertIn(f"lost 0 AB {word} all", narrowed[0])

    def test_the_dynamic_segment_of_three_nodes(self):
        """Node 2 sends three frames in slot 4, which opens at minislot 1. All of them come to the FIFO of node 0, which
        has popped one. A noise there costs these three, and so does the loss of node 2."""
        narrowed = Selection(frozenset(["noise", "lost"]), None, frozenset(["m1", "all"]))
        found = self.found(self.campaign(CLUSTER, SCENARIO, 4), narrowed)
        for name in ("lost 2 AB * all", "lost 2 A * all", "noise 0 A * m1", "noise 1 AB * m1", "noise 2 A * m1"):
            got = [(it.node, it.effect, it.amount, it.without, it.having) for it in found[name] if it.thing == "queue"]
            self.assertEqual(got, [(0, "lost", 3, "2 0", "0 0")], name)

    def test_guardians(self):
        """No babble in a guarded static slot of another node makes any difference. Without guardians the same babbles
        hurt all receivers of the slot there."""
        place = Selection(frozenset(["noise", "forged"]), frozenset([2]), frozenset(["s1", "s2"]))
        scenario = "\n".join(it for it in SCENARIO.split("\n") if not it.startswith("babble"))
        guarded = self.found(self.campaign(CLUSTER.replace('guard = "A"', 'guard = "AB"'), scenario, 4), place)
        self.assertEqual({name for name, found in guarded.items() if found}, set())
        bare = self.found(self.campaign(CLUSTER.replace('guard = "A"', 'guard = "none"'), scenario, 4), place)
        self.assertEqual(set(bare), set(guarded))
        lost = {name: [(it.node, it.thing) for it in found if it.effect == "lost"] for name, found in bare.items()}
        for kind in ("noise", "forged"):
            self.assertEqual(lost[f"{kind} 2 A * s1"], [(1, "rx 1")])
            self.assertEqual(lost[f"{kind} 2 A * s2"], [(0, "rx 1")])
            self.assertEqual(lost[f"{kind} 2 B * s1"], [(1, "rx 2")])
            self.assertEqual(lost[f"{kind} 2 B * s2"], [])
            self.assertEqual(lost[f"{kind} 2 AB * s1"], [(1, "rx 1"), (1, "rx 2")])

    def test_a_node_that_fails_on_both_channels(self):
        """Frames that node 0 sends on both channels arrive as long as one of them works, and not where node 0 is dead.
        With noise in its slot, which no guardian stops here, the same holds."""
        campaign = self.campaign(TWO_NODES.replace('guard = "A"', 'guard = "none"'), SCENE, 2)
        found = self.found(campaign, Selection(frozenset(["lost", "noise"]), None, frozenset(["all", "s1"])))
        for fault in ("lost 0 {} * all", "noise 1 {} * s1", "noise 0 {} * s1"):
            verdicts = [verdict(found[fault.format(channels)]) for channels in ("A", "B", "AB")]
            self.assertEqual(verdicts, ["harmless", "harmless", "lost"], fault)
