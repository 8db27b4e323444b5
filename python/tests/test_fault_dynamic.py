"""Tests of faults in the dynamic segment: the frames that a lost node would send, and the slot of a forged frame."""
from unittest.mock import patch

from musmyrtle.faults.campaign import NoReference
from musmyrtle.faults.frames import data_frame
from musmyrtle.faults.listing import Selection, SingleFault
from musmyrtle.selections import cycles_of
from musmyrtle.world.refusals import Memory, SessionOver
from tests.campaigns import CampaignCases
from tests.two_nodes import PARAMETERS

DYNAMIC = PARAMETERS.replace("minislots = 0", "minislots = 12").replace("cycle_mt = 50", "cycle_mt = 110") \
    .replace("words_per_minislot = 5", "words_per_minislot = 2")
"""Two static slots and twelve minislots of two words."""
CLUSTER = f'guard = "AB"\n\n{DYNAMIC}' + """
[[node]]
latest_a = {latest}
latest_b = 10
buffer = [
  {{kind = "event", slot = 3, channels = "A", words = 1}},
  {{kind = "event", slot = 4, channels = "A", words = 1}},
  {{kind = "event", slot = 5, channels = "B", words = 1}},
]

[[node]]
latest_a = 8
buffer = [{{kind = "event", slot = 6, channels = "A", words = 1}}]

[[node]]
buffer = [
  {{kind = "receive", slot = 5, channels = "A"}},
  {{kind = "receive", slot = 6, channels = "A"}},
  {{kind = "receive", slot = 7, channels = "A"}},
  {{kind = "receive", slot = 9, channels = "A"}},
]
"""
SCENE = "frscenario 1\ncommit 0 0 0 0 x0003\ncommit 0 0 0 1 x0004\ncommit 1 0 0 0 x0006\nend\n"
"""The dynamic segment by hand. A frame of one word takes three minislots. In cycle 0 slots 3 and 4 are sent at
minislots 1 and 4, slot 5 opens at 7, and slot 6 is sent at 8, the pLatestTx of its node. In cycle 1 nothing is sent,
and slot 9 opens at minislot 7."""
FORGED = bytes.fromhex("a55a")


def frame(slot: int, cycle: int, channel: str = "A") -> str:
    return f"x{data_frame(slot, cycle, FORGED, channel).hex()}"


class TestForged(CampaignCases):
    def campaign_of(self, latest: int = 10, scene: str = SCENE, cycles: int = 2):
        return self.campaign(CLUSTER.format(latest=latest), scene, cycles)

    def at(self, campaign, place: str, kind: str = "forged", **more) -> dict[str, SingleFault]:
        selection = Selection(frozenset([kind]), frozenset([0]), frozenset([place]), **more)
        return {str(it): it for it in campaign.listing(selection).faults()}

    def test_a_slot_that_the_fault_moves(self):
        """A forged frame at minislot 7 of cycle 0 is of slot 5, and keeps slot 6 closed until minislot 10, which is too
        late for node 1. So node 1 sends in cycle 1, at minislot 4, and slot 7 opens at minislot 7, not slot 9."""
        campaign = self.campaign_of()
        lines = {name: it.lines for name, it in self.at(campaign, "m7").items()}
        self.assertEqual(lines["forged 0 A * m7"],
                         (f"babble 0 A 0 m7 {frame(5, 0)}", f"babble 0 A 1 m7 {frame(7, 1)}"))
        self.assertEqual(lines["forged 0 B * m7"],
                         tuple(f"babble 0 B {cycle} m7 {frame(9, cycle, 'B')}" for cycle in (0, 1)))
        self.assertEqual(lines["forged 0 AB * m7"], (
            f"babble 0 A 0 m7 {frame(5, 0)}", f"babble 0 B 0 m7 {frame(9, 0, 'B')}",
            f"babble 0 A 1 m7 {frame(7, 1)}", f"babble 0 B 1 m7 {frame(9, 1, 'B')}"))

    def test_its_frame_is_received(self):
        """Node 2 receives both forged frames, that of slot 7 too, and the frame of slot 6 a cycle later."""
        campaign = self.campaign_of()
        found = self.found(campaign, Selection(frozenset(["forged"]), frozenset([0]), frozenset(["m7"])))
        rows = [(it.thing, it.effect, it.having) for it in found["forged 0 A * m7"] if it.node == 2 and it.thing != "A"]
        self.assertEqual(rows, [("rx 0", "changed", "0:A xa55a"), ("rx 1", "newer", "1:A x0006"),
                                ("rx 2", "changed", "1:A xa55a")])

    def test_beside_a_babble_of_the_scenario(self):
        """The list leaves out the cycle of the scenario's babble. A babble of ten bytes takes three minislots like a
        frame, so that slot 6 opens too late as well. One of one byte takes one minislot, and slot 6 opens as without
        it."""
        for data, slot in (("ff" * 10, 7), ("ff", 9)):
            scene = SCENE.replace("end\n", f"babble 0 A 0 m7 x{data}\nend\n")
            lines = self.at(self.campaign_of(scene=scene), "m7")["forged 0 A * m7"].lines
            self.assertEqual(lines, (f"babble 0 A 1 m7 {frame(slot, 1)}",))

    def test_a_frame_of_another_slot_is_noticed(self):
        """In cycle 1 alone the fault changes nothing before it, so slot 9 is open, and a frame of slot 7 is wrong."""
        campaign = self.campaign_of()
        for slot, wanted in ((9, None), (7, "in cycle 1 the forged frame is of slot 7 on A, where 9 is open")):
            fault = SingleFault("forged", 0, "A", "1", "m7", (f"babble 0 A 1 m7 {frame(slot, 1)}",))
            found = campaign.here(fault)
            told = [it.having for it in found if it.effect == "unreadable"]
            self.assertEqual(told, [wanted] if wanted else [])

    def test_a_session_that_ends_while_the_list_is_made(self):
        """A refusal and the end of the program each end the list with one line."""
        campaign = self.campaign_of()
        for error in (Memory(("Memory",), "trace 0"), SessionOver("refused Memory")):
            with patch("musmyrtle.faults.played.Play.run", side_effect=error), self.assertRaises(NoReference) as raised:
                self.at(campaign, "all", "lost")
            self.assertNotIn("\n", str(raised.exception))

    def test_all_that_a_node_sends(self):
        """With slot 3 lost slot 4 opens at minislot 2, and is lost there. Slot 5 opens at minislot 3 on B."""
        scene = SCENE.replace("end\n", "commit 0 0 0 2 x0005\nend\n")
        lines = {name: it.lines for name, it in self.at(self.campaign_of(scene=scene), "all", "lost").items()}
        self.assertEqual(lines, {
            "lost 0 AB * all": ("lost 0 *",), "lost 0 A * all": ("mute 0 A * *",), "lost 0 B * all": ("mute 0 B * *",)})

    def test_all_that_a_node_sends_on_both_channels(self):
        """Slots 4 and 5 are sent on B. With slot 4 lost at minislot 2 slot 5 opens at minislot 3, and not at 5."""
        cluster = CLUSTER.format(latest=10).replace('slot = 4, channels = "A"', 'slot = 4, channels = "B"')
        campaign = self.campaign(cluster, SCENE.replace("end\n", "commit 0 0 0 2 x0005\nend\n"), 2)
        lines = {name: it.lines for name, it in self.at(campaign, "all", "lost").items()}
        self.assertEqual(lines["lost 0 AB * all"], ("lost 0 *",))

    def test_beside_a_loss_of_the_scenario(self):
        """The scenario has lost slot 3 at minislot 1 of cycle 0. There the static slots are still to be lost, and slot
        4, which opens at minislot 2 then."""
        scene = SCENE.replace("end\n", "mute 0 A 0 m1\nend\n")
        lines = {name: it.lines for name, it in self.at(self.campaign_of(scene=scene), "all", "lost").items()}
        rest = ("mute 0 A 1 *", "mute 0 A 0 s*", "mute 0 A 0 m2")
        self.assertEqual(lines, {"lost 0 AB * all": (*rest, "mute 0 B * *"), "lost 0 A * all": rest,
                                 "lost 0 B * all": ()})

    def test_all_that_a_node_sends_in_one_cycle(self):
        """Slot 4 opens at minislot 4 in cycle 0, too late, and is sent in cycle 1. There it is lost, though it would be
        sent in cycle 0 if slot 3 were lost then."""
        found = self.at(self.campaign_of(latest=3), "all", "lost", cycles=cycles_of("1"))
        lines = {name: it.lines for name, it in found.items()}
        self.assertEqual(lines, {"lost 0 AB 1 all": ("lost 0 1",), "lost 0 A 1 all": ("mute 0 A 1 *",),
                                 "lost 0 B 1 all": ()})
