"""The list of single faults: of a cluster of two nodes by hand, narrowed, and beside faults that a scenario has."""
import unittest
from argparse import ArgumentTypeError

from musmyrtle.faults.frames import data_frame
from musmyrtle.faults.listing import LeftOut, Listing, Selection, SingleFault, is_stopped
from musmyrtle.faults.played import Begun, forged_babble
from musmyrtle.faults.table import listed
from musmyrtle.scenario import Reading as ScenarioReading
from musmyrtle.selections import Directory, Span, cycles_of, places_of
from tests.campaigns import cluster_of
from tests.cases import CLUSTER
from tests.two_nodes import TWO_NODES


class Plays:
    """Runs with the results that a test gives."""

    def __init__(self, recorded: list[Begun] = [], lost: list[Begun] = [], opened: dict = {}):
        self.begun, self.lost, self.opened = recorded, lost, opened

    def recorded(self):
        return self.begun

    def lose(self, node, channels, cycles):
        return [it for it in self.lost if it.channel in channels and it.cycle in cycles]

    def forge(self, node, minislot, occasions):
        return {it: slot for it, slot in self.opened.get(minislot, {}).items() if it in occasions}


def faults_of(text: str, cycles: int, selection: Selection = Selection(), lines: str = "",
              plays: Plays = Plays()) -> tuple[list[SingleFault], LeftOut]:
    scenario = ScenarioReading("scenario", f"frscenario 2\n{lines}end\n".encode()).scenario
    listing = Listing(cluster_of(text), scenario, cycles, selection, plays)
    return listing.faults(), listing.left_out


def only(kind: str, **more) -> Selection:
    return Selection(frozenset([kind]), **more)


class TestList(unittest.TestCase):
    def names(self, *given, **more) -> list[str]:
        return [str(it) for it in faults_of(*given, **more)[0]]

    def test_all_of_two_nodes(self):
        """Node 0 owns slot 1 on both channels and node 1 slot 2 on A; there is no dynamic segment. Faults on both
        channels come first."""
        lost = [f"lost {node} {channels} * all" for node in "01" for channels in ("AB", "A", "B")]
        babbles = [f"{node} {channels} * {place}" for node in "01" for channels in ("AB", "A", "B")
                   for place in ("s1", "s2", "s*")]
        flipped = ["- A * s1", "- A * s2", "- B * s1"]
        self.assertEqual(self.names(TWO_NODES, 2), [
            *lost, "mute 0 A * s1", "mute 0 A * s*", "mute 0 B * s1", "mute 0 B * s*", "mute 1 A * s2",
            "mute 1 A * s*", *(f"noise {it}" for it in babbles), *(f"forged {it}" for it in babbles),
            *(f"header {it}" for it in flipped), *(f"payload {it}" for it in flipped),
            *(f"trailer {it}" for it in flipped)])

    def test_more_lines_than_a_scenario_can_have(self):
        """A frame forged in 33 slots in 64 cycles is 2,112 lines, and 4,224 on both channels. A scenario has 4,096
        lines, two of which are the first one and `end`."""
        long = TWO_NODES.replace("static_slots = 2", "static_slots = 33").replace("cycle_mt = 50", "cycle_mt = 670")
        selection = only("forged", nodes=frozenset([0]), places=frozenset(["s*"]))
        of_one_channel = ["forged 0 A * s*", "forged 0 B * s*"]
        for others, names, left_out in ((0, of_one_channel, 1), (1982, of_one_channel, 1), (1983, [], 3)):
            found, left = faults_of(long, 64, selection, "mute 1 A 0 s1\n" * others)
            self.assertEqual(([str(it) for it in found], left), (names, LeftOut(long=left_out)))

    def test_both_channels(self):
        """A fault of both channels has the lines of each, and a forged frame the CRC of its channel."""
        lines = {str(it): list(it.lines) for it in faults_of(TWO_NODES, 1)[0]}
        self.assertEqual(lines["lost 0 AB * all"], ["mute 0 AB * s*"])
        self.assertEqual(lines["lost 1 AB * all"], ["mute 1 A * s*"])
        self.assertEqual(lines["noise 1 AB * s2"], ["babble 1 AB * s2 xff"])
        frames = [data_frame(2, 0, bytes.fromhex("a55a"), channel).hex() for channel in "AB"]
        self.assertEqual(lines["forged 0 AB * s2"], [f"babble 0 A 0 s2 x{frames[0]}", f"babble 0 B 0 s2 x{frames[1]}"])

    def test_idle(self):
        """Node 1 of the two sends nothing on B. Node 2 of the three owns no slot and sends nothing before a commit.
        These are listed, and nothing else is idle."""
        idle = [str(it) for it in faults_of(TWO_NODES, 2)[0] if it.is_idle]
        self.assertEqual(idle, ["lost 1 B * all"])
        found, left_out = faults_of(CLUSTER, 2, only("lost", nodes=frozenset([2])))
        self.assertEqual([(str(it), it.is_idle) for it in found],
                         [("lost 2 AB * all", True), ("lost 2 A * all", True), ("lost 2 B * all", True)])
        self.assertEqual(left_out, LeftOut())
        self.assertEqual(list(listed(found))[0], "lost\t2\tAB\t*\tall\tidle\n")
        taken, left_out = faults_of(TWO_NODES, 2, only("lost"), "mute 1 A * s*\n")
        self.assertEqual([str(it) for it in taken if it.node == 1], ["lost 1 B * all"])
        self.assertEqual(left_out, LeftOut(taken=2))

    def test_lines(self):
        """Bit 15 is the lowest one of the frame ID, 40 the first of the payload, 56 the first after a word of it."""
        lines = {str(it): list(it.lines) for it in faults_of(TWO_NODES, 2)[0]}
        self.assertEqual(lines["mute 0 A * s1"], ["mute 0 A * s1"])
        self.assertEqual(lines["lost 1 A * all"], ["mute 1 A * s*"])
        self.assertEqual(lines["noise 1 B * s*"], ["babble 1 B * s* xff"])
        self.assertEqual([lines[f"{it} - A * s2"] for it in ("header", "payload", "trailer")],
                         [["corrupt A * s2 15"], ["corrupt A * s2 40"], ["corrupt A * s2 56"]])
        self.assertEqual([it[:15] for it in lines["forged 0 A * s2"]], ["babble 0 A 0 s2", "babble 0 A 1 s2"])
        self.assertEqual([it.split(" ")[3:5] for it in lines["forged 0 A * s*"]],
                         [["0", "s1"], ["0", "s2"], ["1", "s1"], ["1", "s2"]])

    def test_a_forged_static_frame_has_the_length_of_the_others(self):
        """Two words are the length byte 04, beside the first bit of the header CRC. The payload follows five bytes."""
        cluster = TWO_NODES.replace("static_words = 1", "static_words = 2")
        frame = {str(it): it.lines for it in faults_of(cluster, 2)[0]}["forged 0 A * s2"][1].split(" ")[-1]
        self.assertEqual((frame[:7], frame[11:19], len(frame)), ("x200204", "a55aa55a", 1 + 2 * 12))

    def test_forged_frames_of_a_long_run(self):
        """The cycle count of a frame wraps at 64, and the cycle of a run doesn't."""
        lines = {str(it): it.lines for it in faults_of(TWO_NODES, 66)[0]}["forged 0 A * s2"]
        self.assertEqual(len(lines), 66)
        self.assertEqual([it.split(" ")[3] for it in lines[:5]], ["0", "64", "1", "65", "2"])
        self.assertEqual([lines[it].split(" ")[-1] for it in (1, 3)], [lines[it].split(" ")[-1] for it in (0, 2)])
        lines = {str(it): it.lines for it in faults_of(TWO_NODES, 1024)[0]}["forged 0 A * s2"]
        self.assertEqual([it.split(" ")[3] for it in lines], [f"{count}-{count + 960}/64" for count in range(64)])
        self.assertEqual(forged_babble(0, "A", 3, 64), forged_babble(0, "A", 3, 0))

    def test_narrowed(self):
        self.assertEqual(self.names(TWO_NODES, 2, only("mute", nodes=frozenset([1]))),
                         ["mute 1 A * s2", "mute 1 A * s*"])
        self.assertEqual(self.names(TWO_NODES, 2, only("noise", places=places_of("2"), nodes=frozenset([0]))),
                         ["noise 0 AB * s2", "noise 0 A * s2", "noise 0 B * s2"])
        self.assertEqual(self.names(TWO_NODES, 2, only("header", nodes=frozenset([1]))), ["header - A * s2"])
        found = faults_of(TWO_NODES, 2, only("mute", cycles=cycles_of("1"), places=places_of("s*")))[0]
        self.assertEqual([it.lines for it in found], [("mute 0 A 1 s*",), ("mute 0 B 1 s*",), ("mute 1 A 1 s*",)])

    def test_words(self):
        self.assertEqual(cycles_of("1,3-5").numbers, [1, 3, 4, 5])
        self.assertEqual(places_of("1,3-4,m7-8,s*,all"), {"s1", "s3", "s4", "m7", "m8", "s*", "all"})
        self.assertEqual(Span.of("3-3"), Span(3, 3))
        for word in ("4-3", "1,", "-1", "1-", "x", "12345"):
            with self.assertRaises(ArgumentTypeError, msg=word):
                cycles_of(word)

    def test_what_the_cluster_does_not_have(self):
        """The two nodes have two static slots and no minislots, the three nodes three and four."""
        no_minislots = "it has no minislots"
        for text, nodes, places, wanted in (
                (TWO_NODES, "0,1", "1,2,s*,all", None), (TWO_NODES, "1-3", "1", "node 2: its nodes are 0 to 1"),
                (TWO_NODES, "0", "0", "static slot 0: its static slots are 1 to 2"),
                (TWO_NODES, "0", "2-9", "static slot 3: its static slots are 1 to 2"),
                (TWO_NODES, "0", "m1", f"minislot 1: {no_minislots}"), (CLUSTER, "0-2", "1-3,m1-4,s*,all", None),
                (CLUSTER, "2", "m0", "minislot 0: its minislots are 1 to 4"),
                (CLUSTER, "2", "s*,m5", "minislot 5: its minislots are 1 to 4"), (CLUSTER, "2", "d4-7,m*", None),
                (CLUSTER, "2", "5", "static slot 5: its static slots are 1 to 3, and d5 is a dynamic one"),
                (CLUSTER, "2", "d3", "dynamic slot 3: its dynamic slots are 4 to 7"),
                (CLUSTER, "2", "d8", "dynamic slot 8: its dynamic slots are 4 to 7"),
                (TWO_NODES, "0", "d3", "dynamic slot 3: it has no dynamic slots"),
                (TWO_NODES, "0", "m*", "m*: it has no minislots")):
            selection = Selection(nodes=Directory([], []).numbers_of_nodes([nodes]), places=places_of(places))
            self.assertEqual(selection.missing(cluster_of(text)), wanted, (nodes, places))
        self.assertEqual(Selection().missing(cluster_of(TWO_NODES)), None)

    def test_a_window_takes_one_fault_of_a_kind(self):
        """A window with a fault of the kind is left to the scenario: in one cycle, in one slot, in all."""
        found, left_out = faults_of(TWO_NODES, 3, only("mute", nodes=frozenset([0])), "mute 0 A 1 s1\nmute 0 B * s*\n")
        self.assertEqual([(str(it), it.lines) for it in found], [
            ("mute 0 A * s1", ("mute 0 A 0 s1", "mute 0 A 2 s1")),
            ("mute 0 A * s*", ("mute 0 A 0 s*", "mute 0 A 2 s*", "mute 0 A 1 s2"))])
        self.assertEqual(left_out, LeftOut(taken=2))

    def test_dynamic_segment(self):
        """Of the three nodes node 2 commits to slot 4, and sends at minislot 2 of cycle 1 in the recorded run."""
        plays = Plays([Begun(1, 2, "A", "passed")], [Begun(1, 1, "A", "muted")],
                      {1: {(0, "A"): 4, (1, "A"): 4, (0, "B"): 4, (1, "B"): 4}, 2: {(1, "A"): 5}})
        commit = "commit 2 0 1 0 x7001\n"
        found = faults_of(CLUSTER, 2, only("lost", nodes=frozenset([2])), commit, plays)[0]
        self.assertEqual([(str(it), it.lines) for it in found], [
            ("lost 2 AB * all", ("lost 2 *",)), ("lost 2 A * all", ("mute 2 A * *",)), ("lost 2 B * all", ())])
        found = faults_of(CLUSTER, 2, only("noise", nodes=frozenset([0])), commit, plays)[0]
        dynamic = [(it.channels, it.place) for it in found if it.is_dynamic]
        self.assertEqual(dynamic, [("AB", "m1"), ("AB", "m2"), ("AB", "m*"), ("A", "m1"), ("A", "m2"), ("A", "m*"),
                                   ("B", "m1"), ("B", "m*")])
        found, left_out = faults_of(CLUSTER, 2, only("forged", nodes=frozenset([0])), commit, plays)
        lines = {(it.channels, it.place): it.lines for it in found if it.is_dynamic}
        frames = {(cycle, channel): data_frame(4, cycle, bytes.fromhex("a55a"), channel).hex()
                  for cycle in (0, 1) for channel in "AB"}
        self.assertEqual(lines["A", "m1"], tuple(f"babble 0 A {it} m1 x{frames[it, 'A']}" for it in (0, 1)))
        self.assertEqual(lines["AB", "m1"], tuple(f"babble 0 {channel} {cycle} m1 x{frames[cycle, channel]}"
                                                  for cycle in (0, 1) for channel in "AB"))
        self.assertEqual([it[:15] for it in lines["A", "m2"]], ["babble 0 A 1 m2"])
        self.assertEqual(left_out, LeftOut())

    def test_a_babbling_idiot(self):
        """All minislots are one place of the kind `noise`. It leaves out what a babble of the scenario takes: minislot
        3 in each cycle, or in cycle 1 all of it. A cluster without minislots has no such place."""
        idiot = only("noise", nodes=frozenset([0]), places=places_of("m*"))
        lines = {it.channels: it.lines for it in faults_of(CLUSTER, 2, idiot)[0]}
        self.assertEqual(lines, {it: (f"babble 0 {it} * m* xff",) for it in ("AB", "A", "B")})
        taken = {it.channels: it.lines for it in faults_of(CLUSTER, 2, idiot, "babble 0 A * m3 x00\n")[0]}
        of_a = tuple(f"babble 0 A 0-1 m{it} xff" for it in (1, 2, 4))
        self.assertEqual(taken, {"AB": (*of_a, "babble 0 B * m* xff"), "A": of_a, "B": ("babble 0 B * m* xff",)})
        asked = only("noise", nodes=frozenset([0]), places=places_of("m*"), cycles=cycles_of("0-1"))
        found, left_out = faults_of(CLUSTER, 2, asked, "".join(f"babble 0 A * m{it} x00\n" for it in range(1, 5)))
        self.assertEqual(([it.channels for it in found], left_out), (["AB", "B"], LeftOut(taken=1)))
        self.assertEqual([it.place for it in faults_of(TWO_NODES, 2, only("noise"))[0] if "m" in it.place], [])
        self.assertEqual([it for it in faults_of(CLUSTER, 2, only("forged"))[0] if it.place == "m*"], [])

    def test_dynamic_slots(self):
        """The three nodes have the dynamic slots 4 to 7, and node 2 commits to its buffer for slot 4. A fault in such a
        slot is listed only where it is asked for, and those of its frames only where somebody sends."""
        commit, asked = "commit 2 0 1 0 x7001\n", {"places": places_of("d4-5")}
        found = faults_of(CLUSTER, 2, Selection(**asked), commit)[0]
        names = [str(it) for it in found]
        self.assertEqual([it for it in names if it[0] not in "nf"], [
            "mute 2 A * d4", "header - A * d4", "payload - A * d4", "trailer - A * d4"])
        self.assertEqual([it for it in names if it.startswith("noise 1")],
                         [f"noise 1 {channels} * d{slot}" for channels in ("AB", "A", "B") for slot in (4, 5)])
        lines = {str(it): it.lines for it in found}
        self.assertEqual((lines["mute 2 A * d4"], lines["noise 1 AB * d4"]),
                         (("mute 2 A * d4",), ("babble 1 AB * d4 xff",)))
        # One word: the trailer follows 40 bits of header and 16 of payload.
        self.assertEqual([lines[f"{kind} - A * d4"] for kind in ("header", "payload", "trailer")],
                         [(f"corrupt A * d4 {bit}",) for bit in (15, 40, 56)])
        frames = [data_frame(5, cycle, bytes.fromhex("a55a"), "B").hex() for cycle in (0, 1)]
        self.assertEqual(lines["forged 0 B * d5"], tuple(f"babble 0 B {it} d5 x{frames[it]}" for it in (0, 1)))
        self.assertEqual([it for it in faults_of(CLUSTER, 2, Selection(), commit)[0] if "d" in it.place], [])
        self.assertEqual(all(it.is_dynamic for it in found), True)

    def test_cycles_of_several_parts(self):
        """Each part has a line of its own, and a loss of all too. Parts that share cycles are spelled anew."""
        asked = Selection(frozenset(["mute", "lost"]), frozenset([0]), places_of("s1,all"), cycles_of("0-4/2,7"))
        lines = {str(it): it.lines for it in faults_of(TWO_NODES, 9, asked)[0]}
        self.assertEqual(lines["mute 0 A 0-4/2,7 s1"], ("mute 0 A 0-4/2 s1", "mute 0 A 7 s1"))
        self.assertEqual(lines["lost 0 AB 0-4/2,7 all"], ("mute 0 AB 0-4/2 s*", "mute 0 AB 7 s*"))
        plays = Plays([], [Begun(2, 1, "A", "muted"), Begun(7, 1, "A", "muted")])
        found = faults_of(CLUSTER, 9, only("lost", nodes=frozenset([2]), cycles=cycles_of("0-4/2,7")),
                          "commit 2 0 1 0 x7001\n", plays)[0]
        self.assertEqual(found[0].lines, ("lost 2 0-4/2", "lost 2 7"))
        self.assertEqual([str(cycles_of(it)) for it in ("0-4,3-6", "5,1,5", "0-8/4,4")], ["0-6", "1,5", "0-8/4"])

    def test_no_slot_at_a_minislot(self):
        """If no slot opens, no frame can be forged, and the scenario isn't named as the reason."""
        asked = only("forged", nodes=frozenset([0]), places=places_of("m3"))
        self.assertEqual(faults_of(CLUSTER, 2, asked), ([], LeftOut(unopened=3)))
        found, left_out = faults_of(CLUSTER, 2, asked, "babble 0 A * m3 x00\nbabble 0 B * m3 x00\n")
        self.assertEqual((found, left_out), ([], LeftOut(taken=3)))

    def test_who_is_stopped(self):
        """Of both channels a babble is stopped only where both are guarded, and neither is the node's own."""
        for guard, wanted in (("A", ["noise 0 A * s2", "noise 1 A * s1"]),
                              ("AB", ["noise 0 AB * s2", "noise 0 A * s2", "noise 0 B * s2", "noise 1 AB * s1",
                                      "noise 1 A * s1", "noise 1 B * s1", "noise 1 B * s2"])):
            text = TWO_NODES.replace('guard = "A"', f'guard = "{guard}"')
            cluster = cluster_of(text)
            found = [str(it) for it in faults_of(text, 2, only("noise"))[0] if is_stopped(it, cluster, 2)]
            self.assertEqual(found, wanted)

    def test_frames(self):
        """The frames of docs/formats/frame.md."""
        self.assertEqual(data_frame(2, 0, b"\x0a\x0b", "A").hex(), "200203c1400a0ba32217")
        self.assertEqual(data_frame(2, 0, b"\x0a\x0b", "B").hex(), "200203c1400a0b85a2c6")
        for slot, cycle, payload in ((0, 0, b""), (2048, 0, b""), (1, 64, b""), (1, 0, b"\0"), (1, 0, bytes(256))):
            with self.assertRaises(ValueError):
                data_frame(slot, cycle, payload, "A")
