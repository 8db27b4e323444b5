"""Tests of the costs of a fault to a receive FIFO: its frames are compared one by one, also where no task can pop them.
"""
import unittest

from musmyrtle.faults.campaign import Campaign
from musmyrtle.faults.fifo_costs import fifo_effects
from musmyrtle.faults.children import Children
from musmyrtle.faults.fifos import Fifo, Senders, StoredFrame, Unread, read_fifo, senders_of
from musmyrtle.faults.gates import Gate
from musmyrtle.faults.listing import Selection
from musmyrtle.faults.table import Results, summary, verdict
from musmyrtle.links import links_in
from musmyrtle.selections import cycles_of
from tests.campaigns import PROGRAM, CampaignCases
from tests.two_nodes import PARAMETERS

TWO = 'guard = "none"\n\n' + PARAMETERS + """
[[node]]
own = [{{slot = 1, channels = "{sent}"}}]
buffer = [{{kind = "{kind}", slot = 1, channels = "{sent}"}}]

[[node]]
{host}
queue = {{capacity = {capacity}, first = 1, last = 2, channels = "AB"}}
"""
"""Node 0 sends in slot 1, slot 2 has no owner, and node 1 has a FIFO for both slots."""
SCENE = "frscenario 1\ncommit 0 0 0 0 x0001\ncommit 0 0 1 0 x0002\nend\n"
POPPED = SCENE.replace("end\n", "pop 1 0 1\nend\n")


def two(host: str = "", capacity: int = 4, sent: str = "A", kind: str = "event") -> str:
    return TWO.format(host=host, capacity=capacity, sent=sent, kind=kind)


THREE = 'guard = "none"\n\n' + PARAMETERS + "".join(f"""
[[node]]
own = [{{slot = 1, channels = "{it}"}}]
buffer = [{{kind = "event", slot = 1, channels = "{it}"}}]
""" for it in "AB") + """
[[node]]
queue = {capacity = 4, first = 1, last = 2, channels = "AB"}
"""
"""Node 0 sends in slot 1 on A, node 1 on B, and node 2 has a FIFO for both."""
EQUAL = SCENE.replace("end\n", "commit 1 0 0 0 x0001\ncommit 1 0 1 0 x0002\nend\n")
"""Both nodes send the same payloads in the same cycles."""
FORGED_AT_LAST = "forged 0 A {} s*"
"""Node 0 forges frames in slots 1 and 2. The one in slot 1 collides with its own frame, and the one in slot 2 arrives.
So the FIFO has one frame less and another one more, and the same number as before."""


class TestContent(CampaignCases):
    def queue(self, campaign: Campaign, name: str) -> list[tuple]:
        kind, node, _, cycle, place = name.split(" ")
        selection = Selection(frozenset([kind]), frozenset([int(node)]), frozenset([place]),
                              None if cycle == "*" else cycles_of(cycle))
        return [(it.effect, it.amount, it.without, it.having) for it in self.found(campaign, selection)[name]
                if it.thing == "queue"]

    def test_a_node_without_tasks(self):
        """The node has no task that could pop a frame."""
        found = self.queue(self.campaign(two("tasks = 0"), SCENE, 2), FORGED_AT_LAST.format(1))
        self.assertEqual(found, [("lost", 1, "2 0", "2 0"), ("changed", 1, "2 0", "2 0")])

    def test_one_frame_less_without_tasks(self):
        """The FIFO holds one frame and overwrites the first. Without the second frame that first one is left, so that
        one frame waits as before, and the second one is lost all the same."""
        campaign = self.campaign(two("tasks = 0", capacity=1), SCENE, 2)
        self.assertEqual(self.queue(campaign, "mute 0 A 1 s1"), [("lost", 1, "1 1", "1 0")])

    def test_fewer_host_entries_than_frames(self):
        """The task has room for one host entry, and two frames wait."""
        found = self.queue(self.campaign(two("host_entries = 1"), SCENE, 2), FORGED_AT_LAST.format(1))
        self.assertEqual(found, [("lost", 1, "2 0", "2 0"), ("changed", 1, "2 0", "2 0")])

    def test_256_frames(self):
        """One frame a cycle, 256 of them at the end, and as many host entries: the FIFO can't be seen to be empty."""
        cluster = two(capacity=256, kind="state")
        found = self.queue(self.campaign(cluster, SCENE.replace("commit 0 0 1 0 x0002\n", ""), 256),
                           FORGED_AT_LAST.format(255))
        self.assertEqual(found, [("lost", 1, "256 0", "256 0"), ("changed", 1, "256 0", "256 0")])

    def test_the_other_channel(self):
        """Both frames come on both channels. A frame lost on one channel still comes by the other."""
        campaign = self.campaign(two(sent="AB"), SCENE, 2)
        found = self.found(campaign, Selection(frozenset(["lost"]), frozenset([0])))
        wanted = {"A": ("channel", 2, "4 0", "2 0"), "B": ("channel", 2, "4 0", "2 0"), "AB": ("lost", 2, "4 0", "0 0")}
        for channels, row in wanted.items():
            differences = found[f"lost 0 {channels} * all"]
            queue = [(it.effect, it.amount, it.without, it.having) for it in differences if it.thing == "queue"]
            self.assertEqual((queue, verdict(differences)), ([row], "lost" if channels == "AB" else "harmless"))

    def test_equal_frames_of_two_nodes(self):
        """A frame of node 1 on B that never comes is lost, though node 0 sends the same payload on A."""
        campaign = self.campaign(THREE, EQUAL, 2)
        self.assertEqual(self.queue(campaign, "lost 1 B * all"), [("lost", 2, "4 0", "2 0")])
        self.assertEqual(self.queue(campaign, "mute 0 A 1 s1"), [("lost", 1, "4 0", "3 0")])

    def test_the_other_channel_in_a_full_fifo(self):
        """The FIFO holds one frame: by the end the second one, as it came on B. Without B it is that of A."""
        campaign = self.campaign(two(sent="AB", capacity=1), SCENE, 2)
        self.assertEqual(self.queue(campaign, "lost 0 B * all"), [("channel", 1, "1 3", "1 1")])
        self.assertEqual(self.queue(campaign, "lost 0 A * all"), [("counted", 2, "1 3", "1 1")])

    def test_a_popped_frame(self):
        """The task pops the first frame in cycle 1, so that this one is lost where it never comes."""
        campaign = self.campaign(two(), POPPED, 2)
        self.assertEqual(self.queue(campaign, "mute 0 A 0 s1"), [("lost", 1, "1 0", "1 0")])

    def test_not_comparable(self):
        """If the content of a FIFO can't be read, a fault that may reach it counts as a loss."""
        program = self.folder / "viewer"
        program.write_text(f"#!/bin/sh\n[ \"$1\" = fifo ] && exit 3\nexec '{PROGRAM}' \"$@\"\n")
        program.chmod(0o755)
        campaign = self.campaign(two(), SCENE, 2, str(program))
        faults = campaign.listing(Selection(frozenset(["lost"]), frozenset([0]))).faults()
        done = [(it, campaign.here(it) if it.lines else []) for it in faults]
        row = next(it for it in done[0][1] if it.thing == "queue")
        self.assertEqual((row.effect, row.amount, row.without, row.having.split(":")[0]),
                         ("not comparable", 1, "2 0", "0 0"))
        self.assertIn("status 3", row.having)
        self.assertEqual((row.is_cost, verdict(done[0][1])), (True, "not comparable"))
        self.assertEqual(Gate(frozenset(["lost"])).found(done[0][1]), [row])
        told = "".join(summary(Results(done[:1], campaign.cluster, 2)))
        self.assertIn("all                     1         0               1     0", told)

    def test_counts_that_disagree(self):
        """A FIFO whose trace doesn't have the counts of the outcome isn't compared."""
        campaign = self.campaign(two(), SCENE, 2)
        campaign.reference.fifos[1].waiting.pop()
        found = self.queue(campaign, "mute 0 A 0 s1")
        self.assertEqual(found, [("not comparable", 1, "2 0",
                                  "1 0: its trace has 1 frames waiting and 0 overwritten")])

    def test_a_fifo_that_is_not_emptied(self):
        """The FIFO holds one frame and is sent two. So it overwrites one without any fault, which is reported once."""
        campaign = self.campaign(two(capacity=1), SCENE, 2)
        self.assertEqual(campaign.overwritten(), {1: 1})
        told = "".join(summary(Results([], campaign.cluster, 2, overwritten=campaign.overwritten())))
        wanted = "node 1: FIFO not emptied by its tasks: 1 frame overwritten without any fault\n"
        self.assertEqual(told.count(wanted), 1)


class TestLines(unittest.TestCase):
    def test_fates(self) -> None:
        """The lines of `fr_view fifo` name a frame by its number."""
        fifo = read_fifo(["stored 0 3 2 A ---- x0a0b", "stored 1 3 2 B p--- x0a0b", "overwritten 0 3", "popped 1 4 0",
                          "stored 2 5 9 A --s- x", "waiting 2"])
        self.assertEqual(fifo.overwritten, [StoredFrame(3, 2, "----", "x0a0b", "A")])
        self.assertEqual(fifo.popped, [StoredFrame(3, 2, "p---", "x0a0b", "B")])
        self.assertEqual(fifo.waiting, [StoredFrame(5, 9, "--s-", "x", "A")])

    def test_other_lines(self) -> None:
        for line in ("", "stored", "stored 0 3 2 A ----", "stored 0 x 2 A ---- x0a0b", "waiting 0", "waiting", "held 0",
                     "popped x"):
            with self.assertRaises(Unread) as raised:
                read_fifo([line])
            self.assertEqual(str(raised.exception), f"`{line}` is no line of fr_view fifo")

    def test_lines_that_do_not_follow(self) -> None:
        """Frames are numbered from 0, and each has one fate, in the words of its line."""
        first = "stored 0 3 2 A ---- x0a0b"
        for line in ("stored 2 3 2 A ---- x0a0b", "waiting -1", "waiting 0 1", "popped 0 4", "overwritten 0"):
            with self.assertRaises(Unread) as raised:
                read_fifo([first, line])
            self.assertEqual(str(raised.exception), f"`{line}` is no line of fr_view fifo")
        with self.assertRaises(Unread):
            read_fifo([first, "waiting 0", "overwritten 0 3"])
        with self.assertRaises(Unread) as raised:
            read_fifo([first])
        self.assertEqual(str(raised.exception), "fr_view fifo doesn't say what became of 1 frame")


LINKS = ("0 0 static 1 A 0 2 1 0 20 2:queue", "0 0 static 1 B 0 2 1 0 20 2:queue", "0 1 static 1 A 1 2 1 0 20 2:queue",
         "1 3 static 1 B 1 2 1 0 20 2:queue", "1 - static 2 A 0 1 1 20 40 -", "1 4 dynamic 7 B 3 4 1 - - 2:queue")
"""Links as `fr_view links` prints them: slot 1 has one buffer for both channels in even cycles, and two in odd ones."""


class TestSenders(unittest.TestCase):
    def test_the_buffers_of_a_slot(self) -> None:
        """Cycle 67 has the cycle count 3. Null frames have no buffer."""
        senders = Senders(links_in(LINKS))
        for cycle, slot, channel, expected in (
                (66, 1, "A", {(0, 0)}), (66, 1, "B", {(0, 0)}), (67, 1, "A", {(0, 1)}), (67, 1, "B", {(1, 3)}),
                (0, 2, "A", set()), (67, 7, "B", {(1, 4)}), (66, 7, "B", set()), (67, 7, "A", set())):
            self.assertEqual(senders.of(StoredFrame(cycle, slot, "----", "x", channel)), expected)

    def test_a_program_that_prints_no_links(self) -> None:
        for program, why in (("false", "false links fails: status 1"), ("/absent", "/absent can't be run: "),
                             ("echo", "echo prints no links of the cluster")):
            with self.assertRaises(Unread) as raised:
                senders_of(program, "cluster.toml", Children())
            self.assertTrue(str(raised.exception).startswith(why))


def frames(text: str) -> list[StoredFrame]:
    """Returns a frame for each word: a letter for the frame and its channel."""
    return [StoredFrame(ord(it[0]), 1, "----", it[0], it[1]) for it in text.split()]


def fifo(popped: str, waiting: str, overwritten: str = "") -> Fifo:
    return Fifo(frames(popped), frames(waiting), frames(overwritten))


class TestEffects(unittest.TestCase):
    def effects(self, before: Fifo, after: Fifo) -> list[tuple[str, int]]:
        return list(fifo_effects(before, after))

    def test_a_fifo_that_is_emptied(self):
        before = fifo("aA", "bA")
        for after, wanted in (
                (fifo("aA", "bA"), []), (fifo("", "aA bA"), [("counted", 1)]), (fifo("aA", ""), [("lost", 1)]),
                (fifo("aA", "cA"), [("lost", 1), ("changed", 1)]), (fifo("aA", "bA cA"), [("changed", 1)]),
                (fifo("bA", "aA"), [("changed", 1)]), (fifo("aA", "bB"), [("channel", 1)]),
                (fifo("aA aB", "bB"), [("channel", 2)]), (fifo("aA", "", "bA"), [("lost", 1)]),
                (fifo("aB", "", ""), [("lost", 1)])):
            self.assertEqual(self.effects(before, after), wanted, after)

    def test_a_fifo_that_overwrites(self):
        """Two frames are overwritten without any fault, one is popped and two wait."""
        before = fifo("aA", "dA eA", "bA cA")
        for after, wanted in (
                # Frames that are overwritten without the fault can't be lost, nor are they others where they are kept.
                (fifo("aA", "dA eA", "cA"), [("counted", 1)]), (fifo("aA", "cA dA eA", "bA"), [("counted", 2)]),
                # A waiting frame is lost where it never came, and a popped one where the host can't get it.
                (fifo("aA", "cA eA", "bA"), [("lost", 1)]), (fifo("aA", "cA eA", "bA dA"), []),
                (fifo("", "dA eA", "aA bA cA"), [("lost", 1)]),
                (fifo("fA", "dA eA", "bA cA"), [("lost", 1), ("changed", 1)]),
                (fifo("aA", "eA fA", "bA cA dA"), [("changed", 1)])):
            self.assertEqual(self.effects(before, after), wanted, after)
