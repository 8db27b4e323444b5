"""Tests of the warning `idle-fault`: its lines are those that the program reports, each with a reason.

In the network of tests.shows a frame of the log takes minislots 1 to 4 of channel A.
"""
import os
import stat

from musmyrtle.lint.command import KNOWN
from tests.cases import CLUSTER, SCENARIO, Cases
from tests.shows import FIRST, NETWORK

COMMIT = f"commit 0 0 0 1 {FIRST}"
STUB = """#!/bin/sh
echo "line 11 struck nothing" >&2
"""


class IdleFaults(Cases):
    def idle(self, *lines: str, cluster: str = NETWORK) -> list[tuple[str, str, str]]:
        """Returns places, headlines and reasons of the warnings about a scenario of version 3, in a run of a cycle."""
        text = "".join(f"{it}\n" for it in ("frscenario 3", *lines, "end"))
        found, _ = self.look(cluster, text, 1)
        self.assertEqual(found.refusals, [])
        return [(str(it.place).rpartition("/")[2], it.headline, it.reason) for it in found.warnings
                if it.name == "idle-fault"]

    def test_a_window_that_does_not_open(self) -> None:
        """On B slot 4 opens at minislot 2. On A the log is sent then: the bus takes no babble without a slot."""
        (place, headline, reason), = self.idle(COMMIT, "babble 1 A 0 m2 x00", "babble 1 B 0 m2 x00")
        self.assertEqual((place, headline), ("scenario:3:14", "the line `babble` has no effect"))
        self.assertEqual(reason, "No slot opens on A at minislot 2 in cycle 0: it is within a frame, or after the last "
                                 "slot.")
        self.assertEqual(self.idle("babble 1 A 0 m2 x00"), [])

    def test_a_slot_that_does_not_open(self) -> None:
        """After the log slot 9 opens at minislot 10, and slot 10 no more."""
        (_, _, reason), = self.idle(COMMIT, "babble 1 A 0 d9 x00", "babble 1 A 0 d10 x00")
        self.assertEqual(reason, "Slot 10 doesn't open on A in cycle 0: the segment ends before it.")

    def test_a_cluster_without_a_dynamic_segment(self) -> None:
        cluster = CLUSTER.replace("minislots = 4", "minislots = 0").replace("90", "70").replace("latest_a = 4\n", "")
        cluster = cluster.replace('  {kind = "event", slot = 4, channels = "A", words = 1},\n', "")
        (_, _, reason), = self.idle("babble 1 A * m* x00", cluster=cluster)
        self.assertEqual(reason, "The cluster has no dynamic segment, so no minislot opens a window.")

    def test_a_line_for_both_channels(self) -> None:
        """It has no effect if it has none on either channel. Node 0 owns slot 1 on both, and node 1 slot 2."""
        self.assertEqual(self.idle("mute 0 AB 0 s1"), [])
        (_, _, reason), = self.idle("mute 1 AB 0 s1")
        self.assertEqual(reason, "Node 1 doesn't own slot 1 on A or B in cycle 0, so it offers nothing that could be "
                                 "lost.")

    def test_other_places(self) -> None:
        (_, _, one), (_, _, other) = self.idle("mute 0 A 0 m*", "mute 0 A 0 s2-2", COMMIT.replace("0 0 0 1", "0 0 5 1"))
        self.assertEqual(one, "Node 0 begins nothing on A at any minislot in cycle 0: no commit is pending for a "
                              "transmit buffer whose slot opens there up to the node's latest minislot.")
        self.assertIn("Node 0 doesn't own slot 2 on A", other)
        silent = NETWORK + '\n[[node]]\nbuffer = [{kind = "receive", slot = 1, channels = "A"}]\n'
        (_, _, one), (_, _, other) = self.idle("lost 2 0", "mute 1 A 0 d4", cluster=silent)
        self.assertEqual(one, "Node 2 sends nothing in cycle 0 that could be lost, neither on A nor on B.")
        self.assertIn("Node 1 begins nothing on A in slot 4 in cycle 0", other)

    def test_the_lines_are_those_of_the_program(self) -> None:
        """A program that names line 11 is believed, and a message of that form isn't passed on."""
        program = self.written("stub", STUB)
        os.chmod(program, stat.S_IRWXU)
        files = self.written("cluster.toml", CLUSTER), self.written("scenario", SCENARIO)
        status, output, told = self.run_with(*files, "--cycles", "4", "--program", program)
        self.assertEqual((status, told), (0, ""))
        self.assertIn("scenario:11:14: warning: the line `babble` has no effect [idle-fault]", output)
        self.assertNotIn("scenario:12:", output)
        self.assertTrue(KNOWN.fullmatch("line 11 struck nothing"))
