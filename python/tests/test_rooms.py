"""Tests of the warnings of frames that don't fit: into their minislots by bits, and before the end of the segment.

A dynamic frame of 4 words has 4 + 10 * (8 + 2 * 4) + 2 + 2 = 168 bits, and 11 of silence follow.
"""
from musmyrtle.lint.lint import Task, lint
from tests.cases import EXAMPLES, Cases

ROOMS = """[physical]
bit_rate = 10_000_000
macrotick_us = 1

[params]
static_slots = 2
minislots = 10
static_words = 1
static_mt = 20
minislot_mt = 6
symbol_mt = 0
nit_mt = 10
cycle_mt = 110
idle = 1
words_per_minislot = 4

[[node]]
latest_a = 8
latest_b = 8
buffer = [{kind = "event", slot = 3, channels = "A", words = 4}]

[[node]]
buffer = [{kind = "receive", slot = 3, channels = "A"}]
"""
LONG = ('words = 4}]', 'words = 4}, {kind = "event", slot = 3, channels = "B", words = 20}]')


class Minislots(Cases):
    def room(self, minislot: int, idle: int, words: int) -> tuple[str, ...]:
        """Returns the changes for minislots of so many macroticks with so many words, and so many idle ones."""
        return ("minislot_mt = 6", f"minislot_mt = {minislot}",
                "cycle_mt = 110", f"cycle_mt = {50 + 10 * minislot}", "idle = 1", f"idle = {idle}",
                "words_per_minislot = 4", f"words_per_minislot = {words}")

    def test_the_idle_phase_is_no_room_for_a_frame(self) -> None:
        """8 words of 4 a minislot fill 2 minislots, of 60 bits each; with the idle one there would be 180."""
        self.warned("cluster.toml:10:1", ("too short for the frames of 1 buffer",
                                          "frames of 4 words need 168 bits, and have 2 minislots of 60 bits",
                                          "The `idle` ones come after it"), ROOMS)

    def test_a_frame_that_fits(self) -> None:
        """8 words of 3 a minislot fill 3 minislots: 180 bits, which are enough for 168 and for 11 of silence too."""
        for idle in (0, 1):
            self.quiet("too short", self.changed(ROOMS, self.room(6, idle, 3)))

    def test_the_silence_may_be_in_the_idle_phase(self) -> None:
        """One minislot of 170 bits has room for the frame, and for the silence only with an idle one after it."""
        self.quiet("too short", self.changed(ROOMS, self.room(17, 1, 8)))
        self.warned("cluster.toml:10:1", ("need 179 bits with the silence, and have 1 minislot of 170 bits",),
                    self.changed(ROOMS, self.room(17, 0, 8)))


class LatestMinislots(Cases):
    """Frames of 4 words fill 2 minislots, and those of 20 words 6; an idle one follows each."""

    def named(self, *changes: str) -> list[tuple[str, str]]:
        """Returns the places and headlines of the warnings about latest minislots."""
        found, _ = self.look(self.changed(ROOMS, changes))
        return [(str(it.place).rpartition("/")[2], it.headline) for it in found.warnings if it.name == "latest-tx"]

    def test_the_greatest_latest_minislot(self) -> None:
        """10 - (2 + 1) + 1 = 8. The frame begins in minislot 8, and the idle one is minislot 10."""
        self.assertEqual(self.named(), [])
        self.assertEqual(self.named("latest_a = 8", "latest_a = 9"),
                         [("cluster.toml:18:1", "`latest_a` of node 0 is 9, and FlexRay 2.1 Rev A allows 8")])

    def test_the_longest_frame_of_both_channels(self) -> None:
        """10 - (6 + 1) + 1 = 4, also for the short frame of A: the standard has one pLatestTx."""
        self.assertEqual(self.named(*LONG, "latest_b = 8", "latest_b = 4"),
                         [("cluster.toml:18:1", "`latest_a` of node 0 is 8, and FlexRay 2.1 Rev A allows 4")])
        self.warned("cluster.toml:18:1", ("10 - (6 + 1) + 1 = 4", "at most 4", "buffer 1 of node 0, on B"),
                    self.changed(ROOMS, (*LONG, "latest_b = 8", "latest_b = 4")))
        self.assertEqual(self.named(*LONG, "latest_a = 8", "latest_a = 4", "latest_b = 8", "latest_b = 4"), [])

    def test_a_channel_without_dynamic_frames(self) -> None:
        self.assertEqual(self.named("latest_b = 8", "latest_b = 10"), [])

    def test_a_frame_for_which_there_is_no_latest_minislot(self) -> None:
        """A frame of 36 words fills all 10 minislots, so that no idle one can follow."""
        self.assertEqual(self.named("latest_a = 8", "latest_a = 1", "words = 4}", "words = 36}"),
                         [("cluster.toml:18:1", "`latest_a` of node 0 is 1, and FlexRay 2.1 Rev A allows none")])


class Examples(Cases):
    def test_a_guarantee_that_shorter_frames_break(self) -> None:
        """With 11 words a minislot the log fills 3 minislots, not 4.

        Then slot 4 opens at minislot 5, the latest of its node, and the picture moves the alarm to minislot 10.
        """
        cluster = (EXAMPLES / "schedules/shorter-frames.toml").read_text()
        for words, status in (("10", 0), ("11", 1)):
            file = self.written("cluster.toml", cluster.replace("words_per_minislot = 10",
                                                                f"words_per_minislot = {words}"))
            self.assertEqual(self.run_with(file, "--guaranteed", "alarms", "alarm")[0], status)

    def test_no_frame_of_an_example_is_too_long(self) -> None:
        for file in sorted(EXAMPLES.glob("*/*.toml")):
            names = {it.name for it in lint(Task(str(file))).warnings}
            self.assertFalse(names & {"short-slots", "latest-tx"}, file)


class WithoutPhysical(Cases):
    """Frames of a file that doesn't say how long a macrotick is: the longest one, of 6 us, has 60 bits."""

    def noted(self, cluster: str) -> list[str]:
        """Returns the names of the notes."""
        return [it.name for it in self.look(cluster)[0].notes]

    def test_a_note_that_bits_are_not_checked(self) -> None:
        bare = ROOMS[ROOMS.index("[params]"):]
        self.assertEqual((self.noted(ROOMS), self.noted(bare)), ([], ["unchecked-bits"]))
        self.assertEqual(self.noted(bare.replace("[params]", "[params] # lint: allow unchecked-bits")), [])
        self.quiet("too short", bare)

    def test_frames_that_fit_at_no_macrotick(self) -> None:
        """A frame of 1 word has 4 + 10 * 10 + 2 + 11 = 117 bits, and a static slot of 1 macrotick 60 at most.

        8 words fill 2 minislots. If each has one macrotick, both have 120 bits at most, and the frame has 168.
        """
        bare = ROOMS[ROOMS.index("[params]"):].replace("nit_mt = 10", "nit_mt = 98")
        self.warned("cluster.toml:5:1", ("room for 60 bits at most, and its frame needs 117", "Expected at least 2"),
                    bare.replace("static_mt = 20", "static_mt = 1").replace("cycle_mt = 110", "cycle_mt = 160"))
        short = ROOMS[ROOMS.index("[params]"):].replace("minislot_mt = 6", "minislot_mt = 1")
        self.warned("cluster.toml:6:1", ("frames of 4 words need 168 bits, and have 2 minislots of 60 bits",
                                         "then has 60 bits at most"), short.replace("cycle_mt = 110", "cycle_mt = 60"))

    def test_a_file_with_one_of_both_numbers(self) -> None:
        """Minislots of 6 macroticks of 1 us have 60 bits at 10 Mbit/s, and twice as many at twice the rate."""
        self.warned("cluster.toml:9:1", ("need 168 bits, and have 2 minislots of 60 bits", "then has 10 bits at most"),
                    ROOMS.replace("bit_rate = 10_000_000\n", ""))
        self.quiet("too short", ROOMS.replace("macrotick_us = 1\n", ""))
