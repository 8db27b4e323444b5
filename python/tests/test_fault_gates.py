"""Tests of `faults --fail-on` over whole campaigns: what passes a gate, and what doesn't."""
import io
import sys
from unittest.mock import patch

from musmyrtle.faults.command import Progress
from musmyrtle.faults.table import COLUMNS
from tests.shows import NETWORK, Shows

STARVING = NETWORK.replace("words_per_minislot = 5", "words_per_minislot = 2").replace("words = 16", "words = 2")
"""A frame of one word and its four of header and trailer takes three minislots of two. So a frame in slot 3 at minislot
1 leaves slot 4 to minislot 4, above the latest one of the brake, which is 3."""
SCENE = """frscenario 3
commit pedal 0 * position x0001
commit brake 0 * force x1111
commit brake 0 * state x2222
end
"""
CYCLES = 6
AT_MINISLOT = "forged\t{}\t*\tm1\t1\ttx 2\t{}\t6 6 0 0 0\t{}\n"


class Gates(Shows):
    def setUp(self) -> None:
        super().setUp()
        self.files = [self.written("cluster.toml", STARVING), self.written("scenario", SCENE)]

    def faults(self, *words: str) -> tuple[int | str | None, str, str]:
        return self.asked("faults", *self.files, "--cycles", str(CYCLES), *words)


class TestStarvedFrames(Gates):
    def test_both_rows(self) -> None:
        """With a frame forged at minislot 1 of each cycle, slot 4 never begins in time: the last commit is pending, and
        the five before it are overwritten."""
        status, table, told = self.faults("--kinds", "forged", "--slots", "m1", "--nodes", "0")
        self.assertEqual(status, 0)
        rows = [it for it in table.splitlines(True) if "\ttx " in it]
        self.assertEqual(rows, [AT_MINISLOT.format(f"0\t{channels}", *effect, "6 0 5 1 0") for channels in ("AB", "A")
                                for effect in (("pending\t1",), ("unsent\t6",))])
        self.assertIn("\nin 2 runs counted by a worse effect fewer commits were sent (unsent), too\n", told)

    def test_a_frame_that_starves_is_worse(self) -> None:
        """In an earlier table the last frame alone was late, in the form of this version and of earlier ones."""
        words = ["--kinds", "forged", "--slots", "m1", "--nodes", "0"]
        status, table, _ = self.faults(*words)
        late = table.replace("unsent\t6", "unsent\t1").replace("6 0 5 1 0", "6 5 0 1 0")
        without_unsent = "".join(it for it in late.splitlines(True) if "\tunsent\t" not in it)
        for text, count in ((table, 0), (late, 2), (without_unsent, 2)):
            earlier = self.written("earlier", text)
            status, _, told = self.faults(*words, "--against", earlier, "--fail-on", "worse")
            self.assertEqual(status, 3 if count else 0)
            self.assertIn(f"{count or 'no'} things worse than in {earlier}\n", told)
        self.assertIn("  forged 0 AB * m1: node 1 brake tx 2 (state): 6 commits fewer sent\n", told)


class TestBuffers(Gates):
    """By hand: with node 0 silent, buffer 1 of the brake, `position`, never gets a frame, and its buffer 2, `state`, is
    sent in each cycle. With a frame forged at minislot 1 it is the other way round."""
    SILENT = ("--kinds", "lost", "--nodes", "pedal", "--fail-on", "lost")
    FORGED = ("--kinds", "forged", "--slots", "m1", "--nodes", "0", "--fail-on", "unsent")

    def status(self, *words: str) -> tuple[int | str | None, str]:
        """Returns the status, and the line on what counted for it."""
        status, _, told = self.faults(*words)
        return status, told.splitlines()[-1]

    def test_only_named_buffers_count(self) -> None:
        for words, buffers, count in (
                (self.SILENT, "brake.position", 1), (self.SILENT, "1.1", 1), (self.SILENT, "brake.1", 1),
                (self.SILENT, "1.position", 1), (self.SILENT, "brake", 1), (self.SILENT, "brake.unused", 0),
                (self.SILENT, "brake.unused,brake.position", 1), (self.SILENT, "brake.1-1,1.3", 1),
                (self.FORGED, "brake.state", 2), (self.FORGED, "pedal", 0), (self.FORGED, "brake.force", 0),
                (self.FORGED, "pedal.log,brake.state", 2), (self.FORGED, "0,1", 2)):
            with self.subTest(buffers=buffers, words=words):
                costs = "1 cost" if count == 1 else f"{count or 'no'} costs"
                self.assertEqual(self.status(*words, "--buffers", buffers), (
                    3 if count else 0, f"{costs} of --fail-on {words[-1]} at --buffers {buffers}"))

    def test_what_is_worse(self) -> None:
        words = [*self.FORGED[:-1], "worse"]
        earlier = self.written("earlier", "\t".join(COLUMNS) + "\n")
        for buffers, status in (("brake.state", 3), ("brake.force", 0)):
            self.assertEqual(self.status(*words, "--against", earlier, "--buffers", buffers)[0], status)

    def test_a_fifo(self) -> None:
        """The brake's FIFO is for slot 3, in which the pedal sends once. A node alone has its FIFO, a buffer hasn't."""
        self.files[1] = self.written("scenario", SCENE.replace("end\n", "commit pedal 0 0 log x00010002\nend\n"))
        words = ("--kinds", "lost", "--nodes", "pedal", "--fail-on", "lost")
        table = self.faults(*words)[1]
        self.assertIn("lost\t0\tAB\t*\tall\t1\tqueue\tlost\t1\t1 0\t0 0\n", table)
        # Lost are the frames on both channels in buffer 1, and the FIFO's by each fault that has channel A.
        for buffers, count in (("brake", "3 costs"), ("brake.position", "1 cost")):
            self.assertEqual(self.status(*words, "--buffers", buffers), (
                3, f"{count} of --fail-on lost at --buffers {buffers}"))

    def test_names_with_dots(self) -> None:
        """A word is taken apart at any dot. If that names two buffers, the word is refused."""
        network = STARVING.replace('"pedal"', '"brake.position"')
        self.files[0] = self.written("cluster.toml", network)
        self.files[1] = self.written("scenario", SCENE.replace("commit pedal", "commit brake.position"))
        words = ("--kinds", "lost", "--nodes", "0", "--fail-on", "lost,unsent")
        self.assertEqual(self.status(*words, "--buffers", "brake.position.log")[0], 0)
        self.assertEqual(self.status(*words, "--buffers", "brake.position"), (
            2, "musmyrtle faults: brake.position names several buffers or nodes: give numbers, as 0.1"))
        self.assertEqual(self.status(*words, "--buffers", "1.position")[0], 3)

    def test_gates_that_never_close(self) -> None:
        names = "names: force, position, state, unused"
        for words, told in (
                (("--buffers", "brake"),
                 "--buffers wants --fail-on, with some of lost, older, changed, pending, unsent, worse"),
                (("--fail-on", "lost", "--buffers", "brake.state"),
                 "argument --buffers: buffer 2 of node 1 is a transmit buffer, whose costs are pending, unsent, and "
                 "--fail-on lost has none of these"),
                (("--fail-on", "unsent", "--buffers", "1.1"),
                 "argument --buffers: buffer 1 of node 1 is a receive buffer, whose costs are lost, older, changed, "
                 "and --fail-on unsent has none of these"),
                (("--fail-on", "lost", "--buffers", "pedal"),
                 "argument --buffers: node 0 has no buffer that --fail-on lost is for"),
                (("--fail-on", "lost", "--buffers", "brake.wear"),
                 f"brake.wear names no buffer of node 1, whose {names}"),
                (("--fail-on", "lost", "--buffers", "brake.4"),
                 f"brake.4 names no buffer of node 1, whose {names}"),
                (("--fail-on", "lost", "--buffers", "break"),
                 "break names no node and no buffer: expected NODE.BUFFER or NODE, each by its number or name; names: "
                 "pedal, brake"),
                (("--nodes", "break"), "the cluster has 2 nodes, and none is break; names: pedal, brake")):
            with self.subTest(words):
                self.assertEqual(self.status(*words), (2, f"musmyrtle faults: {told}"))


class TestDynamicSlots(Gates):
    def test_faults_of_a_dynamic_slot(self) -> None:
        """In slot 4 the brake sends its buffer `state`, which no node receives. With noise there its own frame
        collides, and the pedal counts an error in each cycle in place of a valid frame."""
        status, table, _ = self.faults("--kinds", "mute,noise", "--slots", "d4", "--nodes", "brake")
        rows = [line for line in table.splitlines() if "\t0\tA\tcounted" in line]
        self.assertEqual((status, rows), (
            0, [f"{fault}\t0\tA\tcounted\t{amount}\t12 0 0 0 0\t{counts}" for fault, amount, counts in (
                ("mute\t1\tA\t*\td4", 6, "6 0 0 0 0"), ("noise\t1\tAB\t*\td4", 12, "6 6 0 0 0"),
                ("noise\t1\tA\t*\td4", 12, "6 6 0 0 0"))]))

    def test_a_disturbed_frame(self) -> None:
        table = self.faults("--kinds", "header,payload,trailer", "--slots", "d4")[1]
        self.assertEqual([it.split("\t")[:5] + it.split("\t")[-1:] for it in table.splitlines() if "\t0\tA\t" in it], [
            [kind, "-", "A", "*", "d4", "6 6 0 0 0"] for kind in ("header", "payload", "trailer")])

    def test_a_babbling_idiot(self) -> None:
        """Noise in all minislots of A: slot 4 opens in time, since a byte takes one minislot, and collides."""
        status, table, _ = self.faults("--kinds", "noise", "--nodes", "pedal", "--list")
        listed = [line.split("\t") for line in table.splitlines()]
        self.assertEqual([it[2] for it in listed if it[4] == "m*"], ["AB", "A", "B"])
        table = self.faults("--kinds", "noise", "--nodes", "pedal", "--slots", "m*")[1]
        self.assertEqual({line.split("\t")[4] for line in table.splitlines()[1:]}, {"m*"})

    def test_cycles_of_several_parts(self) -> None:
        """Lost in cycles 0, 2, 4 and 5 of 6, the last frame is that of cycle 3."""
        table = self.faults("--kinds", "lost", "--nodes", "pedal", "--in-cycle", "0-4/2,5")[1]
        self.assertIn("lost\t0\tAB\t0-4/2,5\tall\t1\trx 1\tolder\t2\t5:A x0001\t3:A x0001\n", table)

    def test_words_that_are_refused(self) -> None:
        for words, told in (
                (("--slots", "d2"), "the cluster has no dynamic slot 2: its dynamic slots are 3 to 12"),
                (("--slots", "4"), "the cluster has no static slot 4: its static slots are 1 to 2, and d4 is a dynamic "
                                   "one")):
            with self.subTest(words):
                self.assertEqual(self.faults(*words)[2].splitlines()[-1], f"musmyrtle faults: {told}")
        for word in ("d*", "x5", "s", "m", "1-", "s5-3", "m4-2", "1/2", "0-4/0"):
            with self.subTest(word):
                status, _, told = self.faults("--slots", word)
                self.assertIn(f"argument --slots: {word!r} is no place: places are static slots as 1 or s3-5, dynamic "
                              "slots as d7, minislots as m4, s*, m* or *, and all", told)
                self.assertEqual(status, 2)


class TestProgress(Gates):
    def test_the_list_on_a_terminal(self) -> None:
        """A terminal gets the number of faults so far, and in the end nothing of that. Anything else gets nothing."""
        self.assertEqual(self.faults("--list")[2], "")
        told = io.StringIO()
        with patch.object(told, "isatty", lambda: True), patch.object(sys, "stderr", told):
            progress = Progress()
            for count in range(1, 4):
                progress.last = 0.0
                progress.listed(count)
            progress.listed(4)
            progress.end()
        self.assertEqual(told.getvalue(), "".join(f"\r\x1b[K{it}" for it in (
            "1 fault listed", "2 faults listed", "3 faults listed", "")))
