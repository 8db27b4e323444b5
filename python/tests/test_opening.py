"""Tests of worlds that aren't opened, and of payloads of wrong lengths: each message has the expected form."""
import copy
import errno
import io
import os
import pickle
import subprocess
import sys
import unittest
from contextlib import redirect_stderr, redirect_stdout
from pathlib import Path
from tempfile import TemporaryDirectory
from unittest.mock import patch

from musmyrtle import BadCycles, ClusterRefused, NoRoom, NotStarted, Scenario, SessionOver, World, WrongLength
from musmyrtle.faults import command
from musmyrtle.world import world_program
from tests import fakes
from tests.campaigns import PROGRAM
from tests.cases import CLUSTER, SCENARIO
from tests.two_nodes import SCENE, TWO_NODES

TOP = Path(__file__).resolve().parents[2]
THREE_NODES = TOP / "examples/three-nodes/cluster.toml"
WORLD = world_program.usual_world()
SECOND_OWNER = CLUSTER.replace('own = [{slot = 2, channels = "AB"}]',
                               'own = [{slot = 1, channels = "A"}, {slot = 2, channels = "AB"}]')


class Folders(unittest.TestCase):
    def setUp(self) -> None:
        folder = TemporaryDirectory()
        self.addCleanup(folder.cleanup)
        self.folder = Path(folder.name).resolve()

    def written(self, text: str, name: str = "cluster.toml") -> Path:
        file = self.folder / name
        file.write_text(text)
        return file


class TestNoProgram(Folders):
    """Tests in which the checkout and the path of commands have only the test's programs."""

    def setUp(self) -> None:
        super().setUp()
        kept = {name: value for name, value in os.environ.items() if name != "MUSMYRTLE_WORLD"}
        self.enterContext(patch.object(world_program, "CHECKOUT", self.folder / "checkout"))
        self.enterContext(patch.dict(os.environ, kept | {"PATH": str(self.folder / "path")}, clear=True))

    def missing(self, program: str, why: str, variable: str = "not set", path: str = "not there",
                given: Path | None = None) -> None:
        with self.assertRaises(NotStarted) as raised:
            World(THREE_NODES, 4, program=given)
        checkout = self.folder / "checkout"
        self.assertEqual(str(raised.exception), (
            f"{program} can't be started: {why}. fr_world is looked for in this order: the argument `program`; the "
            f"variable MUSMYRTLE_WORLD ({variable}); {checkout}/fr_world (not there); {checkout}/dist/fr_world (not "
            f"there); fr_world on PATH ({path})"))
        self.assertEqual(raised.exception.filename, program)

    def test_none_anywhere(self) -> None:
        self.missing("fr_world", "No such file or directory")

    def test_an_installed_package(self) -> None:
        """A package outside a checkout has no launcher beside it."""
        with patch.object(world_program, "is_checkout", lambda: False), self.assertRaises(NotStarted) as raised:
            World(THREE_NODES, 4)
        self.assertEqual(str(raised.exception), (
            "fr_world can't be started: No such file or directory. fr_world is looked for in this order: the argument "
            "`program`; the variable MUSMYRTLE_WORLD (not set); fr_world on PATH (not there)"))

    def test_the_argument(self) -> None:
        for program, why in ((self.folder / "none", "No such file or directory"), (self.folder, "Permission denied"),
                             (self.written("", "no_run_bit"), "Permission denied")):
            self.missing(str(program), why, given=program)

    def test_the_variable(self) -> None:
        text = self.written("neither a program nor a script", "text")
        text.chmod(0o755)
        for program, why in ((self.folder / "none", "No such file or directory"), (text, "Exec format error")):
            os.environ["MUSMYRTLE_WORLD"] = str(program)
            self.missing(str(program), why, variable=str(program))

    def test_another_on_the_path_is_named(self) -> None:
        (self.folder / "path").mkdir()
        found = fakes.fake(self.folder / "path", fakes.SLOW)
        self.missing(str(self.folder / "none"), "No such file or directory", path=str(found),
                     given=self.folder / "none")

    def test_it_is_a_session_that_is_over_and_a_failure_of_the_system(self) -> None:
        for kind in (SessionOver, OSError):
            with self.assertRaises(kind):
                World(THREE_NODES, 4)

    def test_a_failure_that_another_place_would_not_mend(self) -> None:
        failure = OSError(errno.EMFILE, "Too many open files")
        failing = patch("musmyrtle.world.child.subprocess.Popen", side_effect=failure)
        with failing, self.assertRaises(NotStarted) as raised:
            World(THREE_NODES, 4, program=self.folder / "w")
        self.assertEqual(str(raised.exception), f"{self.folder}/w can't be started: Too many open files")
        self.assertEqual(raised.exception.errno, errno.EMFILE)

    def test_faults_ends_as_where_a_file_cannot_be_used(self) -> None:
        words = [str(self.written(TWO_NODES)), str(self.written(SCENE, "scenario")), "--cycles", "2", "--program",
                 PROGRAM]
        none = self.folder / "none"
        told = f"musmyrtle faults: {none} can't be run: No such file or directory\n"
        other = ("musmyrtle faults: fr_world can't be run: No such file or directory; name one by --world FILE or by "
                 "the variable MUSMYRTLE_WORLD, or put it on PATH\n")
        cases: tuple[tuple[list[str], str], ...] = (["--world", str(none)], told), ([], other)
        for more, line in cases:
            with redirect_stderr(io.StringIO()) as error, redirect_stdout(io.StringIO()) as output:
                self.assertEqual(command.main(words + more), 2)
            self.assertEqual((error.getvalue(), output.getvalue()), (line, ""))

    def test_faults_has_no_answer_of_a_session_that_cannot_be_started(self) -> None:
        """The program is there for the run without a fault, and gone for those with one."""
        gone = self.written(f"#!/bin/sh\n/bin/rm -- \"$0\"\nexec '{WORLD}' \"$@\"\n", "gone")
        gone.chmod(0o755)
        words = [str(self.written(CLUSTER)), str(self.written(SCENARIO, "scenario")), "--cycles", "4", "--program",
                 PROGRAM, "--world", str(gone), "--kinds", "noise", "--nodes", "0"]
        with redirect_stderr(io.StringIO()), redirect_stdout(io.StringIO()) as output:
            self.assertEqual(command.main(words), 4)
        told = f"killed\t1\t-\tfr_world: {gone} can't be started: No such file or directory"
        rows = [row for row in output.getvalue().splitlines() if "\tm1\t" in row]
        self.assertEqual([told in row for row in rows], [True] * 3)


class TestRefusedCluster(Folders):
    def refused(self, cluster: Path, program: Path | None = None) -> ClusterRefused:
        with self.assertRaises(ClusterRefused) as raised:
            World(cluster, 4, program=program)
        self.assertIsInstance(raised.exception, SessionOver)
        return raised.exception

    def test_the_reason_has_file_line_and_column(self) -> None:
        cluster = self.written(SECOND_OWNER)
        found = self.refused(cluster)
        self.assertEqual(found.refusal, "Overlap 1 A 0")
        told = str(found)
        self.assertTrue(told.startswith(f"refused Overlap 1 A 0: {cluster}:26:8: "), told)
        for words in ("both own slot 1 on A in cycle 0.", "Expected another slot",
                      f"({cluster}:17:8: ownership line 0 of node 0 has slot 1 on AB in every cycle)"):
            self.assertIn(words, told)
        self.assertEqual(len(told.splitlines()), 1)

    def test_a_text_that_is_no_toml(self) -> None:
        cluster = self.written(CLUSTER.replace("tasks = 2", "tasks = two"))
        found = self.refused(cluster)
        self.assertEqual(found.refusal, "Toml")
        self.assertTrue(found.reason.startswith(f"{cluster}:16:9: `two` is no value"), found.reason)

    def test_a_file_that_is_not_there(self) -> None:
        for cluster, said in ((self.folder / "none", "isn't there"), (self.folder, "is a folder")):
            found = self.refused(cluster)
            self.assertEqual(found.refusal, "Read")
            self.assertTrue(found.reason.startswith(f"the cluster file '{cluster}' {said}. Expected"), found)

    def test_the_reason_is_that_of_the_refusal_or_what_the_program_says(self) -> None:
        """A file that changes meanwhile has another fault, or none."""
        says = "print('a launcher builds', file=sys.stderr)\nprint({!r}, file=sys.stderr)\nsys.exit(1)\n"
        for text, refusal, reason in (("refused Overlap 2 A 0", "Overlap 2 A 0", ""),
                                      ("refused Read: no such file: c.toml", "Read", "no such file: c.toml"),
                                      ("refused BadGuard\nguard is C", "BadGuard", "guard is C")):
            found = self.refused(self.written(SECOND_OWNER), program=fakes.fake(self.folder, says.format(text)))
            self.assertEqual((found.refusal, found.reason), (refusal, reason))

    def test_a_pipe_is_not_read_again(self) -> None:
        pipe = self.folder / "pipe"
        os.mkfifo(pipe)
        with subprocess.Popen(["sh", "-c", f"echo 'guard = 1' >'{pipe}'"]):
            found = self.refused(pipe)
        self.assertEqual(str(found), "refused Params Missing static_slots")

    def test_what_says_nothing_of_the_file_is_no_refusal_of_it(self) -> None:
        for text in ("refused Memory", "refused Write", "refused Read", "refused Trace 0", "refused SameFile Record",
                     "usage", "killed"):
            program = fakes.fake(self.folder, f"print({text!r}, file=sys.stderr)\nsys.exit(1)\n")
            with self.assertRaisesRegex(SessionOver, f"^{text}$") as raised:
                World(THREE_NODES, 4, program=program)
            self.assertIs(type(raised.exception), SessionOver)

    def test_the_rules_are_read_only_where_one_is_broken(self) -> None:
        text = (f"import sys; from musmyrtle import World; World({str(THREE_NODES)!r}, 4).close(); "
                "sys.exit(any(f'musmyrtle.{it}' in sys.modules for it in ('lint', 'cluster')))")
        self.assertEqual(subprocess.run([sys.executable, "-B", "-c", text], cwd=TOP / "python").returncode, 0)

    def test_a_number_of_cycles(self) -> None:
        for cycles in (0, -1, 1025):
            with self.assertRaises(BadCycles) as raised:
                World(THREE_NODES, cycles)
            self.assertEqual(str(raised.exception), f"the number of cycles is {cycles}, and has to be 1 to 1024")
            self.assertIsInstance(raised.exception, SessionOver)
            self.assertIsInstance(raised.exception, ValueError)

    def test_no_room_for_the_cycles(self) -> None:
        with World(THREE_NODES, 292):
            pass
        with self.assertRaises(NoRoom) as raised:
            World(THREE_NODES, 293)
        self.assertEqual((raised.exception.node, str(raised.exception)), (
            0, "the journal of node 0 has no room for so many cycles. Expected fewer cycles, more `slot_entries` of "
               "the node, or a world without history"))
        self.assertIsInstance(raised.exception, SessionOver)
        self.assertIsInstance(raised.exception, ValueError)
        with World(THREE_NODES, 293, endless=True):
            pass


class TestLengths(Folders):
    """Buffer 0 of node 0 sends one two-byte word. Buffer 1 of node 1 is a receive buffer, and it has no buffer 63."""

    def setUp(self) -> None:
        super().setUp()
        self.cluster = self.written(CLUSTER)
        self.world = World(self.cluster, 4)
        self.addCleanup(self.world.close)

    def wrong(self, given: int, wanted: int | None, world: World | None = None) -> str:
        with self.assertRaises(WrongLength) as raised:
            (world or self.world).node(0).commit(0, bytes(given))
        self.assertEqual((raised.exception.given, raised.exception.wanted), (given, wanted))
        return str(raised.exception)

    def test_a_refusal_has_the_length_wanted(self) -> None:
        self.assertEqual(self.wrong(4, 2), "Host WrongLength: the payload has 4 bytes, and has to have 2: "
                         "commit 0 0 0 x00000000")
        self.assertEqual(self.wrong(0, 2), "Host WrongLength: the payload has 0 bytes, and has to have 2: "
                         "commit 0 0 0 x")

    def test_each_way_of_a_commit(self) -> None:
        line = "commit 0 0 0 x00000000"
        for call in (lambda: self.world.ask(line),
                     lambda: self.world.play_scenario("frscenario 2\ncommit 0 0 0 0 x00000000\nend\n", 1)):
            with self.assertRaisesRegex(WrongLength, "has to have 2"):
                call()

    def test_a_dynamic_slot_has_words_of_its_own(self) -> None:
        text = CLUSTER.replace('slot = 4, channels = "A", words = 1', 'slot = 4, channels = "A", words = 0')
        self.assertNotEqual(text, CLUSTER)
        with World(self.written(text, "other"), 4) as world:
            with self.assertRaisesRegex(WrongLength, "the payload has 2 bytes, and has to have 0: "):
                world.node(2).commit(0, b"12")

    def test_the_length_is_that_of_the_opening(self) -> None:
        self.cluster.unlink()
        self.wrong(4, 2)

    def test_a_file_that_the_program_alone_could_read(self) -> None:
        pipe = self.folder / "pipe"
        os.mkfifo(pipe)
        with subprocess.Popen(["sh", "-c", f"cat '{self.cluster}' >'{pipe}'"]):
            world = World(pipe, 4)
        self.addCleanup(world.close)
        self.assertIn("the payload has 4 bytes, and has another length", self.wrong(4, None, world))

    def test_what_is_not_sent_has_the_length_wanted_too(self) -> None:
        node = self.world.node(0)
        for given, told in ((1, "the payload has 1 byte, and has to have 2"),
                            (256, "the payload has 256 bytes, and has to have 2")):
            with self.assertRaisesRegex(ValueError, f"^{told}$"):
                node.commit(0, bytes(given))
            with self.assertRaisesRegex(ValueError, f"^{told}$"):
                Scenario(self.cluster, 4).task(0).commit(0, bytes(given))
        for number in (1, 63):
            with self.assertRaisesRegex(ValueError, "^the payload has 1 byte, and has to be two-byte words, 254 bytes"):
                self.world.node(1).commit(number, b"1")
        self.assertEqual(self.world.transcript(), "")


class TestCopies(unittest.TestCase):
    def test_they_can_be_copied_and_pickled(self) -> None:
        for error in (ClusterRefused("Overlap 1 A 0", "c.toml:1:2: two owners"), ClusterRefused("Read"),
                      NotStarted(2, "No such file or directory", "/w"), BadCycles("the number of cycles is 0"),
                      NoRoom(3), WrongLength(("Host", "WrongLength"), "commit 0 0 0 x", 2)):
            for other in (copy.copy(error), pickle.loads(pickle.dumps(error))):
                self.assertEqual((type(other), str(other), vars(other)), (type(error), str(error), vars(error)))


if __name__ == "__main__":
    unittest.main()
