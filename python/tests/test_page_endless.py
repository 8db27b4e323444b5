"""The page of an endless run has the facts of the page with history, as far as there are any."""
import importlib
import os
import sys
from errno import ENOSPC
from pathlib import Path
from random import Random
from unittest import mock

from musmyrtle.program import usual_program
from musmyrtle.show.page import GOES_ON
from musmyrtle.show.page_endless import MOST_WINDOWS
from tests.pages import Pages, needs_node, view
from tests.shows import NETWORK, SCENE, THREE

TOP = Path(__file__).resolve().parents[2]
RANDOM_RUNS = 6
COMMON = ("windows", "cycles", "record", "idle", "outcomes", "tables", "parts", "commits", "answers", "sources")
"""The facts that each page has."""
SEEN = ("counts", "stored")
"""Those of a page that shows what each node received."""
NO_PLACE = "musmyrtle.show.page_received.MOST_PLACES"
"""The limit of the places for what nodes received."""
CUT_OFF = """#!{python}
import os, signal, subprocess, sys
words = sys.argv[1:]
if "--endless" not in words:
    sys.exit(subprocess.run([{program!r}, *words]).returncode)
sys.stdout.buffer.write(subprocess.run([{program!r}, *words], capture_output=True).stdout[:{bytes}])
sys.stdout.flush()
os.kill(os.getpid(), signal.SIGKILL)
"""
"""A program that is killed in an endless run after so many bytes."""


@needs_node
class Endless(Pages):
    def compared(self, run: list[str]) -> None:
        """Compares the pages of a run: with history, without it, and without room for what each node received."""
        told = "".join(f"line {it} struck nothing\n" for it in view("record", run[0], run[1], run[3])[1])
        pages = [self.page(*run, name="history.html", told=told),
                 self.page(*run, "--endless", name="endless.html", told=told)]
        with mock.patch(NO_PLACE, 0):
            pages.append(self.page(*run, "--endless", name="long.html", told=told))
        history, endless, long = self.facts(*pages)
        for key in (*COMMON, *SEEN):
            with self.subTest(key):
                self.assertEqual(endless[key], history[key])
        self.assertEqual({key: long[key] for key in COMMON}, {key: history[key] for key in COMMON})
        self.assertEqual((long["counts"], long["stored"]), (None, []))

    def test_the_run_of_two_nodes(self) -> None:
        self.compared(self.run_of())

    def test_three_nodes(self) -> None:
        self.compared(list(THREE))

    def test_random_runs(self) -> None:
        sys.path.insert(0, str(TOP / "fuzz"))
        try:
            lawful = importlib.import_module("hostile_inputs.lawful")
        finally:
            sys.path.pop(0)
        compared = 0
        for number in range(100 * RANDOM_RUNS):
            random = Random(f"endless page {number}")
            made, cycles = lawful.Cluster(random), random.randint(1, 6)
            run = [self.written("cluster.toml", made.text().decode()),
                   self.written("scenario", made.scenario(cycles).decode()), "--cycles", str(cycles)]
            if compared < RANDOM_RUNS and self.asked("page", *run)[0] == 0:
                with self.subTest(number):
                    self.compared(run)
                compared += 1
        self.assertEqual(compared, RANDOM_RUNS)

    def test_what_nodes_received(self) -> None:
        """The first frame of the pedal comes to a receive buffer of the brake. Nothing is missing on the page."""
        page = self.page(*self.run_of(), "--endless")
        first, error, _, buffer = self.walked(page, "press n", "click nodes brake", "click details position")
        self.assertEqual(first["missing"], "")
        self.assertIn("It stored 1 frame in the run.", buffer["details"])
        self.assertIn("pedal (0)conflictconflictbrake (1)conflictconflict", error["details"])

    def test_a_run_with_too_many_places(self) -> None:
        """A commit leads to its receiver, and the receive buffer to the commits that it stored."""
        with mock.patch(NO_PLACE, 0):
            page = self.page(*self.run_of(), "--endless")
        first, _, commit, brake, buffer = self.walked(
            page, "click nodes pedal", "click details cycle 0", "click nodes brake", "click details position")
        self.assertIn("This run is too long to show what each node received", first["missing"])
        self.assertIn("Result: received by brake (1) position (1).", commit["details"])
        self.assertIn("state (2)x2222slot 4 opened at minislot 5, latest is 3, in cycles 0-1", brake["details"])
        self.assertIn("Commits that it stored (1)sent incommit", buffer["details"])
        self.assertIn("pedal (0) position (0), cycle 0: x0001", buffer["details"])

    def test_calls_of_an_endless_run(self) -> None:
        page = self.page(*self.run_of(), "--endless")
        _, brake = self.walked(page, "click nodes brake")
        self.assertIn("10readposition (1)x0001 of cycle count 0, slot 1, channel A", brake["details"])

    def test_all_that_can_be_chosen(self) -> None:
        self.assertEqual(len(self.ran("explored.js", self.page(*self.run_of(), "--endless")).splitlines()), 1)

    def test_a_run_whose_history_has_no_room(self) -> None:
        """A cycle has two static slots and ten minislots, so 4,096 slot entries are 170 cycles."""
        run = [*self.run_of()[:2], "--cycles", "171"]
        status, text, told = self.asked("page", *run)
        self.assertEqual((status, told), (0, f"{GOES_ON}\n"))
        self.assertIn("171 cycles", self.walked(self.written("run.html", text))[0]["subject"])

    def test_more_cycles_than_with_history(self) -> None:
        run = self.run_of()[:2]
        page = self.page(*run, "--cycles", "1100", "--endless")
        first, last = self.walked(page, "press End")
        self.assertIn("1,100 cycles", first["subject"])
        self.assertIn("220,000 µs", last["label"])
        status, _, told = self.asked("page", *run, "--cycles", "1100")
        self.assertEqual(status, 2)
        self.assertIn("a run of 1100 cycles needs --endless", told)

    def test_a_run_that_is_too_long(self) -> None:
        most = MOST_WINDOWS // 12
        status, text, told = self.asked("page", *self.run_of()[:2], "--cycles", str(most + 1), "--endless")
        self.assertEqual((status, text), (2, ""))
        self.assertIn(f"a page has room for {most:,} cycles of this cluster".replace(",", ""), told.replace(",", ""))

    def test_a_run_with_too_many_macroticks(self) -> None:
        """The run of two cycles ends at macrotick 200."""
        for most, status in ((200, 0), (199, 2)):
            with mock.patch("musmyrtle.show.page_endless.MOST_TIME", most):
                found, _, told = self.asked("page", *self.run_of(), "--endless")
            self.assertEqual(found, status, told)
        self.assertEqual(told, "musmyrtle: a page has room for fewer than 2^32 macroticks, and this run takes 200\n")

    def test_refusals(self) -> None:
        for network, scene, refusal in ((NETWORK.replace("idle = 0", "idle = 3"), SCENE, "Params OutOfRange idle"),
                                        (NETWORK, SCENE.replace("commit 0", "commit 9", 1), "BadScript")):
            status, text, told = self.asked("page", *self.run_of(network, scene), "--endless")
            self.assertEqual((status, text), (1, ""))
            self.assertIn(f"musmyrtle: refused {refusal}", told)

    def test_no_world_is_asked(self) -> None:
        with mock.patch.dict(os.environ, MUSMYRTLE_WORLD=str(self.folder / "none")):
            status, _, told = self.asked("page", *self.run_of(), "--endless")
        self.assertEqual((status, told), (0, ""))

    def test_a_program_that_is_killed_within_a_line(self) -> None:
        program = os.environ.get("MUSMYRTLE_VIEW") or usual_program("fr_view") or "fr_view"
        for count in (0, 10, 30, 48):
            with self.subTest(count):
                text = CUT_OFF.format(python=sys.executable, program=program, bytes=count)
                file = self.written("fr_view", text)
                Path(file).chmod(0o755)
                with mock.patch.dict(os.environ, MUSMYRTLE_VIEW=file):
                    status, output, error = self.asked("page", *self.run_of(), "--endless")
                self.assertEqual((status, output), (2, ""))
                self.assertNotIn("Traceback", error)
                self.assertIn("fr_view", error)

    def test_a_full_folder_for_temporary_files(self) -> None:
        full = OSError(ENOSPC, os.strerror(ENOSPC))
        with mock.patch("musmyrtle.show.engines.TemporaryFile", side_effect=full):
            status, output, error = self.asked("page", *self.run_of(), "--endless")
        self.assertEqual((status, output), (2, ""))
        self.assertIn("a temporary file can't be made: No space left on device", error)

    def test_expectations_are_not_judged(self) -> None:
        scene = "frscenario 3\nexpect brake * position x0102\nend\n"
        status, text, told = self.asked("page", *self.run_of(scene=scene), "--endless")
        self.assertEqual(status, 5)
        self.assertIn("judge", told)
        first = self.walked(self.written("run.html", text))[0]
        self.assertIn("The expectations of the scenario aren't judged in an endless run.", first["missing"])
        self.assertEqual(first["missed"], "")
