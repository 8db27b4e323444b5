"""The text of a scenario that a program makes: each usual way to write it makes a file that the bench accepts."""
import copy
import io
import os
import pickle
import re
import subprocess
import sys
import unittest
from collections.abc import Callable
from contextlib import redirect_stdout
from pathlib import Path
from tempfile import TemporaryDirectory

from musmyrtle import Scenario, World
from musmyrtle.program import usual_program

TOP = Path(__file__).resolve().parents[2]
THREE_NODES = TOP / "examples/three-nodes/cluster.toml"
PROGRAM = os.environ.get("FR_BENCH") or usual_program() or "fr_bench"
IDLE = "line 3 struck nothing\n"
"""Node 2 of the three owns no slot, so a mute of its static slots stops nothing."""
WANTED = "frscenario 3\ncommit 0 0 * 0 x0007\nmute 2 AB * s*\nend\n"


def printed(value: object, end: str = "\n") -> str:
    with redirect_stdout(io.StringIO()) as output:
        print(value, end=end)
    return output.getvalue()


def written(text: str) -> str:
    file = io.StringIO()
    file.write(text)
    return file.getvalue()


class TestText(unittest.TestCase):
    def setUp(self) -> None:
        folder = TemporaryDirectory()
        self.addCleanup(folder.cleanup)
        self.file = Path(folder.name) / "scenario"
        self.scenario = Scenario(THREE_NODES, cycles=2)
        self.scenario.task(0).commit(0, b"\0\7")
        self.scenario.mute(2)

    def run_of(self, cluster: Path, cycles: int) -> tuple[int, str]:
        words = [PROGRAM, "run", str(cluster), str(self.file), "--cycles", str(cycles)]
        ran = subprocess.run(words, capture_output=True, text=True, cwd=TOP)
        return ran.returncode, ran.stderr

    def test_the_usual_ways_write_it_whole(self) -> None:
        scenario, file = self.scenario, self.file
        ways: dict[str, Callable[[], object]] = {
            "print the text": lambda: file.write_text(printed(scenario.text())),
            "print it in an f-string": lambda: file.write_text(printed(f"{scenario.text()}")),
            "print the scenario's str": lambda: file.write_text(printed(str(scenario))),
            "print the scenario with no end": lambda: file.write_text(printed(scenario, end="")),
            "write_text": lambda: file.write_text(scenario.text()),
            "write": lambda: file.write_text(written(scenario.text())),
            "write the scenario's str": lambda: file.write_text(written(str(scenario))),
            "write_bytes": lambda: file.write_bytes(scenario.text().encode()),
        }
        for name, write in ways.items():
            with self.subTest(name):
                file.unlink(missing_ok=True)
                write()
                self.assertEqual(file.read_text(), WANTED)
                self.assertEqual(self.run_of(THREE_NODES, 2), (0, IDLE))

    def test_the_text_is_the_file(self) -> None:
        text = self.scenario.text()
        self.assertEqual(text, WANTED)
        for other in (copy.copy(text), pickle.loads(pickle.dumps(text))):
            self.assertEqual((other, printed(other)), (WANTED, WANTED))
        with World(THREE_NODES, 2) as world:
            self.assertEqual(world.play_scenario(text, 2),
                             [("commit 0 0 0 x0007", "committed 0"), ("commit 0 0 0 x0007", "committed 15")])

    def test_the_example_of_the_page(self) -> None:
        page = (TOP / "docs/WORLD.md").read_text()
        found = re.search(r"^```brakes_scenario\.py\n(.*?)^```$", page, re.MULTILINE | re.DOTALL)
        assert found is not None
        example = found[1]
        self.assertIn("Scenario(\"examples/host-programs/brakes.toml\", cycles=16)", example)
        with self.file.open("wb") as output:
            subprocess.run([sys.executable, "-B", "-c", example], stdout=output, check=True, cwd=TOP,
                           env={**os.environ, "PYTHONPATH": str(TOP / "python")})
        self.assertEqual(self.run_of(TOP / "examples/host-programs/brakes.toml", 16), (0, ""))


if __name__ == "__main__":
    unittest.main()
