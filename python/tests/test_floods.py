"""Lines of the programs that are alike: more than ten are one line, with their number and the first three."""
import json
import unittest

from musmyrtle.floods import condensed
from musmyrtle.missed import miss_of
from tests.shows import NETWORK, Shows

EXPECTED = "".join(f"expect brake {cycle} position x{cycle:04x}\n" for cycle in range(1, 61))
LATE = "".join(f"commit pedal 0 {cycle} position x0102\n" for cycle in range(100, 140))
IDLE = "".join(f"corrupt B {cycle} m9 7\n" for cycle in range(30))
SCENE = f"frscenario 3\n{EXPECTED}{LATE}{IDLE}end\n"
IDLE_LINES = "30 lines struck nothing: lines 102, 103, 104 and 27 more\n"
NOTE = "40 lines name no cycle of the run: lines 62, 63, 64 and 37 more\n"
MISSES = "60 expectations were missed: " + "; ".join(
    f"line {line}: brake (1) position (1) at the end of cycle {line - 1}: expected x{line - 1:04x}, found nothing"
    for line in (2, 3, 4)) + "; and 57 more\n"


class Texts(unittest.TestCase):
    def test_few(self) -> None:
        lines = [f"line {number} names no cycle of the run" for number in range(3, 13)]
        others = ["another line"] * 20
        self.assertEqual(list(condensed([*lines[:1], *others, *lines[1:]])), [*lines, *others])

    def test_many(self) -> None:
        for what, told in (("names no cycle of the run", "name no cycle of the run"),
                           ("struck nothing", "struck nothing"),
                           ("is not judged in a run without history", "are not judged in a run without history"),
                           ("is of a later version", "with `is of a later version`")):
            lines = [f"line {number} {what}" for number in range(2, 24, 2)]
            self.assertEqual(list(condensed(lines)), [f"11 lines {told}: lines 2, 4, 6 and 8 more"])

    def test_the_text_of_a_miss(self) -> None:
        for what in ("expected x0102, found nothing", "expected nothing, found x01 (and in 1 other cycle)",
                     "expected x, found no receive buffer (and in 5 other cycles)"):
            text = f"line 3: node 1 buffer 2 at the end of cycle 4: {what}"
            self.assertEqual(str(miss_of(text)), text)


class Commands(Shows):
    def words(self) -> list[str]:
        return [self.written("cluster.toml", NETWORK), self.written("scenario", SCENE), "--cycles", "70"]

    def test_run(self) -> None:
        """The table of the run has a row for each."""
        status, output, error = self.asked("run", *self.words(), "--json")
        self.assertEqual((status, error), (3, NOTE))
        kinds = [json.loads(it)["kind"] for it in output.splitlines()]
        self.assertEqual((kinds.count("missed"), kinds.count("idle")), (60, 30))

    def test_other_commands(self) -> None:
        for command in ("log", "commits", "reads", "page"):
            self.assertEqual(self.asked(command, *self.words())[::2], (3, NOTE + IDLE_LINES + MISSES))

    def test_faults(self) -> None:
        status, _, error = self.asked("faults", *self.words(), "--kinds", "mute", "--slots", "1")
        first = f"musmyrtle faults: the run without a fault misses {MISSES.replace(' were missed', '')}"
        self.assertEqual((status, error.partition("kind ")[0]), (3, first + NOTE + IDLE_LINES))

    def test_lint(self) -> None:
        status, output, error = self.asked("lint", *self.words())
        self.assertEqual((status, error), (0, ""))
        heads = [line for line in output.splitlines() if "]" in line]
        self.assertEqual(sum("[missed-expectation]" in line for line in heads), 4)
        self.assertEqual(sum("[idle-fault]" in line for line in heads), 4)
        self.assertIn("and 57 more warnings [missed-expectation]", heads)
        self.assertIn("and 27 more warnings [idle-fault]", heads)


if __name__ == "__main__":
    unittest.main()
