"""Tests of the greatest number of cycles of a run without history, which each explanation of `BadCycles` names.

A node has room for 3,221,225,469 slot entries, two for each static slot and minislot, which are 1,610,612,734 of these.
"""
import unittest

from musmyrtle import BadCycles, World
from tests.shows import Shows

CLUSTER = """[params]
static_slots = {slots}
minislots = {minislots}
static_words = 0
static_mt = 10
minislot_mt = 2
symbol_mt = 0
nit_mt = 10
cycle_mt = {cycle}
idle = 0
words_per_minislot = 1

[[node]]
"""
TOO_MANY = """musmyrtle: refused BadCycles

refused BadCycles: the run has 1574402 cycles, and one of this cluster without history has at most 1574401
    A cycle has 1023 static slots and minislots, and all cycles together have at most 1,610,612,734.
    Expected 1574401 cycles, or fewer.
"""


class MostCycles(Shows):
    def cluster(self, slots: int, minislots: int) -> str:
        """Returns the name of a cluster file."""
        cycle = 10 * slots + 2 * minislots + 10
        return self.written("cluster.toml", CLUSTER.format(slots=slots, minislots=minislots, cycle=cycle))

    def test_signals(self) -> None:
        words = self.cluster(1023, 0), self.written("scenario", "frscenario 3\nend\n"), "--endless"
        self.assertEqual(self.asked("signals", *words, "--cycles", "1574402"), (1, "", TOO_MANY))

    def test_worlds(self) -> None:
        """With 2,000 windows a cycle there are 805,306 cycles, and with 402 the 4,000,000 of each run without history.
        """
        for slots, minislots, most in ((1023, 0, 1_574_401), (1000, 1000, 805_306), (2, 400, 4_000_000)):
            with self.subTest(most):
                cluster = self.cluster(slots, minislots)
                World(cluster, most, endless=True).close()
                with self.assertRaises(BadCycles) as raised:
                    World(cluster, most + 1, endless=True)
                self.assertIn(f"{most}" if most < 4_000_000 else "1 to 4000000", str(raised.exception))

    def test_pages(self) -> None:
        """A page has room for fewer windows."""
        words = self.cluster(1023, 0), self.written("scenario", "frscenario 3\nend\n"), "--endless"
        self.assertEqual(self.asked("page", *words, "--cycles", "1574402"), (
            2, "", "musmyrtle: a page has room for 3910 cycles of this cluster, which are at most 4,000,000 static "
                   "slots and minislots\n"))


if __name__ == "__main__":
    unittest.main()
