"""Tests of fault lines and expectations that meet: kept by their first and last cycle and step, not cycle by cycle.

The expected answers come from docs/formats/scenario.md, by comparing each cycle and each window.
"""
import random
import unittest

from musmyrtle.named_windows import FaultPlace
from musmyrtle.scenario_lines import FaultLine, FaultLines
from musmyrtle.scenario_words import fault_lines_of
from tests.cases import CLUSTER, Cases

CYCLES, SLOTS, LINES = 40, 6, 4000


def slots(place: FaultPlace) -> set[int]:
    """Returns the static slots that a place names."""
    if place.segment == "s" and place.first is not None:
        return set(range(place.first, (place.last or 0) + 1))
    return set(range(1, SLOTS + 1)) if place.segment in "*s" else set()


def share_dynamic(one: FaultPlace, other: FaultPlace) -> bool:
    """Returns whether two places share a window of the dynamic segment.

    A dynamic slot and a minislot count as the same window, since the slot may open there.
    """
    if "s" in (one.segment, other.segment):
        return False
    is_every = one.first is None or other.first is None
    return is_every or one.segment != other.segment or one.first == other.first


def share(one: FaultLine, other: FaultLine) -> bool:
    """Returns whether two lines of a sort name a common cycle, and a common window in it."""
    common = set(one.cycles.within(CYCLES)) & set(other.cycles.within(CYCLES))
    return bool(common) and (bool(slots(one.place) & slots(other.place)) or share_dynamic(one.place, other.place))


def some_line(some: random.Random) -> str:
    """Returns a fault line with cycles and a place of any form."""
    first, number = some.randrange(CYCLES), some.randrange(1, SLOTS + 1)
    last = some.randrange(first, CYCLES)
    cycles = some.choice(("*", f"{first}", f"{first}-{last}", f"{first}-{last}/{some.randrange(1, 9)}"))
    place = some.choice(("*", "s*", "m*", f"s{number}", f"s{number}-{some.randrange(number, SLOTS + 1)}", f"m{number}",
                         f"d{number}"))
    return f"mute 0 A {cycles} {place}"


class Meeting(unittest.TestCase):
    def test_random_lines(self) -> None:
        """Each line is compared with up to eleven before it. The first one that meets it is found."""
        some = random.Random(20)
        for _ in range(LINES // 12):
            before, kept = FaultLines(), list[FaultLine]()
            for line in fault_lines_of(some_line(some) for _ in range(12)):
                met = next((it for it in kept if share(it, line)), None)
                self.assertIs(before.meeting(line), met, (line, kept))
                before.add(line)
                kept.append(line)

    def test_cycles_that_never_meet(self) -> None:
        """Odd and even cycles, and steps of 6 and 4 from bases of another parity."""
        for one, other in (("0-1022/2", "1-1023/2"), ("0-1023/6", "3-1023/4"), ("0-9", "10-1023"), ("5", "0-1020/10")):
            before = FaultLines()
            first, second = fault_lines_of((f"lost 0 {one}", f"lost 0 {other}"))[::2]
            before.add(first)
            self.assertIsNone(before.meeting(second), (one, other))

    def test_cycles_that_meet_once(self) -> None:
        """0, 6, 12 .. 1020 and 1020, 1021 .. meet in 1020 alone."""
        before = FaultLines()
        first, second = fault_lines_of(("mute 0 A 0-1020/6 s1-3", "mute 0 A 1019-1023 s3"))
        before.add(first)
        self.assertIs(before.meeting(second), first)


class Expecting(Cases):
    def unlike(self, *lines: str) -> list[str]:
        """Returns the headlines about lines that contradict each other, in a run of 20 cycles."""
        found, _ = self.look(CLUSTER, "".join(f"{it}\n" for it in ("frscenario 3", *lines, "end")), 20)
        return [it.headline for it in found.warnings if "different contents" in it.headline]

    def test_the_first_line_for_a_cycle(self) -> None:
        """The third line meets the first one in cycle 4, and the fourth meets the third, which is kept, in 13."""
        self.assertEqual(self.unlike("expect-none 1 0-4 1", "expect 1 5-9 1 x0a0b", "expect 1 4-19/3 1 x0c0d",
                                     "expect-none 1 13-14 1", "expect-none 0 4 1"),
                         ["lines 2 and 4 expect different contents in cycle 4",
                          "lines 4 and 5 expect different contents in cycle 13"])

    def test_cycles_after_the_run(self) -> None:
        self.assertEqual(self.unlike("expect-none 1 0-1023 1", "expect 1 19-30/11 1 x0a0b"),
                         ["lines 2 and 3 expect different contents in cycle 19"])
        self.assertEqual(self.unlike("expect-none 1 0-1023/2 1", "expect 1 19-30/11 1 x0a0b"), [])
