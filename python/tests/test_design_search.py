"""The search of `design`: its static slots and dynamic orders are those of searches through all possibilities."""
import random
import time
import unittest
from dataclasses import fields

from musmyrtle.cluster import Parameters
from musmyrtle.design.frames import Frame
from musmyrtle.design.network import Network, NodeWish
from musmyrtle.design.packing import bases, least_slots, packed
from musmyrtle.design.parameters import Setting
from musmyrtle.design.scheduling import Schedule, Scheduler, Wishes
from musmyrtle.texts import read_text
from tests.designing import Segment, Urgent, Want, items_of, least_by_trial

CHANNELS = ("A", "B", "AB", "either", "either")


class Plain(Parameters):
    """Parameters in which a frame fills as many minislots as it has words."""

    def minislots_of(self, words: int) -> int:
        return words


class StaticSlots(unittest.TestCase):
    def test_counts_by_hand(self) -> None:
        cases: tuple[tuple[list[Want], list[int], int], ...] = (
            ([], [], 0), ([(0, "A", 1)], [], 1), ([(0, "A", 2), (0, "A", 2)], [], 1),
            ([(0, "A", 2), (1, "A", 2)], [], 2), ([(0, "A", 1), (1, "B", 1)], [], 1),
            ([(0, "AB", 2), (0, "A", 2), (0, "B", 2)], [], 1), ([(0, "AB", 4), (0, "either", 1)], [], 2),
            ([(0, "either", 1), (1, "either", 1), (2, "either", 1)], [], 2), ([], [0, 1], 2))
        for wants, sync, count in cases:
            with self.subTest(wants=wants, sync=sync):
                self.assertEqual(least_slots(items_of(wants), sync), count)

    def test_bases_leave_the_rest_in_one_piece(self) -> None:
        self.assertEqual([bases(it) for it in (1, 2, 4, 8)], [[0], [0, 1], [0, 2, 1, 3], [0, 4, 2, 6, 1, 5, 3, 7]])

    def test_random_frames_have_the_least_number_of_slots(self) -> None:
        numbers = random.Random(7)
        for _ in range(120):
            senders = numbers.randint(1, 3)
            wants: list[Want] = [(numbers.randrange(senders), numbers.choice(CHANNELS), numbers.choice((1, 2, 2, 4, 8)))
                                 for _ in range(numbers.randint(1, 7))]
            sync = [it for it in range(senders) if numbers.random() < 0.4]
            with self.subTest(wants=wants, sync=sync):
                count, slots = least_by_trial(wants, sync), packed(items_of(wants), sync)
                self.assertEqual(least_slots(items_of(wants), sync), count)
                self.assertEqual(max((slot for slot, _ in slots.owners), default=0), count)
                self.assert_sound(slots.placed, slots.owners, len(wants))

    def assert_sound(self, placed: list, owners: dict, count: int) -> None:
        taken: set[tuple[int, str, int]] = set()
        self.assertEqual(len(placed), count)
        for it in placed:
            for channel in it.channels:
                self.assertEqual(owners[it.slot, channel], it.frame.sender)
                for cycle in range(it.cycles.base, 64, it.cycles.repetition):
                    self.assertNotIn((it.slot, channel, cycle), taken)
                    taken.add((it.slot, channel, cycle))


class DynamicSlots(unittest.TestCase):
    def is_found(self, minislots: int, idle: int, cycle: int, frames: list[Urgent]) -> bool:
        """Returns whether the package finds a schedule."""
        values = {"static_slots": 2, "minislots": minislots, "static_words": 0, "static_mt": 4, "minislot_mt": 5,
                  "symbol_mt": 0, "nit_mt": cycle - 8 - 5 * minislots, "cycle_mt": cycle, "idle": idle,
                  "words_per_minislot": 1}
        parameters = Plain(*(values[it.name] for it in fields(Parameters)))
        setting = Setting(cycle, 0, 4, 5, 0, 1, idle, 1, (2, 2), (minislots, minislots))
        nodes = [NodeWish(f"n{it}") for it in range(1 + max(node for node, _, _ in frames))]
        network = Network(read_text("", b""), nodes=nodes)
        scheduler = Scheduler(network, setting, Wishes(until=time.monotonic() + 10))
        scheduler.made.parameters = parameters
        periods = [min(2 * cycle, max(cycle, deadline)) for _, _, deadline in frames]
        scheduler.place_dynamic([
            Frame(f"m{number}", node, (), 2 * filled, periods[number], deadline, False, "A", "event")
            for number, (node, filled, deadline) in enumerate(frames)])
        made: Schedule = scheduler.made
        return not made.misses and made.found is not None and not made.found.cost

    def test_random_frames_are_placed_if_any_schedule_exists(self) -> None:
        numbers, possible = random.Random(3), 0
        for _ in range(60):
            minislots, idle = numbers.randint(4, 9), numbers.randint(0, 1)
            cycle = 5 * minislots + 40
            frames = [(numbers.randrange(2), numbers.randint(1, 4), numbers.randint(1, 2) * cycle +
                       5 * numbers.randint(0, minislots)) for _ in range(numbers.randint(2, 3))]
            with self.subTest(minislots=minislots, idle=idle, frames=frames):
                expected = Segment(minislots, idle, cycle, frames).is_possible()
                possible += expected
                self.assertEqual(self.is_found(minislots, idle, cycle, frames), expected)
        self.assertTrue(10 < possible < 50)
