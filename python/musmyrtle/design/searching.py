"""The search for cycles, channels and an order of the frames in the dynamic segment, by which none is late."""
import random
import time
from collections.abc import Callable, Iterator, Sequence
from dataclasses import dataclass, field
from itertools import product
from math import prod

from musmyrtle.cluster import Cycles
from musmyrtle.design.frames import Frame, channels_of
from musmyrtle.design.segment import Entry, Lane, compacted, loads_of, measured, merged, ordered

MOST_EXACT = 4000
"""The choices of cycles and channels up to which all are tried."""
MOST_PARTS = 6
"""The frames of a channel up to which all ways to share slots are tried."""
ROUNDS, STEPS, WORK = 12, 2000, 200_000
"""The starts, the moves of each one, and the work of all its moves: fewer moves where there are many frames."""
MOST_MOVES = 12

Choice = tuple[str, int, int]
"""A channel, a repetition and a base."""
Tell = Callable[[str], None]


@dataclass(frozen=True)
class Copy:
    """A frame that is sent on one channel. A frame on both channels has two copies."""

    frame: Frame
    channels: str
    """The channels of which it has one."""
    filled: int
    further: int
    latest: int
    slacks: tuple[tuple[int, int], ...]
    """The repetitions that meet its deadline, each with the minislots by which the slot may open late."""
    slot: int | None = None

    def choices(self) -> list[Choice]:
        """Returns all channels and cycles that it may have."""
        return [(channel, repetition, base) for repetition, _ in self.slacks for channel in self.channels
                for base in ((self.frame.base,) if self.frame.base is not None else range(repetition))]

    def entry(self, choice: Choice) -> Entry:
        """Returns the frame with a channel and cycles."""
        channel, repetition, base = choice
        slack = dict(self.slacks)[repetition]
        return Entry(self.frame, channel, Cycles(base, repetition), self.further, slack, self.latest, self.slot)


@dataclass
class Found:
    """The best orders of both channels, and the moves that led there."""

    lanes: dict[str, Lane]
    moves: list[str] = field(default_factory=list)
    is_exact: bool = False
    """True if all choices were tried, so that misses are no fault of the search."""
    is_cut: bool = False
    """True if the time ended before the search."""

    @property
    def cost(self) -> int:
        return sum(it.cost for it in self.lanes.values())


def copies_of(frame: Frame) -> list[str]:
    """Returns the channels of each copy of a frame."""
    return ["A", "B"] if frame.channels == "AB" else [channels_of(frame)]


class Search:
    """The search over the copies of frames, from one seed."""

    def __init__(self, copies: Sequence[Copy], offset: int, seed: int, until: float, tell: Tell) -> None:
        """OFFSET minislots are kept free before the first slot. UNTIL is the moment at which it ends."""
        self.copies, self.offset, self.until, self.tell = list(copies), offset, until, tell
        self.random = random.Random(seed)
        self.kept: dict[tuple[str, tuple[tuple[int, Choice], ...]], Lane] = {}

    def found(self, rounds: int = ROUNDS) -> Found:
        """Returns the best orders after so many starts at most, in which frames share slots if they can."""
        best = self.searched(rounds)
        if not best.cost:
            best.lanes = {channel: compacted(lane, self.offset) for channel, lane in best.lanes.items()}
        return best

    def searched(self, rounds: int) -> Found:
        """Returns the best orders."""
        state = self.first()
        best = Found(self.lanes(state))
        if best.cost and prod(len(it.choices()) for it in self.copies) <= MOST_EXACT:
            return self.exact(best)
        for number in range(rounds):
            if not best.cost or best.is_cut:
                break
            begin = state if not number else self.first(is_random=True)
            found = self.improved(begin, Found(self.lanes(begin)), number)
            if found.cost < best.cost or found.is_cut:
                best = Found(min(found, best, key=lambda it: it.cost).lanes, found.moves, is_cut=found.is_cut)
        return best

    # ---- one choice

    def lanes(self, state: Sequence[Choice]) -> dict[str, Lane]:
        """Returns the orders of both channels for the choices of all copies."""
        return {channel: self.lane(channel, state) for channel in "AB"}

    def lane(self, channel: str, state: Sequence[Choice]) -> Lane:
        """Returns the order of a channel, of which the last ones are kept."""
        key = channel, tuple((number, it) for number, it in enumerate(state) if it[0] == channel)
        if key not in self.kept:
            if len(self.kept) > 64:
                self.kept.clear()
            self.kept[key] = self.best_lane([self.copies[number].entry(it) for number, it in key[1]])
        return self.kept[key]

    def best_lane(self, entries: Sequence[Entry]) -> Lane:
        """Returns an order of some entries, in which neighbours share slots if that helps."""
        groups = grouped(entries)
        lane = ordered(groups, self.offset)
        if not lane.misses or any(it.slot is not None for it in entries):
            return lane
        shared = measured(merged(lane), self.offset)
        return shared if shared.cost < lane.cost else lane

    def first(self, is_random: bool = False) -> list[Choice]:
        """Returns a first choice: the rarest cycles, spread so that they meet the fewest others.

        IS_RANDOM draws the order in which the frames choose.
        """
        loads = {channel: [0] * 64 for channel in "AB"}
        chosen: dict[int, Choice] = {}
        order = sorted(range(len(self.copies)), key=lambda it: (self.copies[it].slacks[0][0], -self.copies[it].further,
                                                                self.copies[it].frame.name))
        if is_random:
            order.sort(key=lambda it: self.copies[it].slacks[0][0] * self.random.uniform(0.3, 3))
        for number in order:
            copy = self.copies[number]
            rarest = [it for it in copy.choices() if it[1] == copy.slacks[0][0]]

            def load(it: Choice) -> tuple[int, int, int, str]:
                held = loads[it[0]][it[2]::it[1]]
                return max(held), sum(held), it[2], it[0]
            chosen[number] = min(rarest, key=load)
            channel, repetition, base = chosen[number]
            for cycle in range(base, 64, repetition):
                loads[channel][cycle] += copy.further + 1
        return [chosen[it] for it in range(len(self.copies))]

    # ---- all choices

    def exact(self, best: Found) -> Found:
        """Tries all choices, and all ways in which few frames can share slots."""
        best.is_exact = is_exact = self.may_share()
        for state in product(*(it.choices() for it in self.copies)):
            lanes = self.lanes(state)
            if is_exact and any(it.cost for it in lanes.values()):
                lanes = {channel: self.shared(channel, state) or lanes[channel] for channel in "AB"}
            found = Found(lanes, is_exact=is_exact)
            if found.cost < best.cost:
                best = found
            if not best.cost:
                break
            if time.monotonic() > self.until:
                best.is_exact, best.is_cut = False, True
                break
        return best

    def may_share(self) -> bool:
        """Returns whether all ways to share slots are tried, as for few frames without fixed slots."""
        return len(self.copies) <= MOST_PARTS and all(it.slot is None for it in self.copies)

    def shared(self, channel: str, state: Sequence[Choice]) -> Lane | None:
        """Returns the best order over all ways to share slots, or None without entries."""
        entries = [self.copies[number].entry(it) for number, it in enumerate(state) if it[0] == channel]
        lanes = [ordered(groups, self.offset) for groups in partitions(entries)]
        return min(lanes, key=lambda it: it.cost) if entries else None

    # ---- moves

    def improved(self, state: list[Choice], best: Found, number: int) -> Found:
        """Returns the best orders after many small moves, of which each that makes nothing worse is kept.

        NUMBER is that of the start.
        """
        steps = max(50, min(STEPS, WORK // (1 + len(self.copies))))
        current, cost = list(state), best.cost
        best_state = list(state)
        for step in range(steps):
            if not step % 16:
                self.tell(f"start {number + 1} of {ROUNDS}, move {step} of {steps}: {best.cost} minislots are missing")
            if time.monotonic() > self.until:
                best.is_cut = True
                break
            moved = self.moved(current)
            if moved is None:
                break
            place, choice = moved
            before, current[place] = current[place], choice
            lanes = self.lanes(current)
            further = sum(it.cost for it in lanes.values())
            if further > cost and self.random.random() > 0.02:
                current[place] = before
                continue
            cost = further
            if cost < best.cost:
                text = moved_text(self.copies[place].frame.name, before, choice, best.cost, cost)
                best = Found(lanes, [*best.moves, text][-MOST_MOVES:])
                best_state = list(current)
            if not cost:
                break
            if step % 200 == 199:
                current, cost = list(best_state), best.cost
        return best

    def moved(self, state: Sequence[Choice]) -> tuple[int, Choice] | None:
        """Returns a random move: other cycles or another channel for a late frame, or for one that may delay it."""
        lanes = self.lanes(state)
        late = {it.frame.name for lane in lanes.values() for it, _ in lane.misses}
        channels = {it.channel for lane in lanes.values() for it, _ in lane.misses}
        numbers = [it for it in range(len(self.copies)) if len(self.copies[it].choices()) > 1]
        urgent = [it for it in numbers if self.copies[it].frame.name in late]
        near = [it for it in numbers if state[it][0] in channels]
        draw = self.random.random()
        pool = urgent if urgent and draw < 0.3 else self.in_the_way(state, lanes, numbers) if draw < 0.8 else near
        pool = pool or near or numbers
        if not pool:
            return None
        number = self.random.choice(pool)
        copy = self.copies[number]
        repetition = self.random.choice(copy.slacks)[0] if self.random.random() < 0.4 else state[number][1]
        others = [it for it in copy.choices() if it != state[number] and it[1] == repetition] or \
            [it for it in copy.choices() if it != state[number]]
        return number, self.random.choice(others)

    def in_the_way(self, state: Sequence[Choice], lanes: dict[str, Lane], numbers: Sequence[int]) -> list[int]:
        """Returns the frames that are sent in the worst cycle of a late one."""
        late = [it for lane in lanes.values() for it, _ in lane.misses]
        if not late:
            return []
        it = self.random.choice(late)
        loads = loads_of(lanes[it.channel].slots.values(), 64)
        worst = max(range(it.cycles.base, 64, it.cycles.repetition), key=lambda cycle: loads[cycle])
        return [number for number in numbers if state[number][0] == it.channel
                and worst % state[number][1] == state[number][2]]


def grouped(entries: Sequence[Entry]) -> list[list[Entry]]:
    """Returns the entries by slots: those of a fixed slot together, and each other one alone."""
    fixed: dict[int, list[Entry]] = {}
    for it in entries:
        if it.slot is not None:
            fixed.setdefault(it.slot, []).append(it)
    return [*fixed.values(), *([it] for it in entries if it.slot is None)]


def partitions(entries: Sequence[Entry]) -> Iterator[list[list[Entry]]]:
    """Yields all ways to divide entries into slots, in which each cycle has one entry at most."""
    if not entries:
        yield []
        return
    first, rest = entries[0], entries[1:]
    for groups in partitions(rest):
        yield [[first], *groups]
        for number, group in enumerate(groups):
            if all(not first.cycles.meet(it.cycles) for it in group):
                yield [*groups[:number], [first, *group], *groups[number + 1:]]


def moved_text(name: str, before: Choice, after: Choice, cost: int, now: int) -> str:
    """Returns a move in words."""
    def words(it: Choice) -> str:
        return f"channel {it[0]}, {Cycles(it[2], it[1])}"
    return f"{name} to {words(after)}, from {words(before)}: {now} minislots are missing, no longer {cost}"
