"""The static segment: frames of one sender share slots by base and repetition, in the least number of slots.

All repetitions are powers of two, so a frame takes 1, 1/2, .. 1/64 of a slot on a channel. Frames of one sender, the
greatest parts first, fill each slot without a gap. So the least number of slots follows from sums alone, and only the
choice of a channel for frames on either has to be weighed between senders.
"""
from collections import defaultdict
from collections.abc import Iterable
from dataclasses import dataclass, field

from musmyrtle.cluster import Cycles
from musmyrtle.design.frames import Frame
from musmyrtle.design.network import EITHER

WHOLE = 64
"""The cycles of a slot on a channel."""
KEY_SLOT = "key-slot"


@dataclass(frozen=True)
class Item:
    """A frame with its repetition."""

    frame: Frame
    repetition: int

    @property
    def size(self) -> int:
        """Returns the cycles of the 64 that it takes."""
        return WHOLE // self.repetition


@dataclass(frozen=True)
class Placed:
    """A frame with its slot, channels and cycles."""

    frame: Frame
    slot: int
    channels: str
    cycles: Cycles


@dataclass
class Load:
    """The frames of one sender by their channels."""

    sender: int
    is_sync: bool
    items: dict[str, list[Item]] = field(default_factory=lambda: defaultdict(list))

    def total(self, channels: str) -> int:
        return sum(it.size for it in self.items[channels])

    @property
    def pairs(self) -> int:
        """Returns the slots that the sender needs on both channels at once."""
        return max(-(-self.total("AB") // WHOLE), 1 if self.is_sync else 0)

    @property
    def rest(self) -> int:
        """Returns the cycles that are left in those slots, on each of the channels."""
        return self.pairs * WHOLE - self.total("AB")

    def least(self, channel: str) -> int:
        """Returns the further slots that the frames for one channel alone need there."""
        return max(0, -(-(self.total(channel) - self.rest) // WHOLE))

    def rooms(self, singles: dict[str, int]) -> dict[str, int]:
        """Returns the cycles that so many further slots leave for frames on either channel."""
        return {it: self.rest + WHOLE * singles[it] - self.total(it) for it in "AB"}

    def divided(self, singles: dict[str, int]) -> dict[str, list[Item]] | None:
        """Returns which frames on either channel go to which, or None if they don't fit."""
        rooms, found = self.rooms(singles), {"A": list[Item](), "B": list[Item]()}
        for it in sorted(self.items[EITHER], key=lambda item: (item.repetition, item.frame.name)):
            channel = next((channel for channel in "AB" if rooms[channel] >= it.size), None)
            if channel is None:
                return None
            rooms[channel] -= it.size
            found[channel].append(it)
        return found

    def options(self) -> list[tuple[int, int]]:
        """Returns the numbers of further slots on A and on B of which none can be lowered."""
        low, found = {it: self.least(it) for it in "AB"}, list[tuple[int, int]]()
        b = low["B"] + -(-self.total(EITHER) // WHOLE) + 1
        for a in range(low["A"], low["A"] + -(-self.total(EITHER) // WHOLE) + 2):
            while b > low["B"] and self.divided({"A": a, "B": b - 1}) is not None:
                b -= 1
            if self.divided({"A": a, "B": b}) is not None and (not found or found[-1][1] > b):
                found.append((a, b))
        return found


def loads_of(items: Iterable[Item], sync: Iterable[int]) -> dict[int, Load]:
    """Returns the load of each sender, also of sync nodes without frames."""
    syncing = set(sync)
    found = {node: Load(node, True) for node in sorted(syncing)}
    for it in items:
        sender = it.frame.sender
        found.setdefault(sender, Load(sender, sender in syncing)).items[it.frame.channels].append(it)
    return dict(sorted(found.items()))


def singles_of(loads: dict[int, Load]) -> dict[int, dict[str, int]]:
    """Returns the further slots of each sender on A and B, by which the slots are least.

    Slots on A and on B have common numbers, so the greater of the two sums counts.
    """
    best: dict[int, tuple[int, tuple[tuple[int, int], ...]]] = {0: (0, ())}
    for load in loads.values():
        further: dict[int, tuple[int, tuple[tuple[int, int], ...]]] = {}
        for a, (b, chosen) in best.items():
            for more_a, more_b in load.options():
                it = (b + more_b, (*chosen, (more_a, more_b)))
                if a + more_a not in further or further[a + more_a][0] > it[0]:
                    further[a + more_a] = it
        best = further
    a, (b, chosen) = min(best.items(), key=lambda it: (max(it[0], it[1][0]), it[0] + it[1][0], it[0]))
    return {sender: {"A": more_a, "B": more_b} for sender, (more_a, more_b) in zip(loads, chosen)}


def least_slots(items: Iterable[Item], sync: Iterable[int]) -> int:
    """Returns the least number of static slots for frames without fixed slots."""
    loads = loads_of(items, sync)
    singles = singles_of(loads)
    sums = [sum(it[channel] for it in singles.values()) for channel in "AB"]
    return sum(it.pairs for it in loads.values()) + max(sums)


def bases(repetition: int) -> list[int]:
    """Returns the bases of a repetition in an order that leaves the rest of a slot in one piece."""
    bits = repetition.bit_length() - 1
    return [int(format(it, f"0{bits}b")[::-1], 2) if bits else 0 for it in range(repetition)]


class NoSlot(Exception):
    """A fixed slot can't be had. The message has the reason."""

    def __init__(self, frame: Frame, reason: str) -> None:
        super().__init__(reason)
        self.frame = frame


class Slots:
    """The static slots of each channel: owners and cycles that are taken."""

    def __init__(self) -> None:
        self.owners: dict[tuple[int, str], int] = {}
        self.used: dict[tuple[int, str], int] = defaultdict(int)
        self.placed: list[Placed] = []

    def own(self, slot: int, channels: str, sender: int) -> None:
        for channel in channels:
            self.owners[slot, channel] = sender

    def is_free(self, slot: int, channels: str) -> bool:
        """Returns whether no node has the slot on any of the channels."""
        return all((slot, it) not in self.owners for it in channels)

    def new(self, sender: int, channels: str) -> int:
        """Takes the first free slot for a sender, and returns it."""
        slot = 1
        while not self.is_free(slot, channels):
            slot += 1
        self.own(slot, channels, sender)
        return slot

    def of(self, sender: int, channels: str) -> list[int]:
        """Returns the slots that a sender has on all of the channels."""
        slots = sorted({slot for (slot, _), owner in self.owners.items() if owner == sender})
        return [it for it in slots if all(self.owners.get((it, channel)) == sender for channel in channels)]

    def cycles_in(self, slot: int, channels: str, repetition: int) -> Cycles | None:
        """Returns the first free cycles of a repetition in a slot."""
        taken = 0
        for channel in channels:
            taken |= self.used[slot, channel]
        choices = (Cycles(base, repetition) for base in bases(repetition))
        return next((it for it in choices if not it.bits & taken), None)

    def put(self, frame: Frame, slot: int, channels: str, cycles: Cycles) -> None:
        for channel in channels:
            self.used[slot, channel] |= cycles.bits
        self.placed.append(Placed(frame, slot, channels, cycles))

    def room(self, it: Item, channels: str) -> tuple[int, str, Cycles] | None:
        """Returns the slot of its sender, channels and cycles in which a frame has room, the fullest slot first."""
        found = []
        for order, these in enumerate(("A", "B") if channels == EITHER else (channels,)):
            for slot in self.of(it.frame.sender, these):
                cycles = self.cycles_in(slot, these, it.repetition)
                if cycles is not None:
                    free = WHOLE - max(self.used[slot, channel].bit_count() for channel in these)
                    found.append((free, order, slot, these, cycles))
        return min(found, key=lambda it: it[:3])[2:] if found else None

    def fix(self, it: Item) -> None:
        """Puts a frame where its file fixes it. Raises `NoSlot` if another frame or node is there."""
        frame, slot = it.frame, it.frame.slot or 1
        choices = ("A", "B") if frame.channels == EITHER else (frame.channels,)
        reason = ""
        for channels in choices:
            owner = next((self.owners[slot, channel] for channel in channels
                          if self.owners.get((slot, channel), frame.sender) != frame.sender), None)
            cycles = self.fixed_cycles(it, slot, channels)
            if owner is None and cycles is not None:
                self.own(slot, channels, frame.sender)
                self.put(frame, slot, channels, cycles)
                return
            reason = "another node has the slot" if owner is not None else "its cycles there are taken"
        raise NoSlot(frame, f"slot {slot} is fixed for {frame.name}, and {reason}")

    def fixed_cycles(self, it: Item, slot: int, channels: str) -> Cycles | None:
        if it.frame.base is None:
            return self.cycles_in(slot, channels, it.repetition)
        cycles = Cycles(it.frame.base, it.repetition)
        return None if any(cycles.bits & self.used[slot, channel] for channel in channels) else cycles


def packed(items: list[Item], sync: Iterable[int], slots: Slots | None = None) -> Slots:
    """Returns the slots of all frames. Without fixed ones their number is `least_slots`. Raises `NoSlot`."""
    made = Slots() if slots is None else slots
    for it in sorted((it for it in items if it.frame.slot is not None), key=lambda it: it.frame.base is None):
        made.fix(it)
    syncing = [it for it in sync if not made.of(it, "AB")]
    free = [it for it in sorted(items, key=by_size) if it.frame.slot is None and not fill(made, it)]
    loads = loads_of(free, syncing)
    singles = singles_of(loads)
    for load in loads.values():
        for _ in range(load.pairs):
            made.new(load.sender, "AB")
        place(made, load.items["AB"], "AB")
    for load in loads.values():
        # The cycles that pairs leave are those of the sums.
        divided = load.divided(singles[load.sender]) or {}
        for channel in "AB":
            for _ in range(singles[load.sender][channel]):
                made.new(load.sender, channel)
            place(made, [*load.items[channel], *divided.get(channel, [])], channel)
    return made


def by_size(it: Item) -> tuple[bool, bool, int, str]:
    """Returns the place of a frame among those that are put into slots: both channels, one channel, then either."""
    return it.frame.channels != "AB", it.frame.channels == EITHER, it.repetition, it.frame.name


def fill(slots: Slots, it: Item) -> bool:
    """Puts a frame into a slot that its sender has for a fixed frame, and returns whether there is room."""
    found = slots.room(it, it.frame.channels)
    if found is not None:
        slots.put(it.frame, *found)
    return found is not None


def place(slots: Slots, items: Iterable[Item], channels: str) -> None:
    """Puts frames into the slots of their sender, the greatest first."""
    for it in sorted(items, key=lambda item: (item.repetition, item.frame.name)):
        found = slots.room(it, channels)
        if found is None:
            slots.new(it.frame.sender, channels)
            found = slots.room(it, channels)
        assert found is not None
        slots.put(it.frame, *found)
