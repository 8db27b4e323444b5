"""A schedule of a network for one choice of parameters: both segments, and what can't be had."""
import time
from collections.abc import Sequence
from dataclasses import dataclass, field, replace
from fractions import Fraction
from math import ceil

from musmyrtle.cluster import LAST_SLOT, MOST_LINES, PARAMETERS, Parameters
from musmyrtle.design.frames import DYNAMIC_ROOM, Frame, frames_of, least_frames
from musmyrtle.design.keeping import NO_LIMIT, Kept
from musmyrtle.design.network import Network
from musmyrtle.design.packing import Item, NoSlot, Placed, Slots, least_slots, packed
from musmyrtle.design.parameters import Setting
from musmyrtle.design.searching import ROUNDS, Copy, Found, Search, Tell, copies_of
from musmyrtle.findings import counted, joined
from musmyrtle.texts import FILE_LIMIT

MOST_CYCLE, MOST_CYCLES_TRIED = PARAMETERS["cycle_mt"][1], 50
MOST_KEY_SLOTS = 3
"""The sync nodes that are chosen where the file names none: with three the start tolerates the loss of one."""


@dataclass
class Miss:
    """A deadline or a need that isn't met: the bottleneck with its numbers, and the change that helps."""

    name: str
    reason: str
    change: str = ""
    is_fatal: bool = False
    """True if there is no cluster file at all."""


@dataclass
class Wishes:
    """The wishes that the words of the command have: reserves, the seed, and the end of the search."""

    reserved_slots: int = 0
    reserved_minislots: int = 0
    seed: int = 1
    until: float = field(default_factory=lambda: time.monotonic() + 60)
    tell: Tell = lambda text: None


@dataclass
class Schedule:
    """Parameters, places of all frames, notes and misses."""

    setting: Setting
    parameters: Parameters | None = None
    frames: list[Frame] = field(default_factory=list)
    sync: list[int] = field(default_factory=list)
    slots: Slots = field(default_factory=Slots)
    found: Found | None = None
    notes: list[str] = field(default_factory=list)
    misses: list[Miss] = field(default_factory=list)
    latest: dict[int, int] = field(default_factory=dict)
    """The latest minislot of each node with dynamic frames."""

    @property
    def dynamic(self) -> list[Placed]:
        """Returns the places of the dynamic frames, by channel and slot."""
        if self.found is None or self.parameters is None:
            return []
        first = self.parameters.static_slots + 1
        return [Placed(it.frame, first + place, channel, it.cycles) for channel, lane in self.found.lanes.items()
                for place, group in lane.slots.items() for it in group]

    @property
    def is_possible(self) -> bool:
        """Returns whether there is a cluster file that can be judged."""
        return not any(it.is_fatal for it in self.misses)

    def miss_length(self, length: int) -> None:
        """Notes that the cluster file would be too long."""
        self.misses.append(Miss("cluster file", f"it would have {length} bytes, and has at most {FILE_LIMIT}",
                                "fewer signals", True))


class Scheduler:
    """Makes the schedule of a network."""

    def __init__(self, network: Network, setting: Setting, wishes: Wishes, kept: Kept | None = None) -> None:
        """KEPT is the cluster to which the messages of the network are added, if there is one."""
        self.network, self.setting, self.wishes, self.kept = network, setting, wishes, kept
        self.made = Schedule(setting)

    def schedule(self) -> Schedule:
        """Returns the schedule."""
        setting, made = self.setting, self.made
        room = 2 * setting.static_words or 1
        placed = [] if self.kept is None else self.kept.placed
        held = [it.frame for it in placed]
        new = frames_of(self.network.messages, setting.cycle_mt, room, [it.name for it in held])
        made.frames = [*held, *new]
        self.check_sizes(new)
        if not made.is_possible:
            return made
        items = [self.item(it) for it in new if it.is_static]
        made.sync = self.sync_nodes(items)
        self.place_static(items)
        if made.is_possible:
            self.place_dynamic([it for it in new if not it.is_static], [it for it in placed if not it.frame.is_static])
        return made

    def miss(self, name: str, reason: str, change: str = "", is_fatal: bool = False) -> None:
        self.made.misses.append(Miss(name, reason, change, is_fatal))

    # ---- what no schedule can have

    def check_sizes(self, frames: Sequence[Frame]) -> None:
        """Notes frames that are too long, and nodes with more buffers than a cluster file has."""
        words, nodes = self.setting.static_words, [] if self.kept is None else self.kept.cluster.nodes
        for it in frames:
            if it.is_static and it.words > words:
                self.miss(it.name, f"it has {it.words} words, and a static frame has {words}",
                          f"static_words of at least {it.words}", True)
        for number, node in enumerate(self.network.nodes):
            held = [it.transmits for it in nodes[number].buffers] if number < len(nodes) else []
            sent = sum(held) + sum(buffers_of(it) for it in frames if it.sender == number)
            received = len(held) - sum(held) + sum(buffers_of(it) for it in frames if number in it.receivers)
            if sent + received > MOST_LINES:
                self.miss(node.name, f"it would have {sent + received} buffers, {sent} to send and {received} to "
                          f"receive, and a node of a cluster file has at most {MOST_LINES}",
                          "signals with `bits`, which share frames, or fewer receivers", True)

    # ---- the static segment

    def item(self, it: Frame) -> Item:
        """Returns a static frame with the greatest repetition that its period and deadline allow."""
        setting = self.setting
        found = next(it.repetitions(setting.cycle_mt, setting.static_mt), None)
        if found is None:
            needed = setting.cycle_mt + setting.static_mt
            if it.period < setting.cycle_mt:
                self.miss(it.name, f"its period is {it.period} macroticks, and a slot comes once in a cycle of "
                          f"{setting.cycle_mt}", f"cycle_mt of at most {it.period}")
            elif it.deadline is not None and it.deadline < needed:
                self.miss(it.name, f"its deadline is {it.deadline} macroticks, and the worst case of a static slot is "
                          f"a cycle and the slot, {setting.cycle_mt} + {setting.static_mt} = {needed}",
                          f"a deadline of at least {needed} macroticks, or cycle_mt of at most "
                          f"{it.deadline - setting.static_mt}")
            else:
                self.miss(it.name, f"its fixed repetition {it.repetition} comes too rarely for its period of "
                          f"{it.period} macroticks and its deadline", "a lower repetition")
        return Item(it, found or it.repetition or 1)

    def sync_nodes(self, items: Sequence[Item]) -> list[int]:
        """Returns the sync nodes: those of the file, or the first ones that have a slot on both channels anyway."""
        named = [number for number, it in enumerate(self.network.nodes) if it.is_sync]
        if named or self.kept is not None:
            return named
        on_both = [it.frame.sender for it in items if it.frame.channels == "AB"]
        sending = [it.frame.sender for it in items]
        order = list(dict.fromkeys([*sorted(on_both), *sorted(sending), *range(len(self.network.nodes))]))
        chosen = order[:min(MOST_KEY_SLOTS, max(2, len(set(on_both))))]
        self.made.notes.append("sync and startup frames come from " + ", ".join(
            self.network.nodes[it].name for it in sorted(chosen)) + ", since the network file names no sync node")
        return sorted(chosen)

    def place_static(self, items: list[Item]) -> None:
        """Places the static frames, and chooses the numbers of slots and minislots."""
        setting, made = self.setting, self.made
        try:
            made.slots = packed(items, made.sync, None if self.kept is None else self.kept.slots())
        except NoSlot as error:
            self.miss(error.frame.name, str(error), "another fixed slot, or none", True)
            return
        used = max((slot for slot, _ in made.slots.owners), default=0)
        if self.kept is None and all(it.frame.slot is None for it in items):
            least = least_slots(items, made.sync)
            made.notes.append(f"the frames need {least} static slots, and no packing of them has fewer")
        self.note_frames()
        for number, node in enumerate(self.network.nodes):
            own = len({slot for (slot, _), owner in made.slots.owners.items() if owner == number})
            if own > MOST_LINES:
                self.miss(node.name, f"it needs {own} static slots, and a node of a cluster file has at most "
                          f"{MOST_LINES}", "longer periods, or signals with `bits`, which share frames", True)
        wanted = max(2, used) + self.wishes.reserved_slots * len(self.network.nodes)
        made.parameters = setting.parameters(wanted)
        if made.parameters is None:
            self.no_room(wanted)

    def note_frames(self) -> None:
        """Notes how many frames the signals have, and the bound of it."""
        shared = [it for it in self.made.frames if it.members and it.members[0].bits]
        if shared:
            room = 2 * self.setting.static_words or 1
            bound = least_frames(self.network.messages, room)
            signals = sum(len(it.members) for it in shared)
            lengths = [text for text, is_static in ((f"static frames of {counted(room, 'byte')}", True),
                                                    (f"dynamic frames of at most {DYNAMIC_ROOM} bytes", False))
                       if any(it.is_static == is_static for it in shared)]
            self.made.notes.append(f"{counted(signals, 'signal')} {'has' if signals == 1 else 'have'} "
                                   f"{counted(len(shared), 'frame')}, and no packing into {joined(lengths)} has fewer "
                                   f"than {bound}")

    def no_room(self, wanted: int) -> None:
        """Notes that the static segment doesn't fit, with the least cycle for which it does."""
        setting = self.setting
        most = setting.most_slots()
        if most >= setting.static_slots[1]:
            what = "kept cluster file" if self.kept is not None else "network file"
            self.miss("static segment", f"it needs {wanted} slots, and the {what} has {most}",
                      f"static_slots of at least {wanted}", True)
            return
        needed = wanted * setting.static_mt + setting.minislots[0] * setting.minislot_mt
        least = self.least_cycle()
        change = "longer periods" if least is None else f"cycle_mt of at least {least}"
        self.miss("static segment", f"it needs {wanted} slots of {setting.static_mt} macroticks, which with "
                  f"{setting.minislots[0]} minislots are {needed}, and the cycle has room for {setting.room}, so for "
                  f"{most} slots", change, True)

    def least_cycle(self) -> int | None:
        """Returns the least cycle up to twice as long in which the static segment has room, or None.

        A longer cycle can need more slots, since a frame then has fewer cycles in its period. So each one is tried,
        from the shortest on, in the steps of a static slot.
        """
        setting = self.setting
        step = max(setting.static_mt, setting.cycle_mt // MOST_CYCLES_TRIED)
        for cycle in range(setting.cycle_mt + step, min(MOST_CYCLE, 2 * setting.cycle_mt) + 1, step):
            further = Scheduler(self.network, replace(setting, cycle_mt=cycle), self.wishes, self.kept)
            if further.has_static_room():
                return cycle
        return None

    def has_static_room(self) -> bool:
        """Returns whether the static segment has room in the cycle, and its frames meet their deadlines."""
        frames = frames_of(self.network.messages, self.setting.cycle_mt, 2 * self.setting.static_words or 1, ())
        items = [self.item(it) for it in frames if it.is_static]
        if self.made.misses or any(it.frame.slot is not None for it in items):
            return False
        wanted = max(2, least_slots(items, self.sync_nodes(items)))
        wanted += self.wishes.reserved_slots * len(self.network.nodes)
        return self.setting.parameters(wanted) is not None

    # ---- the dynamic segment

    def place_dynamic(self, frames: Sequence[Frame], placed: Sequence[Placed] = ()) -> None:
        """Searches for an order of the dynamic frames. PLACED ones are kept where they are."""
        parameters, wishes, nodes = self.made.parameters, self.wishes, len(self.network.nodes)
        everything = [*frames, *(it.frame for it in placed)]
        if parameters is None or not everything:
            return
        for sender in sorted({it.sender for it in everything}):
            longest = max(parameters.minislots_of(it.words) for it in everything if it.sender == sender)
            self.made.latest[sender] = self.latest_of(sender, parameters.minislots - longest - parameters.idle + 1)
        copies = [copy for it in frames for copy in self.copies(it, parameters)]
        copies += [self.kept_copy(it, parameters) for it in placed]
        if not self.made.is_possible:
            return
        rounds = 0 if self.is_overloaded(copies, parameters) else ROUNDS
        search = Search(copies, wishes.reserved_minislots * nodes, wishes.seed, wishes.until, wishes.tell)
        self.made.found = search.found(rounds)
        self.made.notes += self.made.found.moves
        if self.made.found.is_exact and self.made.found.cost:
            self.made.notes.append("all channels, cycles and orders of the dynamic frames were tried: with these "
                                   "parameters none of them sends each frame in time")
        if wishes.reserved_minislots:
            self.note_reserve(self.made.found)
        if self.made.found.is_cut:
            self.made.notes.append("the search ended at --seconds, so another run may find another schedule")
        places = sum(len(lane.slots) for lane in self.made.found.lanes.values())
        if parameters.static_slots + places > LAST_SLOT:
            self.miss("dynamic segment", f"it needs {places} slots after {parameters.static_slots}, and slot "
                      f"{LAST_SLOT} is the last", "fewer messages", True)

    def is_overloaded(self, copies: Sequence[Copy], parameters: Parameters) -> bool:
        """Returns whether the frames need more minislots than there are, which is then noted.

        In a cycle in which frames are all guaranteed, all of them can be sent. Each one needs such a cycle as often as
        its deadline has cycles. So no order and no cycles help against a sum that is too great.
        """
        needed, room = {"A": Fraction(0), "B": Fraction(0), "AB": Fraction(0)}, parameters.minislots + parameters.idle
        for it in copies:
            deadline = it.frame.period if it.frame.deadline is None else it.frame.deadline
            if it.frame.is_kept and not it.frame.members:
                continue
            cycles = max(1, (deadline - it.filled * parameters.minislot_mt) // parameters.cycle_mt)
            needed[it.channels] += Fraction(it.filled + parameters.idle, cycles)
        for channel, count in (("A", needed["A"]), ("B", needed["B"]), ("both channels", sum(needed.values()))):
            channels = 2 if channel == "both channels" else 1
            if count > channels * room:
                least = ceil(Fraction(count) / channels) - parameters.idle
                slots = max([self.setting.static_slots[0], *(slot for slot, _ in self.made.slots.owners)])
                has_room = least * parameters.minislot_mt <= self.setting.room - slots * parameters.static_mt
                change = f"at least {least} minislots in a cycle of this length, " if has_room else ""
                self.miss("dynamic segment", f"by their deadlines its frames need {ceil(count)} minislots of each "
                          f"cycle on {channel}, with idle ones, and there are {channels * parameters.minislots}",
                          f"{change}longer deadlines, or shorter frames")
                return True
        return False

    def note_reserve(self, found: Found) -> None:
        """Notes the frames that would be late if the reserved minislots were taken, which no program judges."""
        late = {it.frame.name: most for lane in found.lanes.values() for it, most in lane.misses}
        count = self.wishes.reserved_minislots * len(self.network.nodes)
        for name, most in late.items():
            self.miss(name, f"with {count} reserved minislots in each cycle it is {counted(most, 'minislot')} late",
                      f"a deadline that is {counted(most, 'minislot')} longer, or a smaller --reserve")

    def latest_of(self, sender: int, most: int) -> int:
        """Returns the latest minislot of a node: the greatest that is allowed, or less if a kept cluster has less."""
        if self.kept is None or sender >= len(self.kept.cluster.nodes):
            return most
        return min([most, *(it for it in self.kept.cluster.nodes[sender].latest.values() if it)])

    def kept_copy(self, it: Placed, parameters: Parameters) -> Copy:
        """Returns a kept frame, which has one choice. Without a deadline it stays guaranteed if it was."""
        frame, filled = it.frame, parameters.minislots_of(it.frame.words)
        assert self.kept is not None
        slack, latest = NO_LIMIT, self.made.latest[frame.sender] if self.kept.is_guaranteed(it) else NO_LIMIT
        if frame.members:
            spare = (frame.deadline or frame.period) - it.cycles.repetition * parameters.cycle_mt
            slack = spare // parameters.minislot_mt - filled
        return Copy(frame, it.channels, filled, filled + parameters.idle - 1, latest,
                    ((it.cycles.repetition, slack),), it.slot - parameters.static_slots - 1)

    def copies(self, it: Frame, parameters: Parameters) -> list[Copy]:
        """Returns the copies of a frame, one for each channel on which it has to be sent."""
        filled, each = parameters.minislots_of(it.words), parameters.minislot_mt
        latest = self.made.latest[it.sender]
        if it.words == 0:
            self.miss(it.name, "it has no bytes", "at least one byte")
        if latest < 1:
            self.miss(it.name, f"the longest dynamic frame of its sender fills {filled} minislots, and there are "
                      f"{parameters.minislots}", "more minislots, or a shorter frame", True)
            return []
        deadline = it.period if it.deadline is None else it.deadline
        slacks = tuple((repetition, (deadline - repetition * parameters.cycle_mt) // each - filled)
                       for repetition in replace(it, deadline=deadline).repetitions(parameters.cycle_mt, filled * each))
        if not slacks:
            least = parameters.cycle_mt + filled * each
            self.miss(it.name, f"its deadline is {deadline} macroticks, its period {it.period}, and the worst case of "
                      f"the first dynamic slot is a cycle and its frame, {parameters.cycle_mt} + {filled * each} = "
                      f"{least}", f"a deadline of at least {least} macroticks, or a shorter cycle")
            slacks = ((it.repetition or 1, 0),)
        slot = None if it.slot is None else it.slot - parameters.static_slots - 1
        if slot is not None and slot < 0:
            self.miss(it.name, f"slot {it.slot} is fixed for it, and the dynamic segment begins with slot "
                      f"{parameters.static_slots + 1}", "another fixed slot, or `static_slots` as a number", True)
        return [Copy(it, channels, filled, filled + parameters.idle - 1, latest, slacks, slot)
                for channels in copies_of(it)]


def buffers_of(it: Frame) -> int:
    """Returns the buffers that a node needs for a frame: a dynamic one on both channels has two."""
    return 1 if it.is_static else len(copies_of(it))


def cycles_left(slots: Slots, slot: int, channel: str) -> int:
    """Returns the cycles of the 64 in which no frame has a slot on a channel."""
    return 64 - slots.used[slot, channel].bit_count()
