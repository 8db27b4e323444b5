"""The single faults that a network can have: each node lost or babbling, each frame disturbed, on one channel or both.

A fault is some fault lines of version 3 beside those of a scenario. If the scenario has a fault of the same kind in a
window already, the window is left out, since it takes one of a kind; a fault that has no window left isn't listed.
"""
from collections.abc import Callable, Collection, Iterable, Iterator, Sequence
from dataclasses import dataclass, field, replace
from functools import cached_property
from typing import Protocol

from musmyrtle.cluster import CYCLES, LAST_SLOT, Buffer, Cluster, Node
from musmyrtle.faults.frames import data_frame
from musmyrtle.faults.played import FORGED_WORD, Begun, Occasion, forged_babble
from musmyrtle.named_windows import EVERY, EVERY_DYNAMIC, EVERY_STATIC, spelled
from musmyrtle.scenario import MOST_LINES, Scenario
from musmyrtle.scenario_lines import LOST, FaultLine, FaultLines
from musmyrtle.scenario_words import fault_lines_of
from musmyrtle.selections import ALL, SelectedCycles, cycles_in

KINDS = {
    "lost": "all that a node sends is lost, in the static and in the dynamic segment",
    "mute": "what a node sends in a static slot of its own is lost, or in all of these (`s*`)",
    "noise": "a node sends a byte that is no frame beside all others",
    "forged": "a node sends a valid data frame of the slot's own ID beside all others",
    "header": "a bit of the header of a static frame is flipped",
    "payload": "a bit of its payload is flipped",
    "trailer": "a bit of its trailer is flipped",
}
CHANNELS = ("AB", "A", "B")
BOTH = "AB"
OF_BOTH = ("lost", "noise", "forged")
"""The kinds of faults that can be on both channels at once."""
OF_FRAMES = ("header", "payload", "trailer")
NOISE = b"\xff"
HEADER_BIT = 15
"""The lowest bit of the frame ID (chapter 4)."""
HEADER_BITS = 40
ALL_STATIC = EVERY_STATIC
PROMISE = "alike of fr_core"
"""The promise by which a babble in a guarded static slot of another node is harmless."""


@dataclass(frozen=True)
class SingleFault:
    """One fault: its kind, node, channel, cycles and place.

    Its node is none for a disturbed frame. Its cycles are `*`, or parts such as `C`, `C-D` and `C-D/STEP`. Its place is
    `sN` for a static slot, `s*` for all of them, `mN` for a minislot, `m*` for all of them, `dN` for a dynamic slot,
    and `all` for all that a node sends.
    """

    kind: str
    node: int | None
    channels: str
    cycles: str
    place: str
    lines: tuple[str, ...] = field(compare=False)
    """Its lines in a scenario: none where the node is idle."""
    is_proved: bool = field(default=False, compare=False)
    """True if it has no run, since it is proved to be harmless."""

    @property
    def words(self) -> tuple[str, ...]:
        return self.kind, "-" if self.node is None else str(self.node), self.channels, self.cycles, self.place

    def __str__(self) -> str:
        return " ".join(self.words)

    @property
    def is_of_both(self) -> bool:
        """Returns whether it is on both channels at once."""
        return self.channels == BOTH

    @property
    def is_idle(self) -> bool:
        """Returns whether its node sends nothing there, so that nothing can be lost and there is no run."""
        return not self.lines

    @property
    def has_run(self) -> bool:
        """Returns whether a run shows what it costs."""
        return not self.is_idle and not self.is_proved

    @property
    def slot(self) -> int | None:
        """Returns the static slot, if it is for one."""
        return int(self.place[1:]) if self.place[0] == "s" and self.place != ALL_STATIC else None

    @property
    def minislot(self) -> int | None:
        """Returns the minislot, if it is for one."""
        return int(self.place[1:]) if self.place[0] == "m" and self.place != EVERY_DYNAMIC else None

    @property
    def is_babble(self) -> bool:
        return self.kind in ("noise", "forged")

    @property
    def is_dynamic(self) -> bool:
        """Returns whether it comes in the dynamic segment too, so that slots may open at other minislots there."""
        return any(it.place.has_dynamic for it in fault_lines_of(self.lines))


@dataclass(frozen=True)
class Selection:
    """The faults that are wanted. None stands for all."""

    kinds: frozenset[str] = frozenset(KINDS)
    nodes: frozenset[int] | None = None
    places: frozenset[str] | None = None
    """Places, in the spelling of those of a fault."""
    cycles: SelectedCycles | None = None
    """The cycles that all faults are in."""
    is_proof_counted: bool = False
    """True if faults that are proved to be harmless have no run."""

    def wants(self, kind: str, nodes: Iterable[int], place: str) -> bool:
        is_node = self.nodes is None or any(it in self.nodes for it in nodes)
        return kind in self.kinds and is_node and (self.places is None or place in self.places)

    def missing(self, cluster: Cluster) -> str | None:
        """Returns the first named node, slot or minislot that doesn't exist, and those that do."""
        parameters = cluster.parameters
        last = parameters.static_slots
        for what, named, known in (
                ("node", self.nodes or (), range(len(cluster.nodes))),
                ("static slot", self.numbers("s"), range(1, last + 1)),
                ("minislot", self.numbers("m"), range(1, parameters.minislots + 1)),
                ("dynamic slot", self.numbers("d"), dynamic_slots(cluster))):
            for number in sorted(named):
                if number not in known:
                    has = f"its {what}s are {known[0]} to {known[-1]}" if known else f"it has no {what}s"
                    is_dynamic = what == "static slot" and number in dynamic_slots(cluster)
                    return f"{what} {number}: {has}" + (f", and d{number} is a dynamic one" if is_dynamic else "")
        if EVERY_DYNAMIC in (self.places or ()) and not parameters.minislots:
            return f"{EVERY_DYNAMIC}: it has no minislots"
        return None

    def numbers(self, front: str) -> list[int]:
        """Returns the numbers of the places that are spelled so, in ascending order."""
        return sorted(int(it[1:]) for it in self.places or () if it[0] == front and it[1:].isdecimal())


def dynamic_slots(cluster: Cluster) -> range:
    """Returns the slots that can open in the dynamic segment, each of which takes a minislot at least."""
    static, minislots = cluster.parameters.static_slots, cluster.parameters.minislots
    return range(static + 1, min(static + minislots, LAST_SLOT) + 1)


class Plays(Protocol):
    """The runs that a list depends on. Each is asked for only where the list needs it."""

    def recorded(self) -> list[Begun]:
        """Returns the transmissions that begin in the dynamic segment in the run without the fault."""

    def lose(self, node: int, channels: str, cycles: Collection[int]) -> list[Begun]:
        """Returns the node's offers in the dynamic segment in a run that loses all of them."""

    def forge(self, node: int, minislot: int, occasions: Collection[Occasion]) -> dict[Occasion, int]:
        """Returns the slots that are open at the minislot where the node forges a frame of the open slot."""


@dataclass
class LeftOut:
    """The number of faults that aren't listed, by reason."""

    taken: int = 0
    """Faults of whose kind the scenario has one in each of their windows."""
    unopened: int = 0
    """Faults at whose minislot no slot opens."""
    long: int = 0
    """Faults of more lines than a scenario can have beside its own ones."""


class Listing:
    """The faults of a cluster beside a scenario, in a fixed order: by kind, node, channels (AB, A, B) and place."""

    def __init__(self, cluster: Cluster, scenario: Scenario, cycles: int, selection: Selection, plays: Plays) -> None:
        self.cluster, self.cycles, self.selection, self.plays = cluster, cycles, selection, plays
        self.taken = FaultLines()
        for line in scenario.faults:
            self.taken.add(line)
        self.has_calls = {(line.value("NODE"), line.value("BUFFER")) for lines in scenario.scripts.values()
                          for line in lines if line.kind == "commit"}
        self.left_out = LeftOut()
        # A host program has no scenario, and a session keeps any number of lines.
        self.room = MOST_LINES + 1 - len(scenario.text) if scenario.text else None
        self.lost: dict[tuple[int, str], list[Begun]] = {}
        self.opened: dict[tuple[int, frozenset[Occasion]], dict[Occasion, int]] = {}
        self.frames: dict[tuple[str, int, str], bytes] = {}

    @property
    def word(self) -> str:
        return str(self.selection.cycles or EVERY)

    @property
    def parts_of_word(self) -> list[str]:
        """Returns the cycles of the faults as lines of a scenario have them."""
        return self.word.split(",")

    def each_cycle(self) -> Sequence[int]:
        """Returns the cycles of the run that the faults are in."""
        return cycles_in(self.word, self.cycles)

    def faults(self, tell: Callable[[int], None] = lambda count: None) -> list[SingleFault]:
        """Returns the list. The number of faults so far is reported to TELL."""
        found: list[SingleFault] = []
        for kind in (it for it in KINDS if it in self.selection.kinds):
            for fault in self.of_frames(kind) if kind in OF_FRAMES else self.of_nodes(kind):
                is_proved = self.selection.is_proof_counted and is_stopped(fault, self.cluster, self.cycles)
                found.append(replace(fault, is_proved=True) if is_proved else fault)
                tell(len(found))
        return found

    def of_nodes(self, kind: str) -> Iterator[SingleFault]:
        made = {"mute": self.mutes, "lost": self.losses, "noise": self.babbles, "forged": self.babbles}[kind]
        for node in self.cluster.nodes:
            for channels in CHANNELS if kind in OF_BOTH else "AB":
                for place, lines in made(kind, node, channels):
                    yield SingleFault(kind, node.number, channels, self.word, place, tuple(lines))

    # ---- what is lost

    def slots_of(self, node: Node, channels: str) -> list[int]:
        """Returns the static slots that the node owns on one of the channels in one of the cycles."""
        return sorted({it.slot for it in node.owned if set(channels) & set(it.channels)
                       and any(it.cycles.admit(cycle % len(CYCLES)) for cycle in self.each_cycle())})

    def mutes(self, kind: str, node: Node, channel: str) -> Iterator[tuple[str, list[str]]]:
        owned = self.slots_of(node, channel)
        dynamic = [slot for slot in self.selection.numbers("d")
                   if any(it.node == node.number for it in self.dynamic_senders(slot, channel))]
        for place in [*(f"s{slot}" for slot in owned), *([ALL_STATIC] if owned else []), *(f"d{it}" for it in dynamic)]:
            if self.selection.wants(kind, [node.number], place):
                yield from self.listed(place, self.spread(f"mute {node.number} {channel}", place))

    def losses(self, kind: str, node: Node, channels: str) -> Iterator[tuple[str, list[str]]]:
        """Yields all that the node sends on the channels.

        If it sends nothing there, it is idle and there is no line.
        """
        if not self.selection.wants(kind, [node.number], ALL):
            return
        static = "".join(it for it in channels if self.slots_of(node, it))
        dynamic = "".join(it for it in channels if self.may_send_dynamic(node, it))
        begun = self.lost_by(node.number, dynamic) if dynamic else []
        if not static and not begun:
            yield ALL, []
        elif not begun:
            yield from self.listed(ALL, self.on(static, f"mute {node.number}", ALL_STATIC))
        else:
            lines = self.on(channels, f"mute {node.number}", EVERY)
            is_whole = lines == [f"mute {node.number} {BOTH} {it} {EVERY}" for it in self.parts_of_word]
            whole = [f"{LOST} {node.number} {it}" for it in self.parts_of_word]
            yield from self.listed(ALL, whole if is_whole else lines)

    def lost_by(self, node: int, channels: str) -> list[Begun]:
        # In the run with the loss later frames move up, so the run without a fault would leave some of them sent.
        if (node, channels) not in self.lost:
            self.lost[node, channels] = self.plays.lose(node, channels, self.each_cycle())
        return self.lost[node, channels]

    def may_send_dynamic(self, node: Node, channel: str) -> bool:
        return any(self.is_dynamic_sender(it, channel) for it in node.buffers)

    def is_dynamic_sender(self, buffer: Buffer, channel: str) -> bool:
        """Returns whether a buffer is for a dynamic slot on the channel, and has a commit."""
        return (buffer.transmits and not self.cluster.is_static(buffer.slot) and buffer.channels == channel
                and (buffer.node, buffer.number) in self.has_calls)

    def dynamic_senders(self, slot: int, channel: str) -> list[Buffer]:
        """Returns the buffers that may send in a dynamic slot in one of the cycles."""
        return [it for it in self.cluster.buffers() if it.slot == slot and self.is_dynamic_sender(it, channel)
                and any(it.cycles.admit(cycle % len(CYCLES)) for cycle in self.each_cycle())]

    def listed(self, place: str, lines: list[str]) -> Iterator[tuple[str, list[str]]]:
        """Yields the fault, or nothing where the scenario has left no window to it, or no room for its lines."""
        if not lines:
            self.left_out.taken += 1
        elif self.room is not None and len(lines) > self.room:
            self.left_out.long += 1
        else:
            yield place, lines

    # ---- babbles

    def babbles(self, kind: str, node: Node, channels: str) -> Iterator[tuple[str, list[str]]]:
        made = self.forged if kind == "forged" else self.noisy
        static = [f"s{slot}" for slot in range(1, self.cluster.parameters.static_slots + 1)]
        for place in [*static, ALL_STATIC]:
            if self.selection.wants(kind, [node.number], place):
                yield from self.listed(place, made(node, channels, place))
        for minislot in self.minislots(channels):
            if self.selection.wants(kind, [node.number], f"m{minislot}"):
                if kind == "forged":
                    yield from self.forged_at(node, channels, minislot)
                else:
                    yield from self.listed(f"m{minislot}", self.noisy(node, channels, f"m{minislot}"))
        # Frames forged at each minislot would be more lines than a scenario can have.
        every = [EVERY_DYNAMIC] if kind == "noise" and self.cluster.parameters.minislots else []
        for place in [*every, *(f"d{slot}" for slot in self.selection.numbers("d"))]:
            if self.selection.wants(kind, [node.number], place):
                yield from self.listed(place, made(node, channels, place))

    def minislots(self, channels: str) -> list[int]:
        """Returns the minislots to disturb.

        These are the first one and those at which something begins in the run without the fault on one of the channels,
        or the requested ones.
        """
        most = self.cluster.parameters.minislots
        if most == 0:
            return []
        if self.selection.places is not None:
            return [it for it in self.selection.numbers("m") if it <= most]
        cycles = self.each_cycle()
        return sorted({1} | {it.minislot for it in self.plays.recorded()
                             if it.channel in channels and it.cycle in cycles and it.fate == "passed"})

    def noisy(self, node: Node, channels: str, place: str) -> list[str]:
        return self.on(channels, f"babble {node.number}", place, NOISE)

    def forged(self, node: Node, channels: str, place: str) -> list[str]:
        """Returns the lines for each channel, slot and cycle count, all of which are in a frame."""
        slots = range(1, self.cluster.parameters.static_slots + 1) if place == ALL_STATIC else [int(place[1:])]
        lines = []
        for channel in channels:
            front = f"babble {node.number} {channel}"
            is_open = worded(front, "0", place, NOISE).sort not in self.taken.sorts
            for count, its in self.cycles_by_count.items():
                words = spelled(its)
                for name in (f"{place[0]}{slot}" for slot in slots):
                    frame = self.frame_of(channel, count, name)
                    # Most nodes have no babble in the scenario, and then each window is free.
                    lines += [f"{front} {it} {name} x{frame.hex()}" for it in words] if is_open \
                        else self.free(front, its, name, frame)
        return lines

    @cached_property
    def cycles_by_count(self) -> dict[int, list[int]]:
        """Returns the cycles of the faults by their cycle counts."""
        found: dict[int, list[int]] = {}
        for cycle in self.each_cycle():
            found.setdefault(cycle % len(CYCLES), []).append(cycle)
        return found

    def frame_of(self, channel: str, count: int, place: str) -> bytes:
        """Returns the frame that is forged in a slot, the same for any node."""
        key = channel, count, place
        if key not in self.frames:
            words = self.cluster.parameters.static_words if place[0] == "s" else 1
            self.frames[key] = data_frame(int(place[1:]), count, FORGED_WORD * words, channel)
        return self.frames[key]

    def forged_at(self, node: Node, channels: str, minislot: int) -> Iterator[tuple[str, list[str]]]:
        """Yields a line for each cycle and channel with an open slot at the minislot in the run with the fault."""
        place = f"m{minislot}"
        free = frozenset((cycle, channel) for cycle in self.each_cycle() for channel in channels
                         if self.free(f"babble {node.number} {channel}", [cycle], place, NOISE))
        if not free:
            self.left_out.taken += 1
            return
        lines = []
        for (cycle, channel), slot in sorted(self.opened_at(node, minislot, free).items()):
            kind, number, _, frame = forged_babble(node.number, channel, slot, cycle).split(" ")
            lines.append(f"{kind} {number} {channel} {cycle} {place} {frame}")
        if lines:
            yield place, lines
        else:
            self.left_out.unopened += 1

    def opened_at(self, node: Node, minislot: int, free: frozenset[Occasion]) -> dict[Occasion, int]:
        """Returns the slots that are open in the run with the fault.

        The dynamic segment isn't guarded and no task acts on what it receives. So the slots are the same whichever node
        forges the frames, and one run gives them for all nodes.
        """
        key = minislot, free
        if key not in self.opened:
            self.opened[key] = self.plays.forge(node.number, minislot, free)
        return self.opened[key]

    # ---- disturbed frames

    def of_frames(self, kind: str) -> Iterator[SingleFault]:
        words = self.cluster.parameters.static_words
        bit = bit_of(kind, words)
        for channel in "AB":
            owners: dict[int, list[int]] = {}
            for node in self.cluster.nodes:
                for slot in self.slots_of(node, channel) if bit is not None else ():
                    owners.setdefault(slot, []).append(node.number)
            for slot, nodes in sorted(owners.items()):
                if self.selection.wants(kind, nodes, f"s{slot}"):
                    for place, lines in self.listed(f"s{slot}", self.spread(f"corrupt {channel}", f"s{slot}", bit)):
                        yield SingleFault(kind, None, channel, self.word, place, tuple(lines))
            for slot in self.selection.numbers("d"):
                yield from self.of_dynamic_frames(kind, slot, channel)

    def of_dynamic_frames(self, kind: str, slot: int, channel: str) -> Iterator[SingleFault]:
        """Yields the fault of the frames in a dynamic slot, if some buffer may send there."""
        senders = self.dynamic_senders(slot, channel)
        if not senders or not self.selection.wants(kind, [it.node for it in senders], f"d{slot}"):
            return
        cycles_of_bits: dict[int, list[int]] = {}
        for cycle in self.each_cycle():
            # Frames of other buffers have other lengths, and so their trailers begin elsewhere.
            bits = [bit_of(kind, it.words) for it in senders if it.cycles.admit(cycle % len(CYCLES))]
            for bit in (it for it in bits if it is not None):
                cycles_of_bits.setdefault(bit, []).append(cycle)
        place, front = f"d{slot}", f"corrupt {channel}"
        lines = [line for bit, cycles in cycles_of_bits.items()
                 for line in (self.spread(front, place, bit) if cycles == list(self.each_cycle())
                              else self.free(front, cycles, place, bit))]
        if cycles_of_bits:
            for _, its in self.listed(place, lines):
                yield SingleFault(kind, None, channel, self.word, place, tuple(its))

    # ---- lines

    def on(self, channels: str, front: str, place: str, last: bytes | int | None = None) -> list[str]:
        """Returns the lines of each channel, or those of both at once where they are the same."""
        lines = [self.spread(f"{front} {channel}", place, last) for channel in channels]
        both = [f"{front} {BOTH}{line.removeprefix(f'{front} A')}" for line in lines[0]]
        if len(lines) == 2 and both == [f"{front} {BOTH}{line.removeprefix(f'{front} B')}" for line in lines[1]]:
            return both
        return [line for of_channel in lines for line in of_channel]

    def spread(self, front: str, place: str, last: bytes | int | None = None) -> list[str]:
        """Returns the fewest lines for a place, or for all static slots, in the windows that the scenario leaves."""
        whole = [worded(front, word, place, last) for word in self.parts_of_word]
        if not any(self.taken.meeting(it) for it in whole):
            return [" ".join(it.words) for it in whole]
        cycles = list(self.each_cycle())
        lines, rest = self.free(front, cycles, place, last), self.not_free(front, cycles, place, last)
        if place == EVERY_DYNAMIC:
            for minislot in range(1, self.cluster.parameters.minislots + 1):
                lines += self.free(front, rest, f"m{minislot}", last)
            return lines
        for cycle in rest:
            lines += self.parts(front, cycle, place, last)
        return lines

    def parts(self, front: str, cycle: int, place: str, last: bytes | int | None) -> list[str]:
        """Returns the lines for the parts of a place that the scenario leaves in a cycle."""
        if place == EVERY:
            static = self.free(front, [cycle], ALL_STATIC, last) or self.parts(front, cycle, ALL_STATIC, last)
            return static + (self.free(front, [cycle], EVERY_DYNAMIC, last) or self.begun_parts(front, cycle))
        slots = range(1, self.cluster.parameters.static_slots + 1) if place == ALL_STATIC else ()
        return [line for slot in slots for line in self.free(front, [cycle], f"s{slot}", last)]

    def begun_parts(self, front: str, cycle: int) -> list[str]:
        """Returns the lines for the minislots at which a lost node sends in a cycle, and that the scenario leaves."""
        _, node, channel = front.split(" ")
        begun = sorted({it.minislot for (number, _), its in self.lost.items() if number == int(node) for it in its
                        if it.cycle == cycle and it.channel == channel})
        return [line for minislot in begun for line in self.free(front, [cycle], f"m{minislot}")]

    def not_free(self, front: str, cycles: Sequence[int], place: str, last: bytes | int | None) -> list[int]:
        """Returns those of the cycles in which the scenario has a line that meets that of a place."""
        if worded(front, "0", place, last).sort not in self.taken.sorts:
            return []
        return [it for it in cycles if self.taken.meeting(worded(front, str(it), place, last)) is not None]

    def free(self, front: str, cycles: Sequence[int], place: str, last: bytes | int | None = None) -> list[str]:
        """Returns the lines for a place in those of the cycles in which the scenario has none that meets it."""
        taken = set(self.not_free(front, cycles, place, last))
        words = spelled([cycle for cycle in cycles if cycle not in taken])
        more = "" if last is None else f" x{last.hex()}" if isinstance(last, bytes) else f" {last}"
        return [f"{front} {word} {place}{more}" for word in words]


def bit_of(kind: str, words: int) -> int | None:
    """Returns the bit that a kind of fault flips in a frame with so many words, or None if the frame has no such bit.
    """
    if kind == "payload" and words == 0:
        return None
    return {"header": HEADER_BIT, "payload": HEADER_BITS, "trailer": HEADER_BITS + 16 * words}[kind]


def worded(front: str, cycles: str, place: str, last: bytes | int | None) -> FaultLine:
    more = [] if last is None else [f"x{last.hex()}" if isinstance(last, bytes) else str(last)]
    return FaultLine(0, (*front.split(" "), cycles, place, *more))


def is_stopped(fault: SingleFault, cluster: Cluster, cycles: int) -> bool:
    """Returns whether guardians stop it, so that by the promise `PROMISE` no node observes anything of it.

    It is a babble in a static slot that is guarded on all its channels, and that its node owns on none of them in any
    of the fault's cycles. The place `s*` isn't one: it may have slots of the node.
    """
    slot = fault.slot
    if not fault.is_babble or fault.node is None or slot is None or not set(fault.channels) <= set(cluster.guard):
        return False
    owned = [it for it in cluster.nodes[fault.node].owned if it.slot == slot and set(it.channels) & set(fault.channels)]
    counts = {cycle % len(CYCLES) for cycle in cycles_in(fault.cycles, cycles)} if owned else ()
    return not any(it.cycles.admit(count) for it in owned for count in counts)
