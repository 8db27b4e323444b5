"""The owners of static slots, and the buffers of each node: a network of a description as lines of a cluster file."""
from collections import defaultdict
from collections.abc import Iterator
from dataclasses import dataclass

from musmyrtle.cluster import LAST_SLOT, Cycles
from musmyrtle.descriptions.minislots import KEY, Lengths, in_file
from musmyrtle.descriptions.network import EVERY_CYCLE, FrameTable, Network, Node, Sending, cover
from musmyrtle.descriptions.report import Report

MOST_WORDS = 127
Claims = dict[tuple[int, str], dict[Node, int]]


@dataclass(frozen=True)
class OwnLine:
    """A line of `own`."""

    slot: int
    channels: str
    cycles: Cycles
    is_sync: bool
    is_startup: bool


@dataclass(frozen=True)
class BufferLine:
    """A line of `buffer`, with the frame that it sends or stores."""

    frame: FrameTable
    kind: str
    slot: int
    channels: str
    cycles: Cycles
    words: int | None
    has_preamble: bool


class Schedule:
    """The lines of a network, whose parameters get `words_per_minislot` here."""

    def __init__(self, network: Network, report: Report) -> None:
        self.network, self.report = network, report
        times, parameters = network.times, network.parameters
        self.lengths = Lengths(parameters["minislot_mt"] * times.macrotick_us / times.bit_us, times.start_bits)
        self.dynamic = [it for it in network.sendings if not network.is_static(it.slot)]
        self.check_frames()
        parameters |= self.lengths.nearest(self.words(it) for it in self.dynamic)
        self.claims = self.claimed()

    def check_frames(self) -> None:
        """Refuses slots and lengths that no cluster has."""
        for it in self.network.sendings:
            if not 1 <= it.slot <= LAST_SLOT:
                self.report.refuse("Slot", it.path, f"slot {it.slot} is none of 1 to {LAST_SLOT}")
            most = self.network.parameters["static_words"] if self.network.is_static(it.slot) else MOST_WORDS
            if it.length > 2 * most:
                self.report.refuse("FrameTooLong", it.layout.path, f"it has {it.length} bytes, and a frame of slot "
                                   f"{it.slot} has at most {2 * most}")

    def words(self, sending: Sending) -> int:
        """Returns the two-byte words of a dynamic frame."""
        return min(MOST_WORDS, -(-sending.length // 2))

    def minislots(self, sending: Sending) -> int:
        """Returns the minislots that a dynamic frame fills in the cluster file."""
        return in_file(self.words(sending), self.network.parameters[KEY])

    # ---- static slots

    def claimed(self) -> Claims:
        """Returns the cycles in which each node has a static slot on a channel, and refuses what clashes.

        A node that alone sends in a slot has it in all cycles, as in version 2.1. So it has its key slot.
        """
        claims: Claims = defaultdict(dict)
        self.refuse_overlaps()
        for it in self.network.sendings:
            for node in it.senders if self.network.is_static(it.slot) else ():
                at = claims[it.slot, it.channel]
                at[node] = at.get(node, 0) | it.cycles
        for node in self.network.nodes:
            self.check_key_slot(node)
            for channel in node.channels if node.key_slot else ():
                claims[node.key_slot, channel][node] = EVERY_CYCLE
        for (slot, channel), at in sorted(claims.items(), key=lambda claim: claim[0]):
            together = 0
            for node, cycles in at.items():
                if together & cycles:
                    names = " and ".join(it.name for it in at)
                    self.report.refuse("Overlap", node.path, f"slot {slot} on {channel} is that of {names} in the same "
                                       "cycles")
                    break
                together |= cycles
            if len(at) == 1:
                at[next(iter(at))] = EVERY_CYCLE
        return claims

    def refuse_overlaps(self) -> None:
        """Refuses two frames in one slot on a channel in a cycle, and frames with several senders."""
        taken: dict[tuple[int, str], list[Sending]] = defaultdict(list)
        for it in self.network.sendings:
            if len(it.senders) > 1:
                names = " and ".join(node.name for node in it.senders)
                self.report.refuse("Senders", it.path, f"its senders are {names}, and expected is one")
            if not it.senders:
                self.report.note("frames without a sender in the description are never sent", it.path)
                continue
            for other in taken[it.slot, it.channel]:
                same = (it.layout, it.senders, it.has_preamble) == (other.layout, other.senders, other.has_preamble)
                if other.cycles & it.cycles and not same:
                    self.report.refuse("Overlap", it.path, f"{it.frame} and {other.frame} are in slot {it.slot} on "
                                       f"{it.channel} in the same cycles, the latter by {other.path}")
                    break
            taken[it.slot, it.channel].append(it)

    def check_key_slot(self, node: Node) -> None:
        """Refuses a key slot that can't be one."""
        if node.is_startup and not node.is_sync:
            self.report.refuse("StartupWithoutSync", node.path, "a startup frame is a sync frame as well")
        if not self.network.is_static(node.key_slot) or node.is_sync and node.key_slot == 0:
            self.report.refuse("KeySlot", node.path, f"its key slot is {node.key_slot or 'absent'}, and expected is a "
                               "static slot")

    def own(self, node: Node) -> Iterator[OwnLine]:
        """Yields the ownership lines of a node, or of all parts of a stand-in."""
        slots: dict[int, dict[str, int]] = defaultdict(dict)
        for (slot, channel), at in self.claims.items():
            for part in node.whole:
                if part in at:
                    slots[slot][channel] = slots[slot].get(channel, 0) | at[part]
        for slot, by_channel in sorted(slots.items()):
            keys = [part for part in node.whole if part.key_slot == slot]
            for channels, cycles in placed(by_channel, True):
                yield OwnLine(slot, channels, cycles, any(it.is_sync for it in keys), any(it.is_startup for it in keys))

    # ---- buffers

    def buffers(self, node: Node, sends: bool) -> list[BufferLine]:
        """Returns the transmit buffers or the receive buffers of a node, or of all parts of a stand-in."""
        groups: dict[tuple[int, str, int], tuple[Sending, dict[str, int]]] = {}
        for it in self.network.sendings:
            if any(part in (it.senders if sends else it.receivers) for part in node.whole):
                _, at = groups.setdefault((it.slot, it.layout.path, it.has_preamble), (it, {}))
                at[it.channel] = at.get(it.channel, 0) | it.cycles
        found = []
        for (slot, _, _), (sending, by_channel) in sorted(groups.items(), key=lambda group: group[0]):
            is_static = self.network.is_static(slot)
            lines = placed(by_channel, is_static or not sends)
            if sends and len(lines) > 1:
                self.report.note("frames that no single filter and channel covers are sent by several buffers, which "
                                 "the host commits to one by one", f"{sending.frame} by {len(lines)}")
            kind = "receive" if not sends else "state" if is_static else "event"
            words = self.words(sending) if sends and not is_static else None
            found += [BufferLine(sending.layout, kind, slot, channels, cycles, words, sends and sending.has_preamble)
                      for channels, cycles in lines]
        return found

    def latest(self, node: Node) -> int:
        """Returns the latest minislot of a node.

        Without one in the description it is the greatest by the standard, and a later one than fits is lowered.
        """
        if node.parts:
            # All parts that send dynamic frames have the same one.
            return max(map(self.latest, node.parts))
        sent = [self.minislots(it) for it in self.dynamic if node in it.senders]
        if not sent:
            return min(node.latest or 0, self.network.parameters["minislots"])
        room = max(0, self.network.parameters["minislots"] + 1 - max(sent))
        if node.latest is None:
            return max(0, room - self.network.parameters["idle"])
        return min(room, node.latest)

    def note_latest(self, node: Node) -> None:
        """Notes a latest minislot that isn't the description's."""
        latest = self.latest(node)
        if node.latest is not None and latest != node.latest:
            self.report.note("latest minislots are lowered to what the lengths of frames leave room for",
                             f"{node.name} {latest} for {node.latest}")
        elif node.latest is None and latest:
            self.report.note("nodes without a latest minislot have the last one from which their longest frame fits",
                             f"{node.name} {latest}")


def placed(by_channel: dict[str, int], both: bool) -> list[tuple[str, Cycles]]:
    """Returns channels and filters that cover the cycles of each channel, with BOTH as one line where both have them.
    """
    a, b = by_channel.get("A", 0), by_channel.get("B", 0)
    common = a & b if both else 0
    return [(channels, it) for channels, cycles in (("AB", common), ("A", a & ~common), ("B", b & ~common))
            for it in cover(cycles)]
