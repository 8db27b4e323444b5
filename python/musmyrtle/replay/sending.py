"""The calls and faults by which a run sends what was seen in each window of a recording.

The windows come in the order of the bus. So what each buffer holds, and at which minislot each slot opens, is known.
"""
from collections.abc import Iterable
from dataclasses import dataclass, field

from musmyrtle.cluster import CYCLES, LAST_SLOT, Buffer, Cluster
from musmyrtle.replay.bits import HEADER_BYTES, TRAILER_BYTES, flipped_bit, sent
from musmyrtle.replay.captured import WRONG_LENGTH
from musmyrtle.replay.places import Heard, Windows
from musmyrtle.replay.senders import Forms, Senders
from musmyrtle.show.windows import CHANNELS

MOST_SENT = 262


@dataclass
class Actions:
    """The calls and faults of a replay. Cycles are those of the run, and places are words of fault lines.

    `offers` counts what each node would send in a cycle; `mutes` are those that it mustn't. `whys` has the reason for
    each record that isn't given back, as far as it is known before the run.
    """

    commits: list[tuple[int, Buffer, bytes]] = field(default_factory=list)
    withdraws: list[tuple[int, Buffer]] = field(default_factory=list)
    mutes: list[tuple[int, int, str, str]] = field(default_factory=list)
    babbles: list[tuple[int, int, str, str, bytes]] = field(default_factory=list)
    flips: list[tuple[int, str, str, int]] = field(default_factory=list)
    offers: dict[tuple[int, int], int] = field(default_factory=dict)
    whys: dict[int, str] = field(default_factory=dict)


def bit_of(offer: bytes, it: Heard) -> int | None:
    """Returns the bit whose flip makes the frame that was seen of an offer, or None if there is no such bit.

    The trailer wasn't seen. So it may be the one with the wrong bit, unless the header is.
    """
    seen = it.seen
    if seen.error == WRONG_LENGTH:
        bit = flipped_bit(sent(offer, it.channel), seen.data)
        return bit if bit != -1 else None
    bit = flipped_bit(offer, seen.data) if seen.error else None
    return 8 * (len(offer) + TRAILER_BYTES) - 1 if bit == -1 else bit


def bytes_for(it: Heard) -> bytes:
    """Returns bytes of which a listener sees the frame."""
    if it.seen.error == WRONG_LENGTH:
        return it.seen.data
    return sent(it.seen.data, it.channel, it.seen.error != 0)


class Sending:
    """Goes through the windows of a run, and keeps what each buffer holds."""

    def __init__(self, cluster: Cluster, senders: Senders, windows: Windows, shift: int, cycles: range) -> None:
        """SHIFT is the cycle of the run in which cycle 0 of the recording is, whose CYCLES are replayed."""
        self.cluster, self.its, self.windows, self.shift = cluster, cluster.parameters, windows, shift
        self.senders, self.actions = senders, Actions()
        self.held: dict[tuple[int, int], bytes] = {}
        for cycle in cycles:
            forms = senders.counts[(cycle + shift) % len(CYCLES)]
            self.static(cycle, forms)
            for channel in CHANNELS:
                self.dynamic(cycle, channel, forms)

    # ---- what a buffer sends

    def payload_of(self, buffer: Buffer | None) -> bytes | None:
        """Returns what a buffer sends without another commit."""
        return None if buffer is None else self.held.get((buffer.node, buffer.number))

    def offer_of(self, forms: Forms, payload: bytes | None) -> bytes | None:
        """Returns the offer of a sender whose buffer sends a payload, without the trailer."""
        return forms.null if payload is None or forms.data is None else forms.data + payload

    def fill(self, cycle: int, buffer: Buffer, seen: Iterable[tuple[Forms, Heard]]) -> bytes | None:
        """Returns what the buffer sends in a window, after the calls by which it sends what was seen."""
        held, pairs = self.payload_of(buffer), list(seen)
        payload = self.choice(buffer, held, pairs)
        if payload != held:
            key = buffer.node, buffer.number
            self.actions.commits.append((cycle + self.shift, buffer, payload or bytes(2 * buffer.words)))
            if payload is None:
                self.actions.withdraws.append((cycle + self.shift, buffer))
                del self.held[key]
            elif buffer.kind == "state":
                self.held[key] = payload
        return payload

    def choice(self, buffer: Buffer, held: bytes | None, pairs: list[tuple[Forms, Heard]]) -> bytes | None:
        """Returns the payload with which a buffer sends what was seen on its channels, A first, or None for none."""
        for forms, it in pairs:
            if not it.seen.error and forms.data and it.seen.data == forms.data + it.seen.data[HEADER_BYTES:] \
                    and len(it.seen.data) == HEADER_BYTES + 2 * buffer.words:
                return it.seen.data[HEADER_BYTES:]
        if any(not it.seen.error and it.seen.data == forms.null for forms, it in pairs):
            return None
        for forms, it in pairs:
            offer = self.offer_of(forms, held)
            if offer is not None and bit_of(offer, it) is not None:
                return held
        for forms, it in pairs:
            payload = it.seen.data[HEADER_BYTES:HEADER_BYTES + 2 * buffer.words]
            if forms.data and len(payload) == 2 * buffer.words and bit_of(forms.data + payload, it) is not None:
                return payload
            if forms.null and bit_of(forms.null, it) is not None:
                return None
        return held

    # ---- windows

    def static(self, cycle: int, forms: dict[tuple[int, str], Forms]) -> None:
        """Goes through the static slots of a cycle."""
        seen = {it: self.windows.of_slot.get((cycle, it), {}) for it in CHANNELS}
        for slot in range(1, self.its.static_slots + 1):
            here = {channel: forms.get((slot, channel)) for channel in CHANNELS}
            sends: dict[tuple[int, int], bytes | None] = {}
            for channel, its in here.items():
                buffer = its.buffer if its else None
                if buffer is not None and (buffer.node, buffer.number) not in sends:
                    pairs = [(other, heard) for name, other in here.items() if other and other.buffer is buffer
                             if (heard := seen[name].get(slot)) is not None]
                    sends[buffer.node, buffer.number] = self.fill(cycle, buffer, pairs)
            for channel, its in here.items():
                payload = sends[its.buffer.node, its.buffer.number] if its and its.buffer else None
                offer = None if its is None else self.offer_of(its, payload)
                self.window(cycle, channel, f"s{slot}", its, offer, seen[channel].get(slot))

    def dynamic(self, cycle: int, channel: str, forms: dict[tuple[int, str], Forms]) -> None:
        """Goes through the dynamic slots of a channel in a cycle."""
        seen = self.windows.of_slot.get((cycle, channel), {})
        later = list(self.windows.of_minislot.get((cycle, channel), []))
        slot, minislot, opened = self.its.static_slots + 1, 1, set[int]()
        while minislot <= self.its.minislots and slot <= LAST_SLOT:
            opened.add(slot)
            heard = seen.get(slot)
            if heard is None and later and later[0][0] <= minislot:
                heard = later.pop(0)[1]
            its = forms.get((slot, channel))
            is_late = its is not None and minislot > self.cluster.nodes[its.node].latest[channel]
            offer = None
            if its is not None and its.buffer and not is_late:
                offer = self.offer_of(its, self.fill(cycle, its.buffer, [(its, heard)] if heard else []))
            length = self.window(cycle, channel, f"d{slot}", its, offer, heard, minislot)
            minislot += self.minislots_of(length) + self.its.idle if length else 1
            slot += 1
        left = [it for number, it in seen.items() if number > self.its.static_slots and number not in opened]
        for it in [*left, *(it for _, it in later)]:
            self.actions.whys[it.record] = "no dynamic slot opens for it"

    def minislots_of(self, length: int) -> int:
        """Returns the minislots that so many bytes fill."""
        return -(-length // (2 * self.its.words_per_minislot))

    def window(self, cycle: int, channel: str, place: str, forms: Forms | None, offer: bytes | None,
               heard: Heard | None, minislot: int = 0) -> int:
        """Adds the faults by which a window shows what was seen. Returns the bytes of what is sent then."""
        its, at = self.actions, cycle + self.shift
        node = 0 if forms is None else forms.node
        if offer is not None:
            its.offers[at, node] = its.offers.get((at, node), 0) + 1
            if heard and not heard.seen.error and heard.seen.data == offer:
                return len(offer) + TRAILER_BYTES
            bit = None if heard is None else bit_of(offer, heard)
            if bit is not None:
                its.flips.append((at, channel, place, bit))
                return len(offer) + TRAILER_BYTES
            its.mutes.append((at, node, channel, place))
        if heard is None:
            return 0
        why = self.why_not(channel, forms, heard, minislot)
        if why:
            its.whys[heard.record] = why
            return 0
        data = bytes_for(heard)
        its.babbles.append((at, node, channel, place, data))
        return len(data)

    def why_not(self, channel: str, forms: Forms | None, heard: Heard, minislot: int) -> str:
        """Returns why no node can send what was seen in a window, or nothing."""
        data = bytes_for(heard)
        if heard.findings & {"Cut"}:
            return "bytes of it weren't captured"
        if len(data) > MOST_SENT:
            return f"a node sends at most {MOST_SENT} bytes"
        if not minislot and channel in self.cluster.guard and forms is None:
            return "no node has this slot, and bus guardians stop any other one"
        if minislot and self.minislots_of(len(data)) > self.its.minislots - minislot + 1 or \
                not minislot and len(data) > HEADER_BYTES + TRAILER_BYTES + 2 * self.its.static_words:
            return "it is too long for its window"
        return ""
