"""Warnings of frames and signals: faults, bits that two signals share, and values that a signal can't have."""
from collections.abc import Iterable, Iterator
from fractions import Fraction

from musmyrtle.findings import MOST_NOTES, Finding, joined
from musmyrtle.names import tables_of
from musmyrtle.places import Path
from musmyrtle.signals.exact import plain
from musmyrtle.signals.frames import BUFFER_FRAME, Frames
from musmyrtle.signals.layout import Layout, mask_of, sum_of_masks
from musmyrtle.signals.signal import Coding, Signal
from musmyrtle.texts import Text

MOST_OF_NAME = 20
"""The warnings of one name that are made; further ones are counted. A file has room for thousands of signals."""
MOST_BITS = 8
"""The shared bits that a warning names."""


def warnings_of(frames: Frames) -> list[tuple[str, list[Finding]]]:
    """Returns the warnings of all frames of a cluster, by their names."""
    found = list(read_frames(frames))
    return [
        ("bad-signal", frames.definitions.faults), ("unknown-frame", frames.unknown), ("long-frame", frames.long),
        ("shared-bits", [it for layout in found for it in layout.shared_bits()]),
        ("value-range", [it for layout in found for it in layout.wrong_values()]),
        ("other-frame", list(other_frames(frames))),
    ]


def read_frames(frames: Frames) -> Iterator["PlacedLayout"]:
    """Yields the layouts of all frames without faults, with their places."""
    layouts = frames.definitions.layouts
    for text in frames.definitions.texts:
        for number, table in enumerate(tables_of(text.document.get("frame"))):
            name = table.get("name")
            place = frames.definitions.places.get(name) if isinstance(name, str) else None
            if isinstance(name, str) and name in layouts and place == text.place_of(("frame", number, "name")):
                yield PlacedLayout(text, ("frame", number), layouts[name])


class PlacedLayout:
    """A layout with the text and the path of its table."""

    def __init__(self, text: Text, path: Path, layout: Layout) -> None:
        self.text, self.path, self.layout = text, path, layout
        signals = tables_of(text.document["frame"][path[-1]].get("signal"))
        self.numbers = {table.get("name"): number for number, table in enumerate(signals)}

    def path_of(self, signal: Signal, *keys: str) -> Path:
        """Returns the path of a signal, or of a key of it."""
        return (*self.path, "signal", self.numbers[signal.name], *keys)

    def shared_bits(self) -> Iterator[Finding]:
        """Yields one warning for each signal that shares bits with an earlier one, and of update bits in signals."""
        for one, other in self.pairs():
            yield self.shared(f"signals {one.name} and {other.name}", one.mask & other.mask,
                              self.path_of(other, "bit"), [one])
        taken = sum_of_masks(self.layout.signals.values())
        for signal in self.layout.signals.values():
            bits = mask_of(signal.update) & taken
            if bits:
                its = [it for it in self.layout.signals.values() if it.mask & bits][:MOST_NOTES]
                yield self.shared(f"`update` of {signal.name} and {joined([it.name for it in its])}", bits,
                                  self.path_of(signal, "update"), its)

    def pairs(self) -> Iterator[tuple[Signal, Signal]]:
        """Yields each signal that shares bits with one before it in the same payloads, after that one.

        Signals with other codes of the same selectors never meet, so that only groups of other selectors are compared.
        """
        groups: dict[tuple[str, ...], dict[tuple[tuple[str, int], ...], list[Signal]]] = {}
        for signal in self.layout.signals.values():
            when = tuple(sorted(signal.when))
            by_codes = groups.setdefault(tuple(name for name, _ in when), {})
            first = first_sharing(signal, by_codes.setdefault(when, []))
            for others in groups.values():
                if first or others is by_codes:
                    continue
                meeting = (it for codes, its in others.items() if can_meet(signal, dict(codes)) for it in its)
                first = first_sharing(signal, meeting)
            by_codes[when].append(signal)
            if first:
                yield first, signal

    def shared(self, who: str, bits: int, path: Path, others: list[Signal]) -> Finding:
        """Returns the warning of shared bits, with the other signals that have them."""
        numbers = [str(it) for it in range(bits.bit_length()) if bits >> it & 1]
        more = [f"{len(numbers) - MOST_BITS} more"] if len(numbers) > MOST_BITS else []
        headline = f"{who} of frame {self.layout.name} share bit{'s' if numbers[1:] else ''} "
        reason = "A commit of one of them changes the other. Expected other bits, or `when` with different codes."
        notes = [(it.name, self.path_of(it, "bit")) for it in others]
        return self.text.finding(headline + joined([*numbers[:MOST_BITS], *more]), reason, path, notes)

    def wrong_values(self) -> Iterator[Finding]:
        """Yields limits, names and invalid values that are for raw values which a signal can't have."""
        for signal in self.layout.signals.values():
            if signal.coding in (Coding.FLOAT, Coding.BYTES):
                continue
            least, most = signal.limits
            for it in signal.values:
                if it.last > most or it.first < least:
                    headline = f"`{it}` in `values` of {signal.name} in frame {self.layout.name} is out of range"
                    reason = f"Its {signal.bits} bits have raw values from {least} to {most}."
                    yield self.text.finding(headline, reason, self.path_of(signal, "values", str(it)))
            yield from self.wrong_limits(signal)

    def wrong_limits(self, signal: Signal) -> Iterator[Finding]:
        """Yields the limits of a signal that are out of the range of its bits, from the least to the greatest value.

        A limit may be above what a raw value has, by less than the factor.
        """
        ends = sorted(Fraction(it) * signal.factor + signal.offset for it in signal.limits)
        room = abs(signal.factor)
        for key, value in (("min", signal.least), ("max", signal.most)):
            if value is not None and not ends[0] - room < value < ends[1] + room:
                reason = f"Its {signal.bits} bits have values from {plain(ends[0])} to {plain(ends[1])}."
                yield self.text.finding(f"`{key}` of {signal.name} in frame {self.layout.name} is {plain(value)}, "
                                        "which it can't have", reason, self.path_of(signal, key))


def first_sharing(signal: Signal, others: Iterable[Signal]) -> Signal | None:
    """Returns the first signal that has bits of this one, or None."""
    return next((it for it in others if it.mask & signal.mask), None)


def can_meet(signal: Signal, codes: dict[str, int]) -> bool:
    """Returns whether a signal can be in the payloads in which selectors have these codes."""
    return all(codes.get(name, code) == code for name, code in signal.when)


def other_frames(frames: Frames) -> Iterator[Finding]:
    """Yields the receive buffers that name another frame than a buffer whose frames they store."""
    text = frames.definitions.texts[0]
    for buffer in frames.cluster.buffers():
        claimed = frames.claims.get((buffer.node, buffer.number))
        if buffer.transmits or claimed is None:
            continue
        for sender in frames.coming(buffer):
            sent = frames.claims.get((sender.node, sender.number))
            if sent is not claimed:
                found = f"frame {sent.name}" if sent else f"a frame without `{BUFFER_FRAME}`"
                yield text.finding(f"`{BUFFER_FRAME}` of {buffer} is {claimed.name}, and {sender} sends {found}",
                                   "The sender's layout counts. Expected the same name at both, or none here.",
                                   (*buffer.path, BUFFER_FRAME), [(str(sender), sender.path)])
                break
