"""Tables for Wireshark's dissector of signals, `Signal PDU`, by the frames of a cluster file.

Its signals follow one another without gaps, from the first byte on, so gaps are hidden signals. Each value is a double.
"""
import csv
import io
import os
from collections.abc import Iterable, Iterator
from pathlib import Path

from musmyrtle.cluster import CYCLES
from musmyrtle.faults.whole_files import replace_file
from musmyrtle.lint.command import USAGE
from musmyrtle.output import Stop
from musmyrtle.signals.frames import Frames
from musmyrtle.signals.layout import Layout
from musmyrtle.signals.signal import Coding, Order, Signal

IDENTIFIERS, BINDINGS, SIGNALS = "Signal_PDU_identifiers", "Signal_PDU_Binding_FlexRay", "Signal_PDU_signal_list"
LONGEST_GAP = 32
WHOLE = (8, 16, 32, 64)
"""The lengths of signed numbers."""
KINDS = {Coding.UNSIGNED: "uint", Coding.SIGNED: "int", Coding.FLOAT: "float"}


def why_not(layout: Layout) -> str | None:
    """Returns why Wireshark can't have a frame, or None."""
    at = 0
    for it in in_order(layout):
        if it.when:
            return f"{it.name} is multiplexed"
        if it.coding is Coding.BYTES:
            return f"{it.name} is whole bytes"
        if it.coding is Coding.FLOAT and it.bits == 16:
            return f"{it.name} is a float of 16 bits"
        if it.order is Order.BIG and (it.bits % 8 or it.begin % 8):
            return f"{it.name} is big-endian, and no whole bytes"
        if it.begin < at:
            return f"{it.name} shares bits with another signal"
        at = it.end
    return None if at else "it has no signals"


def in_order(layout: Layout) -> list[Signal]:
    """Returns the signals of a frame by their places."""
    return sorted(layout.signals.values(), key=lambda it: it.begin)


def rows_of(number: str, layout: Layout) -> list[list[str]]:
    """Returns the lines of the signals of a frame, with gaps between them."""
    rows: list[tuple[str, str, int, bool, float, float, bool]] = []
    at = 0
    for it in in_order(layout):
        while at < it.begin:
            size = min(LONGEST_GAP, it.begin - at)
            rows.append((f"gap_{at}", "uint", size, False, 1.0, 0.0, True))
            at += size
        is_bits = it.coding is Coding.SIGNED and it.bits not in WHOLE
        kind = "uint" if is_bits else KINDS[it.coding]
        factor, offset = (1.0, 0.0) if is_bits else (float(it.factor), float(it.offset))
        rows.append((it.name, kind, it.bits, it.order is Order.BIG, factor, offset, False))
        at = it.end
    return [[number, str(len(rows)), str(place), name, f"{layout.name}.{name}", kind, word(is_big), str(base_of(bits)),
             str(bits), repr(factor), repr(offset), "FALSE", "-1", word(is_hidden)]
            for place, (name, kind, bits, is_big, factor, offset, is_hidden) in enumerate(rows)]


def word(value: bool) -> str:
    """Returns a truth value as the tables spell it."""
    return "TRUE" if value else "FALSE"


def base_of(bits: int) -> int:
    """Returns the length of the number that holds so many bits."""
    return next(it for it in WHOLE if bits <= it)


def bindings_of(number: str, layout: Layout, frames: Frames) -> Iterator[list[str]]:
    """Yields the channels, cycles and slots of a frame."""
    for (node, buffer), its in frames.claims.items():
        sender = frames.cluster.nodes[node].buffers[buffer]
        if its is layout and sender.transmits:
            for channel in sender.channels:
                for cycle in CYCLES:
                    if sender.cycles.admit(cycle):
                        yield [f"{'AB'.index(channel):x}", f"{cycle:x}", f"{sender.slot:x}", number]


def write_tables(folder: str, frames: Frames) -> list[str]:
    """Writes the tables into a folder. Returns what they can't say. Raises `Stop` where they can't be written."""
    notes, tables = list[str](), {it: list[list[str]]() for it in (IDENTIFIERS, BINDINGS, SIGNALS)}
    for place, layout in enumerate(frames.definitions.layouts.values(), 1):
        why, number = why_not(layout), f"{place:08x}"
        if why:
            notes.append(f"frame {layout.name} is left out, since {why}")
            continue
        notes += [f"{it.name} of frame {layout.name} is shown as bits, since a signed number has 8, 16, 32 or 64 there"
                  for it in in_order(layout) if it.coding is Coding.SIGNED and it.bits not in WHOLE]
        tables[IDENTIFIERS].append([number, layout.name])
        tables[BINDINGS] += bindings_of(number, layout, frames)
        tables[SIGNALS] += rows_of(number, layout)
    try:
        os.makedirs(folder, exist_ok=True)
        for name, rows in tables.items():
            replace_file(str(Path(folder, name)), text_of(rows).encode())
    except OSError as error:
        raise Stop(USAGE, f"--wireshark {folder}: {error.strerror}") from None
    return notes


def text_of(rows: Iterable[list[str]]) -> str:
    """Returns the lines of a table, in which each word has quotes."""
    text = io.StringIO()
    csv.writer(text, quoting=csv.QUOTE_ALL, lineterminator="\n").writerows(rows)
    return text.getvalue()
