"""The signals of the payloads in the tables of a run, as rows below theirs."""
from collections.abc import Callable, Iterable
from dataclasses import replace

from musmyrtle.show.engines import Inputs
from musmyrtle.show.signals import COLUMNS, frames_in, values_of
from musmyrtle.show.tables import Name, Row, Section, Value
from musmyrtle.signals.frames import Frames
from musmyrtle.signals.layout import Layout
from musmyrtle.signals.receiving import Layouts
from musmyrtle.signals.texts import bytes_of

HEADER, TRAILER = 5, 3
"""The bytes of a frame before and after its payload."""
Found = tuple[Layout | None, bytes | None]


def with_signals(inputs: Inputs, sections: Iterable[Section]) -> list[Section]:
    """Returns tables with the signals of each payload below its row. Raises `Stop` for faults in the frames."""
    frames = frames_in(inputs)[1]
    layouts = Layouts(frames)
    found = []
    for section in sections:
        of = PAYLOADS.get(section.kind)
        if of is None:
            found.append(section)
            continue
        rows = [replace(row, below=tuple(below(of(row.values.get, frames, layouts)))) for row in section.rows]
        found.append(replace(section, rows=rows, below=COLUMNS))
    return found


def below(found: Found) -> Iterable[Row]:
    """Returns the rows of the signals of a payload."""
    layout, payload = found
    if layout is None or payload is None:
        return ()
    return (Row(values_of(it), not it.is_in_range) for it in layout.reads(payload))


Get = Callable[[str], Value]


def data_of(get: Get) -> bytes | None:
    """Returns the bytes of a row."""
    data = get("data")
    return bytes_of(data) if isinstance(data, str) else None


def of_transmission(get: Get, _: Frames, layouts: Layouts) -> Found:
    """Returns the payload of a transmission that is a data frame, with the layout of its slot."""
    data, slot, channel, cycle = data_of(get), get("slot"), get("channel"), get("cycle")
    if data is None or get("frame") is None or "n" in str(get("flags")) or not isinstance(slot, int):
        return None, None
    return layouts.of(slot, str(channel), int(str(cycle))), data[HEADER:-TRAILER]


def of_commit(get: Get, frames: Frames, _: Layouts) -> Found:
    """Returns the payload of a commit, with the layout of its buffer."""
    node, buffer = get("node"), get("buffer")
    if not isinstance(node, Name) or not isinstance(buffer, Name):
        return None, None
    return frames.claims.get((node.number, buffer.number)), data_of(get)


def of_call(get: Get, _: Frames, layouts: Layouts) -> Found:
    """Returns the payload of a frame that a task read, or that a FIFO holds, with the layout of its sender."""
    slot, channel = get("slot"), get("channel")
    count = get("cycle_count") if get("cycle_count") is not None else get("frame_cycle")
    if not isinstance(slot, int) or not isinstance(count, int):
        return None, None
    return layouts.of(slot, str(channel), count), data_of(get)


def of_record(words: list[str], layouts: Layouts) -> Found:
    """Returns the payload of a line `frame` of `fr_monitor` that is a data frame, with the layout of its slot."""
    if words[3] == "-" or words[5] == "-" or "n" in words[10]:
        return None, None
    return layouts.of(int(words[5]), words[4], int(words[3])), bytes_of(words[11])


PAYLOADS: dict[str, Callable[[Get, Frames, Layouts], Found]] = {
    "transmission": of_transmission, "commit": of_commit, "undelivered": of_commit, "call": of_call, "fifo": of_call}
"""The payload and the layout of a row, by the kind of its table."""
