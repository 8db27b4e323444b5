"""The page of a recording of a real bus: its frames, as `fr_monitor --frames` prints them, beside the schedule.

The program names the cycle, the place and the sender of each frame. The begins of the cycles, and the empty slots and
minislots of a cycle, are those of `fr_view windows`, for runs without calls. The page adds form alone: it puts each
frame into its cycle, and a missing one into its slot.
"""
import argparse
import re
from array import array
from collections import Counter
from collections.abc import Iterable, Iterator
from typing import IO, Any

from musmyrtle.findings import counted
from musmyrtle.lint.command import USAGE
from musmyrtle.output import Stop
from musmyrtle.show.causes import Causes
from musmyrtle.show.engines import Awaited, Inputs
from musmyrtle.show.facts import ARRIVED, Transmission
from musmyrtle.show.idle_cycle import IdleCycle, cycle_begins_of, idle_cycle_of
from musmyrtle.show.marks import OF_RECORDS
from musmyrtle.show.monitor import STANDARD_INPUT, judged
from musmyrtle.show.network import Network
from musmyrtle.show.page_columns import NOTHING, Columns, Words
from musmyrtle.show.page_data import node_of, shown
from musmyrtle.show.page_received import add_counted, add_nothing_seen
from musmyrtle.show.page_signals import signals_of
from musmyrtle.show.page_record import Record
from musmyrtle.show.page_windows import add_windows
from musmyrtle.show.recorded import Frame, Note, Recorded
from musmyrtle.show.recordings import BACK, Place
from musmyrtle.show.windows import CHANNELS, Windows
from musmyrtle.version import version
from musmyrtle.visible import visible
from musmyrtle.world.bounds import MOST_ENDLESS

MOST_WINDOWS, MOST_TIME = 4_000_000, 2**32 - 1
"""The most static slots and frames of a recording with a page, and the most macroticks from its first cycle on."""
TOO_MANY = "BadCycles"
"""The refusal of a run with more static slots and minislots than any may have."""
MISSING, BROKEN = "missing", "broken"
NOT_KNOWN = ("This page is drawn from a recording of a real bus. A frame is shown with the node that the cluster "
             "configures for its slot: the recording doesn't say who sent it, what tasks committed, or what receivers "
             "stored.")
EARLIEST = ("A dynamic frame is drawn at the earliest minislot at which its slot can open after the frames that were "
            "recorded before it.")
HEADERS = ("A broken record is drawn in the slot that its header names, if that is a static slot of the open cycle. "
           "The header itself may be wrong.")
NO_FRAMES = "The recording has no frame."
CUT_OFF = "The recording couldn't be read to its end: {}."
NARROWED = "Only the cycles {} of the recording are shown; it has {}."


def recorded(inputs: Inputs, given: argparse.Namespace, source: IO[bytes]) -> tuple[Recorded, int, list[str]]:
    """Returns the frames of a recording, and the status and the messages of `fr_monitor`."""
    inputs.of_cluster("fr_bench", "check")
    found = Recorded(inputs.network)
    status, told = judged(inputs, given, source, found.add, "--frames")
    return found, status, told


# ---- the cycles that are shown


def range_of(word: str) -> range:
    """Returns the cycles of a word `A-B` or `A`. Raises an error with the form that is allowed."""
    found = re.fullmatch(r"(0|[1-9][0-9]{0,9})(?:-(0|[1-9][0-9]{0,9}))?", word)
    first, last = (int(found[1]), int(found[2] or found[1])) if found else (1, 0)
    if first > last:
        raise argparse.ArgumentTypeError(f"{word!r} is no cycle of a recording, and no range of cycles as 0-63")
    return range(first, last + 1)


class Shown:
    """The part of a recording that a page shows: its frames by their cycles, and the frames without a place."""

    def __init__(self, found: Recorded, cycle: IdleCycle, wanted: range | None) -> None:
        self.found, self.cycle = found, cycle
        numbers = [found.on_axis(it.channel, it.cycle) for it in found.frames.values()]
        self.all = max((it for it in numbers if it is not None), default=0) + 1
        self.cycles = range(self.all) if wanted is None else range(wanted.start, min(wanted.stop, self.all))
        if not self.cycles:
            raise Stop(USAGE, f"the recording has no cycle {self.cycles.start}: it has {counted(self.all, 'cycle')}")
        self.by_cycle: dict[int, list[Frame]] = {}
        self.unplaced: list[Frame] = []
        for frame, number in zip(found.frames.values(), numbers):
            if number is None or frame.begin is None:
                self.unplaced.append(frame)
            elif number in self.cycles:
                self.by_cycle.setdefault(number, []).append(frame)
        self.missing: dict[int, list[Note]] = {}
        for note in found.notes:
            number = found.on_axis(note.place.channel, note.cycle)
            if number is not None and number in self.cycles and note.place.slot in cycle.of_slot:
                self.missing.setdefault(number, []).append(note)

    def counts(self) -> Iterator[int | None]:
        """Yields the cycle count of each cycle, as far as a good frame or a missing one names it."""
        for number in self.cycles:
            frames = [it.count for it in self.by_cycle.get(number, ()) if it.data is not None]
            missing = [it.place.cycle for it in self.missing.get(number, ())]
            yield next((it for it in [*frames, *missing] if it is not None), None)

    def begins(self, inputs: Inputs) -> "array[int]":
        """Returns the macroticks at which the cycles begin, of which the first one begins at 0, and the one after them.

        Raises `Stop` where a page has no room for what is shown.
        """
        windows = len(self.by_cycle) * len(self.cycle.slots) + sum(map(len, self.by_cycle.values()))
        if windows > MOST_WINDOWS or len(self.cycles) >= MOST_ENDLESS:
            raise self.no_room()
        inputs.awaited = frozenset((TOO_MANY,))
        try:
            found = cycle_begins_of(inputs, self.cycle, len(self.cycles), MOST_TIME)
        except Awaited:
            raise self.no_room() from None
        if found[-1] > MOST_TIME:
            raise self.no_room()
        return found

    def no_room(self) -> Stop:
        """Returns the end of the command where a page has no room for what is shown."""
        return Stop(USAGE, f"a page has no room for the {counted(len(self.cycles), 'cycle')} of this recording, which "
                           f"may have {MOST_WINDOWS:,} static slots and frames, and fewer than 2^32 macroticks; "
                           "--cycles A-B shows a part of it")


# ---- the windows and the record


class Bus:
    """The windows and the lines of the record, cycle by cycle."""

    def __init__(self, shown_part: Shown, begins: "array[int]", network: Network) -> None:
        self.shown, self.network = shown_part, network
        self.windows, self.record = Windows(), Record(Causes())
        self.windows.cycle_begins = begins
        self.numbers, self.seconds = array("I"), Words()
        self.nobody = len(network.cluster.nodes)
        self.errors: Counter[tuple[int, int]] = Counter()
        """The errors of a node's slots by node and cycle."""
        self.places: dict[tuple[int, int, str], int] = {}
        """The windows of findings by cycle, slot and channel."""
        for number, start in zip(self.shown.cycles, begins):
            if number in self.shown.by_cycle or number in self.shown.missing:
                self.add_cycle(number, start)

    def add_cycle(self, number: int, start: int) -> None:
        """Adds the windows of a cycle and their lines. START is the macrotick at which it begins."""
        lines: dict[tuple[int, str], list[Frame | Note]] = {}
        lengths: dict[tuple[int, str], tuple[int, int]] = {}
        for frame in self.shown.by_cycle.get(number, ()):
            place = frame.begin or 0, frame.channel
            lines.setdefault(place, []).append(frame)
            lengths.setdefault(place, (frame.slot or 0, frame.length or 0))
        for note in self.shown.missing.get(number, ()):
            lines.setdefault((self.shown.cycle.of_slot[note.place.slot or 0][0], note.place.channel), []).append(note)
        dynamic = {begin for begin, _ in lengths if begin in self.shown.cycle.minislots}
        slots = {begin: (slot, length) for begin, slot, length in self.shown.cycle.slots}
        for begin in sorted({*slots, *dynamic}):
            window = len(self.windows.cycles)
            self.windows.cycles.append(number - self.shown.cycles.start)
            self.windows.minislots.append(self.shown.cycle.minislots.get(begin, 0))
            self.windows.begins.append(start + begin)
            for channel in CHANNELS:
                slot, length = slots[begin] if begin in slots else lengths.get((begin, channel), (0, 0))
                self.windows.slots[channel].append(slot)
                self.windows.lengths[channel].append(length)
                for it in lines.get((begin, channel), ()):
                    self.add_line(window, number, it)

    def add_line(self, window: int, cycle: int, it: Frame | Note) -> None:
        """Adds the line of a frame, or of one that was missing."""
        place = it.place if isinstance(it, Note) else Place(it.record, it.seconds, it.count, it.channel, it.slot)
        node = self.nobody if it.node is None else it.node
        if isinstance(it, Note):
            what, passed, end, flags, data = MISSING, None, it.why, None, None
        elif it.data is None:
            what, passed, end, flags, data = BROKEN, None, "; ".join(it.reasons), None, None
        else:
            what, passed, flags, data = "offer", "passed", it.flags, it.data
            end = "; ".join(it.reasons) or ARRIVED
        if end != ARRIVED:
            self.errors[node, cycle - self.shown.cycles.start] += 1
        self.places[cycle, place.slot or 0, place.channel] = window
        self.record.add(Transmission(window, cycle, None, place.slot, place.channel, node, what, passed,
                                     visible(end), None, flags, data, None, None))
        is_missing = isinstance(it, Note)
        self.numbers.append(NOTHING["u32"] if is_missing or place.record is None else place.record)
        self.seconds.add("" if is_missing else place.seconds or "")

    def fill(self, columns: Columns) -> None:
        """Adds the columns of the windows and of the record."""
        add_windows(self.windows, columns)
        self.record.fill(columns)
        columns.numbers("record_number", "u32", self.numbers)
        columns.words("record_seconds", self.seconds)
        columns.numbers("cycle_count", "u8", self.shown.counts())


# ---- the data of the page


def packed_recording(inputs: Inputs, given: argparse.Namespace, found: Recorded, cut_off: str) -> bytes:
    """Returns the packed data of a recording. CUT_OFF is the reason why it wasn't read to its end, or nothing."""
    cycle = idle_cycle_of(inputs)
    part = Shown(found, cycle, given.cycles)
    bus, columns = Bus(part, part.begins(inputs), inputs.network), Columns()
    bus.fill(columns)
    add_no_host(columns)
    counts = sorted((node, number, count) for (node, number), count in bus.errors.items())
    add_counted(counts, columns)
    add_nothing_seen(columns)
    header = header_of(inputs, given, bus, list(missing_of(part, cut_off)))
    return columns.packed({**header, "no_finding": no_finding(part, cut_off)})


def add_no_host(columns: Columns) -> None:
    """Adds the columns of commits and answers without an entry, which no recording has."""
    kinds = {"u8": ("commit_node", "commit_buffer", "commit_task", "answer_node", "answer_task", "answer_buffer",
                    "answer_count"),
             "u16": ("sent_slot", "answer_slot"),
             "u32": ("commit_cycle", "commit_entry", "commit_ended", "commit_ending", "commit_sends", "sent_cycle",
                     "answer_cycle", "answer_entry", "answer_commit")}
    for kind, names in kinds.items():
        for name in names:
            columns.numbers(name, kind, ())
    for name in ("commit_fate", "commit_why", "sent_channel", "sent_end", "sent_receivers", "answer_kind",
                 "answer_channel"):
        columns.words(name, ())
    for name in ("commit_data", "answer_committed", "answer_frame"):
        columns.contents(name, ())


def missing_of(part: Shown, cut_off: str) -> Iterator[str]:
    """Yields the sentences at the top of the page."""
    yield NOT_KNOWN
    frames = part.found.frames.values()
    if not frames:
        yield NO_FRAMES
    if part.cycle.minislots and any(it.slot is not None and it.slot not in part.cycle.of_slot for it in frames):
        yield EARLIEST
    if any(it.data is None for it in frames):
        yield HEADERS
    if cut_off:
        yield CUT_OFF.format(visible(cut_off))
    if len(part.cycles) < part.all:
        yield NARROWED.format(f"{part.cycles.start} to {part.cycles.stop - 1}", counted(part.all, "cycle"))


def no_finding(part: Shown, cut_off: str) -> str:
    """Returns the sentence of a page without findings. Nothing is stated about what the page doesn't have."""
    if len(part.cycles) < part.all:
        return "There is no finding in the cycles of this page."
    return "There is no finding before the end of what could be read." if cut_off else "There is no finding."


def header_of(inputs: Inputs, given: argparse.Namespace, bus: Bus, missing: list[str]) -> dict[str, Any]:
    """Returns names, minislots, configuration and findings, for the header of the data."""
    network, part = inputs.network, bus.shown
    nodes: list[dict[str, Any]] = [{**node_of(network, it), "outcome": []} for it in range(bus.nobody)]
    if bus.nobody in set(bus.record.nodes):
        nodes.append({"name": None, "buffers": [], "has_fifo": False, "outcome": [], "is_nobody": True})
    plan = [it.split(" ") for it in inputs.of_cluster("fr_bench", "plan").lines if not it.startswith("guard ")]
    source = "standard input" if given.recording == STANDARD_INPUT else given.recording
    return {
        "version": version(), "cluster": shown(inputs.task.cluster), "scenario": shown(source),
        "cycles": len(part.cycles), "macrotick_us": network.macrotick,
        "minislots": part.cycle.borders,
        "nodes": nodes, "plan": plan, "faults": [], "idle": [],
        "arrived": ARRIVED, "is_endless": True, "missing": missing, "expectations": 0, "missed": [],
        "ends": {ARRIVED: "as due"}, "errors": (), "marks": OF_RECORDS,
        "is_recording": True, "first_cycle": part.cycles.start,
        "findings": [list(it) for it in findings_of(bus)], "unplaced": [unplaced_row(it) for it in part.unplaced],
        **signals_of(inputs),
    }


def findings_of(bus: Bus) -> Iterable[tuple[int | None, str | None, int | None, str, int | None, int | None, str, int]]:
    """Yields the findings: record, seconds, cycle count, channel, slot, node, words, and the window or -1."""
    found = bus.shown.found
    for note in found.notes:
        place = note.place
        cycle = found.on_axis(place.channel, note.frame.cycle if note.frame is not None else note.cycle)
        if cycle is not None and cycle not in bus.shown.cycles:
            continue
        window = -1 if cycle is None else bus.places.get((cycle, place.slot or 0, place.channel), -1)
        why = visible(note.why if note.name == BACK else f"{note.name}: {note.why}")
        yield place.record, place.seconds, place.cycle, place.channel, place.slot, note.node, why, window


def unplaced_row(frame: Frame) -> list[Any]:
    """Returns a frame that isn't drawn: record, seconds, cycle count, channel, slot, words and data."""
    return [frame.record, frame.seconds, frame.count, frame.channel, frame.slot, visible("; ".join(frame.reasons)),
            frame.data]
