"""Signals of a recording: a row for each signal of each slot in which its frame is due, and a picture of them."""
import argparse
import sys
from collections.abc import Callable, Iterator
from contextlib import ExitStack

from musmyrtle.findings import counted
from musmyrtle.lint.command import formed, is_bold_on, printed
from musmyrtle.output import pass_on, write
from musmyrtle.show.choice import Words
from musmyrtle.show.engines import COMMAND, opened
from musmyrtle.show.monitor import MOST_NUMBER, STANDARD_INPUT, judged, source_of, tell
from musmyrtle.show.network import Network
from musmyrtle.show.pictures import write_picture
from musmyrtle.show.plot import Axis
from musmyrtle.show.recorded_dues import Heard, RecordedDues
from musmyrtle.show.samples import LOST, Holdings, Sample
from musmyrtle.show.selection import Selection, known_places, numbers_of_nodes
from musmyrtle.show.series import USUAL_PERIODS, Series
from musmyrtle.show.signal_table import WHAT, values_of
from musmyrtle.show.signals import frames_in
from musmyrtle.show.tables import Column, Row, Section, Value, as_json, as_text
from musmyrtle.show.windows import CHANNELS
from musmyrtle.signals.frames import Frames
from musmyrtle.signals.layout import Layout
from musmyrtle.signals.receiving import Destination, Layouts, routes_of
from musmyrtle.signals.signal import Signal

KIND, NOTHING = "recorded", "No signal is selected."
AGE = "from the slot of the last good data frame on the channel to this slot"


def columns(network: Network) -> tuple[Column, ...]:
    """Returns the columns of signals in a recording."""
    return (Column("record", "record"), Column("seconds", "at [s]"), Column("cycle", "cycle"), Column("slot", "slot"),
            Column("channel", "channel"), Column("sender", "sender", "name"), Column("frame", "frame"),
            Column("signal", "signal", "whole"), Column("value", "value"), Column("unit", "unit"),
            Column("name", "name"), Column("raw", "raw", "bytes"), Column("in_range", ""),
            network.column("age", "age", AGE), Column("what", "what", words=WHAT))


class Chosen:
    """The signals that are chosen of each frame, by the names of frames and signals, or all of them."""

    def __init__(self, names: frozenset[tuple[str, str]] | None) -> None:
        self.names = names
        self.known: dict[str, tuple[Signal, ...]] = {}

    def of(self, _: Destination, layout: Layout) -> tuple[Signal, ...]:
        """Returns the chosen signals of a frame, which are the same on both channels."""
        if layout.name not in self.known:
            self.known[layout.name] = tuple(it for name, it in layout.signals.items()
                                            if self.names is None or (layout.name, name) in self.names)
        return self.known[layout.name]


class ChannelSeries(Series):
    """The lines of plots: one for each slot of each channel."""

    def __init__(self, network: Network, frames: Frames, limit: int | None) -> None:
        super().__init__(network, (), limit)
        self.frames = frames

    def line_limit(self, it: Sample) -> int | None:
        """Returns the age above which a value is stale: two periods of a state frame."""
        if self.limit is not None:
            return self.limit
        senders = [its for its in self.frames.senders.get(it.due.slot, ())
                   if self.frames.claims.get((its.node, its.number)) is it.layout]
        if any(its.kind != "state" for its in senders):
            return None
        cycle = self.network.cluster.parameters.cycle_mt
        return max((its.cycles.repetition * cycle * USUAL_PERIODS for its in senders), default=None)

    def receiver(self, it: Destination) -> str:
        """Returns the words for a slot of a channel."""
        return f"channel {CHANNELS[it.node]}, slot {it.buffer}"


class Recorded:
    """The selected signals of a recording, whose lines are added one by one. A picture has the same."""

    def __init__(self, dues: RecordedDues, selection: Selection, names: frozenset[tuple[str, str]] | None,
                 series: ChannelSeries | None) -> None:
        self.dues, self.network, self.selection, self.series = dues, dues.network, selection, series
        self.holdings = Holdings(Chosen(names).of)

    def add(self, line: str) -> Iterator[Row]:
        """Adds a line, and yields the rows of the slots that are known by it."""
        return self.rows(self.dues.add(line))

    def end(self) -> Iterator[Row]:
        """Yields the rows at the end."""
        return self.rows(self.dues.end())

    def rows(self, dues: Iterator[Heard]) -> Iterator[Row]:
        """Yields the rows of slots."""
        chosen = self.selection
        for due in dues:
            if not chosen.has_node(due.sender) or not chosen.has_place(due.slot, due.channels):
                continue
            front: dict[str, Value] = {
                "record": due.record, "seconds": due.seconds, "cycle": due.cycle, "slot": due.slot,
                "channel": due.channels, "sender": self.network.node(due.sender)}
            for it in self.holdings.samples((due,)):
                if self.series is not None:
                    self.series.add(it, None, False)
                is_error = it.what == LOST or it.read is not None and not it.read.is_in_range
                if is_error or not chosen.is_errors:
                    age = None if it.age is None else self.network.time(it.age)
                    yield Row({**front, "frame": it.layout.name, **values_of(it.signal, it.read), "age": age,
                               "what": it.what}, is_error)


def names_of(given: argparse.Namespace, frames: Frames, network: Network) -> frozenset[tuple[str, str]] | None:
    """Returns the frames and signals that words and options choose, or None for all. Raises `Stop`."""
    words = Words(network, routes_of(frames))
    places = words.chosen(given.signals)
    found = None if places is None else {(it.frame, it.signal) for it in places}
    if given.signal:
        wanted = {part for word in given.signal for part in word.split(",")}
        known = {(it.layout.name, name) for it in words.routes for name in it.layout.signals if name in wanted}
        found = known if found is None else found & known
    return None if found is None else frozenset(found)


def done_recording(given: argparse.Namespace) -> int:
    """Prints the signals of a recording, and returns the status of `musmyrtle monitor`."""
    with ExitStack() as files:
        source = source_of(given, files)
        with opened(given.cluster) as inputs:
            frames = frames_in(inputs)[1]
            network = inputs.network
            selection = Selection(numbers_of_nodes(given.node, network), known_places(given.slot, inputs, False),
                                  None if given.channel is None else frozenset(given.channel), None, given.errors,
                                  None, network.cluster.parameters.static_slots)
            limit = given.stale and int(given.stale.macroticks(network))
            series = None if given.svg is None else ChannelSeries(network, frames, limit)
            found = Recorded(RecordedDues(network, Layouts(frames), given.whole), selection,
                             names_of(given, frames, network), series)
            # `fr_monitor` judges both channels, whichever is printed.
            words = argparse.Namespace(**{**vars(given), "channel": None})
            status = printed_rows(given, found, lambda add: judged(inputs, words, source, add, "--frames"))
    return status


def printed_rows(given: argparse.Namespace, found: Recorded,
                 judge: Callable[[Callable[[str], None]], tuple[int, list[str]]]) -> int:
    """Prints the rows: with --json as they come, and otherwise at the end. Returns the status."""
    rows: list[Row] = []
    shown = columns(found.network)

    def keep(made: Iterator[Row]) -> None:
        its = list(made)
        if given.json:
            write(sys.stdout, as_json([Section(KIND, "", shown, its)]))
        else:
            rows.extend(its)
    status, told = judge(lambda line: keep(found.add(line)))
    keep(found.end())
    if not given.json:
        table = [Section(KIND, "", shown, rows, NOTHING)]
        printed(formed(given, table, as_text(table, is_bold_on(sys.stdout))))
    if found.series is not None:
        draw(given, found, found.series)
    tell(told)
    if found.dues.left_out:
        pass_on(f"{COMMAND}: {counted(found.dues.left_out, 'frame')} with a finding left out; `{COMMAND} monitor` "
                "names the findings")
    return status


def draw(given: argparse.Namespace, found: Recorded, series: ChannelSeries) -> None:
    """Writes the picture of a recording."""
    network, (first, end) = found.network, found.dues.cycles
    cycle = network.cluster.parameters.cycle_mt
    series.end(end * cycle)
    source = "standard input" if given.recording == STANDARD_INPUT else given.recording
    title = f"Signals of {given.cluster} in the recording {source}, {counted(end - first, 'cycle')}"
    write_picture(given.svg, title, series, Axis.of(first * cycle, end * cycle, network.macrotick))


def prepared(given: argparse.Namespace) -> None:
    """Adds the words by which `fr_monitor` judges a recording."""
    given.findings = MOST_NUMBER
