"""The command `signals`: signals over time, as each receiver of a run has them, as a table and as a picture."""
import argparse
import os
import sys
from collections.abc import Generator, Iterable, Iterator
from contextlib import ExitStack, closing
from functools import partial

from musmyrtle.breaking import breaking_off
from musmyrtle.ending import FINE, status_of
from musmyrtle.findings import counted
from musmyrtle.lint.command import REFUSED, Parser, add_forms, formed, is_bold_on, printed, shown_examples
from musmyrtle.missed import MISSED, UNJUDGED
from musmyrtle.output import Stop, pass_on
from musmyrtle.selections import some_cycles
from musmyrtle.show.ages import age_of
from musmyrtle.show.arrivals import Arrivals, Due
from musmyrtle.show.choice import Chosen, Words, known_names
from musmyrtle.show.engines import COMMAND, Awaited, Inputs, opened
from musmyrtle.show.facts import Facts
from musmyrtle.show.monitor import STANDARD_INPUT, add_judging, recording_of
from musmyrtle.show.options import CLUSTER, SCENARIO, add_places, statuses
from musmyrtle.show.page import NO_ROOM, int_of_cycles
from musmyrtle.show.pictures import add_commits, spare, write_picture
from musmyrtle.show.plot import Axis
from musmyrtle.show.samples import Holdings, Sample
from musmyrtle.show.selection import Selection, known_buffers, known_places, numbers_of_nodes
from musmyrtle.show.series import Series
from musmyrtle.show.session_record import SessionArrivals, lines_in
from musmyrtle.show.signal_expectations import BadExpectations, Expectation, expectations_in
from musmyrtle.show.signal_judging import MISSED as UNMET
from musmyrtle.show.signal_judging import UNJUDGED as NEVER
from musmyrtle.show.signal_judging import Judge
from musmyrtle.show.signal_judging import section as expectations_section
from musmyrtle.show.signal_recording import done_recording, prepared
from musmyrtle.show.signal_runs import Faults, Run, add_faults, check_faults, runs_of
from musmyrtle.show.signal_table import Rows, section
from musmyrtle.show.signals import frames_in, tell_faults
from musmyrtle.show.tables import Row, Section, as_text
from musmyrtle.show.wireshark import write_tables
from musmyrtle.signals.frames import Frames
from musmyrtle.signals.layout import Layout
from musmyrtle.signals.receiving import Destinations, Layouts, routes_of
from musmyrtle.world.bounds import MOST_CYCLES

PURPOSE = ("Prints signals over time, as each receiver has them: a row for each window in which a receive buffer or a\n"
           "receive FIFO is due to get a frame with signals, with value and age, and whether the frame came.")
OF_SIGNALS = "examples/signals/cluster.toml examples/signals/scenario --cycles 4"
EXAMPLES = (f"signals {OF_SIGNALS} brake.speed", f"signals {OF_SIGNALS} --node dashboard --signal speed,gear --csv",
            f"signals {OF_SIGNALS} brake.speed --svg speed.svg --each-fault-of engine > table")
GOES_ON = f"{COMMAND}: the history of this run has no room, so the run is an endless one, as with --endless"


def arguments() -> argparse.ArgumentParser:
    """Returns the parser of the command's words."""
    parser = Parser(prog=f"{COMMAND} signals", description=PURPOSE, allow_abbrev=False,
                    epilog=f"{shown_examples(EXAMPLES)}\n{statuses(has_run=True)}",
                    formatter_class=argparse.RawDescriptionHelpFormatter)
    add = parser.add_argument
    add("cluster", metavar=CLUSTER, help="a cluster file with frames and signals")
    add("scenario", metavar=SCENARIO, nargs="?", help="a scenario of this cluster")
    add("signals", metavar="NODE.SIGNAL", nargs="*",
        help="only these signals at these receivers, as brake.speed, brake.engine.speed for one buffer, or brake.* for "
             "all of a receiver")
    add("--cycles", metavar="N", type=int_of_cycles,
        help=f"the cycles of the run, 1 to {MOST_CYCLES}, or more with --endless")
    add("--endless", action="store_true",
        help="a run without history, of up to 4,000,000 cycles; a run whose history has no room is one in any case")
    add_choice(parser)
    add("--recording", metavar="RECORDING",
        help="the signals of this capture (pcap or pcapng, link type 210) in the place of a run, on each channel; - is "
             "standard input, and nodes are the senders. Frames with a finding are lost, and counted")
    add_judging(parser)
    add("--record", metavar="RECORD",
        help="the signals of a session in the place of a run, by the file that `fr_world --record` wrote; - is "
             "standard input")
    add("--wireshark", metavar="FOLDER",
        help="write tables of Wireshark's dissector of signals into this folder, a profile of Wireshark, and do no "
             "more; standard error names what they can't say")
    add("--expect", metavar="FILE",
        help="judge the expectations of this file, as `brake.speed 0-9 >= 80`, `brake.speed * age <= 10ms` or "
             "`brake.speed * lost 0`, each in a line; samples are printed only if words or options choose some")
    add("--svg", metavar="FILE",
        help="write a picture, too, with a plot of each signal and a line for each receiver")
    add("--stale", metavar="AGE", type=age_of,
        help="the age above which a line is grey, as 10ms or 3cycles; otherwise two periods of a state frame")
    add_faults(parser)
    add_forms(parser)
    return parser


def add_choice(parser: argparse.ArgumentParser) -> None:
    """Adds the options that select signals and rows."""
    add_places(parser)
    add = parser.add_argument
    add("--buffer", metavar="[NODE.]BUFFER,..", action="append", default=[],
        help="only rows of these receive buffers, as brake.engine or 2.0-1, or of one of each --node, as engine")
    add("--signal", metavar="SIGNAL,..", action="append", default=[],
        help="only rows of these signals, at each of the receivers")
    add("--in-cycles", metavar="CYCLE,..", type=some_cycles,
        help="only rows of these cycles of the run, as 0-10/2,13, or * for all")
    add("--errors", action="store_true", help="only rows of lost frames, and of values out of their limits")


def parsed(words: list[str]) -> argparse.Namespace:
    """Returns the words of the command. Ends with status 2 for wrong ones."""
    parser = arguments()
    given = parser.parse_intermixed_args(words)
    if given.wireshark is not None:
        return given
    check_picture(parser, given)
    if given.recording is not None:
        return of_recording(parser, given)
    if given.record is not None:
        return of_record(parser, given)
    absent = [name for name, value in ((SCENARIO, given.scenario), ("--cycles", given.cycles)) if value is None]
    if absent:
        parser.error(f"the following arguments are required: {', '.join(absent)}")
    alone = {"--whole": given.whole, "--times": given.times, "--macrotick": given.macrotick is not None}
    for name in (it for it, is_given in alone.items() if is_given):
        parser.error(f"{name} needs --recording")
    if given.cycles > MOST_CYCLES and not given.endless:
        parser.error(f"a run of {given.cycles} cycles needs --endless: without it there are 1 to {MOST_CYCLES}")
    missing = given.in_cycles and given.in_cycles.missing(given.cycles)
    if missing is not None:
        parser.error(f"the run has no cycle {missing}: it has {counted(given.cycles, 'cycle')}")
    check_faults(parser, given)
    return given


def check_picture(parser: argparse.ArgumentParser, given: argparse.Namespace) -> None:
    """Ends with status 2 where an option for the picture stands alone."""
    if given.stale is not None and given.svg is None:
        parser.error("--stale wants --svg FILE")


def of_record(parser: argparse.ArgumentParser, given: argparse.Namespace) -> argparse.Namespace:
    """Returns the words about a session, which has no scenario. Ends with status 2 for those of runs."""
    without_run(parser, given, "--record", {})
    if given.record == STANDARD_INPUT and os.path.realpath(given.cluster) == os.path.realpath("/dev/stdin"):
        parser.error("the cluster file and the record can't both come from standard input")
    return given


def without_run(parser: argparse.ArgumentParser, given: argparse.Namespace, name: str, more: dict[str, object]) -> None:
    """Takes the word for a scenario as one for signals. Ends with status 2 for the words of runs, and for MORE."""
    if given.scenario is not None:
        given.signals, given.scenario = [given.scenario, *given.signals], None
    of_runs = {"--cycles": given.cycles, "--endless": given.endless, "--fault": given.fault,
               "--each-fault-of": given.each_fault_of, **more}
    for word in (it for it, value in of_runs.items() if value):
        parser.error(f"{word} is for a run, and doesn't go with {name}")


def of_recording(parser: argparse.ArgumentParser, given: argparse.Namespace) -> argparse.Namespace:
    """Returns the words about a recording, which has no scenario. Ends with status 2 for those of runs."""
    without_run(parser, given, "--recording", {
        "--expect": given.expect, "--buffer": given.buffer, "--in-cycles": given.in_cycles, "--record": given.record})
    prepared(given)
    return given


class Asked:
    """The signals and receivers that the words of the command select, of a cluster file that is accepted.

    RECORD has the lines of the record of a session, if there is one in the place of runs.
    """

    def __init__(self, given: argparse.Namespace, inputs: Inputs, frames: Frames,
                 record: Iterable[str] | None = None) -> None:
        network = inputs.network
        self.record = record
        self.inputs, self.frames, self.network = inputs, frames, network
        self.selection = selection_of(given, inputs)
        self.routes = routes_of(frames)
        words = Words(network, self.routes)
        self.words = words
        names = known_names(given.signal, self.routes)
        self.chosen = Chosen(self.routes, words.chosen(given.signals), self.selection, names)
        self.expectations = expected(given, self)
        more = [place for it in self.expectations or () for place in it.places]
        self.needed = self.chosen.with_places(more, self.routes) if more else self.chosen
        self.destinations, self.layouts = Destinations(frames.cluster), Layouts(frames)

    def arrivals(self, run: Run, is_endless: bool) -> Arrivals:
        """Returns the windows of a run, or of the session."""
        run.inputs.is_endless = is_endless
        wanted = self.destinations, self.layouts, self.needed.wants
        if self.record is not None:
            return SessionArrivals(run.inputs, *wanted, self.record)
        return Arrivals(run.inputs, *wanted, is_endless)

    def samples(self, arrivals: Arrivals, judge: Judge | None) -> Iterator[Sample]:
        """Yields the samples of windows, which are judged on the way. Raises `Stop` where their run is refused."""
        holdings = Holdings(self.needed.of)
        dues: Iterable[Due] = arrivals
        if judge is not None:
            dues = judge.watch(arrivals, holdings)
        found = holdings.samples(dues)
        if self.needed is self.chosen:
            return found
        return (it for it in found if it.signal in self.chosen.of(it.due.destination, it.layout))

    def slots(self) -> set[int]:
        """Returns the slots of the frames that have the chosen signals."""
        return {it.sender.slot for it in self.routes if self.chosen.of(it.destination, it.layout)}

    def senders(self) -> dict[tuple[int, int], Layout]:
        """Returns the frames that have the chosen signals, by the nodes and numbers of their transmit buffers."""
        return {(it.sender.node, it.sender.number): it.layout for it in self.routes
                if self.chosen.of(it.destination, it.layout)}


def selection_of(given: argparse.Namespace, inputs: Inputs) -> Selection:
    """Returns the rows that the words select, by the node and the buffer of the receiver."""
    network = inputs.network
    nodes = numbers_of_nodes(given.node, network)
    return Selection(nodes, known_places(given.slot, inputs, False),
                     None if given.channel is None else frozenset(given.channel),
                     frozenset(given.in_cycles.numbers) if given.in_cycles else None, given.errors,
                     known_buffers(given.buffer, nodes, network), network.cluster.parameters.static_slots)


def expected(given: argparse.Namespace, asked: Asked) -> list[Expectation] | None:
    """Returns the expectations of the file that is given, or None. Raises `Stop` after the reasons of its faults."""
    if given.expect is None:
        return None
    try:
        return expectations_in(given.expect, asked.network, asked.words)
    except BadExpectations as error:
        tell_faults(f"the expectations of {given.expect} are refused", error.findings)
        raise Stop(REFUSED) from None


class Shown:
    """A table of runs, and their picture if one is wanted."""

    def __init__(self, given: argparse.Namespace, asked: Asked, is_endless: bool) -> None:
        self.given, self.asked, self.is_endless = given, asked, is_endless
        self.has_faults = bool(given.fault or given.each_fault_of)
        limit = given.stale and int(given.stale.macroticks(asked.network))
        self.judgements: list[Row] = []
        self.outcomes: set[str] = set()
        self.series = None if given.svg is None else Series(asked.network, asked.routes, limit)
        self.cycles = 0

    def rows(self, runs: Iterable[Run]) -> Generator[Row, None, None]:
        """Yields the rows of all runs. On the way the lines of the picture are collected."""
        asked = self.asked
        for run in runs:
            arrivals = asked.arrivals(run, self.is_endless)
            judge = None if asked.expectations is None else Judge(asked.expectations, asked.network, asked.words,
                                                                  partial(getattr, arrivals, "cycles"))
            samples = self.noted(asked.samples(arrivals, judge), run.fault)
            yield from Rows(asked.network, asked.selection, run.fault).of(samples)
            self.cycles = arrivals.cycles
            if judge:
                self.judgements += judge.rows(run.fault)
                self.outcomes |= judge.outcomes

    def noted(self, samples: Iterable[Sample], fault: str | None) -> Iterator[Sample]:
        """Yields samples, and adds them to the lines of the picture."""
        for it in samples:
            if self.series:
                self.series.add(it, fault, self.has_faults)
            yield it

    def show(self, runs: Iterable[Run]) -> None:
        """Prints the tables, and writes the picture."""
        with closing(self.rows(runs)) as made:
            # The first row says whether the run is refused, before anything is printed.
            first = next(made, None)
            rows = () if first is None else chained(first, made)
            tables = self.tables(rows)
            printed(formed(self.given, tables, as_text(tables, is_bold_on(sys.stdout))))
            for _ in made:
                # The reader of the table may have gone, but the picture is whole, and all is judged.
                pass
        if self.series:
            self.draw(self.series)

    def draw(self, series: Series) -> None:
        """Writes the picture. A record has no commits."""
        given, network = self.given, self.asked.network
        cycle = network.cluster.parameters.cycle_mt
        chosen = given.in_cycles.numbers if given.in_cycles else range(max(1, self.cycles))
        series.end(self.cycles * cycle)
        if self.asked.record is None:
            add_commits(self.asked.inputs, self.asked.senders(), series)
        source = given.scenario if given.record is None else f"the session of {given.record}"
        title = f"Signals of {given.cluster} with {source}, {counted(self.cycles, 'cycle')}"
        write_picture(given.svg, title, series, Axis.of(chosen[0] * cycle, (chosen[-1] + 1) * cycle, network.macrotick))

    def tables(self, rows: Iterable[Row]) -> list[Section]:
        """Returns the tables: of samples, and of expectations. Beside these, samples are printed only if some are
        chosen."""
        network, has_expectations = self.asked.network, self.asked.expectations is not None
        found = [section(network, rows, self.has_faults)] if self.has_samples else []
        # The verdicts are known once all samples are made.
        verdicts = self.verdicts(() if found else rows)
        return [*found, *([expectations_section(network, verdicts, self.has_faults)] if has_expectations else [])]

    @property
    def has_samples(self) -> bool:
        """Returns whether samples are printed."""
        given = self.given
        options = given.node, given.slot, given.channel, given.buffer, given.signal, given.in_cycles, given.errors
        return self.asked.expectations is None or bool(given.signals) or any(options)

    def verdicts(self, rows: Iterable[Row]) -> Iterator[Row]:
        """Yields the rows of expectations, after the rest of the samples."""
        for _ in rows:
            pass
        yield from self.judgements

    @property
    def status(self) -> int:
        """Returns the status that the expectations have."""
        return MISSED if UNMET in self.outcomes else UNJUDGED if NEVER in self.outcomes else FINE


def chained(first: Row, rows: Iterator[Row]) -> Iterator[Row]:
    """Yields a row, and then all others."""
    yield first
    yield from rows


def done(given: argparse.Namespace, inputs: Inputs) -> int:
    """Does the command about inputs, and returns the status."""
    asked = Asked(given, inputs, frames_in(inputs)[1])
    faults = Faults(given, inputs, Facts(inputs), asked.slots())
    inputs.awaited = frozenset() if given.endless else frozenset((NO_ROOM,))
    with runs_of(faults) as runs:
        shown = Shown(given, asked, given.endless)
        try:
            shown.show(runs())
        except Awaited:
            inputs.awaited = frozenset()
            pass_on(GOES_ON)
            shown = Shown(given, asked, True)
            shown.show(runs())
    found = {inputs.status, shown.status}
    return MISSED if MISSED in found else max(found)


def done_record(given: argparse.Namespace) -> int:
    """Does the command about the record of a session, and returns the status."""
    with ExitStack() as files, opened(given.cluster) as inputs:
        frames = frames_in(inputs)[1]
        lines = lines_in(given.record, recording_of(given.record, files), frames.cluster)
        shown = Shown(given, Asked(given, inputs, frames, lines), True)
        shown.show([Run(None, inputs)])
    return shown.status


def done_tables(given: argparse.Namespace) -> int:
    """Writes the tables for Wireshark, and returns the status."""
    with opened(given.cluster) as inputs:
        notes = write_tables(given.wireshark, frames_in(inputs)[1])
    for it in notes:
        pass_on(f"{COMMAND}: {it}")
    return FINE


def main(words: list[str]) -> int:
    """Does the command, and returns the status."""
    def work() -> int:
        with breaking_off():
            given = parsed(words)
            if given.wireshark is not None:
                return done_tables(given)
            spare(given.svg, [("the cluster file", given.cluster), ("the scenario", given.scenario),
                              ("the recording", given.recording), ("the record", given.record),
                              ("the file of --expect", given.expect)])
            if given.recording is not None:
                return done_recording(given)
            if given.record is not None:
                return done_record(given)
            with opened(given.cluster, given.scenario, given.cycles) as inputs:
                return done(given, inputs)
    return status_of(COMMAND, work)
