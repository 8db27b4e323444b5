"""The command `monitor`: a recording of a real bus against the cluster, with the reason of each finding."""
import argparse
import os
import re
import subprocess
import sys
from collections.abc import Callable, Iterable, Iterator
from contextlib import ExitStack
from dataclasses import replace
from typing import IO

from musmyrtle.breaking import breaking_off
from musmyrtle.ending import status_of
from musmyrtle.file_kinds import CAPTURE, EXPORT, FLEXRAY, UNPACK, described, kind_of_file, link_types_of
from musmyrtle.findings import counted
from musmyrtle.lint.command import USAGE, Parser, add_forms, formed, is_bold_on, printed, shown_examples, spare
from musmyrtle.output import Stop, pass_on, write
from musmyrtle.program import REFUSED_LINE, Answer, is_launcher, itself, no_answer
from musmyrtle.show.engines import COMMAND, Inputs, foreign, opened, temporary_file
from musmyrtle.show.network import Network
from musmyrtle.show.options import CLUSTER, HELP
from musmyrtle.show.payloads import below, of_record
from musmyrtle.show.recordings import (BACK, FINDING, FRAME, LastFrames, back_row, channel_row, finding_row, found_row,
                                       slot_row, total_row)
from musmyrtle.show.signals import COLUMNS, frames_in
from musmyrtle.show.tables import Column, Row, Section, as_json, as_text
from musmyrtle.signals.receiving import Layouts
from musmyrtle.streams import CLOSED_INPUT, why_unread
from musmyrtle.visible import cut

FOUND, REFUSED = 3, "refused"
MOST_NUMBER = 4294967295
LONGEST_LINE = 120
"""The characters of a line that a message has."""
STANDARD_INPUT, TOTAL = "-", "records "
PURPOSE = ("Compares a recording of a real bus with the cluster. Prints each frame that the schedule doesn't allow,\n"
           "and each missing one, with the reason.")
CLUSTER_FILE, RECORDING_FILE = "examples/three-nodes/cluster.toml", "examples/recordings/disturbed.pcap"
EXAMPLES = (f"monitor {CLUSTER_FILE} {RECORDING_FILE} --whole", f"monitor {CLUSTER_FILE} {RECORDING_FILE} --json")
STATUSES = """status: 0 without a finding, 3 with one, 1 if the cluster file or the recording is refused, 2 if the words
are no command, a program can't be run or fails, or the output can't be written, 130, 143 or 129 if SIGINT, SIGTERM or
SIGHUP broke it off"""
FINDINGS = (Column("record", "record"), Column("seconds", "at [s]"), Column("cycle", "cycle"),
            Column("channel", "channel"), Column("slot", "slot"), Column("node", "node", "name"),
            Column("name", "finding"), Column("expected", ""), Column("found", ""),
            Column("why", "reason", "whole"))
TOTALS = (Column("records", "records"), Column("foreign", "foreign"), Column("symbols", "symbols"),
          Column("skipped", "skipped blocks"))
SPANS = (Column("shortest_us", "shortest [us]"), Column("longest_us", "longest [us]"))
CHANNELS = (Column("channel", "channel"), Column("frames", "frames"), Column("cycles", "cycles"),
            Column("gaps", "gaps"), Column("lost", "lost cycles"), *SPANS)
SLOTS = (Column("slot", "slot"), Column("channel", "channel"), Column("nodes", ""), Column("names", "sender", "whole"),
         Column("data", "data"), Column("null", "null"), Column("missing", "missing"),
         Column("other", "findings"), *SPANS)
REFUSALS = (Column("refusal", "refusal"), Column("why", "reason", "whole"))
COUNTS = (Column("name", "finding"), Column("count", "count"), Column("meaning", "meaning"))


def number_of(word: str, least: int) -> int:
    """Returns the number of a word. Raises `ArgumentTypeError` for another word."""
    if not re.fullmatch(r"[0-9]{1,10}", word) or not least <= int(word) <= MOST_NUMBER:
        raise argparse.ArgumentTypeError(f"{word!r} is no number from {least} to {MOST_NUMBER}")
    return int(word)


def arguments() -> argparse.ArgumentParser:
    """Returns the parser of the command's words."""
    parser = Parser(prog=f"{COMMAND} monitor", description=PURPOSE, epilog=f"{shown_examples(EXAMPLES)}\n{STATUSES}",
                    allow_abbrev=False, formatter_class=argparse.RawDescriptionHelpFormatter)
    add = parser.add_argument
    add("cluster", metavar=CLUSTER, help="a cluster file")
    add("recording", metavar="RECORDING", nargs="?", default=STANDARD_INPUT,
        help="a capture (pcap or pcapng, link type 210) of any length; without it, or for -, standard input")
    add("--findings", metavar="N", type=lambda word: number_of(word, 0), default=20,
        help=f"the most findings of each name to print, 0 to {MOST_NUMBER} (20); all are counted")
    add("--channel", choices=("A", "B"), help="the only channel to judge")
    add("--signals", action="store_true", help=HELP)
    add_judging(parser)
    add_forms(parser)
    return parser


def add_judging(parser: argparse.ArgumentParser) -> None:
    """Adds the options by which a recording is judged."""
    parser.add_argument("--whole", action="store_true", help="the recording begins and ends with whole cycles")
    times = parser.add_mutually_exclusive_group()
    times.add_argument("--times", action="store_true",
                       help="judge times, too, with the macrotick_us of the cluster file")
    times.add_argument("--macrotick", metavar="NS", type=lambda word: number_of(word, 1),
                       help=f"judge times, too, with a macrotick of so many nanoseconds, 1 to {MOST_NUMBER}")


def macrotick(given: argparse.Namespace, network: Network) -> int | None:
    """Returns the nanoseconds of a macrotick, if times are judged."""
    if not given.times:
        return None if given.macrotick is None else int(given.macrotick)
    if network.macrotick is None:
        raise Stop(USAGE, f"{given.cluster} has no macrotick_us; give --macrotick NS")
    nanoseconds = round(network.macrotick * 1000)
    if abs(network.macrotick * 1000 - nanoseconds) > 1e-6 or not 1 <= nanoseconds <= MOST_NUMBER:
        raise Stop(USAGE, f"the macrotick_us of {given.cluster} is no whole number of nanoseconds; give --macrotick NS")
    return nanoseconds


def words_of(given: argparse.Namespace, inputs: Inputs, nanoseconds: int | None) -> list[str]:
    """Returns the words by which the program is asked."""
    words = ["--findings", str(given.findings)]
    words += ["--whole"] if given.whole else []
    words += [] if given.channel is None else ["--channel", given.channel]
    words += [] if nanoseconds is None else ["--macrotick", str(nanoseconds)]
    return [*words, "--", inputs.task.file(inputs.task.cluster)]


def source_of(given: argparse.Namespace, files: ExitStack) -> IO[bytes]:
    """Returns the recording that is given, opened. Raises `Stop` where the cluster file has the same input."""
    if os.path.realpath(given.cluster) == os.path.realpath("/dev/stdin") and given.recording == STANDARD_INPUT:
        raise Stop(USAGE, "the cluster file and the recording can't both come from standard input")
    return recording_of(given.recording, files)


def recording_of(name: str, files: ExitStack) -> IO[bytes]:
    """Returns the recording, opened."""
    if name == STANDARD_INPUT:
        if sys.stdin is None:
            raise Stop(USAGE, f"the recording can't be read: {CLOSED_INPUT}")
        spare([("the recording", "/dev/stdin")])
        return sys.stdin.buffer
    spare([("the recording", name)])
    try:
        return files.enter_context(open(name, "rb"))
    except (OSError, ValueError) as error:
        reason = why_unread(name, error) if isinstance(error, OSError) else str(error)
        raise Stop(USAGE, f"{name} can't be read: {reason}") from None


class Tables:
    """The rows of a recording by their kinds, in the order of the program's lines.

    With LAYOUTS each finding has the signals of its frame below.
    """

    def __init__(self, network: Network, layouts: Layouts | None = None) -> None:
        self.network, self.layouts, self.last = network, layouts, LastFrames()
        self.rows: dict[str, list[Row]] = {it: [] for it in KINDS}

    def add(self, line: str) -> Section | None:
        """Adds the row of a line, and returns it as a table of its own. Lines of other kinds have none."""
        words = line.split(" ")
        if words[0] == FRAME:
            self.last.add(words)
            return None
        if words[0] == FINDING:
            kind, row = FINDING, self.with_signals(finding_row(self.network, words, self.last.sender(words)), words)
        elif words[0] == BACK:
            kind, row = FINDING, self.with_signals(back_row(self.network, words), words)
        elif words[0] == TOTAL.strip():
            kind, row = "total", total_row(words)
        elif words[0] == "channel":
            kind, row = "channel", channel_row(words)
        elif words[0] == "slot":
            kind, row = "slot", slot_row(self.network, words)
        elif words[0] == "found":
            kind, row = "count", found_row(words)
        else:
            return None
        self.rows[kind].append(row)
        return Section(kind, "", KINDS[kind][1], [row], below=COLUMNS)

    def with_signals(self, row: Row, words: list[str]) -> Row:
        """Returns the row of a finding or a return with the signals of its frame below, if they are asked for."""
        if self.layouts is None:
            return row
        frame = self.last.frame(words)
        return replace(row, below=tuple(() if frame is None else below(of_record(frame, self.layouts))))

    def refuse(self, refusal: str, has_front: bool) -> None:
        """Adds the refusal of the recording. If no record of it was judged, there are no other tables."""
        if not has_front or not any(it.values["records"] for it in self.rows["total"]):
            self.rows = {it: [] for it in KINDS}
        self.rows[REFUSED].append(Row({"refusal": refusal, "why": reason_of(refusal)}, True))

    def sections(self) -> list[Section]:
        """Returns all tables. Of a refused recording they don't state that there is no finding."""
        return [Section(kind, title, columns, self.rows[kind], "" if self.rows[REFUSED] else nothing,
                        COLUMNS if kind == FINDING and self.layouts else ())
                for kind, (title, columns, nothing) in KINDS.items()]


KINDS: dict[str, tuple[str, tuple[Column, ...], str]] = {
    REFUSED: ("The recording is refused", REFUSALS, ""), FINDING: ("Findings", FINDINGS, ""),
    "count": ("Counts of findings", COUNTS, "There is no finding."), "total": ("Records", TOTALS, ""),
    "channel": ("Channels", CHANNELS, ""), "slot": ("Slots", SLOTS, ""),
}
"""The kinds of rows, each with a title, columns, and a line for a table without rows."""


def asked(inputs: Inputs, program: str, words: list[str], source: IO[bytes], add: Callable[[str], None]
          ) -> tuple[int, list[str]]:
    """Runs the program on a recording, and returns its status and messages. ADD gets each line as it comes.

    Raises `Stop` where the program can't be run, or prints a line that ADD can't read.
    """
    # A pipe for the messages could fill while the rows are read.
    with temporary_file() as messages:
        try:
            with inputs.children.started([program, *words], stdin=source, stdout=subprocess.PIPE,
                                         stderr=messages) as process:
                for line in process.stdout or ():
                    # A line without an end is that of a program that ended within it, which its status tells.
                    if line.endswith(b"\n"):
                        read(program, line.decode(errors="replace").rstrip("\n"), add)
        except BrokenPipeError:
            raise
        except OSError as error:
            raise inputs.no_start(program, "fr_monitor", error) from None
        messages.seek(0)
        return process.returncode, messages.read().decode(errors="replace").splitlines()


def read(program: str, line: str, add: Callable[[str], None]) -> None:
    """Gives a line to ADD. Raises `Stop` where it isn't a line of this version of the program."""
    try:
        add(line)
    except (IndexError, KeyError, ValueError):
        raise Stop(USAGE, f"{program} prints `{cut(line, LONGEST_LINE)}`, which this version of {COMMAND} can't read"
                   ) from None


def judged(inputs: Inputs, given: argparse.Namespace, source: IO[bytes], add: Callable[[str], None], *more: str
           ) -> tuple[int, list[str]]:
    """Runs the program with the given words and MORE, and returns its status and messages. ADD gets each line.

    Raises `Stop` where the program gives no answer.
    """
    words = [*more, *words_of(given, inputs, macrotick(given, inputs.network))]
    program, totals = inputs.program("fr_monitor"), list[list[str]]()
    program = itself(program) if is_launcher(program) else program

    def noted(line: str) -> None:
        if line.startswith(TOTAL):
            totals.append(line.split(" "))
        add(line)
    status, told = asked(inputs, program, words, source, noted)
    answer = answer_of(status, told)
    if status == USAGE or status != FOUND and not answer.is_one():
        raise Stop(USAGE, no_answer(program, words, answer))
    if not totals and not answer.refusal:
        raise foreign(program, words)
    file = "/dev/stdin" if given.recording == STANDARD_INPUT else given.recording
    return status, told + [f"{COMMAND}: {it}" for it in mistaken(file, total_row(totals[-1]) if totals else None)]


def mistaken(file: str, total: Row | None) -> Iterator[str]:
    """Yields why a recording has no record of FlexRay, with the kind of the file if that is known."""
    if total is None or total.values["records"] != total.values["foreign"]:
        return
    kind, types = kind_of_file(file), link_types_of(file)
    if total.values["records"]:
        others = f"the recording has {described(types)}" if types and types != [FLEXRAY] else "all records are others"
        yield f"no record is of FlexRay: {others}; expected link type {FLEXRAY} (FlexRay), with frames or symbols"
    elif kind is not None and kind is not CAPTURE:
        advice = kind.advice if kind.advice in (EXPORT, UNPACK) else f"expected a capture of link type {FLEXRAY}"
        yield f"the recording is {kind.name}; {advice}"


def answer_of(status: int, told: list[str]) -> Answer:
    """Returns the answer of a program with these messages."""
    refusals = refusals_of(told)
    if refusals:
        return Answer(status, refusals[-1])
    return Answer(status, " ".join(told).strip() or f"status {status}" if status else None, False)


def outcome(given: argparse.Namespace, inputs: Inputs, source: IO[bytes]) -> int:
    """Prints the tables of a recording, and returns the status."""
    # Only an accepted cluster has names, and the reason of a refusal is explained.
    inputs.of_cluster("fr_bench", "check")
    tables = Tables(inputs.network, Layouts(frames_in(inputs)[1]) if given.signals else None)

    def add(line: str) -> None:
        section = tables.add(line)
        if section is not None and given.json and section.kind == FINDING:
            write(sys.stdout, as_json([section]))
    status, told = judged(inputs, given, source, add, "--frames")
    for refusal in refusals_of(told):
        if refusal.split(" ")[0] in OF_RECORDINGS:
            tables.refuse(refusal, has_front(told))
    sections = tables.sections()
    if given.json:
        write(sys.stdout, as_json(it for it in sections if it.kind != FINDING))
    elif any(tables.rows.values()):
        printed(shown(given, sections))
    tell(told)
    return status


def refusals_of(told: list[str]) -> list[str]:
    """Returns the refusals of the recording in the messages of the program, without the word `refused`."""
    return [it.removeprefix("refused ") for it in told if REFUSED_LINE.fullmatch(it)]


def has_front(told: list[str]) -> bool:
    """Returns whether a recording with these messages was judged, or a front of it."""
    return all(it.split(" ")[0] in ENDED_EARLY for it in refusals_of(told))


def tell(told: list[str]) -> None:
    """Passes the messages of the program on, a refusal with its reason."""
    for line in told:
        pass_on(f"{COMMAND}: {explained(line)}" if line.startswith("refused ") else line)


def shown(given: argparse.Namespace, sections: list[Section]) -> Iterable[str]:
    """Returns the tables in the form that is asked for, and for people the number of findings that aren't printed."""
    return formed(given, sections, told_text(sections))


def told_text(sections: list[Section]) -> Iterator[str]:
    """Yields the tables for people."""
    yield from as_text(sections, is_bold_on(sys.stdout))
    by_kind = {it.kind: it.rows for it in sections}
    count = sum(int(str(row.values["count"])) for row in by_kind["count"])
    more = count - sum(row.values["name"] != BACK for row in by_kind[FINDING])
    if more > 0:
        yield f"\n{counted(more, 'further finding')} isn't printed; --findings N prints more\n" if more == 1 else \
            f"\n{counted(more, 'further finding')} aren't printed; --findings N prints more\n"


ENDED_EARLY = ("BadBlock", "Truncated")
"""The refusals of a recording whose front was judged."""
OF_RECORDINGS = ("NoCapture", *ENDED_EARLY)
REASONS = {
    "NoCapture": "the recording is no pcap or pcapng file",
    "BadBlock": "the block or record that begins at byte {} is broken; what came before it was judged",
    "Truncated": "the recording ends within the block that begins at byte {}; what came before it was judged",
    "NoClock": "channel {} has a sender, and no static slot with an owner in cycle {}: without a clock its cycles "
               "aren't known",
}
"""The reasons of refusals, with the words after their names."""


def reason_of(refusal: str) -> str | None:
    """Returns the reason of a refusal, or None where none is known."""
    name, *words = refusal.split(" ")
    reason = REASONS.get(name)
    return None if reason is None or reason.count("{}") != len(words) else reason.format(*words)


def explained(line: str) -> str:
    """Returns a refusal with its reason."""
    reason = reason_of(line.removeprefix("refused "))
    return f"{line}: {reason}" if reason else line


def main(words: list[str]) -> int:
    """Does the command, and returns the status."""
    def work() -> int:
        with breaking_off(), ExitStack() as files:
            given = arguments().parse_args(words)
            source = source_of(given, files)
            with opened(given.cluster) as inputs:
                status = outcome(given, inputs, source)
        return status
    return status_of(COMMAND, work)
