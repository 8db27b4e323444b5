"""The command `page`: one file in which a run is explored in a browser, without a network."""
import argparse
import base64
import re
import sys
import zlib
from contextlib import ExitStack, suppress
from html import escape
from pathlib import Path
from typing import IO

from musmyrtle.breaking import breaking_off
from musmyrtle.ending import status_of
from musmyrtle.lint.command import Parser, shown_examples
from musmyrtle.output import pass_on, write
from musmyrtle.show.engines import COMMAND, Awaited, Inputs, opened
from musmyrtle.show.facts import Facts
from musmyrtle.show.monitor import MOST_NUMBER, add_judging, explained, has_front, source_of, tell
from musmyrtle.show.options import CLUSTER, SCENARIO, statuses
from musmyrtle.show.page_columns import header_in
from musmyrtle.show.page_data import packed_run
from musmyrtle.show.page_endless import packed_endless
from musmyrtle.show.page_recording import packed_recording, range_of, recorded
from musmyrtle.visible import visible
from musmyrtle.world.bounds import MOST_CYCLES, MOST_ENDLESS

FILES = Path(__file__).with_name("page_files")
SCRIPTS = ("decode", "run", "lines", "cells", "view", "layout", "find", "buffers", "details", "slots", "recording",
           "paint", "panel", "explore")
"""The scripts of the page, each after those that it uses."""
SIGNAL_SCRIPTS = ("layouts", "series", "plots")
"""The scripts of a page with signals, after the others."""
PURPOSE = ("Writes a page in which a run is explored in a browser: what was sent when, what each node received, and\n"
           "what came of each commit. With --recording it is the page of a recording of a real bus, with its findings.")
EXAMPLE = ("page examples/three-nodes/cluster.toml examples/three-nodes/scenario --cycles 4 > run.html",
           "page examples/three-nodes/cluster.toml --recording examples/recordings/disturbed.pcap > run.html")
OF_RECORDING = ("The page of an endless run has status 5 if the scenario has expectations, since none is judged.\n"
                "With --recording the statuses are those of `musmyrtle monitor`: 3 if there is a finding.")
LONGEST_TITLE = 100
NO_ROOM = "NoRoom"
"""The refusal of a run whose history has no room."""
GOES_ON = (f"{COMMAND}: the history of this run has no room, so the page is that of an endless run, as with --endless")


def page_of(facts: Facts) -> str:
    """Returns the page of a run. Raises `Stop` where the run is refused."""
    return assembled(packed_run(facts), f"Run of {facts.inputs.task.cluster}")


def page_of_run(inputs: Inputs, is_endless: bool) -> str:
    """Returns the page of a run, or of an endless one if it is asked for or if the history of the run has no room."""
    if not is_endless:
        inputs.awaited = frozenset((NO_ROOM,))
        try:
            return page_of(Facts(inputs))
        except Awaited:
            inputs.awaited = frozenset()
            pass_on(GOES_ON)
    return assembled(packed_endless(inputs), f"Run of {inputs.task.cluster}")


def page_of_recording(inputs: Inputs, given: argparse.Namespace, source: IO[bytes]) -> tuple[str | None, int]:
    """Returns the page of a recording, and the status. A recording that is refused from its start has no page."""
    found, status, told = recorded(inputs, given, source)
    page = None
    if has_front(told):
        cut_off = "; ".join(explained(it) for it in told if it.startswith("refused "))
        page = assembled(packed_recording(inputs, given, found, cut_off), f"Recording of {inputs.task.cluster}")
    tell(told)
    return page, status


def assembled(data: bytes, title: str) -> str:
    """Returns the page of packed data.

    Whatever the names in the data hold, the page has of them only the signs of base 64, and the title.
    """
    has_signals = "signals" in header_in(data)
    parts = {
        "TITLE": escape(visible(title[:LONGEST_TITLE])), "STYLE": file("page.css") + file("plots.css") * has_signals,
        "SCRIPT": script(SCRIPTS + SIGNAL_SCRIPTS * has_signals), "SIGNALS": file("plots.html") * has_signals,
        "THEN": ".then(showSignals)" * has_signals, "DATA": base64.b64encode(zlib.compress(data, 9)).decode("ascii"),
    }
    before, *pieces = file("page.html").split("{{")
    made = [before]
    for piece in pieces:
        name, _, rest = piece.partition("}}")
        made += [parts[name], rest]
    return "".join(made)


def file(name: str) -> str:
    """Returns the text of a file of the page."""
    return (FILES / name).read_text(encoding="utf-8")


def script(names: tuple[str, ...]) -> str:
    """Returns some scripts as one."""
    return "\n".join(file(f"{it}.js") for it in names)


def arguments() -> argparse.ArgumentParser:
    """Returns the parser of the command's words."""
    parser = Parser(prog=f"{COMMAND} page", description=PURPOSE, allow_abbrev=False,
                    epilog=f"{shown_examples(EXAMPLE)}\n{statuses(has_run=True)}\n{OF_RECORDING}",
                    formatter_class=argparse.RawDescriptionHelpFormatter)
    parser.add_argument("cluster", metavar=CLUSTER, help="a cluster file")
    add = parser.add_argument
    add("scenario", metavar=SCENARIO, nargs="?", help="a scenario of this cluster")
    add("--cycles", metavar="N",
        help=f"the cycles of the run, 1 to {MOST_CYCLES}, or more with --endless; with --recording the cycles to show, "
             "as 0-63, or all without it")
    add("--endless", action="store_true",
        help="the page of a run without history, of up to 4,000,000 static slots and minislots in all its cycles; a "
             "run whose history has no room gets such a page in any case")
    add("--recording", metavar="RECORDING",
        help="the page of this capture (pcap or pcapng, link type 210) in the place of a run; - is standard input")
    add_judging(parser)
    return parser


def int_of_cycles(word: str) -> int:
    """Returns the number of cycles of a word. Raises an error with the numbers that are allowed."""
    if not re.fullmatch(r"[1-9][0-9]{0,6}", word) or int(word) > MOST_ENDLESS:
        raise argparse.ArgumentTypeError(f"{word!r} is no number from 1 to {MOST_CYCLES}, or with --endless to "
                                         f"{MOST_ENDLESS}")
    return int(word)


def parsed(words: list[str]) -> argparse.Namespace:
    """Returns the words of the command. Ends with status 2 for wrong ones."""
    parser = arguments()
    given = parser.parse_args(words)
    if given.recording is not None and (given.scenario is not None or given.endless):
        parser.error(f"--recording takes the place of {SCENARIO} and --endless")
    if given.recording is None:
        check_run(parser, given)
    try:
        if given.recording is None:
            given.cycles = int_of_cycles(given.cycles)
        elif given.cycles is not None:
            given.cycles = range_of(given.cycles)
    except argparse.ArgumentTypeError as error:
        parser.error(f"argument --cycles: {error}")
    if given.recording is None and given.cycles > MOST_CYCLES and not given.endless:
        parser.error(f"a run of {given.cycles} cycles needs --endless: without it there are 1 to {MOST_CYCLES}")
    given.findings, given.channel = MOST_NUMBER, None
    return given


def check_run(parser: argparse.ArgumentParser, given: argparse.Namespace) -> None:
    """Ends with status 2 where the words of a run are missing, or are those of a recording."""
    absent = [name for name, value in ((SCENARIO, given.scenario), ("--cycles", given.cycles)) if value is None]
    if absent:
        parser.error(f"the following arguments are required: {', '.join(absent)}")
    alone = {"--whole": given.whole, "--times": given.times, "--macrotick": given.macrotick is not None}
    for name in (it for it, is_given in alone.items() if is_given):
        parser.error(f"{name} needs --recording")


def done_run(given: argparse.Namespace) -> int:
    """Writes the page of a run, and returns the status."""
    with opened(given.cluster, given.scenario, given.cycles) as inputs:
        text = page_of_run(inputs, given.endless)
    with suppress(BrokenPipeError):
        write(sys.stdout, [text])
    return inputs.status


def done_recording(given: argparse.Namespace) -> int:
    """Writes the page of a recording, and returns the status of `musmyrtle monitor`."""
    with ExitStack() as files:
        source = source_of(given, files)
        with opened(given.cluster) as inputs:
            text, status = page_of_recording(inputs, given, source)
    if text is not None:
        with suppress(BrokenPipeError):
            write(sys.stdout, [text])
    return status


def main(words: list[str]) -> int:
    """Does the command, and returns the status."""
    def work() -> int:
        with breaking_off():
            given = parsed(words)
            return done_recording(given) if given.recording is not None else done_run(given)
    return status_of(COMMAND, work)
