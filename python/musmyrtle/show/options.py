"""The words of the commands that print tables."""
import argparse
from dataclasses import dataclass
from textwrap import fill

from musmyrtle.findings import counted
from musmyrtle.lint.command import Parser, add_forms, shown_examples
from musmyrtle.lint.command import cycles_of as number_of_cycles
from musmyrtle.selections import channels_of, places_in, some_cycles

HELP = ("below each row also the signals of its payload, by the frames of the cluster file: a line for each in a text, "
        "a key `signals` with --json, and a row of the kind `signal` for each with --csv")

CLUSTER, SCENARIO = "CLUSTER", "SCENARIO"
WIDTH = 110


@dataclass(frozen=True)
class Words:
    """The words of a command: whether it takes a run, and whether its rows can be selected by place, by cycle and by
    buffer."""

    has_run: bool = False
    has_places: bool = False
    has_cycles: bool = False
    has_buffers: bool = False


def statuses(has_run: bool) -> str:
    """Returns the paragraph of a help that has the statuses of a command, with those of runs if it does one."""
    missed = "3 if it is done and the run missed expectations of the scenario, " if has_run else ""
    return fill("status: 0 if it is done, 1 if the cluster file, the scenario or the run is refused, with the reason "
                "as by `musmyrtle lint`, 2 if the words are no command, a program can't be run or fails, or the output "
                f"can't be written, {missed}130, 143 or 129 if SIGINT, SIGTERM or SIGHUP broke it off", WIDTH)


def arguments(name: str, purpose: str, words: Words, examples: tuple[str, ...]) -> argparse.ArgumentParser:
    """Returns the parser of a command that prints tables."""
    parser = Parser(prog=f"musmyrtle {name}", description=purpose, allow_abbrev=False,
                    epilog=f"{shown_examples(examples)}\n{statuses(words.has_run)}",
                    formatter_class=argparse.RawDescriptionHelpFormatter)
    add = parser.add_argument
    add("cluster", metavar=CLUSTER, help="a cluster file")
    if words.has_run:
        add("scenario", metavar=SCENARIO, help="a scenario of this cluster")
        add("--cycles", metavar="N", type=number_of_cycles, required=True, help="the cycles of the run, 1 to 1024")
    if words.has_places:
        add_places(parser)
    if words.has_buffers:
        add("--buffer", metavar="[NODE.]BUFFER,..", action="append", default=[],
            help="only rows of these buffers, as brake.force or 2.0-1, or of one of each --node, as force")
    if words.has_cycles:
        add("--in-cycles", metavar="CYCLE,..", type=some_cycles,
            help="only rows of these cycles of the run, as 0-10/2,13, or * for all")
        add("--errors", action="store_true", help="only rows with an error")
    if words.has_run:
        add("--signals", action="store_true", help=HELP)
    add_forms(parser)
    return parser


def add_places(parser: argparse.ArgumentParser) -> None:
    """Adds the options that select rows by their node, slot and channel."""
    add = parser.add_argument
    add("--node", metavar="NODE,..", action="append", default=[],
        help="only rows of these nodes, by names or numbers, as brake,0,3-5; it may be given several times")
    add("--slot", metavar="PLACE,..", type=places_in,
        help="only rows of these slots, as 1,3-5, or s3-5 for static and d7 for dynamic ones, s* or m* for all of a "
             "segment, * for all, and in `log` m4 for a minislot")
    add("--channel", type=channels_of, choices=("A", "B", "AB"), help="only rows of this channel, or of both")


def parsed(parser: argparse.ArgumentParser, words: list[str]) -> argparse.Namespace:
    """Returns the words of a command. Ends with status 2 for wrong ones."""
    given = parser.parse_args(words)
    named = getattr(given, "in_cycles", None)
    outside = [it for it in named.numbers if it >= given.cycles] if named else []
    if outside:
        parser.error(f"the run has no cycle {min(outside)}: it has {counted(given.cycles, 'cycle')}")
    return given
