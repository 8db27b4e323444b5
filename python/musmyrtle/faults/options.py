"""The words of `musmyrtle faults`."""
import argparse
import os
import re
from collections.abc import Callable

from musmyrtle.faults.gates import FAIL_ON
from musmyrtle.faults.hosts import SSH_OPTIONS
from musmyrtle.faults.listing import KINDS
from musmyrtle.faults.runs import OUTCOME
from musmyrtle.findings import counted
from musmyrtle.lint.command import Parser, add_forms, cycles_of, shown_examples
from musmyrtle.program import by_option, usual_program
from musmyrtle.selections import places_of, some_cycles

COMMAND = "musmyrtle faults"
ABOUT = """Prints the costs of each single fault of a network: a run for each, compared with the run without it.

The table goes to standard output: a line for each fault and each thing of a node that it changes. The summary goes to
standard error. docs/FAULTS.md describes the faults and the words."""
RUN = "examples/three-nodes/cluster.toml examples/three-nodes/scenario --cycles 4"
EXAMPLES = (f"faults {RUN} --html faults.html > faults", f"faults {RUN} --kinds mute,lost --nodes 0")
STATUSES = """status: 0 if no other status applies, 1 if the cluster or the scenario is refused, 2 if the words are no
command, a file can't be used or the output can't be written, 3 if --fail-on found a cost or the run without a fault
missed expectations, 4 if a run was refused or killed or has no outcome, 130, 143 or 129 if SIGINT, SIGTERM or SIGHUP
broke it off"""


SSHLOGIN = f"""a machine, as parallel names it: 8/bench1, or 8/ssh -p 2222 bench1. The command ssh gets the options
{SSH_OPTIONS}; another command, as /usr/bin/ssh, has to give such options itself"""


def words_of(known: tuple[str, ...]) -> Callable[[str], frozenset[str]]:
    def read(word: str) -> frozenset[str]:
        for part in word.split(","):
            if part not in known:
                raise argparse.ArgumentTypeError(f"{part!r} is none of {', '.join(known)}")
        return frozenset(word.split(","))
    return read


def cores_of(word: str) -> int:
    if not re.fullmatch(r"[1-9][0-9]{0,2}", word):
        raise argparse.ArgumentTypeError(f"{word!r} is no number of cores")
    return int(word)


def arguments() -> argparse.ArgumentParser:
    parser = Parser(prog=COMMAND, description=ABOUT, epilog=f"{shown_examples(EXAMPLES)}\n{STATUSES}",
                    allow_abbrev=False, formatter_class=argparse.RawDescriptionHelpFormatter)
    add = parser.add_argument
    add("cluster", metavar="CLUSTER", help="a cluster file")
    add("scenario", metavar="SCENARIO", nargs="?", help="a scenario, beside which each fault comes")
    add("--host", metavar="MODULE:FUNCTION",
        help="a host program in place of a scenario: a function that is called with the world")
    add("--cycles", metavar="N", type=cycles_of, required=True, help="the cycles of each run, 1 to 1024")
    add("--list", action="store_true", help="print the faults, and run none")
    add("--kinds", metavar="KIND,..", type=words_of(tuple(KINDS)), default=frozenset(KINDS),
        help=f"of the kinds {', '.join(KINDS)} only these")
    add("--nodes", metavar="NODE,..", help="only faults of these nodes, as 0,3-5,brake, and of their frames")
    add("--slots", metavar="PLACE,..", type=places_of,
        help="only faults at these places: static slots as 1,s3-5, minislots as m7, dynamic slots as d9, s* or m* for "
             "all of a segment, and all, as *, for all that a node sends")
    add("--in-cycle", "--in-cycles", metavar="CYCLE,..", type=some_cycles, dest="in_cycles",
        help="in these cycles of the run, as 8-16 or 0-14/2,20, instead of in every one")
    add("--run-proved", action="store_true",
        help="run the faults that are proved to be harmless, too: babbles that guardians stop")
    add("--html", metavar="FILE", help="write a page with the matrix of nodes as well")
    add("--fail-on", metavar="WORD,..", type=words_of(FAIL_ON), default=frozenset(),
        help="end with status 3 where a fault costs this: lost (also not comparable), older, changed, pending, "
             "unsent, or worse with --against")
    add("--buffers", metavar="NODE[.BUFFER],..", action="append", default=[],
        help="only costs of these buffers count for --fail-on, by names or numbers; a node is all its buffers and its "
             "FIFO")
    add("--against", metavar="TABLE", help="report faults that cost more than in this earlier table")
    add_forms(parser)
    add("--cores", metavar="N", type=cores_of, default=os.cpu_count() or 1, help="the runs at once (all cores)")
    add("--joblog", metavar="FILE", help="note each fault that is done, in a new file")
    add("--resume", action="store_true", help="go on where the run of this --joblog was broken off")
    add("--parallel", action="store_true", help="give the runs to GNU parallel")
    add("--sshlogin", "-S", metavar="HOST", action="append", default=[], help=SSHLOGIN)
    add("--sshloginfile", metavar="FILE", action="append", default=[],
        help="a file of such lines; trust it as a shell script, since it can run commands")
    add("--program", metavar="FILE", help=f"the {OUTCOME[0]} to run, instead of the one that `musmyrtle` finds")
    add("--world", metavar="FILE", help="the fr_world to ask, instead of the one that `musmyrtle` finds")
    return parser


def parsed(words: list[str]) -> argparse.Namespace:
    parser = arguments()
    given = parser.parse_args(words)
    missing = given.in_cycles and given.in_cycles.missing(given.cycles)
    if missing is not None:
        parser.error(f"the run has no cycle {missing}: it has {counted(given.cycles, 'cycle')}")
    if (given.scenario is None) == (given.host is None):
        parser.error("it takes either a SCENARIO, or a host program by --host MODULE:FUNCTION")
    if given.host is not None and given.parallel:
        parser.error("--host doesn't go with --parallel: host programs run on this machine")
    if given.resume and given.joblog is None:
        parser.error("--resume wants --joblog FILE")
    if (given.sshlogin or given.sshloginfile) and not given.parallel:
        parser.error("--sshlogin and --sshloginfile want --parallel")
    if given.buffers and not given.fail_on:
        parser.error(f"--buffers wants --fail-on, with some of {', '.join(FAIL_ON)}")
    if "worse" in given.fail_on and given.against is None:
        parser.error("--fail-on worse wants --against TABLE")
    given.program = given.program or usual_program(OUTCOME[0])
    if given.program is None:
        parser.error(f"there is no {OUTCOME[0]}: {by_option(OUTCOME[0])}")
    return given
