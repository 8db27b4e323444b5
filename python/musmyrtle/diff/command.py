"""The command `diff`: what differs between two cluster files, two runs of a cluster, or two recordings of a bus."""
import argparse
import sys
from collections.abc import Iterable, Sequence
from contextlib import ExitStack
from dataclasses import replace
from textwrap import fill

from musmyrtle.breaking import breaking_off
from musmyrtle.diff.clusters import compared
from musmyrtle.diff.differences import Difference, for_people, sections_of
from musmyrtle.diff.payloads import Payloads
from musmyrtle.diff.recordings import Recording, Recordings
from musmyrtle.diff.runs import Runs
from musmyrtle.diff.schedules import Schedules
from musmyrtle.ending import FINE, status_of
from musmyrtle.findings import block, counted
from musmyrtle.floods import misses_text
from musmyrtle.lint.command import REFUSED, USAGE, Parser, add_forms, formed, is_bold_on, printed, shown_examples
from musmyrtle.lint.command import cycles_of as number_of_cycles
from musmyrtle.lint.lint import read_bytes
from musmyrtle.output import Stop, pass_on, write
from musmyrtle.show.engines import COMMAND, MOST_REASONS, Inputs, opened
from musmyrtle.show.facts import Facts
from musmyrtle.show.monitor import has_front, judged, recording_of, refusals_of, tell
from musmyrtle.show.options import WIDTH
from musmyrtle.show.tables import as_text
from musmyrtle.signals.refusals import BadSignals
from musmyrtle.texts import NoText, Text, read_text
from musmyrtle.visible import cut, visible

DIFFERENT = 3
"""The status where something differs."""
PURPOSE = ("Prints what differs between two cluster files: parameters, nodes, slots, buffers, frames, signals,\n"
           "receivers, guardians and latencies. With a cluster file and two scenarios it compares their runs, and\n"
           "with --recordings two recordings of a bus.")
THREE = "examples/three-nodes"
EXAMPLES = (f"diff {THREE}/cluster.toml examples/unguarded/cluster.toml",
            f"diff {THREE}/cluster.toml {THREE}/scenario {THREE}/expectations --cycles 4")
USAGES = (f"{COMMAND} diff [--json | --csv] CLUSTER CLUSTER\n"
          f"       {COMMAND} diff [--json | --csv] --cycles N CLUSTER SCENARIO SCENARIO\n"
          f"       {COMMAND} diff [--json | --csv] --recordings CLUSTER RECORDING RECORDING")
STATUSES = ("status: 0 if nothing differs, 3 if something does, 1 if a file or a run is refused, with the reason as by "
            "`musmyrtle lint`, 2 if the words are no command, a program can't be run or fails, or the output can't be "
            "written, 130, 143 or 129 if SIGINT, SIGTERM or SIGHUP broke it off")
SAME = {"clusters": "No difference: the cluster files differ in comments and spelling at most.\n",
        "runs": "No difference: both runs are the same.\n",
        "recordings": "No difference: both recordings have the same frames.\n"}


def arguments() -> argparse.ArgumentParser:
    """Returns the parser of the command's words."""
    parser = Parser(prog=f"{COMMAND} diff", usage=USAGES, description=PURPOSE, allow_abbrev=False,
                    epilog=f"{shown_examples(EXAMPLES)}\n{fill(STATUSES, WIDTH)}",
                    formatter_class=argparse.RawDescriptionHelpFormatter)
    add = parser.add_argument
    add("files", metavar="FILE", nargs="+",
        help="two cluster files; or a cluster file and two scenarios; or a cluster file and two recordings")
    add("--cycles", metavar="N", type=number_of_cycles, help="the cycles of both runs, 1 to 1024")
    add("--recordings", action="store_true",
        help="compare two recordings (pcap or pcapng, link type 210) of a bus with this cluster")
    add_forms(parser)
    return parser


def parsed(words: list[str]) -> argparse.Namespace:
    """Returns the words of the command. Ends with status 2 for wrong ones."""
    parser = arguments()
    given = parser.parse_args(words)
    wanted = 3 if given.recordings or given.cycles else 2
    if given.recordings and given.cycles:
        parser.error("--recordings takes the place of --cycles")
    if len(given.files) == 3 and wanted == 2:
        parser.error("three files are a cluster file and two scenarios with --cycles N, or two recordings with "
                     "--recordings")
    if len(given.files) != wanted:
        names = "CLUSTER RECORDING RECORDING" if given.recordings else "CLUSTER SCENARIO SCENARIO" if given.cycles \
            else "CLUSTER CLUSTER"
        parser.error(f"expected {names}, and not {counted(len(given.files), 'file')}")
    return given


# ---- two cluster files


def of_clusters(given: argparse.Namespace) -> Iterable[Difference]:
    """Returns the differences of two cluster files."""
    with opened(given.files[0]) as old, opened(given.files[1]) as new:
        for it in (old, new):
            it.of_cluster("fr_bench", "check")
        texts = text_of(old), text_of(new)
        try:
            found = compared(*texts)
        except BadSignals as error:
            raise refused(error) from None
        return [*found, *Schedules((old, new), texts).differences()]


def text_of(inputs: Inputs) -> Text:
    """Returns the text of a cluster file that `fr_bench` accepts."""
    data = read_bytes(inputs.task.file(inputs.task.cluster))
    try:
        return read_text(inputs.task.cluster, data or b"")
    except NoText:
        raise Stop(USAGE, f"{inputs.task.cluster} can't be read again, or was changed meanwhile") from None


def refused(error: BadSignals) -> Stop:
    """Returns the end of a command whose file of frames can't be read, after the reasons."""
    reasons = [block("error", it, is_bold_on(sys.stderr)) for it in error.findings[:MOST_REASONS]]
    write(sys.stderr, ["\n".join([f"{COMMAND}: the file of the key `signals` can't be compared\n", *reasons])])
    return Stop(REFUSED)


# ---- two runs


def of_runs(given: argparse.Namespace) -> Iterable[Difference]:
    """Returns the differences of the runs of two scenarios."""
    cluster, *scenarios = given.files
    with opened(cluster, scenarios[0], given.cycles) as old, opened(cluster, scenarios[1], given.cycles) as new:
        # A pipe can be read once, so both runs have the file that keeps its content.
        new.task = replace(new.task, files={**new.task.files, cluster: old.task.file(cluster)})
        new.passed_on = old.passed_on
        facts = Facts(old), Facts(new)
        for it, scenario in zip(facts, scenarios):
            it.inputs.passes_misses_on, it.inputs.label = False, f"{cut(scenario)}: "
            it.run()
        runs = Runs(*facts, Payloads(old, old.network.cluster))
        if runs.shift:
            pass_on(f"{COMMAND}: reports aren't compared, since the runs have them at the end, and are shifted")
        found = list(runs.differences())
        if runs.both_miss:
            pass_on(f"{COMMAND}: both runs miss {misses_text(runs.both_miss, old.spelled)}; the lines are those of "
                    f"{cut(scenarios[0])}")
        return found


# ---- two recordings


def of_recordings(given: argparse.Namespace) -> Iterable[Difference]:
    """Returns the differences of two recordings."""
    cluster, *names = given.files
    with opened(cluster) as inputs:
        inputs.of_cluster("fr_bench", "check")
        found = [recorded(inputs, it) for it in names]
        return list(Recordings(found[0], found[1], Payloads(inputs, inputs.network.cluster)).differences())


def recorded(inputs: Inputs, name: str) -> Recording:
    """Returns a recording. Raises `Stop` for one that is refused, also after a front of it."""
    found = Recording(inputs.network)
    words = argparse.Namespace(recording=name, cluster=inputs.task.cluster, findings=0, channel=None, whole=False,
                               times=False, macrotick=None)
    with ExitStack() as files:
        _, told = judged(inputs, words, recording_of(name, files), found.add, "--frames")
    refusals = refusals_of(told)
    if refusals:
        tell([visible(f"{name}: {it}") if not it.startswith("refused ") else it for it in told])
        front = "; its front was read" if has_front(told) else ""
        raise Stop(REFUSED, f"{name} can't be compared{front}")
    tell(told)
    return found


# ---- the command


def done(given: argparse.Namespace) -> int:
    """Prints the differences, and returns the status."""
    kind = "recordings" if given.recordings else "runs" if given.cycles else "clusters"
    work = {"recordings": of_recordings, "runs": of_runs, "clusters": of_clusters}[kind]
    sections = sections_of(work(given))
    text = as_text(for_people(sections), is_bold_on(sys.stdout)) if sections else [SAME[kind]]
    printed(formed(given, sections, text))
    return DIFFERENT if sections else FINE


def main(words: Sequence[str]) -> int:
    """Does the command, and returns the status."""
    def work() -> int:
        with breaking_off():
            return done(parsed(list(words)))
    return status_of(COMMAND, work)
