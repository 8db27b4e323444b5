"""The command `musmyrtle faults`."""
import argparse
import os
import sys
import time
from pathlib import Path

from musmyrtle.breaking import BrokenOff, breaking_off, temporary_folder
from musmyrtle.cluster_file import document_of
from musmyrtle.ending import FINE, status_of
from musmyrtle.faults.campaign import Campaign, Means, NoReference
from musmyrtle.faults.children import Children
from musmyrtle.faults.costs import Difference
from musmyrtle.faults.gates import Gate
from musmyrtle.faults.hosts import Hosts, NoParallel
from musmyrtle.faults.host_campaign import HostCampaign
from musmyrtle.faults.host_runs import HostJob
from musmyrtle.faults.inputs import Inputs, accepted, accepted_host
from musmyrtle.faults.labels import Labels, fault_label
from musmyrtle.faults.listing import Selection, SingleFault
from musmyrtle.faults.log import Log, already, is_begun
from musmyrtle.faults.options import COMMAND, arguments, parsed
from musmyrtle.faults.page import Subject, page
from musmyrtle.faults.runs import CLUSTER_FILE, Folder
from musmyrtle.faults.table import (
    HEADINGS, LONGEST_HEADING, BadTable, Ranks, Results, is_failed, list_rows, listed, not_compared, read_ranks,
    summary, table, table_rows, total_rows,
)
from musmyrtle.faults.table import told as told_difference
from musmyrtle.faults.table import worse
from musmyrtle.faults.whole_files import Unusable, replace_file, spare_inputs, try_file
from musmyrtle.findings import counted
from musmyrtle.lint.command import USAGE, formed
from musmyrtle.missed import MISSED
from musmyrtle.output import Stop, write
from musmyrtle.program import by_option, is_launcher, itself
from musmyrtle.selections import Directory, UnknownWord
from musmyrtle.streams import why_unread
from musmyrtle.visible import visible
from musmyrtle.world.refusals import NotStarted, SessionOver
from musmyrtle.world.world_program import usual_world

FOUND, UNDONE = 3, 4
MOST_WORSE = 20


def say(text: str) -> None:
    write(sys.stderr, [text])


def ranks_before(file: str | None) -> Ranks | None:
    if file is None:
        return None
    try:
        with open(file, encoding="utf-8") as source:
            # Another file may have no end.
            first = source.readline(LONGEST_HEADING)
            return read_ranks(first + source.read() if first in HEADINGS else first)
    except OSError as error:
        raise Stop(USAGE, f"--against {file}: {why_unread(file, error)}") from None
    except ValueError as error:
        why = error if isinstance(error, BadTable) else "isn't a table of faults: it is no UTF-8"
        raise Stop(USAGE, f"--against {file}: {why}") from None


def try_outputs(given: argparse.Namespace) -> None:
    """Stops if an output can't be written or would overwrite an input.

    It does so before the runs, which may take long.
    """
    inputs = [("the cluster file", given.cluster), ("the scenario", given.scenario),
              ("the table of --against", given.against), ("the program", given.program),
              ("the program", itself(given.program)), ("the program of --world", given.world or itself(usual_world())),
              *(("the file of --sshloginfile", it) for it in given.sshloginfile)]
    spare_inputs(outputs_of(given), [(what, file) for what, file in inputs if file is not None])
    if given.joblog is not None and not given.resume and is_begun(given.joblog):
        raise already(given.joblog)
    if given.html:
        try_page(given.html)


def outputs_of(given: argparse.Namespace) -> dict[str, str]:
    """Returns the files that are written, by their options."""
    files = {"--joblog": given.joblog, "--html": given.html}
    return {option: file for option, file in files.items() if file is not None}


def try_page(file: str) -> None:
    """Stops if the page can't be written."""
    try:
        try_file(file)
    except OSError as error:
        raise Stop(USAGE, f"--html {file}: {error.strerror}") from None


class Progress:
    """A line on a terminal that shows the progress of the list and of the runs."""

    def __init__(self) -> None:
        self.is_shown = sys.stderr is not None and sys.stderr.isatty()
        self.began, self.last = time.monotonic(), 0.0
        self.first: int | None = None

    def is_due(self) -> bool:
        """Returns whether the line is to be shown again."""
        now = time.monotonic()
        if not self.is_shown or now - self.last < 0.1:
            return False
        self.last = now
        return True

    def listed(self, count: int) -> None:
        """Shows the number of faults in the list so far."""
        if self.is_due():
            say(f"\r\x1b[K{counted(count, 'fault')} listed")

    def end(self) -> None:
        """Removes the line."""
        if self.is_shown:
            say("\r\x1b[K")

    def __call__(self, done: int, of: int) -> None:
        if self.first is None:
            self.first = done
        if done == of:
            self.end()
        elif self.is_due():
            fresh = done - self.first
            left = f", {(self.last - self.began) * (of - done) / fresh:.0f} s to go" if fresh else ""
            say(f"\r\x1b[K{done} of {of} faults{left}")


def means_of(given: argparse.Namespace) -> Means:
    words = [word for it in given.sshlogin for word in ("--sshlogin", it)]
    words += [word for it in given.sshloginfile for word in ("--sshloginfile", os.path.abspath(it))]
    hosts = Hosts(tuple(words)) if given.parallel else None
    world, program = given.world or itself(usual_world()), itself(given.program)
    if given.parallel and is_launcher(program):
        raise Stop(USAGE, f"--parallel can't send {program}, which runs only in its checkout: name the program that it "
                          "runs, in dist, by --program FILE")
    return Means(str(Path(program).resolve()), world, given.cores, hosts)


def selected(given: argparse.Namespace, inputs: Inputs) -> Selection:
    """Returns the faults to list. Ends with status 2 if the cluster doesn't have what they or the gate are for."""
    directory = Directory.of(document_of(inputs.data[0]))
    try:
        nodes = None if given.nodes is None else directory.numbers_of_nodes([given.nodes])
        given.gate = Gate(given.fail_on, directory.receivers(given.buffers) if given.buffers else None)
    except UnknownWord as error:
        arguments().error(str(error))
    # A host program can ask for more than a node observes, so no promise says what it then does.
    is_proof_counted = not given.run_proved and given.host is None
    selection = Selection(given.kinds, nodes, given.slots, given.in_cycles, is_proof_counted)
    missing = selection.missing(inputs.cluster)
    if missing:
        arguments().error(f"the cluster has no {missing}")
    idle = given.gate.idle(inputs.cluster)
    if idle:
        arguments().error(f"argument --buffers: {idle}")
    return selection


def with_scenario(given: argparse.Namespace, folder: Path) -> tuple[Campaign, Inputs, Selection]:
    """Returns the campaign of a scenario, after its run without a fault."""
    children = Children()
    inputs = accepted(given, folder, children)
    selection = selected(given, inputs)
    means, files = means_of(given), Folder(folder, *inputs.data, given.cycles, children)
    try:
        return Campaign(inputs.cluster, inputs.scenario, files, means), inputs, selection
    except NotStarted as error:
        other = "" if given.world else f"; {by_option('fr_world', '--world')}"
        raise Stop(USAGE, f"{error.filename} can't be run: {os.strerror(error.errno or 0)}{other}") from None


def with_host(given: argparse.Namespace, folder: Path) -> tuple[HostCampaign, Inputs, Selection]:
    """Returns the campaign of a host program, after its run without a fault."""
    inputs = accepted_host(given, folder)
    # The file of the module is known once it is imported.
    spare_inputs(outputs_of(given), [("the module of --host", inputs.module)] if inputs.module else [])
    selection = selected(given, inputs)
    means = means_of(given)
    job = HostJob(given.host, str(folder / CLUSTER_FILE), inputs.cluster, given.cycles, means.world, means.program)
    return HostCampaign(job, means.cores), inputs, selection


def measured(given: argparse.Namespace, folder: Path) -> Results | None:
    """Returns all faults with their costs, or nothing if they were only to be listed."""
    campaign: Campaign | HostCampaign
    if given.host:
        campaign, inputs, selection = with_host(given, folder)
        program = itself(given.world or usual_world())
    else:
        campaign, inputs, selection = with_scenario(given, folder)
        program = itself(given.program)
    given.has_missed = bool(inputs.misses)
    listing, progress = campaign.listing(selection), Progress()
    faults = listing.faults(progress.listed)
    progress.end()
    if given.list:
        write(sys.stdout, formed(given, [list_rows(faults)], listed(faults)))
        return None
    log = Log(given.joblog, (*inputs.data, str(given.cycles).encode(), Path(program).read_bytes()), given.resume)
    try:
        done = campaign.run(faults, log, Progress())
    finally:
        log.close()
    if campaign.done_here:
        say(f"{counted(campaign.done_here, 'run')} had no answer from a machine, and were done on this one\n")
    return Results(done, inputs.cluster, given.cycles, listing.left_out, campaign.overwritten(), campaign.quiet(),
                   Labels.read(inputs.data[0]))


def concluded(given: argparse.Namespace, found: Results, before: Ranks | None) -> int:
    """Prints the table and the summary, and writes the page. Returns the status."""
    done = found.done
    write(sys.stdout, formed(given, [table_rows(done), total_rows(found)], table(done)))
    say("".join(summary(found)))
    if given.html:
        try:
            text = page(Subject(given.cluster, given.host or given.scenario), found)
            replace_file(given.html, text.encode())
        except OSError as error:
            raise Stop(USAGE, f"--html {given.html}: {error.strerror}") from None
    greater = [] if before is None else worse(done, before)
    if before is not None:
        say("".join(not_compared(done, before)))
        say(f"{counted(len(greater), 'thing')} worse than in {visible(given.against)}\n")
        say("".join(worse_line(*it, found.labels) for it in greater[:MOST_WORSE]))
        say(f"and {len(greater) - MOST_WORSE} more\n" if len(greater) > MOST_WORSE else "")
    # A difference that has one of the effects may be worse than before, too.
    counting = {id(it) for _, its in done for it in given.gate.found(its)}
    counting |= {id(it) for it in given.gate.worse(it for _, it in greater)}
    if given.buffers:
        say(f"{counted(len(counting), 'cost')} of --fail-on {','.join(sorted(given.fail_on))} at --buffers "
            f"{visible(','.join(given.buffers))}\n")
    if any(is_failed(its) for _, its in done):
        return UNDONE
    return status_of_missed(given, FOUND if counting else FINE)


def status_of_missed(given: argparse.Namespace, status: int) -> int:
    """Returns a status, or in the place of 0 that of a run without a fault that missed expectations."""
    return status or (MISSED if given.has_missed else FINE)


def worse_line(fault: SingleFault, found: Difference, labels: Labels) -> str:
    return f"  {fault_label(fault)}: {told_difference(found, labels)}\n"


def ran(given: argparse.Namespace) -> int:
    """Runs the whole command and returns the status."""
    try:
        try_outputs(given)
        before = ranks_before(given.against)
        with temporary_folder("musmyrtle-faults-") as folder:
            found = measured(given, folder)
            return status_of_missed(given, FINE) if found is None else concluded(given, found, before)
    except (NoReference, NoParallel, SessionOver) as error:
        raise Stop(UNDONE, str(error)) from None
    except Unusable as error:
        raise Stop(USAGE, str(error)) from None
    except BrokenOff as signal:
        how = f"; --joblog {given.joblog} --resume goes on" if given.joblog else ""
        raise Stop(signal.status, f"broken off{how}") from None


def main(words: list[str]) -> int:
    """Does the command, and returns the status."""
    def work() -> int:
        with breaking_off():
            return ran(parsed(words))
    return status_of(COMMAND, work)
