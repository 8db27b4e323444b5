"""The runs whose signals are compared: that of a scenario, and one for each single fault of some nodes."""
import argparse
import os
from collections.abc import Callable, Iterable, Iterator
from contextlib import contextmanager
from dataclasses import dataclass
from pathlib import Path

from musmyrtle.breaking import temporary_folder
from musmyrtle.faults.campaign import Campaign, Means, NoReference
from musmyrtle.faults.command import Progress
from musmyrtle.faults.listing import ALL_STATIC, KINDS, Selection, SingleFault
from musmyrtle.faults.options import words_of
from musmyrtle.faults.runs import Folder
from musmyrtle.faults.whole_files import Unusable
from musmyrtle.findings import counted
from musmyrtle.lint.command import USAGE
from musmyrtle.lint.lint import Task, read_bytes
from musmyrtle.named_windows import EVERY_DYNAMIC
from musmyrtle.output import Stop, pass_on
from musmyrtle.selections import ALL, places_of, some_cycles
from musmyrtle.show.engines import COMMAND, Inputs
from musmyrtle.show.facts import Facts
from musmyrtle.show.selection import numbers_of_nodes
from musmyrtle.visible import cut
from musmyrtle.world.refusals import NotStarted
from musmyrtle.world.world_program import usual_world

OF_FAULT = "the scenario with a fault"
MOST_CYCLES = 1024


@dataclass(frozen=True)
class Run:
    """A run: its fault, as `musmyrtle faults` spells it with names, or None, and its inputs."""

    fault: str | None
    inputs: Inputs


def add_faults(parser: argparse.ArgumentParser) -> None:
    """Adds the options for runs with faults."""
    add = parser.add_argument
    add("--each-fault-of", metavar="NODE,..", action="append", default=[],
        help="also a run for each single fault of these nodes: those that `musmyrtle faults` lists for all of a node, "
             "and in the slots of the chosen signals; a column has the fault")
    add("--kinds", metavar="KIND,..", type=words_of(tuple(KINDS)),
        help=f"of these faults only the kinds {', '.join(KINDS)}")
    add("--fault-slots", metavar="PLACE,..", type=places_of,
        help="of these faults those at these places, as s3-5,d7,m*,all")
    add("--fault-cycles", metavar="CYCLE,..", type=some_cycles,
        help="these faults in these cycles of the run alone, as 8-16, instead of in every one")
    add("--fault", metavar="LINE", action="append", default=[],
        help="also a run with this fault line, as 'lost engine 2-4'; it may be given several times")


def check_faults(parser: argparse.ArgumentParser, given: argparse.Namespace) -> None:
    """Ends with status 2 where an option for faults stands alone, or where they can't be listed."""
    alone = {"--kinds": given.kinds, "--fault-slots": given.fault_slots, "--fault-cycles": given.fault_cycles}
    for name in (it for it, value in alone.items() if value is not None and not given.each_fault_of):
        parser.error(f"{name} wants --each-fault-of NODE")
    if given.each_fault_of and given.cycles > MOST_CYCLES:
        parser.error(f"--each-fault-of goes with runs of 1 to {MOST_CYCLES} cycles")
    missing = given.fault_cycles and given.fault_cycles.missing(given.cycles)
    if missing is not None:
        parser.error(f"the run has no cycle {missing}: it has {counted(given.cycles, 'cycle')}")
    for line in given.fault:
        if "\n" in line or "\r" in line:
            parser.error("--fault takes one line of a scenario")


class Faults:
    """The faults of a command, each with the lines that it adds to the scenario."""

    def __init__(self, given: argparse.Namespace, inputs: Inputs, facts: Facts, slots: Iterable[int]) -> None:
        self.given, self.inputs, self.facts = given, inputs, facts
        self.slots = sorted(slots)
        self.cluster = inputs.network.cluster

    def listed(self, folder: Path, data: tuple[bytes, bytes]) -> list[SingleFault]:
        """Returns the single faults of the nodes that are given. Raises `Stop` where they can't be listed."""
        view, world = self.inputs.program("fr_view"), usual_world()
        try:
            files = Folder(folder, *data, self.inputs.cycles, self.inputs.children)
            campaign = Campaign(self.cluster, self.facts.scenario, files, Means(view, world, 1))
            faults = campaign.listing(self.selection()).faults()
        except (NoReference, Unusable) as error:
            raise Stop(USAGE, str(error)) from None
        except NotStarted as error:
            raise Stop(USAGE, f"{error.filename} can't be run: {os.strerror(error.errno or 0)}") from None
        found = [it for it in faults if it.has_run]
        if not found:
            raise Stop(USAGE, f"--each-fault-of {','.join(self.given.each_fault_of)}: no fault is selected that can "
                              "have an effect")
        proved = sum(it.is_proved for it in faults)
        if proved:
            pass_on(f"{COMMAND}: {counted(proved, 'fault')} without a run: by a proof no node observes anything of "
                    "them")
        return found

    def selection(self) -> Selection:
        """Returns the faults that are wanted. Raises `Stop` if the cluster doesn't have a node or a place."""
        given = self.given
        nodes = numbers_of_nodes(given.each_fault_of, self.inputs.network)
        static = self.cluster.parameters.static_slots
        places = given.fault_slots or frozenset(
            [ALL, ALL_STATIC, *([EVERY_DYNAMIC] if self.cluster.parameters.minislots else []),
             *(f"{'s' if it <= static else 'd'}{it}" for it in self.slots)])
        found = Selection(given.kinds or frozenset(KINDS), nodes, places, given.fault_cycles, True)
        missing = found.missing(self.cluster)
        if missing:
            raise Stop(USAGE, f"the cluster has no {missing}")
        return found


@contextmanager
def runs_of(faults: Faults) -> Iterator[Callable[[], Iterator[Run]]]:
    """Yields a call by which the runs are made, one after the other: that without a fault, and those with faults."""
    given, inputs = faults.given, faults.inputs
    if not given.each_fault_of and not given.fault:
        yield lambda: iter([Run(None, inputs)])
        return
    with temporary_folder("musmyrtle-signals-") as folder:
        yield lambda: each_run(faults, folder)


def each_run(faults: Faults, folder: Path) -> Iterator[Run]:
    """Yields the runs. The first one is done before the others are made, so that a refusal is explained once."""
    inputs, network, task = faults.inputs, faults.inputs.network, faults.inputs.task
    yield Run(None, inputs)
    data = read_bytes(task.file(task.cluster)) or b"", read_bytes(task.file(task.scenario or "")) or b""
    files = Folder(folder, *data, inputs.cycles, inputs.children)
    for line in faults.given.fault:
        yield Run(line, with_lines(inputs, files, [line], f"--fault {cut(line)!r}"))
    if faults.given.each_fault_of:
        found, progress = faults.listed(folder, data), Progress()
        for number, it in enumerate(found):
            progress(number, len(found))
            node = [] if it.node is None else [str(network.node_names[it.node] or it.node)]
            label = " ".join([it.kind, *node, it.channels, it.cycles, it.place])
            yield Run(label, with_lines(inputs, files, it.lines))
        progress(len(found), len(found))


def with_lines(inputs: Inputs, files: Folder, lines: Iterable[str], label: str = "") -> Inputs:
    """Returns the inputs of a run of the same scenario with further lines.

    With a label standard error reports whether the first of them has no effect. All else is known from the first run.
    """
    try:
        name = files.written(files.with_lines(lines).encode())
    except Unusable as error:
        raise Stop(USAGE, str(error)) from None
    task = inputs.task
    made = Inputs(Task(task.cluster, OF_FAULT, task.cycles, {**task.files, OF_FAULT: name}))
    made.programs, made.children, made.passed_on = inputs.programs, inputs.children, inputs.passed_on
    # Expectations are about the run without a fault.
    made.passes_misses_on, made.passes_idle_on = False, bool(label)
    made.further = files.head.count("\n") + 1, label
    return made
