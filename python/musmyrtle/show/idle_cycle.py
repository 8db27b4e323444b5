"""Cycles in which nothing is sent, as `fr_view windows` prints them: when they begin, their slots and minislots."""
from array import array
from collections.abc import Iterator
from contextlib import contextmanager
from pathlib import Path
from tempfile import TemporaryDirectory

from musmyrtle.lint.lint import Task
from musmyrtle.show.engines import ENDLESS, Inputs
from musmyrtle.show.windows import CHANNELS, Windows

IDLE_RUN = "a run in which nothing is done"
IDLE, FULL = "frscenario 2\nend\n", f"frscenario 3\nbabble 0 AB * m* x{'00' * 262}\nend\n"
"""Scenarios in which nothing is sent, and in which the longest bytes fill the dynamic segment with few windows."""
MOST_BEGIN = 2**64 - 1
"""A macrotick at which no cycle of a run begins."""


class IdleCycle:
    """The windows of a cycle without a frame: where each static slot and each minislot begins, and where it ends.

    No cycle of the cluster has more windows. Times are macroticks of the cycle.
    """

    def __init__(self, its: Windows) -> None:
        windows = range(len(its.begins))
        self.windows = len(windows)
        statics = [it for it in windows if its.minislots[it] == 0]
        self.slots = [(its.begins[it], its.slots["A"][it], its.lengths["A"][it]) for it in statics]
        self.of_slot = {slot: (begin, length) for begin, slot, length in self.slots}
        self.minislots = {its.begins[it]: its.minislots[it] for it in windows if its.minislots[it]}
        lasts = [its.begins[-1] + max(its.lengths[it][-1] for it in CHANNELS)] if self.minislots else []
        self.borders = [*self.minislots, *lasts]
        """The begins of the minislots and the end of the last one. Without minislots there are none."""
        self.all_slots = frozenset(its.slots[channel][it] for channel in CHANNELS for it in windows) - {0}


@contextmanager
def idle_inputs(inputs: Inputs, cycles: int, text: str) -> Iterator[Inputs]:
    """Yields the inputs of a run of the same cluster with the scenario of a text."""
    task = inputs.task
    with TemporaryDirectory(prefix="musmyrtle-") as folder:
        scenario = Path(folder, "scenario")
        scenario.write_text(text, encoding="ascii")
        idle = Inputs(Task(task.cluster, IDLE_RUN, cycles, {**task.files, IDLE_RUN: str(scenario)}))
        idle.programs, idle.awaited = inputs.programs, inputs.awaited
        yield idle


def idle_cycle_of(inputs: Inputs) -> IdleCycle:
    """Returns the windows of the first cycle."""
    with idle_inputs(inputs, 1, IDLE) as idle:
        return IdleCycle(Windows(idle.of_run("windows", ENDLESS).lines))


def cycle_begins_of(inputs: Inputs, cycle: IdleCycle, cycles: int, most: int = MOST_BEGIN) -> "array[int]":
    """Returns the macroticks at which so many cycles begin, and the one after them, up to the first one above MOST.

    CYCLE is one of the cluster. The run has as few windows as can be, since each has a line.
    """
    begins, last = array("Q"), ""
    with idle_inputs(inputs, cycles + 1, FULL if cycle.minislots else IDLE) as idle:
        for line in idle.lines_of_run("windows", ENDLESS):
            _, number, rest = line.split(" ", 2)
            if number != last:
                last = number
                begins.append(int(rest.split(" ", 2)[1]))
                if begins[-1] > most:
                    break
    return begins
