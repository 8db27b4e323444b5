"""The page of a session with a world.

The calls and faults of the session become a scenario, and the programs print the facts of its run. The journals of that
run must be those of the session, entry by entry.
"""
import os
from collections.abc import Callable, Iterable, Iterator
from contextlib import suppress
from pathlib import Path
from tempfile import TemporaryDirectory

from musmyrtle.cluster import MOST_NODES
from musmyrtle.lint.lint import Task
from musmyrtle.output import Stop
from musmyrtle.scenario import MOST_LINES
from musmyrtle.show.engines import Inputs
from musmyrtle.show.facts import Facts
from musmyrtle.show.page import page_of
from musmyrtle.world.refusals import SessionOver, UnknownNode
from musmyrtle.world.replies import Record, Window
from musmyrtle.world.session import FileName

SCENARIO = "the calls of a session"
MORE_LINES = f"more than {MOST_LINES} calls and faults can't be shown, since no scenario has more lines"


def traces_of(block: Callable[[str], list[str]]) -> Iterator[list[str]]:
    """Yields the trace of each node. BLOCK returns the lines of a reply of the session."""
    with suppress(UnknownNode):
        for node in range(MOST_NODES):
            yield block(f"trace {node}")


def first_of_cycle(trace: list[str], window: Window | None) -> int:
    """Returns the first window of the cycle that isn't done yet, or the number of all once the run is over.

    It is the first of the last windows with the cycle count of the open one, as the controller fetched them.
    """
    fetches = [line.split(" ") for line in trace if line.startswith("fetch ")]
    if window is None:
        return len(fetches)
    first = window.number
    for words in reversed(fetches):
        if int(words[2]) != window.cycle:
            break
        first = min(first, int(words[1]))
    return first


def in_cycles(records: Iterable[Record]) -> Iterator[tuple[int, Record]]:
    """Yields the records with their cycles of the run, from 0. The next cycle has another cycle count."""
    cycle, count = -1, None
    for record in records:
        if record.window.cycle != count:
            cycle, count = cycle + 1, record.window.cycle
        yield cycle, record


def scenario_of(traces: list[list[str]], records: Iterable[Record], cycles: int) -> str:
    """Returns the scenario of the first cycles of a session.

    Raises `ValueError` for a call in the middle of a cycle, and for more lines than a scenario can have.
    """
    calls = [line for node, trace in enumerate(traces) for line in calls_of(node, trace, cycles)]
    lines = ["frscenario 2", *calls, *faults_of(records), "end"]
    if len(lines) > MOST_LINES:
        raise ValueError(MORE_LINES)
    return "".join(f"{line}\n" for line in lines)


def calls_of(node: int, trace: list[str], cycles: int) -> Iterator[str]:
    """Yields the lines of a scenario for the host calls of a node."""
    cycle, count, waiting, is_within = -1, "", list[str](), False
    for line in trace[trace.index("begin") + 1:]:
        kind, *words = line.split(" ")
        if kind == "fetch":
            # The next cycle has another cycle count.
            is_start, count = words[1] != count, words[1]
            if waiting and (is_within or not is_start):
                raise in_the_middle(node, cycle, waiting[0])
            cycle += is_start
            if cycle == cycles:
                return
            yield from (call_line(node, cycle, it) for it in waiting)
            waiting = []
        elif kind == "see":
            # A call between these two lines came within a window.
            is_within = bool(waiting)
        elif kind != "end":
            waiting.append(line)
    if is_within:
        raise in_the_middle(node, cycle, waiting[0])


def in_the_middle(node: int, cycle: int, line: str) -> ValueError:
    """Returns the error for a call in the middle of a cycle."""
    return ValueError(f"`{line}` of node {node} came in the middle of cycle {cycle}. The page has only calls between "
                      "two cycles")


def call_line(node: int, cycle: int, line: str) -> str:
    """Returns the line of a scenario for a line of a trace."""
    kind, task, *words = line.split(" ")
    if kind == "pop":
        return f"pop {node} {task} {cycle}"
    more = words if kind == "commit" else words[:1]
    return " ".join([kind, str(node), task, str(cycle), *more])


def faults_of(records: Iterable[Record]) -> Iterator[str]:
    """Yields the fault lines of a scenario for the faults in some records."""
    for cycle, record in in_cycles(records):
        window = record.window
        place = f"{cycle} s{window.a}" if window.is_static else f"{cycle} m{window.minislot}"
        for it in record.sent:
            if it.babble:
                yield f"babble {it.node} {it.channel} {place} x{it.data.hex()}"
            elif it.fate == "muted":
                yield f"mute {it.node} {it.channel} {place}"
        for channel, bit in record.corrupt.items():
            yield f"corrupt {channel} {place} {bit}"


def page_of_session(cluster: FileName, data: bytes, traces: list[list[str]], records: list[Record],
                    program: FileName | None) -> str:
    """Returns the page of the cycles that are done.

    DATA is the cluster file, and RECORDS are those of the windows of these cycles. Raises `ValueError` where no cycle
    is done, or where the calls are those of no scenario, and `SessionOver` where a program can't be asked.
    """
    cycles = 1 + max((cycle for cycle, _ in in_cycles(records)), default=-1)
    if not cycles:
        raise ValueError("no cycle is done yet")
    text = scenario_of(traces, records, cycles)
    name = os.fsdecode(cluster)
    with TemporaryDirectory(prefix="musmyrtle-") as folder:
        files = {name: f"{folder}/cluster.toml", SCENARIO: f"{folder}/scenario"}
        Path(files[name]).write_bytes(data)
        Path(files[SCENARIO]).write_text(text, encoding="ascii")
        inputs = Inputs(Task(name, SCENARIO, cycles, files))
        inputs.has_lines = inputs.passes_idle_on = False
        if program is not None:
            inputs.programs["fr_view"] = os.fspath(program)
        try:
            facts = Facts(inputs)
            compare(facts, traces)
            return page_of(facts)
        except Stop as stop:
            raise SessionOver(str(stop) or "fr_view refused the session's calls") from None


def compare(facts: Facts, traces: list[list[str]]) -> None:
    """Raises `ValueError` where a journal of the scenario's run isn't that of the session."""
    for node, trace in enumerate(traces):
        played = facts.trace(0) if node == 0 else facts.read_trace(node)
        # The last line is `end`. The session may have calls after it.
        if trace[:len(played) - 1] != played[:-1]:
            raise ValueError(f"the calls of node {node} came in an order that no scenario has: in each cycle those of "
                             "task 0 come first")
