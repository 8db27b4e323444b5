"""The requests that do a scenario in a world, cycle by cycle, in the order of a lockstep run."""
from musmyrtle.findings import Finding, counted
from musmyrtle.named_windows import MOST_CYCLE
from musmyrtle.names import Names
from musmyrtle.scenario import Reading, Scenario
from musmyrtle.scenario_lines import Line
from musmyrtle.scenario_words import NEWEST


def requests_of(text: str, cycles: int, names: Names | None = None) -> tuple[list[str], list[list[str]]]:
    """Returns the fault lines of a scenario, and for each of the cycles the requests of the tasks.

    In a cycle these are in the order of nodes and then tasks. Lines of version 3 may have NAMES, and those of later
    cycles alone are left out. Raises `ValueError` with the line number and the expected text, where the text is no
    scenario or a line of version 1 or 2 names a cycle that isn't one of these. A line that expects a payload raises it
    too: a session judges none, and a line that is left out would seem to be met.
    """
    scenario = Reading("scenario", text.encode(), cycles, names).scenario
    if scenario.refusals:
        raise ValueError(told(scenario.refusals[0][1]))
    if scenario.version < NEWEST:
        check_cycles(scenario, cycles)
    for it in scenario.expectations:
        raise ValueError(f"scenario line {it.number}: no session judges `{it.kind}`. Leave the line out, and assert "
                         "what a `read` or the report of the node returns.")
    return fault_requests(scenario), call_requests(scenario, cycles)


def fault_requests(scenario: Scenario) -> list[str]:
    """Returns the requests that keep the fault lines of a scenario."""
    return [" ".join(line.words) for line in scenario.faults]


def call_requests(scenario: Scenario, cycles: int) -> list[list[str]]:
    """Returns for each of the cycles the requests of the tasks, in the order of nodes and then tasks.

    A line for every cycle makes its calls in the first 1,024, also in a longer run.
    """
    requests: list[list[str]] = [[] for _ in range(cycles)]
    for cycle, line in scenario.calls(min(cycles, MOST_CYCLE + 1)):
        requests[cycle].append(" ".join((line.kind, *line.words[1:3], *line.words[4:])))
    return requests


def check_cycles(scenario: Scenario, cycles: int) -> None:
    """Raises `ValueError` where a line names another cycle than these, or one before that of the task's last line."""
    for _, lines in scenario.numbered():
        before = 0
        for line in lines:
            cycle = cycle_of(line, cycles)
            if cycle < before:
                raise ValueError(f"scenario line {line.number}: cycle {cycle} comes after cycle {before} of the same "
                                 "task. The lines of one task stand in the order of their cycles.")
            before = cycle
    for fault in scenario.faults:
        cycle_of(fault, cycles)


def cycle_of(line: Line, cycles: int) -> int:
    """Returns the first cycle of a line. Raises `ValueError` where it isn't one of the cycles."""
    cycle = line.cycles.first
    if cycle >= cycles and line.cycles.last is not None:
        raise ValueError(f"scenario line {line.number}: there is no cycle {cycle} in {counted(cycles, 'cycle')}. The "
                         "first one is cycle 0.")
    return cycle


def told(finding: Finding) -> str:
    """Returns a finding in one line, with the number of its line in the scenario."""
    where = f"scenario line {finding.place.line}" if finding.place else "scenario"
    return f"{where}: {finding.headline}. {finding.reason}"
