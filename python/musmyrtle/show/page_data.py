"""The data of the page of a run: what the programs print about it, in columns, and the names of the cluster file."""
from collections.abc import Iterable
from typing import Any

from musmyrtle.show.facts import ARRIVED, Facts
from musmyrtle.show.idle_cycle import idle_cycle_of
from musmyrtle.show.log import ENDS
from musmyrtle.show.marks import OF_COUNTED, OF_ENDS, OF_SEEN
from musmyrtle.show.network import Network
from musmyrtle.show.page_calls import Answers, add_commits
from musmyrtle.show.page_columns import Columns
from musmyrtle.show.page_received import Received
from musmyrtle.show.page_signals import signals_of
from musmyrtle.show.page_record import Record
from musmyrtle.show.page_windows import add_windows
from musmyrtle.show.received import ERRORS
from musmyrtle.version import version
from musmyrtle.visible import visible

LONGEST_NAME = 20_000
"""The characters of a name or a file's name that the page has."""


def packed_run(facts: Facts) -> bytes:
    """Returns the packed data of a run. Raises `Stop` where the run is refused."""
    facts.run()
    columns, record = Columns(), Record(facts.causes)
    add_windows(facts.windows, columns)
    for it in facts.record:
        record.add(it)
    record.fill(columns)
    add_commits(facts, columns)
    answers = Answers(facts)
    for line in facts.inputs.of_run("origins").lines:
        answers.add(line)
    answers.fill(columns)
    received_of(facts, facts.inputs.lines_of_run("received")).fill(columns)
    ended = facts.inputs.of_run("outcome")
    return columns.packed(header_of(facts, outcomes_of(ended.lines), list(ended.idle)))


def received_of(facts: Facts, lines: Iterable[str]) -> Received:
    """Returns what each node received, from the lines of `fr_view received`."""
    received = Received(len(facts.windows.begins), len(facts.network.cluster.nodes))
    for line in lines:
        received.add(line)
    return received


# ---- what isn't in columns


def header_of(facts: Facts, outcomes: list[list[str]], idle: list[int], missing: tuple[str, ...] = ()
              ) -> dict[str, Any]:
    """Returns names, minislots, configuration and fault lines, for the header of the data.

    OUTCOMES are the lines of each node's report, and IDLE the fault lines without effect. MISSING are the sentences
    that say what the page of an endless run doesn't have.
    """
    inputs, network = facts.inputs, facts.network
    return {
        "version": version(), "cluster": shown(inputs.task.cluster), "scenario": shown(inputs.task.scenario or ""),
        "cycles": inputs.cycles, "macrotick_us": network.macrotick, "minislots": idle_cycle_of(inputs).borders,
        "nodes": [{**node_of(network, it), "outcome": outcomes[it]} for it in range(len(network.cluster.nodes))],
        "plan": [it.split(" ") for it in inputs.of_cluster("fr_bench", "plan").lines if not it.startswith("guard ")],
        "faults": fault_lines(facts), "idle": idle, "arrived": ARRIVED,
        "is_endless": bool(missing), "missing": missing,
        "expectations": len(facts.scenario.expectations), "missed": [vars(it) for it in inputs.misses],
        "ends": {**ENDS, "collided": "collided", ARRIVED: "arrived"}, "errors": ERRORS,
        "marks": OF_ENDS, "seen_marks": OF_SEEN, "counted_marks": OF_COUNTED, **signals_of(inputs),
    }


def shown(name: str) -> str:
    """Returns a name with an escape for each character that isn't printable."""
    return visible(name[:LONGEST_NAME])


def node_of(network: Network, number_of_node: int) -> dict[str, Any]:
    """Returns the name of a node and its buffers."""
    node = network.cluster.nodes[number_of_node]
    name = network.node_names[node.number]
    buffers = [{"name": None if its is None else shown(its), "kind": it.kind, "slot": it.slot, "channels": it.channels,
                "base": it.cycles.base, "repetition": it.cycles.repetition}
               for it, its in zip(node.buffers, network.buffer_names[node.number])]
    return {"name": None if name is None else shown(name), "buffers": buffers, "has_fifo": node.queue is not None}


def outcomes_of(lines: list[str]) -> list[list[str]]:
    """Returns the lines of each node in the outcome of a run."""
    found: list[list[str]] = []
    for line in lines:
        if line.startswith("node "):
            found.append([])
        elif found and not line.startswith(("windows ", "settled")):
            found[-1].append(line)
    return found


def fault_lines(facts: Facts) -> list[dict[str, Any]]:
    """Returns the fault lines of the scenario: their numbers in the file and their words.

    A line for two channels is one of them. Its words are those of the file, with the numbers of nodes.
    """
    found: dict[int, list[str]] = {}
    for it in facts.scenario.faults:
        if it.is_lost:
            found[it.number] = [it.written, it.word("NODE"), it.word("CYCLES")]
        elif it.number in found:
            found[it.number][1 if it.kind == "corrupt" else 2] = "AB"
        else:
            found[it.number] = list(it.words)
    return [{"line": number, "words": words, **fault_names(facts, number)} for number, words in found.items()]


def fault_names(facts: Facts, number: int) -> dict[str, str]:
    """Returns the name of the fault of a line, and the title of its details: by the line, or by the cycle without one.
    """
    if facts.inputs.has_lines:
        return {"name": f"line {number}", "title": f"Fault in line {number}"}
    cycle = next(it.word("CYCLES") for it in facts.scenario.faults if it.number == number)
    return {"name": f"fault of cycle {cycle}", "title": f"Fault of cycle {cycle}"}
