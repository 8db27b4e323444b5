"""The inputs of a campaign, read once, and whether the program accepts them."""
import argparse
import sys
from collections.abc import Iterator
from dataclasses import dataclass
from pathlib import Path

from musmyrtle.cluster import Cluster
from musmyrtle.cluster import Reading as ClusterReading
from musmyrtle.faults.answers import NO_REFUSALS, Answer
from musmyrtle.faults.campaign import NoReference, no_outcome
from musmyrtle.faults.children import Children
from musmyrtle.faults.host_runs import HostFunction, NoHost, function_of
from musmyrtle.faults.modules import strange_warnings
from musmyrtle.faults.options import COMMAND
from musmyrtle.faults.runs import CLUSTER_FILE, SCENARIO_FILE, outcome_words, words_of_run
from musmyrtle.faults.whole_files import write_file
from musmyrtle.lint.command import REFUSED, USAGE, is_bold_on, told
from musmyrtle.lint.lint import Lint, Task, lint, read_bytes
from musmyrtle.floods import misses_text
from musmyrtle.missed import FORM as MISS
from musmyrtle.missed import Miss
from musmyrtle.names import Names
from musmyrtle.output import Stop, pass_on, write
from musmyrtle.program import Answer as Asked
from musmyrtle.program import ask
from musmyrtle.scenario import Reading as ScenarioReading
from musmyrtle.scenario import Scenario
from musmyrtle.show.effects import Effects
from musmyrtle.show.network import Network, missed_text
from musmyrtle.texts import read_text


@dataclass(frozen=True)
class Inputs:
    """The cluster and the scenario, and the bytes of both files."""

    cluster: Cluster
    scenario: Scenario
    data: tuple[bytes, bytes]
    module: str | None = None
    """The file of the host program, if it has one."""
    misses: tuple[Miss, ...] = ()
    """The expectations of the scenario that the run without a fault missed."""


def accepted(given: argparse.Namespace, folder: Path, children: Children) -> Inputs:
    """Reads the inputs, and does the run without a fault.

    Reports a refusal as `lint` does. Raises `Stop` for that, and `NoReference` where the program failed.
    """
    task, data = copied(given, folder)
    files = task.file(given.cluster), task.file(given.scenario)
    notes = list[str]()
    try:
        answer = ask(given.program, outcome_words(*files, given.cycles), children.started, known=MISS,
                     tell=notes.append)
    except OSError as error:
        raise Stop(USAGE, f"{given.program} can't be run: {error.strerror}") from None
    found = lint(task)
    if answer.status == USAGE or is_of_inputs(answer, found):
        write(sys.stderr, ["\n".join(told(answer, found, is_bold_on(sys.stderr)))])
        raise Stop(USAGE if answer.status == USAGE else REFUSED)
    if answer.status:
        said = f"refused {answer.refusal}" if answer.is_named else str(answer.refusal)
        raise NoReference(no_outcome(Answer(answer.status, "", said.removeprefix(f"status {answer.status}"))))
    files_read = data[given.cluster], data[given.scenario]
    cluster = ClusterReading(read_text(given.cluster, files_read[0]).document).cluster
    # Otherwise `found` has a refusal.
    assert cluster is not None
    scenario = ScenarioReading(given.scenario, files_read[1], given.cycles, Names.of(files_read[0])).scenario
    if answer.misses:
        told_first = misses_text(answer.misses, lambda miss: named(task, miss))
        pass_on(f"{COMMAND}: the run without a fault misses {told_first}")
    for note in (*notes, *idle_parts(given, files, scenario, Names.of(files_read[0]), children)):
        pass_on(note)
    return Inputs(cluster, scenario, files_read, misses=answer.misses)


def idle_parts(given: argparse.Namespace, files: tuple[str, str], scenario: Scenario, names: Names, children: Children
               ) -> Iterator[str]:
    """Yields a line on each list of faults of which a part has no effect. The record says it, which takes one more run.
    """
    effects = Effects(scenario, names, given.cycles)
    if not effects.has_lists:
        return
    _, record, _ = children.ran([given.program, *words_of_run("record", *files, given.cycles)])
    for line in record.decode(errors="replace").splitlines():
        effects.add(line)
    yield from effects.told()


def named(task: Task, miss: Miss) -> str:
    """Returns a missed expectation with the names of its node and buffer."""
    network = Network.of(read_text(task.cluster, read_bytes(task.file(task.cluster)) or b""))
    return str(miss) if network is None else missed_text(network, miss)


def accepted_host(given: argparse.Namespace, folder: Path) -> Inputs:
    """Reads the cluster file, and loads the host program.

    Reports a refusal of the file as `lint` does. Raises `Stop` for that, and where there is no such host program.
    """
    data = read_bytes(given.cluster)
    copy = folder / CLUSTER_FILE
    if data is not None:
        write_file(copy, data)
    found = lint(Task(given.cluster, files={} if data is None else {given.cluster: str(copy)}))
    if data is None or found.refusals:
        answer = Asked(REFUSED, found.refusal or "Read")
        write(sys.stderr, ["\n".join(told(answer, found, is_bold_on(sys.stderr)))])
        raise Stop(REFUSED)
    for warning in strange_warnings():
        pass_on(f"musmyrtle faults: {warning}")
    try:
        file = file_of(function_of(given.host))
    except NoHost as error:
        raise Stop(USAGE, f"--host {given.host}: {error}") from None
    cluster = ClusterReading(read_text(given.cluster, data).document).cluster
    assert cluster is not None
    source = (read_bytes(file) if file else None) or b""
    return Inputs(cluster, Scenario(given.host), (data, given.host.encode() + source), file)


def file_of(function: HostFunction) -> str | None:
    """Returns the file of the module of a function, if it has one."""
    file = getattr(sys.modules.get(getattr(function, "__module__", "")), "__file__", None)
    return file if isinstance(file, str) else None


def copied(given: argparse.Namespace, folder: Path) -> tuple[Task, dict[str, bytes]]:
    """Copies both files, which may be pipes or change meanwhile.

    A file that can't be read is left to the program.
    """
    files: dict[str, str] = {}
    found: dict[str, bytes] = {}
    for name, copy in ((given.cluster, CLUSTER_FILE), (given.scenario, SCENARIO_FILE)):
        data = read_bytes(name)
        if data is not None:
            write_file(folder / copy, data)
            files[name], found[name] = str(folder / copy), data
    return Task(given.cluster, given.scenario, given.cycles, files), found


def is_of_inputs(answer: Asked, found: Lint) -> bool:
    """Returns whether the inputs are refused, by the program or by the readers here.

    If the program reports unreadable or truncated inputs, this counts only if the same is found here.
    """
    if answer.status == 0:
        return bool(found.refusals)
    is_refused = answer.status == REFUSED and answer.is_named and answer.refusal is not None
    return is_refused and (answer.refusal not in NO_REFUSALS or answer.refusal == found.refusal)
