"""The findings about a cluster file and a scenario, beside the answer of `fr_bench`."""
import os
from collections.abc import Callable, Iterable
from dataclasses import dataclass, field, replace

from musmyrtle.cluster import Cluster
from musmyrtle.cluster import Reading as ClusterReading
from musmyrtle.findings import Finding, nearest
from musmyrtle.lint import framing, naming, physical, ranges, receiving, sending, unread
from musmyrtle.lint.allows import NOTES, Allows
from musmyrtle.lint.clashes import clashes
from musmyrtle.lint.expecting import Expectations, missed
from musmyrtle.lint.guarantees import Guarantees
from musmyrtle.lint.idle_faults import idle_faults
from musmyrtle.lint.overwriting import overwriting_fifos
from musmyrtle.lint.runs import Run, skipped_lines, small_journals
from musmyrtle.lint.trace_why import is_trace
from musmyrtle.missed import Miss
from musmyrtle.names import named_in
from musmyrtle.output import CANNOT_BE_USED, Stop
from musmyrtle.scenario import Reading as ScenarioReading
from musmyrtle.signals.frames import Definitions, Frames
from musmyrtle.streams import CLOSED_INPUT, is_closed_input
from musmyrtle.texts import FILE_LIMIT, NoText, Text, read_text

MOST_NAMES = 500
"""The names of a folder among which that of a missing file is looked for."""
TRACE_LIMIT = 98_548_055
"""The bytes of the longest trace."""

OF_CLUSTER: tuple[tuple[str, Callable[[Cluster, Text], Iterable[Finding]]], ...] = (
    ("repeated-name", naming.repeated_names),
    ("unusable-name", naming.unusable_names),
    ("never-sends", sending.silent_buffers),
    ("unfilled-slot", sending.unfilled_slots),
    ("sync-nodes", sending.sync_nodes),
    ("key-slot", sending.key_slots),
    ("sync-channels", sending.sync_channels),
    ("startup-nodes", sending.startup_nodes),
    ("fault-tolerance", sending.fault_tolerance),
    ("receives-nothing", receiving.idle_receivers),
    ("doubled-receivers", receiving.doubled_receivers),
    ("fifo-behind-buffer", receiving.queues_behind_buffers),
    ("divided-slot", ranges.divided_slots),
    ("standard-range", ranges.out_of_range),
    ("latest-tx", ranges.late_latest),
    ("bit-rate", ranges.other_bit_rate),
    ("physical", physical.wrong_times),
    ("unchecked-bits", physical.unchecked_bits),
    ("short-slots", physical.short_slots),
    ("action-point", physical.without_action_point),
)
"""The warnings and notes of an accepted cluster, with their names."""


@dataclass
class Lint:
    """The expected refusals, the first one first, each with its reason; and the warnings."""

    refusals: list[tuple[str, Finding]] = field(default_factory=list)
    warnings: list[Finding] = field(default_factory=list)
    further_warnings: int = 0
    """The number of warnings beside those in `warnings`."""
    notes: list[Finding] = field(default_factory=list)
    """Findings that are no mistakes, and still worth knowing."""
    errors: list[Finding] = field(default_factory=list)
    """The transmit buffers that have to be guaranteed, and aren't."""
    allowed: frozenset[str] = frozenset()
    """The names of warnings that are silenced everywhere."""
    allows: list[Allows] = field(default_factory=list)
    """The comments of the cluster file, and of the file that its key `signals` names."""

    @property
    def refusal(self) -> str | None:
        """Returns the words of the first refusal, or None."""
        return self.refusals[0][0] if self.refusals else None

    def warn(self, name: str, findings: Iterable[Finding], further: int = 0) -> None:
        """Adds the findings of a name to the warnings, or to the notes, unless they are silenced.

        FURTHER ones are counted only.
        """
        if name in self.allowed:
            return
        self.further_warnings += further
        named = (replace(it, name=name) for it in findings)
        kept = [it for it in named if not any(allows.allow(it) for allows in self.allows)]
        (self.notes if name in NOTES else self.warnings).extend(kept)

    def refuse(self, refusal: str, finding: Finding) -> None:
        self.refusals.append((refusal, finding))


@dataclass(frozen=True)
class Task:
    """The inputs to check: a cluster file, a scenario if there is one, and a number of cycles."""

    cluster: str
    scenario: str | None = None
    cycles: int | None = None
    files: dict[str, str] = field(default_factory=dict)
    """The files that are read in the place of these names, such as copies of pipes."""
    allowed: frozenset[str] = frozenset()
    """The names of warnings that are silenced everywhere."""

    def file(self, name: str) -> str:
        return self.files.get(name, name)


def read_bytes(file: str) -> bytes | None:
    """Returns the bytes of a file up to the limit of its kind; a trace may be longer than others.

    Returns None for a file that can't be read. Raises `Stop` for a closed standard input, which is no file.
    """
    try:
        with open(file, "rb") as source:
            data = source.read(FILE_LIMIT + 1)
            return data + source.read(TRACE_LIMIT) if is_trace(data) else data
    except (OSError, ValueError):
        if is_closed_input(file):
            raise Stop(CANNOT_BE_USED, f"{file} can't be read: {CLOSED_INPUT}") from None
        return None


def unreadable(file: str, what: str) -> Finding:
    found, hint = "can't be read", ""
    try:
        with open(file, "rb"):
            pass
    except FileNotFoundError:
        found, hint = "isn't there", nearby(file)
    except IsADirectoryError:
        found = "is a folder"
    except OSError as error:
        found = f"{found}: {error.strerror}"
    except ValueError as error:
        found = f"{found}: {error}"
    return Finding(f"{what} {file!r} {found}", f"{hint}Expected the name of a file that can be read.")


def nearby(file: str) -> str:
    """Returns a question for the file whose name is nearest to one that isn't there, or nothing."""
    folder, name = os.path.split(file)
    try:
        names = sorted(os.listdir(folder or "."))[:MOST_NAMES]
        meant = next((it for it in names if it.startswith(f"{name}.")), None) or nearest(name, names)
    except (OSError, ValueError):
        return ""
    return f"Is {os.path.join(folder, meant)} meant? " if meant else ""


@dataclass(frozen=True)
class Ran:
    """The facts of the run that warnings are about."""

    overwritten: dict[int, int] = field(default_factory=dict)
    """The frames that the FIFO of each node overwrote."""
    misses: tuple[Miss, ...] = ()
    """The expectations that it missed."""
    idle: tuple[int, ...] = ()
    """The lines of the scenario whose faults had no effect."""


def lint(task: Task, ran: Ran = Ran(), guarantees: Guarantees | None = None) -> Lint:
    """Returns the findings. GUARANTEES finds the buffers that the schedule doesn't guarantee."""
    found = Lint(allowed=task.allowed)
    data = read_bytes(task.file(task.cluster))
    if data is None:
        found.refuse("Read", unreadable(task.cluster, "the cluster file"))
        return found
    try:
        text = read_text(task.cluster, data)
    except NoText as error:
        found.refuse(error.refusal, error.why)
        return found
    cluster = lint_cluster(text, found)
    if cluster and guarantees:
        notes, found.errors = guarantees.notes_and_errors(cluster, text)
        found.warn("not-guaranteed", notes)
    if cluster and task.scenario is not None:
        lint_scenario(task, cluster, text, found, ran)
    elif cluster:
        # One cycle is the shortest run: a cluster with less room has none.
        found.warn("small-journal", small_journals(cluster, text, task.cycles or 1))
    return found


def lint_cluster(text: Text, found: Lint) -> Cluster | None:
    """Returns the cluster, if it is accepted. Unread keys are reported in any case."""
    add_allows(text, found)
    found.warn("unread-key", *unread.unread_keys(text))
    reading = ClusterReading(text.document)
    cluster = reading.cluster
    faults = reading.faults if cluster is None else clashes(cluster)
    for fault in faults:
        found.refuse(fault.refusal, text.finding(fault.headline, fault.reason, fault.path, fault.notes))
    if cluster is None or faults:
        return None
    found.warn("idle-key", unread.idle_keys(text, cluster.parameters.static_slots))
    for name, warnings in OF_CLUSTER:
        found.warn(name, warnings(cluster, text))
    lint_frames(cluster, text, found)
    return cluster


def add_allows(text: Text, found: Lint) -> None:
    """Adds the comments of a file that silence warnings."""
    allows = Allows(text)
    found.allows.append(allows)
    found.warn("unknown-allow", *allows.unknown())


def lint_frames(cluster: Cluster, text: Text, found: Lint) -> None:
    """Adds the warnings of frames and signals, also of those in the file that the key `signals` names."""
    definitions = Definitions.of(text)
    for second in definitions.texts[1:]:
        add_allows(second, found)
        found.warn("unread-key", *unread.unread_keys_of_second(second))
    frames = Frames(cluster, definitions)
    for name, findings in framing.warnings_of(frames):
        found.warn(name, findings[:framing.MOST_OF_NAME], len(findings[framing.MOST_OF_NAME:]))


def lint_scenario(task: Task, cluster: Cluster, text: Text, found: Lint, ran: Ran) -> None:
    name = task.scenario or ""
    data, cycles = read_bytes(task.file(name)), task.cycles or 1
    if data is None:
        found.refuse("Read", unreadable(name, "the scenario"))
        return
    scenario = ScenarioReading(name, data, cycles, named_in(text.document)).scenario
    found.refusals += scenario.refusals or Run(cluster, text, scenario, cycles).refusals()
    if not scenario.refusals:
        # A run may be refused for a number that was meant as a name.
        found.warn("ambiguous-number", naming.ambiguous_numbers(scenario, text))
    if not found.refusals:
        found.warn("skipped-line", skipped_lines(scenario, cycles))
        found.warn("idle-fault", idle_faults(cluster, scenario, ran.idle))
        found.warn("fifo-overwrites", overwriting_fifos(cluster, text, scenario, ran.overwritten))
        wrong = list(Expectations(cluster, text, scenario).findings(cycles))
        found.warn("wrong-expectation", wrong)
        found.warn("missed-expectation", missed(scenario, ran.misses, wrong))
