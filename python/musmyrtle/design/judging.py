"""The judge of a schedule: `fr_bench check`, the warnings of `lint`, and `fr_view latency` of the file itself."""
from dataclasses import dataclass, field
from pathlib import Path

from musmyrtle.breaking import temporary_folder
from musmyrtle.cluster import Cluster
from musmyrtle.design.building import Built, Line
from musmyrtle.design.keeping import Kept, admits
from musmyrtle.faults.whole_files import write_file
from musmyrtle.findings import Finding
from musmyrtle.latencies import GUARANTEED, Latency, Load
from musmyrtle.lint.guarantees import Guarantees
from musmyrtle.lint.lint import Ran, Task, lint
from musmyrtle.output import CANNOT_BE_USED, Stop
from musmyrtle.show.engines import opened
from musmyrtle.show.latency import latencies
from musmyrtle.show.network import Network as Shown


@dataclass(frozen=True)
class Judged:
    """A transmit buffer with what the program says of it, and its deadline in macroticks."""

    line: Line
    latency: Latency
    deadline: int | None
    """None for a kept buffer that the network file doesn't have."""
    was_guaranteed: bool = False
    cycle_mt: int = 0

    @property
    def distance(self) -> int:
        """Returns the macroticks from one of its cycles to the next."""
        return self.latency.cycles.repetition * self.cycle_mt

    @property
    def is_met(self) -> bool:
        """Returns whether the worst case meets the deadline, and each value has a cycle.

        Without a deadline the buffer has to stay guaranteed if it was.
        """
        if self.deadline is None:
            return not self.was_guaranteed or self.latency.state == GUARANTEED
        if self.distance > self.line.placed.frame.period:
            return False
        return self.latency.worst is not None and self.latency.worst <= self.deadline


@dataclass
class Verdict:
    """The answers of the programs about a cluster file: latencies, loads and warnings."""

    rows: list[Judged] = field(default_factory=list)
    loads: list[Load] = field(default_factory=list)
    warnings: list[Finding] = field(default_factory=list)
    shown: Shown | None = None

    @property
    def late(self) -> list[Judged]:
        """Returns the transmit buffers that miss their deadlines."""
        return [it for it in self.rows if not it.is_met]

    @property
    def is_good(self) -> bool:
        """Returns whether each deadline is met, and there is no warning."""
        return not self.late and not self.warnings


def verdict_of(built: Built, static_mt: int, allowed: frozenset[str] = frozenset(), kept: Kept | None = None
               ) -> Verdict:
    """Returns the verdict about a cluster file. Raises `Stop` where a program refuses it or fails."""
    with temporary_folder("musmyrtle-") as folder:
        file = Path(folder) / "cluster.toml"
        write_file(file, built.text.encode())
        with opened(str(file)) as inputs:
            inputs.of_cluster("fr_bench", "check")
            found = lint(Task(str(file), allowed=allowed), Ran(), Guarantees(str(file)))
            by_buffer, loads = latencies(inputs)
            shown = inputs.network
    cycle = shown.cluster.parameters.cycle_mt
    known = {(it.node, it.buffer): it for it in by_buffer}
    rows = [Judged(it, known[it.node, it.number], deadline_of(it, static_mt),
                   kept is not None and it.placed.frame.is_kept and kept.is_guaranteed(it.placed), cycle)
            for it in built.sent]
    for row in rows:
        check_line(row, shown.cluster)
    return Verdict(rows, loads, found.warnings, shown)


def check_line(it: Judged, cluster: Cluster) -> None:
    """Raises `Stop` if a buffer of the file isn't that of the schedule, or a receiver has none for it."""
    placed, buffer = it.line.placed, cluster.nodes[it.line.node].buffers[it.line.number]
    is_same = buffer.transmits and (buffer.slot, buffer.channels, buffer.cycles) == (
        placed.slot, placed.channels, placed.cycles) == (it.latency.slot, it.latency.channels, it.latency.cycles)
    if not is_same or 2 * buffer.words < placed.frame.bytes or not all(
            admits(cluster, node, placed) for node in placed.frame.receivers):
        raise Stop(CANNOT_BE_USED, f"buffer {it.line.number} of node {it.line.node} of the cluster file isn't as "
                                   f"{placed.frame.name} of the schedule: please report this")


def deadline_of(it: Line, static_mt: int) -> int | None:
    """Returns the deadline of a transmit buffer in macroticks, or None for one that the network file doesn't have."""
    frame = it.placed.frame
    if not frame.members:
        return None
    return frame.deadline_by(static_mt) if frame.is_static else frame.deadline or frame.period
