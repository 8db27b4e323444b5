"""The lines of a plot: a signal at each receiver in each run, and as it was committed."""
from collections.abc import Iterable
from dataclasses import dataclass, field

from musmyrtle.show.network import Network
from musmyrtle.show.samples import LOST, Sample
from musmyrtle.signals.layout import Layout
from musmyrtle.signals.receiving import Destination, Route
from musmyrtle.signals.refusals import UnknownSignal
from musmyrtle.signals.signal import Coding, Signal
from musmyrtle.visible import cut

Number = int | float
USUAL_PERIODS = 2
"""The periods of a state frame after which its values are stale, unless a limit is given."""


@dataclass
class Line:
    """The values of a signal over time, in steps: each change with its macrotick, and None for no number.

    `lost` are the macroticks at which a frame was lost, with the value that was held, and `stale` the times between
    which the held value was older than LIMIT macroticks.
    """

    receiver: str
    run: str = ""
    """The words for the fault of its run, if there are several runs."""
    limit: int | None = None
    is_committed: bool = False
    changes: list[tuple[int, Number | None]] = field(default_factory=list)
    lost: list[tuple[int, Number | None]] = field(default_factory=list)
    stale: list[tuple[int, int]] = field(default_factory=list)
    stored: int | None = None
    """The window of the frame that is held."""

    def add(self, at: int, value: Number | None) -> None:
        """Adds the value that holds from a macrotick on."""
        if not self.changes or self.changes[-1][1] != value:
            self.changes.append((at, value))

    def keep(self, at: int) -> None:
        """Notes that a frame was stored at a macrotick."""
        self.age(at)
        self.stored = at

    def age(self, at: int) -> None:
        """Adds the time up to a macrotick in which the held value was older than the limit."""
        if self.limit is not None and self.stored is not None and at - self.stored > self.limit:
            self.stale.append((self.stored + self.limit, at))

    @property
    def key(self) -> tuple[object, ...]:
        """Returns what two lines have in common that are drawn alike."""
        return self.is_committed, tuple(self.changes), tuple(self.lost), tuple(self.stale)


@dataclass
class Panel:
    """A plot of one signal of a frame, with its lines."""

    layout: Layout
    signal: Signal
    lines: list[Line] = field(default_factory=list)

    @property
    def values(self) -> list[Number]:
        """Returns all values of the lines, each once, in ascending order."""
        return sorted({value for it in self.lines for _, value in it.changes if value is not None})

    @property
    def receiver(self) -> str | None:
        """Returns the receiver if all lines are of one, so that only their runs differ."""
        receivers = {it.receiver for it in self.lines if not it.is_committed}
        return receivers.pop() if len(receivers) == 1 and any(it.run for it in self.lines) else None

    def merged(self) -> list[tuple[Line, list[str]]]:
        """Returns the lines that differ, each with the labels of all that are alike."""
        found: dict[tuple[object, ...], tuple[Line, list[str]]] = {}
        has_one = self.receiver is not None
        for it in self.lines:
            label = it.run if has_one and it.run else ", ".join(filter(None, (it.receiver, it.run)))
            found.setdefault(it.key, (it, []))[1].append(label)
        return list(found.values())


class Series:
    """Collects the lines of the plots, sample by sample. LIMIT are the macroticks after which a value is stale."""

    def __init__(self, network: Network, routes: Iterable[Route], limit: int | None) -> None:
        self.network, self.limit = network, limit
        self.panels: dict[tuple[str, str], Panel] = {}
        self.lines: dict[tuple[str | None, Destination, str, str], Line] = {}
        self.limits = usual_limits(routes, network.cluster.parameters.cycle_mt) if limit is None else {}
        self.without_plot: dict[tuple[str, str], None] = {}
        """The signals of whole bytes, which are no numbers."""

    def add(self, it: Sample, fault: str | None, has_faults: bool) -> None:
        """Adds a sample of a run with a fault, or with none."""
        if it.signal.coding is Coding.BYTES:
            self.without_plot[it.layout.name, it.signal.name] = None
            return
        line = self.line(it, fault, has_faults)
        at, value = it.due.begin, None if it.read is None else number_of(it.read.number)
        if it.age == 0:
            line.keep(at)
        if it.what == LOST:
            line.lost.append((at, value))
        line.add(at, value)

    def line(self, it: Sample, fault: str | None, has_faults: bool) -> Line:
        """Returns the line of a sample."""
        destination = it.due.destination
        key = fault, destination, it.layout.name, it.signal.name
        if key not in self.lines:
            run = ("without a fault" if fault is None else fault) if has_faults else ""
            self.lines[key] = Line(self.receiver(destination), run, self.line_limit(it))
            self.panel(it.layout, it.signal).lines.append(self.lines[key])
        return self.lines[key]

    def line_limit(self, it: Sample) -> int | None:
        """Returns the macroticks after which the value of a sample is stale."""
        return self.limits.get((it.due.destination, it.layout.name)) if self.limit is None else self.limit

    def panel(self, layout: Layout, signal: Signal) -> Panel:
        """Returns the plot of a signal."""
        return self.panels.setdefault((layout.name, signal.name), Panel(layout, signal))

    def receiver(self, it: Destination) -> str:
        """Returns `brake engine`, by the names of a node and its buffer."""
        node = self.network.node(it.node)
        buffer = "FIFO" if it.buffer is None else None
        if it.buffer is not None:
            name = self.network.buffer(it.node, it.buffer)
            buffer = cut(name.name) if name.name else str(name)
        return f"{cut(node.name) if node.name else str(node)} {buffer}"

    def commit(self, node: int, buffer: int, layout: Layout, at: int, payload: bytes) -> None:
        """Adds the values of a commit."""
        for signal in layout.signals.values():
            panel = self.panels.get((layout.name, signal.name))
            if panel is None:
                continue
            try:
                value = number_of(layout.read(signal.name, payload).number)
            except UnknownSignal:
                continue
            label = f"committed by {self.receiver(Destination(node, buffer))}"
            line = next((it for it in panel.lines if it.is_committed and it.receiver == label), None)
            if line is None:
                line = Line(label, is_committed=True)
                panel.lines.append(line)
            line.add(at, value)

    def end(self, at: int) -> None:
        """Ends all lines at a macrotick."""
        for it in self.lines.values():
            it.age(at)


def number_of(value: object) -> Number | None:
    """Returns a value if it is a finite number."""
    is_number = isinstance(value, int | float) and value - value == 0
    return value if is_number and isinstance(value, int | float) else None


def usual_limits(routes: Iterable[Route], cycle: int) -> dict[tuple[Destination, str], int | None]:
    """Returns the age above which the values of a frame are stale at a receiver: two periods of a state frame.

    The frames of an event buffer have no period.
    """
    found: dict[tuple[Destination, str], int | None] = {}
    for it in routes:
        key = it.destination, it.layout.name
        period = it.sender.cycles.repetition * cycle * USUAL_PERIODS if it.sender.kind == "state" else None
        before = found.get(key, 0)
        found[key] = None if before is None or period is None else max(before, period)
    return found
