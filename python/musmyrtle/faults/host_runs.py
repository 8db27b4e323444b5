"""Runs of a host program in a world, in place of a scenario: what one process of the pool does."""
from collections.abc import Callable, Collection, Iterator
from contextlib import ExitStack, suppress
from dataclasses import dataclass, field
from inspect import isasyncgenfunction, iscoroutinefunction

from musmyrtle.cluster import Cluster
from musmyrtle.faults.answers import NO_REFUSALS
from musmyrtle.faults.children import Children
from musmyrtle.faults.fifos import Fifo, Unread, fifo_of, senders_of
from musmyrtle.faults.modules import Unloadable, loaded
from musmyrtle.faults.played import REQUEST_SECONDS, Begun, Occasion, Played, forged_babble, slot_of
from musmyrtle.faults.traces import fetched
from musmyrtle.world.faults import Mute
from musmyrtle.world.refusals import Refused, SessionOver, TooManyFaults
from musmyrtle.world.replies import Window, channel_of, record_of
from musmyrtle.world.world import World

HostFunction = Callable[[World], object]
RECORDS_AT_ONCE = 500


class NoHost(Exception):
    """There is no such host program. The message has the reason."""


@dataclass(frozen=True)
class Loss:
    """All that a node sends in the dynamic segment on some channels, in some cycles, is lost."""

    node: int
    channels: str
    cycles: Collection[int]


@dataclass(frozen=True)
class Forgery:
    """On each occasion a node babbles a frame of the slot that is open at the minislot."""

    node: int
    minislot: int
    occasions: frozenset[Occasion]


@dataclass(frozen=True)
class HostJob:
    """A run: the host program as MODULE:FUNCTION, the cluster and its file, the programs, and the faults beside it."""

    host: str
    file: str
    cluster: Cluster
    cycles: int
    world: str
    viewer: str
    lines: tuple[str, ...] = ()
    watched: int | None = None
    """The minislot at which the open slots are asked for."""
    is_recorded: bool = False
    """Asks for the transmissions that begin in the dynamic segment."""
    loss: Loss | None = None
    forgery: Forgery | None = None


@dataclass
class HostRan:
    """The end of a run: the outcome as `fr_view outcome` prints one, what else was observed, and how it failed."""

    outcome: str = ""
    played: Played = field(default_factory=Played)
    begins: dict[int, list[int]] = field(default_factory=dict)
    """The entry with which the windows of each cycle begin, by node."""
    commits: frozenset[tuple[int, int]] = frozenset()
    """The nodes and buffers to which the host program commits."""
    failure: tuple[str, str] | None = None
    """The effect and the reason, if there is no outcome."""


def function_of(host: str) -> HostFunction:
    """Returns the function that MODULE:FUNCTION names. Modules of the current folder come first. Raises `NoHost`."""
    module, _, name = host.partition(":")
    if not module or not name:
        raise NoHost("it isn't MODULE:FUNCTION")
    try:
        found: object = loaded(module)
        for part in name.split("."):
            found = getattr(found, part)
    except (Unloadable, AttributeError) as error:
        raise NoHost(str(error) if isinstance(error, Unloadable) else f"AttributeError: {error}") from None
    if not callable(found):
        raise NoHost(f"{name} isn't a function")
    if iscoroutinefunction(found) or isasyncgenfunction(found):
        raise NoHost(f"{name} is `async`, so that a call of it runs nothing: expected a function without `async`")
    return found


def host_run(job: HostJob) -> HostRan:
    """Does a run. An exception of the host program is an answer, as a refusal is; the end of a session is none."""
    try:
        function = function_of(job.host)
        with World(job.file, job.cycles, program=job.world, timeout=REQUEST_SECONDS) as world:
            for line in job.lines:
                world.keep(line)
            slots = done(job, world, function)
            return observed(job, world, slots)
    except SessionOver as error:
        return HostRan(failure=("killed", f"fr_world: {error}"))
    except Refused as error:
        effect = "unreadable" if error.names[-1] in NO_REFUSALS else "refused"
        return HostRan(failure=(effect, f"fr_world: {error}"))
    except (Exception, SystemExit) as error:
        return HostRan(failure=("refused", f"the host program raised {type(error).__name__}: {error}"))


def done(job: HostJob, world: World, function: HostFunction) -> dict[Occasion, int]:
    """Does all cycles: the host program, and what it leaves of the run. Returns the slots that are forged."""
    slots: dict[Occasion, int] = {}
    with ExitStack() as blocks:
        if job.loss:
            cycle = RunCycle()
            for channel in job.loss.channels:
                blocks.enter_context(world.fault(Mute(job.loss.node, channel_of(channel)), losing(job.loss, cycle)))
        if job.forgery:
            # The function injects the frames itself, since each has another slot. It never asks for the mute.
            blocks.enter_context(world.fault(Mute(job.forgery.node, "A"), forging(job.forgery, world, slots)))
        host = function(world)
        if isinstance(host, Iterator):
            world.play(host, cycles=job.cycles)
        while world.now():
            world.cycle()
    return slots


class RunCycle:
    """The cycle of the run that is open, which isn't wrapped at 64."""

    def __init__(self) -> None:
        self.cycle, self.window = -1, -1

    def of(self, window: Window) -> int:
        """Returns the cycle of a window. Each window is asked for in its turn."""
        if window.opens_cycle and window.number != self.window:
            self.cycle += 1
        self.window = window.number
        return self.cycle


def losing(loss: Loss, cycle: RunCycle) -> Callable[[Window], bool]:
    """Returns the function that is true for each window with a loss."""
    def is_lost(window: Window) -> bool:
        return cycle.of(window) in loss.cycles and not window.is_static
    return is_lost


def forging(forgery: Forgery, world: World, slots: dict[Occasion, int]) -> Callable[[Window], bool]:
    """Returns a function that forges the frames of each window, and notes their slots."""
    cycle = RunCycle()

    def forge(window: Window) -> bool:
        now = cycle.of(window)
        for channel in "AB":
            slot = slot_of(window, channel)
            if slot and window.minislot == forgery.minislot and (now, channel) in forgery.occasions:
                slots[now, channel] = slot
                with suppress(TooManyFaults):
                    world.ask(forged_babble(forgery.node, channel, slot, now))
        return False
    return forge


# ---- what was observed


def observed(job: HostJob, world: World, slots: dict[Occasion, int]) -> HostRan:
    """Returns all that is compared of a run that is over."""
    nodes = range(len(job.cluster.nodes))
    traces = {node: world.block(f"trace {node}") for node in nodes}
    reports = {node: world.block(f"report {node}") for node in nodes}
    outcome = "".join(f"node {node}\n" + "".join(f"{line}\n" for line in its) for node, its in reports.items())
    windows = [line.split(" ") for line in traces[0] if line.startswith("fetch ")]
    starts = [int(words[1]) for words in windows if opens_cycle(words)]
    played = Played(starts, slots=slots)
    if job.is_recorded:
        played.begun = begun(world, windows)
    if job.loss:
        played.begun = [Begun(it.cycle, it.minislot, channel, "muted") for it in fetched(traces[job.loss.node])
                        for channel in job.loss.channels
                        if it.cycle in job.loss.cycles and it.offers[channel] != "-"]
    if job.watched is not None:
        played.slots |= {(it.cycle, channel): int(slot) for it in fetched(traces[0]) if it.minislot == job.watched
                         for channel, slot in it.slots.items() if slot != "-"}
    for node in job.cluster.nodes:
        if node.queue:
            played.fifos[node.number] = fifo(job, traces[node.number])
    return HostRan(f"{outcome}windows {len(windows)}\nsettled\n", played,
                   {node: begins(trace) for node, trace in traces.items()}, committed(traces))


def opens_cycle(words: list[str]) -> bool:
    """Returns whether the words of a line `fetch` are those of the first window of a cycle."""
    return words[3:5] == ["0", "1"]


def begins(trace: list[str]) -> list[int]:
    """Returns the entries with which the windows of each cycle begin."""
    entries = trace[trace.index("begin") + 1:-1]
    return [number for number, line in enumerate(entries)
            if line.startswith("fetch ") and opens_cycle(line.split(" "))]


def committed(traces: dict[int, list[str]]) -> frozenset[tuple[int, int]]:
    """Returns the nodes and buffers to which a host program committed."""
    return frozenset((node, int(line.split(" ")[2])) for node, trace in traces.items() for line in trace
                     if line.startswith("commit "))


def begun(world: World, windows: list[list[str]]) -> list[Begun]:
    """Returns the transmissions that began in the dynamic segment."""
    found: list[Begun] = []
    cycle = -1
    dynamic: list[tuple[int, str]] = []
    for words in windows:
        cycle += opens_cycle(words)
        if words[3] != "0":
            dynamic.append((cycle, f"record {words[1]}"))
    for at in range(0, len(dynamic), RECORDS_AT_ONCE):
        part = dynamic[at:at + RECORDS_AT_ONCE]
        for (now, _), reply in zip(part, world.send([request for _, request in part])):
            record = record_of(reply.split("\n")[1:])
            found += [Begun(now, record.window.minislot, it.channel, it.fate) for it in record.sent
                      if record.window.slot(it.channel) is not None]
    return found


def fifo(job: HostJob, trace: list[str]) -> Fifo | str:
    """Returns the frames of a receive FIFO, or why they can't be read."""
    try:
        children = Children()
        return fifo_of(job.viewer, trace, children, senders_of(job.viewer, job.file, children))
    except Unread as error:
        return str(error)
