"""The facts of a run, as `fr_view` prints them: commits, answers, the record of the bus, and the outcome."""
from dataclasses import dataclass
from functools import cache, cached_property

from musmyrtle.faults.fifos import Fifo, Unread, read_fifo
from musmyrtle.lint.command import USAGE
from musmyrtle.links import links_in
from musmyrtle.outcomes import BadOutcome, Outcome, read_outcome
from musmyrtle.output import Stop
from musmyrtle.scenario import Scenario
from musmyrtle.show.causes import Causes
from musmyrtle.show.engines import ENDLESS, Inputs
from musmyrtle.show.idle_cycle import cycle_begins_of, idle_cycle_of
from musmyrtle.show.network import Network
from musmyrtle.show.received import errors_in
from musmyrtle.show.windows import Windows

ARRIVED = "alone"
"""The end of a transmission that arrived as it was sent."""
FRAME_WORDS = 5
"""The words of a frame in an answer."""


@dataclass(frozen=True, slots=True)
class Transmission:
    """A line of the record. A bit that a fault names has no node, and its number in `bit`."""

    window: int
    cycle: int
    minislot: int | None
    slot: int | None
    channel: str
    node: int | None
    what: str
    passed: str | None
    end: str | None
    frame: int | None
    flags: str | None
    data: str | None
    bit: int | None
    line: int | None


@dataclass(frozen=True, slots=True)
class Sent:
    """A transmission of a commit: cycle of the run, slot, channel, end, and receivers as `0:b1,2:queue` or `-`."""

    cycle: int
    slot: int
    channel: str
    end: str
    receivers: str


@dataclass(frozen=True, slots=True)
class Commit:
    """A commit with its fate, and the cycle and the entry of the call by which it was overwritten or withdrawn."""

    node: int
    buffer: int
    task: int
    cycle: int
    entry: int
    data: str
    fate: str
    ended: int | None
    ending: int | None
    sent: tuple[Sent, ...]

    @property
    def is_delivered(self) -> bool:
        """Returns whether a receive buffer or a FIFO stored it."""
        return any(it.receivers != "-" for it in self.sent)


@dataclass(frozen=True, slots=True)
class Call:
    """A call of a task with its answer: of a frame the cycle count, slot, channel and payload, and the cycle of the
    run in which it came, or nothing."""

    node: int
    task: int
    cycle: int
    kind: str
    buffer: int | None
    count: int | None
    slot: int | None
    channel: str | None
    data: str | None
    came: int | None


def number(word: str) -> int | None:
    """Returns the number of a word, or None for `-`."""
    return None if word == "-" else int(word)


def text(word: str) -> str | None:
    """Returns a word, or None for `-`."""
    return None if word == "-" else word


def transmission_of(line: str) -> Transmission:
    """Returns the transmission of a line of the record."""
    words = line.split(" ")
    window, cycle = int(words[0]), int(words[1])
    place = number(words[2]), number(words[3])
    if words[6] == "corrupt":
        return Transmission(window, cycle, *place, words[4], None, "corrupt", None, None, None, None, None,
                            int(words[7]), number(words[8]))
    return Transmission(window, cycle, *place, words[4], int(words[5]), words[6], words[7], words[8],
                        number(words[9]), text(words[10]), words[11], None, number(words[12]))


def commit_of(line: str) -> Commit:
    """Returns the commit of a line of `fr_view commits`."""
    words = line.split(" ")
    node, buffer, task, cycle, entry = map(int, words[:5])
    fate, rest = words[7], words[8:]
    if fate != "sent":
        ended, ending = map(int, rest) if rest else (None, None)
        return Commit(node, buffer, task, cycle, entry, words[5], fate, ended, ending, ())
    sent = tuple(Sent(int(rest[at]), int(rest[at + 1]), *rest[at + 2:at + 5]) for at in range(0, len(rest), 5))
    return Commit(node, buffer, task, cycle, entry, words[5], fate, None, None, sent)


def call_of(line: str) -> Call:
    """Returns the call of a line of `fr_view origins`."""
    front, _, back = line.partition(" = ")
    node, task, cycle, kind, *rest = front.split(" ")
    buffer = int(rest[0]) if rest else None
    answer = back.split(" ")
    if len(answer) == FRAME_WORDS:
        count, slot, channel, data, came = answer
        return Call(int(node), int(task), int(cycle), kind, buffer, int(count), int(slot), channel, data, number(came))
    return Call(int(node), int(task), int(cycle), kind, buffer, None, None, None, None, None)


class Facts:
    """The facts of the run of some inputs. Each is asked for once, when it is needed."""

    def __init__(self, inputs: Inputs) -> None:
        self.inputs = inputs
        self.trace = cache(self.read_trace)
        self.fifo = cache(self.read_fifo)

    @property
    def network(self) -> Network:
        """Returns the network of the cluster file."""
        return self.inputs.network

    def run(self) -> None:
        """Does the run. Raises `Stop` where it is refused."""
        len(self.record)

    @cached_property
    def record(self) -> list[Transmission]:
        """Returns the lines of the record."""
        return [transmission_of(line) for line in self.inputs.of_run("record").lines]

    @cached_property
    def commits(self) -> list[Commit]:
        """Returns the commits of all nodes."""
        return [commit_of(line) for line in self.inputs.of_run("commits").lines]

    @cached_property
    def calls(self) -> list[Call]:
        """Returns the calls of all tasks."""
        return [call_of(line) for line in self.inputs.of_run("origins").lines]

    @cached_property
    def causes(self) -> Causes:
        """Returns the facts for which commits weren't sent or weren't received."""
        return Causes(self.inputs.of_run("reasons").lines)

    @cached_property
    def ended(self) -> tuple[Outcome, tuple[int, ...]]:
        """Returns the outcome, and the lines of the scenario whose faults had no effect."""
        printed = self.inputs.of_run("outcome")
        try:
            outcome = read_outcome("".join(f"{it}\n" for it in printed.lines), self.network.cluster)
            return outcome, printed.idle
        except BadOutcome as error:
            raise Stop(USAGE, f"{self.inputs.program('fr_view')} prints no outcome: {error}") from None

    @property
    def scenario(self) -> Scenario:
        """Returns the scenario, which a program has accepted."""
        return self.inputs.scenario

    @cached_property
    def windows(self) -> Windows:
        """Returns the windows of the run, and its end.

        The end is the begin of a further cycle. A run of the scenario with one may be refused for lines that name it,
        so it is taken from a run without them.
        """
        found = Windows(self.inputs.lines_of_run("windows", ENDLESS))
        found.cycle_begins.append(cycle_begins_of(self.inputs, idle_cycle_of(self.inputs), self.inputs.cycles)[-1])
        return found

    @cached_property
    def sending(self) -> dict[tuple[int, int], list[str]]:
        """Returns the cycles in which each buffer sends, as `fr_view links` prints them, by node and number."""
        found: dict[tuple[int, int], list[str]] = {}
        for link in links_in(self.inputs.of_cluster("fr_view", "links").lines):
            its = found.setdefault((link.node, link.buffer), []) if link.buffer is not None else []
            if str(link.cycles) not in its:
                its.append(str(link.cycles))
        return found

    @cached_property
    def by_place(self) -> dict[tuple[int, int, str], list[Transmission]]:
        """Returns the lines of the record by cycle, slot and channel."""
        found: dict[tuple[int, int, str], list[Transmission]] = {}
        for it in self.record:
            if it.slot is not None:
                found.setdefault((it.cycle, it.slot, it.channel), []).append(it)
        return found

    def begin(self, cycle: int, slot: int, channel: str) -> int | None:
        """Returns the macrotick of the run at which the window of a transmission begins."""
        its = self.by_place.get((cycle, slot, channel))
        return self.windows.begins[its[0].window] if its else None

    @cached_property
    def errors(self) -> dict[tuple[int, str, str], list[tuple[int, int]]]:
        """Returns the cycles and slots in which nodes counted errors, by node, channel and counter."""
        return errors_in(self.inputs.lines_of_run("received"), self.windows)

    # ---- traces

    def read_trace(self, node: int) -> list[str]:
        """Returns the lines of the trace of a node."""
        return self.inputs.of_run("trace", str(node)).lines

    def read_fifo(self, node: int) -> Fifo:
        """Returns the frames of a node's receive FIFO by their fates. Raises `Stop` where they can't be read."""
        data = "".join(f"{line}\n" for line in self.trace(node)).encode()
        try:
            return read_fifo(self.inputs.ask("fr_view", ["fifo"], data).lines)
        except Unread as error:
            raise Stop(USAGE, f"the FIFO of node {node} can't be read: {error}") from None
