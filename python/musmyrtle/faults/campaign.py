"""All faults of a list, each in a run of its own, compared with the run without it."""
from collections.abc import Callable, Collection, Generator, Iterator
from contextlib import closing, contextmanager
from dataclasses import dataclass

from musmyrtle.cluster import LAST_SLOT, Cluster, Queue
from musmyrtle.faults.answers import NO_REFUSALS, UNANSWERED, Answer
from musmyrtle.faults.costs import IDLE, Difference, Ended, differences, ended
from musmyrtle.faults.hosts import Hosts, answers
from musmyrtle.faults.listing import Listing, Selection, SingleFault
from musmyrtle.faults.log import Log
from musmyrtle.faults.played import Begun, Occasion, Played, Player
from musmyrtle.faults.runs import OUTCOME, Folder, pooled
from musmyrtle.faults.table import Done
from musmyrtle.outcomes import BadOutcome, Known, read_outcome
from musmyrtle.scenario import Scenario
from musmyrtle.visible import visible
from musmyrtle.world.refusals import NotStarted, Refused, SessionOver

Measured = Generator[tuple[SingleFault, list[Difference]], None, None]


@dataclass(frozen=True)
class Means:
    """The means for the runs: `fr_view`, `fr_world`, the cores of this machine, and other machines."""

    program: str
    world: str
    cores: int
    hosts: Hosts | None = None


class NoReference(Exception):
    """The run without a fault has no outcome. The message has the reason."""


def no_outcome(answer: Answer) -> str:
    """Returns the message for a run without a fault that failed."""
    effect, why = answer.failure or ("unreadable", "nothing")
    what = {"killed": "was killed", "refused": "was refused"}.get(effect, "has no outcome")
    return f"the run without a fault {what}: {why}"


def failed(effect: str, why: str) -> list[Difference]:
    return [Difference(None, "-", effect, 1, "-", visible(why))]


def unplayed(error: SessionOver | Refused) -> list[Difference]:
    """Returns the failure of a session.

    As with a run, some refusals come from the machine and are no answer.
    """
    effect = "killed"
    if isinstance(error, Refused):
        effect = "unreadable" if error.names[-1] in NO_REFUSALS else "refused"
    return failed(effect, f"fr_world: {error}")


def without_run(fault: SingleFault) -> list[Difference]:
    """Returns the differences of a fault that has no run: none if it is proved to be harmless."""
    return [] if fault.is_proved else [Difference(None, "-", IDLE, 0, "-", "-")]


class Campaign:
    """A cluster and a scenario with the run without a fault, which is the reference for the others.

    Raises `NotStarted` where there is no `fr_world`, and `NoReference` where that run has no outcome.
    """

    def __init__(self, cluster: Cluster, scenario: Scenario, folder: Folder, means: Means) -> None:
        self.cluster, self.scenario, self.folder, self.means = cluster, scenario, folder, means
        self.player = Player(means.world, means.program, folder, cluster, scenario)
        try:
            self.recorded = self.player.record()
        except NotStarted:
            raise
        except (SessionOver, Refused) as error:
            raise NoReference(f"{means.world}: {error}") from None
        self.known: Known = {}
        self.done_here = 0
        """The runs that no machine answered and that were done here."""
        self.reference = self.read_reference()

    def read_reference(self) -> Ended:
        answer = self.folder.run(self.means.program, ())
        if answer.failure:
            raise NoReference(no_outcome(answer))
        try:
            return ended(self.scenario, read_outcome(answer.output, self.cluster), self.recorded)
        except BadOutcome as error:
            raise NoReference(f"{self.means.program} doesn't answer as {OUTCOME[0]} does: {error}") from None

    def listing(self, selection: Selection) -> Listing:
        plays = ListPlays(self.recorded, self.player)
        return Listing(self.cluster, self.scenario, self.folder.cycles, selection, plays)

    def overwritten(self) -> dict[int, int]:
        """Returns the number of frames that each overwriting FIFO overwrites without any fault, by node."""
        counts = ((number, node.queue) for number, node in enumerate(self.reference.outcome.nodes))
        return {number: it.lost for number, it in counts if it and it.lost}

    def quiet(self) -> tuple[int, ...]:
        """Returns the nodes that have transmit buffers, and for which the scenario has no commit."""
        committing = {line.value("NODE") for lines in self.scenario.scripts.values() for line in lines
                      if line.kind == "commit"}
        return tuple(it.number for it in self.cluster.nodes
                     if it.number not in committing and any(buffer.transmits for buffer in it.buffers))

    def measure(self, fault: SingleFault, answer: Answer) -> list[Difference]:
        """Returns the differences that the fault makes, or how its run failed."""
        if answer.failure:
            return failed(*answer.failure)
        try:
            outcome = read_outcome(answer.output, self.cluster, self.known)
            watched = fault.minislot if fault.kind == "forged" else None
            played = self.player.play(fault.lines, watched) if self.is_played(fault) else self.recorded
        except BadOutcome as error:
            return failed("unreadable", str(error))
        except (SessionOver, Refused) as error:
            return unplayed(error)
        wrong = misplaced(fault, played)
        if wrong:
            return failed("unreadable", wrong)
        if played is self.recorded:
            return differences(self.reference, Ended(outcome, self.reference.calendar, self.reference.fifos))
        return differences(self.reference, ended(self.scenario, outcome, played))

    def is_played(self, fault: SingleFault) -> bool:
        """Returns whether the outcome alone isn't enough.

        Windows may have moved, or other frames have come to a FIFO.
        """
        return fault.is_dynamic or any(self.may_reach(fault, node.queue) for node in self.cluster.nodes if node.queue)

    def may_reach(self, fault: SingleFault, queue: Queue) -> bool:
        last = min(queue.last, self.cluster.parameters.static_slots)
        is_in_range = queue.first <= last if fault.slot is None else queue.first <= fault.slot <= last
        return is_in_range and any(it in queue.channels for it in fault.channels)

    def run(self, faults: list[SingleFault], log: Log, tell: Callable[[int, int], None]) -> Done:
        """Runs all faults that have a run.

        Returns all in the order of the list, and reports the number done to TELL.
        """
        runs = [it for it in faults if it.has_run]
        todo = [it for it in runs if str(it) not in log.done]
        with closing(self.measured(todo)) as measured:
            for number, (fault, found) in enumerate(measured, 1):
                log.add(fault, found)
                tell(len(runs) - len(todo) + number, len(runs))
        return [(it, log.done[str(it)] if it.has_run else without_run(it)) for it in faults]

    def measured(self, faults: list[SingleFault]) -> Measured:
        """Yields each fault with its differences, in the order in which runs end."""
        rest = faults
        if self.means.hosts is not None:
            answered = set[str]()
            with closing(self.by_hosts(faults, self.means.hosts)) as told:
                for fault, found in told:
                    answered.add(str(fault))
                    yield fault, found
            rest = [it for it in faults if str(it) not in answered]
            self.done_here = len(rest)
        with closing(pooled(self.here, rest, self.means.cores, self.folder.children)) as done:
            yield from done

    def by_hosts(self, faults: list[SingleFault], hosts: Hosts) -> Measured:
        """Yields the same for the faults whose runs a machine has answered."""
        with closing(answers(self.folder, self.means.program, faults, hosts)) as told, closing(
                pooled(lambda it: self.measure(*it), told, self.means.cores, self.folder.children)) as done:
            for (fault, _), found in done:
                if is_answered(found):
                    yield fault, found

    def here(self, fault: SingleFault) -> list[Difference]:
        return self.measure(fault, self.folder.run(self.means.program, fault.lines))


def is_answered(found: list[Difference]) -> bool:
    return not any(it.effect in UNANSWERED for it in found)


@dataclass(frozen=True)
class ListPlays:
    """The runs that a list depends on, played in sessions.

    Raises `NoReference` where one of them has no outcome.
    """

    base: Played
    player: Player

    def recorded(self) -> list[Begun]:
        return self.base.begun

    def lose(self, node: int, channels: str, cycles: Collection[int]) -> list[Begun]:
        with for_a_list():
            return self.player.lose(node, channels, cycles)

    def forge(self, node: int, minislot: int, occasions: Collection[Occasion]) -> dict[Occasion, int]:
        with for_a_list():
            return self.player.forge(node, minislot, occasions)


@contextmanager
def for_a_list() -> Iterator[None]:
    """Turns the end of a session into the one line that reports a missing list."""
    try:
        yield
    except (SessionOver, Refused) as error:
        raise NoReference(f"fr_world, for the list of faults: {error}") from None


def misplaced(fault: SingleFault, played: Played) -> str | None:
    """Returns the fault of a frame forged in a minislot.

    It has to carry the slot that is open in its own run.
    """
    if fault.kind != "forged" or fault.minislot is None:
        return None
    for line in (it.split(" ") for it in fault.lines):
        cycle, channel, frame = int(line[3]), line[2], bytes.fromhex(line[5][1:])
        slot = int.from_bytes(frame[:2], "big") & LAST_SLOT
        if played.slots.get((cycle, channel)) != slot:
            found = played.slots.get((cycle, channel), "no slot")
            return f"in cycle {cycle} the forged frame is of slot {slot} on {channel}, where {found} is open"
    return None
