"""All faults of a list beside a host program, each in a run of its own."""
from collections.abc import Callable, Collection
from contextlib import closing
from dataclasses import replace

from musmyrtle.faults.campaign import NoReference, failed, misplaced, without_run
from musmyrtle.faults.costs import Calendar, Difference, Ended, differences
from musmyrtle.faults.host_pool import Pool
from musmyrtle.faults.host_runs import Forgery, HostJob, HostRan, Loss
from musmyrtle.faults.listing import Listing, Selection, SingleFault
from musmyrtle.faults.log import Log
from musmyrtle.faults.played import Begun, Occasion
from musmyrtle.faults.table import Done
from musmyrtle.outcomes import Known, read_outcome
from musmyrtle.scenario import Scenario
from musmyrtle.scenario_lines import Line


class HostCampaign:
    """A cluster and a host program with the run without a fault, which is the reference for the others.

    Raises `NoReference` where that run has no outcome, or where two such runs differ.
    """

    def __init__(self, job: HostJob, cores: int) -> None:
        self.job, self.pool = job, Pool(cores)
        self.known: Known = {}
        self.done_here = 0
        """The runs that no machine answered; host programs run here alone."""
        first, second = self.pool.all([replace(job, is_recorded=True)] * 2)
        if first.failure:
            raise NoReference(f"the run without a fault has no outcome: {first.failure[1]}")
        if first != second:
            raise NoReference("two runs without a fault differ, so none can be compared: is the host program random?")
        self.begun = first.played.begun
        self.reference = self.ended(first)
        self.scenario = commits_of(first)

    def ended(self, ran: HostRan) -> Ended:
        """Returns the end of a run, for the comparison."""
        calendar = Calendar(Scenario(self.job.host), ran.played.starts)
        calendar.begins = ran.begins
        return Ended(read_outcome(ran.outcome, self.job.cluster, self.known), calendar, ran.played.fifos)

    def listing(self, selection: Selection) -> Listing:
        """Returns the list of faults."""
        return Listing(self.job.cluster, self.scenario, self.job.cycles, selection, HostPlays(self))

    def overwritten(self) -> dict[int, int]:
        """Returns the number of frames that each overwriting FIFO overwrites without any fault, by node."""
        counts = ((number, node.queue) for number, node in enumerate(self.reference.outcome.nodes))
        return {number: it.lost for number, it in counts if it and it.lost}

    def quiet(self) -> tuple[int, ...]:
        """Returns the nodes that have transmit buffers, and to which the host program commits nothing."""
        committing = {node for node, _ in self.scenario.scripts}
        return tuple(it.number for it in self.job.cluster.nodes
                     if it.number not in committing and any(buffer.transmits for buffer in it.buffers))

    def measure(self, fault: SingleFault, ran: HostRan) -> list[Difference]:
        """Returns the differences that the fault makes, or how its run failed."""
        if ran.failure:
            return failed(*ran.failure)
        wrong = misplaced(fault, ran.played)
        return failed("unreadable", wrong) if wrong else differences(self.reference, self.ended(ran))

    def job_of(self, fault: SingleFault) -> HostJob:
        """Returns the run with a fault."""
        watched = fault.minislot if fault.kind == "forged" else None
        return replace(self.job, lines=tuple(fault.lines), watched=watched)

    def run(self, faults: list[SingleFault], log: Log, tell: Callable[[int, int], None]) -> Done:
        """Runs all faults that have a run.

        Returns all in the order of the list, and reports the number done to TELL.
        """
        runs = [it for it in faults if it.has_run]
        todo = [it for it in runs if str(it) not in log.done]
        with closing(self.pool.all(map(self.job_of, todo))) as ends:
            for number, (fault, ran) in enumerate(zip(todo, ends), 1):
                log.add(fault, self.measure(fault, ran))
                tell(len(runs) - len(todo) + number, len(runs))
        return [(it, log.done[str(it)] if it.has_run else without_run(it)) for it in faults]


def commits_of(ran: HostRan) -> Scenario:
    """Returns a scenario that has a commit for each node and buffer to which the host program commits."""
    found = Scenario("")
    for node, buffer in sorted(ran.commits):
        line = Line(0, ("commit", str(node), "0", "0", str(buffer), "x"))
        found.scripts.setdefault((node, 0), []).append(line)
    return found


class HostPlays:
    """The runs that a list depends on. Raises `NoReference` where one of them has no outcome."""

    def __init__(self, campaign: HostCampaign) -> None:
        self.campaign = campaign

    def recorded(self) -> list[Begun]:
        """Returns the transmissions that begin in the dynamic segment in the run without the fault."""
        return self.campaign.begun

    def lose(self, node: int, channels: str, cycles: Collection[int]) -> list[Begun]:
        """Returns the node's offers in the dynamic segment in a run that loses all of them."""
        return self.ran(replace(self.campaign.job, loss=Loss(node, channels, cycles))).played.begun

    def forge(self, node: int, minislot: int, occasions: Collection[Occasion]) -> dict[Occasion, int]:
        """Returns the slots that are open at the minislot where the node forges a frame of the open slot."""
        forgery = Forgery(node, minislot, frozenset(occasions))
        return self.ran(replace(self.campaign.job, forgery=forgery)).played.slots

    def ran(self, job: HostJob) -> HostRan:
        """Returns the end of a run. Raises `NoReference` if it failed."""
        found = self.campaign.pool.one(job)
        if found.failure:
            raise NoReference(f"for the list of faults: {found.failure[1]}")
        return found
