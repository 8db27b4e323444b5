"""A pool of processes that do runs of a host program, a process for each run.

Each process has a pipe of its own, and shares no lock and no queue with another. So a process that dies, even in the
middle of its answer, keeps no other one waiting, and its run alone fails. No run sees what an earlier one left in the
variables of the host program.
"""
import multiprocessing
import os
import signal
from collections.abc import Collection, Generator, Iterable
from multiprocessing.connection import Connection, wait

from musmyrtle.breaking import SIGNALS, deferred, held
from musmyrtle.faults.host_runs import HostJob, HostRan, host_run

DIED = HostRan(failure=("killed", "the process of the host program died"))
LOOK_SECONDS = 0.5
"""The seconds between two looks whether a process still runs: one that it forked may hold its pipe open."""


class Worker:
    """A process that does one run. It is forked from this one, in which the module of the host program is loaded."""

    def __init__(self, number: int, job: HostJob, others: Iterable["Worker"]) -> None:
        """Starts the process. It closes the pipes of the others, so that they see when this process ends."""
        context = multiprocessing.get_context("fork")
        self.number = number
        self.pipe, theirs = context.Pipe()
        inherited = [self.pipe, *(it.pipe for it in others)]
        self.process = context.Process(target=work, args=(job, theirs, inherited))
        # Python drops a signal that reaches a process right after its fork.
        with held():
            self.process.start()
        theirs.close()

    def answer(self) -> HostRan | None:
        """Returns the end of the run, or None while it goes on."""
        is_alive = self.process.is_alive()
        try:
            if self.pipe.poll():
                found: HostRan = self.pipe.recv()
                return found
        except (EOFError, OSError):
            return DIED
        return None if is_alive else DIED

    def end(self) -> None:
        """Ends the process. The programs that it started end with it, since their inputs end."""
        self.pipe.close()
        # A thread of the host program could hold up the end of a process that isn't killed.
        self.process.kill()
        self.process.join()
        self.process.close()


def work(job: HostJob, pipe: Connection, inherited: Collection[Connection]) -> None:
    """Does a run in a process of its own. Signals have their usual effect, and no output comes into the table."""
    for it in inherited:
        it.close()
    for number in SIGNALS:
        signal.signal(number, signal.SIG_DFL)
    signal.signal(signal.SIGINT, signal.SIG_IGN)
    signal.pthread_sigmask(signal.SIG_UNBLOCK, SIGNALS)
    os.dup2(os.open(os.devnull, os.O_WRONLY), 1)
    pipe.send(host_run(job))


class Pool:
    """Processes that do runs, so many at once."""

    def __init__(self, cores: int) -> None:
        self.cores = cores

    def one(self, job: HostJob) -> HostRan:
        """Does one run."""
        found, = self.all([job])
        return found

    def all(self, jobs: Iterable[HostJob]) -> Generator[HostRan, None, None]:
        """Yields the ends of all runs, in their order."""
        todo = list(enumerate(jobs))
        ends: dict[int, HostRan] = {}
        workers: list[Worker] = []
        try:
            for number in range(len(todo)):
                while number not in ends:
                    self.start(todo, workers)
                    wait([it.pipe for it in workers], LOOK_SECONDS)
                    collect(workers, ends)
                yield ends.pop(number)
        finally:
            with deferred():
                for it in workers:
                    it.end()

    def start(self, todo: list[tuple[int, HostJob]], workers: list[Worker]) -> None:
        """Starts the next runs, while fewer than allowed go on."""
        while todo and len(workers) < self.cores:
            # A signal between the two would lose the process.
            with deferred():
                workers.append(Worker(*todo.pop(0), workers))


def collect(workers: list[Worker], ends: dict[int, HostRan]) -> None:
    """Adds the answers that have come, and ends their processes."""
    for it in list(workers):
        found = it.answer()
        if found is not None:
            ends[it.number] = found
            with deferred():
                workers.remove(it)
                it.end()
