"""The runs of a list of faults on this machine: the command of one run, and a pool of them."""
import os
import tempfile
from collections.abc import Callable, Generator, Iterable, Iterator
from concurrent.futures import FIRST_COMPLETED, Future, ThreadPoolExecutor, wait
from pathlib import Path
from typing import TypeVar

from musmyrtle.breaking import deferred
from musmyrtle.faults.answers import Answer
from musmyrtle.faults.children import Children
from musmyrtle.faults.whole_files import unusable, write_file
from musmyrtle.scenario_words import NEWEST

OUTCOME = ("fr_view", "outcome")
"""The program and its command that print the outcome of a run."""
CLUSTER_FILE, SCENARIO_FILE = "cluster.toml", "scenario"
NOT_STARTED = 126
LOOK_SECONDS = 0.1
"""The seconds after which a thread that waits for runs looks whether a signal has come."""
Item = TypeVar("Item")
Result = TypeVar("Result")


def outcome_words(cluster: str, scenario: str, cycles: int) -> list[str]:
    """Returns the words after the program by which it prints the outcome of a run."""
    return words_of_run(OUTCOME[1], cluster, scenario, cycles)


def words_of_run(command: str, cluster: str, scenario: str, cycles: int) -> list[str]:
    """Returns the words after the program for a command of it about a run."""
    return [command, "--cycles", str(cycles), "--", cluster, scenario]


class Folder:
    """The files of all runs, in a folder of their own.

    These are the cluster file as it was read, the scenario in version 3, whose lines those of all faults are, and a
    scenario for each run while that lasts.
    """

    def __init__(self, path: Path, cluster: bytes, scenario: bytes, cycles: int,
                 children: Children | None = None) -> None:
        self.path, self.cycles = path, cycles
        self.children = children or Children()
        write_file(path / CLUSTER_FILE, cluster)
        self.head = head_of(scenario.decode())
        write_file(path / SCENARIO_FILE, self.with_lines(()).encode())

    @property
    def cluster(self) -> Path:
        return self.path / CLUSTER_FILE

    def with_lines(self, lines: Iterable[str]) -> str:
        """Returns the scenario with further lines."""
        return self.head + "".join(f"{line}\n" for line in lines) + "end\n"

    def run(self, program: str, lines: Iterable[str]) -> Answer:
        """Does the run with further lines, on this machine. Raises `Unusable` where its scenario can't be written."""
        name = self.written(self.with_lines(lines).encode())
        try:
            status, output, told = self.children.ran([program, *outcome_words(str(self.cluster), name, self.cycles)])
        except OSError as error:
            return Answer(NOT_STARTED, "", f"{program} can't be started: {error.strerror}")
        Path(name).unlink(missing_ok=True)
        return Answer(status, output.decode(errors="replace"), told.decode(errors="replace"))

    def written(self, scenario: bytes) -> str:
        """Writes the scenario of one run. Returns its name."""
        try:
            handle, name = tempfile.mkstemp(prefix="run-", dir=self.path)
            os.close(handle)
        except OSError as error:
            raise unusable(f"the temporary folder {self.path} can't be written", error) from None
        write_file(Path(name), scenario)
        return name


def head_of(scenario: str) -> str:
    """Returns an accepted scenario as one of version 3, without its last line, in which all mean the same."""
    _, *lines, _, _ = scenario.split("\n")
    return "".join(f"{line}\n" for line in (f"frscenario {NEWEST}", *lines))


def pooled(work: Callable[[Item], Result], items: Iterable[Item], cores: int,
           children: Children) -> Generator[tuple[Item, Result], None, None]:
    """Yields each item with the result of its work, in the order of their ends, with so many at once.

    If this ends early, the programs of the work end as well.
    """
    todo = iter(items)
    running: dict[Future[Result], Item] = {}
    with ThreadPoolExecutor(cores) as pool:
        try:
            while True:
                for item in todo:
                    # A signal within `submit` would lose a thread that has started.
                    with deferred():
                        running[pool.submit(work, item)] = item
                    if len(running) >= 2 * cores:
                        break
                if not running:
                    return
                yield from finished(running)
        except BaseException:
            pool.shutdown(wait=False, cancel_futures=True)
            children.end()
            raise


def finished(running: dict[Future[Result], Item]) -> Iterator[tuple[Item, Result]]:
    done: set[Future[Result]] = set()
    while not done:
        # A signal that comes just before this thread sleeps doesn't wake it, and one within `wait` leaves locks taken.
        with deferred():
            done, _ = wait(running, LOOK_SECONDS, FIRST_COMPLETED)
    for future in done:
        yield running.pop(future), future.result()
