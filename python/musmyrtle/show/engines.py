"""The programs that a command asks, and its inputs: a refusal is explained as `lint` explains it."""
import os
import subprocess
import sys
from collections.abc import Iterable, Iterator
from contextlib import contextmanager
from dataclasses import dataclass
from functools import cached_property
from tempfile import TemporaryFile
from typing import IO, NoReturn

from musmyrtle.ending import FINE, reason_of
from musmyrtle.faults.children import Children
from musmyrtle.findings import block, counted
from musmyrtle.floods import condensed
from musmyrtle.idle_lines import idle_line_of, idle_text
from musmyrtle.lint.command import MOST_REPEATED, REFUSED, USAGE, is_bold_on, lasting
from musmyrtle.lint.lint import Lint, Task, lint, read_bytes
from musmyrtle.missed import MISSED, NOT_JUDGED, UNJUDGED, Miss, is_unjudged, miss_of, misses_of
from musmyrtle.most_cycles import BAD_CYCLES, too_many_cycles
from musmyrtle.names import Names
from musmyrtle.output import Stop, pass_on, write
from musmyrtle.program import REFUSED_LINE, Answer, is_launcher, itself, no_answer, places, usual_program
from musmyrtle.scenario import Reading, Scenario
from musmyrtle.show.effects import Effects
from musmyrtle.show.first_lines import is_foreign
from musmyrtle.show.network import Network, missed_text
from musmyrtle.texts import NoText, read_text
from musmyrtle.version import version
from musmyrtle.visible import cut, visible

COMMAND = "musmyrtle"
ENDLESS, RECORD = "--endless", "record"
"""The word for a run without history, and the view that names the lines of faults."""
WITH_OUTPUT = (FINE, MISSED, UNJUDGED)
"""The statuses of a program that printed its output."""
MOST_REASONS = 20
CHUNK = 1 << 16
"""The bytes of a program's lines that are read at once."""


def temporary_file() -> IO[bytes]:
    """Returns a file without a name. Raises `Stop` where none can be made."""
    try:
        return TemporaryFile()
    except OSError as error:
        raise Stop(USAGE, f"a temporary file can't be made: {reason_of(error)}") from None


@dataclass(frozen=True)
class Printed:
    """The lines that a program printed, and the lines of the scenario whose faults had no effect."""

    lines: list[str]
    idle: tuple[int, ...] = ()


class Awaited(Exception):
    """A program refused the inputs by a name for which the command has another way."""


class Inputs:
    """The cluster file, and the scenario with its cycles if there is one, for the programs that are asked about them.
    """

    def __init__(self, task: Task) -> None:
        self.task, self.children = task, Children()
        self.programs: dict[str, str] = {}
        self.passed_on: set[str] = set()
        """The messages that were passed on. Each run of a command has the same ones."""
        self.misses: tuple[Miss, ...] = ()
        """The expectations of the scenario that the run missed."""
        self.passes_misses_on = True
        """False for a command that has a table of them, in which they aren't messages."""
        self.passes_idle_on = True
        """The same of the fault lines without effect. False also for the run of a session, whose scenario is made here.
        """
        self.label = ""
        """The beginning of each message, for a command about several runs."""
        self.further: tuple[int, str] | None = None
        """The last line of the scenario and its name, for a run with a further line, if messages are about it alone."""
        self.effects: Effects | None = None
        """The effects of the scenario's faults in the record, once it was read, if the programs don't print them."""
        self.is_endless = self.is_unjudged = False
        """True for a command whose run keeps no history; and for a view that judged none of the expectations. In a run
        with history these are judged by another view."""
        self.has_lines = True
        """False for the scenario of a session, which the package makes, so that its line numbers say nothing."""
        self.awaited: frozenset[str] = frozenset()
        """The refusals for which the command has another way. They raise `Awaited`."""

    @cached_property
    def network(self) -> Network:
        """Returns the network of the cluster file, which a program has accepted before."""
        data = read_bytes(self.task.file(self.task.cluster))
        try:
            network = None if data is None else Network.of(read_text(self.task.cluster, data))
        except NoText:
            network = None
        if network is None:
            raise Stop(USAGE, f"{self.task.cluster} can't be read again, or was changed meanwhile")
        return network

    @cached_property
    def scenario(self) -> Scenario:
        """Returns the scenario, which a program has accepted."""
        return Reading(self.task.scenario or "", self.text, self.cycles, self.names).scenario

    @property
    def text(self) -> bytes:
        """Returns the content of the scenario."""
        return read_bytes(self.task.file(self.task.scenario or "")) or b""

    @property
    def names(self) -> Names:
        """Returns the names of the cluster file, which a program has accepted."""
        return Names.of(read_bytes(self.task.file(self.task.cluster)) or b"")

    @property
    def status(self) -> int:
        """Returns the status of a command that is done, by the expectations of the scenario."""
        if self.misses:
            return MISSED
        return UNJUDGED if self.is_endless and self.is_unjudged else FINE

    @property
    def cycles(self) -> int:
        """Returns the cycles of the run, or 0 without a run."""
        return self.task.cycles or 0

    def program(self, name: str) -> str:
        """Returns the program of this name. Raises `Stop` with the places where it is looked for."""
        if name not in self.programs:
            found = usual_program(name)
            if found is None:
                raise Stop(USAGE, f"there is no {name}. It is looked for in this order: {places(name)}")
            self.programs[name] = found
        return self.programs[name]

    def of_cluster(self, name: str, command: str) -> Printed:
        """Returns what a program prints about the cluster file."""
        return self.ask(name, [command, "--", self.task.file(self.task.cluster)])

    def of_run(self, command: str, *words: str) -> Printed:
        """Returns what `fr_view` prints about the run."""
        return self.ask("fr_view", self.words_of_run(command, *words))

    def words_of_run(self, command: str, *words: str) -> list[str]:
        """Returns the words with which `fr_view` is asked about the run."""
        files = self.task.file(self.task.cluster), self.task.file(self.task.scenario or "")
        return [command, *words, "--cycles", str(self.task.cycles), "--", *files]

    def ask(self, name: str, words: list[str], data: bytes = b"") -> Printed:
        """Returns what a program prints. Raises `Stop` where it refuses the inputs, which are then explained, and where
        it gives no answer."""
        program = self.program(name)
        status, output, told = self.ran(program, name, words, data)
        lines = output.decode(errors="replace").splitlines()
        if status in WITH_OUTPUT and is_foreign(words[0], lines[0] if lines else None):
            raise foreign(program, words)
        lines = list(self.watched(words, iter(lines)))
        idle = self.told(program, words, status, told)
        if output and not output.endswith(b"\n"):
            raise cut_off(program, words)
        return Printed(lines, tuple(idle))

    def ran(self, program: str, name: str, words: list[str], data: bytes = b"") -> tuple[int, bytes, bytes]:
        """Runs a program, and returns its status, output and standard error."""
        try:
            found = self.children.ran([program, *words], data)
        except OSError as error:
            raise self.no_start(program, name, error) from None
        self.keep(program, name)
        return found

    def lines_of_run(self, command: str, *words: str) -> Iterator[str]:
        """Yields the lines that `fr_view` prints about the run, as it prints them. Raises what `ask` raises."""
        name, pipe = "fr_view", subprocess.PIPE
        program, words_of_run = self.program(name), self.words_of_run(command, *words)
        parts = list[bytes]()
        with temporary_file() as told:
            try:
                with self.children.started([program, *words_of_run], stdin=subprocess.DEVNULL, stdout=pipe,
                                           stderr=told) as process:
                    lines = self.watched(words_of_run, whole_lines(process.stdout, parts))
                    first = next(lines, None)
                    if first is not None:
                        if is_foreign(command, first):
                            raise foreign(program, words_of_run)
                        yield first
                        yield from lines
            except OSError as error:
                raise self.no_start(program, name, error) from None
            self.keep(program, name)
            told.seek(0)
            self.told(program, words_of_run, process.returncode, told.read())
        if parts:
            raise cut_off(program, words_of_run)
        if first is None and is_foreign(command, None):
            raise foreign(program, words_of_run)

    def no_start(self, program: str, name: str, error: OSError) -> Stop:
        """Returns the end of a command that can't run a program."""
        return Stop(USAGE, f"{program} can't be run: {error.strerror}. {name} is looked for in this order: "
                           f"{places(name)}")

    def keep(self, program: str, name: str) -> None:
        """Keeps the program of a launcher. One check of the sources is enough for all that one command asks."""
        if is_launcher(program):
            self.programs[name] = itself(program)

    def told(self, program: str, words: list[str], status: int, told: bytes) -> Iterable[int]:
        """Passes the messages of a program on, and returns the lines of faults without effect. Raises `Stop` where the
        program refused or failed."""
        lines = told.decode(errors="replace").splitlines()
        misses = misses_of(status, lines)
        self.is_unjudged = self.is_unjudged or is_unjudged(status, lines)
        if status and not misses and not is_unjudged(status, lines):
            self.stop(program, words, status, lines)
        self.misses = misses or self.misses
        if words[0] == RECORD and self.effects is None:
            self.effects = self.effects_of(words)
        for line in condensed(self.notes(words, lines), self.spelled):
            if self.further and not line.startswith(f"line {self.further[0]} "):
                continue
            message = f"{self.label}{line}"
            if self.further:
                message = line.replace(f"line {self.further[0]}", self.further[1], 1)
            if message not in self.passed_on:
                self.passed_on.add(message)
                pass_on(message)
        return [it for it in map(idle_line_of, lines) if it is not None]

    def notes(self, words: list[str], lines: list[str]) -> Iterator[str]:
        """Yields the lines to pass on of a program's: on the scenario, on its idle faults, and on its expectations."""
        mine = [it for it in lines if not self.is_told_otherwise(it)]
        is_last = [miss_of(it) is not None or it.endswith(NOT_JUDGED) for it in mine]
        yield from (it for it, is_later in zip(mine, is_last) if not is_later)
        if self.effects and self.passes_idle_on and words[0] == RECORD:
            if ENDLESS in words:
                yield from map(idle_text, self.effects.idle())
            yield from self.effects.told()
        yield from (it for it, is_later in zip(mine, is_last) if is_later)

    def is_told_otherwise(self, line: str) -> bool:
        """Returns whether the command itself prints what a line says, or asks another view for it."""
        if idle_line_of(line) is not None:
            return not self.passes_idle_on
        if not self.is_endless and line.endswith(NOT_JUDGED):
            return True
        return not self.passes_misses_on and miss_of(line) is not None

    def watched(self, words: list[str], lines: Iterator[str]) -> Iterator[str]:
        """Yields the lines that a program prints, and notes the effects of faults in those of the record."""
        first = next(lines, None) if words[0] == RECORD else None
        if first is not None:
            effects = self.effects = self.effects_of(words)
            if effects:
                effects.add(first)
            yield first
            while effects and (line := next(lines, None)) is not None:
                effects.add(line)
                yield line
        yield from lines

    def effects_of(self, words: list[str]) -> Effects | None:
        """Returns where to note the effects in a record, or None if the program reports all of them.

        It reports none in a run without history, and no part of a line with lists.
        """
        if not self.has_lines or ENDLESS not in words and b"," not in self.text:
            return None
        return Effects(self.scenario, self.names, self.cycles)

    def spelled(self, miss: Miss) -> str:
        """Returns a missed expectation with the names of its node and buffer."""
        return missed_text(self.network, miss)

    def stop(self, program: str, words: list[str], status: int, lines: list[str]) -> NoReturn:
        """Raises `Stop` for a program that refused or failed, after the reason of a refusal."""
        refusals = [it.removeprefix("refused ") for it in lines if REFUSED_LINE.fullmatch(it)]
        told = refusals[-1] if refusals else " ".join(lines).strip() or f"status {status}"
        if refusals and told.split(" ")[0] in self.awaited:
            raise Awaited(told)
        answer = Answer(status, told, bool(refusals))
        found = Lint()
        if told == BAD_CYCLES:
            # `lint` knows runs with history alone.
            found.refusals.append((told, too_many_cycles(self.network.cluster, self.cycles)))
        elif answer.status == REFUSED:
            found = lint(self.task)
        if not answer.is_one(found.refusal) or answer.status == USAGE:
            raise Stop(USAGE, no_answer(program, words, answer))
        write(sys.stderr, ["\n".join(reasons(told, found))])
        raise Stop(REFUSED)


def whole_lines(source: IO[bytes] | None, rest: list[bytes]) -> Iterator[str]:
    """Yields the whole lines of an output as they come, and adds a last one without a line feed to REST."""
    left = b""
    while source and (data := os.read(source.fileno(), CHUNK)):
        block, end, left = (left + data).rpartition(b"\n")
        if end:
            yield from block.decode(errors="replace").split("\n")
    rest += [left] if left else []


def foreign(program: str, words: list[str]) -> Stop:
    """Returns the end of a command whose program prints something else than it has to."""
    return Stop(USAGE, visible(f"{program} {words[0]} doesn't print what {COMMAND} {version()} reads: is it another "
                               "program, or one of another version?"))


def cut_off(program: str, words: list[str]) -> Stop:
    """Returns the end of a command whose program ended well, but within a line."""
    return Stop(USAGE, visible(f"the output of {program} {words[0]} is cut off: its last line has no line feed"))


def reasons(refusal: str, found: Lint) -> Iterator[str]:
    """Yields the refusal and its reasons, as `lint` prints them."""
    yield f"{COMMAND}: refused {visible(cut(refusal, MOST_REPEATED))}\n"
    if found.refusal != refusal:
        yield f"No reason is known for `{visible(cut(refusal, MOST_REPEATED))}`.\n"
        return
    for words, finding in found.refusals[:MOST_REASONS]:
        yield block(f"refused {words}", finding, is_bold_on(sys.stderr))
    if len(found.refusals) > MOST_REASONS:
        yield f"and {counted(len(found.refusals) - MOST_REASONS, 'more mistake')}\n"


@contextmanager
def opened(cluster: str, scenario: str | None = None, cycles: int | None = None) -> Iterator[Inputs]:
    """Yields the inputs with files that can be read several times, also if they are pipes."""
    with lasting(Task(cluster, scenario, cycles)) as task:
        inputs = Inputs(task)
        try:
            yield inputs
        except BaseException:
            inputs.children.end()
            raise
