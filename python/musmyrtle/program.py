"""The program `fr_bench`, which decides, and those beside it: their files and their answers."""
import os
import re
import shutil
import signal
import subprocess
from collections import deque
from collections.abc import Callable, Iterator
from contextlib import AbstractContextManager, contextmanager
from dataclasses import dataclass
from pathlib import Path
from threading import Thread
from typing import IO, Any

from musmyrtle.floods import condensed, is_of_many
from musmyrtle.idle_lines import idle_line_of
from musmyrtle.missed import MISSED, Miss, misses_of
from musmyrtle.output import pass_on
from musmyrtle.streams import RESTORED

CHECKOUT = Path(__file__).resolve().parents[2]
VARIABLES = {"fr_bench": "MUSMYRTLE_BENCH", "fr_view": "MUSMYRTLE_VIEW", "fr_world": "MUSMYRTLE_WORLD",
             "fr_monitor": "MUSMYRTLE_MONITOR"}
"""The variables that name the programs."""
OF_THE_MACHINE = {"Read": "its input can't be read", "Write": "its output can't be written", "Memory": "out of memory",
                  "Thread": "a thread can't be started, or its run didn't complete"}
"""The refusals that report a failure of the machine, each with what failed. They are no verdict on the input."""
REFUSED_LINE = re.compile(r"refused [A-Z][A-Za-z]*( .*)?")
MOST_TOLD, LONGEST_TOLD, MOST_SAID = 20, 4096, 300
"""The number of lines and of characters in a line that are kept of a program's messages, and of characters repeated."""


@dataclass(frozen=True)
class Answer:
    """The program's answer about its input.

    It has no refusal if the input is accepted, and otherwise the words after `refused`. The status of a run that missed
    expectations is 0 here.
    """

    status: int
    refusal: str | None
    is_named: bool = True
    """True for a refusal by a line `refused NAME`. Otherwise the program failed, and the refusal has its message."""
    misses: tuple[Miss, ...] = ()
    """The expectations of the scenario that the run missed."""
    idle: tuple[int, ...] = ()
    """The lines of the scenario whose faults had no effect in the run."""

    @property
    def failure(self) -> str | None:
        """Returns the name in `OF_THE_MACHINE`, if the program reports such a failure.

        An input that can't be read by others either is a verdict on the input.
        """
        name = (self.refusal or "").split(" ")[0]
        return name if self.status == 1 and self.is_named and name in OF_THE_MACHINE else None

    def is_one(self, found: str | None = None) -> bool:
        """Returns whether the program answered. FOUND is the refusal that this package finds in the input.

        A signal and a status that docs/formats/commands.md doesn't have are no answer. Nor is a failure of the machine,
        unless it is what is found here, as for a file that isn't there.
        """
        is_usage = self.status == 2 and self.refusal == "usage"
        is_refused = self.status == 1 and self.is_named and (self.failure is None or self.refusal == found)
        return self.status == 0 or is_refused or is_usage


def usual_program(name: str = "fr_bench") -> str | None:
    """Returns the program that the variable of `VARIABLES` names, otherwise the launcher of this checkout, otherwise
    its program, otherwise the one on the path of commands."""
    named = os.environ.get(VARIABLES[name])
    if named:
        return named
    for file in in_checkout(name):
        if is_checkout() and file.is_file():
            return str(file)
    return shutil.which(name)


def is_checkout() -> bool:
    """Returns whether this package is in a checkout, and not installed."""
    return (CHECKOUT / "python/musmyrtle/program.py").is_file()


def in_checkout(name: str) -> tuple[Path, Path]:
    """Returns the files of the checkout that may be the program, in their order."""
    return CHECKOUT / name, CHECKOUT / "dist" / name


def places(name: str) -> str:
    """Returns the places where the program is looked for, in their order, with what is found there."""
    variable = VARIABLES[name]
    found = [f"the variable {variable} ({os.environ.get(variable) or 'not set'})"]
    if is_checkout():
        found += [f"{file} ({'there' if file.is_file() else 'not there'})" for file in in_checkout(name)]
    return "; ".join([*found, f"{name} on PATH ({shutil.which(name) or 'not there'})"])


def by_option(name: str, option: str = "--program") -> str:
    """Returns a clause that says how to name the program."""
    return f"name one by {option} FILE or by the variable {VARIABLES[name]}, or put it on PATH"


def itself(program: str) -> str:
    """Returns the program that a launcher of the checkout has just run, or otherwise the one that is named.

    A launcher first checks whether the program is still that of the sources. One check is enough for many runs. The
    first line of its note in `out` is the folder of the program.
    """
    if not is_launcher(program):
        return program
    name = Path(program).resolve().name
    try:
        folder = (CHECKOUT / "out" / f"{name}.found").read_bytes().split(b"\n", 1)[0].decode()
    except (OSError, ValueError):
        return program
    if folder not in ("dist", f"crates/{name}/out"):
        return program
    found = CHECKOUT / folder / name
    return str(found) if found.is_file() and os.access(found, os.X_OK) else program


def is_launcher(program: str) -> bool:
    """Returns whether a program is a launcher of the checkout, which runs nowhere else.

    A name without a slash is none: it is looked for on the path of commands, also where the checkout is the folder in
    which that is done.
    """
    return os.sep in program and Path(program).resolve().parent == CHECKOUT


Started = Callable[..., AbstractContextManager[subprocess.Popen[Any]]]
"""Starts a program as `subprocess.Popen` does."""


@contextmanager
def listened(running: subprocess.Popen[Any], listen: Callable[[IO[str]], None] | None) -> Iterator[None]:
    """Gives the program's output to a function, while this lasts and until the output ends."""
    if listen is None or running.stdout is None:
        yield
        return
    failures, reading = list[Exception](), listen

    def work(output: IO[str]) -> None:
        try:
            reading(output)
        except Exception as error:
            # A thread would print a traceback of it. The program mustn't wait for a reader.
            failures.append(error)
            output.close()
    listening = Thread(target=work, args=(running.stdout,), daemon=True)
    listening.start()
    yield
    listening.join()
    if failures:
        raise failures[0]


def ask(program: str, words: list[str], started: Started = subprocess.Popen,
        listen: Callable[[IO[str]], None] | None = None, known: re.Pattern[str] | None = None,
        tell: Callable[[str], None] = pass_on) -> Answer:
    """Returns the program's answer. Messages of its launcher, such as that it builds first, are passed on.

    The lines by which a launcher explains a refusal aren't, since this package has longer reasons of its own, nor those
    of the form KNOWN. Lines that are alike are given to TELL at the end. LISTEN reads what the program prints, in a
    thread of its own, until its end.
    """
    refusal, misses, idle, alike = None, list[Miss](), list[int](), list[str]()
    told: deque[str] = deque(maxlen=MOST_TOLD)
    streams: dict[str, Any] = {"stdin": subprocess.DEVNULL, "stdout": subprocess.PIPE if listen else subprocess.DEVNULL,
                               "stderr": subprocess.PIPE, "restore_signals": RESTORED}
    with (started([program, *words], text=True, errors="replace", **streams) as running,
          listened(running, listen)):
        # A line without an end comes in parts, so that a program can't fill the memory.
        while running.stderr and (line := running.stderr.readline(LONGEST_TOLD)):
            line = line.rstrip("\n")
            if REFUSED_LINE.fullmatch(line):
                refusal = line.removeprefix("refused ")
            elif refusal is None or not line.startswith(f"{Path(program).name}: "):
                told.append(line)
                misses += misses_of(MISSED, [line])
                idle += [it for it in (idle_line_of(line),) if it is not None]
                if known is not None and known.fullmatch(line):
                    continue
                if is_of_many(line):
                    alike.append(line)
                else:
                    pass_on(line)
    for line in condensed(alike):
        tell(line)
    if running.returncode == 0 or running.returncode == MISSED and misses and refusal is None:
        return Answer(0, None, misses=tuple(misses) if running.returncode else (), idle=tuple(idle))
    is_named = refusal is not None
    return Answer(running.returncode, refusal or " ".join(told).strip() or f"status {running.returncode}", is_named)


def no_answer(program: str, words: list[str], answer: Answer) -> str:
    """Describes a program without an answer: its words, its end and its message."""
    said = f"refused {answer.refusal}" if answer.is_named else answer.refusal or ""
    said = "" if said == f"status {answer.status}" else f": {said[-MOST_SAID:]}"
    if answer.failure:
        said = f"{said} ({OF_THE_MACHINE[answer.failure]}), which is no verdict on the input"
    return f"{' '.join([program, *words])} {how_it_ended(answer.status)}{said}"


def how_it_ended(status: int) -> str:
    """Returns `was killed by signal 9 (SIGKILL)` or `ended with status 3`.

    A shell gives a signal a status of 128 and more.
    """
    number = -status if status < 0 else status - 128
    if 0 < number < signal.NSIG:
        named = {it.value: f" ({it.name})" for it in signal.Signals}
        return f"was killed by signal {number}{named.get(number, '')}"
    return f"ended with status {status}"
