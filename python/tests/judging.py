"""The expectations of a scenario, judged by runs that are cut off after each cycle.

A buffer holds at the end of cycle C of a run what it holds at the end of a run of C + 1 cycles. So the scenario without
its expectations is run for fewer cycles, and the outcomes are compared with the lines here. As a file this module is a
program with the words of `fr_bench` or `fr_view`, which asks a real one, in the place of one that knows expectations.
"""
import os
import re
import subprocess
import sys
import tempfile
import tomllib
from dataclasses import dataclass
from functools import cache
from pathlib import Path

from musmyrtle.program import VARIABLES, usual_program

CLUSTER = str(Path(__file__).resolve().parents[2] / "examples/three-nodes/cluster.toml")
CYCLES = re.compile(r"(\d{1,4})(?:-(\d{1,4})(?:/(\d{1,4}))?)?")
LEFT_OUT = re.compile(r"line (\d+) names no cycle of the run")
KINDS = {"expect": 5, "expect-none": 4}
OUTCOMES = {"fr_bench": "run", "fr_view": "outcome"}
COMMANDS = ("run", "outcome", "answers", "commits", "record", "bus", "matrix", "trace")


@dataclass(frozen=True)
class Expectation:
    line: int
    node: int
    buffer: int
    cycles: range
    payload: str
    """As `x0102`, or `nothing`."""


def number_of(word: str, most: int, names: list[object]) -> int:
    """Returns the number that a word is or names. Raises `ValueError`."""
    if re.fullmatch("0|[1-9][0-9]*", word) and int(word) <= most:
        return int(word)
    if names.count(word) != 1 or not re.fullmatch("[A-Za-z0-9_.-]{1,32}", word):
        raise ValueError
    return names.index(word)


def expectation_of(number: int, line: str, nodes: list[dict], cycles: int) -> Expectation | None:
    """Returns the expectation of a line, or None for another line. Raises `ValueError` for one without a right form."""
    kind, *words = line.partition("#")[0].split() or [""]
    if kind not in KINDS:
        return None
    if len(words) != KINDS[kind] - 1:
        raise ValueError
    node = number_of(words[0], 15, [it.get("name") for it in nodes])
    buffers = nodes[node].get("buffer", []) if node < len(nodes) else []
    buffer = number_of(words[2], 63, [it.get("name") for it in buffers])
    if kind == "expect" and not re.fullmatch("x([0-9a-f]{4}){0,127}", words[3]):
        raise ValueError
    return Expectation(number, node, buffer, cycles_of(words[1], cycles), words[3] if kind == "expect" else "nothing")


def cycles_of(word: str, cycles: int) -> range:
    found = CYCLES.fullmatch(word)
    if word == "*":
        return range(cycles)
    if not found or any(it and it[0] == "0" and len(it) > 1 for it in found.groups()):
        raise ValueError
    first, last, step = int(found[1]), int(found[2] or found[1]), int(found[3] or 1)
    if not first <= last <= 1023 or not 1 <= step <= 1023:
        raise ValueError
    return range(first, min(cycles, last + 1), step)


def held_in(outcome: str) -> dict[tuple[int, int], str]:
    """Returns the payload of each receive buffer, by node and buffer."""
    found, node = {}, -1
    for words in (line.split(" ") for line in outcome.splitlines()):
        if words[0] == "node":
            node = int(words[1])
        elif words[0] == "rx":
            found[node, int(words[1])] = "nothing" if words[2] == "-" else words[-1]
    return found


class Judge:
    """A real program, a cluster file, and a scenario with its expectations apart."""

    def __init__(self, program: str, cluster: str, scenario: str, cycles: int, command: str) -> None:
        self.program, self.cluster, self.cycles, self.command = program, cluster, cycles, command
        self.expectations: list[Expectation] = []
        self.held = cache(self.held_after)
        lines = Path(scenario).read_text(errors="surrogateescape").split("\n")
        self.lines = [self.without(number, line) for number, line in enumerate(lines, 1)]
        self.is_newest = lines[0] == "frscenario 3"

    def without(self, number: int, line: str) -> str:
        """Keeps an expectation, and returns an empty line in its place. The real program refuses a wrong one."""
        nodes = tomllib.loads(Path(self.cluster).read_text()).get("node", []) if "expect" in line else []
        try:
            found = expectation_of(number, line, nodes, self.cycles)
        except ValueError:
            return line
        self.expectations += [found] if found else []
        return "" if found else line

    def run(self, words: list[str]) -> subprocess.CompletedProcess[bytes]:
        """Runs the real program with the scenario without its expectations, whose name is to be the last word."""
        with tempfile.NamedTemporaryFile("w", errors="surrogateescape") as stripped:
            stripped.write("\n".join(self.lines))
            stripped.flush()
            return subprocess.run([self.program, *words, stripped.name], capture_output=True)

    def held_after(self, cycle: int) -> dict[tuple[int, int], str]:
        words = [self.command, "--cycles", str(cycle + 1), "--", self.cluster]
        return held_in(self.run(words).stdout.decode())

    def missed(self, it: Expectation) -> str | None:
        """Returns the line for an expectation that is missed in some of its cycles."""
        found = [(cycle, self.held(cycle).get((it.node, it.buffer), "no receive buffer")) for cycle in it.cycles]
        wrong = [(cycle, held) for cycle, held in found if held != it.payload]
        if not wrong:
            return None
        cycle, held = wrong[0]
        others = len(wrong) - 1
        more = f" (and in {others} other cycle{'s' * (others > 1)})" if others else ""
        return (f"line {it.line}: node {it.node} buffer {it.buffer} at the end of cycle {cycle}: "
                f"expected {it.payload}, found {held}{more}")

    def told(self, told: str) -> list[str]:
        """Returns the lines of standard error: lines that are left out in their order, others, and what is missed."""
        lines = told.splitlines()
        numbers = [int(found[1]) for found in map(LEFT_OUT.fullmatch, lines) if found]
        numbers += [it.line for it in self.expectations if not it.cycles]
        left_out = [f"line {it} names no cycle of the run" for it in sorted(numbers)]
        misses = (self.missed(it) for it in self.expectations)
        return [*left_out, *(it for it in lines if not LEFT_OUT.fullmatch(it)), *(it for it in misses if it)]


def judged(name: str, program: str, words: list[str]) -> tuple[bytes, str, int]:
    """Returns the output, the standard error and the status of a program that knows expectations.

    NAME is that of the real PROGRAM.
    """
    cycles, free, rest = "", [], []
    for word in words:
        if word == "--free":
            free.append(word)
        elif word.startswith("--cycles="):
            cycles = word.removeprefix("--cycles=")
        elif cycles == "--cycles":
            cycles = word
        elif word == "--cycles":
            cycles = word
        elif word != "--":
            rest.append(word)
    *rest, cluster, scenario = rest
    judge = Judge(program, cluster, scenario, int(cycles), OUTCOMES[name])
    ran = judge.run([*rest, "--cycles", cycles, *free, "--", cluster])
    if ran.returncode or not judge.is_newest:
        return ran.stdout, ran.stderr.decode(), ran.returncode
    told = judge.told(ran.stderr.decode())
    return ran.stdout, "".join(f"{it}\n" for it in told), 3 if any(": expected " in it for it in told) else 0


def program_of(folder: Path, name: str, program: str) -> str:
    """Writes a program that stands in for a real one, and returns its file."""
    file = folder / name
    file.write_text(f"#!{sys.executable} -BES\nimport sys\nsys.path.insert(0, {str(Path(__file__).parents[1])!r})\n"
                    f"from tests.judging import main\nmain({name!r}, {program!r})\n")
    file.chmod(0o755)
    return str(file)


@cache
def knows_expectations(name: str, program: str) -> bool:
    """Returns whether a program reads expectations."""
    with tempfile.NamedTemporaryFile("w") as file:
        file.write("frscenario 3\nexpect-none 1 0 1\nend\n")
        file.flush()
        words = [program, OUTCOMES[name], CLUSTER, file.name, "--cycles", "1"]
        return "BadLine" not in subprocess.run(words, capture_output=True, text=True).stderr


def variables(folder: Path) -> dict[str, str]:
    """Returns the variables that name programs which know expectations: the usual ones, if these do."""
    found = {}
    for name in OUTCOMES:
        program = usual_program(name) or name
        found[VARIABLES[name]] = program if knows_expectations(name, program) else program_of(folder, name, program)
    return found


def main(name: str, program: str) -> None:
    words = sys.argv[1:]
    if words[:1] and words[0] not in COMMANDS:
        os.execv(program, [program, *words])
    output, told, status = judged(name, program, words)
    sys.stdout.buffer.write(output)
    sys.stderr.write(told)
    sys.stdout.flush()
    sys.exit(status)
