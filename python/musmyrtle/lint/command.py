"""The command `musmyrtle lint`."""
import argparse
import io
import os
import re
import sys
from collections import Counter
from collections.abc import Iterable, Iterator
from contextlib import ExitStack, contextmanager, suppress
from dataclasses import replace
from typing import Any, NoReturn, TextIO

from musmyrtle.ending import FINE, reason_of, status_of
from musmyrtle.findings import MOST_REASONS, Finding, block, counted, joined, nearest
from musmyrtle.floods import MOST_ALIKE, SHOWN
from musmyrtle.idle_lines import FORM as IDLE
from musmyrtle.lint.allows import NAMES, expected_name
from musmyrtle.lint.guarantees import Guarantees
from musmyrtle.lint.lint import Lint, Ran, Task, lint, read_bytes
from musmyrtle.lint.overwriting import Overwritten
from musmyrtle.lint.rows import sections
from musmyrtle.lint.runs import MOST_CYCLES
from musmyrtle.lint.trace_why import MAGIC, NoAnswer, TraceFile, ask_why, finding_of, is_trace
from musmyrtle.missed import FORM
from musmyrtle.other_words import OUTPUTS, meant_by
from musmyrtle.output import Stop, write
from musmyrtle.program import Answer, ask, by_option, no_answer, usual_program
from musmyrtle.show.tables import Section, as_csv, as_json, as_text
from musmyrtle.spared import Output, clash
from musmyrtle.version import version
from musmyrtle.visible import cut, visible

COMMAND = "musmyrtle lint"
KNOWN = re.compile(f"line [0-9]+ names no cycle of the run|{IDLE.pattern}|{FORM.pattern}")
"""The messages of the program in whose place there are notes and warnings."""
REFUSED, USAGE, WARNED = 1, 2, 4
MOST_WARNINGS, MOST_REPEATED = 40, 200
OF_LINES = ("missed-expectation", "wrong-expectation", "idle-fault")
"""The warnings that each line of a long scenario may have. Of many only the first ones are printed."""
ABOUT = """Explains the faults of a cluster file, and of a scenario for it: place, reason, and expected form.

fr_bench runs first, by `check CLUSTER` or by `run CLUSTER SCENARIO --cycles N`, and decides what is refused. An
accepted input that can't work, or breaks a rule of the standard that the bench doesn't check, has a warning."""
EXAMPLES = ("lint examples/three-nodes/cluster.toml",
            "lint examples/three-nodes/cluster.toml examples/three-nodes/scenario --cycles 4 --strict")
STATUSES = """status: 0 if fr_bench accepts the input, with warnings or without, 1 if it refuses it, or if a buffer of
--guaranteed isn't guaranteed, 2 if the words are
no command, fr_bench can't be run or fails, or the output can't be written, 4 if there are warnings and --strict is
given, 130 if SIGINT broke it off"""
SILENCED = """warnings: each ends with its name, as `[sync-nodes]`. `--allow NAME` silences it, and so does a comment
`# lint: allow NAME: why` at the end of the line of its place in the cluster file, or alone in the line before. Names:

"""


UNCLEAR, VALUE_MISSING = ("unrecognized arguments: ", "the following arguments are required: "), "expected one argument"
"""The beginnings and the end of messages of `argparse` that don't say what to write."""
ONCE = ("--cycles",)
"""Options that may stand only once, as for the programs. A later one of the others replaces the one before."""


class PrintVersion(argparse.Action):
    """Prints the command's name and version, and ends."""

    def __call__(self, parser: argparse.ArgumentParser, *_: object) -> None:
        write(sys.stdout, [f"{parser.prog} {version()}\n"])
        parser.exit()


class Parser(argparse.ArgumentParser):
    """Reads the words of a command. Its help and its version are written as all other output is."""

    def __init__(self, **options: Any) -> None:
        super().__init__(**options)
        self.add_argument("--version", action=PrintVersion, nargs=0, help="show the version and exit")

    def print_help(self, file: Any = None) -> None:
        write(file or sys.stdout, [self.format_help()])

    def error(self, message: str) -> NoReturn:
        """Ends the command with one line that says what to write. Its words are escaped, since they may be anything."""
        is_unclear = message.startswith(UNCLEAR) or message.endswith(VALUE_MISSING)
        more = f"; {self.prog} --help describes the words" if is_unclear else ""
        unknown = message.removeprefix(UNCLEAR[0])
        if unknown != message:
            message, more = f"unknown words: {unknown}", self.hint(unknown.partition(" ")[0]) or more
        self.exit(USAGE, f"{self.prog}: {visible(cut(message, MOST_REPEATED))}{more}\n")

    def hint(self, word: str) -> str:
        """Returns what is meant by an unknown word, or nothing where nothing is near."""
        options = list(self._option_string_actions)
        option = word.partition("=")[0]
        if option in OUTPUTS:
            return f"; {self.prog} writes to standard output: > FILE"
        meant = meant_by(option, options) or [it for it in (nearest(option, options),) if it]
        return f"; did you mean {joined(meant, 'or')}?" if meant else ""

    def parse_known_args(self, args: Any = None, namespace: Any = None) -> Any:
        """Reads words. Ends with status 2 where an option of `ONCE` stands twice."""
        words = list(sys.argv[1:] if args is None else args)
        given = [it.partition("=")[0] for it in words[:words.index("--") if "--" in words else None]]
        for option in ONCE:
            if given.count(option) > 1:
                self.error(f"{option} stands twice")
        return super().parse_known_args(words, namespace)


def shown_examples(examples: Iterable[str]) -> str:
    """Returns the lines of a help that have the examples of a command."""
    return "".join(["examples:\n", *(f"  musmyrtle {it}\n" for it in examples)])


def cycles_of(word: str) -> int:
    if not re.fullmatch(r"[1-9][0-9]{0,3}", word) or int(word) > MOST_CYCLES:
        raise argparse.ArgumentTypeError(f"{word!r} is no number from 1 to {MOST_CYCLES}")
    return int(word)


def listed_names() -> str:
    width = max(map(len, NAMES))
    return "\n".join(f"  {name:{width}}  {what}" for name, what in NAMES.items())


def allowed_name(word: str) -> str:
    if word not in NAMES:
        raise argparse.ArgumentTypeError(f"no warning has the name {word!r}. {expected_name(word)}")
    return word


def arguments() -> Parser:
    parser = Parser(prog=COMMAND, description=ABOUT, allow_abbrev=False,
                    epilog=f"{shown_examples(EXAMPLES)}\n{STATUSES}\n\n{SILENCED}{listed_names()}",
                    formatter_class=argparse.RawDescriptionHelpFormatter)
    parser.add_argument("cluster", metavar="CLUSTER",
                        help="a cluster file, or a refused trace, which fr_view explains")
    parser.add_argument("scenario", metavar="SCENARIO", nargs="?", help="a scenario; it wants --cycles as well")
    parser.add_argument("--cycles", metavar="N", type=cycles_of, help=f"the cycles of the run, 1 to {MOST_CYCLES}")
    parser.add_argument("--strict", action="store_true", help="end with status 4 where there are warnings")
    parser.add_argument("--allow", metavar="NAME", action="append", default=[], type=allowed_name,
                        help="print no warning of this name; it may be given several times")
    parser.add_argument("--guaranteed", metavar=("NODE", "BUFFER"), nargs=2, action="append", default=[],
                        help="end with status 1 unless this transmit buffer, by its name or number, is sent in each of "
                             "its cycles whatever other nodes send; it may be given several times")
    parser.add_argument("--load", action="store_true",
                        help="print the load of each channel too: slots and minislots used, available and missing")
    parser.add_argument("--program", metavar="FILE",
                        help="the fr_bench to ask, or the fr_view for a trace, instead of that which `musmyrtle` finds")
    add_forms(parser)
    return parser


def add_forms(parser: argparse.ArgumentParser) -> None:
    """Adds the options for the form of tables."""
    forms = parser.add_mutually_exclusive_group()
    forms.add_argument("--json", action="store_true", help="print one object a line")
    forms.add_argument("--csv", action="store_true", help="print one table with commas")


def formed(given: argparse.Namespace, tables: list[Section], text: Iterable[str]) -> Iterable[str]:
    """Returns tables in the form that is asked for, or the text for people."""
    return as_json(tables) if given.json else as_csv(tables) if given.csv else text


def printed(texts: Iterable[str]) -> None:
    """Writes to standard output. A reader may end early, and a terminal may be unable to spell the texts."""
    if isinstance(sys.stdout, io.TextIOWrapper):
        sys.stdout.reconfigure(errors="backslashreplace")
    with suppress(BrokenPipeError):
        write(sys.stdout, texts)


def parsed(words: list[str]) -> argparse.Namespace:
    parser = arguments()
    given = parser.parse_args(words)
    if given.scenario is not None and given.cycles is None:
        parser.error("a scenario wants --cycles N")
    given.named, given.program = given.program, given.program or usual_program()
    if given.program is None:
        parser.error(f"there is no fr_bench: {by_option('fr_bench')}")
    return given


def words_for(task: Task) -> list[str]:
    """Returns the words by which the program is asked."""
    if task.scenario is None:
        return ["check", "--", task.file(task.cluster)]
    return ["run", "--cycles", str(task.cycles), "--", task.file(task.cluster), task.file(task.scenario)]


@contextmanager
def lasting(task: Task) -> Iterator[Task]:
    """Yields the task with files that can be read again, also by another process.

    Raises `Stop` if standard output is one of them, which a command would spoil.
    """
    spare((("the cluster file", task.cluster), ("the scenario", task.scenario)))
    with ExitStack() as copies:
        names = dict.fromkeys(it for it in (task.cluster, task.scenario) if it is not None)
        yield replace(task, files={name: lasting_file(name, copies) for name in names})


def spare(inputs: Iterable[tuple[str, str | None]]) -> None:
    """Raises `Stop` if standard output is one of the inputs, each given by what it is and its name."""
    spoiled = clash([Output("/dev/stdout", "standard output", "standard output")],
                    [(what, name) for what, name in inputs if name is not None])
    if spoiled:
        raise Stop(USAGE, spoiled)


def lasting_file(name: str, copies: ExitStack) -> str:
    """Returns a name under which a file can be read again.

    It is the file behind a name such as `/dev/stdin`, which is another one for the program, or a copy of a pipe's
    content.
    """
    behind = os.path.realpath(name)
    if os.path.isfile(behind):
        return behind
    data = read_bytes(name)
    if data is None:
        return name
    # Most files can be read again, and each call would wait for the import.
    from tempfile import NamedTemporaryFile
    try:
        copy = copies.enter_context(NamedTemporaryFile(prefix="musmyrtle-"))
        copy.write(data)
        copy.flush()
    except OSError as error:
        raise Stop(USAGE, f"{name} can't be copied: {reason_of(error)}") from None
    return copy.name


def told(answer: Answer, found: Lint, is_bold: bool = False) -> Iterator[str]:
    """Yields the text to print: the answer, the reasons and the warnings."""
    refusal = visible(cut(answer.refusal or "", MOST_REPEATED))
    if answer.status == USAGE:
        yield f"fr_bench: {refusal}\n"
        yield "The words are no command for it: is the program another one than fr_bench?\n"
        return
    yield f"fr_bench: refused {refusal}\n" if answer.status else "fr_bench: accepted\n"
    if answer.refusal is None and found.refusals:
        yield f"fr_bench decides, although {COMMAND} finds a reason to refuse the input: {found.refusal}.\n"
        return
    if answer.refusal is not None:
        yield from told_reasons(answer, found, is_bold)
    kept, counts = few_alike(found.warnings)
    for finding in kept[:MOST_WARNINGS]:
        yield block("warning", finding, is_bold)
    for name, count in counts.items():
        yield f"and {counted(count, 'more warning')} [{name}]\n"
    for finding in found.notes[:MOST_WARNINGS]:
        yield block("note", finding, is_bold)
    for finding in found.errors:
        yield block("error", finding, is_bold)
    more = len(kept[MOST_WARNINGS:]) + found.further_warnings
    if more:
        yield f"and {counted(more, 'more warning')}\n"


def few_alike(findings: list[Finding]) -> tuple[list[Finding], dict[str, int]]:
    """Returns the findings, of many about lines only the first ones, and the number of the others by name."""
    counts = Counter(it.name for it in findings if it.name in OF_LINES)
    places: Counter[str] = Counter()
    kept = []
    for it in findings:
        places[it.name] += 1
        if counts[it.name] <= MOST_ALIKE or places[it.name] <= SHOWN:
            kept.append(it)
    return kept, {name: count - SHOWN for name, count in counts.items() if count > MOST_ALIKE}


def told_reasons(answer: Answer, found: Lint, is_bold: bool) -> Iterator[str]:
    if not is_explained(answer, found):
        yield f"No reason is known for `{visible(cut(answer.refusal or '', MOST_REPEATED))}`.\n"
        return
    for refusal, finding in found.refusals[:MOST_REASONS]:
        yield block(f"refused {refusal}", finding, is_bold)
    if len(found.refusals) > MOST_REASONS:
        yield f"and {counted(len(found.refusals) - MOST_REASONS, 'more mistake')}\n"


def is_explained(answer: Answer, found: Lint) -> bool:
    """Returns whether the first refusal printed is the program's, or neither has any."""
    return answer.refusal == found.refusal


def is_bold_on(stream: TextIO | None) -> bool:
    return stream is not None and stream.isatty() and not os.environ.get("NO_COLOR")


def is_trace_file(file: str) -> bool:
    try:
        with open(file, "rb") as source:
            return is_trace(source.read(len(MAGIC) + 1))
    except (OSError, ValueError):
        return False


def traced(given: argparse.Namespace, task: Task) -> int:
    """Asks `fr_view why` about a trace, prints the reason in words, and returns the status."""
    if given.scenario is not None or given.cycles is not None:
        raise Stop(USAGE, f"{task.cluster} is a trace, and takes no scenario and no cycles")
    if given.guaranteed or given.load:
        raise Stop(USAGE, f"{task.cluster} is a trace, and has no guarantees and no load")
    program, file = given.named or usual_program("fr_view"), task.file(task.cluster)
    if program is None:
        raise Stop(USAGE, f"there is no fr_view: {by_option('fr_view')}")
    try:
        why, found = ask_why(program, file), Lint()
        lines = ["fr_view: accepted\n"]
        if why.refusal:
            finding = finding_of(why, TraceFile(task.cluster, file, why.line))
            found.refusals.append((why.refusal, finding))
            told = block(f"refused {why.refusal}", finding, is_bold_on(sys.stdout))
            lines = [f"fr_view: refused {why.refusal}\n", told]
    except NoAnswer as error:
        raise Stop(USAGE, visible(str(error))) from None
    except OSError as error:
        raise Stop(USAGE, f"{program} can't be run: {error.strerror}") from None
    printed(formed(given, sections("fr_view", why.refusal, found), ["\n".join(lines)]))
    return REFUSED if why.refusal else FINE


def linted(given: argparse.Namespace) -> int:
    """Asks the program, prints the findings, and returns the status."""
    whole = Task(given.cluster, given.scenario, given.cycles, allowed=frozenset(given.allow))
    with lasting(whole) as task:
        if is_trace_file(task.file(task.cluster)):
            return traced(given, task)
        if given.scenario is None and given.cycles is not None:
            raise Stop(USAGE, "--cycles wants a scenario: no run of the cluster file alone is checked")
        try:
            overwritten = Overwritten()
            # `run` itself decides whether a scenario fits the cluster. Its outcome is dropped.
            answer = ask(given.program, words_for(task), listen=overwritten.read if given.scenario else None,
                         known=KNOWN)
        except OSError as error:
            raise Stop(USAGE, f"{given.program} can't be run: {error.strerror}") from None
        if not answer.is_one() and answer.failure is None:
            raise Stop(USAGE, no_answer(given.program, words_for(task), answer))
        wanted = [(node, buffer) for node, buffer in given.guaranteed]
        guarantees = Guarantees(task.file(task.cluster), wanted, given.load)
        ran = Ran(overwritten, answer.misses, answer.idle)
        found = lint(task, ran, None if answer.status else guarantees)
        if not answer.is_one(found.refusal):
            raise Stop(USAGE, no_answer(given.program, words_for(task), answer))
    if guarantees.is_wanted and not guarantees.is_done and not answer.status:
        raise Stop(USAGE, f"{COMMAND} can't read {given.cluster}, so that it finds no guarantees and no load")
    known = found if is_explained(answer, found) else Lint()
    text = "\n".join([*told(answer, found, is_bold_on(sys.stdout)), *as_text(guarantees.loads)])
    printed(formed(given, [*sections("fr_bench", answer.refusal, known), *guarantees.loads], [text]))
    if answer.status:
        return USAGE if answer.status == USAGE else REFUSED
    if found.errors:
        return REFUSED
    return WARNED if given.strict and found.warnings else FINE


def main(words: list[str]) -> int:
    """Does the command, and returns the status."""
    return status_of(COMMAND, lambda: linted(parsed(words)))
