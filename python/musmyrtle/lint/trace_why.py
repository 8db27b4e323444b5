"""The reason why a trace is refused: the answer of `fr_view why`, with the faulty word and the expected one."""
import re
import subprocess
from dataclasses import dataclass

from musmyrtle.cluster import PARAMETERS
from musmyrtle.findings import Finding
from musmyrtle.lint.trace_lines import ENTRIES, PLAN, Fault, bad_trace_line
from musmyrtle.places import Place
from musmyrtle.scenario import LONGEST_LINE, truncated
from musmyrtle.scenario_words import columns
from musmyrtle.streams import RESTORED
from musmyrtle.visible import cut

MAGIC = b"frtrace"
FIRST_LINES = {f"frtrace {version}": version for version in (1, 2, 3)}
LONG_TRACE = "frtrace 4"
"""The first line of a trace that `fr_bench audit` alone reads."""
REASONS = {
    "Line Late": ("the line comes too late", "Expected ownership lines, then buffers, then the line `queue`."),
    "Line Full": ("there is no room for the line", "Expected at most 64 ownership lines, 64 buffers and one receive "
                  "FIFO."),
    "Line After": ("the trace goes on after `end`", "Expected nothing after `end` and its line feed."),
    "Params CycleSum": ("the parts of the cycle don't fill `cycle_mt`", "Expected static_slots * static_mt + minislots "
                        "* minislot_mt + symbol_mt + nit_mt = cycle_mt."),
    "Host UnknownTask": ("the plan has no such task", "Expected a task below TASKS of the line `node`."),
    "Host UnknownBuffer": ("the plan has no such buffer", "Buffers are the lines `tx` and `rx`, from 0 on."),
    "Host NotTransmit": ("the buffer is a receive buffer", "Expected a buffer of a line `tx`."),
    "Host NotReceive": ("the buffer is a transmit buffer", "Expected a buffer of a line `rx`."),
    "Host WrongLength": ("the payload hasn't the length of the buffer", "Expected two bytes for each word: "
                         "`static_words` in a static slot, otherwise WORDS of the line `tx`."),
    "Host NoQueue": ("the plan has no receive FIFO", "Expected a line `queue` before `begin`."),
    "Host HostFull": ("there is no room for another host entry", "Expected a greater HOST in the line `node`."),
    "Slot SlotFull": ("there is no room for another window", "Expected a greater SLOT in the line `node`."),
    "Slot NotObserved": ("the last window hasn't been seen", "Expected a line `see` of it before the next `fetch`."),
    "Slot NotFetched": ("no window is fetched", "Expected a line `fetch` before `see`."),
    "Slot WrongWindow": ("another window is fetched", "Expected W of the last `fetch`."),
    "Slot WindowOrder": ("the window isn't above the last one", "Expected W above that of the last `fetch`."),
    "Slot BadWindow": ("the cluster has no such window", "Expected a slot up to `static_slots` at MINISLOT 0, and "
                       "otherwise a minislot up to `minislots` with a slot above `static_slots`."),
}
"""The headline and the expected form, by the reasons of `fr_view why`."""


@dataclass(frozen=True)
class Why:
    """The program's answer: the refusal, or none where it accepts the trace, the faulty line, the reason and the
    column.

    The reason has no numbers of words and columns. The column is that of the word that the program names, if any.
    """

    refusal: str | None
    line: int = 1
    reason: str = ""
    due: str = ""
    column: int | None = None


class NoAnswer(Exception):
    """The program gave no answer. The message describes its end."""


def is_trace(data: bytes) -> bool:
    """Returns whether the bytes begin as a trace does."""
    return re.match(rb"frtrace\b", data) is not None


def ask_why(program: str, file: str) -> Why:
    """Returns the program's answer about the trace in a file.

    Raises `NoAnswer`, and `OSError` where the program can't be run.
    """
    with open(file, "rb") as trace:
        ran = subprocess.run([program, "why"], stdin=trace, capture_output=True, text=True, errors="replace",
                             restore_signals=RESTORED)
    lines = dict(line.partition(" ")[::2] for line in ran.stdout.splitlines())
    if ran.returncode == 0 and "accepted" in lines:
        return Why(None)
    if ran.returncode != 1 or "refused" not in lines or "line" not in lines:
        raise NoAnswer(f"{program} why ended with status {ran.returncode}: {cut(ran.stderr.strip(), 300)}")
    number = lines["line"].split(" ")[0]
    reason, column = split_place(lines.get("reason", ""))
    return Why(lines["refused"], int(number), reason, lines.get("due", ""), column)


def split_place(reason: str) -> tuple[str, int | None]:
    """Returns a reason of `fr_view why` without the place of a word, and the column of that word."""
    words = reason.split(" ")
    if words[0] == "Line" and len(words) == 4:
        return " ".join(words[:2]), int(words[3])
    return reason, None


class TraceFile:
    """The faulty line of a trace, and the content of the lines before it."""

    def __init__(self, name: str, file: str, number: int):
        self.name, self.number, self.version, self.has_begun = name, number, 1, False
        with open(file, "rb") as source:
            for place in range(1, number + 1):
                line = source.readline(LONGEST_LINE + 2).decode(errors="replace")
                self.is_over, self.text = line.endswith("\n"), line.removesuffix("\n")
                if place == 1:
                    self.version = FIRST_LINES.get(self.text, 1)
                elif place < number and self.text == "begin":
                    self.has_begun = True

    @property
    def may_stand(self) -> tuple[str, ...]:
        """Returns the first words of the lines that are allowed in the place of the faulty line."""
        if self.number <= 3:
            return ("params",) if self.number == 2 else ("node",)
        return ENTRIES if self.has_begun else PLAN

    def place(self, column: int | None) -> Place:
        return Place(self.name, self.number, column, self.text)


def finding_of(why: Why, trace: TraceFile) -> Finding:
    """Returns the refusal in words, at its place."""
    headline, reason, column = fault_of(why, trace)
    return Finding(headline, reason, trace.place(min(column, len(trace.text) + 1)))


def fault_of(why: Why, trace: TraceFile) -> Fault:
    name = (why.refusal or "").split(" ")[0]
    if name == "BadMagic":
        return bad_magic(trace)
    if name == "Truncated":
        return *truncated(["", trace.text], trace.text == "end"), len(trace.text) + 1
    if name == "LineTooLong":
        return f"the line has more than {LONGEST_LINE} bytes", f"Expected at most {LONGEST_LINE}.", LONGEST_LINE + 1
    if why.due:
        return other_answer(trace.text, why.due)
    if why.reason in REASONS:
        return *REASONS[why.reason], 1
    if why.reason in ("Line Form", "Line Word"):
        found = bad_trace_line(trace.text, trace.version, trace.may_stand)
        if found:
            return found
    found = out_of_range(why.reason, trace.text)
    if found:
        return found
    return f"the line is refused: {why.reason}", "docs/formats/views.md has the reasons.", why.column or 1


def bad_magic(trace: TraceFile) -> Fault:
    right = "Expected `frtrace 3`, `frtrace 2` or `frtrace 1`, and a line feed."
    if trace.text.endswith("\r"):
        reason = f"Lines end with a line feed alone. {right}"
        return "the first line ends with a carriage return", reason, len(trace.text)
    if trace.text in FIRST_LINES:
        return "the first line has no line feed", right, len(trace.text) + 1
    if trace.text == LONG_TRACE:
        reason = "`fr_bench audit` reads version 4, and names the first line at fault."
        return "traces of version 4 aren't explained here", reason, 1
    return "the first line doesn't name the format", right, 1


def other_answer(text: str, due: str) -> Fault:
    """Returns the first word of the line that differs from the expected line."""
    words, rights = text.split(" "), due.split(" ")
    for word, right, column in zip(words, rights, (1, *columns(tuple(words)))):
        if word != right:
            headline = f"the line says `{cut(word)}`, and the answer is `{cut(right)}`"
            return headline, f"Expected `{cut(due, 100)}`.", column
    return "the line has another answer", f"Expected `{cut(due, 100)}`.", 1


def out_of_range(reason: str, text: str) -> Fault | None:
    """Returns the number of the line `params` that is out of its range."""
    key, keys = reason.removeprefix("Params OutOfRange "), list(PARAMETERS)
    words = tuple(text.split(" "))
    if key not in PARAMETERS or len(words) != 1 + len(keys):
        return None
    place = keys.index(key)
    least, most = PARAMETERS[key]
    return f"`{key}` is {words[1 + place]}", f"Expected a number from {least} to {most}.", columns(words)[place]
