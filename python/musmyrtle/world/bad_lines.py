"""The reasons why a line is no request of a session, for the exception `BadLine`."""
import re

from musmyrtle.findings import joined, nearest
from musmyrtle.visible import cut, visible
from musmyrtle.world.faults import fault_line, is_fault_line

LONGEST = 1200
"""The bytes of the longest request."""
REQUESTS: dict[str, tuple[str, ...]] = {
    "commit": ("NODE TASK BUFFER HEX",), "withdraw": ("NODE TASK BUFFER",), "read": ("NODE TASK BUFFER",),
    "pop": ("NODE TASK",), "receive": ("NODE TASK BUFFER",), "next": ("NODE TASK",), "look": ("NODE",),
    "fetch": ("NODE",), "put": ("NODE",), "take": ("NODE",), "observe": ("NODE",),
    "babble": ("NODE CH HEX", "NODE CHS CYCLES PLACE HEX"), "mute": ("NODE CH", "NODE CHS CYCLES PLACE"),
    "corrupt": ("CH BIT", "CHS CYCLES PLACE BIT"), "lost": ("NODE CYCLES",), "seal": ("",), "advance": ("",),
    "forget": ("",), "window": ("",), "cycle": ("",), "run": ("N",), "now": ("",), "at": ("",), "report": ("NODE",),
    "status": ("NODE CH",), "trace": ("NODE",), "origin": ("NODE",), "record": ("W",),
}
"""The words after the first one of each request."""
OF_SCENARIOS = ("frscenario", "end", "expect", "expect-none")
"""The first words of lines that only scenarios have."""
IN_CYCLES = ("commit", "withdraw", "read", "pop")
"""The calls that have a cycle in a scenario."""
FORMS = {"NODE": ("[0-9]|1[0-5]", "a number from 0 to 15"), "TASK": ("[0-7]", "a number from 0 to 7"),
         "BUFFER": ("[0-9]|[1-5][0-9]|6[0-3]", "a number from 0 to 63"), "CH": ("[AB]", "`A` or `B`"),
         "HEX": ("x([0-9a-f]{2})*", "`x` and two lower-case hexadecimal digits for each byte"),
         "BIT": ("0|[1-9][0-9]{0,4}", "a number from 0 to 65535"),
         "N": ("0|[1-9][0-9]{0,2}|10[01][0-9]|102[0-4]", "a number from 0 to 1024"),
         "W": ("0|[1-9][0-9]{0,9}", "a number from 0 to 4294967295")}
"""The forms of the words, as regular expressions and in words."""


def why_no_request(line: str) -> str:
    """Returns why a line is no request, and what to write in its place."""
    if len(line.encode(errors="replace")) > LONGEST:
        return f"a request has at most {LONGEST} bytes"
    if line.endswith("\r"):
        return "the line ends with a carriage return; requests end with a line feed alone"
    words = line.split()
    kind = words[0] if words else ""
    if kind in OF_SCENARIOS:
        return f"`{kind}` is for scenarios; `World.play_scenario` and `./fr_view` run a scenario"
    if kind not in REQUESTS:
        meant = nearest(kind, list(REQUESTS))
        return f"no request begins with `{visible(cut(kind))}`" + (f"; is `{meant}` meant?" if meant else "")
    if is_fault_line(line):
        return of_fault_line(line)
    return of_request(line, words)


def of_fault_line(line: str) -> str:
    """Returns why a fault line can't be kept."""
    try:
        fault_line(line)
    except ValueError as error:
        kind, *words = line.partition("#")[0].split()
        named = kind != "corrupt" and bool(words) and not words[0].isdecimal()
        return f"{error} Names of nodes are for scenarios" if named else str(error).removesuffix(".")
    return "a word is out of its range"


def of_request(line: str, words: list[str]) -> str:
    """Returns why the words of a request are wrong."""
    kind, given = words[0], words[1:]
    forms = [f"{kind} {it}".rstrip() for it in REQUESTS[kind]]
    right = "expected " + joined([f"`{it}`" for it in forms], "or")
    fitting = [it.split() for it in REQUESTS[kind] if len(it.split()) == len(given)]
    if not fitting:
        has_cycle = kind in IN_CYCLES and len(given) == len(REQUESTS[kind][0].split()) + 1
        return f"{right}, without the cycle that a scenario has" if has_cycle else right
    if line != " ".join(words):
        return "expected one space between two words, and none at the ends"
    for name, word in zip(fitting[0], given):
        # Fault lines in cycles have words of scenarios, too.
        form, what = FORMS.get(name, (".*", ""))
        if not re.fullmatch(form, word):
            named = "; names are for scenarios, and a session takes numbers" if name in ("NODE", "BUFFER") and \
                not word.isdecimal() else ""
            return f"{name} is `{visible(cut(word))}`, and has to be {what}{named}; {right}"
    return right
