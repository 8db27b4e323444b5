"""The lines of a scenario whose faults had no effect in a run, as the programs print them on standard error."""
import re

FORM = re.compile(r"line ([0-9]{1,9}) struck nothing")


def idle_line_of(text: str) -> int | None:
    """Returns the number of the line that a line of standard error reports, or None for another line."""
    found = FORM.fullmatch(text)
    return int(found[1]) if found else None


def idle_text(line: int) -> str:
    """Returns the line of standard error about a line of the scenario."""
    return f"line {line} struck nothing"
