"""Outputs that are an input or another output, whatever their names, found before anything is emptied."""
import os
import stat
from collections.abc import Iterable
from dataclasses import dataclass


@dataclass(frozen=True)
class Output:
    """A file that is written: its name, what a message calls it, and what it is for another output."""

    file: str
    label: str
    what: str


def clash(outputs: Iterable[Output], inputs: Iterable[tuple[str, str]]) -> str | None:
    """Returns why an output can't be written, or None: it is an input, which has a kind and a name, or another output.

    Another name, a symbolic or a hard link doesn't hide it.
    """
    taken = list(inputs)
    for it in outputs:
        for what, other in taken:
            if is_same(it.file, other):
                return f"{it.label} is {what}, which would be overwritten: name another file"
        taken.append((it.what, it.file))
    return None


def is_same(one: str, other: str) -> bool:
    """Returns whether two names are those of one file or named pipe. A device, such as /dev/null, may be several."""
    try:
        mode = os.stat(one).st_mode
        return os.path.samefile(one, other) and (stat.S_ISREG(mode) or stat.S_ISFIFO(mode))
    except OSError:
        return os.path.realpath(one) == os.path.realpath(other)
