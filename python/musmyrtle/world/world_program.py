"""The program `fr_world`: where it is looked for, and why it can't be started."""
import errno
import os
import shutil
from collections.abc import Iterator
from pathlib import Path

from musmyrtle.program import CHECKOUT, is_checkout
from musmyrtle.world.refusals import NotStarted

NAME = "fr_world"
VARIABLE = "MUSMYRTLE_WORLD"
MISSING = (errno.ENOENT, errno.ENOTDIR, errno.EACCES, errno.ENOEXEC)
"""Failures for which another place may have the right program."""


def usual_world() -> str:
    """Returns the `fr_world` to run.

    It is the program that the variable MUSMYRTLE_WORLD names, or the launcher of the checkout that this package is
    in, or the program of its `dist/`, or `fr_world` on the path of commands.
    """
    named = os.environ.get(VARIABLE)
    if named:
        return named
    for file in in_checkout():
        if file.is_file():
            return str(file)
    return shutil.which(NAME) or NAME


def in_checkout() -> tuple[Path, ...]:
    """Returns the files of the checkout that may be the program, in their order. An installed package has none."""
    return (CHECKOUT / NAME, CHECKOUT / "dist" / NAME) if is_checkout() else ()


def not_started(program: str, error: OSError) -> NotStarted:
    """Returns the exception for a program that can't be started."""
    number, reason = error.errno or 0, error.strerror or str(error)
    if number in MISSING:
        reason = f"{reason}. {NAME} is looked for in this order: {'; '.join(places())}"
    return NotStarted(number, reason, program)


def places() -> Iterator[str]:
    """Yields the places where the program is looked for, in their order, with what is found there."""
    yield "the argument `program`"
    yield f"the variable {VARIABLE} ({os.environ.get(VARIABLE) or 'not set'})"
    for file in in_checkout():
        yield f"{file} ({'there' if file.is_file() else 'not there'})"
    yield f"{NAME} on PATH ({shutil.which(NAME) or 'not there'})"
