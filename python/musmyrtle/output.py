"""The output of a command to standard output and standard error, also where these fail."""
import errno
import io
import os
import sys
from collections.abc import Iterable
from contextlib import suppress
from typing import TextIO

from musmyrtle.visible import visible

CANNOT_BE_USED = 2
"""The status where the command can't use its words, a program or its output."""


class Stop(Exception):
    """The command ends, with a status and a message."""

    def __init__(self, status: int, message: str = ""):
        super().__init__(message)
        self.status = status

    def tell(self, command: str) -> int:
        """Writes a message of one line to standard error, if that is possible, and returns the status."""
        if str(self):
            pass_on(f"{command}: {self}")
        return self.status


def write(stream: TextIO | None, texts: Iterable[str]) -> None:
    """Writes the whole text. A reader that goes away before its end, such as `head`, raises a `BrokenPipeError`."""
    if stream is None:
        raise Stop(CANNOT_BE_USED, "the output can't be written: it is closed")
    try:
        if isinstance(stream, io.TextIOWrapper) and isinstance(stream.buffer, io.RawIOBase):
            write_unbuffered(stream, stream.buffer, texts)
        else:
            stream.writelines(texts)
            stream.flush()
    except OSError as error:
        # Python writes the rest at its own end, and reports a failure in its own words.
        os.dup2(os.open(os.devnull, os.O_WRONLY), stream.fileno())
        if isinstance(error, BrokenPipeError):
            raise
        raise Stop(CANNOT_BE_USED, f"the output can't be written: {error.strerror}") from None


def write_unbuffered(stream: io.TextIOWrapper, raw: io.RawIOBase, texts: Iterable[str]) -> None:
    """Writes the whole text to a stream without a buffer, as PYTHONUNBUFFERED makes it.

    A file system that is nearly full takes a part of what is written, and Python would drop the rest without an error.
    """
    stream.flush()
    for text in texts:
        rest = memoryview(text.encode(stream.encoding, stream.errors or "strict"))
        while rest:
            taken = raw.write(rest)
            if taken is None:
                raise BlockingIOError(errno.EAGAIN, os.strerror(errno.EAGAIN))
            rest = rest[taken:]


def pass_on(line: str) -> None:
    """Writes a line to standard error, if that can be written, with nothing in it that a terminal obeys."""
    with suppress(Stop, BrokenPipeError):
        write(sys.stderr, [f"{visible(line)}\n"])
