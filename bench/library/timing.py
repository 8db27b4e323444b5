"""Measures one call of a program, and makes a large file, which another program reads for comparison."""
import os
import subprocess
import sys
import time
from typing import NamedTuple


class Took(NamedTuple):
    """Seconds by the clock and of processor time, and the peak of the memory in MiB."""

    seconds: float
    processor: float
    peak: float


def timed(words, read="/dev/null", told=subprocess.DEVNULL):
    """Returns the time and memory of these words with the file `read` as standard input, and with standard output at
    `told`.

    A program that can't be run, or that ends with another status than 0, ends the script.
    """
    with open(read, "rb") as text:
        start = time.perf_counter()
        try:
            child = subprocess.Popen(words, stdin=text, stdout=told)
        except OSError as refused:
            sys.exit(f"{words[0]} can't be run: {refused.strerror}")
        _, status, usage = os.wait4(child.pid, 0)
        seconds = time.perf_counter() - start
    child.returncode = os.waitstatus_to_exitcode(status)
    if child.returncode != 0:
        sys.exit(f"{' '.join(map(str, words))} ended with status {child.returncode}")
    return Took(seconds, usage.ru_utime + usage.ru_stime, usage.ru_maxrss / 1024)


def large_file(folder):
    """Writes a file of 42 MB in lines of 512 bytes.

    It isn't made in memory: a child's peak is at least that of the script.
    """
    large = folder / "large"
    with open(large, "wb") as out:
        out.writelines(b"x" * 511 + b"\n" for _ in range(82_031))
    return large
