"""Runs over pipes that another program has made non-blocking, with a slow reader or writer at the other end."""
import contextlib
import fcntl
import hashlib
import os
import subprocess
import time
from pathlib import Path

from .monitors import frames, recording
from .runner import EXAMPLES, SECONDS, Runs

SMALL = 4096
"""The bytes that the pipe holds: the least that Linux allows."""
PAUSE = 0.002


def pipe() -> tuple[int, int]:
    """Returns a small pipe, whose ends don't block."""
    ends = os.pipe()
    for end in ends:
        fcntl.fcntl(end, fcntl.F_SETPIPE_SZ, SMALL)
        os.set_blocking(end, False)
    return ends


def slowly_read(words: list[str | Path], given: bytes) -> tuple[bytes, bytes, int]:
    """Returns a program's output to a pipe that is full most of the time, its standard error and its status."""
    ours, theirs = pipe()
    with subprocess.Popen(words, stdin=subprocess.PIPE, stdout=theirs, stderr=subprocess.PIPE, cwd=EXAMPLES) as running:
        os.close(theirs)
        assert running.stdin is not None and running.stderr is not None
        running.stdin.write(given)
        running.stdin.close()
        time.sleep(10 * PAUSE)
        os.set_blocking(ours, True)
        text = b""
        while more := os.read(ours, SMALL):
            text += more
            time.sleep(PAUSE)
        os.close(ours)
        return text, running.stderr.read(), running.wait(SECONDS)


def slowly_written(words: list[str | Path], given: bytes) -> tuple[bytes, bytes, int]:
    """Returns a program's answer to input that comes in two parts, by a pipe that is empty at first."""
    theirs, ours = pipe()
    with subprocess.Popen(words, stdin=theirs, stdout=subprocess.PIPE, stderr=subprocess.PIPE, cwd=EXAMPLES) as running:
        os.close(theirs)
        middle = len(given) // 2
        for part in (given[:middle], given[middle:]):
            time.sleep(10 * PAUSE)
            with contextlib.suppress(BrokenPipeError):
                os.write(ours, part)
        os.close(ours)
        output, error = running.communicate(timeout=SECONDS)
        return output, error, running.returncode


def without_blocking(runs: Runs, programs: dict[str, Path]) -> None:
    """Checks that each program writes and reads all its bytes as usual."""
    three = ["three-nodes/cluster.toml", "three-nodes/scenario", "--cycles", "4"]
    trace = (EXAMPLES / "receive-buffer/trace").read_bytes()
    session = b"cycle\n" + b"report 0\ntrace 1\n" * 200
    asked = {
        "plan": ("fr_bench", ["plan", "vehicle/cluster.toml"], b""),
        "run": ("fr_bench", ["run", *three], b""),
        "record": ("fr_view", ["record", "vehicle/cluster.toml", "vehicle/scenario", "--cycles", "8"], b""),
        "matrix": ("fr_view", ["matrix", *three], b""),
        "a session": ("fr_world", ["three-nodes/cluster.toml", "--cycles", "4"], session),
        "audit": ("fr_bench", ["audit"], trace),
        "frames": ("fr_view", ["frames"], trace),
        "midpoint": ("fr_bench", ["midpoint"], b"15 13 11 6 -3 -5 -18"),
        "a recording": ("fr_monitor", ["three-nodes/cluster.toml"], recording(frames(2))),
    }
    for name, (program, words, given) in asked.items():
        command = [programs[program], *words]
        ran = subprocess.run(command, input=given, capture_output=True, timeout=SECONDS, cwd=EXAMPLES)
        wanted = short(ran.stdout, b"", 0)
        runs.compare(f"{name}, to a pipe that doesn't block", short(*slowly_read(command, given)), wanted)
        if 0 < len(given) < SMALL:
            runs.compare(f"{name}, from a pipe that doesn't block", short(*slowly_written(command, given)), wanted)


def short(output: bytes, error: bytes, status: int) -> tuple[int, str, bytes, int]:
    """Returns an answer with a short form of its output, since that may be long."""
    return len(output), hashlib.sha256(output).hexdigest(), error, status
