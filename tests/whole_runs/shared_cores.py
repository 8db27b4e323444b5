"""A run on a core that it shares with busy loops."""
import os
import subprocess
import time
from pathlib import Path

from .runner import EXAMPLES, SECONDS, Runs

LOOPS = 4
MOST_SHARES = 2
"""The most fair shares that a run may take.

With four loops on its core a share is five times its time alone. The car took two to three shares when each of its
nodes was woken by a call of its own.
"""
TRIES = 4
"""The number of runs beside the loops that may be too slow, since other work of the machine slows single runs."""


def on_core(core: int, words: list[str | Path]) -> "subprocess.Popen[bytes]":
    return subprocess.Popen(words, stdout=subprocess.DEVNULL, cwd=EXAMPLES,
                            preexec_fn=lambda: os.sched_setaffinity(0, {core}))


def seconds_of(core: int, words: list[str | Path]) -> float:
    start = time.perf_counter()
    with on_core(core, words) as running:
        try:
            running.wait(SECONDS)
        except subprocess.TimeoutExpired:
            running.kill()
    return time.perf_counter() - start


def beside_loops(runs: Runs) -> None:
    """Checks that the car's threads sleep while other processes have the core."""
    core = max(os.sched_getaffinity(0))
    words = [runs.program, "run", "vehicle/cluster.toml", "vehicle/scenario", "--cycles", "54"]
    alone = min(seconds_of(core, words) for _ in range(3))
    most = MOST_SHARES * (LOOPS + 1) * alone
    loops = [on_core(core, ["sh", "-c", "while :; do :; done"]) for _ in range(LOOPS)]
    try:
        beside = least_seconds(core, words, most)
    finally:
        for loop in loops:
            loop.kill()
            loop.wait()
    name = f"a run beside {LOOPS} busy loops in {beside:.2f} s, at most {most:.2f} s, alone in {alone:.2f} s"
    runs.compare(name, beside <= most, True)


def least_seconds(core: int, words: list[str | Path], most: float) -> float:
    """Returns the least time of some runs, the first that is short enough if there is one."""
    least = seconds_of(core, words)
    for _ in range(TRIES - 1):
        if least <= most:
            break
        least = min(least, seconds_of(core, words))
    return least
