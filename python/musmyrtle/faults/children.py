"""The programs that a campaign runs, each in a process group of its own, so that none of them outlives it."""
import os
import signal
import subprocess
import threading
import time
from collections.abc import Iterable, Iterator
from contextlib import contextmanager, suppress
from typing import Any

from musmyrtle.breaking import deferred
from musmyrtle.streams import RESTORED

GRACE = 2.0
"""The seconds between SIGTERM and SIGKILL."""
AGAIN = 0.25
"""The seconds after which SIGTERM is sent again: GNU `parallel` ignores it until its first job has started."""
Process = subprocess.Popen[bytes]


class Over(Exception):
    """The campaign ends, and starts no further program."""


class Children:
    """The programs that are running. Any thread may start one."""

    def __init__(self) -> None:
        self.lock = threading.Lock()
        self.running: set[Process] = set()
        self.is_over = False

    @contextmanager
    def started(self, words: list[str], restore_signals: bool = RESTORED, **how: Any) -> Iterator[Process]:
        """Runs a program, and waits for its end. An exception in the block ends the program and its process group."""
        started: list[Process] = []
        try:
            # A signal within `Popen` would lose the program that it has started.
            with deferred(), self.lock:
                if self.is_over:
                    raise Over
                started.append(subprocess.Popen(words, process_group=0, restore_signals=restore_signals, **how))
                self.running.update(started)
            with started[0] as process:
                try:
                    yield process
                except BaseException:
                    end([process])
                    raise
        except BaseException:
            end(started)
            raise
        finally:
            with self.lock:
                self.running.difference_update(started)

    def ran(self, words: list[str], data: bytes = b"") -> tuple[int, bytes, bytes]:
        """Runs a program to its end, with DATA on its standard input. Returns its status, its output and its standard
        error."""
        pipe = subprocess.PIPE
        with self.started(words, stdin=pipe, stdout=pipe, stderr=pipe) as process:
            output, told = process.communicate(data)
        return process.returncode, output, told

    def end(self) -> None:
        """Ends all programs. No other one is started from then on."""
        with self.lock:
            self.is_over = True
            running = list(self.running)
        end(running)


def end(processes: Iterable[Process]) -> None:
    """Ends programs with their process groups: by SIGTERM, and by SIGKILL those that don't end in time."""
    alive = groups = [it for it in processes if it.poll() is None]
    limit = time.monotonic() + GRACE
    while alive and time.monotonic() < limit:
        send(alive, signal.SIGTERM)
        again = min(limit, time.monotonic() + AGAIN)
        while alive and time.monotonic() < again:
            time.sleep(0.01)
            alive = [it for it in alive if it.poll() is None]
    send(groups, signal.SIGKILL)


def send(processes: Iterable[Process], number: signal.Signals) -> None:
    for it in processes:
        with suppress(ProcessLookupError, PermissionError):
            os.killpg(it.pid, number)
