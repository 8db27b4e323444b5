"""The signals that break a command off, and a folder that is removed even then."""
import signal
import threading
from collections.abc import Iterator
from contextlib import contextmanager
from pathlib import Path
from tempfile import TemporaryDirectory
from types import FrameType

SIGNALS = (signal.SIGINT, signal.SIGTERM, signal.SIGHUP)
SIGNALLED = 128
"""The number that a shell adds to a signal for its status."""


class BrokenOff(BaseException):
    """A signal breaks the command off."""

    def __init__(self, number: int) -> None:
        super().__init__(number)
        self.status = SIGNALLED + number


class Deferral:
    """The blocks in which `BrokenOff` is held back, and the signal that came meanwhile."""

    depth = 0
    number: int | None = None


@contextmanager
def breaking_off() -> Iterator[None]:
    """Raises `BrokenOff` at the first of the signals, and ignores those after it.

    A signal that was ignored before, as below `nohup`, stays ignored.
    """
    if threading.current_thread() is not threading.main_thread():
        yield
        return
    before = {it: signal.getsignal(it) for it in SIGNALS}
    handled = [it for it, handler in before.items() if handler not in (signal.SIG_IGN, None)]

    def break_off(number: int, _: FrameType | None) -> None:
        for it in handled:
            # SIG_IGN would be inherited by the programs that are started to clean up.
            signal.signal(it, lambda *_: None)
        if Deferral.depth:
            Deferral.number = number
        else:
            raise BrokenOff(number)

    for it in handled:
        signal.signal(it, break_off)
    try:
        yield
    finally:
        for it in handled:
            signal.signal(it, before[it])


@contextmanager
def deferred() -> Iterator[None]:
    """Holds `BrokenOff` back until the block ends. Programs that start in it get all signals, unlike in `held`."""
    if threading.current_thread() is not threading.main_thread():
        yield
        return
    Deferral.depth += 1
    try:
        yield
    finally:
        Deferral.depth -= 1
        if not Deferral.depth and Deferral.number is not None:
            number, Deferral.number = Deferral.number, None
            raise BrokenOff(number)


@contextmanager
def held() -> Iterator[None]:
    """Holds the signals back, but only while this thread is the only one."""
    before = signal.pthread_sigmask(signal.SIG_BLOCK, SIGNALS)
    try:
        yield
    finally:
        signal.pthread_sigmask(signal.SIG_SETMASK, before)


@contextmanager
def temporary_folder(prefix: str) -> Iterator[Path]:
    """Makes a folder, and removes it with all that is in it."""
    with held():
        folder = TemporaryDirectory(prefix=prefix)
    try:
        yield Path(folder.name)
    finally:
        with held():
            folder.cleanup()
