"""A program at the other end of three pipes, none of which can block this side.

Requests are written while replies are read, so any number of requests can be given at once. Standard error is read
meanwhile, so that the program never waits for room in it, and its end is kept.
"""
import os
import select
import signal
import subprocess
import time
from collections import deque
from collections.abc import Sequence

from musmyrtle.streams import RESTORED, fill_streams

CHUNK = 65536
SAID = 8192
"""Bytes kept of the end of standard error."""
LONGEST = 65536
"""The bytes of the longest line of a reply. A longer line isn't read to its end."""
LOOK_MILLISECONDS = 500.0
"""The seconds between two looks whether the program still runs: a process that it started may hold its pipes open."""
QUICK_MILLISECONDS = 20
"""The seconds that a reply is waited for without a look at standard error."""
LAST_SECONDS = 1.0
"""The seconds that the last words of a program that closed its output are waited for."""


class Gone(Exception):
    """No further reply can come. The message has the reason, unless the program gives it."""


class Late(Exception):
    """The time limit has passed."""


class Child:
    """A running program, its lines of output, and the end of its standard error.

    Raises `OSError` where the program can't be started.
    """

    def __init__(self, command: Sequence[str]) -> None:
        pipe = subprocess.PIPE
        # A pipe with the number of a closed standard stream would get what is printed there.
        fill_streams()
        self._process = subprocess.Popen(command, stdin=pipe, stdout=pipe, stderr=pipe, bufsize=0,
                                         restore_signals=RESTORED)
        self._files = [file for file in (self._process.stdin, self._process.stdout, self._process.stderr) if file]
        for file in self._files:
            os.set_blocking(file.fileno(), False)
        self._input, self._output, self._errors = (file.fileno() for file in self._files)
        self._replies, self._reading, self._writing = select.poll(), select.poll(), select.poll()
        for poller in (self._replies, self._reading, self._writing):
            poller.register(self._output, select.POLLIN)
        for poller in (self._reading, self._writing):
            poller.register(self._errors, select.POLLIN)
        self._writing.register(self._input, select.POLLOUT)
        self._is_ours, self._is_mute = True, False
        self._said = b""
        self._unwritten = memoryview(b"")
        self._lines: deque[str] = deque()
        self._rest = ""

    @property
    def number(self) -> int:
        """Returns the process ID."""
        return self._process.pid

    # ---- lines

    def write(self, data: bytes | memoryview) -> None:
        """Writes what the pipe has room for. The rest is written while lines are read. Raises `Gone`."""
        try:
            taken = os.write(self._input, data)
        except BlockingIOError:
            taken = 0
        except OSError:
            raise Gone from None
        if taken < len(data):
            self._unwritten = memoryview(data)[taken:]

    def line(self, deadline: float | None) -> str:
        """Returns the next line of output, without its line feed.

        DEADLINE is a time of `time.monotonic`. Raises `Gone` and `Late`.
        """
        # Most replies come at once, and waiting for one pipe takes less time than for two.
        if not self._lines and not self._unwritten and deadline is None and self._replies.poll(QUICK_MILLISECONDS):
            self._pull()
        while not self._lines:
            self._wait(deadline)
        return self._lines.popleft()

    def _wait(self, deadline: float | None) -> None:
        """Waits until a pipe is ready, and reads or writes there."""
        limit = LOOK_MILLISECONDS
        if deadline is not None:
            limit = min(limit, max(0.0, deadline - time.monotonic()) * 1000)
        for file, _ in (self._writing if self._unwritten else self._reading).poll(limit):
            if file == self._output:
                self._pull()
            elif file == self._errors:
                self._listen()
            else:
                self._push()
        if not self._lines:
            self._look(deadline)

    def _look(self, deadline: float | None) -> None:
        """Raises `Gone` or `Late` if no reply can come any more."""
        # Output that the program wrote before it ended is read first.
        if self._process.poll() is not None and not self._pull():
            raise Gone
        if deadline is not None and not self._lines and time.monotonic() >= deadline:
            raise Late

    def _push(self) -> None:
        rest, self._unwritten = self._unwritten, memoryview(b"")
        self.write(rest)

    def _pull(self) -> bool:
        """Reads the available output and returns whether there was any. Raises `Gone` at its end."""
        try:
            chunk = os.read(self._output, CHUNK)
        except BlockingIOError:
            return False
        except OSError:
            raise Gone from None
        if not chunk:
            raise Gone
        if len(self._rest) > LONGEST:
            raise Gone(f"the program answers with a line of more than {LONGEST} bytes")
        # Replies are ASCII. This decoding has a character for every other byte too.
        text = chunk.decode("latin-1")
        if not self._rest and text.find("\n") == len(text) - 1:
            self._lines.append(text[:-1])
            return True
        *lines, self._rest = (self._rest + text).split("\n")
        self._lines.extend(lines)
        return True

    # ---- standard error

    def last_words(self) -> str:
        """Returns the end of standard error, or how the program ended if that is empty.

        Waits for at most `LAST_SECONDS`, and not for other processes that hold the pipe.
        """
        until = time.monotonic() + LAST_SECONDS
        poller = select.poll()
        if self._errors >= 0:
            poller.register(self._errors, select.POLLIN)
        while not self._is_mute and self._process.poll() is None and time.monotonic() < until:
            if poller.poll(50):
                self._listen()
        # A pipe holds no more than this of what the program wrote before it ended.
        for _ in range(16):
            if self._is_mute or not self._listen():
                break
        return self._said.decode(errors="replace").strip() or self._ended(until)

    def _ended(self, until: float) -> str:
        if not self._ends_within(max(0.0, until - time.monotonic())):
            return "the program has closed its output"
        status = self._process.returncode
        if status >= 0:
            return "the program has ended" + (f" with status {status}" if status else "")
        return f"the program was ended by {signal_name(-status)}"

    def _listen(self) -> bool:
        """Reads the available standard error and returns whether there was any."""
        try:
            chunk = os.read(self._errors, CHUNK)
        except OSError:
            return False
        if not chunk:
            self._is_mute = True
            for poller in (self._reading, self._writing):
                poller.unregister(self._errors)
        self._said = (self._said + chunk)[-SAID:]
        return bool(chunk)

    # ---- the end

    def hang_up(self) -> None:
        """Closes the pipes, which makes the program end, and returns at once."""
        self._input = self._output = self._errors = -1
        self._unwritten = memoryview(b"")
        for file in self._files:
            file.close()

    def leave(self) -> None:
        """Closes the pipes in a process that was forked from the program's parent, which alone can end the program."""
        self._is_ours = False
        self.hang_up()

    def kill(self) -> None:
        """Kills the program, and closes nothing."""
        if self._is_ours:
            self._process.kill()

    def end(self, seconds: float = 1.0) -> None:
        """Closes the pipes and ends the program.

        It has this many seconds to end by itself, unless its pipes were closed before, then as many to end by SIGTERM,
        and is killed after that.
        """
        has_had_time = self._output < 0
        self.hang_up()
        if not self._is_ours or not has_had_time and self._ends_within(seconds):
            return
        for step in (self._process.terminate, self._process.kill):
            step()
            if self._ends_within(seconds):
                break

    def _ends_within(self, seconds: float) -> bool:
        """Waits for the end of the program alone, without other processes, and returns whether it came."""
        try:
            file = os.pidfd_open(self._process.pid)
        except OSError:
            pass
        else:
            # `wait` with a time limit sleeps between its looks. This wakes as the program ends.
            try:
                poller = select.poll()
                poller.register(file, select.POLLIN)
                poller.poll(seconds * 1000)
            finally:
                os.close(file)
            seconds = 0
        try:
            self._process.wait(seconds)
        except subprocess.TimeoutExpired:
            return False
        return True


def signal_name(number: int) -> str:
    """Returns the name of a signal, or its number where it has none."""
    try:
        return signal.Signals(number).name
    except ValueError:
        return f"signal {number}"
