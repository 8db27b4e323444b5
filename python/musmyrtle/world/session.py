"""A session with the program `fr_world`: requests and replies."""
import os
import threading
import time
import weakref
from collections import deque
from collections.abc import Iterable
from dataclasses import dataclass

from musmyrtle.spared import Output
from musmyrtle.world.child import Child, Gone, Late
from musmyrtle.world.faults import is_fault_line
from musmyrtle.world.opening import refused_cluster
from musmyrtle.world.refusals import SessionOver, TimedOut, refusal
from musmyrtle.world.world_program import not_started

VERSION = "frworld 1"
CLOSE_SECONDS = 1.0
MOST_ASKED = 10_000
"""The requests that a session without history remembers."""
FileName = str | os.PathLike[str]
MOVES = ("window", "cycle", "run")
"""Requests that may have executed events when they are refused."""
READS = ("now", "at", "status", "origin", "read", "pop", "receive", "next")
"""Requests with a reply of one line that change nothing on the bus."""


@dataclass(frozen=True, slots=True)
class Change:
    """A request that may have changed what is on the bus, and its reply."""

    request: str
    reply: str


@dataclass(frozen=True)
class Outputs:
    """The files to which a world without history writes: its record, a capture, and the folder of its traces.

    `trace_nodes` are the nodes whose traces are written, or None for all. `keep` is the number of cycles whose windows
    the world keeps, or None.
    """

    record: FileName | None = None
    capture: FileName | None = None
    traces: FileName | None = None
    trace_nodes: tuple[int, ...] | None = None
    keep: int | None = None

    def words(self) -> list[str]:
        """Returns the options of the program."""
        files = (("record", self.record), ("capture", self.capture), ("trace", self.traces))
        named = [f"--{option}={os.fspath(name)}" for option, name in files if name is not None]
        nodes = None if self.trace_nodes is None else ",".join(map(str, self.trace_nodes))
        numbers = (("trace-nodes", nodes), ("keep", self.keep))
        return named + [f"--{option}={value}" for option, value in numbers if value is not None]

    def files(self, nodes: int) -> list[Output]:
        """Returns the files that are written for a cluster of so many nodes."""
        named = [Output(os.fspath(name), f"{what} {os.fspath(name)}", f"the file of {what}")
                 for what, name in (("record", self.record), ("capture", self.capture)) if name is not None]
        traced = () if self.traces is None else range(nodes) if self.trace_nodes is None else self.trace_nodes
        for node in traced:
            file = os.path.join(os.fspath(self.traces or ""), str(node))
            named.append(Output(file, f"the trace {file}", f"the trace of node {node}"))
        return named

    def refused(self, said: str) -> str | None:
        """Returns the file of a refusal that the program prints, or None for another one."""
        kind, _, node = said.removeprefix("refused ").partition(" ")
        if kind == "Trace" and self.traces is not None:
            return os.path.join(os.fspath(self.traces), node)
        name = {"Record": self.record, "Capture": self.capture}.get(kind)
        return None if name is None else os.fspath(name)


class Session:
    """Asks a program requests and returns its replies, in order and each to the request it belongs to.

    Threads can share a session: each waits until the reply to the request before is read. `lock` keeps several
    requests together. A session whose reply wasn't read to its end is broken: every later request raises `SessionOver`.
    `asked` has all requests so far, to be asked again without Python, or without history the last ones. `changes` has
    those that may have changed what is on the bus, or none without history. `kept` has the fault lines that the program
    has.
    """

    def __init__(self, program: FileName, cluster: FileName, cycles: int | None, timeout: float | None = None, *,
                 endless: bool = False, outputs: Outputs = Outputs()) -> None:
        """Starts the program and reads its first line.

        ENDLESS asks for a world without history, whose CYCLES are None for the most. OUTPUTS are the files to which it
        writes. TIMEOUT is the time limit of each request in seconds, or None for no limit. Raises `NotStarted`,
        `ClusterRefused`, `BadCycles` where the cluster can't have so many, `NoRoom`, `SessionOver` where the program
        speaks another version, and `TimedOut`.
        """
        command = [os.fspath(program), os.fspath(cluster), *(["--endless"] if endless else []),
                   *([] if cycles is None else ["--cycles", str(cycles)]), *outputs.words()]
        self.lock = threading.RLock()
        self.asked: deque[str] = deque(maxlen=MOST_ASKED if endless else None)
        self.kept: list[str] = []
        self.changes: list[Change] = []
        self.committed: dict[tuple[str, str], str] = {}
        """The payload of the last commit to each buffer, by the words of its request."""
        self._is_endless = endless
        self._outputs = outputs
        self._timeout = timeout
        self._over: str | None = None
        self._is_waiting = self._is_closed = False
        try:
            self._child = Child(command)
        except OSError as error:
            raise not_started(command[0], error) from None
        # A dropped session ends its program, and so does the end of this one.
        self._ender = weakref.finalize(self, self._child.end)
        _SESSIONS.add(self)
        try:
            version = self._talk([], 1, b"", timeout)[0]
            if version != VERSION:
                raise SessionOver(f"{command[0]} speaks {version[:60]!r}, not {VERSION!r}")
        except SessionOver as error:
            self.close()
            raise refused_cluster(str(error), command[1]) or error from None
        except BaseException:
            self.close()
            raise

    @property
    def is_closed(self) -> bool:
        """Returns whether `close` was called."""
        return self._is_closed

    def close(self, timeout: float = CLOSE_SECONDS) -> None:
        """Ends the program. A second call has no effect.

        The program has TIMEOUT seconds to end by itself, and is killed at the latest after three times as many. A
        request of another thread that is still unanswered after TIMEOUT seconds raises `SessionOver` there.
        """
        self._is_closed = True
        if self._over is None:
            self._over = "the world is closed"
        has_lock = self.lock.acquire(timeout=timeout)
        if not has_lock:
            self._child.kill()
            has_lock = self.lock.acquire(timeout=max(timeout, CLOSE_SECONDS))
        try:
            self._child.end(timeout)
            self._ender.detach()
        finally:
            if has_lock:
                self.lock.release()

    def ask(self, line: str, timeout: float | None = None) -> str:
        """Returns the reply to one request. A reply of several lines has line feeds between them.

        Raises the exception of a refusal, and what `send` raises.
        """
        data = encoded(line, 1)
        with self.lock:
            reply = self._talk([line], 1, data, self._timeout if timeout is None else timeout)[0]
            self._note(line, reply)
        if reply.startswith("refused "):
            raise refusal(reply, line)
        return reply

    def block(self, line: str, timeout: float | None = None) -> list[str]:
        """Returns the lines of a query's reply, without the first, which counts them.

        Raises the exceptions of `ask`, and `ValueError` for a request whose reply is one line.
        """
        first, *lines = self.ask(line, timeout).split("\n")
        if not first.startswith("lines "):
            raise ValueError(f"`{shown(line)}` is no query: it was answered with `{shown(first)}`")
        return lines

    def send(self, lines: Iterable[str], timeout: float | None = None) -> list[str]:
        """Returns the replies to requests, which are written and read at the same time, however many there are.

        TIMEOUT limits the time for all of them, in seconds; None is the session's own limit. A refusal isn't raised.
        Raises `ValueError`, with nothing written, for a request of more than one line or one that UTF-8 can't encode;
        `TimedOut` where replies are missing when the time is over, and `SessionOver` where the session is over.
        """
        asked = list(lines)
        if not asked:
            return []
        data = encoded("\n".join(asked), len(asked))
        with self.lock:
            replies = self._talk(asked, len(asked), data, self._timeout if timeout is None else timeout)
            for line, reply in zip(asked, replies):
                self._note(line, reply)
        return replies

    def _note(self, line: str, reply: str) -> None:
        """Notes the change of the fault lines and of the bus by a request, and the last commit to each buffer."""
        if not self._is_endless and is_change(line, reply):
            self.changes.append(Change(line, reply))
        if reply != "done":
            if reply.startswith("committed "):
                _, node, _, buffer, payload = line.split(" ")
                self.committed[node, buffer] = payload
            return
        if line == "forget":
            self.kept.clear()
        elif is_fault_line(line):
            self.kept.append(line)

    # ---- one exchange

    def _talk(self, asked: list[str], count: int, data: bytes, timeout: float | None) -> list[str]:
        """Writes requests and reads this many replies.

        From the first byte written up to the last reply read the session is marked as waiting. An exception between,
        also that of a signal handler, leaves the mark, and no later request can get a reply that isn't its own.
        """
        if self._over is not None or self._is_waiting:
            raise SessionOver(self._over or self._broken("a request was broken off before its reply was read"))
        deadline = None if timeout is None else time.monotonic() + timeout
        replies: list[str] = []
        self._is_waiting = True
        try:
            self.asked += asked
            child = self._child
            child.write(data)
            for _ in range(count):
                reply = child.line(deadline)
                replies.append(self._whole(reply, deadline) if reply.startswith("lines ") else reply)
        except Gone as error:
            raise SessionOver(self._broken(self._over or str(error) or self._last_words())) from None
        except Late:
            raise TimedOut(self._broken(f"{missing(asked, replies)} within {timeout:g} s")) from None
        except BaseException as error:
            if len(replies) < count:
                self._broken(f"{missing(asked, replies)}: {type(error).__name__} came before it")
            else:
                self._is_waiting = False
            raise
        self._is_waiting = False
        return replies

    def _last_words(self) -> str:
        """Returns the end of standard error. Of a file that fails it names the file."""
        said = self._child.last_words()
        file = self._outputs.refused(said)
        return said if file is None else f"{file} can't be written ({said})"

    def _whole(self, first: str, deadline: float | None) -> str:
        """Returns the reply that begins with the line `lines K` and has K further lines."""
        count = first[len("lines "):]
        if not count.isdecimal():
            raise Gone(f"the program answers with `{shown(first)}`")
        return "\n".join([first, *(self._child.line(deadline) for _ in range(int(count)))])

    def _broken(self, why: str) -> str:
        """Ends a session in which replies are outstanding. Returns the reason."""
        if self._over is None:
            self._over = why
        self._child.hang_up()
        return self._over

    def _leave(self) -> None:
        """Leaves the program to the parent, in a process that was forked from it."""
        self.lock = threading.RLock()
        self._over = "the world belongs to the process that opened it, and this one was forked from that"
        self._ender.detach()
        self._child.leave()


_SESSIONS: "weakref.WeakSet[Session]" = weakref.WeakSet()


def _leave_all() -> None:
    for session in list(_SESSIONS):
        session._leave()


# A forked process has the same pipes. If it used them, each process would read replies of the other. If it only held
# them, the program wouldn't see that its input ends.
os.register_at_fork(after_in_child=_leave_all)


def is_change(line: str, reply: str) -> bool:
    """Returns whether a request with this reply may have changed what is on the bus."""
    kind = next(iter(line.split()), "")
    if reply.startswith("refused "):
        return kind in MOVES
    return not reply.startswith("lines ") and kind not in READS


def encoded(text: str, count: int) -> bytes:
    """Returns the bytes of requests, which have line feeds between them.

    Raises `ValueError` where these aren't so many lines, or UTF-8 can't encode them.
    """
    if text.count("\n") != count - 1:
        raise ValueError("a request is one line, without a line feed")
    try:
        return f"{text}\n".encode()
    except UnicodeEncodeError as error:
        raise ValueError(f"a request has a character that UTF-8 can't encode: {error.object[error.start]!r}") from None


def missing(asked: list[str], replies: list[str]) -> str:
    """Returns a clause that names the missing reply."""
    return f"no reply to `{shown(asked[len(replies)])}`" if asked else "no first line"


def shown(text: str) -> str:
    """Returns a text, cut where it is long."""
    return text if len(text) <= 80 else f"{text[:77]}..."
