"""A proved FlexRay cluster in which host programs take part, before there is hardware.

Each call is one line to the program `fr_world` and one reply, and does exactly what it names. A refusal is raised as
the exception of its name, and has changed nothing.
"""
import os
import stat
from collections import deque
from collections.abc import Callable, Iterable, Iterator
from contextlib import AbstractContextManager, contextmanager, suppress
from functools import partial

from musmyrtle.cluster_file import Clock, clock_of, payload_length
from musmyrtle.names import Names, UnknownName
from musmyrtle.signals.refusals import Given
from musmyrtle.spared import Output, clash
from musmyrtle.texts import FILE_LIMIT
from musmyrtle.world.bounds import (
    MOST_CYCLES, MOST_ENDLESS, MOST_NODE, endless_cycles, kept_cycles, run_cycles, some_cycles, traced_nodes,
    window_number,
)
from musmyrtle.world.faults import Fault, fault_line
from musmyrtle.world.layouts import Layouts
from musmyrtle.world.node import Buffer, Node
from musmyrtle.world.playing import Host, Play
from musmyrtle.world.receptions import Fifo, Listener, Listening, Reception, Receptions
from musmyrtle.world.refusals import BadCycles, BadName, NoHistory, TooManyFaults, WrongLength, refusal
from musmyrtle.world.replies import Channel, Counters, Moment, Received, Record, Window, record_of, window_of
from musmyrtle.world.session import CLOSE_SECONDS, FileName, Outputs, Session
from musmyrtle.world.stepping import requests_of
from musmyrtle.world.world_program import usual_world

__all__ = ["Buffer", "Host", "Node", "World"]


class World:
    """The world of a cluster: a controller host interface for each node, and the bus.

        with World("cluster.toml", cycles=8) as world:
            sender, receiver = world.node(0), world.node(1)
            for number in range(8):
                sender.commit(0, number.to_bytes(2, "big"))
                world.cycle()
                frame = receiver.read(1)

    Without CYCLES the world is endless: it keeps no history, so its memory doesn't grow, and it runs for hours of
    network time.

    Threads can share a world: each call is done whole before that of another thread. Every call raises `SessionOver`
    once the world is closed, its program has ended, or a request was broken off before its reply was read, as by an
    exception of a signal handler. A process that is forked can't use the worlds of its parent.
    """

    def __init__(self, cluster: FileName, cycles: int | None = None, *, endless: bool = False,
                 keep: int | None = None, record: FileName | None = None, capture: FileName | None = None,
                 traces: FileName | None = None, trace_nodes: Iterable[int] | None = None,
                 program: FileName | None = None, timeout: float | None = None) -> None:
        """Opens the world of a cluster file for a run of so many cycles, 1 to 1024.

        Without CYCLES, or if ENDLESS is true, the world keeps no history. Then the cycles are 1 to 4000000, and the
        most that the cluster allows unless they are given. `trace`, `capture` and `page` raise `NoHistory`, and
        `record` has the windows of the last KEEP cycles, 1 to 64, or the window that was sealed last alone.

        RECORD and CAPTURE are the files to which a world without history writes the record of the bus and a capture of
        it, each window once it is sealed. TRACES is a folder that exists: the file `N` in it gets the trace of node N,
        which `fr_bench audit` reads once the world is closed, or as it comes if the file is a named pipe. TRACE_NODES
        are the nodes whose traces are written, otherwise all. All these files are emptied first, and each call that
        returns has its windows and entries there. Raises `ValueError` for a world that keeps its history, for nodes
        without TRACES, and for numbers out of range. It is also raised, and nothing is emptied, if a file is the
        cluster file, the program or another one of these files, by whatever name. Raises `SessionOver` where a file
        can't be opened. If one can't be written, the call with the window or the entry raises it.

        PROGRAM is the `fr_world` to run, which `usual_world` finds otherwise. TIMEOUT is the time limit in seconds of
        each request and of the opening, or None. Raises `BadCycles` for another number of cycles, `NoRoom` where a
        journal has no room for them, `NotStarted` where the program can't be started, `ClusterRefused`, `BadName` where
        a key `name` of the cluster file isn't a string, and `TimedOut`.
        """
        self._is_endless = endless or cycles is None
        if trace_nodes is not None and traces is None:
            raise ValueError("nodes to trace are named without a folder for their traces: give `traces` too")
        outputs = Outputs(record, capture, traces, None if trace_nodes is None else traced_nodes(trace_nodes),
                          None if keep is None else kept_cycles(keep))
        if not self._is_endless and outputs.words():
            raise ValueError("a world that keeps its history keeps all windows, and writes no file as it goes: use "
                             "`capture`, `record` and `trace`")
        try:
            if cycles is not None:
                cycles = endless_cycles(cycles) if self._is_endless else run_cycles(cycles)
        except ValueError as error:
            raise BadCycles(*error.args) from None
        self._most_cycles = MOST_ENDLESS if self._is_endless else MOST_CYCLES
        self._program, self._cycles = program or usual_world(), cycles
        self._cluster, self._data = cluster, regular_file(cluster)
        self._spare_inputs(outputs.files(0 if traces is None else self._count_nodes()))
        self._faults: list[tuple[Fault, Callable[[Window], bool]]] = []
        self._unread = ""
        self._read_clock: Clock | None = None
        self.layouts = Layouts(os.fspath(cluster), self._data)
        self._session = Session(self._program, cluster, cycles, timeout, endless=self._is_endless, outputs=outputs)
        self._receptions = Receptions(self.layouts, self.send)
        try:
            self._names = self._read_names(self._data)
        except BaseException:
            self._session.close()
            raise

    def _count_nodes(self) -> int:
        """Returns the number of nodes that the cluster file has, or the greatest one if that isn't known."""
        try:
            return MOST_NODE + 1 if self._data is None else len(Names.of(self._data).buffers)
        except ValueError:
            return MOST_NODE + 1

    def _spare_inputs(self, outputs: list[Output]) -> None:
        """Raises `ValueError` where a file to write is the cluster file, the program or another file to write."""
        inputs = [("the cluster file", os.fspath(self._cluster)), ("the program", os.fspath(self._program))]
        found = clash(outputs, inputs)
        if found:
            raise ValueError(found)

    def __enter__(self) -> "World":
        return self

    def __exit__(self, *_: object) -> None:
        self.close()

    def close(self, timeout: float = CLOSE_SECONDS) -> None:
        """Ends the program. A second time does nothing.

        The program has TIMEOUT seconds to end by itself, and is killed at the latest after three times as many. A
        request of another thread that has no reply by then raises `SessionOver` there.
        """
        self._session.close(timeout)

    # ---- requests

    def ask(self, line: str, timeout: float | None = None) -> str:
        """Returns the reply to a request. One of several lines, as to `report 0`, has line feeds between them.

        TIMEOUT is the time limit in seconds, or None for that of the world. Raises the exception of a refusal,
        `ValueError` with nothing sent for more than one line and for characters that UTF-8 can't encode, `TimedOut`
        and `SessionOver`.
        """
        try:
            return self._session.ask(line, timeout)
        except WrongLength as error:
            node, _, buffer = map(int, line.split(" ")[1:4])
            raise WrongLength(error.names, line, self.payload_length(node, buffer)) from None

    def commit_signals(self, node: int, task: int, buffer: int, given: Given) -> int:
        """Commits values of signals to a transmit buffer, as `node(node).task(task).commit(buffer, given)` does."""
        with self._session.lock:
            before = self._session.committed.get((str(node), str(buffer)))
            payload = self.layouts.encoded(node, buffer, given, None if before is None else bytes.fromhex(before[1:]))
            return int(self.ask(f"commit {node} {task} {buffer} x{payload.hex()}").split(" ")[1])

    def block(self, line: str, timeout: float | None = None) -> list[str]:
        """Returns the lines of a query's reply, without the one that counts them.

        Raises the exceptions of `ask`, and `ValueError` for a request whose reply is one line.
        """
        return self._session.block(line, timeout)

    def send(self, lines: Iterable[str], timeout: float | None = None) -> list[str]:
        """Returns the replies to many requests, each as `ask` returns it. A refusal isn't raised.

        All are written without waiting for replies, and no request of another thread comes between. TIMEOUT is the
        time limit in seconds of all together. Raises `ValueError`, `TimedOut` and `SessionOver` as `ask` does.
        """
        return self._session.send(lines, timeout)

    def transcript(self) -> str:
        """Returns all requests so far, a line each, or without history the last 10,000.

        On the standard input of `fr_world` all give the same replies again. A request that was broken off is there.
        """
        return "".join(f"{line}\n" for line in list(self._session.asked))

    # ---- nodes

    @property
    def has_history(self) -> bool:
        """Returns whether the world keeps its journals and its record, as one that was opened with cycles does."""
        return not self._is_endless

    def node(self, number: int) -> Node:
        """Returns the node of this number, 0 to 15, in the order of the cluster file. Raises `ValueError` for others.

        If the cluster doesn't have it, the calls of the node raise `UnknownNode`.
        """
        return Node(self, number)

    def __getitem__(self, name: str) -> Node:
        """Returns the node of this name in the cluster file. Raises `UnknownName`."""
        return self.node(self.names.node(name))

    @property
    def names(self) -> Names:
        """Returns the names of nodes and buffers, as the cluster file had them when the world was opened.

        Raises `UnknownName` where they couldn't be read, as from a pipe, which the program alone can read.
        """
        if self._names is None:
            raise UnknownName(f"no names are known: {self._unread}")
        return self._names

    def payload_length(self, node: int, buffer: int) -> int | None:
        """Returns the bytes of a transmit buffer's payload, as of the cluster file when the world was opened.

        Returns None where there is no such buffer, or where the file couldn't be read.
        """
        return None if self._data is None else payload_length(self._data, node, buffer)

    def _read_names(self, data: bytes | None) -> Names | None:
        """Reads the names of a file that the program has accepted. Raises `BadName` for one that isn't a string."""
        if data is None:
            self._unread = "the cluster file is no regular file"
            return None
        try:
            names = Names.of(data)
        except ValueError as error:
            self._unread = f"the cluster file can't be read: {error}"
            return None
        if names.wrong:
            raise BadName(names.wrong)
        return names

    # ---- the bus

    def now(self) -> Window | None:
        """Returns the window that is open or sealed, or None once the run is over."""
        return moved(self.ask("now"))

    def at(self) -> Moment:
        """Returns the time at which the open window starts, or that of the end of the run."""
        return Moment(*map(int, self.ask("at").split(" ")[1:]))

    def seconds(self) -> float:
        """Returns the same time in seconds since the start of cycle 0, by `macrotick_us` of the cluster file.

        Raises `ValueError` where the file has no table `[physical]` with it, or is no regular file.
        """
        clock, moment = self._clock(), self.at()
        return clock.seconds(moment.cycle, moment.macrotick)

    def _clock(self) -> Clock:
        """Returns the clock of the cluster file, which is read once."""
        if self._read_clock is None:
            if self._data is None:
                raise ValueError("the cluster file is no regular file, and its `macrotick_us` can't be read")
            self._read_clock = clock_of(self._data)
        return self._read_clock

    def status(self, node: int, channel: Channel) -> Counters:
        """Returns the status counters of a node, 0 to 15, on a channel. Raises `UnknownNode`, and `ValueError`."""
        return self.node(node).status(channel)

    def receive(self, node: int, task: int, buffer: int) -> Received | None:
        """Returns the frame that a receive buffer holds, as `node(node).task(task).receive(buffer)` does."""
        return self.node(node).task(task).receive(buffer)

    def next(self, node: int, task: int) -> Received | None:
        """Takes the oldest frame out of a receive FIFO, as `node(node).task(task).next()` does."""
        return self.node(node).task(task).next()

    def inject(self, fault: Fault) -> None:
        """Brings the fault into the open window.

        Raises `NotCollecting` where that is sealed, `TooManyFaults` where it has one of this kind, node and channel,
        and `UnknownNode`.
        """
        self.ask(str(fault))

    def seal(self) -> None:
        """Seals the open window. Raises `NotCollecting`, `NotAllPut` and `Memory`."""
        self.ask("seal")

    def advance(self) -> None:
        """Opens the window after the sealed one. Raises `NotSealed` and `NotAllTaken`."""
        self.ask("advance")

    def record(self, number: int) -> Record:
        """Returns the sealed window of this number, counted from 0: its transmissions and their fates.

        Raises `NoWindow` where no such window is sealed, `NotKept` where a world without history doesn't keep it any
        more, `Memory`, and `ValueError` out of 0 to 4294967295.
        """
        return record_of(self.block(f"record {window_number(number)}"))

    def capture(self, path: FileName) -> None:
        """Writes a capture of all that was on the bus so far, which Wireshark opens.

        It has the records of `fr_view bus`: each transmission that passed alone and wasn't too long, from each window
        that is sealed. The program of the world writes it: it is started anew, and is asked again the requests that
        changed the bus. Raises `NoHistory` in a world without history, and `ValueError` for a cluster file that was no
        regular file, since the program can't read it twice, and where the file is the cluster file or the program.
        Raises `NotStarted` where the program can't be started,
        `OSError` where a file can't be written, and `SessionOver`, also where a request now has another reply, as after
        a refusal because of memory.
        """
        from musmyrtle.world.capture import captured
        if self._is_endless or self._cycles is None:
            raise NoHistory(("NoHistory",), "capture")
        if self._data is None:
            raise ValueError("the capture needs a cluster file that is a regular file")
        self._spare_inputs([Output(os.fspath(path), f"capture {os.fspath(path)}", "")])
        with self._session.lock:
            # It raises `SessionOver` where the session is over.
            self.ask("now")
            changes = list(self._session.changes)
        data = captured(os.fspath(self._program), self._data, self._cycles, changes)
        with open(path, "wb") as file:
            file.write(data)

    def page(self, path: FileName, *, program: FileName | None = None) -> None:
        """Writes a page in which the cycles that are done are explored in a browser, as `musmyrtle page` does.

        PROGRAM is the `fr_view` to run, which is otherwise looked for. Raises `ValueError` where no cycle is done, and
        where the file is the cluster file or the program. It is also raised where the calls are those of no scenario:
        each one comes between two cycles, and in each cycle those of task 0 come first. Raises `NoHistory` in a world
        without history, `OSError` where the file can't be written, and `SessionOver` where a program can't be asked.
        """
        # Each program that opens a world would wait for these imports.
        from musmyrtle.show.page_session import first_of_cycle, page_of_session, traces_of
        if self._data is None:
            raise ValueError("the page needs a cluster file that is a regular file")
        self._spare_inputs([Output(os.fspath(path), f"page {os.fspath(path)}", "")])
        with self._session.lock:
            traces = list(traces_of(self.block))
            records = [self.record(number) for number in range(first_of_cycle(traces[0], self.now()))]
        text = page_of_session(self._cluster, self._data, traces, records, program)
        with open(path, "w", encoding="utf-8") as file:
            file.write(text)

    # ---- windows and cycles

    def window(self) -> Window | None:
        """Does all due steps in the open window. Returns the next window, or None once the run is over.

        Raises the first refusal that isn't `WrongTurn`. Steps that were done before it stay done.
        """
        if not self._faults:
            return self._step("window")
        with self._session.lock:
            self._inject_due()
            return self._step("window")

    def cycle(self) -> Window | None:
        """Does windows up to the first one of the next cycle. Returns and raises as `window` does."""
        if not self._faults:
            return self._step("cycle")
        with self._session.lock:
            window = self.window()
            while window and not window.opens_cycle:
                window = self.window()
            return window

    def run(self, cycles: int) -> Window | None:
        """Does so many cycles, 0 to 1024, or to 4000000 without history.

        Returns and raises as `window` does, and `ValueError` for other numbers. A request does 1024 cycles at most, so
        a time limit is that of each 1024.
        """
        cycles = some_cycles(cycles, self._most_cycles)
        with self._session.lock:
            if not self._faults and not self._receptions.listeners:
                while cycles > MOST_CYCLES:
                    self.ask(f"run {MOST_CYCLES}")
                    cycles -= MOST_CYCLES
                return moved(self.ask(f"run {cycles}"))
            window = self.now()
            for _ in range(cycles):
                window = self.cycle()
            return window

    def _step(self, line: str) -> Window | None:
        """Does a step, and tells listeners what was stored in it. Raises its refusal."""
        if not self._receptions.listeners:
            return moved(self.ask(line))
        with self._session.lock:
            reply, found = self._receptions.step(line)
        self._receptions.tell(found)
        if reply.startswith("refused "):
            raise refusal(reply, line)
        return moved(reply)

    # ---- received frames

    def listen(self, listener: Listener, node: int | str | None = None, buffer: int | str | Fifo | None = None
               ) -> Listening:
        """Has a function called with each frame that a receive buffer or a receive FIFO stores: a `Reception`.

        NODE and BUFFER are numbers or names, or None for all; the buffer `FIFO` is the receive FIFO alone. The function
        is called by `window`, `cycle`, `run`, `play` and `play_scenario`, after the window or the cycle in which the
        frame came, and may call the world. An exception of it comes out of that call. In a cycle done at once it gets
        the last frame of each buffer; if a FIFO is listened to, a cycle is done window by window. `next` and `pop`
        still return what a FIFO holds. Returns a context manager, which `stop` or the end of its block ends. Raises
        `UnknownName`, and `ValueError` for a buffer by name without its node.
        """
        number = self.names.node(node) if isinstance(node, str) else node
        if isinstance(buffer, str):
            if number is None:
                raise ValueError(f"the buffer {buffer!r} is given by its name: give its node, too")
            buffer = self.names.buffer(number, buffer)
        with self._session.lock:
            return self._receptions.listen(listener, number, buffer)

    def frames(self, cycles: int | None = None, node: int | str | None = None, buffer: int | str | Fifo | None = None
               ) -> Iterator[Reception]:
        """Does cycle after cycle, up to the end of the run or so many, and yields each frame that is stored.

        NODE and BUFFER are those of `listen`, of which it raises what that raises, and what `cycle` raises. Frames come
        by node and buffer once their cycle is done; if a FIFO is listened to, by window before that.
        """
        waiting: deque[Reception] = deque()
        with self.listen(waiting.append, node, buffer):
            left = 0 if self.now() is None else cycles
            while left is None or left > 0:
                window = self.cycle()
                left = None if left is None else left - 1
                while waiting:
                    yield waiting.popleft()
                if window is None:
                    return

    def play_scenario(self, text: str, cycles: int) -> list[tuple[str, str]]:
        """Does a scenario in a world that has just been opened, for so many cycles, as a lockstep run does it.

        Its fault lines are kept. In each cycle the lines of the tasks come first, by node and then task. Returns each
        request of a task with its reply. Lines of version 3 that name only later cycles are left out. Raises
        `ValueError`, with the line number and nothing sent, for a text that is no scenario of so many cycles; a
        refusal by its name; and what `cycle` raises.
        """
        faults, requests = requests_of(text, some_cycles(cycles), self._names)
        answers: list[tuple[str, str]] = []
        with self._session.lock:
            for line in faults:
                self.keep(line)
            for lines in requests:
                answers += [(line, self.ask(line)) for line in lines]
                self.cycle()
        return answers

    def play(self, *hosts: Host, cycles: int) -> Window | None:
        """Runs host programs as generators for so many cycles, 0 to 1024, or to 4000000 without history.

        Each goes on to its next `yield` at the start of the next cycle, or of a later one after `yield every(cycles)`,
        when a static slot opens after `yield at_slot(slot)`, and when a receive buffer has stored a frame after `yield
        on_frame(node, buffer)`. Those that wait for the same go on in their order. At the end all waits are forgotten.
        Other threads can come in between; one that moves the world on makes hosts miss slots and cycles. Returns and
        raises what `cycle` does, `ValueError` for other numbers, `UnknownNode` and `NotReceive` for a buffer that
        `on_frame` can't wait for, and what a host program raises.
        """
        return Play(self, hosts).run(some_cycles(cycles, self._most_cycles))

    # ---- faults

    def fault(self, fault: Fault | str, when: Callable[[Window], bool] | None = None) -> AbstractContextManager[None]:
        """Returns a context manager that brings the fault into windows while its block runs.

        A `Babble`, `Mute` or `Corrupt` comes into each window for which WHEN is true, or into each one without WHEN,
        by a request for each window. A window that has one of this kind, node and channel keeps that one. WHEN is
        called while the world is locked: it must not wait for a thread that uses the world.

        A fault line of a scenario, as `"lost gateway 8-15"`, says itself where it comes. Raises `ValueError` for a line
        beside WHEN and for a text that is no fault line; the block raises `BadFault` as `keep` does. An exception of
        the block is never replaced.
        """
        if isinstance(fault, str):
            if when is not None:
                raise ValueError("a fault line says itself where it comes: give it no `when`, or give a Babble, Mute "
                                 "or Corrupt")
            return self._kept_in_block(fault_line(fault, self._names))
        return self._injected_in_block(fault, when or every_window)

    def keep(self, line: str) -> None:
        """Has the world bring the fault of a scenario's fault line into each window that it names from now on.

        It is a line of version 3, which may end with a line feed, and is sent with numbers in the place of names.
        Raises `ValueError` for a text that is no fault line, with nothing sent, and `BadFault` where the run can't have
        it beside those that are kept. Then nothing of it is kept, also where it is for both channels.
        """
        self.ask(fault_line(line, self._names))

    def forget(self) -> None:
        """Ends all fault lines. The faults that they brought into the open window stay there."""
        self.ask("forget")

    @contextmanager
    def _kept_in_block(self, line: str) -> Iterator[None]:
        self.ask(line)
        yield from self._block(partial(self._drop, line))

    @contextmanager
    def _injected_in_block(self, fault: Fault, when: Callable[[Window], bool]) -> Iterator[None]:
        entry = (fault, when)
        with self._session.lock:
            self._faults.append(entry)
        yield from self._block(partial(self._faults.remove, entry))

    def _block(self, ending: Callable[[], None]) -> Iterator[None]:
        """Runs a block and then its ending, which raises nothing where the block does or where the world is closed."""
        try:
            yield
        except BaseException:
            with suppress(Exception):
                self._end_block(ending)
            raise
        self._end_block(ending)

    def _end_block(self, ending: Callable[[], None]) -> None:
        with self._session.lock:
            if not self._session.is_closed:
                ending()

    def _drop(self, line: str) -> None:
        """Ends a fault line. The others are kept again in the same exchange, so that none is lost between."""
        others = list(self._session.kept)
        if line in others:
            others.remove(line)
            requests = ["forget", *others]
            for request, reply in zip(requests, self.send(requests)):
                if reply != "done":
                    raise refusal(reply, request)

    def _inject_due(self) -> None:
        """Brings the faults of the blocks into the open window.

        It does so as the world does with those of fault lines: none where the window is sealed, and where it has one of
        this kind, node and channel already, that one stays.
        """
        kind, *words = self.ask("now").split(" ")
        if kind != "open":
            return
        window = window_of(words)
        for fault, when in list(self._faults):
            if when(window):
                with suppress(TooManyFaults):
                    self.inject(fault)


def every_window(_: Window) -> bool:
    """Returns True: a fault without a condition comes into each window."""
    return True


def moved(reply: str) -> Window | None:
    """Returns the window of a reply `open ..` or `sealed ..`, or None once the run is over."""
    kind, *words = reply.split(" ")
    return None if kind == "over" else window_of(words)


def regular_file(file: FileName) -> bytes | None:
    """Returns the bytes of a regular file, or None. Reading a pipe would take them from the program."""
    try:
        if stat.S_ISREG(os.stat(file).st_mode):
            with open(file, "rb") as opened:
                return opened.read(FILE_LIMIT + 1)
    except OSError:
        pass
    return None
