"""Host programs that take turns in a world."""
from collections.abc import Iterable, Iterator
from dataclasses import dataclass
from typing import TYPE_CHECKING

from musmyrtle.world.refusals import NotReceive
from musmyrtle.world.replies import ReceiveBuffer, Report, Window
from musmyrtle.world.waits import NEXT_CYCLE, AtSlot, Every, OnFrame, Wait

if TYPE_CHECKING:
    from musmyrtle.world.world import World

Host = Iterator[object]
_END = object()


@dataclass
class Running:
    """A host program, what it waits for, the cycles that are left, and the entry that a buffer's frame had before."""

    host: Host
    wait: Wait = NEXT_CYCLE
    left: int = 1
    entry: int | None = None


class Play:
    """Runs host programs, each up to its next `yield`, whenever what it waits for has come."""

    def __init__(self, world: "World", hosts: Iterable[Host]) -> None:
        self._world = world
        self._running = [Running(host) for host in hosts]

    def run(self, cycles: int) -> Window | None:
        """Does so many cycles. Returns the window that is then open, or None once the run is over."""
        window = self._world.now()
        for _ in range(cycles):
            self._start_cycle()
            window = self._windows() if self._waits_within() else self._world.cycle()
        return window

    def _waits_within(self) -> bool:
        return any(not isinstance(one.wait, Every) for one in self._running)

    def _start_cycle(self) -> None:
        for one in list(self._running):
            if isinstance(one.wait, Every):
                one.left -= 1
                if one.left == 0:
                    self._go_on(one)

    def _windows(self) -> Window | None:
        """Does the windows of a cycle one by one, as long as a host program waits for something within it."""
        window = self._world.window()
        self._wake(window)
        while window and not window.opens_cycle:
            if not self._waits_within():
                return self._world.cycle()
            window = self._world.window()
            self._wake(window)
        return window

    def _wake(self, window: Window | None) -> None:
        """Goes on with the host programs whose slot is open or whose buffer has another frame, in their order."""
        reports: dict[int, Report] = {}
        for one in list(self._running):
            if isinstance(one.wait, AtSlot):
                if window and window.is_static and window.a == one.wait.slot:
                    self._go_on(one, window)
            elif isinstance(one.wait, OnFrame):
                node = one.wait.node
                if node not in reports:
                    reports[node] = self._world.node(node).report()
                if stored(reports[node], one.wait) != one.entry:
                    self._go_on(one, window)

    def _go_on(self, one: Running, window: Window | None = None) -> None:
        """Runs a host program up to its next `yield`, and notes what it waits for. Any other value is a cycle.

        WINDOW is the one that has opened. If it opens a cycle, the start of this cycle is still to be counted.
        """
        value = next(one.host, _END)
        if value is _END:
            self._running.remove(one)
            return
        one.wait = value if isinstance(value, Every | AtSlot | OnFrame) else NEXT_CYCLE
        if isinstance(one.wait, Every):
            one.left = one.wait.cycles + (window is not None and window.opens_cycle)
        elif isinstance(one.wait, OnFrame):
            one.entry = stored(self._world.node(one.wait.node).report(), one.wait)


def stored(report: Report, wait: OnFrame) -> int | None:
    """Returns the entry that stored the buffer's frame, or None. Raises `NotReceive` for another buffer."""
    if wait.buffer < len(report.buffers):
        buffer = report.buffers[wait.buffer]
        if isinstance(buffer, ReceiveBuffer):
            return buffer.entry
    raise NotReceive(("Host", "NotReceive"), f"on_frame({wait.node}, {wait.buffer})")
