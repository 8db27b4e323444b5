"""The refusals of a world, each an exception of its name."""
from musmyrtle.visible import visible


class SessionOver(RuntimeError):
    """The session is over, and no further request can be asked. The message has the reason.

    The reason is the program's message on standard error, such as `refused Write`, its end, or the reason why a reply
    couldn't be read to its end.
    """


class TimedOut(SessionOver, TimeoutError):
    """A request had no reply within its time limit. The session is over."""


class BadName(SessionOver, ValueError):
    """A key `name` of the cluster file isn't a string, so the world isn't opened."""


class BadCycles(SessionOver, ValueError):
    """A world has 1 to 1024 cycles, or 1 to 4000000 without history, so it isn't opened."""


class NoRoom(SessionOver, ValueError):
    """The journal of a node has no room for the windows of a world with history, so it isn't opened.

    `node` is the number of the node.
    """

    def __init__(self, node: int) -> None:
        # The argument of the exception, so that it can be copied and pickled.
        super().__init__(node)
        self.node = node

    def __str__(self) -> str:
        return (f"the journal of node {self.node} has no room for so many cycles. Expected fewer cycles, more "
                f"`slot_entries` of the node, or a world without history")


class ClusterRefused(SessionOver):
    """The program refuses the cluster file, so the world isn't opened.

    `refusal` has the words after `refused`, as `Overlap 1 A 0`, and `reason` the explanation by `lint`, with line
    and column. The reason is empty where none is known.
    """

    def __init__(self, refusal: str, reason: str = "") -> None:
        # Both are arguments of the exception, so that it can be copied and pickled.
        super().__init__(refusal, reason)
        self.refusal, self.reason = refusal, reason

    def __str__(self) -> str:
        return f"refused {self.refusal}: {self.reason}" if self.reason else f"refused {self.refusal}"


class NotStarted(SessionOver, OSError):
    """The program can't be started: it isn't there, or it can't be executed.

    `filename` is the program and `errno` the failure. `strerror` has the reason, and where `fr_world` is looked for.
    """

    def __init__(self, number: int, reason: str, program: str) -> None:
        # RuntimeError comes first among the bases, and would keep nothing of these.
        OSError.__init__(self, number, reason, program)

    def __str__(self) -> str:
        return f"{self.filename} can't be started: {self.strerror}"


class Refused(Exception):
    """A request was refused and has changed nothing. Only `window`, `cycle` and `run` may have done a part.

    `names` are the words after `refused`, and `line` is the request.
    """

    def __init__(self, names: tuple[str, ...], line: str) -> None:
        # Both are arguments of the exception, so that it can be copied and pickled.
        super().__init__(names, line)
        self.names, self.line = names, line

    def __str__(self) -> str:
        return f"{' '.join(self.names)}: {self.line}"


class BadLine(Refused):
    """The line is no request. The text of the exception has the reason."""

    def __str__(self) -> str:
        # Most sessions have no such line, so that they needn't wait for the import.
        from musmyrtle.world.bad_lines import why_no_request
        return f"{' '.join(self.names)}: {why_no_request(self.line)}: {visible(self.line)}"


class BadFault(Refused):
    """No run of the cluster can have the fault line beside those that the world keeps."""


class NoWindow(Refused):
    """No window of this number is sealed."""


class NotKept(Refused):
    """The window is sealed, but a world without history doesn't keep it any more."""


class NoHistory(Refused):
    """The world keeps no history, which the request asks for."""


class Memory(Refused):
    """The program is out of memory for the reply, or for a fault line. For a seal it is a `BusMemory`."""


class UnknownNode(Refused):
    """The cluster doesn't have the node. For a fault of the open window it is a `BusUnknownNode`."""


class WrongTurn(Refused):
    """Another step of the node's controller is due."""


class HostRefused(Refused):
    """The node's controller host interface refused the call of a task."""


class UnknownTask(HostRefused):
    """The node doesn't have the task."""


class UnknownBuffer(HostRefused):
    """The node doesn't have the buffer."""


class NotTransmit(HostRefused):
    """The buffer is a receive buffer."""


class NotReceive(HostRefused):
    """The buffer is a transmit buffer."""


class WrongLength(HostRefused):
    """The payload doesn't have the buffer's length, two bytes for each of its words.

    `wanted` is that length in bytes, or None where the cluster file couldn't be read, and `given` the payload's.
    """

    def __init__(self, names: tuple[str, ...], line: str, wanted: int | None = None) -> None:
        super().__init__(names, line)
        self.args = names, line, wanted
        self.wanted = wanted
        self.given = len(line.rpartition(" x")[2]) // 2

    def __str__(self) -> str:
        right = "has another length" if self.wanted is None else f"has to have {self.wanted}"
        told = f"the payload has {self.given} bytes, and {right}"
        return f"{' '.join(self.names)}: {told}: {self.line}"


class HostFull(HostRefused):
    """The node's journal has no room for a further host entry."""


class NoQueue(HostRefused):
    """The node has no receive FIFO."""


class SlotRefused(Refused):
    """The node's controller host interface refused the call of its controller."""


class NotObserved(SlotRefused):
    """The window that was fetched last isn't observed yet."""


class BadWindow(SlotRefused):
    """The parameters have no such window."""


class WindowOrder(SlotRefused):
    """The window's number isn't above that of the window before."""


class SlotFull(SlotRefused):
    """The node's journal has room for fewer than two further slot entries."""


class NotFetched(SlotRefused):
    """No window is open at the controller."""


class WrongWindow(SlotRefused):
    """Another window is open at the controller."""


class BusRefused(Refused):
    """The bus refused the call."""


class BusUnknownNode(BusRefused, UnknownNode):
    """The cluster doesn't have the node of the fault."""


class NotCollecting(BusRefused):
    """The open window is sealed, or the run is over."""


class TooManyFaults(BusRefused):
    """The open window has a fault of this kind, node and channel."""


class NotAllPut(BusRefused):
    """A node hasn't put what it offers."""


class NotSealed(BusRefused):
    """The open window isn't sealed, or the run is over."""


class NotAllTaken(BusRefused):
    """A node hasn't taken its observation of the sealed window."""


class AlreadyPut(BusRefused):
    """The node has put what it offers."""


class AlreadyTaken(BusRefused):
    """The node has taken its observation of the sealed window."""


class BusMemory(BusRefused, Memory):
    """The program is out of memory for the window's record. The world is as it was before the seal."""


_GROUPS: dict[str, tuple[type[Refused], ...]] = {
    "": (BadLine, BadFault, NoWindow, NotKept, NoHistory, Memory, UnknownNode, WrongTurn),
    "Host": (UnknownTask, UnknownBuffer, NotTransmit, NotReceive, WrongLength, HostFull, NoQueue),
    "Slot": (NotObserved, BadWindow, WindowOrder, SlotFull, NotFetched, WrongWindow),
    "Bus": (NotCollecting, TooManyFaults, NotAllPut, NotSealed, NotAllTaken, AlreadyPut, AlreadyTaken),
}
_KINDS: dict[str, type[Refused]] = {"Host": HostRefused, "Slot": SlotRefused, "Bus": BusRefused}
_BY_NAME = {(group, kind.__name__): kind for group, kinds in _GROUPS.items() for kind in kinds}
_BY_NAME |= {("Bus", "UnknownNode"): BusUnknownNode, ("Bus", "Memory"): BusMemory}


def refusal(reply: str, line: str) -> Refused:
    """Returns the exception of the reply `refused ..` to the line.

    For a name that this package doesn't know, of a later version of the program, it is `HostRefused`, `SlotRefused`,
    `BusRefused` or `Refused`.
    """
    names = tuple(reply.split(" ")[1:])
    group = names[0] if names[0] in _KINDS and len(names) > 1 else ""
    name = names[1] if group else names[0]
    return _BY_NAME.get((group, name), _KINDS.get(group, Refused))(names, line)
