"""The nodes of a world and their message buffers, as host programs and controllers call them."""
from collections.abc import Mapping
from typing import TYPE_CHECKING

from musmyrtle.signals.refusals import Given, SignalValue
from musmyrtle.world.bounds import buffer_number, channel_name, node_number, payload_hex, task_number
from musmyrtle.world.refusals import UnknownNode, refusal
from musmyrtle.world.replies import (
    Channel, Counters, Frame, ReceiveBuffer, Received, Report, Window, frame_of, number_or_none, origin_channel,
    received_of, report_of, window_of,
)

if TYPE_CHECKING:
    from musmyrtle.world.world import World


class Node:
    """A node of a world, as one of its tasks calls it: task 0 unless another one is chosen.

    Each call is one request. It raises `ValueError` for a number that is out of range, with nothing sent, `UnknownNode`
    where the cluster doesn't have the node, other refusals by name, and `SessionOver`.
    """

    def __init__(self, world: "World", number: int, task: int = 0) -> None:
        """Names a node, 0 to 15, and a task, 0 to 7. Raises `ValueError` for others."""
        self.world, self.number, self._task = world, node_number(number), task_number(task)

    def task(self, number: int) -> "Node":
        """Returns the same node, called by this task, 0 to 7. Raises `ValueError` for others."""
        return Node(self.world, self.number, number)

    def __getitem__(self, name: str) -> "Buffer":
        """Returns the buffer of this name in the cluster file.

        Raises `UnknownName` for a name that no buffer of the node has, or more than one, and `UnknownNode`.
        """
        names = self.world.names
        if self.number >= len(names.buffers):
            raise UnknownNode(("UnknownNode",), f"a buffer of node {self.number}")
        return Buffer(self, names.buffer(self.number, name))

    def commit(self, buffer: int, payload: bytes | Given | None = None, **signals: SignalValue) -> int:
        """Gives a transmit buffer, 0 to 63, its next payload and returns the number of its entry in the journal.

        The payload is bytes, or values of signals: as a mapping by names, as `speed=87.5`, or both. All other signals
        are as the last commit of the buffer had them, or initial before the first one. Update bits are 1 for the given
        signals, and otherwise 0. Raises `ValueError` for a payload that isn't 0 to 127 two-byte words, `WrongLength`
        for one that isn't as long as the buffer's, `UnknownTask`, `UnknownBuffer`, `NotTransmit` and `HostFull`. Of
        signals it raises `UnknownSignal`, `BadValue` and `BadSignals`, which are `KeyError` and `ValueError`, and
        `TypeError` for bytes beside signals, and for neither of them.
        """
        number = buffer_number(buffer)
        if payload is None or isinstance(payload, Mapping):
            if payload is None and not signals:
                raise TypeError("a commit needs a payload, or values of signals")
            return self.world.commit_signals(self.number, self._task, number, {**(payload or {}), **signals})
        if signals:
            raise TypeError(f"a commit has a payload or values of signals, and not both: {', '.join(signals)}")
        payload_word = payload_hex(payload, lambda: self.world.payload_length(self.number, number))
        return int(self._ask(f"commit {self.number} {self._task} {number} {payload_word}"))

    def withdraw(self, buffer: int) -> int | None:
        """Takes the last commit of a transmit buffer, 0 to 63, back and returns its entry, or None if none is pending.

        Raises `UnknownTask`, `UnknownBuffer`, `NotTransmit` and `HostFull`.
        """
        return number_or_none(self._ask(f"withdraw {self.number} {self._task} {buffer_number(buffer)}"))

    def read(self, buffer: int) -> Frame | None:
        """Returns the frame that a receive buffer, 0 to 63, holds, or None.

        Raises `UnknownTask`, `UnknownBuffer`, `NotReceive` and `HostFull`; without history also `Memory`, after which
        the read is done.
        """
        line = f"read {self.number} {self._task} {buffer_number(buffer)}"
        if not self.world.has_history:
            # The report has the channel of the frame that a receive buffer holds.
            reply, report = self._answers([line, f"report {self.number}"])
            held = report_of(report.partition("\n")[2]).buffers[buffer]
            return frame_of(reply.split(" ")[1:], held.channel if isinstance(held, ReceiveBuffer) else None,
                            self.world.layouts)
        return self._frame(line)

    def pop(self) -> Frame | None:
        """Takes the oldest frame out of the receive FIFO and returns it, or None where the FIFO is empty.

        Raises `UnknownTask`, `NoQueue` and `HostFull`.
        """
        line = f"pop {self.number} {self._task}"
        if self.world.has_history:
            return self._frame(line)
        return frame_of(self.world.ask(line).split(" ")[1:], None, self.world.layouts)

    def receive(self, buffer: int) -> Received | None:
        """Returns the frame that a receive buffer, 0 to 63, holds, with its channel, cycle and age, or None.

        It is a read of the buffer. Raises `UnknownTask`, `UnknownBuffer`, `NotReceive` and `HostFull`.
        """
        line = f"receive {self.number} {self._task} {buffer_number(buffer)}"
        return received_of(self._ask(line).split(" "), self.world.layouts)

    def next(self) -> Received | None:
        """Takes the oldest frame out of the receive FIFO and returns it with its channel and cycle, or None.

        It is a pop. Raises `UnknownTask`, `NoQueue` and `HostFull`.
        """
        return received_of(self._ask(f"next {self.number} {self._task}").split(" "), self.world.layouts)

    def look(self) -> Window:
        """Has the controller ask the bus for the open window, and returns that. Raises `WrongTurn` and `BusRefused`."""
        return window_of(self._ask(f"look {self.number}").split(" "))

    def fetch(self) -> None:
        """Has the controller fetch what its interface offers in the window. Raises `WrongTurn` and `SlotRefused`."""
        self.world.ask(f"fetch {self.number}")

    def put(self) -> None:
        """Has the controller put what it fetched on the bus. Raises `WrongTurn` and `BusRefused`."""
        self.world.ask(f"put {self.number}")

    def take(self) -> None:
        """Has the controller take its observation in the sealed window. Raises `WrongTurn` and `BusRefused`."""
        self.world.ask(f"take {self.number}")

    def observe(self) -> None:
        """Has the controller give its observation to its interface. Raises `WrongTurn` and `SlotRefused`."""
        self.world.ask(f"observe {self.number}")

    def report(self) -> Report:
        """Returns the node's report. It makes no entry in the journal. Raises `Memory`."""
        return report_of("".join(f"{line}\n" for line in self.world.block(f"report {self.number}")))

    def status(self, channel: Channel) -> Counters:
        """Returns the node's status counters on a channel, `A` or `B`, which the report has too."""
        words = self._ask(f"status {self.number} {channel_name(channel)}").split(" ")
        return Counters(*map(int, words[1:]))

    def trace(self) -> str:
        """Returns the node's trace, which `fr_bench audit` reads. Raises `Memory`, and `NoHistory` without history."""
        return "".join(f"{line}\n" for line in self.world.block(f"trace {self.number}"))

    def _frame(self, line: str) -> Frame | None:
        """Returns the frame of a read or a pop. Its origin is requested with it."""
        reply, origin = self._answers([line, f"origin {self.number}"])
        return frame_of(reply.split(" ")[1:], origin_channel(origin), self.world.layouts)

    def _answers(self, asked: list[str]) -> list[str]:
        """Returns the replies to requests between which no other comes. Raises the first refusal."""
        replies = self.world.send(asked)
        for request, answer in zip(asked, replies):
            if answer.startswith("refused "):
                raise refusal(answer, request)
        return replies

    def _ask(self, line: str) -> str:
        return self.world.ask(line).split(" ", 1)[1]


class Buffer:
    """A message buffer of a node. Its calls raise what those of the node raise."""

    def __init__(self, node: Node, number: int) -> None:
        """Names a buffer of the node, 0 to 63. Raises `ValueError` for others."""
        self.node, self.number = node, buffer_number(number)

    def commit(self, payload: bytes | Given | None = None, **signals: SignalValue) -> int:
        """Gives the transmit buffer its next payload, bytes or values of signals, and returns its journal entry."""
        return self.node.commit(self.number, payload, **signals)

    def withdraw(self) -> int | None:
        """Takes the last commit back and returns its entry, or None if none is pending."""
        return self.node.withdraw(self.number)

    def read(self) -> Frame | None:
        """Returns the frame that the receive buffer holds, or None."""
        return self.node.read(self.number)

    def receive(self) -> Received | None:
        """Returns the frame that the receive buffer holds, with its channel, cycle and age, or None."""
        return self.node.receive(self.number)
