"""The output of a run, read strictly: exactly the lines that the cluster's nodes have, and no other spelling."""
import re
from dataclasses import dataclass

from musmyrtle.cluster import Buffer, Cluster, Node
from musmyrtle.world.replies import Counters, Queue, ReceiveBuffer, TransmitBuffer

NUMBER = r"(0|[1-9][0-9]*)"
HELD = re.compile(rf"(?:- -|{NUMBER}:([AB]) x((?:[0-9a-f]{{4}})*))")


class BadOutcome(ValueError):
    """The text isn't the outcome of a run of this cluster. The message names the line."""


@dataclass(frozen=True)
class NodeOutcome:
    """The final state of one node: buffers by number, the receive FIFO if there is one, and counters by channel."""

    buffers: tuple[TransmitBuffer | ReceiveBuffer, ...]
    queue: Queue | None
    counters: dict[str, Counters]


@dataclass(frozen=True)
class Outcome:
    """The final state of all nodes, and the number of windows of the run."""

    nodes: tuple[NodeOutcome, ...]
    windows: int


class Lines:
    """The lines of a text, taken one by one."""

    def __init__(self, text: str):
        if not text.endswith("\n"):
            raise BadOutcome("the last line has no line feed")
        self.lines, self.at = text[:-1].split("\n"), 0

    def take(self, front: str, form: str | re.Pattern[str]) -> re.Match[str]:
        """Returns the next line, which must begin with the word and match the form."""
        line = self.lines[self.at] if self.at < len(self.lines) else None
        found = re.fullmatch(form, line[len(front):]) if line is not None and line.startswith(front) else None
        if found is None:
            what = "nothing" if line is None else f"`{line[:60]}`"
            raise BadOutcome(f"line {self.at + 1} is {what}, and `{front}..` was due")
        self.at += 1
        return found

    def numbers(self, front: str, count: int) -> list[int]:
        return [int(it) for it in self.take(front, " ".join([NUMBER] * count)).groups()]

    def end(self) -> None:
        if self.at < len(self.lines):
            raise BadOutcome(f"after `settled`, line {self.at + 1} goes on")


Known = dict[tuple[int, str], NodeOutcome]
"""The final state of nodes, by their numbers and their lines."""


def read_outcome(text: str, cluster: Cluster, known: Known | None = None) -> Outcome:
    """Returns the outcome of a run of this cluster. Raises `BadOutcome` for a text that is none.

    In many outcomes most lines are the same. So lines of a node that are KNOWN aren't read again, and others are known
    from then on.
    """
    lines = Lines(text)
    nodes = tuple(known_node(lines, node, known) if known is not None else read_node(lines, node)
                  for node in cluster.nodes)
    windows = lines.numbers("windows ", 1)[0]
    lines.take("settled", "")
    lines.end()
    return Outcome(nodes, windows)


def known_node(lines: Lines, node: Node, known: Known) -> NodeOutcome:
    begun, count = lines.at, 3 + len(node.buffers) + bool(node.queue)
    key = node.number, "\n".join(lines.lines[begun:begun + count])
    if key not in known:
        known[key] = read_node(lines, node)
    lines.at = begun + count
    return known[key]


def read_node(lines: Lines, node: Node) -> NodeOutcome:
    lines.take(f"node {node.number}", "")
    buffers = tuple(read_buffer(lines, it) for it in node.buffers)
    queue = None
    if node.queue:
        queue = Queue(*lines.numbers("queue ", 2))
        if queue.waiting > node.queue.capacity:
            raise BadOutcome(f"line {lines.at} has more frames than the receive FIFO holds")
    return NodeOutcome(buffers, queue, {channel: Counters(*lines.numbers(f"{channel} ", 5)) for channel in "AB"})


def read_buffer(lines: Lines, buffer: Buffer) -> TransmitBuffer | ReceiveBuffer:
    return read_sent(lines, buffer.number) if buffer.transmits else read_held(lines, buffer.number)


def read_sent(lines: Lines, number: int) -> TransmitBuffer:
    found = TransmitBuffer(*lines.numbers(f"tx {number} ", 5))
    if found.committed != found.sent + found.overwritten + found.pending + found.withdrawn:
        raise BadOutcome(f"line {lines.at} doesn't account for each commit")
    return found


def read_held(lines: Lines, number: int) -> ReceiveBuffer:
    entry, channel, data = lines.take(f"rx {number} ", HELD).groups()
    if entry is None:
        return ReceiveBuffer(None, None, None)
    return ReceiveBuffer(int(entry), "A" if channel == "A" else "B", bytes.fromhex(data))
