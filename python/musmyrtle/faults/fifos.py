"""The frames of a receive FIFO and their fates, as `fr_view fifo` prints them from the trace of its node.

A trace costs no host entry, so this also works where no task can pop the FIFO.
"""
from collections.abc import Iterable
from dataclasses import dataclass, field

from musmyrtle.cluster import CYCLES
from musmyrtle.faults.children import Children
from musmyrtle.findings import counted
from musmyrtle.links import Link, links_in
from musmyrtle.visible import visible

STORED = "stored"
"""The first word of the line of a frame that the FIFO stores. The first words of other lines are fates."""


class Unread(Exception):
    """The content of a FIFO can't be read. The message has the reason."""


@dataclass(frozen=True, slots=True)
class StoredFrame:
    """A frame that a FIFO stored: its cycle of the run, slot, flags as in a table, payload and channel."""

    cycle: int
    slot: int
    flags: str
    payload: str
    channel: str


Frame = tuple[int, int, str, str, frozenset[tuple[int, int]]]
"""A frame on one channel or both: cycle, slot, flags, payload, and the nodes and buffers that may have sent it."""


@dataclass
class Fifo:
    """The frames that a FIFO stored in a run, by their fates, each list in the order of the frames."""

    popped: list[StoredFrame] = field(default_factory=list)
    """The frames that tasks popped."""
    waiting: list[StoredFrame] = field(default_factory=list)
    """The frames that are still in the FIFO at the end."""
    overwritten: list[StoredFrame] = field(default_factory=list)
    """The frames that made room for later ones."""

    senders: dict[tuple[int, int, str], frozenset[tuple[int, int]]] = field(default_factory=dict)
    """The nodes and buffers that may send, by cycle of the run, slot and channel."""

    def frame(self, it: StoredFrame) -> Frame:
        """Returns a frame without its channel. Two copies with the same value are one frame on both channels."""
        return it.cycle, it.slot, it.flags, it.payload, self.senders.get((it.cycle, it.slot, it.channel), frozenset())

    @property
    def kept(self) -> list[StoredFrame]:
        """Returns the frames that the host got or can still get."""
        return self.popped + self.waiting

    @property
    def stored(self) -> list[StoredFrame]:
        """Returns all frames that the FIFO stored: first those that the host got or can get, then the others."""
        return self.kept + self.overwritten


def read_fifo(lines: Iterable[str]) -> Fifo:
    """Returns the frames of the lines of `fr_view fifo`, by their fates. Raises `Unread` for other lines."""
    fifo, frames = Fifo(), dict[str, StoredFrame]()
    fates = {"popped": (fifo.popped, 2), "waiting": (fifo.waiting, 0), "overwritten": (fifo.overwritten, 1)}
    stored = 0
    for line in lines:
        try:
            word, number, *words = line.split(" ")
            if word == STORED:
                cycle, slot, channel, flags, payload = words
                if number != str(stored):
                    raise ValueError
                frames[number] = StoredFrame(int(cycle), int(slot), flags, payload, channel)
                stored += 1
            else:
                its, more = fates[word]
                if len(words) != more:
                    raise ValueError
                # Each frame has one fate.
                its.append(frames.pop(number))
        except (KeyError, ValueError):
            raise Unread(f"`{visible(line[:60])}` is no line of fr_view fifo") from None
    if frames:
        raise Unread(f"fr_view fifo doesn't say what became of {counted(len(frames), 'frame')}")
    return fifo


class Senders:
    """The transmit buffers that may send in the slots of a cluster, by its links."""

    def __init__(self, links: Iterable[Link]) -> None:
        self.links: dict[tuple[int, str], list[Link]] = {}
        for it in links:
            self.links.setdefault((it.slot, it.channel), []).append(it)

    def of(self, it: StoredFrame) -> frozenset[tuple[int, int]]:
        """Returns the nodes and buffers of the links that have the slot, the channel and the cycle of a frame."""
        its = self.links.get((it.slot, it.channel), [])
        return frozenset((link.node, link.buffer) for link in its
                         if link.buffer is not None and link.cycles.admit(it.cycle % len(CYCLES)))


def senders_of(program: str, cluster: str, children: Children) -> Senders:
    """Returns who may send in a cluster. PROGRAM is `fr_view`. Raises `Unread` where it prints no links."""
    lines = printed(program, ["links", "--", cluster], children)
    try:
        return Senders(links_in(lines))
    except ValueError:
        raise Unread(f"{visible(program)} prints no links of the cluster") from None


def fifo_of(program: str, trace: Iterable[str], children: Children, senders: Senders) -> Fifo:
    """Returns the frames of the FIFO of a trace, and the buffers that may have sent them.

    PROGRAM is `fr_view`. Raises `Unread` where it prints no lines.
    """
    fifo = read_fifo(printed(program, ["fifo"], children, "".join(f"{line}\n" for line in trace).encode()))
    for it in fifo.stored:
        fifo.senders[it.cycle, it.slot, it.channel] = senders.of(it)
    return fifo


def printed(program: str, words: list[str], children: Children, data: bytes = b"") -> list[str]:
    """Returns the lines that `fr_view` prints. Raises `Unread` where it fails."""
    try:
        status, output, told = children.ran([program, *words], data)
    except OSError as error:
        raise Unread(f"{visible(program)} can't be run: {error.strerror}") from None
    if status:
        why = told.decode(errors="replace").strip().split("\n")[-1] or f"status {status}"
        raise Unread(f"{visible(program)} {words[0]} fails: {visible(why)}")
    return output.decode(errors="replace").splitlines()
