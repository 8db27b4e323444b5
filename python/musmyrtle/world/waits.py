"""Waits of host programs in `World.play`."""
from dataclasses import dataclass

from musmyrtle.world.bounds import buffer_number, node_number, slot_number, waited_cycles


@dataclass(frozen=True, slots=True)
class Every:
    """The start of a cycle, so many cycles on."""

    cycles: int


@dataclass(frozen=True, slots=True)
class AtSlot:
    """The next window that opens a static slot."""

    slot: int


@dataclass(frozen=True, slots=True)
class OnFrame:
    """The window after a receive buffer of a node has stored a frame."""

    node: int
    buffer: int


Wait = Every | AtSlot | OnFrame
NEXT_CYCLE = Every(1)


def every(cycles: int) -> Every:
    """Waits for the start of a cycle, so many cycles on, 1 to 4000000. Raises `ValueError` for other numbers."""
    return Every(waited_cycles(cycles))


def at_slot(slot: int) -> AtSlot:
    """Waits until a static slot, 1 to 1023, opens. Raises `ValueError` for other numbers.

    A slot that is open already isn't waited for: the next window that opens it ends the wait. A number that is no
    static slot of the cluster is waited for in vain.
    """
    return AtSlot(slot_number(slot))


def on_frame(node: int, buffer: int) -> OnFrame:
    """Waits until the receive buffer of a node stores a frame, also one with the same payload.

    The buffer is examined at the end of each window. Raises `ValueError` for a node that isn't 0 to 15 and a buffer
    that isn't 0 to 63. When a host yields it, `World.play` raises `UnknownNode` for a node that the cluster doesn't
    have, and `NotReceive` for a buffer that isn't one of the node's receive buffers.
    """
    return OnFrame(node_number(node), buffer_number(buffer))
