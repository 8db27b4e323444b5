"""The costs of a fault to a receive FIFO: the frames of two runs, compared one by one."""
from collections.abc import Iterator

from musmyrtle.faults.fifos import Fifo, Frame, StoredFrame


def fifo_effects(before: Fifo, after: Fifo) -> Iterator[tuple[str, int]]:
    """Yields each effect with its number of frames, the costs first. BEFORE is the FIFO without the fault.

    The frames that the host got or can still get count, whichever channel they came by. Equal frames of other buffers
    are other frames. If the FIFO overwrites frames without any fault, the choice of the overwritten ones is random.
    Then a frame that no task popped is lost only if it never came with the fault, and a frame is another one only if it
    never came without it.
    """
    one, other = by_frame(before, before.kept), by_frame(after, after.kept)
    came = by_frame(before, before.stored if before.overwritten else before.kept)
    has_to_be_kept = by_frame(before, before.popped if before.overwritten else before.kept)
    came_then = by_frame(after, after.stored)
    lost = [it for it in one if it not in (other if it in has_to_be_kept else came_then)]
    others = [it for it in other if it not in came]
    if lost:
        yield "lost", len(lost)
    if others or (not lost and is_reordered([it for it in one if it in has_to_be_kept], list(other))):
        yield "changed", max(1, len(others))
    if lost or others:
        return
    by_another = sum(one[it] != other[it] for it in one if it in other)
    if by_another:
        yield "channel", by_another
    elif counts(before) != counts(after):
        yield "counted", sum(abs(a - b) for a, b in zip(counts(before), counts(after)))


def by_frame(fifo: Fifo, copies: list[StoredFrame]) -> dict[Frame, str]:
    """Returns the channels of each frame of some copies, the frames in the order in which they came first."""
    found: dict[Frame, str] = {}
    for it in copies:
        frame = fifo.frame(it)
        found[frame] = found.get(frame, "") + it.channel
    return found


def is_reordered(one: list[Frame], other: list[Frame]) -> bool:
    """Returns whether the common frames of both lists are in different orders."""
    common = set(one) & set(other)
    return [it for it in one if it in common] != [it for it in other if it in common]


def counts(fifo: Fifo) -> tuple[int, int]:
    return len(fifo.waiting), len(fifo.overwritten)
