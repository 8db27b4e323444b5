"""The trace of a node, read for the windows that its controller fetched (docs/formats/trace.md)."""
from collections.abc import Iterable, Iterator
from dataclasses import dataclass


@dataclass(frozen=True, slots=True)
class Fetched:
    """A window as the controller of a node fetched it.

    It has the cycle of the run, which isn't wrapped at 64, and the minislot, which is 0 in a static slot. For each
    channel it has the open slot and the node's offer, or `-`.
    """

    cycle: int
    minislot: int
    slots: dict[str, str]
    offers: dict[str, str]


def fetched(trace: Iterable[str]) -> Iterator[Fetched]:
    """Yields the dynamic windows of a trace that begins with its run, in order."""
    cycle = -1
    for line in trace:
        if not line.startswith("fetch "):
            continue
        _, _, _, minislot, slot_a, slot_b, offer_a, offer_b = line.split(" ")
        if minislot != "0":
            yield Fetched(cycle, int(minislot), {"A": slot_a, "B": slot_b}, {"A": offer_a, "B": offer_b})
        elif slot_a == "1":
            cycle += 1
