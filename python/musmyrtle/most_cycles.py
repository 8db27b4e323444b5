"""The greatest number of cycles of a run without history: each node has room for so many static slots and minislots."""
from musmyrtle.cluster import Cluster
from musmyrtle.findings import Finding
from musmyrtle.world.bounds import MOST_ENDLESS

BAD_CYCLES = "BadCycles"
MOST_WINDOWS = 1_610_612_734
"""The static slots and minislots of all cycles."""


def windows_of(cluster: Cluster) -> int:
    """Returns the static slots and minislots of a cycle."""
    return cluster.parameters.static_slots + cluster.parameters.minislots


def most_cycles(cluster: Cluster) -> int:
    """Returns the greatest number of cycles that a run of a cluster without history can have."""
    return min(MOST_ENDLESS, MOST_WINDOWS // windows_of(cluster))


def too_many_cycles(cluster: Cluster, cycles: int | None = None) -> Finding:
    """Returns why a run without history has too many cycles, and how many it can have."""
    most = most_cycles(cluster)
    run = "the run has too many cycles" if cycles is None else f"the run has {cycles} cycles"
    return Finding(f"{run}, and one of this cluster without history has at most {most}",
                   f"A cycle has {windows_of(cluster)} static slots and minislots, and all cycles together have at "
                   f"most {MOST_WINDOWS:,}. Expected {most} cycles, or fewer.")
