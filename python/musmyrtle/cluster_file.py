"""The parts of a cluster file that host programs and scenarios need. The program has read the file before."""
from dataclasses import dataclass

from musmyrtle.texts import NoText, read_text
from musmyrtle.toml_tables import Table


def document_of(data: bytes) -> Table:
    """Returns the tables of a cluster file. Raises `ValueError`, with line and column, where it is no TOML."""
    try:
        return read_text("", data).document
    except NoText as error:
        place = error.why.place
        where = "" if place is None else f"line {place.line}, column {place.column}: "
        raise ValueError(f"{where}{error.why.headline}") from None


@dataclass(frozen=True)
class Clock:
    """The macroticks of a cycle, and the microseconds of a macrotick, of a cluster file."""

    cycle: int
    macrotick: float

    def seconds(self, cycle: int, macrotick: int) -> float:
        """Returns the seconds from the start of cycle 0 of the run to a macrotick of a cycle of the run."""
        return (cycle * self.cycle + macrotick) * self.macrotick / 1_000_000


def clock_of(data: bytes) -> Clock:
    """Returns the clock of a cluster file. Raises `ValueError` for one without a number `macrotick_us`."""
    # Only times in seconds need this import, as above.
    from musmyrtle.cluster import Reading
    from musmyrtle.lint.physical import bit_and_macrotick
    text = read_text("", data)
    cluster, macrotick = Reading(text.document).cluster, bit_and_macrotick(text)[1]
    if cluster is None or macrotick is None:
        raise ValueError("the cluster file has no `macrotick_us` in `[physical]`, the microseconds of a macrotick")
    return Clock(cluster.parameters.cycle_mt, macrotick)


def payload_length(data: bytes, node: int, buffer: int) -> int | None:
    """Returns the bytes of a transmit buffer's payload.

    Returns None if the file has no such buffer or is refused.
    """
    # Only a wrong length needs this import, and each program that opens a world would wait for it.
    from musmyrtle.cluster import Reading
    try:
        cluster = Reading(document_of(data)).cluster
    except ValueError:
        return None
    buffers = cluster.nodes[node].buffers if cluster and node < len(cluster.nodes) else []
    return 2 * buffers[buffer].words if buffer < len(buffers) and buffers[buffer].transmits else None
