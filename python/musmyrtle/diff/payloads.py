"""The signals in which two payloads differ."""
from collections.abc import Iterator

from musmyrtle.cluster import Cluster
from musmyrtle.findings import counted
from musmyrtle.lint.lint import read_bytes
from musmyrtle.output import pass_on
from musmyrtle.show.engines import COMMAND, Inputs
from musmyrtle.show.tables import Exact, Value
from musmyrtle.signals.frames import Definitions, Frames
from musmyrtle.signals.layout import Layout, Read
from musmyrtle.signals.refusals import UnknownSignal
from musmyrtle.signals.texts import bytes_of, hex_of
from musmyrtle.texts import read_text

SignalDifference = tuple[str, str | None, Value, Value]
"""A signal, its unit, and its values in both payloads, or None where a payload hasn't it or it is invalid."""


class Payloads:
    """The layouts of a cluster, by which payloads are compared. A file with faults in its frames has none."""

    def __init__(self, inputs: Inputs, cluster: Cluster) -> None:
        text = read_text(inputs.task.cluster, read_bytes(inputs.task.file(inputs.task.cluster)) or b"")
        self.frames = Frames(cluster, Definitions.of(text))
        self.is_known = not self.frames.faults
        if not self.is_known:
            pass_on(f"{COMMAND}: signals aren't compared, since the frames of {inputs.task.cluster} have "
                    f"{counted(len(self.frames.faults), 'fault')}: musmyrtle lint {inputs.task.cluster}")

    def of_buffer(self, node: int, buffer: int, old: str, new: str) -> Iterator[SignalDifference]:
        """Yields the signals in which two payloads of a buffer differ."""
        try:
            layout = self.frames.layout_of(self.frames.cluster.nodes[node].buffers[buffer]) if self.is_known else None
        except UnknownSignal:
            return
        yield from differing(layout, old, new)

    def of_frame(self, slot: int, channel: str, cycle: int, old: str, new: str) -> Iterator[SignalDifference]:
        """Yields the signals in which two payloads of a slot differ. CYCLE is a cycle count, or a cycle of the run."""
        try:
            layout = self.frames.received(slot, channel, cycle) if self.is_known else None
        except UnknownSignal:
            return
        yield from differing(layout, old, new)


def differing(layout: Layout | None, old: str, new: str) -> Iterator[SignalDifference]:
    """Yields the signals in which two payloads, spelled `x0a0b`, differ."""
    if layout is None:
        return
    one, other = ({it.signal.name: it for it in layout.reads(bytes_of(word) or b"")} for word in (old, new))
    for name, signal in layout.signals.items():
        reads = one.get(name), other.get(name)
        if (reads[0] and reads[0].raw) != (reads[1] and reads[1].raw):
            yield name, signal.unit or None, value_of(reads[0]), value_of(reads[1])


def value_of(read: Read | None) -> Value:
    """Returns the value of a signal for a table: its name or its physical value, or None if there is none."""
    value = None if read is None else read.value
    return hex_of(value) if isinstance(value, bytes) else Exact(value) if isinstance(value, int | float) else value
