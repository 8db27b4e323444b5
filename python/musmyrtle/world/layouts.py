"""The layouts of the frames of a world, by the cluster file as it was when the world was opened."""
import os
from typing import TYPE_CHECKING

from musmyrtle.signals.refusals import Given, UnknownSignal

if TYPE_CHECKING:
    from musmyrtle.cluster import Cluster
    from musmyrtle.selections import Directory
    from musmyrtle.signals.frames import Frames
    from musmyrtle.signals.layout import Layout
    from musmyrtle.texts import Text


class Layouts:
    """The layouts of a cluster file, which are read at their first use.

    Each use raises `BadSignals` for faults in the frames of the file, and `UnknownSignal` where it is no regular file.
    """

    def __init__(self, file: str, data: bytes | None) -> None:
        """Keeps the name and the bytes of a cluster file, or None for a file that can't be read twice."""
        # The file that the key `signals` names is beside it, wherever the program is by then.
        self._file, self._data = os.path.abspath(file), data
        self._frames: Frames | None = None
        self._received: dict[tuple[int, str | None, int], Layout] = {}
        self._senders: dict[tuple[int, str, int], int | None] = {}
        self._text: Text | None = None
        self._cluster: Cluster | None = None
        self._names: Directory | None = None

    def __reduce__(self) -> tuple[type["Layouts"], tuple[str, bytes | None]]:
        """Has a copy in another process read the layouts again."""
        return Layouts, (self._file, self._data)

    def frames(self) -> "Frames":
        """Returns the frames of the cluster."""
        if self._frames is None:
            # Most host programs have no signals, and each one would wait for the import.
            from musmyrtle.signals.frames import frames_of
            if self._data is None:
                raise UnknownSignal("no signals are known: the cluster file is no regular file")
            self._frames = frames_of(self._file, self._data)
        return self._frames

    def text(self) -> "Text":
        """Returns the text of the cluster file. Raises `UnknownSignal` where it is no regular file."""
        if self._text is None:
            from musmyrtle.texts import read_text
            if self._data is None:
                raise UnknownSignal("no receivers are known: the cluster file is no regular file")
            self._text = read_text(self._file, self._data)
        return self._text

    def cluster(self) -> "Cluster":
        """Returns the cluster, also of a file whose frames have faults."""
        if self._cluster is None:
            from musmyrtle.cluster import Reading
            self._cluster = Reading(self.text().document).cluster
        if self._cluster is None:
            raise UnknownSignal("no receivers are known: the cluster file can't be read")
        return self._cluster

    def names(self) -> "Directory":
        """Returns the names of nodes and buffers, or None for those without one."""
        if self._names is None:
            from musmyrtle.selections import Directory
            self._names = Directory.of(self.text().document)
        return self._names

    def sender(self, slot: int, channel: str, count: int) -> int | None:
        """Returns the node that is to send in a slot: its owner, or the one with a transmit buffer for it."""
        place = slot, channel, count
        if place not in self._senders:
            nodes = self.cluster().nodes
            self._senders[place] = next((it.number for it in nodes if it.owns(slot, channel, count) or any(
                buffer.transmits and buffer.slot == slot and channel in buffer.channels and buffer.cycles.admit(count)
                for buffer in it.buffers)), None)
        return self._senders[place]

    def received(self, slot: int, channel: str | None, cycle: int) -> "Layout":
        """Returns the layout of a received frame. Raises `UnknownSignal` if its sender has none."""
        place = slot, channel, cycle
        if place not in self._received:
            self._received[place] = self.frames().received(slot, channel, cycle)
        return self._received[place]

    def sent_by(self, node: int, buffer: int) -> "Layout":
        """Returns the layout of the frames of a transmit buffer. Raises `UnknownSignal` if it has none."""
        return self.frames().sent_by(node, buffer)

    def encoded(self, node: int, buffer: int, given: Given, before: bytes | None) -> bytes:
        """Returns the next payload of a transmit buffer. Raises `UnknownSignal` and `BadValue`."""
        frames = self.frames()
        layout = frames.sent_by(node, buffer)
        return layout.encoded(given, before, 2 * frames.cluster.nodes[node].buffers[buffer].words)
