"""The frames of a cluster: which layout each transmit buffer sends, and which one a received frame has.

The sender's layout counts: a receive buffer or a receive FIFO may store frames of several senders.
"""
import os
from collections.abc import Iterable
from dataclasses import dataclass, field

from musmyrtle.cluster import Buffer, Cluster, Fault, Reading
from musmyrtle.findings import Finding, Note, joined, nearest, shown
from musmyrtle.names import tables_of
from musmyrtle.places import Place
from musmyrtle.signals.layout import Layout
from musmyrtle.signals.reading import FrameReading
from musmyrtle.signals.refusals import BadSignals, UnknownSignal
from musmyrtle.texts import FILE_LIMIT, NoText, Text, read_text
from musmyrtle.visible import cut

FILE, BUFFER_FRAME = "signals", "frame"
"""The key at the top for a second file, and that of a buffer for its frame."""


@dataclass
class Definitions:
    """The layouts of a cluster file and of its second file by name, their faults, and the texts of both."""

    texts: list[Text]
    layouts: dict[str, Layout] = field(default_factory=dict)
    faults: list[Finding] = field(default_factory=list)
    places: dict[str, Place | None] = field(default_factory=dict)
    """The place of the name of each layout."""
    names: set[str] = field(default_factory=set)
    """The names of all frames, also of those with faults."""

    @classmethod
    def of(cls, text: Text) -> "Definitions":
        """Reads the frames of a cluster file and of the file that its key `signals` names."""
        found = cls([text])
        second = found.second_text(text) if FILE in text.document else None
        if second:
            found.texts.append(second)
        for it in found.texts:
            found.add(it)
        return found

    def second_text(self, text: Text) -> Text | None:
        """Returns the text of the second file, or None after a fault."""
        name = text.document[FILE]
        if not isinstance(name, str) or not name or "\0" in name:
            self.fault(text, f"`{FILE}` at the top of the file is {shown(name)}",
                       "Expected the name of a file with `[[frame]]` tables, in quotes.")
            return None
        file = os.path.join(os.path.dirname(text.file), name)
        try:
            if not os.path.isfile(file):
                found = "is no file" if os.path.exists(file) else "isn't there"
                self.fault(text, f"the file {cut(name)} of `{FILE}` {found}",
                           "Expected the name of a file, from the folder of the cluster file on.")
                return None
            with open(file, "rb") as source:
                second = read_text(file, source.read(FILE_LIMIT + 1))
        except OSError as error:
            self.fault(text, f"the file {cut(name)} of `{FILE}` can't be read: {error.strerror}",
                       "Expected a file that can be read.")
            return None
        except NoText as error:
            self.faults.append(error.why)
            return None
        if FILE in second.document or "frame" not in second.document:
            self.faults.append(second.finding("the file has no `[[frame]]`" if "frame" not in second.document else
                                              f"the file has a key `{FILE}` too", "Expected `[[frame]]` tables alone.",
                                              (FILE,) if FILE in second.document else ()))
        return second

    def fault(self, text: Text, headline: str, reason: str) -> None:
        """Notes a fault of the key `signals`."""
        self.faults.append(text.finding(headline, reason, (FILE,)))

    def add(self, text: Text) -> None:
        """Adds the frames of a text, whose names must be new."""
        reading = FrameReading(text.document)
        self.faults += [finding_of(text, it) for it in reading.faults]
        self.names |= reading.names
        for layout, path in reading.layouts:
            here = text.place_of((*path, "name"))
            if layout.name in self.layouts:
                first = Note("the first one", self.places[layout.name])
                self.faults.append(Finding(f"two frames have the name {layout.name}", "Expected each name once.", here,
                                           (first,)))
                continue
            self.layouts[layout.name], self.places[layout.name] = layout, here


def finding_of(text: Text, fault: Fault) -> Finding:
    """Returns the finding of a fault."""
    return text.finding(fault.headline, fault.reason, fault.path, fault.notes)


class Frames:
    """The layouts of the frames that each transmit buffer of a cluster sends."""

    def __init__(self, cluster: Cluster, definitions: Definitions) -> None:
        self.cluster, self.definitions = cluster, definitions
        text = definitions.texts[0]
        self.claims: dict[tuple[int, int], Layout] = {}
        """The layouts that buffers name, receive buffers too."""
        self.unknown: list[Finding] = []
        """The faults of keys `frame` that name no layout."""
        self.long: list[Finding] = []
        self.senders: dict[int, list[Buffer]] = {}
        for node, table in zip(cluster.nodes, tables_of(text.document.get("node"))):
            for buffer, its in zip(node.buffers, tables_of(table.get("buffer"))):
                if BUFFER_FRAME in its:
                    self.add_claim(text, buffer, its[BUFFER_FRAME])
                if buffer.transmits:
                    self.senders.setdefault(buffer.slot, []).append(buffer)

    def add_claim(self, text: Text, buffer: Buffer, name: object) -> None:
        """Keeps the layout that a buffer names, or notes why it can't."""
        layouts = self.definitions.layouts
        layout = layouts.get(name) if isinstance(name, str) else None
        path = (*buffer.path, BUFFER_FRAME)
        if layout is None and isinstance(name, str) and name in self.definitions.names:
            # Its own fault is enough.
            return
        if layout is None:
            headline = f"`{BUFFER_FRAME}` of {buffer} is {shown(name)}"
            meant = nearest(name, list(layouts)) if isinstance(name, str) else None
            hint = f" Is {meant} meant?" if meant else ""
            self.unknown.append(text.finding(headline, f"Expected the name of a table `[[frame]]`.{hint}", path))
            return
        self.claims[buffer.node, buffer.number] = layout
        if buffer.transmits and layout.length > 2 * buffer.words:
            headline = f"frame {layout.name} has {layout.length} bytes, and {buffer} sends {2 * buffer.words}"
            key = "static_words" if self.cluster.is_static(buffer.slot) else "words"
            note = Note(f"frame {layout.name}", self.definitions.places[layout.name])
            self.long.append(Finding(headline, f"Expected a frame that isn't longer, or more `{key}`.",
                                     text.place_of(path), (note,)))

    @property
    def faults(self) -> list[Finding]:
        """Returns all faults, for which commands and host programs refuse the signals."""
        return [*self.definitions.faults, *self.unknown, *self.long]

    def sent_by(self, node: int, buffer: int) -> Layout:
        """Returns the layout of the frames of a transmit buffer. Raises `UnknownSignal` if it has none."""
        nodes = self.cluster.nodes
        buffers = nodes[node].buffers if node < len(nodes) else []
        if buffer >= len(buffers):
            raise UnknownSignal(f"the cluster has no buffer {buffer} of node {node}")
        it = buffers[buffer]
        if not it.transmits:
            raise UnknownSignal(f"{it} is a receive buffer, and sends no signals")
        if (node, buffer) not in self.claims:
            raise UnknownSignal(f'{it} has no signals: expected `{BUFFER_FRAME} = "NAME"` in the cluster file, the '
                                "name of a table `[[frame]]`")
        return self.claims[node, buffer]

    def received(self, slot: int, channel: str | None, cycle: int) -> Layout:
        """Returns the layout of a frame by its slot, its channel if that is known, and its cycle counter.

        Raises `UnknownSignal` if its sender has no layout, or if it isn't known which sender of several it was.
        """
        found = [it for it in self.senders.get(slot, ()) if it.cycles.admit(cycle)
                 and (channel is None or channel in it.channels)]
        return self.only_layout(found, f"the frame of slot {slot}")

    def coming(self, receiver: Buffer) -> list[Buffer]:
        """Returns the transmit buffers of other nodes whose frames a receive buffer may store."""
        return [it for it in self.senders.get(receiver.slot, ()) if it.node != receiver.node
                and set(it.channels) & set(receiver.channels) and it.cycles.meet(receiver.cycles)]

    def layout_of(self, buffer: Buffer) -> Layout:
        """Returns the layout of what a transmit buffer sends, or a receive buffer stores. Raises `UnknownSignal`."""
        if buffer.transmits:
            return self.sent_by(buffer.node, buffer.number)
        return self.only_layout(self.coming(buffer), f"the frame of {buffer}")

    def only_layout(self, senders: Iterable[Buffer], what: str) -> Layout:
        """Returns the layout that all of these senders have. Raises `UnknownSignal` for none and for several ones."""
        its = list(senders)
        found = {layout.name: layout for layout in (self.claims.get((it.node, it.number)) for it in its) if layout}
        without = [str(it) for it in its if (it.node, it.number) not in self.claims]
        if len(found) == 1 and not without:
            return next(iter(found.values()))
        if not its:
            raise UnknownSignal(f"{what} has no signals: no transmit buffer of the cluster sends it")
        if not found:
            raise UnknownSignal(f"{what} has no signals: {joined(without)} can send it, without `{BUFFER_FRAME}`")
        possible = [f"frame {it}" for it in found] + [f"one of {it} without signals" for it in without]
        raise UnknownSignal(f"{what} may be {joined(possible, 'or')}")


def frames_of(file: str, data: bytes) -> Frames:
    """Returns the frames of a cluster file, which a program has accepted.

    Raises `BadSignals` for faults in its frames, and `ValueError` for a file that can't be read.
    """
    try:
        text = read_text(file, data)
    except NoText as error:
        raise BadSignals([error.why]) from None
    cluster = Reading(text.document).cluster
    if cluster is None:
        raise ValueError(f"{file} is no cluster file that is accepted")
    found = Frames(cluster, Definitions.of(text))
    if found.faults:
        raise BadSignals(found.faults)
    return found
