"""Warnings of expectations of a scenario that no run of the cluster can meet, and of those that its run missed."""
from collections.abc import Iterable, Iterator

from musmyrtle.cluster import Buffer, Cluster
from musmyrtle.findings import Finding, Note, counted, joined
from musmyrtle.lint.receiving import Traffic
from musmyrtle.missed import NOTHING, Miss
from musmyrtle.named_windows import RunCycles
from musmyrtle.scenario import Scenario
from musmyrtle.scenario_lines import Line
from musmyrtle.texts import Text

AS_MISSED = "The run reports it as missed."


class Expected:
    """The contents that lines expect of one buffer. Cycles are bits of a number, since a line may name all of 1,024."""

    def __init__(self) -> None:
        self.lines: dict[RunCycles, Line] = {}
        """The first line for each choice of cycles, in the order of the file."""
        self.named = 0
        self.contents: dict[str, int] = {}
        """The cycles in which the first line that names them expects this content."""

    def unlike(self, line: Line, cycles: int) -> tuple[Line, int] | None:
        """Returns the first line that expects something else in the first possible cycle of the run, and that cycle.

        The line is kept.
        """
        bits, content = line.cycles.bits & (1 << cycles) - 1, content_of(line)
        known = self.contents.get(content, 0)
        unlike = bits & self.named & ~known
        self.contents[content] = known | bits & ~self.named
        self.named |= bits
        self.lines.setdefault(line.cycles, line)
        if not unlike:
            return None
        first = unlike & -unlike
        return next(it for its, it in self.lines.items() if its.bits & first), first.bit_length() - 1


class Expectations:
    """The expectations of a scenario, compared with the receive buffers of the cluster and what can come to them."""

    def __init__(self, cluster: Cluster, text: Text, scenario: Scenario) -> None:
        self.cluster, self.text, self.scenario = cluster, text, scenario
        self.traffic = Traffic(cluster)
        self.babbles = [it for it in scenario.faults if it.kind == "babble" and it.size]
        """The faults that may be frames which no transmit buffer has."""
        self.expected: dict[tuple[str, str], Expected] = {}
        """The contents that lines expect, by node and buffer."""

    def findings(self, cycles: int) -> Iterator[Finding]:
        """Yields at most one finding for each line, for a run of so many cycles."""
        for line in self.scenario.expectations:
            found = self.wrong_buffer(line) or self.unlike(line, cycles)
            if found:
                yield found

    def wrong_buffer(self, line: Line) -> Finding | None:
        nodes, number = self.cluster.nodes, line.value("BUFFER")
        if line.value("NODE") >= len(nodes):
            reason = f"The cluster has {counted(len(nodes), 'node')}, and the first is node 0. {AS_MISSED}"
            place = self.scenario.place_of(line, "NODE")
            return Finding(f"there is no node {line.word('NODE')}", reason, place)
        node, place = nodes[line.value("NODE")], self.scenario.place_of(line, "BUFFER")
        if number >= len(node.buffers):
            reason = f"It has {counted(len(node.buffers), 'buffer')}, and the first is buffer 0. {AS_MISSED}"
            note = Note(f"node {node.number}", self.text.place_of(node.path))
            return Finding(f"node {node.number} has no buffer {number}", reason, place, (note,))
        buffer = node.buffers[number]
        if buffer.transmits:
            headline = f"`{line.kind}` names {buffer}, which is of kind {buffer.kind}"
            reason = f"Expected a receive buffer, since it holds what comes. {AS_MISSED}"
            return Finding(headline, reason, place, (self.note(buffer),))
        return self.wrong_payload(line, buffer) if line.kind == "expect" else None

    def wrong_payload(self, line: Line, buffer: Buffer) -> Finding | None:
        """Returns why no frame of this payload comes to a receive buffer."""
        if not self.is_babbled(buffer) and not self.traffic.to(buffer):
            headline = f"nothing comes to {buffer}"
            reason = f"No other node sends data in slot {buffer.slot} that the buffer receives. {AS_MISSED}"
            return Finding(headline, reason, self.scenario.place_of(line, "BUFFER"), (self.note(buffer),))
        sizes = self.sizes(buffer)
        if sizes is None or line.size in sizes:
            return None
        known = joined([str(it) for it in sizes], "or")
        headline = f"the payload has {counted(line.size, 'byte')}, and frames that {buffer} receives have {known}"
        reason = f"No frame of slot {buffer.slot} has another length. {AS_MISSED}"
        if self.cluster.is_static(buffer.slot):
            reason = f"In a static slot a valid frame has the `static_words` of `[params]`. {AS_MISSED}"
        return Finding(headline, reason, self.scenario.place_of(line, "HEX"), (self.note(buffer),))

    def sizes(self, buffer: Buffer) -> list[int] | None:
        """Returns the numbers of bytes that a payload in the buffer can have, or None for all."""
        if self.cluster.is_static(buffer.slot):
            return [2 * self.cluster.parameters.static_words]
        if self.is_babbled(buffer):
            return None
        return sorted({2 * it.words for it in self.traffic.to(buffer)})

    def is_babbled(self, buffer: Buffer) -> bool:
        """Returns whether a babble may bring a frame to the buffer."""
        places = [it.place for it in self.babbles if it.word("CHANNEL") in buffer.channels]
        return any(it.has_static if self.cluster.is_static(buffer.slot) else it.has_dynamic for it in places)

    def unlike(self, line: Line, cycles: int) -> Finding | None:
        """Returns the fault of a line that contradicts an earlier one. It is kept for its other cycles."""
        before = self.expected.setdefault((line.word("NODE"), line.word("BUFFER")), Expected())
        unlike = before.unlike(line, cycles)
        if unlike is None:
            return None
        other, cycle = unlike
        whose = f"lines {other.number} and {line.number} expect" if other.number != line.number else \
            f"the lists of line {line.number} expect"
        headline = f"{whose} different contents in cycle {cycle}"
        reason = f"Expected other cycles, or one of both lines. {AS_MISSED}"
        note = Note(f"line {other.number}", self.scenario.place_of(other))
        return Finding(headline, reason, self.scenario.place_of(line), (note,))

    def note(self, buffer: Buffer) -> Note:
        return Note(f"{buffer}, of kind {buffer.kind} for slot {buffer.slot}", self.text.place_of(buffer.path))


def content_of(line: Line) -> str:
    """Returns the words by which expectations of one buffer and cycle differ."""
    return line.word("HEX") if line.kind == "expect" else NOTHING


def missed(scenario: Scenario, misses: Iterable[Miss], wrong: Iterable[Finding]) -> Iterator[Finding]:
    """Yields a warning for each expectation that the run missed, but for those of lines with a finding in WRONG."""
    lines = {it.place.line for it in wrong if it.place}
    for it in misses:
        if it.line not in lines:
            headline = f"buffer {it.buffer} of node {it.node} holds {it.found} at the end of cycle {it.cycle}"
            others = f" The run misses the line in {counted(it.others, 'other cycle')} too." if it.others else ""
            reason = (f"Expected {it.expected}.{others} `musmyrtle commits` shows what came of each commit, and "
                      "`musmyrtle log` what was sent when.")
            yield Finding(headline, reason, scenario.place(it.line))
