"""The refusals of a run of a cluster and a scenario for some cycles, in the program's order."""
from collections.abc import Iterator

from musmyrtle.cluster import Buffer, Cluster, Node
from musmyrtle.findings import MOST_NOTES, Finding, Note, counted, joined
from musmyrtle.named_windows import FaultPlace
from musmyrtle.places import Path, Place
from musmyrtle.scenario import Scenario
from musmyrtle.scenario_lines import FaultLine, FaultLines, Line
from musmyrtle.scenario_words import NEWEST
from musmyrtle.texts import Text

MOST_CYCLES = 1024
MOST_SLOT_ENTRIES = 65536
MOST_HOST_ENTRIES = 16384

Refusals = list[tuple[str, Finding]]


class Run:
    """The request for a run, and the places of its parts."""

    def __init__(self, cluster: Cluster, text: Text, scenario: Scenario, cycles: int):
        self.cluster, self.text, self.scenario, self.cycles = cluster, text, scenario, cycles

    def refusals(self) -> Refusals:
        return [*self.bad_scripts(), *self.bad_faults(), *self.no_rooms()]

    def bad_scripts(self) -> Refusals:
        found = []
        for number, ((node, task), lines) in enumerate(self.scenario.numbered()):
            found += [(f"BadScript {number}", finding) for finding in self.bad_script(node, task, lines)]
        return found

    def bad_script(self, node: int, task: int, lines: list[Line]) -> Iterator[Finding]:
        nodes = self.cluster.nodes
        first = lines[0]
        if node >= len(nodes):
            reason = f"The cluster has {counted(len(nodes), 'node')}, and the first is node 0."
            yield Finding(f"there is no node {node}", reason, self.scenario.place_of(first, "NODE"))
            return
        tasks = nodes[node].tasks
        if task >= tasks:
            reason = f"Node {node} has {counted(tasks, 'task')}, and the first is task 0."
            note = self.note(("node", node, "tasks"), f"`tasks` of node {node}")
            yield Finding(f"node {node} has no task {task}", reason, self.scenario.place_of(first, "TASK"), (note,))
            return
        before = None
        for line in lines:
            # Version 3 has no order of cycles, and leaves out the lines of cycles that the run doesn't have.
            cycle = None if self.scenario.version == NEWEST else self.bad_cycle(line, before)
            found = cycle or self.bad_action(nodes[node], line)
            if found:
                yield found
            before = line

    def bad_cycle(self, line: Line, before: Line | None) -> Finding | None:
        cycle, place = line.value("CYCLE"), self.scenario.place_of(line, "CYCLE")
        if cycle >= self.cycles:
            reason = f"It has {counted(self.cycles, 'cycle')}, and the first is cycle 0."
            return Finding(f"the run has no cycle {cycle}", reason, place)
        if before and cycle < before.value("CYCLE"):
            note = Note("the line of the same task before it", self.scenario.place_of(before, "CYCLE"))
            reason = "The lines of one task stand in the order of their cycles."
            headline = f"cycle {cycle} comes after cycle {before.value('CYCLE')} of the same task"
            return Finding(headline, reason, place, (note,))
        return None

    def bad_action(self, node: Node, line: Line) -> Finding | None:
        note = self.note(node.path, f"node {node.number}")
        if line.kind == "pop":
            headline = f"node {node.number} has no receive FIFO"
            reason = f"Expected a table `queue` of node {node.number}, or another node."
            return None if node.queue else Finding(headline, reason, self.scenario.place_of(line), (note,))
        number = line.value("BUFFER")
        if number >= len(node.buffers):
            headline = f"node {node.number} has no buffer {number}"
            reason = f"It has {counted(len(node.buffers), 'buffer')}, and the first is buffer 0."
            return Finding(headline, reason, self.scenario.place_of(line, "BUFFER"), (note,))
        return self.bad_use(node.buffers[number], line)

    def bad_use(self, buffer: Buffer, line: Line) -> Finding | None:
        note = self.note(buffer.path, f"{buffer}, of kind {buffer.kind} for slot {buffer.slot}")
        if buffer.transmits == (line.kind == "read"):
            right = "a receive buffer" if line.kind == "read" else "a transmit buffer, of kind event or state"
            place = self.scenario.place_of(line, "BUFFER")
            headline = f"`{line.kind}` names {buffer}, which is of kind {buffer.kind}"
            return Finding(headline, f"Expected {right}.", place, (note,))
        if line.kind == "commit" and line.size != 2 * buffer.words:
            reason = f"{buffer} sends {counted(buffer.words, 'word')}, which is {counted(2 * buffer.words, 'byte')}."
            if self.cluster.is_static(buffer.slot):
                reason += " In a static slot these are the `static_words` of `[params]`."
            headline = f"the payload has {counted(line.size, 'byte')}, and {buffer} sends {2 * buffer.words}"
            return Finding(headline, reason[0].upper() + reason[1:], self.scenario.place_of(line, "HEX"), (note,))
        return None

    def bad_faults(self) -> Refusals:
        found, before = [], FaultLines(self.cycles)
        for number, line in enumerate(self.scenario.faults):
            finding = self.bad_fault(line) or self.met_fault(line, before.meeting(line))
            if finding:
                found.append((f"BadFault {number}", finding))
            before.add(line)
        return found

    def bad_fault(self, line: FaultLine) -> Finding | None:
        scenario, parameters = self.scenario, self.cluster.parameters
        nodes = len(self.cluster.nodes)
        if line.kind != "corrupt" and line.value("NODE") >= nodes:
            reason = f"The cluster has {counted(nodes, 'node')}, and the first is node 0."
            return Finding(f"there is no node {line.word('NODE')}", reason, scenario.place_of(line, "NODE"))
        if line.cycles.first >= self.cycles:
            reason = f"It has {counted(self.cycles, 'cycle')}, and the first is cycle 0."
            return Finding(f"the run has no cycle {line.cycles.first}", reason, scenario.place_of(line, "CYCLES"))
        if line.place.segment == "d":
            return self.bad_dynamic(line, line.place.first or 0)
        name, key = ("static slot", "static_slots") if line.place.segment == "s" else ("minislot", "minislots")
        most, last = getattr(parameters, key), line.place.last
        if last is None or last <= most:
            return None
        reason = f"The cluster has {counted(most, name)}."
        if line.place.segment == "s" and last - most <= parameters.minislots:
            reason += f" Slot {last} is a dynamic slot, and `sN` is for static slots. {self.right_dynamic(last)}"
        note = self.note(("params", key), f"`{key}`")
        return Finding(f"there is no {name} {last}", reason, scenario.place_of(line, "PLACE"), (note,))

    def right_dynamic(self, slot: int) -> str:
        """Returns the place that is expected for a dynamic slot."""
        minislot = slot - self.cluster.parameters.static_slots
        if self.scenario.version == NEWEST:
            return f"Expected `d{slot}` for the window in which it opens."
        return (f"Expected `mN` for the minislot at which it opens: `m{minislot}` if nothing is sent in the slots "
                f"before it. Version {NEWEST} has `d{slot}`.")

    def bad_dynamic(self, line: FaultLine, slot: int) -> Finding | None:
        """Returns why there is no dynamic slot of this number: each slot takes a minislot at least."""
        static, minislots = self.cluster.parameters.static_slots, self.cluster.parameters.minislots
        if static < slot <= static + minislots:
            return None
        reason = f"The slots 1 to {static} are static, and {counted(minislots, 'minislot')} can open "
        reason += f"the dynamic slots {static + 1} to {static + minislots}." if minislots else "no dynamic slot."
        if slot <= static:
            reason += f" Expected `s{slot}` for the static slot."
        note = self.note(("params", "static_slots"), "`static_slots`")
        return Finding(f"there is no dynamic slot {slot}", reason, self.scenario.place_of(line, "PLACE"), (note,))

    def met_fault(self, line: FaultLine, other: FaultLine | None) -> Finding | None:
        if other is None:
            return None
        whose = "" if line.kind == "corrupt" else f" of node {line.word('NODE')}"
        common = line.cycles.bits & other.cycles.bits
        is_all = line.cycles.last is None and other.cycles.last is None
        when = "in every cycle" if is_all else f"in cycle {(common & -common).bit_length() - 1}"
        place = common_place(line.place, other.place)
        where = f"{line.kind}{whose} on {line.word('CHANNEL')} at {place} {when}"
        is_own = line.number == other.number
        headline = f"the lists of the line name {where} twice" if is_own else f"two lines {where}"
        reason = "A window takes one fault of a kind for each node and channel. Expected another cycle or place."
        if line.is_lost or other.is_lost:
            reason += " A line `lost` is `mute` on both channels in every window."
        if {line.place.segment, other.place.segment} == {"m", "d"} and place.first is not None:
            reason += " A dynamic slot may open at any minislot."
        note = Note(f"line {other.number} names it too", self.scenario.place_of(other, "PLACE"))
        return Finding(headline, reason, self.scenario.place_of(line, "PLACE"), () if is_own else (note,))

    def no_rooms(self) -> Refusals:
        """Returns the findings in the order of their nodes, for host entries before slot entries."""
        found = [(node, it) for node in self.cluster.nodes for it in self.no_host_room(node)]
        found += slot_rooms(self.cluster, self.text, self.cycles)
        return [(f"NoRoom {node.number}", it) for node, it in sorted(found, key=lambda it: it[0].number)]

    def no_host_room(self, node: Node) -> Iterator[Finding]:
        its = (line for (number, _), lines in self.scenario.scripts.items() if number == node.number for line in lines)
        calls = sum(self.scenario.count_of(line, self.cycles) for line in its)
        if calls > node.host_entries:
            thing = "call" if self.scenario.version == NEWEST else "line"
            has = counted(calls, thing)
            headline = f"node {node.number} has {has} in the scenario, and room for {node.host_entries}"
            right = f"`host_entries = {calls}` or more" if calls <= MOST_HOST_ENTRIES else f"fewer {thing}s"
            reason = f"Each `commit`, `withdraw`, `read` and `pop` is an entry of its journal. Expected {right}."
            yield Finding(headline, reason, self.place_of(node, "host_entries"))

    def place_of(self, node: Node, key: str) -> Place | None:
        return self.text.place_of((*node.path, key))

    def note(self, path: Path, text: str) -> Note:
        return Note(text, self.text.place_of(path))


def skipped_lines(scenario: Scenario, cycles: int) -> Iterator[Finding]:
    """Yields one finding for all lines that are left out, since they name only cycles that the run doesn't have."""
    if scenario.skipped:
        first, *others = scenario.skipped
        headline = f"{counted(len(scenario.skipped), 'line')} of the scenario left out"
        reason = f"The run has {counted(cycles, 'cycle')} from cycle 0 on. Each of these lines names only later ones."
        notes = [Note(f"line {it} is left out too", scenario.place(it)) for it in others[:MOST_NOTES]]
        yield Finding(headline, reason, scenario.place(first), tuple(notes))


def common_place(one: FaultPlace, other: FaultPlace) -> FaultPlace:
    """Returns the windows that two places share, as far as a place can name them."""
    if one.first is None or other.first is None:
        whole, part = (one, other) if one.first is None else (other, one)
        return part if whole.segment == "*" or part.first is not None else whole
    if one.segment != other.segment:
        return one if one.segment == "m" else other
    return FaultPlace(one.segment, max(one.first, other.first), min(one.last or 0, other.last or 0))


def slot_rooms(cluster: Cluster, text: Text, cycles: int) -> list[tuple[Node, Finding]]:
    """Returns why journals are too small for so many cycles: one finding for all nodes with the same room."""
    needed = 2 * cycles * cluster.parameters.windows
    short: dict[int, list[Node]] = {}
    for node in cluster.nodes:
        if needed > node.slot_entries:
            short.setdefault(node.slot_entries, []).append(node)
    return [(nodes[0], slot_room(cluster, text, cycles, nodes)) for nodes in short.values()]


def small_journals(cluster: Cluster, text: Text, cycles: int) -> Iterator[Finding]:
    """Yields the same without the nodes."""
    return (finding for _, finding in slot_rooms(cluster, text, cycles))


def slot_room(cluster: Cluster, text: Text, cycles: int, nodes: list[Node]) -> Finding:
    """Returns why the journals of nodes with the same room are too small for so many cycles."""
    windows = cluster.parameters.windows
    needed, had = 2 * cycles * windows, nodes[0].slot_entries
    want = f"{counted(cycles, 'cycle')} want{'s' if cycles == 1 else ''}"
    who = f"node {nodes[0].number}, and it has"
    if len(nodes) > 1:
        who = f"each of nodes {joined([str(it.number) for it in nodes])}, and each has"
    right = f"`slot_entries = {needed}` or more"
    if needed > MOST_SLOT_ENTRIES:
        most = MOST_SLOT_ENTRIES // (2 * windows)
        right = f"at most {counted(most, 'cycle')}, with `slot_entries = {2 * windows * most}`"
    reason = (f"Each window is two entries of the journal, and each cycle has up to {windows} windows, its static "
              f"slots and minislots: 2 * {cycles} * {windows} = {needed}. Expected {right}.")
    notes = [(f"node {it.number}", (*it.path, "slot_entries")) for it in nodes[1:1 + MOST_NOTES]]
    return text.finding(f"{want} {needed} slot entries of {who} {had}", reason, (*nodes[0].path, "slot_entries"), notes)
