"""Warnings of buffers that can't send, of slots that are owned for nothing, and of sync and startup nodes."""
from collections.abc import Iterator

from musmyrtle.cluster import Buffer, Cluster, Node, Ownership
from musmyrtle.findings import MOST_NOTES, Finding, counted, joined
from musmyrtle.lint.standard import rule_of
from musmyrtle.texts import Text


def first_minislot(cluster: Cluster, slot: int) -> int:
    """Returns the first minislot at which a dynamic slot can open.

    It opens there if nothing was sent in the minislots before.
    """
    return slot - cluster.parameters.static_slots


def can_send(cluster: Cluster, buffer: Buffer) -> bool:
    """Returns whether a transmit buffer has a chance to send. Without a task its node has no commit to send."""
    if cluster.nodes[buffer.node].tasks == 0:
        return False
    if cluster.is_static(buffer.slot):
        return True
    latest = cluster.nodes[buffer.node].latest[buffer.channels]
    return first_minislot(cluster, buffer.slot) <= min(latest, cluster.parameters.minislots)


def silent_buffers(cluster: Cluster, text: Text) -> Iterator[Finding]:
    for node in cluster.nodes:
        sending = [it for it in node.buffers if it.transmits]
        if sending and node.tasks == 0:
            yield without_task(text, node, sending)
            continue
        for buffer in sending:
            if not can_send(cluster, buffer):
                yield silent_buffer(cluster, text, buffer)


def without_task(text: Text, node: Node, sending: list[Buffer]) -> Finding:
    """Returns why no transmit buffer of a node without tasks sends."""
    one, s = (f"{sending[0]} never sends", "") if len(sending) == 1 else (
        f"the {len(sending)} transmit buffers of node {node.number} never send", "s")
    reason = (f"Each commit is a task's, and node {node.number} has none. In static slots it sends null frames alone. "
              f"Expected `tasks = 1` or more, or no transmit buffer{s}.")
    notes = [(f"{it}, for slot {it.slot}", it.path) for it in sending[:MOST_NOTES]]
    return text.finding(f"{one}: the node has no task", reason, (*node.path, "tasks"), notes)


def silent_buffer(cluster: Cluster, text: Text, buffer: Buffer) -> Finding:
    """Returns why a buffer for a dynamic slot never sends."""
    first, minislots = first_minislot(cluster, buffer.slot), cluster.parameters.minislots
    headline = f"{buffer} never sends: "
    opens = f"slot {buffer.slot} opens at minislot {first} at the earliest, if nothing is sent in the slots before it"
    if first > minislots:
        reason = f"S{opens[1:]}, and a cycle has {minislots}. Expected a lower slot or more minislots."
        notes = (("`minislots`", ("params", "minislots")),)
        return text.finding(f"{headline}slot {buffer.slot} can't be reached", reason, (*buffer.path, "slot"), notes)
    key = f"latest_{buffer.channels.lower()}"
    latest, is_there = cluster.nodes[buffer.node].latest[buffer.channels], key in text.document["node"][buffer.node]
    own = [(f"`{key}` of node {buffer.node}", ("node", buffer.node, key))] if is_there else []
    if latest == 0:
        headline += f"`{key}` of node {buffer.node} is 0" if is_there else f"node {buffer.node} has no `{key}`"
        reason = "A node begins no dynamic transmission after its latest minislot. "
    else:
        headline += f"`{key}` of node {buffer.node} is {latest}, too early for slot {buffer.slot}"
        reason = f"S{opens[1:]}. "
    reason += f"Expected `{key} = {first}` or more."
    return text.finding(headline, reason, (*buffer.path, "slot"), own)


def unfilled_slots(cluster: Cluster, text: Text) -> Iterator[Finding]:
    """Yields a warning for each slot of a node that no transmit buffer is for in any cycle, on a channel."""
    for node in cluster.nodes:
        lines: dict[int, list[Ownership]] = {}
        for line in node.owned:
            lines.setdefault(line.slot, []).append(line)
        for slot, its in lines.items():
            filled = {channel for it in node.buffers if it.transmits and it.slot == slot for channel in it.channels}
            empty = sorted({channel for line in its for channel in line.channels} - filled)
            if empty:
                yield unfilled_slot(text, node, empty, [it for it in its if set(it.channels) & set(empty)])


def unfilled_slot(text: Text, node: Node, empty: list[str], lines: list[Ownership]) -> Finding:
    """Returns why a slot that a node owns by these lines is never filled on some channels."""
    slot, channels = lines[0].slot, joined(empty)
    headline = f"slot {slot} is owned by node {node.number} on {channels}, and never filled there"
    reason = (f"No transmit buffer of the node is for it, so on {channels} the node sends null frames alone. Expected "
              f"a transmit buffer with slot = {slot}, or no ownership there.")
    notes = [(f"{it} has it too, in {it.cycles}", it.path) for it in lines[1:1 + MOST_NOTES]]
    return text.finding(headline, reason, lines[0].path, notes)


def sync_nodes(cluster: Cluster, text: Text) -> Iterator[Finding]:
    """Yields a warning where there are too few or too many sync nodes."""
    rule = rule_of("gSyncNodeMax")
    syncing = [node for node in cluster.nodes if any(line.is_sync for line in node.owned)]
    if not rule.admits(len(syncing)):
        names = f": {joined([str(it.number) for it in syncing])}" if syncing else ""
        headline = f"the cluster has {counted(len(syncing), 'node')} with a sync slot{names}"
        reason = (f"A cluster has {rule.least} to {rule.greatest} sync nodes (chapter 8, clock synchronization, "
                  f"`{rule.name}`). Expected `sync = true` at an ownership line of each of these. The bench runs in "
                  "step without.")
        yield text.finding(headline, reason, ("node",) if len(syncing) < 1 else syncing[0].path)


def starting(cluster: Cluster) -> list[Node]:
    return [node for node in cluster.nodes if any(line.is_startup for line in node.owned)]


def startup_nodes(cluster: Cluster, text: Text) -> Iterator[Finding]:
    """Yields a warning where the cluster has too few startup (coldstart) nodes to start."""
    nodes, least = starting(cluster), rule_of("coldstart nodes").least
    if len(nodes) < least:
        names = f": {joined([str(it.number) for it in nodes])}" if nodes else ""
        reason = (f"A cluster starts by at least {least} coldstart nodes (chapter 7, startup), and by 3 where one may "
                  "fail. Expected `sync = true, startup = true` at an ownership line of each of these. The bench "
                  "begins with a cluster that has started.")
        headline = f"the cluster has {counted(len(nodes), 'startup node')}{names}"
        yield text.finding(headline, reason, nodes[0].path if nodes else ("node",))


def fault_tolerance(cluster: Cluster, text: Text) -> Iterator[Finding]:
    """Yields a note where the cluster starts, but not with one startup node less."""
    nodes = starting(cluster)
    if len(nodes) == 2:
        headline = f"the cluster has 2 startup nodes: {joined([str(it.number) for it in nodes])}"
        reason = ("If one of them fails, the cluster doesn't start (chapter 7, startup). Expected 3 startup nodes "
                  "where it has to start all the same.")
        yield text.finding(headline, reason, nodes[0].path)


def syncing(cluster: Cluster) -> Iterator[tuple[Node, list[Ownership]]]:
    """Yields each sync node with its sync slots."""
    for node in cluster.nodes:
        lines = [line for line in node.owned if line.is_sync]
        if lines:
            yield node, lines


def key_slots(cluster: Cluster, text: Text) -> Iterator[Finding]:
    """Yields a warning for each node with several sync slots."""
    for node, lines in syncing(cluster):
        slots = sorted({line.slot for line in lines})
        if len(slots) > 1:
            headline = f"node {node.number} has {len(slots)} sync slots: {joined([str(it) for it in slots])}"
            reason = ("A node sends sync frames in one slot, its key slot (chapter 8). Expected `sync = true` for one "
                      "slot.")
            second = next(line for line in lines if line.slot != lines[0].slot)
            yield text.finding(headline, reason, (*second.path, "sync"), [(str(lines[0]), (*lines[0].path, "sync"))])


def sync_channels(cluster: Cluster, text: Text) -> Iterator[Finding]:
    """Yields a warning for each sync slot on one channel only."""
    for node, lines in syncing(cluster):
        for slot in sorted({line.slot for line in lines}):
            own = [line for line in lines if line.slot == slot]
            channels = {channel for line in own for channel in line.channels}
            if len(channels) == 1:
                headline = f"sync slot {slot} of node {node.number} is on channel {channels.pop()} only"
                reason = ("A sync frame goes out on each channel that the node is attached to, which here is both "
                          '(chapter 8). Expected `channels = "AB"`.')
                yield text.finding(headline, reason, (*own[0].path, "channels"))
