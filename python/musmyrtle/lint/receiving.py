"""Warnings of receive buffers and receive FIFOs that get no frames, or other ones than they seem to be for."""
from collections.abc import Iterator

from musmyrtle.cluster import CYCLES, Buffer, Cluster, Node, Queue
from musmyrtle.findings import MOST_NOTES, Finding, counted, joined
from musmyrtle.lint.sending import can_send
from musmyrtle.texts import Text


def is_common(one: Buffer | Queue, other: Buffer) -> bool:
    """Returns whether both are for some channel in some cycle."""
    return bool(set(one.channels) & set(other.channels)) and one.cycles.meet(other.cycles)


class Traffic:
    """All transmit buffers of a cluster, by their slots."""

    def __init__(self, cluster: Cluster):
        self.cluster = cluster
        self.senders: dict[int, list[Buffer]] = {}
        for buffer in cluster.buffers():
            if buffer.transmits:
                self.senders.setdefault(buffer.slot, []).append(buffer)

    def to(self, receiver: Buffer) -> list[Buffer]:
        """Returns the transmit buffers of other nodes that may send a frame that the receive buffer admits."""
        return [it for it in self.senders.get(receiver.slot, ()) if it.node != receiver.node
                and is_common(receiver, it) and can_send(self.cluster, it)]

    def is_queued(self, node: Node, queue: Queue, sender: Buffer) -> bool:
        """Returns whether the FIFO gets any frame of the buffer that no receive buffer of its node admits."""
        if sender.node == node.number or not is_common(queue, sender) or not can_send(self.cluster, sender):
            return False
        taking = [it for it in node.buffers if not it.transmits and it.slot == sender.slot]
        return any(not any(channel in it.channels and it.cycles.admit(cycle) for it in taking)
                   for channel in set(queue.channels) & set(sender.channels)
                   for cycle in CYCLES if queue.cycles.admit(cycle) and sender.cycles.admit(cycle))


def idle_receivers(cluster: Cluster, text: Text) -> Iterator[Finding]:
    traffic = Traffic(cluster)
    for buffer in cluster.buffers():
        if not buffer.transmits and not traffic.to(buffer):
            yield idle_receiver(traffic, text, buffer)
    for node in cluster.nodes:
        queue = node.queue
        if queue and not any(traffic.is_queued(node, queue, it) for slot, senders in traffic.senders.items()
                             if queue.first <= slot <= queue.last for it in senders):
            reason = (f"It is for slots {queue.first} to {queue.last} on {queue.channels} in {queue.cycles}. "
                      "Every data frame that another node sends there goes to a receive buffer of the node. Expected "
                      "other slots.")
            yield text.finding(f"nothing comes to {queue}", reason, queue.path)


def idle_receiver(traffic: Traffic, text: Text, buffer: Buffer) -> Finding:
    senders = traffic.senders.get(buffer.slot, [])
    notes = [(why_not(traffic, buffer, it), it.path) for it in senders[:MOST_NOTES]]
    if not senders:
        notes = [(f"{it} has it on {it.channels}, without a transmit buffer", it.path)
                 for it in traffic.cluster.owned() if it.slot == buffer.slot][:MOST_NOTES]
    where = f"in slot {buffer.slot} on {buffer.channels}"
    where += "" if buffer.cycles.repetition == 1 else f" in {buffer.cycles}"
    headline = f"{buffer} receives nothing: no node sends data {where}"
    reason = ("Null frames don't count. Expected a slot, channels and cycles in which another node has a "
              "transmit buffer.")
    return text.finding(headline, reason, (*buffer.path, "slot"), notes)


def why_not(traffic: Traffic, receiver: Buffer, sender: Buffer) -> str:
    """Returns why frames of one buffer don't come to another."""
    if sender.node == receiver.node:
        return f"{sender} sends in it: no node receives its own frames"
    if not set(sender.channels) & set(receiver.channels):
        return f"{sender} sends in it on {sender.channels}"
    if not sender.cycles.meet(receiver.cycles):
        return f"{sender} sends in it in {sender.cycles}"
    return f"{sender} is for it, and never sends"


def doubled_receivers(cluster: Cluster, text: Text) -> Iterator[Finding]:
    for node in cluster.nodes:
        receivers = [it for it in node.buffers if not it.transmits]
        for place, second in enumerate(receivers):
            first = next((it for it in receivers[:place] if it.slot == second.slot and is_common(it, second)), None)
            if first:
                channels = joined(sorted(set(first.channels) & set(second.channels)))
                slot = f"slot {second.slot} on {channels}"
                headline = f"{second} and buffer {first.number} receive the same frames of {slot}"
                reason = ("Each stores them, and each `read` is of one buffer. Expected one buffer, or other "
                          "channels or cycles.")
                yield text.finding(headline, reason, second.path, [(str(first), first.path)])


def queues_behind_buffers(cluster: Cluster, text: Text) -> Iterator[Finding]:
    for node in cluster.nodes:
        queue = node.queue
        taking = [it for it in node.buffers if queue and not it.transmits and queue.first <= it.slot <= queue.last
                  and is_common(queue, it)]
        if queue and taking:
            slots = sorted({it.slot for it in taking})
            named = f"slot{'s' if slots[1:] else ''} {joined([str(it) for it in slots])}"
            headline = f"{queue} stands behind {counted(len(taking), 'receive buffer')}"
            reason = (f"The receive FIFO stores no frame that a receive buffer admits, here frames of {named}. "
                      "Expected a FIFO for other slots, or no such buffer, if these frames are meant to be popped.")
            notes = [(f"{it} receives slot {it.slot} on {it.channels} in {it.cycles}", it.path) for it in taking]
            yield text.finding(headline, reason, queue.path, notes[:MOST_NOTES])
