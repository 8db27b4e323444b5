"""Faults between lines of a cluster file that are right each by itself, in the program's order."""
from collections import defaultdict

from musmyrtle.cluster import CYCLES, Buffer, Cluster, Fault, Ownership
from musmyrtle.findings import MOST_NOTES

Claim = Ownership | Buffer


def clashes(cluster: Cluster) -> list[Fault]:
    return [*not_owned(cluster), *dynamic_both(cluster), *overlaps(cluster), *too_long(cluster)]


def senders(cluster: Cluster, is_static: bool) -> list[Buffer]:
    return [it for it in cluster.buffers() if it.transmits and cluster.is_static(it.slot) == is_static]


def not_owned(cluster: Cluster) -> list[Fault]:
    found, owned = [], owned_cycles(cluster)
    for buffer in senders(cluster, True):
        for channel in buffer.channels:
            missing = buffer.cycles.bits & ~owned[buffer.node, channel, buffer.slot]
            if missing:
                first = next(cycle for cycle in CYCLES if missing >> cycle & 1)
                found.append(fault_of_unowned(cluster, buffer, channel, first))
                break
    return found


def owned_cycles(cluster: Cluster) -> dict[tuple[int, str, int], int]:
    """Returns the cycles in which a node owns a slot on a channel, as bits of a number."""
    found: dict[tuple[int, str, int], int] = defaultdict(int)
    for line in cluster.owned():
        for channel in line.channels:
            found[line.node, channel, line.slot] |= line.cycles.bits
    return found


def fault_of_unowned(cluster: Cluster, buffer: Buffer, channel: str, cycle: int) -> Fault:
    headline = f"{buffer} sends in slot {buffer.slot}, which isn't node {buffer.node}'s on {channel} in cycle {cycle}"
    reason = (f"A transmit buffer in a static slot wants an ownership line of its node for the slot, on each of its "
              f"channels and in each of its cycles. Expected a line in `own` with slot = {buffer.slot} that has "
              f"channel {channel} and cycle {cycle}, or another slot, or fewer channels or cycles of the buffer.")
    lines = [it for it in cluster.owned() if it.slot == buffer.slot]
    # A node without any line for the slot may have meant another slot of its own.
    lines += [it for it in cluster.nodes[buffer.node].owned if it.slot != buffer.slot]
    notes = tuple((f"{it} has slot {it.slot} on {it.channels} in {it.cycles}", it.path) for it in lines[:MOST_NOTES])
    return Fault(f"NotOwned {buffer.node} {buffer.number}", headline, reason, (*buffer.path, "slot"), notes)


def dynamic_both(cluster: Cluster) -> list[Fault]:
    last = cluster.parameters.static_slots
    return [Fault(f"DynamicBoth {it.node} {it.number}", f"{it} sends in dynamic slot {it.slot} on both channels",
                  f"Slots after the last static one, {last}, are dynamic, and there a transmit buffer is for one "
                  'channel, since the channels count their slots apart. Expected "A" or "B", or a buffer for '
                  "each.",
                  (*it.path, "channels"))
            for it in senders(cluster, False) if it.channels == "AB"]


def overlaps(cluster: Cluster) -> list[Fault]:
    claims: dict[tuple[int, str], tuple[list[Claim], list[Claim]]] = defaultdict(lambda: ([], []))
    for line in cluster.owned():
        for channel in line.channels:
            claims[line.slot, channel][0].append(line)
    for buffer in cluster.buffers():
        if buffer.transmits:
            for channel in buffer.channels:
                claims[buffer.slot, channel][1].append(buffer)
    found, told = [], []
    for (slot, channel), sorts in sorted(claims.items(), key=lambda claim: claim[0]):
        both = [it for it in map(first_clash, sorts) if it]
        clash = min(both, key=lambda it: it[0]) if both else None
        # Lines that clash on A and on B alike are reported once.
        if clash and clash not in told:
            told.append(clash)
            found.append(fault_of_overlap(slot, channel, *clash))
    return found


def first_clash(claims: list[Claim]) -> tuple[int, list[Claim]] | None:
    """Returns the least cycle that two of them admit, and these two."""
    if len(claims) < 2:
        return None
    for cycle in CYCLES:
        admitting = [it for it in claims if it.cycles.admit(cycle)]
        if len(admitting) > 1:
            return cycle, admitting
    return None


def fault_of_overlap(slot: int, channel: str, cycle: int, claims: list[Claim]) -> Fault:
    first, second = claims[:2]
    verb = "own" if isinstance(first, Ownership) else "send in"
    headline = f"{second} and {first} both {verb} slot {slot} on {channel} in cycle {cycle}"
    reason = ("In each cycle a slot is one's on a channel. Expected another slot or channel for one of them, or "
              "cycles that part them: a `repetition` for both and a `base` of its own for each.")
    others = [it for it in claims if it is not second]
    notes = tuple((f"{it} has slot {slot} on {it.channels} in {it.cycles}", it.path) for it in others[:MOST_NOTES])
    return Fault(f"Overlap {slot} {channel} {cycle}", headline, reason, second.path, notes)


def too_long(cluster: Cluster) -> list[Fault]:
    found, parameters = [], cluster.parameters
    for buffer in senders(cluster, False):
        if buffer.channels == "AB":
            continue
        latest = cluster.nodes[buffer.node].latest[buffer.channels]
        needed, left = parameters.minislots_of(buffer.words), parameters.minislots - latest + 1
        if latest == 0 or needed <= left:
            continue
        key = f"latest_{buffer.channels.lower()}"
        headline = f"a frame of {buffer} needs {needed} minislots, and {left} are left where it may begin at the latest"
        words = left * parameters.words_per_minislot - 4
        fewer = f", or at most {words} words" if words >= 0 else ""
        least = parameters.minislots - needed + 1
        right = f"at most {least} under `{key}`" if least > 0 else "a shorter frame or more minislots"
        reason = (f"{buffer.words} words and 4 of header and trailer are {needed} minislots of "
                  f"{parameters.words_per_minislot} words; `{key}` of node {buffer.node} is {latest}, of "
                  f"{parameters.minislots} minislots. Expected {right}{fewer}.")
        notes = ((f"`{key}` of node {buffer.node}", ("node", buffer.node, key)),)
        found.append(Fault(f"TooLong {buffer.node} {buffer.number}", headline, reason, (*buffer.path, "words"), notes))
    return found
