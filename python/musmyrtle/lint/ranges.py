"""Warnings of parameters out of the ranges of FlexRay 2.1 Rev A, and of features of version 3 alone."""
from collections import defaultdict
from collections.abc import Iterator

from musmyrtle.cluster import CYCLES, PARAMETERS, Buffer, Cluster, Ownership, Parameters
from musmyrtle.findings import MOST_NOTES, Finding, counted, joined
from musmyrtle.lint.physical import MACROTICK, NOMINAL_BIT_RATE, bit_and_macrotick
from musmyrtle.lint.standard import CHAPTER, OF_PARAMETERS, STANDARD, Rule, rule_of
from musmyrtle.places import Path
from musmyrtle.texts import Text

ALL_CYCLES = (1 << len(CYCLES)) - 1


def out_of_range(cluster: Cluster, text: Text) -> Iterator[Finding]:
    """Yields a warning for each parameter out of its range."""
    for key in PARAMETERS:
        rule = OF_PARAMETERS.get(key)
        value = getattr(cluster.parameters, key)
        if rule and not rule.admits(value):
            yield text.finding(f"`{key}` is {value}", allowed(rule), ("params", key))
    latest = rule_of("pLatestTx")
    for node in cluster.nodes:
        for channel, value in node.latest.items():
            if not latest.admits(value):
                key = f"latest_{channel.lower()}"
                yield text.finding(f"`{key}` of node {node.number} is {value}", allowed(latest), (*node.path, key))
    yield from long_times(cluster, text)


def late_latest(cluster: Cluster, text: Text) -> Iterator[Finding]:
    """Yields a warning for each latest minislot after which a node's longest dynamic frame has too little room."""
    for node in cluster.nodes:
        sending = [it for it in node.buffers if it.transmits and not cluster.is_static(it.slot)]
        for channel, latest in node.latest.items():
            if any(channel in it.channels for it in sending):
                longest = max(sending, key=lambda it: it.words)
                most = most_latest(cluster.parameters, longest)
                if latest > max(most, 0):
                    yield late(cluster, text, longest, channel, most)


def most_latest(parameters: Parameters, longest: Buffer) -> int:
    """Returns the greatest latest minislot that leaves room for a frame with its idle phase, at most 0 for none."""
    return parameters.minislots - parameters.minislots_of(longest.words) - parameters.idle + 1


def late(cluster: Cluster, text: Text, longest: Buffer, channel: str, most: int) -> Finding:
    """Returns why the latest minislot of a node on a channel is above MOST."""
    parameters, node, key = cluster.parameters, cluster.nodes[longest.node], f"latest_{channel.lower()}"
    filled, idle = parameters.minislots_of(longest.words), parameters.idle
    headline = f"`{key}` of node {node.number} is {node.latest[channel]}, and {STANDARD} allows "
    headline += str(most) if most > 0 else "none"
    reason = (f"The longest dynamic frame of the node has {counted(longest.words, 'word')}, which fill {filled} of "
              f"{counted(parameters.minislots, 'minislot')}. With `idle` they have to fit behind `pLatestTx`, which is "
              f"one for both channels ({CHAPTER}): {parameters.minislots} - ({filled} + {idle}) + 1 = {most}. The "
              "bench runs with it. Expected ")
    reason += f"`{key}` of at most {most}, or a shorter frame." if most > 0 else "a shorter frame, or more minislots."
    return text.finding(headline, reason, (*node.path, key), [(f"{longest}, on {longest.channels}", longest.path)])


def allowed(rule: Rule) -> str:
    """Returns the rule in words."""
    return f"It is `{rule.name}` of {STANDARD} ({CHAPTER}). Expected {rule.range}. The bench runs with it."


def long_times(cluster: Cluster, text: Text) -> Iterator[Finding]:
    """Yields warnings of a macrotick or a cycle that is too long or too short, where the file has its time."""
    _, macrotick = bit_and_macrotick(text)
    if macrotick is None:
        return
    path = ("physical", "macrotick_us")
    if not MACROTICK.admits(macrotick):
        yield text.finding(f"`macrotick_us` is {macrotick:g}", allowed(MACROTICK), path)
    rule, macroticks = rule_of("gdCycle"), cluster.parameters.cycle_mt
    cycle = macroticks * macrotick
    # A macrotick such as 0.7 isn't exact as a number with a binary point.
    if not rule.admits(round(cycle, 6)):
        headline = f"the cycle is {cycle:g} microseconds long: {macroticks} macroticks of {macrotick:g}"
        notes: list[tuple[str, Path]] = [("`macrotick_us`", path)]
        yield text.finding(headline, allowed(rule), ("params", "cycle_mt"), notes)


def other_bit_rate(_: Cluster, text: Text) -> Iterator[Finding]:
    """Yields a warning of a bit rate that the standard doesn't have."""
    rate, _macrotick = bit_and_macrotick(text)
    if rate is not None and rate != NOMINAL_BIT_RATE:
        reason = (f"{STANDARD} has 10 Mbit/s alone: `gdBit` is 0.1 microseconds ({CHAPTER}). Expected "
                  "`bit_rate = 10_000_000`, in bits a second.")
        yield text.finding(f"`bit_rate` is {rate:.12g} bits a second", reason, ("physical", "bit_rate"))


def divided_slots(cluster: Cluster, text: Text) -> Iterator[Finding]:
    """Yields a warning for each static slot that several nodes share, or that is without an owner in some cycles."""
    owners: dict[int, dict[str, list[Ownership]]] = defaultdict(lambda: defaultdict(list))
    for line in cluster.owned():
        for channel in line.channels:
            owners[line.slot][channel].append(line)
    for slot, by_channel in sorted(owners.items()):
        divided = [channel for channel in sorted(by_channel) if is_divided(by_channel[channel])]
        if divided:
            yield divided_slot(text, slot, divided, by_channel[divided[0]])


def is_divided(lines: list[Ownership]) -> bool:
    cycles = 0
    for line in lines:
        cycles |= line.cycles.bits
    return len({line.node for line in lines}) > 1 or cycles != ALL_CYCLES


def divided_slot(text: Text, slot: int, channels: list[str], lines: list[Ownership]) -> Finding:
    nodes = [str(number) for number in sorted({line.node for line in lines})]
    what = f"is divided among nodes {joined(nodes)}" if len(nodes) > 1 else f"is node {nodes[0]}'s in some cycles only"
    reason = (f"In {STANDARD} a static slot is one node's in every cycle of a channel (chapter 5, static segment); to "
              "divide it by cycles is a feature of version 3. Expected one owner, without `base` and `repetition`.")
    notes = [(f"{it} has slot {slot} on {it.channels} in {it.cycles}", it.path) for it in lines[1:]]
    return text.finding(f"slot {slot} on {joined(channels)} {what}", reason, lines[0].path, notes[:MOST_NOTES])
