"""Warnings of lines of a scenario whose faults had no effect in its run, with the reason.

The programs decide which lines these are (docs/formats/views.md, "Faults without effect"). The reasons follow from
that: where a fault of a kind has no effect, only some things can be missing.
"""
from collections.abc import Iterable, Iterator

from musmyrtle.cluster import Cluster
from musmyrtle.findings import Finding, joined
from musmyrtle.named_windows import FaultPlace
from musmyrtle.scenario import Scenario
from musmyrtle.scenario_lines import FaultLine

BYTES_BESIDE_PAYLOAD = 8
MOST_BYTES = 262
"""The bytes of the longest transmission, which is a babble."""


def idle_faults(cluster: Cluster, scenario: Scenario, idle: Iterable[int]) -> Iterator[Finding]:
    """Yields a warning for each of the lines that a run reports, by their numbers."""
    by_number: dict[int, list[FaultLine]] = {}
    for line in scenario.faults:
        by_number.setdefault(line.number, []).append(line)
    for lines in (by_number[it] for it in idle if it in by_number):
        line, channels = lines[0], joined([it.word("CHANNEL") for it in lines], "or")
        name = "HEX" if line.kind == "babble" and line.size == 0 else "PLACE"
        why = why_idle(cluster, line, channels)
        yield Finding(f"the line `{line.written}` has no effect", why, scenario.place_of(line, name))


def why_idle(cluster: Cluster, line: FaultLine, channels: str) -> str:
    """Returns why a line that is for these channels has no effect."""
    if line.kind == "babble":
        return why_no_babble(cluster, line, channels)
    return why_no_mute(line, channels) if line.kind == "mute" else why_no_flip(cluster, line, channels)


def why_no_babble(cluster: Cluster, line: FaultLine, channels: str) -> str:
    """Returns what a babble lacks: bytes, or a slot on its channel. A static slot opens in each cycle."""
    if line.size == 0:
        return "A babble without bytes adds no transmission. Expected `x` and some hexadecimal digits."
    if cluster.parameters.minislots == 0:
        return "The cluster has no dynamic segment, so no minislot opens a window."
    if line.place.segment == "d":
        return f"Slot {line.place.first} doesn't open on {channels} in {when(line)}: the segment ends before it."
    return (f"No slot opens on {channels} at minislot {line.place.first} in {when(line)}: it is within a frame, or "
            "after the last slot.")


def why_no_mute(line: FaultLine, channels: str) -> str:
    """Returns why a node makes no offer. In a static slot of its own it makes one in any case."""
    who, place = f"Node {line.word('NODE')}", line.place
    if line.is_lost:
        return f"{who} sends nothing in {when(line)} that could be lost, neither on A nor on B."
    if place.segment == "s":
        return (f"{who} doesn't own {static_slots(place)} on {channels} in {when(line)}, so it offers nothing that "
                "could be lost.")
    pending = "no commit is pending for a transmit buffer whose slot opens there up to the node's latest minislot."
    if place.segment == "m" or place.segment == "d":
        return f"{who} begins nothing on {channels} {dynamic_place(place)} in {when(line)}: {pending}"
    return f"{who} sends nothing on {channels} in {when(line)} that could be lost. It owns no static slot there."


def why_no_flip(cluster: Cluster, line: FaultLine, channels: str) -> str:
    """Returns why no bit is flipped."""
    has_dynamic = line.place.has_dynamic
    size = MOST_BYTES if has_dynamic else BYTES_BESIDE_PAYLOAD + 2 * cluster.parameters.static_words
    if line.value("BIT") >= 8 * size:
        what = "The longest transmission" if has_dynamic else "A frame of a static slot"
        return f"{what} has {8 * size} bits, and the first is bit 0. No bit past the end can be flipped."
    return (f"No transmission with a bit {line.word('BIT')} passes alone on {channels} at {line.word('PLACE')} in "
            f"{when(line)}: nothing is sent there, several collide, or what passes is shorter.")


def static_slots(place: FaultPlace) -> str:
    """Returns the words for the static slots of a place."""
    if place.first is None:
        return "a static slot"
    return f"slot {place.first}" if place.first == place.last else f"one of the slots {place.first} to {place.last}"


def dynamic_place(place: FaultPlace) -> str:
    """Returns the words for a place in the dynamic segment."""
    if place.first is None:
        return "at any minislot"
    return f"in slot {place.first}" if place.segment == "d" else f"at minislot {place.first}"


def when(line: FaultLine) -> str:
    """Returns the words for the cycles of a line."""
    if line.cycles.last is None:
        return "any cycle of the run"
    return f"cycle {line.cycles}" if line.cycles.first == line.cycles.last else f"the cycles {line.cycles}"
