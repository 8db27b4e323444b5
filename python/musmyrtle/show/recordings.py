"""The lines that `fr_monitor` prints of a recording, and its findings in words.

The program names the node that may send in a slot: in the line of each frame, or in the finding itself. So a finding is
joined with the frame of its record, and only names and words are added here.
"""
from collections import deque
from collections.abc import Callable
from dataclasses import dataclass

from musmyrtle.findings import counted
from musmyrtle.show.network import Network
from musmyrtle.show.tables import Numbers, Row, decimal
from musmyrtle.show.windows import CHANNELS

LOGGED = "the logger saw {}"
WORDS = {
    "Cut": "{found} of {expected} bytes were captured",
    "LoggedCoding": LOGGED.format("a coding error"),
    "LoggedStart": LOGGED.format("a wrong start of the transmission"),
    "LoggedHeader": LOGGED.format("a wrong header CRC"),
    "LoggedEnd": LOGGED.format("a wrong frame end sequence"),
    "LoggedFrame": LOGGED.format("a wrong frame CRC"),
    "HeaderCrc": "the header CRC is {found}, due is {expected}",
    "FrameCrc": "the frame CRC is {found}, due is {expected}",
    "Slot": "the cluster has no slot {found}",
    "Order": "a frame of slot {expected} came before in this cycle",
    "Nobody": "no node sends in slot {slot} on {channel} in this cycle",
    "Words": "the payload has {found} two-byte words, due are {expected}",
    "Bits": "the indicators are {found}, due are {expected}",
    "Preamble": "the indicators are {found}, due are {expected}",
    "NullFrame": "a null frame has a payload, a payload preamble or a dynamic slot",
    "NoBuffer": "{node} has no transmit buffer for data in this slot",
    "Channels": "one buffer sends on both channels, and the other channel had another frame",
    "Closed": "the slot opens at minislot {found}, and there are {expected}",
    "Late": "the slot opens at minislot {found}, and the latest one of {node} is {expected}",
    "Clock": "{found_us} us lie between the cycles, due are {expected_us} us",
    "Time": "the frame came {found_us} us after the cycle's last one, due are {expected_us} us",
    "Symbol": "the cluster has no symbol window",
    "Nothing": "channel {channel} has a sender, and had no good frame",
}
"""The reason of each finding, with its words."""
MEANINGS = {
    "Cut": "cut records", "LoggedCoding": "coding errors", "LoggedStart": "wrong starts of transmissions",
    "LoggedHeader": "header CRC errors of the logger", "LoggedEnd": "wrong frame end sequences",
    "LoggedFrame": "frame CRC errors of the logger", "Length": "wrong lengths", "HeaderCrc": "wrong header CRCs",
    "FrameCrc": "wrong frame CRCs", "Slot": "slots that no cluster has", "Cycle": "wrong cycle counts",
    "Order": "frames out of order", "Nobody": "frames that no node sends", "Words": "wrong payload lengths",
    "Bits": "wrong sync or startup indicators", "NullFrame": "wrong null frames",
    "NoBuffer": "data without a transmit buffer", "Preamble": "wrong payload preambles",
    "Channels": "channels that differ", "Closed": "dynamic slots that don't open",
    "Late": "dynamic slots after pLatestTx",
    "Missing": "static slots that fell silent", "Gap": "gaps", "Clock": "wrong times between cycles",
    "Time": "frames at a wrong time", "Silent": "channels that fell silent", "Symbol": "symbols",
    "Nothing": "channels without a frame",
}
NANOSECONDS = ("Clock", "Time")
FRAME, FINDING, BACK, FOUND = "frame", "finding", "back", "found"
KEPT = 16
"""The frames of a channel that are kept, good and broken ones each. A frame waits for the next good one alone."""
NAMED = ("Missing", "NoBuffer")
"""The findings that have the node as the expected word."""
ELSEWHERE = ("Missing", "Silent", "Symbol", "Nothing")
"""The findings that aren't about the frame of their record."""


@dataclass(frozen=True, slots=True)
class Place:
    """The record that shows a line, its time in seconds, and the place that it speaks of; each may be unknown."""

    record: int | None
    seconds: str | None
    cycle: int | None
    channel: str
    slot: int | None

    @classmethod
    def of(cls, words: list[str]) -> "Place":
        """Returns the place of the words after the first one of a line."""
        return cls(number(words[1]), text(words[2]), number(words[3]), words[4], number(words[5]))


def number(word: str) -> int | None:
    """Returns the number of a word, or None for `-`."""
    return None if word == "-" else int(word)


def text(word: str) -> str | None:
    """Returns a word, or None for `-`."""
    return None if word == "-" else word


def microseconds(word: str) -> float | None:
    """Returns the microseconds of a word with nanoseconds, or None for `-`."""
    return None if word == "-" else int(word) / 1000


class LastFrames:
    """The last frames, as the lines of `fr_monitor --frames` have them, by channel and record.

    A finding names the record of a frame: the last one, or one of the last good ones. So few are kept, however long a
    recording is.
    """

    def __init__(self) -> None:
        self.good = {it: deque[list[str]](maxlen=KEPT) for it in CHANNELS}
        self.broken = {it: deque[list[str]](maxlen=KEPT) for it in CHANNELS}

    def add(self, words: list[str]) -> None:
        """Adds the line of a frame. A broken record has no indicators."""
        kept = self.broken if words[10] == "-" else self.good
        kept[words[4]].append(words)

    def frame(self, words: list[str]) -> list[str] | None:
        """Returns the line of the frame that a line `finding` or `back` is about, if there is one."""
        if words[5] == "-" or words[6] in ELSEWHERE:
            return None
        known = *self.good[words[4]], *self.broken[words[4]]
        return next((it for it in known if it[1] == words[1]), None)

    def sender(self, words: list[str]) -> int | None:
        """Returns the node of a line `finding`, if there is one."""
        if words[6] in NAMED:
            return number(words[7])
        found = self.frame(words)
        return None if found is None else number(found[9])


def length_why(expected: str, found: str) -> str:
    """Returns the reason of a wrong length."""
    if expected == "-":
        return f"{found} bytes are too few for a header"
    return f"the record has {found} bytes, and its header announces {expected} without a trailer"


def cycle_why(expected: str, found: str) -> str:
    """Returns the reason of a wrong cycle count."""
    is_open = f"cycle {expected} is open" if expected != "-" else "no cycle is open"
    return f"the cycle count is {found}, {is_open}, and the next frame doesn't confirm it"


def missing_why(found: str) -> str:
    """Returns the reason of a missing frame, after some records that aren't good frames."""
    broken = "" if found == "0" else f"; {found} broken records came before" if found != "1" else \
        "; a broken record came before"
    return f"no frame of {{node}}{broken}"


def gap_why(found: str) -> str:
    """Returns the reason of a gap of so many cycles."""
    return f"no frame of {counted(int(found), 'cycle')} was recorded"


def silent_why(expected: str, found: str) -> str:
    """Returns the reason of a channel that fell silent."""
    last = "it had no cycle" if found == "-" else f"its last cycle was {found}"
    return f"no frame while the other channel opened three cycles, the last one {expected}; {last}"


SPECIAL: dict[str, Callable[[str, str], str]] = {
    "Length": length_why, "Cycle": cycle_why, "Silent": silent_why, "Missing": lambda _, found: missing_why(found),
    "Gap": lambda _, found: gap_why(found)}
"""The reasons that depend on whether a word is known."""


def why(network: Network, name: str, place: Place, expected: str, found: str, node: int | None) -> str:
    """Returns a finding in words, with the names of nodes and with microseconds."""
    spelled = SPECIAL[name](expected, found) if name in SPECIAL else WORDS.get(name, name)
    of_node = "its sender" if node is None else str(network.node(node))
    times: dict[str, str] = {}
    if name in NANOSECONDS:
        times = {"expected_us": decimal(int(expected) / 1000), "found_us": decimal(int(found) / 1000)}
    return spelled.format(expected=expected, found=found, slot=place.slot, channel=place.channel, node=of_node, **times)


def finding_row(network: Network, words: list[str], node: int | None) -> Row:
    """Returns the row of a line `finding`, with the node that may send at its place."""
    place, (name, expected, found) = Place.of(words), words[6:9]
    return Row({
        "record": place.record, "seconds": place.seconds, "cycle": place.cycle, "channel": place.channel,
        "slot": place.slot, "node": None if node is None else network.node(node), "name": name,
        "expected": text(expected), "found": text(found), "why": why(network, name, place, expected, found, node),
    }, True)


def back_row(network: Network, words: list[str]) -> Row:
    """Returns the row of a line `back`."""
    place, node, times = Place.of(words), int(words[6]), int(words[7])
    missed = "once" if times == 1 else f"{times} times"
    return Row({
        "record": place.record, "seconds": place.seconds, "cycle": place.cycle, "channel": place.channel,
        "slot": place.slot, "node": network.node(node), "name": BACK, "found": str(times),
        "why": f"{network.node(node)} is back after it was missing {missed}",
    })


def total_row(words: list[str]) -> Row:
    """Returns the row of the line `records`."""
    return Row(dict(zip(words[::2], map(int, words[1::2]))))


def channel_row(words: list[str]) -> Row:
    """Returns the row of a line `channel`."""
    keys = dict(zip(words[2::2], words[3::2]))
    counts = {key: int(keys[key]) for key in ("frames", "cycles", "gaps", "lost")}
    return Row({"channel": words[1], **counts, "shortest_us": microseconds(keys["shortest"]),
                "longest_us": microseconds(keys["longest"])})


def slot_row(network: Network, words: list[str]) -> Row:
    """Returns the row of a line `slot`."""
    keys = dict(zip(words[4::2], words[5::2]))
    nodes = () if words[3] == "-" else tuple(int(it) for it in words[3].split(","))
    counts = {key: int(keys[key]) for key in ("data", "null", "missing", "other")}
    return Row({"slot": int(words[1]), "channel": words[2], "nodes": Numbers(nodes),
                "names": ", ".join(str(network.node(it)) for it in nodes), **counts,
                "shortest_us": microseconds(keys["shortest"]), "longest_us": microseconds(keys["longest"])},
               counts["missing"] + counts["other"] > 0)


def found_row(words: list[str]) -> Row:
    """Returns the row of a line `found`."""
    return Row({"name": words[1], "count": int(words[2]), "meaning": MEANINGS.get(words[1])}, True)
