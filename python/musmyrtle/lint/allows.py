"""The names of all warnings and notes, and the comments of a cluster file that silence them.

`# lint: allow NAME, NAME: why` silences warnings of these names whose place is in the line, or in the next one where
the comment has a line of its own.
"""
import re
from collections.abc import Iterator
from itertools import islice

from musmyrtle.findings import Finding, joined, nearest
from musmyrtle.places import Place
from musmyrtle.texts import Text
from musmyrtle.visible import cut

WARNINGS = {
    "unread-key": "a key is unknown",
    "idle-key": "a key is read elsewhere, and means nothing where it stands",
    "repeated-name": "two nodes, or two buffers of a node, have the same `name`",
    "unusable-name": "a scenario can't use the `name` of a node or a buffer",
    "ambiguous-number": "a number in a scenario is also the name of another node or buffer",
    "never-sends": "a transmit buffer has no chance to send",
    "unfilled-slot": "a slot is owned, and no transmit buffer is for it",
    "sync-nodes": "fewer than 2 or more than 15 nodes have a sync slot",
    "key-slot": "a node has several sync slots",
    "sync-channels": "a sync slot is on one channel only",
    "startup-nodes": "fewer than 2 nodes have a startup slot",
    "receives-nothing": "nothing comes to a receive buffer or a receive FIFO",
    "doubled-receivers": "two receive buffers of a node receive the same frames",
    "fifo-behind-buffer": "a receive buffer receives frames that the receive FIFO is for",
    "fifo-overwrites": "the scenario never pops a receive FIFO, and the FIFO overwrites frames",
    "divided-slot": "a static slot is divided among nodes, or owned in some cycles only",
    "standard-range": "a parameter is out of the range of FlexRay 2.1 Rev A",
    "latest-tx": "a latest minislot leaves too little room for the node's longest dynamic frame",
    "bit-rate": "the bit rate isn't 10 Mbit/s",
    "physical": "a key of `[physical]` is missing or no number",
    "short-slots": "a slot is too short for its frame",
    "action-point": "a static frame fits only without an action point offset",
    "bad-signal": "a frame, a signal or the file of `signals` is described wrongly, so that no signal is read",
    "unknown-frame": "the `frame` of a buffer isn't the name of a frame",
    "long-frame": "a frame is longer than the payload of its transmit buffer",
    "shared-bits": "two signals of a frame, or a signal and an update bit, share bits",
    "value-range": "a limit or a name of values is for raw values that the bits of a signal can't have",
    "other-frame": "a receive buffer names another frame than the sender",
    "small-journal": "a journal has too little room for the run",
    "idle-fault": "a fault of the scenario has no effect",
    "wrong-expectation": "no run of the cluster meets an expectation of the scenario",
    "missed-expectation": "the run misses an expectation of the scenario",
    "unknown-allow": "a comment allows a name that no warning has",
}
NOTES = {
    "fault-tolerance": "2 nodes have a startup slot, and none may fail",
    "unchecked-bits": "the file has no `[physical]`, so slots aren't compared with bits",
    "skipped-line": "a line of the scenario is for no cycle of the run",
    "not-guaranteed": "frames in the slots before it can keep a transmit buffer from sending",
}
NAMES = {**WARNINGS, **NOTES}
MOST_UNKNOWN = 20
"""The number of unknown names that have a warning each; the others are counted."""
COMMENT = re.compile(r"""(?:[^"'#]|"(?:[^"\\]|\\.)*+"|'[^']*+')*+\#(.*)""")
ALLOW = re.compile(r"\s*lint:\s*allow\b(.*)")


class Allows:
    """The allowing comments of a text, found when they are asked for."""

    def __init__(self, text: Text):
        self.text = text
        self.has_any = re.search(r"lint:\s*allow\b", text.places.text) is not None
        self.kept: dict[int, frozenset[str]] = {}

    def names_of(self, number: int) -> frozenset[str]:
        """Returns the names that the comment of a line allows. A long line may have many findings."""
        if number not in self.kept:
            self.kept[number] = frozenset(self.names_in(self.line(number)))
        return self.kept[number]

    def names_in(self, line: str) -> list[str]:
        """Returns the names in the comment of a line."""
        comment = COMMENT.match(line) if "#" in line else None
        allowed = ALLOW.match(comment[1]) if comment else None
        return re.split(r"[\s,]+", allowed[1].partition(":")[0].strip()) if allowed else []

    def line(self, number: int) -> str:
        """Returns a line by its number, from 1."""
        places = self.text.places
        return places.text[places.starts[number - 1]:places.starts[number] - 1]

    def allow(self, finding: Finding) -> bool:
        """Returns whether a comment in the line of a finding, or alone in the line before, allows it."""
        place = finding.place
        if not self.has_any or place is None or place.file != self.text.file or finding.name == "unknown-allow":
            return False
        if finding.name in self.names_of(place.line):
            return True
        before = place.line - 1
        return before > 0 and finding.name in self.names_of(before) and self.line(before).lstrip().startswith("#")

    def unknown(self) -> tuple[list[Finding], int]:
        """Returns warnings of the first names in comments that no warning has, and how many more there are."""
        found = self.unknown_names()
        first = [unknown_name(name, self.place_in(number, line, name))
                 for name, number, line in islice(found, MOST_UNKNOWN)]
        return first, sum(1 for _ in found)

    def unknown_names(self) -> Iterator[tuple[str, int, str]]:
        """Yields each unknown name, with the number and the text of its line."""
        lines = self.text.places.text.split("\n") if self.has_any else []
        for number, line in enumerate(lines, 1):
            for name in self.names_in(line):
                if name not in NAMES:
                    yield name, number, line

    def place_in(self, number: int, line: str, name: str) -> Place:
        places = self.text.places
        at = line.rindex("allow") if not name else line.index(name, line.index("#"))
        return places.at(places.starts[number - 1] + at)


def unknown_name(name: str, place: Place | None) -> Finding:
    headline = f"no warning has the name `{cut(name)}`" if name else "`# lint: allow` has no name"
    return Finding(headline, expected_name(name), place, (), "unknown-allow")


def expected_name(name: str) -> str:
    """Returns what is expected instead of an unknown name."""
    meant = nearest(name, list(NAMES)) if name else None
    return (f"Is `{meant}` meant? " if meant else "") + f"Expected {joined([f'`{it}`' for it in NAMES], 'or')}."
