"""Scenarios with comments that say the signals of each payload."""
from collections.abc import Iterator
from dataclasses import dataclass, field
from itertools import groupby

from musmyrtle.cluster import Buffer
from musmyrtle.scenario import LONGEST_LINE, Scenario
from musmyrtle.scenario_lines import EXPECTATIONS, Line
from musmyrtle.signals.frames import Frames
from musmyrtle.signals.layout import Layout
from musmyrtle.signals.refusals import UnknownSignal
from musmyrtle.signals.texts import bytes_of, comment_of

PAYLOADS = ("commit", *EXPECTATIONS)
"""The lines that may have a payload."""


@dataclass
class Annotated:
    """The lines of a scenario with their comments, and the lines without one, each with the reason."""

    lines: list[str] = field(default_factory=list)
    without: list[tuple[int, str]] = field(default_factory=list)


def annotated(scenario: Scenario, frames: Frames) -> Annotated:
    """Returns the lines of a right scenario of version 3 with the signals of each payload behind them.

    Nothing else changes. A comment of signals that is there already is replaced, and other comments stay before it.
    """
    found = Annotated(list(scenario.text))
    for number, lines in groupby(with_payloads(scenario), key=lambda it: it.number):
        line, *others = lines
        if any(content_of(it) != content_of(line) for it in others):
            found.without.append((number, "its lists have several payloads or buffers"))
            continue
        try:
            layout = frames.layout_of(buffer_of(frames, line))
        except UnknownSignal as error:
            found.without.append((line.number, str(error)))
            continue
        text = found.lines[line.number - 1]
        found.lines[line.number - 1] = with_comment(text, layout, bytes_of(line.words[-1]) or b"")
    return found


def with_payloads(scenario: Scenario) -> Iterator[Line]:
    """Yields the commits and expectations that have a payload, in the order of the text."""
    lines = [line for script in scenario.scripts.values() for line in script] + scenario.expectations
    for line in sorted(lines, key=lambda it: it.number):
        if line.kind in PAYLOADS and bytes_of(line.words[-1]) is not None:
            yield line


def content_of(line: Line) -> tuple[str, str, str]:
    """Returns the node, the buffer and the payload of a line."""
    return line.word("NODE"), line.word("BUFFER"), line.words[-1]


def buffer_of(frames: Frames, line: Line) -> Buffer:
    """Returns the buffer of a line. Raises `UnknownSignal` if the cluster doesn't have it."""
    nodes, node, number = frames.cluster.nodes, line.value("NODE"), line.value("BUFFER")
    if node >= len(nodes) or number >= len(nodes[node].buffers):
        raise UnknownSignal(f"the cluster has no buffer {number} of node {node}")
    return nodes[node].buffers[number]


def with_comment(text: str, layout: Layout, payload: bytes) -> str:
    """Returns a line with the signals of its payload. It has at most as many bytes as a line may have."""
    front = without_comment(text, layout)
    room = LONGEST_LINE - len(front.encode()) - 1
    made = comment_of(layout, payload, room)
    return f"{front} {made}" if made else front


def without_comment(text: str, layout: Layout) -> str:
    """Returns a line without its last comment and the space before it, if that comment has signals of the frame."""
    front, _, last = text.rpartition("#")
    name, sign, _ = last.strip(" \t").partition("=")
    return front.removesuffix(" ") if sign and name in layout.signals else text
