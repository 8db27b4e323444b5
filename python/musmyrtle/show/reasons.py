"""The reasons why a commit wasn't delivered, from the facts of its run."""
from collections.abc import Iterator

from musmyrtle.findings import joined
from musmyrtle.show.causes import Turn
from musmyrtle.show.facts import Commit, Facts, Sent
from musmyrtle.show.tables import numbers_text

NOT_STORED = "sent on {}, and stored nowhere,"
COLLIDED = "collided"
ENDS = {COLLIDED: "collided on {}", "muted": "lost on {}", "blocked": "stopped on {} by the bus guardian",
        "turned": "a bit was flipped on {}", "overrun": "too long on {}"}
"""The reasons of the ends of transmissions, with the channel."""


def cycles_text(cycles: list[int]) -> str:
    """Returns `cycle 3`, or `cycles 0-3,5`."""
    return f"cycle {cycles[0]}" if len(cycles) == 1 else f"cycles {numbers_text(sorted(cycles))}"


def lines_text(lines: list[int], are_known: bool) -> str:
    """Returns `, by line 12`, or `, by lines 12-13`, for lines of the scenario; nothing for none.

    The lines of a scenario that the package made aren't known to a reader: they are `, by a fault`, or `, by faults`.
    """
    if not lines:
        return ""
    if not are_known:
        return ", by a fault" if len(lines) == 1 else ", by faults"
    return f", by line {lines[0]}" if len(lines) == 1 else f", by lines {numbers_text(lines)}"


def why(facts: Facts, commit: Commit) -> str:
    """Returns why no receiver stored a commit."""
    if commit.fate == "sent":
        return "; ".join(lost(facts, commit.sent))
    before = "; ".join(unsent(facts, commit))
    after = f"; {before}" if before else ""
    if commit.fate == "pending":
        return before or waiting(facts, commit)
    return f"{commit.fate} in cycle {commit.ended}{after}"


def lost(facts: Facts, sent: tuple[Sent, ...]) -> Iterator[str]:
    """Yields each reason why transmissions weren't stored, with the cycles and the lines that caused it."""
    cycles: dict[str, list[int]] = {}
    lines: dict[str, set[int]] = {}
    for it in sent:
        causes = [cause for cause in facts.causes.of((it.cycle, it.slot, it.channel)) if cause.end == it.end]
        nodes = sorted({cause.node for cause in causes}) if it.end == COLLIDED else []
        names = joined([str(facts.network.node(node)) for node in nodes])
        reason = ENDS.get(it.end, NOT_STORED).format(it.channel) + (f" with {names}" if names else "")
        cycles.setdefault(reason, []).append(it.cycle)
        lines.setdefault(reason, set()).update(cause.line for cause in causes)
    for reason, its in cycles.items():
        yield f"{reason} in {cycles_text(its)}{lines_text(sorted(lines[reason]), facts.inputs.has_lines)}"


def waiting(facts: Facts, commit: Commit) -> str:
    """Returns that a commit waits at the end, with the cycles in which its buffer sends."""
    cycles = facts.sending.get((commit.node, commit.buffer))
    return "it waits at the end of the run" + (f"; its buffer sends in {joined(cycles)}" if cycles else "")


def unsent(facts: Facts, commit: Commit) -> Iterator[str]:
    """Yields the reasons why the slot of a commit couldn't be used, with the cycles in which it was due.

    It is pending from the windows of its own cycle on: calls come before them. The call that ends it comes before those
    of the cycle in which it ends.
    """
    until = facts.inputs.cycles if commit.ended is None else commit.ended
    found: dict[str, list[int]] = {}
    for turn in facts.causes.turns.get((commit.node, commit.buffer), []):
        if commit.cycle <= turn.cycle < until:
            found.setdefault(unused(turn), []).append(turn.cycle)
    for reason, cycles in found.items():
        yield f"{reason} in {cycles_text(cycles)}"


def unused(turn: Turn) -> str:
    """Returns why a slot couldn't be used in a cycle."""
    if turn.minislot is None:
        return f"slot {turn.slot} didn't open"
    return f"slot {turn.slot} opened at minislot {turn.minislot}, latest is {turn.latest},"
