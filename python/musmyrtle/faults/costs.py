"""The costs of a fault: the end of a run that has it, compared with the end of the run without it."""
from bisect import bisect_right
from collections.abc import Iterator
from dataclasses import dataclass

from musmyrtle.faults.fifo_costs import fifo_effects
from musmyrtle.faults.fifos import Fifo
from musmyrtle.faults.played import Fifos, Played
from musmyrtle.outcomes import NodeOutcome, Outcome
from musmyrtle.scenario import Scenario
from musmyrtle.world.replies import Counters, Queue, ReceiveBuffer, TransmitBuffer

NOT_COMPARABLE, IDLE = "not comparable", "idle"
EFFECTS = {
    "refused": "the run was refused",
    "killed": "the run was killed",
    "unreadable": "the output of the run is no outcome",
    NOT_COMPARABLE: "the content of a FIFO isn't known, so that a frame of it may be lost",
    "lost": "a buffer holds nothing, or a FIFO lost frames or never got them",
    "older": "a buffer holds an older frame",
    "changed": "a buffer holds another payload, or a FIFO got other frames",
    "pending": "more commits are still pending",
    "unsent": "fewer commits were sent",
    "counted": "the counters differ, and nothing is lost",
    "newer": "a buffer holds a newer frame of the same payload",
    "channel": "the same frame came by the other channel",
    "sent": "a commit was sent that stays behind without the fault",
    IDLE: "the node sends nothing there, so that there is no run",
}
"""All effects, the worst first."""
FAILED = ("refused", "killed", "unreadable")
COSTS = (NOT_COMPARABLE, "lost", "older", "changed", "pending", "unsent")
LOSSES = (NOT_COMPARABLE, "lost")
HARMLESS = ("counted", "newer", "channel", "sent")
RANKS = {name: rank for rank, name in enumerate(reversed(EFFECTS))}


@dataclass(frozen=True)
class Difference:
    """One difference that a fault makes to a node: the thing, the effect with its amount, and both states."""

    node: int | None
    thing: str
    """`rx B`, `tx B`, `queue` for the receive FIFO, the channel of the counters, or `-` where there is no outcome."""
    effect: str
    amount: int
    """Cycles for `older` and `newer`, frames of a FIFO, commits of a transmit buffer, counts of a channel, or 1."""
    without: str
    having: str

    @property
    def is_cost(self) -> bool:
        return self.effect in COSTS

    @property
    def rank(self) -> tuple[int, int]:
        """Returns the rank of an effect; a greater one is worse."""
        return RANKS[self.effect], self.amount


def worst(differences: list[Difference]) -> Difference | None:
    return max(differences, key=lambda it: it.rank) if differences else None


class Calendar:
    """The cycle of each entry of a journal, from its windows and the task lines before them."""

    def __init__(self, scenario: Scenario, starts: list[int]):
        self.begins: dict[int, list[int]] = {}
        """The entry with which the windows of each cycle begin, by node."""
        calls: dict[int, list[int]] = {}
        for cycle, line in scenario.calls(len(starts)):
            calls.setdefault(line.value("NODE"), [0] * len(starts))[cycle] += 1
        self.usual = [2 * start for start in starts]
        for node, counts in calls.items():
            before = 0
            self.begins[node] = []
            for start, count in zip(starts, counts):
                before += count
                self.begins[node].append(2 * start + before)

    def cycle(self, node: int, entry: int) -> int:
        """Returns the cycle of the run in which the entry of a window was made."""
        return bisect_right(self.begins.get(node, self.usual), entry) - 1


@dataclass(frozen=True)
class Ended:
    """The end of a run: its outcome, the cycles of its entries, and the frames of its FIFOs."""

    outcome: Outcome
    calendar: Calendar
    fifos: Fifos

    def fifo(self, node: int) -> Fifo | str:
        """Returns the frames of a node's FIFO, or why they aren't known."""
        found, counts = self.fifos.get(node, "it wasn't read"), self.outcome.nodes[node].queue
        if isinstance(found, str) or counts == Queue(len(found.waiting), len(found.overwritten)):
            return found
        return f"its trace has {len(found.waiting)} frames waiting and {len(found.overwritten)} overwritten"


def ended(scenario: Scenario, outcome: Outcome, played: Played) -> Ended:
    return Ended(outcome, Calendar(scenario, played.starts), played.fifos)


def differences(without: Ended, having: Ended) -> list[Difference]:
    """Returns all differences, by node and number of its buffer, then its FIFO and its channels."""
    found: list[Difference] = []
    for number, (before, after) in enumerate(zip(without.outcome.nodes, having.outcome.nodes)):
        for buffer, (one, other) in enumerate(zip(before.buffers, after.buffers)):
            if isinstance(one, TransmitBuffer) and isinstance(other, TransmitBuffer):
                found += sent_otherwise(number, buffer, one, other)
            elif isinstance(one, ReceiveBuffer) and isinstance(other, ReceiveBuffer):
                found += held_otherwise(Held(without, number, one), Held(having, number, other), buffer)
        found += queued_otherwise(number, without, having)
        found += counted_otherwise(number, before, after)
    return found


@dataclass(frozen=True)
class Held:
    """The content of a receive buffer at the end of a run."""

    ended: Ended
    node: int
    buffer: ReceiveBuffer

    @property
    def cycle(self) -> int | None:
        """Returns the cycle of its frame, or None if it holds nothing."""
        entry = self.buffer.entry
        return None if entry is None else self.ended.calendar.cycle(self.node, entry)

    def __str__(self) -> str:
        it = self.buffer
        return "-" if it.entry is None or it.payload is None else f"{self.cycle}:{it.channel} x{it.payload.hex()}"


def held_otherwise(one: Held, other: Held, buffer: int) -> Iterator[Difference]:
    is_same = one.buffer is other.buffer and one.ended.calendar is other.ended.calendar
    if is_same or str(one) == str(other):
        return
    effect, amount = held_effect(one, other)
    yield Difference(one.node, f"rx {buffer}", effect, amount, str(one), str(other))


def held_effect(one: Held, other: Held) -> tuple[str, int]:
    before, after = one.cycle, other.cycle
    if after is None:
        return "lost", 1
    if before is None:
        return "changed", 1
    if after < before:
        return "older", before - after
    if one.buffer.payload != other.buffer.payload:
        return "changed", 1
    return ("newer", after - before) if after > before else ("channel", 1)


def sent_otherwise(node: int, buffer: int, one: TransmitBuffer, other: TransmitBuffer) -> Iterator[Difference]:
    for effect, amount in sent_effects(one, other):
        yield Difference(node, f"tx {buffer}", effect, amount, spelled_sent(one), spelled_sent(other))


def sent_effects(one: TransmitBuffer, other: TransmitBuffer) -> Iterator[tuple[str, int]]:
    """Yields each effect on the commits of a buffer with its number of commits, the costs first."""
    if one == other:
        return
    # A commit that starves is pending, and those that it overwrote weren't sent: neither count has the other in it.
    if other.pending > one.pending:
        yield "pending", other.pending - one.pending
    if other.sent < one.sent:
        yield "unsent", one.sent - other.sent
    elif other.sent > one.sent or other.pending <= one.pending:
        yield "sent", other.sent - one.sent


def spelled_sent(it: TransmitBuffer) -> str:
    return f"{it.committed} {it.sent} {it.overwritten} {it.pending} {it.withdrawn}"


def queued_otherwise(node: int, without: Ended, having: Ended) -> Iterator[Difference]:
    """Yields the differences between the frames that the tasks popped or can still pop."""
    one, other = without.outcome.nodes[node].queue, having.outcome.nodes[node].queue
    if one is None or other is None:
        return
    texts = f"{one.waiting} {one.lost}", f"{other.waiting} {other.lost}"
    if without.fifos is having.fifos and one == other:
        # The fault can't reach a FIFO, so no frame of one can have changed.
        return
    before, after = without.fifo(node), having.fifo(node)
    for why in (before, after):
        if isinstance(why, str):
            yield Difference(node, "queue", NOT_COMPARABLE, 1, texts[0], f"{texts[1]}: {why}")
            return
    if isinstance(before, Fifo) and isinstance(after, Fifo):
        for effect, amount in fifo_effects(before, after):
            yield Difference(node, "queue", effect, amount, *texts)


def counted_otherwise(node: int, before: NodeOutcome, after: NodeOutcome) -> Iterator[Difference]:
    for channel in "AB":
        one, other = spelled_counts(before.counters[channel]), spelled_counts(after.counters[channel])
        if one != other:
            pairs = zip(one, other)
            amount = sum(abs(b - a) for a, b in pairs)
            yield Difference(node, channel, "counted", amount, " ".join(map(str, one)), " ".join(map(str, other)))


def spelled_counts(it: Counters) -> tuple[int, ...]:
    return it.valid, it.syntax, it.content, it.boundary, it.conflict
