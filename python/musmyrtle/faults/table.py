"""The table of the costs of faults, as a text, its summary, and the increases over an earlier table."""
from collections.abc import Iterable, Iterator
from dataclasses import dataclass, field

from musmyrtle.cluster import Cluster
from musmyrtle.faults.costs import (
    COSTS, EFFECTS, FAILED, IDLE, NOT_COMPARABLE, RANKS, Difference, sent_effects, worst,
)
from musmyrtle.faults.labels import ONE_CHANNEL, Labels
from musmyrtle.faults.listing import KINDS, PROMISE, LeftOut, SingleFault, is_stopped
from musmyrtle.findings import counted
from musmyrtle.scenario import MOST_LINES
from musmyrtle.show.tables import Column, Row, Section, Value
from musmyrtle.world.replies import TransmitBuffer

COLUMNS = ("kind", "node", "channels", "cycles", "place", "receiver", "thing", "effect", "amount", "without", "with")
HEADING = "\t".join(COLUMNS) + "\n"
HEADING_OF_ONE_CHANNEL = HEADING.replace("channels", "channel")
"""The heading of earlier versions, in which each fault is of one channel."""
HEADINGS, LONGEST_HEADING = (HEADING, HEADING_OF_ONE_CHANNEL), len(HEADING)
Done = list[tuple[SingleFault, list[Difference]]]
"""Faults in the order of their list, each with the differences of its run."""
PROVED = "proved"
HARMLESS_WORDS = ("harmless: counters alone (counted), the frame by the other channel (channel), a newer frame "
                  "(newer), more sent (sent)")


class BadTable(ValueError):
    """A text that isn't a table of this form."""


@dataclass(frozen=True)
class Results:
    """All faults with their costs, and the facts printed beside them."""

    done: Done
    cluster: Cluster
    cycles: int
    left_out: LeftOut = field(default_factory=LeftOut)
    overwritten: dict[int, int] = field(default_factory=dict)
    """The number of frames that each overwriting FIFO overwrites without any fault, by node."""
    quiet: tuple[int, ...] = ()
    """The nodes that could send data and for which there is no commit."""
    labels: Labels = field(default_factory=Labels)

    @property
    def runs(self) -> Done:
        """Returns the faults that have a run: all but those of idle nodes, and those that are proved harmless."""
        return [(fault, found) for fault, found in self.done if fault.has_run]

    @property
    def idle(self) -> list[SingleFault]:
        return [fault for fault, _ in self.done if fault.is_idle]

    @property
    def proved(self) -> list[SingleFault]:
        return [fault for fault, _ in self.done if fault.is_proved]


def table(done: Done) -> Iterator[str]:
    yield HEADING
    # A fault without a difference has no line: it is only counted.
    for fault, found in done:
        for it in found:
            receiver = "-" if it.node is None else str(it.node)
            words = (*fault.words, receiver, it.thing, it.effect, str(it.amount), it.without, it.having)
            yield "\t".join(words) + "\n"


def listed(faults: Iterable[SingleFault]) -> Iterator[str]:
    """Yields a line for each fault: its words, and `idle` where its node sends nothing there, or `proved` where a proof
    takes the place of a run."""
    for fault in faults:
        more = (IDLE,) if fault.is_idle else (PROVED,) if fault.is_proved else ()
        yield "\t".join((*fault.words, *more)) + "\n"


FAULT = (Column("fault", "fault"), Column("node", "node"), Column("channels", "channels"), Column("cycles", "cycles"),
         Column("place", "place"))
DIFFERENCE = (*FAULT, Column("receiver", "receiver"), Column("thing", "thing"), Column("effect", "effect"),
              Column("amount", "amount"), Column("without", "without"), Column("with", "with"))


def fault_values(fault: SingleFault) -> dict[str, Value]:
    """Returns the five words of a fault as values."""
    return {"fault": fault.kind, "node": fault.node, "channels": fault.channels, "cycles": fault.cycles,
            "place": fault.place}


def table_rows(done: Done) -> Section:
    """Returns the table as rows, for JSON and CSV."""
    rows = [Row({**fault_values(fault), "receiver": it.node, "thing": it.thing, "effect": it.effect,
                 "amount": it.amount, "without": it.without, "with": it.having})
            for fault, found in done for it in found]
    return Section("difference", "", DIFFERENCE, rows)


def list_rows(faults: Iterable[SingleFault]) -> Section:
    """Returns the list of faults as rows, for JSON and CSV."""
    rows = [Row({**fault_values(it), "is_idle": it.is_idle, "is_proved": it.is_proved}) for it in faults]
    return Section("fault", "", (*FAULT, Column("is_idle", "idle"), Column("is_proved", "proved")), rows)


def total_rows(results: Results) -> Section:
    """Returns the row with the number of faults, of their runs, and of those without a run, for JSON and CSV."""
    proved = len(results.proved)
    values: dict[str, Value] = {"faults": len(results.done), "runs": len(results.runs), "idle": len(results.idle),
                                "proved": proved, "promise": PROMISE if proved else None}
    return Section("total", "", tuple(Column(key, key) for key in values), [Row(values)])


@dataclass(frozen=True)
class Ranks:
    """The effects of each thing in a printed table, with their amounts: by the words of fault, receiver and thing."""

    effects: dict[tuple[str, ...], dict[str, int]]
    is_of_one_channel: bool
    """True for a table of an earlier version, which had no faults of both channels."""

    def has(self, fault: SingleFault) -> bool:
        """Returns whether the list of the table can have had the fault."""
        return not (self.is_of_one_channel and fault.is_of_both)

    def is_exceeded(self, fault: SingleFault, found: Difference) -> bool:
        """Returns whether a cost is greater than in the table, or not in it.

        A receive buffer has one state, whose effects are ordered. The effects on a transmit buffer or a FIFO are counts
        of their own, and each is compared with itself.
        """
        before = self.effects.get((*fault.words, "-" if found.node is None else str(found.node), found.thing), {})
        if found.effect in APART and NOT_COMPARABLE not in before and not found.thing.startswith("rx"):
            return found.amount > before.get(found.effect, 0)
        return found.rank > max(((RANKS[effect], amount) for effect, amount in before.items()), default=(-1, 0))


APART = ("lost", "changed", "pending", "unsent")
"""The costs that a FIFO or a transmit buffer can have at once."""


def read_ranks(text: str) -> Ranks:
    lines = text.split("\n")
    if lines[0] + "\n" not in HEADINGS or lines[-1]:
        raise BadTable("isn't a whole table of faults")
    found: dict[tuple[str, ...], dict[str, int]] = {}
    for number, line in enumerate(lines[1:-1], 2):
        words = line.split("\t")
        if len(words) != len(COLUMNS) or words[7] not in EFFECTS or not words[8].isdecimal():
            raise BadTable(f"has no fault in line {number}")
        of_thing = found.setdefault(tuple(words[:7]), {})
        for effect, amount in ((words[7], int(words[8])), *effects_of_states(words)):
            of_thing[effect] = max(of_thing.get(effect, 0), amount)
    return Ranks(found, lines[0] + "\n" != HEADING)


def effects_of_states(words: list[str]) -> Iterator[tuple[str, int]]:
    """Yields the effects by the states of a transmit buffer: tables of earlier versions have only the worst one."""
    states = [[int(it) for it in word.split(" ") if it.isdecimal()] for word in words[9:11]]
    if words[6].startswith("tx ") and [len(it) for it in states] == [5, 5]:
        yield from sent_effects(TransmitBuffer(*states[0]), TransmitBuffer(*states[1]))


def worse(done: Done, before: Ranks) -> list[tuple[SingleFault, Difference]]:
    """Returns the differences that cost more than in an earlier table, or cost nothing in it.

    A fault that its list can't have had isn't compared.
    """
    return [(fault, it) for fault, differences in done if before.has(fault) for it in differences
            if it.is_cost and before.is_exceeded(fault, it)]


def not_compared(done: Done, before: Ranks) -> Iterator[str]:
    """Yields the lines that aren't compared with an earlier table."""
    new = sum(not before.has(fault) for fault, _ in done)
    if new:
        yield (f"not compared: {counted(new, 'fault')} on both channels, since the table is of an earlier version, "
               "which had none; make it anew\n")
    failures = sum(is_failed(found) for _, found in done)
    if failures:
        yield f"not compared: {counted(failures, 'run')} that failed\n"


# ---- in words

def told(it: Difference, labels: Labels = Labels()) -> str:
    """Returns a difference in words, as `node 3 rx 2: lost`."""
    if it.node is None:
        return f"{it.effect}: {it.having}" if it.effect in FAILED else it.effect
    more = {
        NOT_COMPARABLE: f"{NOT_COMPARABLE}, which counts as a loss",
        "lost": counted(it.amount, "frame") + " lost" if it.thing == "queue" else "lost",
        "older": f"older by {counted(it.amount, 'cycle')}",
        "changed": counted(it.amount, "other frame") if it.thing == "queue" else "another payload",
        "pending": f"{counted(it.amount, 'commit')} more pending",
        "unsent": f"{counted(it.amount, 'commit')} fewer sent",
        "newer": f"newer by {counted(it.amount, 'cycle')}",
        "channel": "by the other channel",
        "counted": "counted otherwise",
        "sent": "sent otherwise",
    }
    return f"{labels.node(it.node)} {labels.thing(it.node, it.thing)}: {more[it.effect]}"


def kind_label(kind: str, is_of_both: bool) -> str:
    return f"{kind}, both channels" if is_of_both else f"{kind}, {ONE_CHANNEL}"


def rows(results: Results) -> Iterator[tuple[str, str, list[int]]]:
    """Yields the rows of the summary.

    A row is a kind, on both channels or on one, with its label, its description, and the counts of its runs and of its
    faults that are proved harmless. The last row is for all kinds.
    """
    done = [(fault, it) for fault, it in results.done if not fault.is_idle]
    for kind, what in KINDS.items():
        for is_of_both in (True, False):
            found = [(fault, it) for fault, it in done if fault.kind == kind and fault.is_of_both == is_of_both]
            if found:
                yield kind_label(kind, is_of_both), what, counts(found)
    yield "all", "", counts(done)


COUNTED = ("runs", "harmless", *COSTS, "failed", PROVED)
"""The headings of the counts. Each run is counted once after the first, by its worst effect. The last has no runs."""


def counts(done: Done) -> list[int]:
    words = [verdict(it) for fault, it in done if fault.has_run]
    return [len(words), *(words.count(it) for it in COUNTED[1:-1]), sum(fault.is_proved for fault, _ in done)]


def verdict(found: list[Difference]) -> str:
    """Returns the worst result of a run: a cost, `failed` where it has no outcome, or `harmless`."""
    bad = worst(found)
    if bad is None:
        return "harmless"
    return "failed" if bad.effect in FAILED else bad.effect if bad.is_cost else "harmless"


def is_failed(found: list[Difference]) -> bool:
    return any(it.effect in FAILED for it in found)


def summary(results: Results) -> Iterator[str]:
    """Yields a line for each kind: the number of runs, of those without a cost, and the worst costs of the others."""
    lines = [("kind", *COUNTED), *((label, *map(str, numbers)) for label, _, numbers in rows(results))]
    widths = [max(len(line[column]) for line in lines) for column in range(len(lines[0]))]
    for line in lines:
        rest = (word.rjust(width) for word, width in zip(line[1:], widths[1:]))
        yield "  ".join([line[0].ljust(widths[0]), *rest]) + "\n"
    yield "each run is counted once, by its worst effect\n"
    yield HARMLESS_WORDS + "\n"
    for note in notes(results):
        yield note + "\n"


def notes(results: Results) -> Iterator[str]:
    """Yields sentences on the runs as a whole."""
    yield from stopped(results)
    if results.proved:
        yield (f"{counted(len(results.proved), 'fault')} proved harmless, without a run: guardians stop each babble in "
               f"guarded static slots that aren't the node's own (promise {PROMISE}); --run-proved runs them")
    for node, count in sorted(results.overwritten.items()):
        yield (f"{results.labels.node(node)}: FIFO not emptied by its tasks: {counted(count, 'frame')} overwritten "
               "without any fault")
    if results.quiet:
        yield ("there is no commit for " + ", ".join(map(results.labels.node, results.quiet))
               + ": nothing of these can be lost here")
    if results.idle:
        yield (f"{counted(len(results.idle), 'fault')} idle, without a run, since the node sends nothing there: "
               + ", ".join(f"node {it.node} on {' and '.join(it.channels)}" for it in results.idle))
    hidden = sum(verdict(it) not in ("unsent", "failed") and any(one.effect == "unsent" for one in it)
                 for _, it in results.runs)
    if hidden:
        yield f"in {counted(hidden, 'run')} counted by a worse effect fewer commits were sent (unsent), too"
    if results.left_out.taken:
        taken = counted(results.left_out.taken, "fault")
        yield f"{taken} left out: the scenario has one of the kind in each of their windows"
    if results.left_out.unopened:
        yield f"{counted(results.left_out.unopened, 'fault')} left out: no slot opens at their minislot"
    if results.left_out.long:
        yield (f"{counted(results.left_out.long, 'fault')} left out: a scenario has {MOST_LINES} lines at most; "
               "select fewer cycles by --in-cycle")


def stopped(results: Results) -> Iterator[str]:
    """Yields the sentence on the faults that guardians stop without any effect. Only runs with an outcome count."""
    of_others = [found for fault, found in results.runs if is_stopped(fault, results.cluster, results.cycles)]
    completed = [found for found in of_others if not is_failed(found)]
    if not of_others:
        return
    costing, failures = sum(bool(it) for it in completed), len(of_others) - len(completed)
    is_told = f"{costing or 'none'} made any difference to a node" if completed else "no run completed"
    yield (f"of the babbles in guarded static slots that aren't the node's own, {len(completed)}, {is_told}"
           + (f"; {failures} more failed" if failures else ""))


def hurting(done: Done) -> list[tuple[list[SingleFault], list[Difference]]]:
    """Returns the faults that cost something, those with equal costs together and the costliest first.

    They are ordered by the number of things that aren't comparable, then lost, older, changed, and of each by its
    amount.
    """
    alike: dict[tuple[object, ...], tuple[list[SingleFault], list[Difference]]] = {}
    for fault, found in done:
        costs = [it for it in found if it.is_cost]
        if costs:
            key = tuple((it.node, it.thing, it.effect, it.amount) for it in costs)
            alike.setdefault(key, ([], costs))[0].append(fault)
    return sorted(alike.values(), key=lambda it: weight(it[1]), reverse=True)


def weight(found: list[Difference]) -> tuple[tuple[int, int], ...]:
    of_each = ([it.amount for it in found if it.effect == cost] for cost in COSTS)
    return tuple((len(amounts), sum(amounts)) for amounts in of_each)
