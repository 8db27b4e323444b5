"""The matrices of the page: for each sort of faults the nodes that have it and the nodes that it hurts."""
from collections.abc import Iterator
from dataclasses import dataclass, field
from html import escape

from musmyrtle.faults.costs import NOT_COMPARABLE, Difference, worst
from musmyrtle.faults.labels import ONE_CHANNEL, Labels, fault_label, grouped
from musmyrtle.faults.listing import SingleFault
from musmyrtle.faults.table import Done, Results, is_failed, told
from musmyrtle.findings import counted

LONGEST = 60
SORTS = (
    ("Node fails silent", "All that a node sends is lost, on both channels (`lost N AB`)."),
    ("Node babbles", "A node sends beside all others, at the same place on both channels (`noise N AB`, "
                     "`forged N AB`)."),
    ("One channel disturbed", f"Each fault is on {ONE_CHANNEL}, and the other channel is as it was: a node is lost or "
                              "babbles there, or a frame is disturbed. What is sent on both channels can still arrive "
                              "by the other one."),
)
"""The sorts of faults in the order of the page, with their descriptions."""


def sort_of(fault: SingleFault) -> int:
    if not fault.is_of_both:
        return 2
    return 1 if fault.is_babble else 0


@dataclass
class Row:
    """The faults of a node, or of the frames of a channel."""

    faults: Done = field(default_factory=list)

    @property
    def runs(self) -> Done:
        return [(fault, found) for fault, found in self.faults if not fault.is_idle]

    @property
    def completed(self) -> Done:
        return [(fault, found) for fault, found in self.runs if not is_failed(found)]

    def of_receiver(self, receiver: int) -> Done:
        """Returns the faults that make a difference to a node, with the differences there."""
        of_each = ((fault, [it for it in found if it.node == receiver]) for fault, found in self.completed)
        return [(fault, found) for fault, found in of_each if found]


@dataclass
class Matrix:
    """One sort of faults: a row for each node or channel that has some."""

    number: int
    results: Results
    rows: dict[int, Row] = field(default_factory=dict)

    @property
    def labels(self) -> Labels:
        return self.results.labels

    def add(self, fault: SingleFault, found: list[Difference]) -> None:
        row = len(self.columns) + "AB".index(fault.channels) if fault.node is None else fault.node
        self.rows.setdefault(row, Row()).faults.append((fault, found))

    @property
    def columns(self) -> range:
        return range(len(self.results.cluster.nodes))

    def head(self, row: int) -> str:
        return self.labels.node(row) if row in self.columns else f"frames on {'AB'[row - len(self.columns)]}"

    # ---- as HTML

    def shown(self) -> Iterator[str]:
        title, what = SORTS[self.number]
        yield f"<h2>{escape(title)}</h2><p>{escape(what)}</p>"
        if not self.rows:
            yield "<p>None of these faults was listed, so nothing is said of them.</p>"
            return
        heads = "".join(f"<th>{escape(self.labels.node(it))}</th>" for it in self.columns)
        yield f'<table class="matrix"><tr><th>faulty \\ receiving</th>{heads}</tr>'
        for number, row in sorted(self.rows.items()):
            found = "".join(self.cell(number, row, column) for column in self.columns)
            yield f"<tr><th>{escape(self.head(number))}{remark(row)}</th>{found}</tr>"
        yield "</table>"
        for number, row in sorted(self.rows.items()):
            for column in self.columns:
                yield from self.section(number, row, column)

    def name(self, row: int, column: int) -> str:
        return f"c{self.number}-{row}-{column}"

    def cell(self, number: int, row: Row, column: int) -> str:
        if not row.completed:
            return f'<td class="nothing"><span>{"no outcome" if row.runs else "idle"}</span></td>'
        found = row.of_receiver(column)
        bad = worst([it for _, differences in found for it in differences])
        if bad is None:
            return '<td class="nothing"><span>-</span></td>'
        link = f'<a href="#{self.name(number, column)}">'
        if not bad.is_cost:
            return f'<td class="harmless">{link}harmless</a></td>'
        count = sum(any(it.effect == bad.effect for it in differences) for _, differences in found)
        by = f" by {bad.amount}" if bad.effect == "older" else ""
        is_unsent = bad.effect == "pending" and any(it.effect == "unsent" for _, its in found for it in its)
        more = ", unsent" if is_unsent else ""
        return f'<td class="{style(bad)}">{link}{bad.effect}{by}{more}<br>{counted(count, "fault")}</a></td>'

    def section(self, number: int, row: Row, column: int) -> Iterator[str]:
        found = row.of_receiver(column)
        if not found:
            return
        sort = f" ({ONE_CHANNEL} disturbed)" if self.number == 2 else ""
        head = escape(f"{self.head(number)}: what it does to {self.labels.node(column)}{sort}")
        yield f'<section class="cell" id="{self.name(number, column)}"><h3>{head}</h3>'
        costly = [(fault, differences) for fault, differences in found if any(it.is_cost for it in differences)]
        if costly:
            yield "<table><tr><th>fault</th><th>cost</th><th>without it</th><th>with it</th></tr>"
            for fault, differences in costly:
                yield from (line(fault, it, self.labels) for it in differences if it.is_cost)
            yield "</table>"
        harmless = [fault for fault, differences in found if not any(it.is_cost for it in differences)]
        if harmless:
            yield f"<p>Harmless: {escape(grouped(harmless))}.</p>"
        yield "</section>"


def matrices(results: Results) -> list[Matrix]:
    found = [Matrix(number, results) for number in range(len(SORTS))]
    for fault, differences in results.done:
        found[sort_of(fault)].add(fault, differences)
    return found


def remark(row: Row) -> str:
    """Returns a remark on failed runs and idle faults, which a row's runs don't show."""
    failures, idle = len(row.runs) - len(row.completed), [fault for fault, _ in row.faults if fault.is_idle]
    found = [f"{counted(failures, 'run')} failed"] if failures else []
    found += [f"sends nothing on {' and '.join(it.channels)}" for it in idle]
    return f'<br><small>{escape("; ".join(found))}</small>' if found else ""


def style(it: Difference) -> str:
    return "lost" if it.effect == NOT_COMPARABLE else it.effect


def line(fault: SingleFault, it: Difference, labels: Labels) -> str:
    what = f'<td>{escape(fault_label(fault))}</td><td class="{style(it)}">{escape(told(it, labels))}</td>'
    states = "".join(f"<td><code>{escape(cut(state))}</code></td>" for state in (it.without, it.having))
    return f"<tr>{what}{states}</tr>"


def cut(text: str) -> str:
    return text if len(text) <= LONGEST else f"{text[:LONGEST]}.."
