"""The findings of `lint` as rows, for JSON and CSV."""
from collections.abc import Iterable

from musmyrtle.findings import Finding
from musmyrtle.lint.lint import Lint
from musmyrtle.show.tables import Column, Row, Section

ANSWER = tuple(Column(it, it) for it in ("program", "refusal", "further_warnings"))
FINDING = tuple(Column(it, it) for it in (
    "refusal", "name", "file", "line", "column", "headline", "reason", "related"))


def sections(program: str, refusal: str | None, found: Lint) -> list[Section]:
    """Returns the answer of the program, and the findings."""
    answer = Row({"program": program, "refusal": refusal, "further_warnings": found.further_warnings})
    return [Section("answer", "", ANSWER, [answer]),
            Section("refused", "", FINDING, [row_of(finding, words) for words, finding in found.refusals]),
            Section("warning", "", FINDING, rows_of(found.warnings)),
            Section("note", "", FINDING, rows_of(found.notes)),
            Section("error", "", FINDING, rows_of(found.errors))]


def rows_of(findings: Iterable[Finding]) -> list[Row]:
    """Returns a row for each finding."""
    return [row_of(it) for it in findings]


def row_of(finding: Finding, refusal: str | None = None) -> Row:
    """Returns the row of a finding, with the words of its refusal if it is one."""
    place = finding.place
    related = "; ".join(f"{it.place}: {it.text}" if it.place else it.text for it in finding.notes)
    return Row({
        "refusal": refusal, "name": finding.name or None, "file": place.file if place else None,
        "line": place.line if place else None, "column": place.column if place else None,
        "headline": finding.headline, "reason": finding.reason, "related": related or None,
    })
