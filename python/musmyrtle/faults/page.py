"""A page of the costs of faults, which is self-contained: without a script, a font or anything from outside."""
import base64
import hashlib
from collections.abc import Iterator
from dataclasses import dataclass
from html import escape

from musmyrtle.faults.costs import FAILED
from musmyrtle.faults.labels import Labels, fault_label
from musmyrtle.faults.matrix import matrices
from musmyrtle.faults.table import COUNTED, Done, Results, hurting, notes, rows, told
from musmyrtle.findings import counted, joined
from musmyrtle.visible import visible

MOST_HURTING = 10
MOST_ALIKE = 4
STYLE = """
body { font: 15px/1.45 sans-serif; margin: 2em auto; max-width: 82em; padding: 0 1em; color: #222; background: #fff; }
table { border-collapse: collapse; margin: 1em 0; }
th, td { border: 1px solid #bbb; padding: .25em .5em; text-align: left; vertical-align: top; }
.matrix td { padding: 0; text-align: center; min-width: 4em; }
.matrix td a, .matrix td span { display: block; padding: .3em; color: inherit; text-decoration: none; }
.matrix td a:hover, .matrix td a:focus { outline: 2px solid #222; }
.lost, .failed { background: #b3261e; color: #fff; } .older { background: #f2a33a; }
.changed { background: #7a3e9d; color: #fff; }
.pending, .unsent { background: #f7e08a; } .harmless { background: #dcefe0; } .nothing { color: #888; }
.key span { padding: .1em .5em; margin-right: .5em; } th small { font-weight: normal; }
section.cell { display: none; border-left: 4px solid #555; padding-left: 1em; } section.cell:target { display: block; }
.number { text-align: right; } code { font-size: 13px; overflow-wrap: anywhere; }
@media print { section.cell { display: block; } }
"""
KEY = {
    "lost": "a buffer holds nothing, or a FIFO lost frames; also frames that are not comparable",
    "older": "a buffer holds an older frame",
    "changed": "a buffer holds another payload, or a FIFO other frames",
    "pending": "commits stay behind (pending), or fewer were sent (unsent)",
    "harmless": "the counters differ (counted), the same frame came by the other channel (channel), a newer frame came "
                "(newer), or more commits were sent (sent)",
    "nothing": "nothing differs; idle: the node sends nothing there",
}


@dataclass(frozen=True)
class Subject:
    """The files that a page describes, by name."""

    cluster_file: str
    scenario_file: str


def page(subject: Subject, results: Results) -> str:
    labels, runs = results.labels, results.runs
    title = f"Costs of single faults in {visible(subject.cluster_file)}"
    parts = [
        f'<!DOCTYPE html>\n<html lang="en"><head><meta charset="utf-8">{policy(STYLE)}<title>{escape(title)}</title>',
        f"<style>{STYLE}</style></head><body><h1>{escape(title)}</h1>",
        f"<p>Scenario {escape(visible(subject.scenario_file))}, {counted(results.cycles, 'cycle')}. Each of "
        f"{counted(len(runs), 'fault')} came in a run of its own, which was compared with the run without it.</p>",
        *(f"<p>{escape(text[0].upper() + text[1:])}.</p>" for text in notes(results)), *key(),
        *(text for matrix in matrices(results) for text in matrix.shown()),
        "<h2>The faults that cost most</h2>", *most(runs, labels),
        "<h2>Kinds of faults</h2>", *kinds(results), *failures(runs), "</body></html>\n",
    ]
    return "\n".join(parts)


def policy(style: str) -> str:
    """Returns the mark by which a browser takes this style alone: no script, no other style and nothing from outside.
    """
    digest = base64.b64encode(hashlib.sha256(style.encode()).digest()).decode()
    allowed = f"default-src 'none'; style-src 'sha256-{digest}'; base-uri 'none'; form-action 'none'"
    return f'<meta http-equiv="Content-Security-Policy" content="{allowed}">'


def key() -> Iterator[str]:
    yield ("<p>A cell has the worst that any fault of its row does to the node of its column, and how many faults do "
           "that. It opens its faults.</p>")
    told_of = "".join(f'<span class="{name}">{name}</span>{escape(what)}. ' for name, what in KEY.items())
    yield f'<p class="key">{told_of}</p>'


def most(runs: Done, labels: Labels) -> Iterator[str]:
    alike = hurting(runs)
    if not alike:
        yield "<p>No run with an outcome costs anything.</p>"
        return
    count = sum(len(faults) for faults, _ in alike)
    yield f"<p>{counted(count, 'fault')} cost something, and these most. Those that cost the same stand together.</p>"
    yield "<ol>"
    for faults, found in alike[:MOST_HURTING]:
        shown = [f"<b>{escape(fault_label(it))}</b>" for it in faults[:MOST_ALIKE]]
        shown += [f"{len(faults) - MOST_ALIKE} more"] if len(faults) > MOST_ALIKE else []
        yield f"<li>{joined(shown)}: {escape(joined([told(it, labels) for it in found]))}</li>"
    yield "</ol>"


def kinds(results: Results) -> Iterator[str]:
    yield "<p>Each run is counted once, by its worst effect.</p>"
    yield "<table><tr>" + "".join(f"<th>{it}</th>" for it in ("kind", "what it is", *COUNTED)) + "</tr>"
    for label, what, counts in rows(results):
        numbers = "".join(f'<td class="number">{it}</td>' for it in counts)
        yield f"<tr><td>{label}</td><td>{escape(what)}</td>{numbers}</tr>"
    yield "</table>"


def failures(runs: Done) -> Iterator[str]:
    failed = [(fault, it) for fault, found in runs for it in found if it.effect in FAILED]
    if failed:
        yield "<h2>Runs that failed</h2><p>They count as neither harmless nor harmful.</p><ul>"
        yield from (f'<li class="failed">{escape(fault_label(fault))}: {escape(told(it))}</li>' for fault, it in failed)
        yield "</ul>"
