"""Warnings of names that scenarios can't use, and of numbers in scenarios that are also names."""
import re
from collections.abc import Iterator
from unicodedata import combining, normalize

from musmyrtle.cluster import Cluster
from musmyrtle.findings import Finding, Note, counted, shown
from musmyrtle.names import LONGEST_NAME, RIGHT_NAME, is_line_name, tables_of
from musmyrtle.places import Path
from musmyrtle.scenario import Scenario
from musmyrtle.scenario_lines import Line
from musmyrtle.scenario_words import NEWEST, is_number
from musmyrtle.texts import Text

NODE, BUFFER = "NODE", "BUFFER"
OTHER_CHARACTERS = re.compile("[^A-Za-z0-9_.-]+")
GERMAN = str.maketrans({"ä": "ae", "ö": "oe", "ü": "ue", "Ä": "Ae", "Ö": "Oe", "Ü": "Ue", "ß": "ss"})
"""The German spelling of letters that a keyboard lacks. Of other letters the accents are left out."""


class NamedTables:
    """The tables of a cluster file that may have a key `name`, in the order of the file."""

    def __init__(self, text: Text) -> None:
        self.nodes = tables_of(text.document.get("node"))
        self.buffers = [tables_of(node.get("buffer")) for node in self.nodes]

    def __iter__(self) -> Iterator[tuple[str, str, int, dict[str, object], Path]]:
        """Yields for each node and buffer `NODE` or `BUFFER`, who it is, its number, its table and its path."""
        for number, node in enumerate(self.nodes):
            yield NODE, f"node {number}", number, node, ("node", number)
            for place, buffer in enumerate(self.buffers[number]):
                yield BUFFER, f"buffer {place} of node {number}", place, buffer, ("node", number, "buffer", place)

    def others(self, node: int | None, number: int) -> list[int]:
        """Returns the nodes, or the buffers of a node, that have the number of another one as their name."""
        tables = self.nodes if node is None else self.buffers[node] if node < len(self.buffers) else []
        return [place for place, table in enumerate(tables) if table.get("name") == str(number) and place != number]


def unusable_names(_: Cluster, text: Text) -> Iterator[Finding]:
    """Yields a warning for each name that no scenario can use, or by which it means another node or buffer."""
    for what, who, number, table, path in NamedTables(text):
        if "name" in table:
            why = why_unusable(what, number, table["name"])
            if why:
                headline = f"`name` of {who} is {shown(table['name'])}, which a scenario can't use"
                yield text.finding(headline, why, (*path, "name"))


def why_unusable(what: str, number: int, name: object) -> str | None:
    """Returns why the name of a node or a buffer of this number isn't usable, or None where it is."""
    thing = what.lower()
    if not isinstance(name, str):
        return f"A name is a string of {RIGHT_NAME}. Expected one in quotes."
    if not is_line_name(name):
        found = suggested(name)
        return f"Expected {RIGHT_NAME}" + (f", such as `{found}`." if found else ".")
    if is_number(what, name) and int(name) != number:
        return (f"In a scenario the word `{name}` is {thing} {name}, and never the {thing} of this name. Expected "
                f"another name, such as `{thing}-{name}`.")
    return None


def suggested(name: str) -> str:
    """Returns a name of the right form that is like this one, or nothing if only a number is."""
    letters = normalize("NFKD", name.translate(GERMAN))
    plain = OTHER_CHARACTERS.sub("-", "".join(it for it in letters if not combining(it)))
    found = plain[:LONGEST_NAME].strip("-")
    return "" if found.isdecimal() else found


def ambiguous_numbers(scenario: Scenario, text: Text) -> Iterator[Finding]:
    """Yields one warning for each number of a node or buffer in lines of version 3 that another one has as its name."""
    if scenario.version < NEWEST:
        return
    tables, lines = NamedTables(text), [it for its in scenario.scripts.values() for it in its]
    found: dict[tuple[int | None, int], list[tuple[Line, str]]] = {}
    for line in sorted([*lines, *scenario.faults, *scenario.expectations], key=lambda it: it.number):
        for what in (NODE, BUFFER):
            if what in line.form and word_at(scenario, line, what).isdecimal():
                key = None if what == NODE else line.value(NODE), line.value(what)
                found.setdefault(key, []).append((line, what))
    for (node, number), its in found.items():
        for other in tables.others(node, number):
            yield ambiguous(scenario, text, node, number, other, its)


def word_at(scenario: Scenario, line: Line, what: str) -> str:
    """Returns the word of a line as the text has it, where a name may stand for a number."""
    return scenario.text[line.number - 1][line.column(what) - 1:].partition("#")[0].split()[0]


def ambiguous(scenario: Scenario, text: Text, node: int | None, number: int, other: int,
              its: list[tuple[Line, str]]) -> Finding:
    """Returns what a number means that another node, or another buffer of the node, has as its name."""
    what, whose = ("node", "") if node is None else ("buffer", f" of node {node}")
    path: Path = ("node", other, "name")
    if node is not None:
        path = ("node", node, "buffer", other, "name")
    line, word = its[0]
    more = len({it.number for it, _ in its}) - 1
    headline = f"`{number}` means {what} {number}{whose}, not the {what} named `{number}`, which is {what} {other}"
    reason = "A word that is a number is never a name. "
    reason += f"{counted(more, 'other line')} ha{'s' if more == 1 else 've'} it too. " if more else ""
    reason += f"Expected another name of {what} {other} in the cluster file, such as `{what}-{number}`."
    note = Note(f"the name of {what} {other}{whose}", text.place_of(path))
    return Finding(headline, reason, scenario.place_of(line, word), (note,))


def repeated_names(_: Cluster, text: Text) -> Iterator[Finding]:
    """Yields a warning for each node, and for each buffer of a node, with the name of an earlier one."""
    nodes = text.document["node"]
    yield from repeated(text, nodes, ("node",), "node {}")
    for number, node in enumerate(nodes):
        yield from repeated(text, node.get("buffer", []), ("node", number, "buffer"), f"buffer {{}} of node {number}")


def repeated(text: Text, tables: list[dict[str, object]], path: Path, who: str) -> Iterator[Finding]:
    first: dict[str, int] = {}
    for number, table in enumerate(tables):
        name = table.get("name")
        if not isinstance(name, str):
            continue
        before = first.setdefault(name, number)
        if before != number:
            headline = f"{who.format(number)} has the name of {who.format(before)}"
            reason = "Host programs find nodes and buffers by name, and refuse this one. Expected another name."
            notes = [(who.format(before), (*path, before, "name"))]
            yield text.finding(headline, reason, (*path, number, "name"), notes)
