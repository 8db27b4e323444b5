"""Things that the tests of `import` share: the samples of `examples/descriptions`, and a parser for these texts.

`defusedxml` may be missing. The samples are our own, so that Python's parser does for them. Tests of XML that has to be
refused take the right one, and are skipped without it.
"""
import tomllib
import unittest
from typing import Any
from unittest import mock
from xml.etree.ElementTree import XMLParser

from tests.shows import EXAMPLES, Shows

FOLDER = EXAMPLES / "descriptions"
ARXML, FIBEX = (FOLDER / name for name in ("network.arxml", "network.fibex.xml"))
Tables = dict[str, Any]

try:
    import defusedxml.ElementTree
    HAS_DEFUSEDXML = bool(defusedxml.ElementTree)
except ImportError:
    HAS_DEFUSEDXML = False

needs_defusedxml = unittest.skipUnless(HAS_DEFUSEDXML, "defusedxml isn't installed")


def trusting(target: Any) -> XMLParser:
    """Returns Python's own parser."""
    return XMLParser(target=target)


TRUSTING = mock.patch("musmyrtle.descriptions.xml_files.parser_of", trusting)


class Importing(Shows):
    """Tests whose descriptions are read by Python's own parser."""

    def setUp(self) -> None:
        super().setUp()
        TRUSTING.start()
        self.addCleanup(TRUSTING.stop)

    def imported(self, text: str, *words: str, name: str = "description.xml") -> tuple[str, list[str]]:
        """Returns the cluster file of a description, and its notes."""
        status, output, told = self.asked("import", self.written(name, text), *words)
        self.assertEqual(status, 0, told)
        return output, [line.removeprefix("note ") for line in told.splitlines()]

    def tables(self, text: str, *words: str) -> Tables:
        """Returns the tables of the cluster file of a description."""
        return tomllib.loads(self.imported(text, *words)[0])

    def refusals(self, text: str, *words: str) -> list[str]:
        """Returns the refusals of a description."""
        status, output, told = self.asked("import", self.written("description.xml", text), *words)
        self.assertEqual((status, output), (1, ""), told)
        return [line.removeprefix("refused ") for line in told.splitlines() if line.startswith("refused ")]


def changed(text: str, *pairs: tuple[str, str]) -> str:
    """Returns a text in which each of these is replaced once."""
    for old, new in pairs:
        if old not in text:
            raise AssertionError(f"the text hasn't {old}")
        text = text.replace(old, new, 1)
    return text


def flat(text: str) -> str:
    """Returns a description without the spaces between its elements, so that parts of it are easy to name."""
    return "".join(line.strip() for line in text.splitlines())


def facts(tables: Tables) -> set[tuple[object, ...]]:
    """Returns what a cluster file says, whatever lines say it: by cycle who owns, sends and receives."""
    p, found = tables["params"], set[tuple[object, ...]]()
    found |= {("parameter", *it) for it in p.items()}
    for number, node in enumerate(tables["node"]):
        who = node.get("name", f"Node{number}")
        sends = any(it["kind"] != "receive" and it["slot"] > p["static_slots"] for it in node.get("buffer", []))
        if sends:
            found.add(("latest", who, max(node.get("latest_a", 0), node.get("latest_b", 0))))
        for line in node.get("own", []):
            found |= {("own", who, line["slot"], channel, cycle, line.get("sync", False), line.get("startup", False))
                      for channel in line["channels"] for cycle in cycles(line)}
        for it in node.get("buffer", []):
            is_static = it["slot"] <= p["static_slots"]
            words = p["static_words"] if is_static else it.get("words")
            more = (words, it.get("preamble", False)) if it["kind"] != "receive" else ()
            found |= {(it["kind"] if it["kind"] == "receive" else "send", who, it["slot"], channel, cycle, *more)
                      for channel in it["channels"] for cycle in cycles(it)}
    # A buffer also admits cycles in which no other node sends, of which descriptions say nothing.
    senders = {it[2:5]: it[1] for it in found if it[0] == "send"}
    return {it for it in found if it[0] != "receive" or senders.get(it[2:5], it[1]) != it[1]}


def cycles(line: Tables) -> range:
    """Returns the cycles of a line."""
    return range(line.get("base", 0), 64, line.get("repetition", 1))
