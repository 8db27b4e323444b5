"""Reads crates/NAME/promises.toml."""
import tomllib
from dataclasses import dataclass, field
from pathlib import Path
from typing import Any

LISTS = ("clauses", "parts", "invariants", "definitions", "display", "gate", "mutants")
TEXTS = ("text", "also", "see")


class Unreadable(Exception):
    """A file of data that can't be read, with its reason."""


@dataclass(frozen=True)
class Clause:
    """Functions, and the clauses of each that carry the promise: all of the contract where none is named."""

    crate: str
    functions: tuple[str, ...]
    names: tuple[str, ...]


@dataclass
class Promise:
    """A row of the table of a crate."""

    text: str
    clauses: list[Clause]
    texts: dict[str, str]
    lists: dict[str, list[str]]

    def list_of(self, key: str) -> list[str]:
        """Returns the names under a key."""
        return self.lists.get(key, [])


@dataclass
class Section:
    """The promises of a crate."""

    crate: str
    title: str
    about: str
    notes: list[str]
    promises: list[Promise]
    tested: list[tuple[str, list[str]]] = field(default_factory=list)


def one_line(text: str) -> str:
    """Returns the text with one space between its words."""
    return " ".join(text.split())


def split_name(name: str, crate: str) -> tuple[str, str]:
    """Returns the crate and the name of `crate/name`, or this crate and the name."""
    home, slash, rest = name.partition("/")
    return (home, rest) if slash else (crate, name)


def clause_of(text: str, crate: str) -> Clause:
    """Reads `function, function: clause clause`."""
    home, rest = split_name(text, crate)
    functions, colon, names = rest.partition(": ")
    return Clause(home, tuple(functions.split(", ")), tuple(names.split()) if colon else ())


def promise_of(entry: dict[str, Any], crate: str) -> Promise:
    """Reads an entry `[[promise]]`."""
    unknown = set(entry) - set(LISTS) - set(TEXTS)
    if unknown or "text" not in entry:
        raise Unreadable(f"an entry has the key {unknown.pop()}" if unknown else "an entry has no text")
    texts = {key: one_line(entry[key]) for key in TEXTS if key in entry}
    clauses = [clause_of(text, crate) for text in entry.get("clauses", [])]
    return Promise(texts.pop("text"), clauses, texts, {key: entry[key] for key in LISTS if key in entry})


def section_of(path: Path) -> Section:
    """Reads the file of a crate."""
    crate = path.parent.name
    try:
        data = tomllib.loads(path.read_text(encoding="utf-8"))
        unknown = set(data) - {"title", "about", "notes", "promise", "tested"}
        if unknown:
            raise Unreadable(f"there is no key {unknown.pop()}")
        promises = [promise_of(entry, crate) for entry in data["promise"]]
        tested = [(one_line(entry["what"]), list(entry["by"])) for entry in data.get("tested", [])]
        notes = [one_line(note) for note in data.get("notes", [])]
        return Section(crate, data["title"], one_line(data.get("about", "")), notes, promises, tested)
    except (Unreadable, tomllib.TOMLDecodeError, KeyError, AttributeError, TypeError) as error:
        raise Unreadable(f"crates/{crate}/promises.toml: {error}") from error
