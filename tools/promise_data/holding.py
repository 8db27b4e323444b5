"""Compares the names in the data with the sources."""
import re
from pathlib import Path

from .reading import Clause, Promise, Section, split_name
from .sources import Crate, called_in

NAME = re.compile(r"`([^`]+)`")
# Programs of others.
OUTSIDE = {"tshark", "valgrind"}
FOLDERS = ("tools/", "tests/", "fuzz/", "bench/", "docs/", "examples/", "python/", "crates/", "wrong-bodies/")


class Names:
    """The names that were looked up: the number of those that exist, and of those that don't."""

    def __init__(self, top: Path, crates: dict[str, Crate]) -> None:
        self.top, self.crates, self.called = top, crates, called_in(top)
        self.passed = self.failed = 0
        self.mutants: set[tuple[str, str, str]] = set()
        self.libraries = (top / "crates.txt").read_text(encoding="utf-8")

    def hold(self, is_there: bool, place: str, told: str) -> None:
        """Counts one name, and prints the finding if it doesn't exist."""
        if is_there:
            self.passed += 1
        else:
            self.failed += 1
            print(f"{place}: {told}")

    def section(self, section: Section) -> None:
        """Looks up all names of a crate's data."""
        file = f"crates/{section.crate}/promises.toml"
        self.prose(file, section.crate, section.title, section.about, *section.notes)
        for number, promise in enumerate(section.promises, 1):
            self.promise(f"{file}: promise {number}", section.crate, promise)
        for what, by in section.tested:
            self.prose(file, section.crate, what)
            for name in by:
                self.hold(self.is_test(name), file, f"there is no test {name}")

    def promise(self, place: str, crate: str, promise: Promise) -> None:
        """Looks up the names of a row. A clause, an invariant or a printed form has to carry it."""
        carried = any((promise.clauses, promise.list_of("invariants"), promise.list_of("display")))
        self.hold(carried, place, "no clause carries the row")
        for clause in promise.clauses:
            self.clause(place, clause)
        for key, kind in (("invariants", "type"), ("definitions", "module of definitions"), ("display", "type")):
            for name in promise.list_of(key):
                home, rest = split_name(name, crate)
                owner = self.crates.get(home)
                there = owner is not None and rest in (owner.types if kind == "type" else owner.definitions)
                self.hold(there, place, f"{home} has no {kind} {rest}")
        for name in promise.list_of("parts"):
            self.hold(name in self.crates[crate].words, place, f"{crate} has no {name}")
        for key, folder in (("gate", "must-fail"), ("mutants", "wrong-bodies")):
            for name in promise.list_of(key):
                self.mutant(place, key, folder, *split_name(name, crate))
        self.prose(place, crate, promise.text, *promise.texts.values())

    def clause(self, place: str, clause: Clause) -> None:
        """Looks up functions and their clauses. A function without named clauses must have a contract."""
        crate = self.crates.get(clause.crate)
        for name in clause.functions:
            owner, _, function = name.rpartition("::")
            there = crate is not None and function in crate.clauses
            there = there and (not owner or owner in crate.types or owner in crate.modules)
            self.hold(there, place, f"{clause.crate} has no function {name}")
            if crate is None or not there:
                continue
            if not clause.names:
                self.hold(function in crate.contracts, place, f"{name} has no contract")
            for wanted in clause.names:
                self.hold(wanted in crate.clauses[function], place, f"{name} has no clause {wanted}")

    def mutant(self, place: str, key: str, folder: str, home: str, name: str) -> None:
        """Looks up a mutant, which counts as named only by the data of its own crate."""
        crate = self.crates.get(home)
        there = crate is not None and name in (crate.gate if key == "gate" else crate.mutants)
        self.hold(there, place, f"there is no mutant {name} in the folder {folder} of {home}")
        if place.startswith(f"crates/{home}/"):
            self.mutants.add((home, key, name))

    def prose(self, place: str, home: str, *texts: str) -> None:
        """Looks up the names in free texts: words of the sources, mutants, tests, and files."""
        for name in (name for text in texts for name in NAME.findall(text)):
            self.mutants.update((home, key, name) for key in ("gate", "mutants") if home)
            if re.fullmatch(r"[\w:]+", name):
                last = name.rpartition("::")[2]
                self.hold(last in OUTSIDE or self.is_word(last), place, f"nothing is named {name}")
            elif name.startswith(FOLDERS) and not re.search(r"[A-Z]{3}|\*", name):
                self.hold((self.top / name.split()[0]).exists(), place, f"there is no {name}")

    def is_word(self, name: str) -> bool:
        """Returns whether a crate has it, or it is a mutant or a library."""
        in_crates = any(crate.has_word(name) for crate in self.crates.values())
        return in_crates or re.search(rf"[ :]{name}\b", self.libraries) is not None

    def is_test(self, name: str) -> bool:
        """Returns whether it is a file, or `called/TEST` for a test of `tests/calls`."""
        home, _, test = name.partition("/")
        if home == "called":
            return test in self.called
        return (self.top / name.split()[0]).is_file()

    def every_mutant(self) -> None:
        """Checks that each mutant is named by the data of its crate, and that it can be applied to the sources."""
        folders = {"gate": self.top / "crates/{}/must-fail", "mutants": self.top / "wrong-bodies/{}"}
        for name, crate in self.crates.items():
            for key, mutants in (("gate", crate.gate), ("mutants", crate.mutants)):
                for mutant in sorted(mutants):
                    told = f"the mutant {mutant} isn't named"
                    self.hold((name, key, mutant) in self.mutants, f"crates/{name}/promises.toml", told)
                    file = Path(str(folders[key]).format(name)) / f"{mutant}.edit"
                    lost = unapplied(self.top / "crates" / name, file.read_text(encoding="utf-8"))
                    self.hold(lost is None, str(file.relative_to(self.top)), f"it doesn't stand there once: {lost}")


def unapplied(crate: Path, edit: str) -> str | None:
    """Returns the first text of an edit that doesn't stand exactly once in its file, after the changes before it.

    A text that is no change, and a line after the first file that belongs to no text, count as well: a text has one
    line.
    """
    text, old, files = "", None, 0
    for line in edit.splitlines():
        key, _, rest = line.partition(": ")
        if key == "file":
            text, files = (crate / rest).read_text(encoding="utf-8"), files + 1
        elif key == "old":
            old = rest
            if text.count(old) != 1:
                return old
        elif key == "new" and old is not None and old != rest:
            text = text.replace(old, rest)
        elif files and line.strip() and not line.startswith("#"):
            return line
    return None
