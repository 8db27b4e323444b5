"""The names in the sources of a crate, and of tests of single calls.

Those of a crate are functions with their clauses, types, modules, words and mutants.
"""
import re
from pathlib import Path

FUNCTION = re.compile(r"\bfn (\w+)")
CLAUSE = re.compile(r"^\s*ensures (\w+) \{", re.MULTILINE)
CONTRACT = re.compile(r"^\s*ensures\b", re.MULTILINE)
TYPE = re.compile(r"\b(?:struct|enum|trait|type) (\w+)")
TEST = re.compile(r"#\[test\]\s+fn (\w+)")


class Crate:
    """The names of a crate."""

    def __init__(self, top: Path, name: str) -> None:
        self.name = name
        self.types: set[str] = set()
        self.words: set[str] = {name}
        self.contracts: set[str] = set()
        self.clauses: dict[str, set[str]] = {}
        folder = top / "crates" / name
        self.definitions = {path.stem for path in folder.glob("specs/**/*.antt")}
        self.modules = {path.stem for path in folder.glob("proofs/**/*.antt")} | self.definitions
        for path in [*folder.glob("src/**/*.rt"), *folder.glob("specs/**/*.antt")]:
            self._read(path)
        self.gate = {path.stem for path in (folder / "must-fail").glob("*.edit")}
        self.mutants = {path.stem for path in (top / "wrong-bodies" / name).glob("*.edit")}

    def _read(self, path: Path) -> None:
        text = path.read_text(encoding="utf-8")
        self.words.update(re.findall(r"\w+", text))
        self.types.update(TYPE.findall(text))
        self.modules.add(path.stem)
        if path.suffix != ".rt":
            return
        # A function's contract is between its name and the name of the next one.
        _, *parts = FUNCTION.split(text)
        for function, rest in zip(parts[::2], parts[1::2]):
            self.clauses.setdefault(function, set()).update(CLAUSE.findall(rest))
            if CONTRACT.search(rest):
                self.contracts.add(function)

    def has_word(self, name: str) -> bool:
        """Returns whether the name is a word, a module or a mutant of the crate."""
        return name in self.words or name in self.modules or name in self.gate or name in self.mutants


def crates_in(top: Path) -> dict[str, Crate]:
    """Returns each crate of the repository, in the order of crates.txt."""
    lines = (top / "crates.txt").read_text(encoding="utf-8").splitlines()
    names = [re.split(r"[ :]", line)[0] for line in lines if line and not line.startswith("#")]
    return {name: Crate(top, name) for name in names}


def called_in(top: Path) -> set[str]:
    """Returns the names of the tests of single calls."""
    texts = (path.read_text(encoding="utf-8") for path in (top / "tests" / "calls").glob("*.rattle"))
    return {name for text in texts for name in TEST.findall(text)}
