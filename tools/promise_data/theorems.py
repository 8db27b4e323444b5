"""The tables of docs/THEOREMS.md, whose rows name definitions with their files and lines."""
import re
from pathlib import Path

ROW = re.compile(r"^\| `(\w+)` \| `(crates/[\w/]+\.antt)` \| (\d+) \|$", re.MULTILINE)


def line_of(top: Path, name: str, file: str) -> int | None:
    """Returns the line on which the file defines the name, if it does so once."""
    path = top / file
    if not path.is_file():
        return None
    definition = re.compile(rf"^(?:(?:abbrev|unfoldable) )?pub (?:record |data )?{re.escape(name)}\b")
    lines = path.read_text(encoding="utf-8").splitlines()
    found = [number for number, line in enumerate(lines, 1) if definition.match(line)]
    return found[0] if len(found) == 1 else None


def with_lines(top: Path, page: str) -> str:
    """Returns the page with the line of each definition that exists."""
    def mended(row: re.Match[str]) -> str:
        name, file, told = row.groups()
        line = line_of(top, name, file)
        return f"| `{name}` | `{file}` | {told if line is None else line} |"
    return ROW.sub(mended, page)


def rows_of(page: str) -> list[tuple[str, str, int]]:
    """Returns the name, the file and the line of each row."""
    return [(name, file, int(line)) for name, file, line in ROW.findall(page)]
