"""Makes the pages of promises: one for each crate, and the table of crates in docs/PROMISES.md."""
import textwrap

from .reading import Clause, Promise, Section, split_name

MARK = "<!-- Made by tools/promises --write from promises.toml: edit that. -->"
START = "<!-- Made by tools/promises --write -->"
END = "<!-- The end of what it makes -->"
HEAD = "| Promise | Clauses | Mutants |\n|-|-|-|"
LEAD = "[PROMISES](../../docs/PROMISES.md) says how to read this page."
TABLE_HEAD = "| Crate | Promises about | Promises | Named in bold | Other mutants |\n|-|-|-|-|-|"


def code(names: list[str] | tuple[str, ...]) -> str:
    """Returns the names as one piece of code, with commas between them."""
    return f"`{', '.join(names)}`"


def wrapped(text: str, indent: str = "") -> str:
    """Returns a paragraph in lines of at most 120 columns."""
    return textwrap.fill(text, 120, subsequent_indent=indent, break_long_words=False, break_on_hyphens=False)


def named(name: str, crate: str, mark: str = "") -> str:
    """Returns a name in code style, with its crate where that is another one."""
    home, rest = split_name(name, crate)
    return f"{mark}`{rest}`{mark}" + (f" of `{home}`" if home != crate else "")


def clause_text(clause: Clause, crate: str) -> str:
    """Returns functions and their clauses as the table has them."""
    text = code(clause.functions) + (f" of `{clause.crate}`" if clause.crate != crate else "")
    return text + (f": {code(clause.names)}" if clause.names else "")


def carried_text(promise: Promise, crate: str) -> str:
    """Returns the cell with the carriers of a promise."""
    parts = [clause_text(clause, crate) for clause in promise.clauses]
    if inner := promise.list_of("parts"):
        parts[-1] += f" (part{'s' if len(inner) > 1 else ''} {code(inner)})"
    for key, word in (("invariants", "invariant of"), ("definitions", "defined in"), ("display", "display of")):
        if promise.list_of(key):
            parts.append(f"{word} " + ", ".join(named(name, crate) for name in promise.list_of(key)))
    return "; ".join([*parts, *([promise.texts["also"]] if "also" in promise.texts else [])])


def mutants_text(promise: Promise, crate: str) -> str:
    """Returns the cell of the mutants: those of the test command in bold."""
    names = [named(name, crate, "**") for name in promise.list_of("gate")]
    names += [named(name, crate) for name in promise.list_of("mutants")]
    return ", ".join([*names, *([promise.texts["see"]] if "see" in promise.texts else [])])


def row_of(promise: Promise, crate: str) -> str:
    """Returns the row of a promise."""
    cells = (promise.text, carried_text(promise, crate), mutants_text(promise, crate))
    return f"| {' | '.join(cells)} |".replace("|  |", "| |")


def tests_text(names: list[str]) -> str:
    """Returns the names of tests, those of single calls behind their script."""
    scripts: dict[str, list[str]] = {}
    for name in names:
        home, test = ("tests/called", name.removeprefix("called/")) if name.startswith("called/") else (name, "")
        scripts.setdefault(home, []).extend([test] if test else [])
    return ", ".join(f"`{home}`" + (f" ({code(tests)})" if tests else "") for home, tests in scripts.items())


def tested_text(section: Section) -> list[str]:
    """Returns the list of tests with what each shows."""
    if len(section.tested) == 1:
        what, by = section.tested[0]
        return [wrapped(f"Tested by {tests_text(by)}: {what}")]
    lines = [wrapped(f"- {tests_text(by)}: {what}", "  ") for what, by in section.tested]
    return ["Tested:\n\n" + "\n".join(lines)] if lines else []


def page_of(section: Section) -> str:
    """Returns the text of crates/NAME/PROMISES.md."""
    table = "\n".join([HEAD, *(row_of(promise, section.crate) for promise in section.promises)])
    about = [wrapped(section.about)] if section.about else []
    parts = [MARK, f"# {section.title} (`{section.crate}`)", LEAD, *about, table, *map(wrapped, section.notes)]
    return "\n\n".join([*parts, *tested_text(section)]) + "\n"


def line_of(section: Section) -> str:
    """Returns the row of a crate in docs/PROMISES.md."""
    gate, others = (sum(len(promise.list_of(key)) for promise in section.promises) for key in ("gate", "mutants"))
    link = f"[`{section.crate}`](../crates/{section.crate}/PROMISES.md)"
    return f"| {link} | {section.title} | {len(section.promises)} | {gate} | {others} |"


def with_table(page: str, sections: list[Section]) -> str:
    """Returns the text of docs/PROMISES.md with the table of these crates. Raises `ValueError` without its marks."""
    before, start, rest = page.partition(START)
    _, end, after = rest.partition(END)
    if not start or not end:
        raise ValueError("the marks of the table are missing")
    return "\n".join([before + START, TABLE_HEAD, *map(line_of, sections), END + after])


def outside_table(page: str) -> str:
    """Returns the handwritten part of docs/PROMISES.md."""
    return page.partition(START)[0] + page.partition(END)[2]
