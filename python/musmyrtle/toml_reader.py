"""Reads a TOML text in one pass, with the offsets of its keys and items.

`fr_bench` reads TOML 1.1. `tomllib` reads TOML 1.0 and gives no offsets, and its time grows with the square of the
parts of a key: 15 s for 32,000 of them. The time of this reader grows linearly with the length of any text.
"""
import re

from musmyrtle.toml_tables import BY_DOTS, BY_HEADER, INLINE, ON_THE_WAY, Array, Table
from musmyrtle.toml_values import CONTROL, VALUES, WORD, Noted, NoToml, bare_value, no_control, string
from musmyrtle.visible import cut

DEEPEST = 80
"""The greatest depth of nested arrays and inline tables, and the greatest number of parts of a key or a header."""
NOT_DEEPER = f"At most {DEEPEST} arrays and inline tables in one another are read, and as many parts of a key."

COMMENT = r"#[^\x00-\x08\x0a-\x1f\x7f]*+"
GAPS = rf"(?:[ \t\n]++|\r\n|{COMMENT})*"
GAP = re.compile(GAPS)
BLANK = re.compile(r"[ \t]*+")
REST = rf"[ \t]*+(?:{COMMENT})?"
LINE_END = re.compile(rf"{REST}(?:\r?\n|\Z)")
BARE = re.compile(r"([-_0-9A-Za-z]++)[ \t]*+(\.)?[ \t]*+")
"""A part of a key without quotes, and the point after it."""
# Python 3.11.2 misreads `{0,9}+` behind a group: it takes the dot of `a. = 1` for a part of the key.
DOTTED = re.compile(rf"([-_0-9A-Za-z]++(?:\.[-_0-9A-Za-z]++){{0,{DEEPEST - 1}}})[ \t]*+(?=[\]=])")
"""A whole key of parts without quotes, with points alone between them. In a long key, each part is read much faster."""
SIMPLE = re.compile(r"([-_0-9A-Za-z]++)[ \t]*+=[ \t]*+")
"""A key of one part without quotes, as most are, and what comes between it and its value."""
COMMA = re.compile(rf"{GAPS}(,)?{GAPS}")
PART = "a name of letters, digits, - and _, or a string in quotes"


class Reader:
    """The reading of one text."""

    def __init__(self, text: str):
        self.text, self.at = text, 0
        self.known: dict[str, object] = {}
        """The values of words without quotes. In a text with very many words most of them are the same."""

    def document(self) -> Table:
        """Returns the table of the whole text. Raises `NoToml` at the first place where it isn't TOML."""
        root = table = Table(BY_HEADER)
        self.skip(GAP)
        while self.at < len(self.text):
            if self.text.startswith("[", self.at):
                table = self.header(root)
            else:
                self.pair(table, 0)
            end = LINE_END.match(self.text, self.at)
            if end is None:
                self.skip(re.compile(REST))
                raise self.odd("more stands in the line", "Expected a line for each key and each header.")
            self.at = end.end()
            self.skip(GAP)
        return root

    def skip(self, form: re.Pattern[str]) -> None:
        found = form.match(self.text, self.at)
        self.at = found.end() if found else self.at

    def need(self, word: str, why: str) -> None:
        if not self.text.startswith(word, self.at):
            raise self.odd(why, f"Expected `{word}` here.")
        self.at += len(word)

    def odd(self, why: str, right: str, note: Noted | None = None) -> NoToml:
        """Returns the fault of the next character."""
        found = re.compile(CONTROL).match(self.text, self.at)
        return no_control(found) if found else NoToml(self.at, why, right, note)

    def key(self, note: Noted | None = None) -> list[tuple[str, int]]:
        """Returns the parts of a key, each with its offset."""
        parts: list[tuple[str, int]] = []
        self.skip(BLANK)
        dotted_key = DOTTED.match(self.text, self.at)
        if dotted_key:
            for name in dotted_key[1].split("."):
                parts.append((name, self.at))
                self.at += len(name) + 1
            self.at = dotted_key.end()
            return parts
        has_more = True
        while has_more:
            begin = self.at
            bare = BARE.match(self.text, begin)
            if bare:
                parts.append((bare[1], begin))
                self.at, has_more = bare.end(), bare[2] is not None
            else:
                parts.append((self.quoted_part(note), begin))
                has_more = self.text.startswith(".", self.at)
                self.at += has_more
                self.skip(BLANK)
            if len(parts) > DEEPEST:
                raise too_deep(parts[0][1])
        return parts

    def quoted_part(self, note: Noted | None) -> str:
        if not self.text.startswith(("'", '"'), self.at):
            closing = ", or the `}` of the inline table before" if note else ""
            raise self.odd("the key is missing", f"Expected {PART}{closing}.", note)
        name, self.at = string(self.text, self.at, has_lines=False)
        self.skip(BLANK)
        return name

    def header(self, root: Table) -> Table:
        """Reads a header, and returns the table that it opens."""
        begin = self.at
        closing = "]]" if self.text.startswith("[[", begin) else "]"
        self.at += len(closing)
        parts = self.key()
        self.need(closing, "the header has no end")
        table = root
        for name, at in parts[:-1]:
            table = on_the_way(table, name, at, begin)
        opened = opened_item if closing == "]]" else opened_table
        return opened(table, *parts[-1], begin)

    def pair(self, table: Table, depth: int, note: Noted | None = None) -> None:
        """Reads a key and its value into a table."""
        simple = SIMPLE.match(self.text, self.at)
        if simple:
            name, begin, self.at = simple[1], self.at, simple.end()
        else:
            *others, (name, begin) = self.key(note)
            self.need("=", "the key has no value")
            self.skip(BLANK)
            for other, at in others:
                table = dotted(table, other, at)
        if name in table:
            raise twice(table, name, begin)
        value = self.value(depth)
        table[name] = value
        table.begins[name] = begin

    def value(self, depth: int) -> object:
        begin = self.at
        word = WORD.match(self.text, begin)
        if word:
            self.at = word.end()
            value = self.known.get(word[0])
            if value is None:
                value = self.known[word[0]] = bare_value(word[0], begin)
            return value
        first = self.text[begin:begin + 1]
        if first and first in "\"'":
            found, self.at = string(self.text, begin)
            return found
        if first and first in "[{":
            if depth == DEEPEST:
                raise too_deep(begin)
            self.at += 1
            return self.array(begin, depth + 1) if first == "[" else self.inline_table(begin, depth + 1)
        raise self.odd("the value is missing", f"Expected {VALUES}.")

    def array(self, begin: int, depth: int) -> Array:
        found = Array()
        begins, note = found.begins, ("the array", begin)
        self.skip(GAP)
        has_more = not self.text.startswith("]", self.at)
        while has_more:
            begins.append(self.at)
            try:
                found.append(self.value(depth))
            except NoToml as error:
                raise self.in_array(error, begin) if depth == 1 and error.note is None else error from None
            has_more = self.goes_on("]", note)
        self.at += 1
        return found

    def in_array(self, error: NoToml, begin: int) -> NoToml:
        """Returns the fault of an item, with the array, whose end may be missing in an earlier line."""
        if "\n" not in self.text[begin:error.at]:
            return error
        return NoToml(error.at, error.why, f"{error.right} Is the `]` of the array missing?", ("the array", begin))

    def inline_table(self, begin: int, depth: int) -> Table:
        found, note = Table(INLINE), ("the inline table", begin)
        self.skip(GAP)
        has_more = not self.text.startswith("}", self.at)
        while has_more:
            self.pair(found, depth, note)
            has_more = self.goes_on("}", note)
        self.at += 1
        return found

    def goes_on(self, closing: str, note: Noted) -> bool:
        """Reads a comma and returns whether a further item comes, and not the end of the array or inline table."""
        text = self.text
        found = COMMA.match(text, self.at)
        if found:
            self.at = found.end()
        if text.startswith(closing, self.at):
            return False
        if found is None or found[1] is None:
            raise self.odd(f"{note[0]} has no end", f"Expected a comma or `{closing}` here.", note)
        return True


def too_deep(at: int) -> NoToml:
    return NoToml(at, "arrays, tables or a key are nested too deep", NOT_DEEPER)


def twice(table: Table, name: str, at: int) -> NoToml:
    right = "Expected each key once, and each table in one place."
    return NoToml(at, f"`{cut(name)}` stands twice", right, ("the first one", table.begins[name]))


def header_twice(table: Table, name: str, at: int) -> NoToml:
    right = f"A header `[{cut(name)}]` opens one table. Expected `[[{cut(name)}]]` for each of several."
    return NoToml(at, f"`{cut(name)}` stands twice", right, ("the first one", table.begins[name]))


def on_the_way(table: Table, name: str, at: int, begin: int) -> Table:
    """Returns the table in which a header continues: of an array of tables the last one."""
    held = table.get(name)
    if held is None:
        held = table[name] = Table(ON_THE_WAY)
        table.begins[name] = begin
        return held
    if isinstance(held, Array) and held.is_of_headers:
        held = held[-1]
    if isinstance(held, Table) and held.made is not INLINE:
        return held
    raise twice(table, name, at)


def opened_table(table: Table, name: str, at: int, begin: int) -> Table:
    """Returns the table of a header."""
    held = table.get(name)
    if held is None:
        held = table[name] = Table(BY_HEADER)
    elif isinstance(held, Array) and held.is_of_headers or isinstance(held, Table) and held.made is BY_HEADER:
        raise header_twice(table, name, at)
    elif not isinstance(held, Table) or held.made is not ON_THE_WAY:
        raise twice(table, name, at)
    held.made = BY_HEADER
    table.begins[name] = begin
    return held


def opened_item(table: Table, name: str, at: int, begin: int) -> Table:
    """Returns the further table of a header with two brackets."""
    held = table.get(name)
    if held is None:
        held = table[name] = Array(is_of_headers=True)
        table.begins[name] = begin
    if isinstance(held, Table) and held.made is BY_HEADER:
        raise header_twice(table, name, at)
    if not isinstance(held, Array) or not held.is_of_headers:
        raise twice(table, name, at)
    made = Table(BY_HEADER)
    held.append(made)
    held.begins.append(begin)
    return made


def dotted(table: Table, name: str, at: int) -> Table:
    """Returns the table in which a dotted key continues."""
    held = table.get(name)
    if held is None:
        held = table[name] = Table(BY_DOTS)
        table.begins[name] = at
        return held
    if not isinstance(held, Table) or held.made not in (BY_DOTS, ON_THE_WAY):
        raise twice(table, name, at)
    held.made = BY_DOTS
    return held
