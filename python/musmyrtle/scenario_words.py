"""The words of a line of a scenario: what is wrong with one, and the form that is right."""
import re
from collections.abc import Iterable
from dataclasses import dataclass
from itertools import product
from math import prod

from musmyrtle.findings import nearest
from musmyrtle.mending import comment_in
from musmyrtle.named_windows import MOST_CYCLE, MOST_PLACE, FaultPlace, RunCycles
from musmyrtle.names import LineNames
from musmyrtle.scenario_lines import EXPECTATIONS, FAULTS, FORMS, LOST, FaultLine, Line
from musmyrtle.visible import cut

NEWEST = 3
RANGED = {"CYCLE": "CYCLES", "CHANNEL": "CHANNELS"}
"""Words of one cycle or channel, and those of several in version 3."""
FORMS_BY_VERSION = {
    1: {kind: form for kind, form in FORMS.items() if kind != "withdraw"},
    2: FORMS,
    3: {**{kind: tuple(RANGED.get(name, name) for name in form) for kind, form in FORMS.items() if kind != "end"},
        LOST: ("NODE", "CYCLES"), **EXPECTATIONS, "end": ()},
}
GREATEST = {"NODE": 15, "TASK": 7, "BUFFER": 63, "CYCLE": MOST_CYCLE, "CYCLES": MOST_CYCLE, "BIT": 65535}
MOST_BYTES = {"commit": 254, "expect": 254, "babble": 262}
NUMBER = re.compile(r"0|[1-9][0-9]*")
HEX = re.compile(r"x(?:[0-9a-f]{2})*")
WORD = re.compile(r"[^ \t]+")
RANGE = re.compile(r"\[?[0-9]+(?:-|;|\.\.|,|$)")
"""A word that is meant as several numbers, in the form of other tools."""
SPAN, MOST_LISTED = re.compile(r"([0-9]{1,4})-([0-9]{1,4})(?:/([0-9]{1,4}))?"), 8
"""A range of a filter, and the most numbers of one that a message lists."""
MOST_MEANT = 64
"""The largest number of lines for which a line with lists stands."""
OLD_PLACE = re.compile(r"s\*|[sm][1-9][0-9]*")

Wrong = tuple[str, str, int]
"""The fault of a line, what is expected, and the column."""


@dataclass(frozen=True)
class Words:
    """The words of a line of a version, each with its column from 1."""

    version: int
    text: str
    words: tuple[str, ...]
    columns: tuple[int, ...]
    names: LineNames

    @classmethod
    def of(cls, text: str, version: int, names: LineNames = LineNames()) -> "Words":
        """Splits a line. In version 3 spaces and tabs are free, and a comment begins with `#`."""
        if version < NEWEST:
            words = tuple(text.split(" "))
            return cls(version, text, words, (1, *columns(words)), names)
        found = list(WORD.finditer(text.partition("#")[0]))
        return cls(version, text, tuple(it[0] for it in found), tuple(it.start() + 1 for it in found), names)

    @property
    def kind(self) -> str:
        return self.words[0]

    @property
    def form(self) -> tuple[str, ...]:
        """Returns the names of the words after the kind."""
        return FORMS_BY_VERSION[self.version][self.kind]

    def wrong(self) -> Wrong | None:
        """Returns the fault of the line, what is expected, and the column; or nothing if it is right."""
        odd = odd_return(self.text) if self.version == NEWEST else self.odd_spaces()
        return odd or self.wrong_kind() or self.wrong_count() or self.wrong_lists() or self.wrong_element()

    def odd_spaces(self) -> Wrong | None:
        """Returns the fault of a line of an earlier version that isn't words with single spaces between them."""
        return odd_spaces(self.text, f"version {self.version}", f" `frscenario {NEWEST}` in the first line has them.")

    def wrong_kind(self) -> Wrong | None:
        forms = FORMS_BY_VERSION[self.version]
        if self.kind in forms:
            return None
        if self.kind in FORMS_BY_VERSION[NEWEST]:
            since = 2 if self.kind in FORMS else NEWEST
            headline = f"version {self.version} has no line `{self.kind}`"
            return headline, f"Expected `frscenario {since}` as the first line.", 1
        meant = nearest(self.kind, tuple(forms))
        hint = self.comment_hint(self.kind) or (f"Is `{meant}` meant? " if meant else "")
        return f"no line begins with `{cut(self.kind)}`", f"{hint}Expected one of {', '.join(forms)}.", self.columns[0]

    def wrong_count(self) -> Wrong | None:
        right = 1 + len(self.form)
        if len(self.words) == right:
            return None
        headline = f"the line has {len(self.words)} words, and `{self.kind}` has {right}"
        end = self.columns[-1] + len(self.words[-1])
        comment = next(filter(None, map(self.comment_hint, self.words[1:])), "")
        return headline, f"{comment}Expected `{' '.join([self.kind, *self.form])}`.", end

    def comment_hint(self, word: str) -> str:
        """Returns what to write for a word that begins a comment of another format, or nothing."""
        hint = comment_in(word)
        newest = "" if self.version == NEWEST else f" Only `frscenario {NEWEST}` has comments."
        return f"{hint}{newest} " if hint else ""

    def wrong_lists(self) -> Wrong | None:
        """Returns the fault of a line of version 3 whose lists have an empty element or too many choices."""
        for word, column, its in zip(self.words[1:], self.columns[1:], self.elements):
            empty = next((it for it in its if not it[0]), None) if len(its) > 1 else None
            if empty:
                headline = f"the list `{cut(word)}` has an empty element"
                return headline, "Expected one comma between two elements, and none at the ends.", max(column, empty[1])
        count = prod(map(len, self.elements))
        if count <= MOST_MEANT:
            return None
        headline = f"the line stands for {count} lines, one for each choice of an element of each list"
        return headline, f"It stands for at most {MOST_MEANT}. Expected shorter lists, or several lines.", 1

    def wrong_element(self) -> Wrong | None:
        """Returns the fault of the first word at fault in the lines for which this one stands."""
        found = [it for it in (line.wrong_word() for line in self.meant()) if it]
        return min(found, key=lambda it: it[2]) if found else None

    def wrong_word(self) -> Wrong | None:
        for at, name in enumerate(self.form, 1):
            right = self.right_for(name, self.words[at])
            if right:
                whole = " ".join([self.kind, *self.form])
                newer = self.newer(name, self.words[at])
                hint = slip_in(name, self.words[at])
                if name == "PLACE" and self.version == NEWEST:
                    hint = range_hint(self.words[at]) or hint
                return f"{name} is `{cut(self.words[at])}`", f"{hint}{right}, in `{whole}`.{newer}", self.columns[at]
        return None

    def newer(self, name: str, word: str) -> str:
        """Returns a hint for a word that only a later version has."""
        if self.version == NEWEST:
            return ""
        later = Words(NEWEST, self.text, self.words, self.columns, self.names)
        wrong = any(later.right_for(RANGED.get(name, name), element) for element in word.split(","))
        return "" if wrong else f" `frscenario {NEWEST}` has this form."

    def right_for(self, name: str, word: str) -> str | None:
        """Returns what is expected instead of a word, or nothing where it is right."""
        if name in ("NODE", "BUFFER") and self.version == NEWEST and not is_number(name, word):
            return self.right_name(name, word)
        if self.version == NEWEST and name == "CYCLES":
            return None if RunCycles.of(word) else RIGHT_CYCLES
        if name == "PLACE":
            return right_place(word, self.version)
        if name in ("CHANNEL", "CHANNELS"):
            known = ("A", "B") if name == "CHANNEL" else ("A", "B", "AB")
            right = "`A` or `B`" if name == "CHANNEL" else "`A`, `B` or `AB`"
            return None if word in known else f"Expected {right}"
        if name == "HEX":
            return right_hex(self.kind, word)
        return right_number(name, word)

    def right_name(self, name: str, word: str) -> str | None:
        """Returns what is expected instead of a name, or nothing where the cluster file has it."""
        if name == "NODE":
            if self.names.node(word) is not None:
                return None
            why = self.names.why_no_node(word)
        else:
            node = self.node()
            if node is None or self.names.buffer(node, word) is not None:
                return None
            why = self.names.why_no_buffer(node, word)
        thing = "a node" if name == "NODE" else "a buffer of the node"
        if RANGE.match(word):
            why += (f" Several stand with commas between them, as `{numbers_listed(word) or '0,1'}`. Only cycles and "
                    "static slots have ranges.")
        return f"{why} Expected a number from 0 to {GREATEST[name]} without leading zeros or the name of {thing}"

    def node(self) -> int | None:
        """Returns the number of the node that a line names."""
        word = self.words[1 + self.form.index("NODE")]
        return int(word) if is_number("NODE", word) else self.names.node(word)

    # ---- lines of a right line

    @property
    def numbers(self) -> list[str]:
        """Returns the words of a right line without lists, with numbers in the place of names."""
        return [self.kind, *map(self.numbered, self.form, self.words[1:])]

    @property
    def elements(self) -> list[list[tuple[str, int]]]:
        """Returns the elements of each word after the kind, each with its column. Only version 3 has lists."""
        its = zip(self.words[1:], self.columns[1:])
        if self.version < NEWEST or "," not in self.text:
            return [[it] for it in its]
        return [elements_of(word, column) for word, column in its]

    def meant(self) -> list["Words"]:
        """Returns the lines for which this one stands: one for each choice of an element of each list."""
        if self.version < NEWEST or "," not in self.text:
            return [self]
        return [Words(self.version, self.text, (self.kind, *(it[0] for it in choice)),
                      (self.columns[0], *(it[1] for it in choice)), self.names) for choice in product(*self.elements)]

    def lines(self, number: int) -> list[Line]:
        """Returns the lines that a right line of this number stands for.

        These are one for each choice of an element of each list, and two of each for a fault on two channels.
        """
        return [line for it in self.meant() for line in it.single_lines(number)]

    def single_lines(self, number: int) -> list[Line]:
        """Returns the lines of a right line without lists."""
        words = self.numbers
        if self.kind == LOST:
            one, node, cycles = self.columns
            return [FaultLine(number, ("mute", words[1], channel, words[2], "*"), (one, node, one, cycles, one), True)
                    for channel in "AB"]
        if self.kind not in FAULTS:
            return [Line(number, tuple(words), self.columns)]
        at = 1 if self.kind == "corrupt" else 2
        return [FaultLine(number, (*words[:at], channel, *words[at + 1:]), self.columns) for channel in words[at]]

    def numbered(self, name: str, word: str) -> str:
        """Returns the number in the place of a name."""
        if name == "NODE":
            return str(self.node())
        node = self.node() if name == "BUFFER" and not is_number(name, word) else None
        return word if node is None else str(self.names.buffer(node, word))


def elements_of(word: str, column: int) -> list[tuple[str, int]]:
    """Returns the elements of a list that begins in a column, each with its column."""
    elements: list[tuple[str, int]] = []
    for element in word.split(","):
        elements.append((element, column))
        column += len(element) + 1
    return elements


def fault_lines_of(lines: Iterable[str]) -> list[FaultLine]:
    """Returns the fault lines of some right lines of version 3 with numbers: those of one channel each."""
    found = (it for line in lines for it in Words.of(line, NEWEST).lines(0))
    return [it for it in found if isinstance(it, FaultLine)]


def slip_in(name: str, word: str) -> str:
    """Returns what to mend in a word that has the form of other formats, or nothing."""
    if name == "HEX":
        begin = word.lower().removeprefix("0")
        return f"Expected `{begin}`, without the 0. " if word[:1] == "0" and HEX.fullmatch(begin) else \
            f"Expected `x{word.lower()}`. " if HEX.fullmatch(f"x{word.lower()}") else ""
    return f"Expected no `{word[-1]}` after a word. " if len(word) > 1 and word[-1] in ",;:" else ""


def range_hint(word: str) -> str:
    """Returns what to write for a place of filters that no line has: a range with a step or of another segment, or a
    number alone."""
    letter = word[:1] if word[:1] in ("s", "m", "d") else ""
    rest = word.removeprefix(letter)
    if not letter:
        meant = f"s{rest}" if FaultPlace.of(f"s{rest}") else numbers_listed(rest, "s")
        return f"Expected `{meant}` for static slots, or `d` or `m` and each number. " if meant else ""
    listed = numbers_listed(rest, letter)
    return f"Expected `{listed}`, since only static slots have ranges, without steps. " if listed else ""


def numbers_listed(word: str, letter: str = "") -> str | None:
    """Returns the list that means a range of a few numbers, each after a letter, or None for other words."""
    found = SPAN.fullmatch(word)
    numbers = range(int(found[1]), int(found[2]) + 1, int(found[3] or 1) or 1) if found else range(0)
    return ",".join(f"{letter}{it}" for it in numbers) if 1 < len(numbers) <= MOST_LISTED else None


RIGHT_CYCLES = (f"Expected `*` for every cycle, `C`, `C-D`, or `C-D/STEP` for each STEPth cycle from C on up to D, "
                f"with numbers up to {MOST_CYCLE} without leading zeros and C not above D")


def right_place(word: str, version: int) -> str | None:
    """Returns the expected form of a place, or nothing where it is right."""
    if FaultPlace.of(word) and (version == NEWEST or OLD_PLACE.fullmatch(word)):
        return None
    if version < NEWEST:
        return (f"Expected `sN` for static slot N, `s*` for every one, or `mN` for minislot N, N from 1 to "
                f"{MOST_PLACE}")
    return (f"Expected `sN` for static slot N, `sN-M` for N up to M, `s*` for every one, `mN` for minislot N, `m*` for "
            f"every one, `dN` for dynamic slot N, or `*` for every window, N from 1 to {MOST_PLACE}")


def right_hex(kind: str, word: str) -> str | None:
    """Returns the expected form of bytes, or nothing where they are right."""
    most, even = MOST_BYTES[kind], "" if kind == "babble" else "an even number of bytes, "
    is_right = HEX.fullmatch(word) and len(word) // 2 <= most and not (even and len(word) // 2 % 2)
    right = f"Expected `x` and two lower-case hexadecimal digits for each byte, {even}{most} at most"
    return None if is_right else right


def is_number(name: str, word: str) -> bool:
    """Returns whether a word is a number in the range of its name."""
    return bool(NUMBER.fullmatch(word)) and len(word) < 10 and int(word) <= GREATEST[name]


def right_number(name: str, word: str) -> str | None:
    """Returns the expected form of a number, or of the cycles of a fault line, or nothing where it is right."""
    if name == "CYCLES" and word == "*":
        return None
    if is_number(name, word):
        return None
    more = " or `*`" if name == "CYCLES" else ""
    return f"Expected a number from 0 to {GREATEST[name]} without leading zeros{more}"


def columns(words: tuple[str, ...]) -> list[int]:
    """Returns the columns of the words after the first, where single spaces separate them."""
    found, column = [], 1
    for word in words[:-1]:
        column += len(word) + 1
        found.append(column)
    return found


def odd_return(text: str) -> Wrong | None:
    """Returns the fault of a line of version 3 with a carriage return before its comment."""
    at = text.partition("#")[0].find("\r")
    return None if at < 0 else ("a carriage return stands in the line", "Lines end with a line feed alone.", at + 1)


def odd_spaces(text: str, what: str, more: str = "") -> Wrong | None:
    """Returns the fault of a line with a surplus space, tab or carriage return, an empty line, or a comment.

    WHAT names the format, for which only single spaces are right. MORE ends the reason for an empty line or a comment.
    """
    for odd, name in (("\r", "a carriage return"), ("\t", "a tab")):
        if odd in text:
            reason = "Expected a line feed alone at the end, and single spaces."
            return f"{name} stands in the line", reason, text.index(odd) + 1
    if not text:
        return "the line is empty", f"{what[0].upper()}{what[1:]} has no empty lines.{more}", 1
    if text.lstrip(" ").startswith("#"):
        return "the line is a comment", f"{what[0].upper()}{what[1:]} has no comments.{more}", 1
    if "  " in text or text.startswith(" ") or text.endswith(" "):
        column = 1 if text.startswith(" ") else text.index("  ") + 2 if "  " in text else len(text)
        reason = "Expected one space between two words, and none at the ends."
        return "a space too many stands in the line", reason, column
    return None
