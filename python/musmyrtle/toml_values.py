"""The values of a TOML text that are neither tables nor arrays: strings, numbers, booleans, dates and times."""
import math
import re

from musmyrtle.visible import cut

GREATEST = 2**63 - 1
MOST_DIGITS = 19
VALUES = "a string in quotes, a number, true, false, a date, a time, an array or an inline table"

WORD = re.compile(r"[-+.:_0-9A-Za-z]++(?:(?<=[0-9]{4}-[0-9]{2}-[0-9]{2}) (?=[0-9])[-+.:0-9A-Za-z]++)?")
"""The longest text that may be a value without quotes. A date and its time may have a space between them."""
INTEGER = re.compile(r"[+-]?(?:0|[1-9](?:_?[0-9])*)")
# Rare patterns are compiled at their first use, since each call of a command would wait for them.
OTHER_INTEGER = r"0(?:x[0-9A-Fa-f](?:_?[0-9A-Fa-f])*|o[0-7](?:_?[0-7])*|b[01](?:_?[01])*)"
FLOAT = r"[+-]?(?:0|[1-9](?:_?[0-9])*)(?:\.[0-9](?:_?[0-9])*)?(?:[eE][+-]?[0-9](?:_?[0-9])*)?"
CONSTANTS: dict[str, bool | float] = {"true": True, "false": False} | {
    sign + it: float(sign + it) for sign in ("", "+", "-") for it in ("inf", "nan")}
TIME = r"(?:[01][0-9]|2[0-3]):[0-5][0-9](?::(?:[0-5][0-9]|60)(?:\.[0-9]++)?)?"
OFFSET = r"(?:[Zz]|[+-](?:[01][0-9]|2[0-3]):[0-5][0-9])"
MOMENT = rf"([0-9]{{4}})-([0-9]{{2}})-([0-9]{{2}})(?:[Tt ]{TIME}{OFFSET}?)?|{TIME}"
DAYS = (31, 28, 31, 30, 31, 30, 31, 31, 30, 31, 30, 31)

BODIES = {
    '"': re.compile(r'((?:[^"\\\x00-\x08\x0a-\x1f\x7f]++|\\[^\x00-\x1f\x7f])*)'),
    "'": re.compile(r"([^'\x00-\x08\x0a-\x1f\x7f]*+)"),
}
"""The characters of a string of one line, by its quotes."""
LONG_BODIES = {
    '"""':
        r'(?:\r?\n)?((?:[^"\\\x00-\x08\x0b-\x1f\x7f]++|\r\n|\\(?:\r\n|[^\x00-\x08\x0b-\x1f\x7f])|"{1,2}(?!"))*)',
    "'''": r"(?:\r?\n)?((?:[^'\x00-\x08\x0b-\x1f\x7f]++|\r\n|'{1,2}(?!'))*)",
}
"""The same of strings of several lines."""
LAST_QUOTES = r"""'{3,5}|"{3,5}"""
"""The end of a string of several lines, which may have two quotes before it."""
CONTROL = r"[\x00-\x08\x0b\x0c\x0e-\x1f\x7f]|\r(?!\n)"
ESCAPE = (r"\\(?:([btnfre\"\\])|x([0-9A-Fa-f]{2})|u([0-9A-Fa-f]{4})|U([0-9A-Fa-f]{8})"
          r"|[ \t]*\r?\n[ \t\r\n]*|)")
ESCAPED = {"b": "\b", "t": "\t", "n": "\n", "f": "\f", "r": "\r", "e": "\x1b", '"': '"', "\\": "\\"}

Noted = tuple[str, int]
"""The related place of a mistake, and its offset."""


class NoToml(ValueError):
    """The text isn't TOML that the program reads. The message has the reason and the expected form."""

    def __init__(self, at: int, why: str, right: str, note: Noted | None = None):
        super().__init__(why)
        self.at, self.why, self.right, self.note = at, why, right, note


class Moment:
    """A date, a time or both, as the text spells it."""

    __slots__ = ("text",)

    def __init__(self, text: str):
        self.text = text

    def __str__(self) -> str:
        return self.text


class Spelled(float):
    """A number with a point or an exponent, with its text: the decimals of 0.01 are no float."""

    __slots__ = ("text",)

    def __new__(cls, text: str) -> "Spelled":
        return super().__new__(cls, text)

    def __init__(self, text: str) -> None:
        self.text = text


def bare_value(word: str, at: int) -> bool | int | float | Moment:
    """Returns the value that a word without quotes has at an offset. Raises `NoToml` for a word that has none."""
    if INTEGER.fullmatch(word):
        digits = word if len(word) <= MOST_DIGITS else word.lstrip("+-").replace("_", "")
        return in_64_bits(int(word) if len(digits) <= MOST_DIGITS else GREATEST + 1, at)
    if word in CONSTANTS:
        return CONSTANTS[word]
    if re.fullmatch(FLOAT, word):
        number = Spelled(word)
        if math.isinf(number):
            raise NoToml(at, "a number is too great", "At most 308 digits may stand before its point.")
        return number
    if re.fullmatch(OTHER_INTEGER, word):
        return in_64_bits(int(word, 0), at)
    found = re.fullmatch(MOMENT, word)
    if found and (found[1] is None or is_date(*map(int, found.groups()))):
        return Moment(word)
    raise NoToml(at, f"`{cut(word)}` is no value", f"Expected {VALUES}.")


def in_64_bits(number: int, at: int) -> int:
    if -GREATEST - 1 <= number <= GREATEST:
        return number
    raise NoToml(at, "an integer is too great", "64 bits have to hold it.")


def is_date(year: int, month: int, day: int) -> bool:
    is_leap_day = (month, day) == (2, 29) and year % 4 == 0 and (year % 100 != 0 or year % 400 == 0)
    return is_leap_day or 1 <= month <= 12 and 1 <= day <= DAYS[month - 1]


def string(text: str, at: int, has_lines: bool = True) -> tuple[str, int]:
    """Returns the string that begins with a quote at an offset, and its end. A key has no string of several lines."""
    quote = text[at]
    quotes = quote * 3 if has_lines and text.startswith(quote * 3, at) else quote
    form = BODIES.get(quotes) or re.compile(LONG_BODIES[quotes])
    body = form.match(text, at + len(quotes))
    end = body.end() if body else at
    if body is None or not text.startswith(quotes, end):
        raise unfinished(text, at, end, quotes)
    content = body[1]
    last = re.compile(LAST_QUOTES).match(text, end) if len(quotes) == 3 else None
    if last:
        content = (content + last[0][3:]).replace("\r\n", "\n")
    if quote == '"' and "\\" in content:
        content = re.sub(ESCAPE, lambda escape: character(escape, at), content)
    return content, last.end() if last else end + 1


def unfinished(text: str, at: int, end: int, quotes: str) -> NoToml:
    """Returns the fault of a string without an end: a control character in it, or its line's end."""
    control = re.compile(CONTROL).match(text, end)
    if control:
        return no_control(control)
    where = "" if len(quotes) == 3 else " in its line"
    return NoToml(at, f"the string has no end{where}", f"Expected {quotes} after it.")


def no_control(found: re.Match[str]) -> NoToml:
    why = f"the control character 0x{ord(found[0]):02x} stands in the text"
    return NoToml(found.start(), why, "Expected a text without it, or its escape in a string.")


def character(escape: re.Match[str], at: int) -> str:
    """Returns the character that an escape in the string at an offset stands for."""
    if escape[1]:
        return ESCAPED[escape[1]]
    digits = escape[2] or escape[3] or escape[4]
    if digits:
        code = int(digits, 16)
        if code < 0xD800 or 0xDFFF < code <= 0x10FFFF:
            return chr(code)
        raise NoToml(at, f"the string has the escape `{escape[0]}`, which is no character", "Expected another.")
    if len(escape[0]) > 1:
        return ""
    raise NoToml(at, "the string has a backslash before no escape",
                 r"Expected \\ for a backslash, or a string in single quotes.")
