"""Values and tables as TOML, in which no name of a description breaks anything, nor a terminal that shows it."""
import re
from collections.abc import Mapping
from fractions import Fraction

from musmyrtle.signals.exact import exact_text
from musmyrtle.visible import visible

BARE = re.compile(r"[A-Za-z0-9_-]+")
GREATEST_INTEGER = 2**63 - 1
MOST_DECIMALS = 60
Value = bool | int | str | Fraction | float | list[int] | dict[str, str] | dict[str, int]


def quoted(text: str) -> str:
    """Returns a string of TOML. Only printable ASCII stands as it is, and what a terminal may show as letters."""
    return '"' + "".join(it if it.isprintable() and it not in '"\\' else escaped(ord(it)) for it in text) + '"'


def escaped(code: int) -> str:
    """Returns a character as an escape. A surrogate, which TOML can't have, is a question mark."""
    if 0xD800 <= code <= 0xDFFF:
        return "?"
    return f"\\u{code:04x}" if code < 0x10000 else f"\\U{code:08x}"


def number_text(value: Fraction) -> str | None:
    """Returns an exact number: a decimal, or a text such as "1/3". Returns None for one that has too many digits."""
    if value.denominator == 1:
        whole = str(value.numerator)
        text = whole if abs(value.numerator) <= GREATEST_INTEGER else quoted(whole)
    else:
        decimal = decimal_of(value)
        text = quoted(f"{value.numerator}/{value.denominator}") if decimal is None else decimal
    return text if exact_text(text.strip('"')) == value else None


def decimal_of(value: Fraction) -> str | None:
    """Returns a fraction as a decimal without an exponent, or None if it has no end or too many digits."""
    for places in range(1, MOST_DECIMALS + 1):
        scaled = value * 10**places
        if scaled.denominator == 1:
            digits = str(abs(scaled.numerator)).rjust(places + 1, "0")
            return f"{'-' if value < 0 else ''}{digits[:-places]}.{digits[-places:]}"
    return None


def value_text(value: Value) -> str:
    """Returns a value of TOML in one line."""
    if isinstance(value, bool):
        return "true" if value else "false"
    if isinstance(value, Fraction):
        return number_text(value) or "0"
    if isinstance(value, list):
        return f"[{', '.join(map(str, value))}]"
    if isinstance(value, dict):
        return inline(value)
    return quoted(value) if isinstance(value, str) else repr(value)


def inline(table: Mapping[str, Value] | Mapping[str, str] | Mapping[str, int]) -> str:
    """Returns a table of TOML in one line."""
    return "{" + ", ".join(f"{key if BARE.fullmatch(key) else quoted(key)} = {value_text(it)}"
                           for key, it in table.items()) + "}"


def comment(text: str) -> str:
    """Returns a comment of one line."""
    return f"# {visible(text)}"
