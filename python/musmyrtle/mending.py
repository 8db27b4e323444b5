"""Hints for texts with the signs of another format: comments, quotes, units, and marks of an editor."""
import re

COMMENTS = ("//", "/*", ";", "--", "!", "%")
"""The begins of comments in other formats."""
QUOTES = "\u201c\u201d\u201e\u201f\u2018\u2019\u201a\u00ab\u00bb\u2033\u00b4`"
SPACES = "\u00a0\u2007\u202f\u3000\u200b\ufeff"
"""Characters that look like a space or like nothing."""
UNITS = "us|\u00b5s|\u03bcs|ms|ns|s|mt|mbit/s|kbit/s|bit/s|bits?|bytes?|words?|k?hz|mhz"
UNIT = re.compile(rf"([+-]?[0-9][0-9_.]*) *({UNITS})\b", re.IGNORECASE)
NAME = re.compile(r"[A-Za-z_][A-Za-z0-9_]*")
FLAGS = ("true", "false")
MARK = "\ufeff"
"""The byte order mark."""
LOOKED_AT = 80
"""The characters that are looked at."""


def comment_in(text: str) -> str | None:
    """Returns what to write in the place of a text that begins as a comment of another format, or None."""
    mark = next((it for it in COMMENTS if text.startswith(it)), None)
    return None if mark is None else f"A comment begins with `#`, and not with `{mark}`."


def toml_hint(text: str, at: int) -> str | None:
    """Returns what to mend at a place where a text isn't TOML, or None where no cause is known."""
    rest, begin = text[at:at + LOOKED_AT], text.rfind("\n", 0, at) + 1
    comment = comment_in(rest)
    if comment:
        return comment
    if rest[:1] and rest[0] in QUOTES:
        return 'Expected straight quotes, as in "AB".'
    if rest[:1] and rest[0] in SPACES:
        return "A special space or mark stands there. Expected usual spaces."
    for unit in UNIT.finditer(text[begin:at + LOOKED_AT].split("\n", 1)[0]):
        if unit.start(1) <= at - begin <= unit.end(2):
            return f"Expected `{unit[1]}` without a unit: each key has its own."
    word = NAME.match(rest)
    if not word or not is_value(text[begin:at]):
        return None
    if word[0].lower() in FLAGS:
        return f"Expected `{word[0].lower()}`, in small letters."
    return f'Expected quotes around a text: "{word[0]}".'


def is_value(before: str) -> bool:
    """Returns whether a value comes after the begin of a line."""
    end = before.rstrip()
    return end.endswith(("=", ",")) or end.endswith("[") and bool(end.rstrip("[ \t"))


def wide_hint(data: bytes) -> str | None:
    """Returns what to mend in a file that is UTF-16, or None for another one."""
    is_wide = data.startswith((b"\xff\xfe", b"\xfe\xff"))
    return "The file is UTF-16. Expected a file saved as UTF-8." if is_wide else None
