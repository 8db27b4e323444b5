"""Text from files and programs, made safe to show on a page, in a table and on a terminal."""

LONGEST = 40
"""The number of characters of a key, a value or a word that are shown."""


def visible(text: str) -> str:
    r"""Returns the text with an escape, as `\x1b` or `\u202e`, for each character that isn't printable.

    Control characters, line ends, tabs, formatting characters such as those that turn the direction of writing, and
    surrogates, which stand for bytes of a file name that are no UTF-8, aren't printable. A space is.
    """
    return text if text.isprintable() else "".join(it if it.isprintable() else escaped(ord(it)) for it in text)


def escaped(code: int) -> str:
    if code < 0x100:
        return f"\\x{code:02x}"
    return f"\\u{code:04x}" if code < 0x10000 else f"\\U{code:08x}"


def cut(text: str, most: int = LONGEST) -> str:
    """Returns the text, or its beginning and `..` where it is longer."""
    return text if len(text) <= most else f"{text[:most]}.."
