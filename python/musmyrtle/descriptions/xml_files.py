"""XML of others, read by `defusedxml` in bounded memory: no DTD, no entities, no external references.

The elements go to a target one by one, so that only what it keeps takes memory. `parser_of` is the one place that knows
the library.
"""
import os
import stat
from collections.abc import Callable
from typing import Any, Protocol
from xml.etree.ElementTree import ParseError

from musmyrtle.descriptions.report import Refused
from musmyrtle.ending import reason_of
from musmyrtle.output import CANNOT_BE_USED, Stop

FILE_LIMIT = 512 * 1024 * 1024
"""The bytes of all files together. Descriptions of whole cars have up to some hundred million."""
PIECE = 65536
LONGEST_TOKEN = 1024 * 1024
"""The bytes of a tag or a comment. The parser keeps the whole of one, and looks at it again for each piece."""
MISSING = ("import reads XML by defusedxml, which isn't installed: apt install python3-defusedxml, or "
           "pip install defusedxml")


Tell = Callable[[int, int], None]
"""A function that gets how many bytes of all are read."""


class Target(Protocol):
    """The receiver of the elements of a file."""

    def start(self, tag: str, attributes: dict[str, str]) -> None:
        """An element begins. Its tag has the namespace in braces in front."""

    def end(self, tag: str) -> None:
        """An element ends."""

    def data(self, text: str) -> None:
        """A part of a text."""

    def close(self) -> None:
        """The file ends."""


def parser_of(target: Target) -> Any:
    """Returns a parser for a target. Raises `Stop` where `defusedxml` isn't installed."""
    try:
        from defusedxml.ElementTree import DefusedXMLParser
    except ImportError:
        raise Stop(CANNOT_BE_USED, MISSING) from None
    return DefusedXMLParser(target=target, forbid_dtd=True)


def read_files(files: list[str], target_of: Callable[[str], Target], tell: Tell) -> list[bytes]:
    """Reads files, each into a target of its own. Returns their SHA-256 digests.

    Raises `Refused` for what is no XML, is too large or isn't safe, and `Stop` for a file that can't be read.
    """
    sizes = [size_of(file) for file in files]
    if sum(sizes) > FILE_LIMIT:
        largest = files[sizes.index(max(sizes))]
        raise Refused("TooLarge", largest, f"the files have {sum(sizes)} bytes, and at most {FILE_LIMIT} are read")
    before, digests = 0, []
    for file in files:
        def told(fed: int, before: int = before) -> None:
            tell(before + fed, max(sum(sizes), before + fed))
        digest, fed = read_file(file, target_of(file), FILE_LIMIT - before, told)
        digests.append(digest)
        before += fed
    return digests


def size_of(file: str) -> int:
    """Returns the bytes of a regular file, or 0 for a pipe, whose bytes are counted later."""
    try:
        found = os.stat(file)
    except (OSError, ValueError) as error:
        raise unreadable(file, error) from None
    return found.st_size if stat.S_ISREG(found.st_mode) else 0


def unreadable(file: str, error: OSError | ValueError) -> Stop:
    reason = reason_of(error) if isinstance(error, OSError) else str(error)
    return Stop(CANNOT_BE_USED, reason if file in reason else f"{file}: {reason}")


def place_in(parser: Any, fed: int) -> int:
    """Returns where the parser is in the file: at the begin of a tag whose end it hasn't seen."""
    inner = getattr(parser, "parser", None)
    return fed if inner is None else int(inner.CurrentByteIndex)


def read_file(file: str, target: Target, room: int, tell: Callable[[int], None]) -> tuple[bytes, int]:
    """Reads one file of at most ROOM bytes. Returns its digest and its length."""
    # Most commands need no digest.
    from hashlib import sha256
    parser, digest, fed = parser_of(target), sha256(), 0
    try:
        with open(file, "rb") as source:
            while piece := source.read(PIECE):
                fed += len(piece)
                if fed > room:
                    raise Refused("TooLarge", file, f"it has more than the {FILE_LIMIT} bytes that are read")
                tell(fed)
                digest.update(piece)
                parser.feed(piece)
                if fed - place_in(parser, fed) > LONGEST_TOKEN:
                    raise Refused("TooLong", file, f"a tag or a comment has more than {LONGEST_TOKEN} bytes")
        parser.close()
    except ParseError as error:
        line, column = error.position
        raise Refused("NotXml", file, f"line {line}, column {column + 1}: {str(error.msg).partition(':')[0]}") from None
    except OSError as error:
        raise unreadable(file, error) from None
    except (ValueError, LookupError) as error:
        # The exceptions of defusedxml are of this kind, and so are those of unknown encodings.
        raise Refused("UnsafeXml", file, f"{type(error).__name__}: a document type, an entity or an external reference "
                      "isn't read" if type(error).__module__.startswith("defusedxml") else str(error)) from None
    return digest.digest(), fed
