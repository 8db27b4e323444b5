"""A cluster file as a text: its TOML, and the texts that `fr_bench` refuses as no TOML."""
from collections.abc import Iterable
from dataclasses import dataclass

from musmyrtle.file_kinds import CLUSTER, kind_of
from musmyrtle.findings import Finding, Note
from musmyrtle.mending import toml_hint, wide_hint
from musmyrtle.places import Path, Place, Places
from musmyrtle.toml_reader import Reader
from musmyrtle.toml_tables import BY_HEADER, Table
from musmyrtle.toml_values import NoToml

FILE_LIMIT = 1_048_576
EXPECTED = "Expected a text in TOML with a table `[params]`, and a table `[[node]]` for each node."


class NoText(Exception):
    """The file is refused as a text, with the words of the refusal and the reason."""

    def __init__(self, refusal: str, why: Finding):
        super().__init__(refusal)
        self.refusal, self.why = refusal, why


@dataclass(frozen=True)
class Text:
    """The content of a file: the document and its places."""

    file: str
    document: Table
    places: Places

    def place_of(self, path: Path) -> Place | None:
        """Returns the place of a path, or otherwise of the table that holds it."""
        while path:
            place = self.places.of(path)
            if place:
                return place
            path = path[:-1]
        return None

    def finding(self, headline: str, reason: str, path: Path = (), notes: Iterable[tuple[str, Path]] = ()) -> Finding:
        """Returns a finding at a path, with what stands at the paths of its notes."""
        others = tuple(Note(text, self.place_of(other)) for text, other in notes)
        return Finding(headline, reason, self.place_of(path), others)


def read_text(file: str, data: bytes) -> Text:
    """Reads the bytes of a cluster file. Raises `NoText` for a file that is too long or no TOML."""
    if len(data) > FILE_LIMIT:
        headline = f"the file has {len(data)} bytes"
        why = Finding(headline, f"A cluster file has at most {FILE_LIMIT} bytes.")
        raise NoText("TooLong", other_kind(file, data) or why)
    try:
        text = data.decode()
    except UnicodeDecodeError as error:
        raise NoText("Toml", other_kind(file, data) or not_utf8(file, data, error.start)) from None
    text = text.removeprefix("\ufeff")
    try:
        document = Reader(text).document()
    except NoToml as error:
        why = other_kind(file, data) or no_toml(Places(file, text, Table(BY_HEADER)), error)
        raise NoText("Toml", why) from None
    return Text(file, document, Places(file, text, document))


def other_kind(file: str, data: bytes) -> Finding | None:
    """Returns the kind of a file that is no cluster file, and what to do with it, or None if it isn't known."""
    kind = kind_of(data)
    if kind is None or kind is CLUSTER:
        return None
    first = data.split(b"\n", 1)[0]
    source = "" if b"\0" in first else first.decode(errors="replace")
    headline = f"the file is {kind.name}, and no cluster file"
    return Finding(headline, f"{kind.sentence}{EXPECTED}", Place(file, 1, None, source))


def not_utf8(file: str, data: bytes, at: int) -> Finding:
    begin = data.rfind(b"\n", 0, at) + 1
    source = data[begin:].split(b"\n", 1)[0].decode(errors="replace")
    place = Place(file, data.count(b"\n", 0, at) + 1, len(data[begin:at].decode(errors="replace")) + 1, source)
    reason = wide_hint(data) or "TOML is UTF-8. Expected a file saved as UTF-8."
    return Finding(f"the byte 0x{data[at]:02x} is no UTF-8", reason, place)


def no_toml(places: Places, error: NoToml) -> Finding:
    notes = () if error.note is None else (Note(error.note[0], places.at(error.note[1])),)
    hint = toml_hint(places.text, error.at)
    return Finding(error.why, f"{hint} {error.right}" if hint else error.right, places.at(error.at), notes)
