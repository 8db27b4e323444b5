"""The kinds of files that are given by mistake, told by their first bytes, and the link types of captures."""
import os
import struct
from collections.abc import Iterator
from contextlib import suppress
from dataclasses import dataclass

from musmyrtle.findings import joined

FLEXRAY = 210
LINK_TYPES = {1: "Ethernet", 101: "raw IP", 105: "Wi-Fi", 113: "Linux cooked", 190: "CAN 2.0B", 210: "FlexRay",
              211: "MOST", 212: "LIN", 227: "CAN", 276: "Linux cooked 2"}
"""The link types of captures that engineers have, as tcpdump.org lists them."""
PCAP = {b"\xd4\xc3\xb2\xa1": "<", b"\x4d\x3c\xb2\xa1": "<", b"\xa1\xb2\xc3\xd4": ">", b"\xa1\xb2\x3c\x4d": ">"}
"""The first bytes of pcap files, with the order of bytes."""
PCAPNG, ORDERS = b"\x0a\x0d\x0d\x0a", {b"\x4d\x3c\x2b\x1a": "<", b"\x1a\x2b\x3c\x4d": ">"}
INTERFACE = 1
LOOKED_AT = 65536
"""The bytes of the begin of a file that are looked at."""
MARKS = ("\ufeff".encode(), b"\xff\xfe", b"\xfe\xff")
"""The byte order marks of UTF-8 and UTF-16."""


@dataclass(frozen=True)
class Kind:
    """A kind of files: its name in words, and what to do with such a file if that is known."""

    name: str
    advice: str = ""

    @property
    def sentence(self) -> str:
        """Returns the advice as a sentence before another one, or nothing."""
        return f"{self.advice[0].upper()}{self.advice[1:]}. " if self.advice else ""


CAPTURE = Kind("a capture of a bus", "`musmyrtle monitor CLUSTER RECORDING` compares it with a cluster")
SWAPPED = "are the two files swapped? The cluster file comes first, and then the scenario"
SCENARIO = Kind("a scenario", SWAPPED)
CLUSTER = Kind("a cluster file", SWAPPED)
TRACE = Kind("a trace", "`musmyrtle lint TRACE` explains a trace, and takes nothing else")
NO_IMPORT = "there is no import of it: write the cluster as docs/formats/cluster.md describes"
IMPORT = "`musmyrtle import FILE -o cluster.toml` makes a cluster file of it"
EXPORT = "export it as a capture (pcap or pcapng) of link type 210"
UNPACK = "unpack it first"
BY_BEGIN: tuple[tuple[bytes, Kind], ...] = (
    *((it, CAPTURE) for it in (*PCAP, PCAPNG)),
    (b"LOGG", Kind("a BLF file", EXPORT)), (b"MDF ", Kind("an MDF file", EXPORT)),
    (b"UnFinMF", Kind("an MDF file", EXPORT)),
    (b"\x1f\x8b", Kind("a file that gzip packed", UNPACK)),
    (b"\x28\xb5\x2f\xfd", Kind("a file that zstd packed", UNPACK)),
    (b"\xfd7zXZ", Kind("a file that xz packed", UNPACK)), (b"PK\x03\x04", Kind("a ZIP archive", UNPACK)),
    (b"%PDF", Kind("a PDF file")), (b"\x7fELF", Kind("a program")), (b"#!", Kind("a script")),
    (b"frscenario", SCENARIO), (b"frtrace", TRACE), (b"LIN_description_file", Kind("an LDF file of LIN", NO_IMPORT)),
    (b'VERSION "', Kind("a DBC file of CAN", NO_IMPORT)), (b"BU_:", Kind("a DBC file of CAN", NO_IMPORT)),
    (b"date ", Kind("an ASC log", EXPORT)), (b"{", Kind("a JSON file", NO_IMPORT)),
    (b"---", Kind("a YAML file", NO_IMPORT)),
)
"""The kinds that the first bytes tell, after a byte order mark and white space."""
IN_XML: tuple[tuple[bytes, Kind], ...] = (
    (b"<AUTOSAR", Kind("an ARXML file of AUTOSAR", IMPORT)), (b"FIBEX", Kind("a FIBEX file", IMPORT)),
    (b"<html", Kind("an HTML page")), (b"<!DOCTYPE html", Kind("an HTML page")), (b"", Kind("an XML file", NO_IMPORT)),
)
"""The kinds of files that begin with `<`, by a text in their begin."""
OF_CLUSTERS = (b"[params]", b"[[node]]")


def kind_of(data: bytes) -> Kind | None:
    """Returns the kind of a file by its first bytes, or None where they don't tell it."""
    begin = data[:LOOKED_AT]
    for mark in MARKS:
        begin = begin.removeprefix(mark)
    for kinds, text in ((BY_BEGIN, data), (BY_BEGIN, begin.lstrip())):
        for mark, kind in kinds:
            if text.startswith(mark):
                return kind
    if begin.lstrip().startswith(b"<"):
        return next(kind for text, kind in IN_XML if text in begin)
    return CLUSTER if any(line.strip() in OF_CLUSTERS for line in begin.splitlines()) else None


def kind_of_file(file: str) -> Kind | None:
    """Returns the kind of a file, or None where it can't be read again, as a pipe."""
    return kind_of(begin_of(file))


# ---- captures


def link_types_of(file: str) -> list[int]:
    """Returns the link types that the begin of a capture names, each once, or none for another file."""
    data = begin_of(file)
    with suppress(struct.error):
        if data[:4] in PCAP:
            # The upper bits are no part of the link type.
            return [struct.unpack_from(f"{PCAP[data[:4]]}I", data, 20)[0] & 0xFFFF]
        if data[:4] == PCAPNG:
            return list(dict.fromkeys(interfaces(data)))
    return []


def interfaces(data: bytes) -> Iterator[int]:
    """Yields the link type of each interface in the begin of a pcapng file."""
    order, place = "<", 0
    while place + 12 <= len(data):
        if data[place:place + 4] == PCAPNG:
            order = ORDERS.get(data[place + 8:place + 12], order)
        kind, length = struct.unpack_from(f"{order}II", data, place)
        if kind == INTERFACE:
            yield struct.unpack_from(f"{order}H", data, place + 8)[0]
        if length < 12:
            return
        place += length


def described(types: list[int]) -> str:
    """Returns `link type 1 (Ethernet)`, or `the link types 1 (Ethernet) and 227 (CAN)`."""
    texts = [f"{it} ({LINK_TYPES[it]})" if it in LINK_TYPES else str(it) for it in types]
    return f"link type {texts[0]}" if len(texts) == 1 else f"the link types {joined(texts)}"


def begin_of(file: str) -> bytes:
    """Returns the begin of a file, or nothing where it can't be read again, as a pipe."""
    try:
        if os.path.isfile(file):
            with open(file, "rb") as source:
                return source.read(LOOKED_AT)
    except (OSError, ValueError):
        pass
    return b""
