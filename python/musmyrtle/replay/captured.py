"""The bytes of the records of a capture, by the numbers that `fr_monitor` gives them.

The program judges the file. So a broken file is read as far as it goes here, without a word about it.
"""
import struct
from collections.abc import Iterator
from dataclasses import dataclass
from typing import IO

from musmyrtle.file_kinds import FLEXRAY, ORDERS, PCAP, PCAPNG
from musmyrtle.replay.bits import HEADER_BYTES, TRAILER_BYTES, is_header, words_of

FILE_HEADER, RECORD_HEADER, MOST_BYTES = 24, 16, 1 << 26
SECTION = int.from_bytes(PCAPNG, "big")
INTERFACE, OBSOLETE, SIMPLE, ENHANCED = 1, 2, 3, 6
"""The types of the blocks of a pcapng file that are read."""
CHANNEL_BIT, ERROR_BITS = 0x80, 0x1F
FRAME_CRC, HEADER_CRC, WRONG_LENGTH = 0x10, 0x08, 0x04
"""The error flags of records that the bench writes."""


@dataclass(frozen=True, slots=True)
class Seen:
    """A frame as a capture of the bench has it: the error flag, and the bytes without a trailer.

    A frame of a wrong length has all bytes. Other flags of a logger are kept, and no bench gives them.
    """

    error: int
    data: bytes

    @classmethod
    def of(cls, record: bytes) -> "Seen":
        """Returns the frame of a record of link type 210, which has at least two bytes."""
        error, data = record[1] & ERROR_BITS, record[2:]
        if len(data) < HEADER_BYTES or error & WRONG_LENGTH:
            return cls(WRONG_LENGTH, data)
        length = HEADER_BYTES + 2 * words_of(data)
        if len(data) not in (length, length + TRAILER_BYTES):
            return cls(WRONG_LENGTH, data)
        if not is_header(data):
            return cls(HEADER_CRC, data[:length])
        return cls(error, data[:length])


def records_of(source: IO[bytes]) -> Iterator[tuple[int, bytes]]:
    """Yields the records of link type 210 with their numbers, from 1. Other records are counted, too."""
    begin = source.read(4)
    if begin in PCAP:
        yield from classic(source, PCAP[begin])
    elif begin == PCAPNG:
        yield from blocks(source)


def classic(source: IO[bytes], order: str) -> Iterator[tuple[int, bytes]]:
    """Yields the records of a pcap file after its first four bytes."""
    rest = source.read(FILE_HEADER - 4)
    if len(rest) < FILE_HEADER - 4 or struct.unpack_from(f"{order}I", rest, 16)[0] & 0xFFFF != FLEXRAY:
        return
    number = 0
    while len(head := source.read(RECORD_HEADER)) == RECORD_HEADER:
        length = struct.unpack_from(f"{order}I", head, 8)[0]
        data = source.read(min(length, MOST_BYTES))
        if len(data) < length:
            return
        number += 1
        if length >= 2:
            yield number, data


def blocks(source: IO[bytes]) -> Iterator[tuple[int, bytes]]:
    """Yields the records of a pcapng file after its first four bytes."""
    order, number, types, kind_bytes = "<", 0, list[int](), PCAPNG
    while len(kind_bytes) == 4:
        head = source.read(4)
        if kind_bytes == PCAPNG:
            mark = source.read(4)
            order, types, head = ORDERS.get(mark, order), [], head + mark
        kind = SECTION if kind_bytes == PCAPNG else struct.unpack(f"{order}I", kind_bytes)[0]
        length = struct.unpack_from(f"{order}I", head)[0] if len(head) >= 4 else 0
        left = length - 4 - len(head)
        body = source.read(left) if 0 <= left <= MOST_BYTES else b""
        if left < 0 or len(body) < left:
            return
        if kind == INTERFACE and len(body) >= 2:
            types.append(struct.unpack_from(f"{order}H", body)[0])
        elif kind in (OBSOLETE, SIMPLE, ENHANCED):
            number += 1
            at, record = packet(order, kind, body)
            if at < len(types) and types[at] == FLEXRAY and len(record) >= 2:
                yield number, record
        kind_bytes = source.read(4)


def packet(order: str, kind: int, body: bytes) -> tuple[int, bytes]:
    """Returns the number of the interface and the bytes of a packet in the rest of its block."""
    if kind == SIMPLE:
        length = struct.unpack_from(f"{order}I", body)[0]
        return 0, body[4:4 + min(length, len(body) - 8)]
    at = struct.unpack_from(f"{order}H" if kind == OBSOLETE else f"{order}I", body)[0]
    return at, body[20:20 + struct.unpack_from(f"{order}I", body, 12)[0]]
