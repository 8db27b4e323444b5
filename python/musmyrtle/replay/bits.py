"""The bytes of frames that a node offers, and the single bit in which two frames differ (chapter 4, frame format)."""
from functools import cache

from musmyrtle.faults.frames import FRAME_CRC, FRAME_OPENINGS, HEADER_BYTES, HEADER_CRC, TRAILER_BYTES, division

__all__ = ("HEADER_BYTES", "TRAILER_BYTES", "data_header", "flipped_bit", "is_header", "null_frame", "sent", "words_of")
COVERED, PREAMBLE, DATA, SYNC, STARTUP = 20, 1 << 38, 1 << 37, 1 << 36, 1 << 35
"""The bits that the header CRC covers, and the indicators in the 40 bits of a header."""


def words_of(data: bytes) -> int:
    """Returns the payload length of a header, in two-byte words."""
    return data[2] >> 1


def is_header(data: bytes) -> bool:
    """Returns whether the header CRC of these bytes, at least five, is right."""
    header = int.from_bytes(data[:HEADER_BYTES], "big")
    return header >> 6 & 0x7FF == header_crc(header >> 17 & 0xFFFFF)


@cache
def header_crc(covered: int) -> int:
    """Returns the header CRC of the 20 covered bits."""
    return division(covered, COVERED, *HEADER_CRC)


def header(flags: int, slot: int, words: int, count: int) -> bytes:
    """Returns a header with these indicators, slot, payload length and cycle count."""
    covered = (flags >> 17 & 0x18 << 15) | slot << 7 | words
    return (flags | covered << 17 | header_crc(covered) << 6 | count).to_bytes(HEADER_BYTES, "big")


def flags_of(has_preamble: bool, is_data: bool, is_sync: bool, is_startup: bool) -> int:
    """Returns the indicators of a header."""
    return has_preamble * PREAMBLE | is_data * DATA | is_sync * SYNC | is_startup * STARTUP


def data_header(slot: int, words: int, count: int, has_preamble: bool, is_sync: bool, is_startup: bool) -> bytes:
    """Returns the header of a data frame."""
    return header(flags_of(has_preamble, True, is_sync, is_startup), slot, words, count)


def null_frame(slot: int, words: int, count: int, is_sync: bool, is_startup: bool) -> bytes:
    """Returns a null frame without its trailer."""
    return header(flags_of(False, False, is_sync, is_startup), slot, words, count) + bytes(2 * words)


def sent(data: bytes, channel: str, is_wrong: bool = False) -> bytes:
    """Returns the bytes of a frame with its trailer, or with a trailer whose last bit is wrong."""
    crc = division(int.from_bytes(data, "big"), 8 * len(data), *FRAME_CRC, FRAME_OPENINGS[channel]) ^ is_wrong
    return data + crc.to_bytes(TRAILER_BYTES, "big")


def flipped_bit(one: bytes, other: bytes) -> int | None:
    """Returns the only bit in which two frames of the same length differ, from the most significant one of the first
    byte, -1 if they are the same, or None if they differ in more."""
    if len(one) != len(other):
        return None
    difference = int.from_bytes(one, "big") ^ int.from_bytes(other, "big")
    if not difference:
        return -1
    return None if difference & difference - 1 else 8 * len(one) - difference.bit_length()
