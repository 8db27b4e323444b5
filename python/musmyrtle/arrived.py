"""The checks by which bytes are a valid data frame of a slot (chapters 4 and 6)."""
from musmyrtle.faults.frames import (CYCLE_COUNT, FRAME_CRC, FRAME_OPENINGS, HEADER_BYTES, HEADER_CRC, TRAILER_BYTES,
                                     division)


def suits(frame: bytes, slot: int, cycle: int, static_words: int | None) -> bool:
    """Returns whether the header of a frame is that of a data frame for a slot in a cycle.

    STATIC_WORDS is the payload length of a static slot, in two-byte words, and None for a dynamic one.
    """
    header = int.from_bytes(frame[:HEADER_BYTES], "big")
    is_data, is_sync, is_startup = header >> 37 & 1, header >> 36 & 1, header >> 35 & 1
    if not is_data or header >> 24 & 0x7FF != slot or header % CYCLE_COUNT != cycle % CYCLE_COUNT:
        return False
    if static_words is None:
        return not is_sync and not is_startup
    return header >> 17 & 0x7F == static_words and bool(is_sync or not is_startup)


def has_checksums(frame: bytes, channel: str) -> bool:
    """Returns whether bytes have the length of a frame, and right checksums for a channel."""
    words = frame[2] >> 1 if len(frame) >= HEADER_BYTES + TRAILER_BYTES else 0
    if len(frame) != HEADER_BYTES + 2 * words + TRAILER_BYTES:
        return False
    header = int.from_bytes(frame[:HEADER_BYTES], "big")
    body, trailer = frame[:-TRAILER_BYTES], int.from_bytes(frame[-TRAILER_BYTES:], "big")
    return (division(header >> 17 & 0xFFFFF, 20, *HEADER_CRC) == header >> 6 & 0x7FF
            and division(int.from_bytes(body, "big"), 8 * len(body), *FRAME_CRC, FRAME_OPENINGS[channel]) == trailer)
