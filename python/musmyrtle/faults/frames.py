"""The bytes of a frame, as a node that pretends to be another one would send them (chapter 4, frame format)."""

HEADER_CRC = (11, 0x385, 0x01A)
"""Width, polynomial without its top term, and initial value of the header CRC."""
FRAME_CRC = (24, 0x5D6DCB)
FRAME_OPENINGS = {"A": 0xFEDCBA, "B": 0xABCDEF}
HEADER_BYTES, TRAILER_BYTES = 5, 3
MOST_SLOT, MOST_WORDS, CYCLE_COUNT = 2047, 127, 64


def division(value: int, bits: int, width: int, polynomial: int, register: int) -> int:
    """Returns the register of the long division after the value's bits, the most significant one first."""
    top, mask = width - 1, (1 << width) - 1
    for place in reversed(range(bits)):
        if (register >> top ^ value >> place) & 1:
            register = register << 1 & mask ^ polynomial
        else:
            register = register << 1 & mask
    return register


def data_frame(slot: int, cycle: int, payload: bytes, channel: str) -> bytes:
    """Returns a valid data frame that is neither a sync nor a startup frame.

    It has slot 1 to 2047, cycle 0 to 63 and whole words.
    """
    words = len(payload) // 2
    if not (1 <= slot <= MOST_SLOT and 0 <= cycle < CYCLE_COUNT and len(payload) % 2 == 0 and words <= MOST_WORDS):
        raise ValueError(f"no frame has slot {slot}, cycle {cycle} and {len(payload)} bytes of payload")
    covered = slot << 7 | words
    header = 1 << 37 | covered << 17 | division(covered, 20, *HEADER_CRC) << 6 | cycle
    sent = header.to_bytes(HEADER_BYTES, "big") + payload
    trailer = division(int.from_bytes(sent, "big"), 8 * len(sent), *FRAME_CRC, FRAME_OPENINGS[channel])
    return sent + trailer.to_bytes(TRAILER_BYTES, "big")
