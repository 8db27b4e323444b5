"""Audits of frames that a node sends redundantly: the same bytes on both channels, but for the frame CRC."""
from .captured import frame_crc, header_crc
from .runner import refused

WORDS = (0, 11, 12, 15, 16, 17, 62, 126, 127)
"""Payload lengths in two-byte words. Frames of 32 and of 40 bytes have 12 and 16."""


def body(words, cycle, flipped=None):
    """Returns header and payload of a data frame of slot 1, perhaps with one flipped bit."""
    header = 1 << 37 | 1 << 24 | words << 17 | header_crc(1 << 7 | words) << 6 | cycle
    data = bytearray(header.to_bytes(5, "big") + bytes(range(2 * words)))
    if flipped is not None:
        data[flipped // 8] ^= 0x80 >> flipped % 8
    return bytes(data)


def word(data, channel, mask=0):
    """Returns the word of the bytes with the frame CRC of the channel, of which the bits of the mask are flipped."""
    return f"x{data.hex()}{frame_crc(data, channel) ^ mask:06x}"


class Twins:
    """Traces of one receive buffer and two windows, in the second of which both observations may be twins."""

    def __init__(self, runs):
        self.runs = runs

    def all(self):
        for words in WORDS:
            self.reports(words)
            self.refusals(words)

    def trace(self, words, second_a, second_b):
        first = body(words, 0)
        return ["frtrace 1", f"params 8 0 {words} 100 1 0 200 1000 0 1", "node 1 0 0 8 8", "rx 1 AB 0 1", "begin",
                "fetch 0 0 0 1 1 - -", f"see 0 {word(first, 'A')} {word(first, 'B')}",
                "fetch 1 1 0 1 1 - -", f"see 1 {second_a} {second_b}", "end"]

    def check(self, name, words, second, wanted):
        given = "".join(f"{line}\n" for line in self.trace(words, *second)).encode()
        self.runs.check(f"audit where {name}, with {words} words", ["audit"], wanted, given=given)

    def reports(self, words):
        """Checks the report of each pair of frames in the second window."""
        right = body(words, 1)
        wrong = body(words, 1, flipped=8 * len(right) - 1)
        a, b = word(right, "A"), word(right, "B")
        good, bad = "2 0 0 0 0", "1 1 0 0 0"
        pairs = {
            "both frames are right": ((a, b), "3:A", good, good),
            "B's frame has the frame CRC of A": ((a, a), "3:A", good, bad),
            "A's frame has the frame CRC of B": ((b, b), "3:B", bad, good),
            "the frame CRCs are exchanged": ((b, a), "1:A", bad, bad),
            "B's body has a flipped bit": ((a, word(wrong, "B", frame_crc(wrong, "B") ^ frame_crc(right, "B"))),
                                           "3:A", good, bad),
            "both bodies have the same flipped bit": ((f"x{wrong.hex()}{a[-6:]}", f"x{wrong.hex()}{b[-6:]}"),
                                                      "1:A", bad, bad),
        }
        for mask in (1, 1 << 23):
            pairs[f"B's frame CRC has bits {mask:x} flipped"] = (a, word(right, "B", mask)), "3:A", good, bad
            pairs[f"A's frame CRC has bits {mask:x} flipped"] = (word(right, "A", mask), b), "3:B", bad, good
        payload = bytes(range(2 * words)).hex()
        for name, (second, held, on_a, on_b) in pairs.items():
            report = f"rx 0 {held} x{payload}\nA {on_a}\nB {on_b}\n"
            self.check(name, words, second, (report.encode(), b"", 0))

    def refusals(self, words):
        """Checks words of the second window that are no observations."""
        right = body(words, 1)
        a, b = word(right, "A"), word(right, "B")
        for name, second in {
            "the last digit is upper case": (a, f"{b[:-1]}F"),
            "a digit of the frame CRC is no digit": (a, f"{b[:-6]}g{b[-5:]}"),
            "both words end a digit early": (a[:-1], b[:-1]),
            "both words have the same wrong digit": (f"{a[:9]}/{a[10:]}", f"{b[:9]}/{b[10:]}"),
            "a word follows": (a, f"{b} -"),
            "a space follows": (a, f"{b} "),
        }.items():
            self.check(name, words, second, refused("BadLine 9"))
