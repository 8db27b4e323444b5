"""The minislots that dynamic frames fill: on the bus by the standard, and in a cluster file by `words_per_minislot`.

A dynamic frame begins at the action point of its first minislot. Its trailing sequence ends at an action point. So it
fills one minislot more than its bits, which a slow sender draws out against a fast node (appendix B, from memory).
"""
import math
from collections.abc import Iterable
from dataclasses import dataclass
from fractions import Fraction

from musmyrtle.cluster import PARAMETERS
from musmyrtle.lint.physical import BITS_OF_BYTE, BYTES_BESIDE_PAYLOAD

START_BIT, END, TRAILING = 1, 2, 1
DEVIATION = Fraction(15, 10000)
"""cClockDeviationMax."""
SLOWEST = (1 + DEVIATION) / (1 - DEVIATION)
WORDS_BESIDE_PAYLOAD = BYTES_BESIDE_PAYLOAD // 2
KEY = "words_per_minislot"


@dataclass(frozen=True)
class Lengths:
    """The lengths of dynamic frames, by the bits of a minislot and of the transmission start sequence."""

    minislot_bits: Fraction
    start_bits: int

    def on_the_bus(self, words: int) -> int:
        """Returns the minislots of a frame of so many words by the standard, without the idle phase."""
        bits = self.start_bits + START_BIT + BITS_OF_BYTE * (BYTES_BESIDE_PAYLOAD + 2 * words) + END + TRAILING
        return 1 + math.ceil(bits * SLOWEST / self.minislot_bits)

    def nearest(self, words: Iterable[int]) -> dict[str, int]:
        """Returns the key of `[params]` that comes nearest over frames of so many words, each of which counts.

        Of several numbers it is the one that is nearest to the words whose bits fill a minislot.
        """
        frames = [(it, self.on_the_bus(it)) for it in words]
        bare = self.minislot_bits / (2 * BITS_OF_BYTE)
        least, most = PARAMETERS[KEY]

        def distance(each: int) -> tuple[int, Fraction]:
            return sum(abs(in_file(it, each) - bus) for it, bus in frames), abs(each - bare)
        return {KEY: min(range(least, most + 1), key=distance)}


def in_file(words: int, each: int) -> int:
    """Returns the minislots of a frame in a cluster file with so many words in a minislot."""
    return -(-(words + WORDS_BESIDE_PAYLOAD) // each)
