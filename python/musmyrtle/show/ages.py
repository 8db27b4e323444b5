"""The words for ages, such as `10ms` and `3cycles`, and their macroticks."""
import argparse
import re
from dataclasses import dataclass
from fractions import Fraction

from musmyrtle.lint.command import USAGE
from musmyrtle.output import Stop
from musmyrtle.show.network import Network

AGE = re.compile(r"([0-9]{1,12}(?:\.[0-9]{1,12})?)(us|ms|s|MT|cycles?)")
MICROSECONDS = {"us": 1, "ms": 1000, "s": 1_000_000}
RIGHT = "a time as 10ms, 500us or 2s, macroticks as 200MT, or cycles as 3cycles"


@dataclass(frozen=True)
class Age:
    """An age as it is spelled: a number, and its unit."""

    number: Fraction
    unit: str
    word: str

    @classmethod
    def of(cls, word: str) -> "Age | None":
        """Returns the age of a word, or None for another word."""
        found = AGE.fullmatch(word)
        return cls(Fraction(found[1]), found[2], word) if found else None

    def macroticks(self, network: Network) -> Fraction:
        """Returns its macroticks. Raises `Stop` where the cluster file has no microseconds for a macrotick."""
        if self.unit == "MT":
            return self.number
        if self.unit not in MICROSECONDS:
            return self.number * network.cluster.parameters.cycle_mt
        if network.macrotick is None:
            raise Stop(USAGE, f"{self.word}: the cluster file has no macrotick_us; give macroticks as 200MT, or cycles "
                              "as 3cycles")
        return self.number * MICROSECONDS[self.unit] / Fraction(repr(network.macrotick))


def age_of(word: str) -> Age:
    """Returns the age of a word. Raises `ArgumentTypeError` for another word."""
    found = Age.of(word)
    if found is None:
        raise argparse.ArgumentTypeError(f"{word!r} is no age: expected {RIGHT}")
    return found
