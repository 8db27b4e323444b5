"""The windows of a run as `fr_view windows` prints them: their cycles, times, slots, and the lengths of these."""
from array import array
from collections.abc import Iterable

CHANNELS = "AB"


class Windows:
    """The windows of a run, by their numbers. Times and lengths are in macroticks. A slot 0 stands for none.

    LINES are those of `fr_view windows`, which don't say when the run ends.
    """

    def __init__(self, lines: Iterable[str] = ()) -> None:
        self.cycles, self.minislots, self.begins = array("I"), array("H"), array("Q")
        self.slots = {it: array("H") for it in CHANNELS}
        self.lengths = {it: array("H") for it in CHANNELS}
        self.cycle_begins = array("Q")
        """The macrotick of the run at which each cycle begins, and at which the last one ends once this is added."""
        for line in lines:
            words = line.split(" ")
            if int(words[1]) == len(self.cycle_begins):
                self.cycle_begins.append(int(words[3]))
            self.add(words)

    def add(self, words: list[str]) -> None:
        """Adds a window by the words of its line."""
        _, cycle, minislot, begin = words[:4]
        self.cycles.append(int(cycle))
        self.minislots.append(number_of(minislot))
        self.begins.append(int(begin))
        for channel, at in zip(CHANNELS, (4, 6)):
            self.slots[channel].append(number_of(words[at]))
            self.lengths[channel].append(number_of(words[at + 1]))

    def begin_of_cycle(self, cycle: int) -> int:
        """Returns the macrotick of the run at which a cycle of the run begins, or at which the run ends."""
        return self.cycle_begins[cycle]


def number_of(word: str) -> int:
    """Returns the number of a word, or 0 for `-`."""
    return 0 if word == "-" else int(word)
