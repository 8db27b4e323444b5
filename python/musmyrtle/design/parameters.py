"""The parameters of the cycle: those of the network file, its choices, and those that follow from bits."""
from collections.abc import Iterable, Iterator
from dataclasses import dataclass
from itertools import islice, product

from musmyrtle.cluster import PARAMETERS, Parameters
from musmyrtle.design.network import Message, Network
from musmyrtle.design.sizing import static_length, static_words
from musmyrtle.lint.physical import IDLE, bits_sent

USUAL = {"minislot_mt": 5, "symbol_mt": 0, "nit_mt": 2, "idle": 1}
"""The numbers of absent keys. `nit_mt` is the least; the rest of the cycle is added to it."""
COUNTED = ("static_slots", "minislots")
"""The keys whose numbers follow from the messages."""
MOST_COMBINATIONS = 64


@dataclass(frozen=True)
class Setting:
    """One choice of the parameters. The counts of slots and minislots have a least and a greatest number."""

    cycle_mt: int
    static_words: int
    static_mt: int
    minislot_mt: int
    symbol_mt: int
    nit_mt: int
    idle: int
    words_per_minislot: int
    static_slots: tuple[int, int]
    minislots: tuple[int, int]

    def minislots_of(self, words: int) -> int:
        """Returns the minislots that a frame of so many words fills, without the idle ones after it."""
        return -(-(words + 4) // self.words_per_minislot)

    @property
    def room(self) -> int:
        """Returns the macroticks of both segments together."""
        return self.cycle_mt - self.symbol_mt - self.nit_mt

    def most_slots(self) -> int:
        """Returns the static slots that the cycle has room for beside the fewest minislots, 0 for none."""
        return min(self.static_slots[1], max(0, self.room - self.minislots[0] * self.minislot_mt) // self.static_mt)

    def parameters(self, slots: int) -> Parameters | None:
        """Returns the parameters with at least so many static slots, or None if they don't fit into the cycle."""
        slots = max(slots, self.static_slots[0])
        if slots > self.most_slots():
            return None
        minislots = min(self.minislots[1], (self.room - slots * self.static_mt) // self.minislot_mt)
        nit = self.nit_mt + self.room - slots * self.static_mt - minislots * self.minislot_mt
        most = PARAMETERS["nit_mt"][1]
        if nit > most:
            # Minislots are limited, so further static slots take what is left.
            more = min(self.static_slots[1] - slots, (nit - self.nit_mt) // self.static_mt)
            slots, nit = slots + more, nit - more * self.static_mt
        return Parameters(slots, minislots, self.static_words, self.static_mt, self.minislot_mt, self.symbol_mt, nit,
                          self.cycle_mt, self.idle, self.words_per_minislot)


def settings(network: Network) -> Iterator[Setting]:
    """Yields the choices of the network file in its order, at most 64 of them."""
    keys = [key for key in PARAMETERS if key in network.params and key not in COUNTED]
    for values in islice(product(*(network.params[key] for key in keys)), MOST_COMBINATIONS):
        chosen = dict(zip(keys, values))
        if "static_words" not in chosen:
            chosen["static_words"] = static_words(network, chosen["cycle_mt"], chosen.get("static_mt"))
        yield setting_of(network, {**USUAL, **chosen})


def setting_of(network: Network, chosen: dict[str, int]) -> Setting:
    """Returns a setting. Slot length and words of a minislot follow from the bits where the file leaves them."""
    bits = network.bits_of_macrotick
    static_mt = chosen.get("static_mt") or static_length(chosen["static_words"], bits)
    each = chosen["minislot_mt"] * bits
    words = chosen.get("words_per_minislot") or words_per_minislot(network.messages, each, chosen["idle"])
    ranges = [(network.params[key][0], max(network.params[key])) if key in network.params else PARAMETERS[key]
              for key in COUNTED]
    return Setting(chosen["cycle_mt"], chosen["static_words"], static_mt, chosen["minislot_mt"], chosen["symbol_mt"],
                   chosen["nit_mt"], chosen["idle"], words, *ranges)


def words_per_minislot(messages: Iterable[Message], each: float, idle: int) -> int:
    """Returns the most words of a minislot of so many bits by which no dynamic frame is too short on the bus."""
    lengths = {it.words for it in messages if not it.is_static and not it.bits}
    lengths |= set(range(128)) if any(it.bits and not it.is_static for it in messages) else set()

    def is_enough(words: int) -> bool:
        filled = {it: -(-(it + 4) // words) for it in lengths}
        return all(filled[it] * each >= bits_sent(it, True) and (filled[it] + idle) * each >= bits_sent(it, True) + IDLE
                   for it in lengths)
    return next((it for it in range(PARAMETERS["words_per_minislot"][1], 1, -1) if is_enough(it)), 1) if lengths else 2
