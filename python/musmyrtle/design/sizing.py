"""The payload of static frames, where the network file leaves it: the one with the shortest static segment."""
from math import ceil

from musmyrtle.cluster import PARAMETERS
from musmyrtle.design.frames import cycles_of, frames_of
from musmyrtle.design.network import Network
from musmyrtle.design.packing import Item, least_slots
from musmyrtle.lint.physical import IDLE, bits_sent
from musmyrtle.lint.standard import rule_of

ACTION_POINTS = 2 * rule_of("gdActionPointOffset").least
TRIED = (4, 5, 6, 8, 10, 12, 16, 20, 24, 32, 48, 64, 96, 127)
"""The words that are tried if signals share frames. Fewer would make many frames."""
MOST_SIGNALS = 2000
"""The signals up to which they are tried. For more, frames have at least 16 words."""
USUAL_WORDS = 16


def static_length(words: int, bits: float) -> int:
    """Returns the macroticks of a static slot: frame, silence, and an action point offset of one at both ends.

    BITS is the number of bits of a macrotick.
    """
    return min(PARAMETERS["static_mt"][1], ceil((bits_sent(words, False) + IDLE) / bits) + ACTION_POINTS)


def static_words(network: Network, cycle: int, length: int | None) -> int:
    """Returns the words of a static frame: those of the longest message, or more if signals then need fewer slots.

    LENGTH is the number of macroticks of a static slot, if the file has it. Then no payload is too long for it.
    """
    words = max((it.words for it in network.messages if it.is_static), default=0)
    signals = sum(1 for it in network.messages if it.is_static and it.bits)
    if not signals:
        return words
    if signals > MOST_SIGNALS:
        return max(words, USUAL_WORDS)
    bits = network.bits_of_macrotick
    least = max(words, TRIED[0], -(-max(it.bits for it in network.messages if it.is_static) // 16))
    tried = [it for it in sorted({least, *TRIED}) if it >= least]
    if length is not None:
        tried = [it for it in tried if static_length(it, bits) <= length] or [least]
    return min(tried, key=lambda it: (segment_of(network, cycle, it) * (length or static_length(it, bits)), it))


def segment_of(network: Network, cycle: int, words: int) -> int:
    """Returns the static slots of the network with frames of so many words, without those of sync nodes alone."""
    frames = frames_of((it for it in network.messages if it.is_static), cycle, 2 * words, ())
    return least_slots([Item(it, cycles_of(it.period, it.deadline or it.period, cycle)) for it in frames], ())
