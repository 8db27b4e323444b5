"""The lines of a trace (docs/formats/trace.md): the faulty word of a line, and the expected one."""
import re
from collections.abc import Callable

from musmyrtle.cluster import CHANNELS, PARAMETERS, REPETITIONS
from musmyrtle.findings import counted, joined, nearest
from musmyrtle.scenario_words import columns, odd_spaces
from musmyrtle.visible import cut

Fault = tuple[str, str, int]
"""A headline, the expected form, and the column."""

FORMS = {
    "params": ("N",) * len(PARAMETERS),
    "node": ("TASKS", "LATEST_A", "LATEST_B", "HOST", "ENTRIES"),
    "own": ("STATIC_SLOT", "CH", "SYNC", "STARTUP"),
    "tx": ("MODE", "SLOT", "CH", "BASE", "REP", "WORDS", "PRE"),
    "rx": ("SLOT", "CH", "BASE", "REP"),
    "queue": ("CAPACITY", "FIRST", "LAST", "CH", "BASE", "REP"),
    "begin": (),
    "commit": ("T", "B", "HEX"),
    "withdraw": ("T", "B", "OF"),
    "read": ("T", "B", "FROM"),
    "pop": ("T", "FROM"),
    "fetch": ("W", "CYCLE", "MINISLOT", "SLOT_A", "SLOT_B", "OFFER_A", "OFFER_B"),
    "see": ("W", "SEEN_A", "SEEN_B"),
    "end": (),
}
OWN_OF_VERSION_3 = (*FORMS["own"], "BASE", "REP")
PLAN, ENTRIES = ("own", "tx", "rx", "queue", "begin"), ("commit", "withdraw", "read", "pop", "fetch", "see", "end")
RANGES = {
    "N": (0, 2**32 - 1), "TASKS": (0, 8), "LATEST_A": (0, 8000), "LATEST_B": (0, 8000), "HOST": (1, 16384),
    "ENTRIES": (2, 65536), "STATIC_SLOT": (1, 1023), "SLOT": (1, 2047), "SYNC": (0, 1), "STARTUP": (0, 1),
    "PRE": (0, 1), "BASE": (0, 63), "WORDS": (0, 127), "CAPACITY": (1, 256), "FIRST": (1, 2047), "LAST": (1, 2047),
    "T": (0, 7), "B": (0, 63), "W": (0, 2**32 - 1), "CYCLE": (0, 63), "MINISLOT": (0, 8000), "SLOT_A": (1, 2047),
    "SLOT_B": (1, 2047), "OF": (0, 2**32 - 1), "OFFER_A": (0, 2**32 - 1), "OFFER_B": (0, 2**32 - 1),
}
WORDS = {
    "CH": CHANNELS, "MODE": ("event", "state"), "REP": tuple(map(str, REPETITIONS)), "WORDS": ("-",), "OF": ("-",),
    "SLOT_A": ("-",), "SLOT_B": ("-",), "OFFER_A": ("-", "null"), "OFFER_B": ("-", "null"),
    "SEEN_A": ("-", "own", "conflict", "noise", "overrun"), "SEEN_B": ("-", "own", "conflict", "noise", "overrun"),
}
MOST_BYTES = {"HEX": 254, "SEEN_A": 262, "SEEN_B": 262}
SHOWN = {"ENTRIES": "SLOT", "STATIC_SLOT": "SLOT"}
NUMBER = re.compile(r"0|[1-9][0-9]{0,9}")
FROM = re.compile(r"-|(?:0|[1-9][0-9]{0,9}):[AB]")
HEX_DIGITS = "0123456789abcdef"


def form_of(kind: str, version: int) -> tuple[str, ...]:
    return OWN_OF_VERSION_3 if kind == "own" and version == 3 else FORMS[kind]


def spelled(kind: str, version: int) -> str:
    """Returns the form of a line as docs/formats/trace.md spells it."""
    return " ".join([kind, *(SHOWN.get(name, name) for name in form_of(kind, version))])


def bad_trace_line(text: str, version: int, may_stand: tuple[str, ...]) -> Fault | None:
    """Returns the fault of a trace line, where the lines MAY_STAND would be accepted."""
    odd = odd_spaces(text, "a trace")
    if odd:
        return odd
    words = tuple(text.split(" "))
    kind = words[0]
    if kind not in may_stand:
        return misplaced(kind, may_stand)
    if kind == "withdraw" and version == 1:
        return "version 1 has no line `withdraw`", "Expected `frtrace 2` as the first line.", 1
    return bad_count(words, version, len(text)) or bad_word(words, version) or bad_together(words)


def misplaced(kind: str, may_stand: tuple[str, ...]) -> Fault:
    """Returns why the first word is wrong."""
    meant = None if kind in FORMS else nearest(kind, may_stand)
    hint = f"Is `{meant}` meant? " if meant else ""
    what = f"no line `{kind}` may stand here" if kind in FORMS else f"no line begins with `{cut(kind)}`"
    return what, f"{hint}Expected {joined([f'`{it}`' for it in may_stand], 'or')}.", 1


def bad_count(words: tuple[str, ...], version: int, length: int) -> Fault | None:
    """Returns why a line has words too few or too many."""
    kind, wanted = words[0], 1 + len(form_of(words[0], version))
    if len(words) == wanted:
        return None
    headline = f"the line has {counted(len(words), 'word')}, and `{kind}` has {wanted} in version {version}"
    right = f"Expected `{spelled(kind, version)}`."
    if kind == "own" and len(words) in (5, 7):
        right += f" A line of {len(words)} words is one of `frtrace {3 if version < 3 else 2}`."
    return headline, right, columns(words)[wanted - 1] if len(words) > wanted else length + 1


def bad_word(words: tuple[str, ...], version: int) -> Fault | None:
    """Returns the first word that doesn't fit its place."""
    kind, keys = words[0], tuple(PARAMETERS)
    for place, (name, word, column) in enumerate(zip(form_of(kind, version), words[1:], columns(words))):
        found = wrong_word(name, word)
        if found:
            right, offset = found
            who = f"`{keys[place]}`" if kind == "params" else SHOWN.get(name, name)
            return f"{who} is `{cut(word)}`", f"Expected {right}, in `{spelled(kind, version)}`.", column + offset
    return None


def wrong_word(name: str, word: str) -> tuple[str, int] | None:
    """Returns the expected form of a word, and the offset of the fault in it."""
    if word in WORDS.get(name, ()):
        return None
    if name == "FROM":
        return None if FROM.fullmatch(word) else ("`-`, or the number of an entry with `:A` or `:B`", 0)
    rights = [f"`{it}`" for it in WORDS.get(name, ())]
    if name in MOST_BYTES and (name == "HEX" or word.startswith("x")):
        return wrong_hex(word, MOST_BYTES[name], name == "HEX")
    if name in MOST_BYTES:
        rights.append("`x` and two lower-case hexadecimal digits for each byte")
    if name in RANGES:
        least, most = RANGES[name]
        if NUMBER.fullmatch(word) and least <= int(word) <= most:
            return None
        rights.append(f"a number from {least} to {most} without leading zeros")
    return joined(rights, "or"), 0


def wrong_hex(word: str, most: int, is_even: bool) -> tuple[str, int] | None:
    """Returns the fault of bytes in hexadecimal digits, and the character at which it is."""
    if not word.startswith("x"):
        return "`x` before the hexadecimal digits", 0
    for place, digit in enumerate(word[1:], 1):
        if digit not in HEX_DIGITS:
            lower = f": `{digit.lower()}`" if digit.lower() in HEX_DIGITS else f" instead of `{cut(digit)}`"
            return f"lower-case hexadecimal digits{lower}", place
    digits = len(word) - 1
    if digits % 2:
        return f"two digits for each byte, an even number instead of {digits}", digits
    if digits // 2 > most:
        return f"at most {most} bytes instead of {digits // 2}", 1 + 2 * most
    if is_even and digits % 4:
        return f"an even number of bytes instead of {digits // 2}", digits
    return None


Rule = Callable[[dict[str, str]], tuple[str, str] | None]


def bad_together(words: tuple[str, ...]) -> Fault | None:
    """Returns words that are right each by itself, but don't fit together."""
    held = dict(zip(OWN_OF_VERSION_3 if words[0] == "own" else FORMS[words[0]], words[1:]))
    places = dict(zip(held, columns(words)))
    rules: tuple[Rule, ...] = (bad_cycles, bad_startup, bad_span, bad_window)
    for rule in rules:
        found = rule(held)
        if found:
            name, right = found
            return f"{name} is {held[name]}", right, places[name]
    return None


def bad_cycles(held: dict[str, str]) -> tuple[str, str] | None:
    if "REP" in held and int(held["BASE"]) >= int(held["REP"]):
        return "BASE", f"Expected a number below REP, which is {held['REP']}."
    return None


def bad_startup(held: dict[str, str]) -> tuple[str, str] | None:
    if held.get("STARTUP") == "1" and held["SYNC"] == "0":
        return "STARTUP", "A startup frame is a sync frame as well. Expected SYNC 1, or STARTUP 0."
    return None


def bad_span(held: dict[str, str]) -> tuple[str, str] | None:
    if "FIRST" in held and int(held["FIRST"]) > int(held["LAST"]):
        return "FIRST", f"Expected a slot not above LAST, which is {held['LAST']}."
    return None


def bad_window(held: dict[str, str]) -> tuple[str, str] | None:
    if "MINISLOT" not in held:
        return None
    slots = held["SLOT_A"], held["SLOT_B"]
    if held["MINISLOT"] != "0":
        return ("SLOT_B", "At a minislot one channel has a slot. Expected one.") if slots == ("-", "-") else None
    if "-" in slots or slots[0] != slots[1]:
        return "SLOT_B", "In a static slot, MINISLOT 0, both channels have the same one. Expected the same slot twice."
    return None
