"""Words of the standard and of other tools, and the words that the files and commands here have for them."""
from collections.abc import Sequence

KEYS: dict[str, tuple[str, ...]] = {
    # Parameters of FlexRay 2.1 Rev A (appendix B).
    "gNumberOfStaticSlots": ("static_slots",), "gNumberOfMinislots": ("minislots",),
    "gPayloadLengthStatic": ("static_words",), "gdStaticSlot": ("static_mt",), "gdMinislot": ("minislot_mt",),
    "gdSymbolWindow": ("symbol_mt",), "gdNIT": ("nit_mt",), "gMacroPerCycle": ("cycle_mt",), "gdCycle": ("cycle_mt",),
    "gdDynamicSlotIdlePhase": ("idle",), "gdMacrotick": ("macrotick_us",), "gdBit": ("bit_rate",),
    "pLatestTx": ("latest_a", "latest_b"), "pKeySlotId": ("own",), "pKeySlotUsedForSync": ("own", "sync"),
    "pKeySlotUsedForStartup": ("own", "startup"),
    # Words of other tools and texts for keys and tables.
    "cycle": ("cycle_mt", "base", "repetition"), "cycles": ("base", "repetition"), "fifo": ("queue",),
    "depth": ("capacity",), "size": ("capacity",), "baseCycle": ("base",),
    "cycleOffset": ("base",), "cycleRepetition": ("repetition",), "frameId": ("slot",), "slotId": ("slot",),
    "id": ("slot",), "length": ("words",), "payloadLength": ("words",), "ppi": ("preamble",),
    "payloadPreambleIndicator": ("preamble",), "type": ("kind",), "direction": ("kind",), "slots": ("own",),
    "ownership": ("own",), "owns": ("own",), "messageBuffer": ("buffer",), "frame": ("buffer",),
    "parameters": ("params",), "cluster": ("params",), "ecu": ("node",), "controller": ("node",),
    "guardian": ("guard",), "busGuardian": ("guard",), "coldstart": ("startup",), "latest": ("latest_a", "latest_b"),
    # Words for lines of scenarios.
    "send": ("commit",), "transmit": ("commit",), "write": ("commit",), "tx": ("commit",), "receive": ("read",),
    "rx": ("read",), "get": ("read",), "cancel": ("withdraw",), "jam": ("babble",), "silence": ("mute",),
    "drop": ("mute",), "flip": ("corrupt",), "error": ("corrupt",), "loss": ("lost",), "assert": ("expect",),
    "check": ("expect",),
    # Words for options and commands.
    "--format": ("--json", "--csv"), "-c": ("--cycles",), "-n": ("--cycles",), "--count": ("--cycles",),
    "validate": ("lint",), "verify": ("lint",), "explain": ("lint",), "simulate": ("run",), "start": ("run",),
    "inject": ("faults",), "html": ("page",),
}
"""The words of others, each with those that are meant here: the first that the table has."""
NO_KEYS = ("gdActionPointOffset", "gdMinislotActionPointOffset", "gdTSSTransmitter", "gdWakeupSymbolRxIdle",
           "gColdStartAttempts", "gListenNoise", "gSyncNodeMax", "gNetworkManagementVectorLength",
           "gdMaxInitializationError", "gOffsetCorrectionStart", "gMaxWithoutClockCorrectionFatal",
           "gMaxWithoutClockCorrectionPassive",
           "gdCASRxLowMax", "gdSampleClockPeriod", "pMicroPerCycle", "pdMicrotick", "pChannels", "pWakeupChannel",
           "pRateCorrectionOut", "pOffsetCorrectionOut", "pClusterDriftDamping", "pMacroInitialOffset",
           "pDelayCompensation", "pdAcceptedStartupRange", "pDecodingCorrection", "pdListenTimeout",
           "pSingleSlotEnabled")
"""Parameters of the standard without a key here: no real time, no startup and no clocks are modelled."""
VALUES = {"tx": ("event", "state"), "transmit": ("event", "state"), "send": ("event", "state"), "rx": ("receive",),
          "receiver": ("receive",), "both": ("AB",), "a+b": ("AB",), "ba": ("AB",), "a,b": ("AB",), "off": ("none",),
          "no": ("none",), "": ("none",)}
"""Words for values in cluster files, in small letters."""
FIFOS = ("fifo", "queue")
"""Words, in small letters, for a receive FIFO among the kinds of buffers."""
OUTPUTS = ("-o", "-O", "--output", "--out", "--outfile", "--file")
"""Options by which other tools name the file of their output."""


def plain(word: str) -> str:
    """Returns a word without the signs and cases in which spellings differ."""
    return word.lower().replace("_", "").replace("-", "")


BY_PLAIN = {(plain(it) if not it.startswith("-") else it): its for it, its in KEYS.items()}
WITHOUT = frozenset(map(plain, NO_KEYS))


def meant_by(word: str, known: Sequence[str]) -> list[str]:
    """Returns the known words that are meant by a word of others, or none."""
    meant = BY_PLAIN.get(word, BY_PLAIN.get(plain(word), ()))
    return [it for it in meant if it in known]


def value_meant(value: str, known: Sequence[str]) -> list[str]:
    """Returns the known values that are meant by a value of others, or by one in other cases."""
    return [it for it in known if it.lower() == value.lower() or it in VALUES.get(value.lower(), ())]


def has_no_key(word: str) -> bool:
    """Returns whether a word is a parameter of the standard that has no key here."""
    return plain(word) in WITHOUT
