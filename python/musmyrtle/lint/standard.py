"""The parameters of FlexRay 2.1 Rev A, appendix B, that a cluster file can break, with their ranges.

The ranges are from memory of the standard. docs/formats/cluster.md has the same table.
"""
from dataclasses import dataclass

STANDARD = "FlexRay 2.1 Rev A"
CHAPTER = "appendix B"
MACROTICKS, MICROSECONDS, MINISLOTS, SLOTS, WORDS, NODES = (
    "macroticks", "microseconds", "minislots", "slots", "two-byte words", "nodes")


@dataclass(frozen=True)
class Rule:
    """A parameter of the standard: its name, its key in a cluster file, its range and unit, and the check.

    `check` is the name of the warning, or `refused` where `fr_bench` refuses values out of range.
    """

    name: str
    key: str
    least: int
    greatest: int
    unit: str
    check: str

    @property
    def range(self) -> str:
        return f"{self.least} to {self.greatest} {self.unit}" if self.least < self.greatest else (
            f"{self.greatest} {self.unit}")

    def admits(self, value: float) -> bool:
        return self.least <= value <= self.greatest

    @property
    def row(self) -> str:
        """Returns the line of the table in docs/formats/cluster.md."""
        check = "by `fr_bench`, which refuses it" if self.check == "refused" else f"warning `{self.check}`"
        name = self.name if " " in self.name else f"`{self.name}`"
        return f"| {name} | {self.key} | {self.range} | {check} |"


REFUSED, RANGE = "refused", "standard-range"
RULES = (
    Rule("gMacroPerCycle", "`cycle_mt`", 10, 16000, MACROTICKS, RANGE),
    Rule("gNumberOfStaticSlots", "`static_slots`", 2, 1023, SLOTS, REFUSED),
    Rule("gPayloadLengthStatic", "`static_words`", 0, 127, WORDS, REFUSED),
    Rule("gdStaticSlot", "`static_mt`", 4, 661, MACROTICKS, RANGE),
    Rule("gNumberOfMinislots", "`minislots`", 0, 7986, MINISLOTS, RANGE),
    Rule("gdMinislot", "`minislot_mt`", 2, 63, MACROTICKS, RANGE),
    Rule("gdDynamicSlotIdlePhase", "`idle`", 0, 2, MINISLOTS, REFUSED),
    Rule("gdSymbolWindow", "`symbol_mt`", 0, 142, MACROTICKS, RANGE),
    Rule("gdNIT", "`nit_mt`", 2, 805, MACROTICKS, RANGE),
    Rule("pLatestTx", "`latest_a`, `latest_b`", 0, 7981, MINISLOTS, RANGE),
    Rule("pPayloadLengthDynMax", "`words` of a dynamic transmit buffer", 0, 127, WORDS, REFUSED),
    Rule("gdCycle", "`cycle_mt` times `macrotick_us`", 10, 16000, MICROSECONDS, RANGE),
    Rule("gdMacrotick", "`macrotick_us`", 1, 6, MICROSECONDS, RANGE),
    Rule("gdBit", "`bit_rate`", 10_000_000, 10_000_000, "bits a second", "bit-rate"),
    Rule("gdActionPointOffset", "half of what the frame leaves of `static_mt`", 1, 63, MACROTICKS,
         "action-point"),
    Rule("gSyncNodeMax", "nodes with `sync` in `own`", 2, 15, NODES, "sync-nodes"),
    Rule("coldstart nodes", "nodes with `startup` in `own`", 2, 15, NODES, "startup-nodes"),
    Rule("cSlotIDMax", "`slot`", 1, 2047, "as a slot number", REFUSED),
    Rule("cCycleCountMax", "`base`", 0, 63, "as a cycle count", REFUSED),
)
OF_PARAMETERS = {rule.key.strip("`"): rule for rule in RULES if rule.key.strip("`").replace("_", "").isalpha()}


def rule_of(name: str) -> Rule:
    return next(rule for rule in RULES if rule.name == name)
