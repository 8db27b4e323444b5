"""A cluster as both formats describe it: parameters, nodes, and frames in their slots."""
from collections.abc import Callable, Iterable
from dataclasses import dataclass, field
from fractions import Fraction

from musmyrtle.cluster import CYCLES, REPETITIONS, Cycles
from musmyrtle.descriptions.elements import Element, fraction, has, number, path_of, text
from musmyrtle.descriptions.report import Refused, Report

EVERY_CYCLE = Cycles().bits
ROUNDED = Fraction(1, 1_000_000)
"""The part by which two times may differ, since descriptions round them."""
Toml = bool | int | str | Fraction | float | list[int] | dict[str, str]
"""A value of the tables that are written."""


@dataclass(eq=False)
class SignalTable:
    """A signal of a frame: the keys of its table, its selectors with their codes, and the path of its element."""

    path: str
    keys: dict[str, Toml]
    when: tuple[tuple["SignalTable", int], ...] = ()
    comment: str = ""
    """A comment behind the keys, with what these can't say."""

    @property
    def name(self) -> str:
        """Returns the name, as the description has it."""
        return str(self.keys["name"])


@dataclass(eq=False)
class FrameTable:
    """The signals of a frame, its length in bytes, and the path of its element."""

    name: str
    path: str
    length: int
    signals: list[SignalTable] = field(default_factory=list)
    unused: int | None = None


@dataclass(frozen=True)
class Fifo:
    """A receive FIFO: its frames, its slots, its channel and its cycles."""

    capacity: int
    first: int
    last: int
    channel: str
    cycles: Cycles


@dataclass(eq=False)
class Node:
    """A communication controller that is attached to the cluster, or a stand-in for several ones."""

    name: str
    path: str
    key_slot: int = 0
    is_sync: bool = False
    is_startup: bool = False
    latest: int | None = None
    channels: set[str] = field(default_factory=set)
    fifo: Fifo | None = None
    parts: list["Node"] = field(default_factory=list)
    """The nodes for which a stand-in stands."""

    @property
    def whole(self) -> list["Node"]:
        """Returns its parts, or itself."""
        return self.parts or [self]


@dataclass(eq=False)
class Sending:
    """A frame in a slot on a channel, in cycles that are the bits of a number, with those that send and receive it."""

    frame: str
    path: str
    channel: str
    slot: int
    cycles: int
    length: int
    """Bytes."""
    has_preamble: bool
    senders: list[Node]
    receivers: list[Node]
    layout: FrameTable


@dataclass
class Times:
    """The times that the lengths of dynamic frames follow from, and those of the cycle."""

    bit_us: Fraction
    macrotick_us: Fraction
    start_bits: int
    """The transmission start sequence."""
    is_start_known: bool
    idle_time: int
    """The network idle time of the description, in macroticks."""
    action_point_difference: int


@dataclass
class Network:
    """A cluster: its parameters but for `words_per_minislot` and `nit_mt`, its times, nodes and sendings."""

    name: str
    path: str
    parameters: dict[str, int]
    times: Times
    nodes: list[Node]
    sendings: list[Sending]

    def is_static(self, slot: int) -> bool:
        """Returns whether a slot is a static one."""
        return slot <= self.parameters["static_slots"]


def cycles_of(element: Element) -> int:
    """Returns the cycles of an absolutely scheduled timing: one, or a base and a repetition. Raises `Refused`."""
    if has(element, "CYCLE-COUNTER"):
        base, repetition = number(element, "CYCLE-COUNTER"), max(REPETITIONS)
    else:
        word = text(element, "CYCLE-REPETITION").rpartition("-")[2]
        base, repetition = number(element, "BASE-CYCLE"), int(word) if word in map(str, range(1, 65)) else 0
    return filter_of(element, base, repetition).bits


def filter_of(element: Element, base: int, repetition: int) -> Cycles:
    """Returns a cycle counter filter. Raises `Refused` for one that version 2.1 doesn't have."""
    if repetition not in REPETITIONS or base >= repetition:
        raise Refused("Repetition", path_of(element), f"base {base} and repetition {repetition} are no filter of "
                      f"version 2.1: expected is a repetition of {', '.join(map(str, REPETITIONS))}, and a base below")
    return Cycles(base, repetition)


def cover(cycles: int) -> list[Cycles]:
    """Returns the fewest filters that admit exactly these cycles."""
    found = []
    for repetition in REPETITIONS:
        for base in range(repetition):
            admitted = Cycles(base, repetition)
            if cycles and admitted.bits & ~cycles == 0:
                cycles &= ~admitted.bits
                found.append(admitted)
    return found


def numbers_of(cycles: int) -> list[int]:
    """Returns the cycles of the bits of a number."""
    return [it for it in CYCLES if cycles >> it & 1]


def parameters_of(element: Element, keys: dict[str, str], report: Report) -> dict[str, int]:
    """Returns the parameters of a cluster, whose elements have these names, without those that are refused.

    The idle time is the key `nit`.
    """
    absent: dict[str, int] = {"symbol_mt": 0, "nit": 0}
    found: dict[str, int] = {}
    for key, path in keys.items():
        with report.going_on():
            found[key] = number(element, path, absent.get(key))
        if key == "minislots" and found.get(key) == 0:
            absent |= {"minislot_mt": 1, "idle": 0}
    return found


def timed(cluster: Element, keys: dict[str, str], report: Report,
          times_in: Callable[[Element, dict[str, int]], Times]) -> tuple[dict[str, int], Times] | None:
    """Returns the parameters and the times of a cluster, or None after refusals, those before it too."""
    parameters = parameters_of(cluster, keys, report)
    with report.going_on():
        times = times_in(cluster, parameters)
        return None if report.refusals else (parameters, times)
    return None


def times_of(element: Element, parameters: dict[str, int], bit: Fraction, macrotick: Fraction, cycle: Fraction | None,
             start: str) -> Times:
    """Returns the times of a cluster. BIT, MACROTICK and CYCLE are microseconds. Raises `Refused`."""
    if not Fraction(1, 1000) <= bit <= 10 or not 1 <= macrotick <= 6:
        raise Refused("Unit", path_of(element), f"a bit of {float(bit):g} and a macrotick of {float(macrotick):g} "
                      "microseconds aren't those of FlexRay: is the unit another one?")
    length = parameters.get("cycle_mt", 0) * macrotick
    if cycle is not None and abs(cycle - length) > length * ROUNDED:
        raise Refused("CycleTime", f"{path_of(element)}/CYCLE", f"it is {float(cycle):g} microseconds, and "
                      f"{parameters.get('cycle_mt')} macroticks of {float(macrotick):g} are {float(length):g}")
    apart = number(element, "ACTION-POINT-OFFSET", 0) - number(element, "MINISLOT-ACTION-POINT-OFFSET", 0)
    return Times(bit, macrotick, number(element, start, 11), has(element, start), parameters.pop("nit", 0),
                 max(apart, 0) if parameters.get("minislots") else 0)


def bit_of(element: Element, unit: int, rate: str) -> Fraction:
    """Returns the microseconds of a bit, from `BIT` in a UNIT of microseconds, or from the bits a second."""
    bit, bits = fraction(element, "BIT", 0) * unit, fraction(element, rate, 0)
    if bit and bits and abs(bit * bits - 1_000_000) > 1_000_000 * ROUNDED:
        raise Refused("BitRate", f"{path_of(element)}/{rate}", f"it is {float(bits):g} bits a second, and BIT is "
                      f"{float(bit):g} microseconds")
    return bit or (1_000_000 / bits if bits else Fraction(0))


def chosen(found: Iterable[Element], wanted: str | None, files: str) -> Element:
    """Returns the cluster of a name, or the only one. Raises `Refused`."""
    clusters = list(found)
    named = [it for it in clusters if wanted in (None, it.name)]
    if len(named) == 1:
        return named[0]
    names = ", ".join(it.name for it in clusters) or "no FlexRay cluster"
    if named:
        raise Refused("SeveralClusters", files, f"choose one by --cluster: {names}")
    raise Refused("NoCluster", files, f"there is none of the name {wanted}: {names}" if wanted else
                  "there is no FlexRay cluster")
