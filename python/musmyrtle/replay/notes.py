"""The lines on standard error that say what a replay doesn't give back, and what a recording can't say."""
from collections.abc import Iterable, Iterator

from musmyrtle.findings import counted
from musmyrtle.named_windows import spelled
from musmyrtle.replay.captured import Seen
from musmyrtle.replay.checking import Difference
from musmyrtle.replay.places import Heard

OTHER, NOTHING = "the run has another frame there", "the run has no such frame there"
FLAG = "the run has its bytes with another error flag"
BESIDE = "the recording has no such frame"


def difference_lines(its: Iterable[Difference], whys: dict[int, str], shift: int) -> Iterator[str]:
    """Yields a line for all differences that are alike in some cycles, which are those of the recording."""
    found: dict[tuple[str, str, str], list[Difference]] = {}
    for it in its:
        why = BESIDE if it.heard is None else whys.get(it.heard.record) or why_not(it.heard.seen, it.other)
        found.setdefault((it.slot, it.channel, why), []).append(it)
    for (slot, channel, why), alike in found.items():
        cycles = ",".join(spelled(sorted({it.cycle - shift for it in alike})))
        records = [it.heard.record for it in alike if it.heard]
        what = f"{records_text(records)} given back" if records else "a frame is beside the recording"
        yield f"cycle {cycles}, {slot} on {channel}: {what}: {why}"


def why_not(seen: Seen, other: Seen | None) -> str:
    """Returns why a frame isn't given back, by what the run has in its place."""
    return NOTHING if other is None else FLAG if other.data == seen.data else OTHER


def records_text(records: list[int]) -> str:
    """Returns `record 3 isn't` or `records 3, 5-7 aren't`."""
    words = ", ".join(spelled(sorted(records)))
    return f"record {words} isn't" if len(records) == 1 else f"records {words} aren't"


def left_lines(left: Iterable[tuple[Heard, int | None, str]]) -> Iterator[str]:
    """Yields a line for each frame without a window of its own."""
    for it, cycle, why in left:
        named = "an unknown cycle" if cycle is None else f"cycle {cycle}"
        slot = "an unknown slot" if it.slot is None else f"slot {it.slot} by its header"
        yield f"{named}, {slot} on {it.channel}: record {it.record} isn't given back: {why}"


def recording_lines(counts: dict[str, int]) -> Iterator[str]:
    """Yields what a replay leaves out of a recording."""
    symbols, foreign = counts.get("symbols", 0), counts.get("foreign", 0)
    if symbols:
        yield f"{counted(symbols, 'symbol')} left out: a scenario has none"
    if foreign:
        yield f"{counted(foreign, 'foreign record')} left out"


def run_line(shift: int, cycles: range, run: int) -> str:
    """Returns how the cycles of the recording and those of the run belong together."""
    cycle = cycles.start + shift
    text = f"a run of {counted(run, 'cycle')}: cycle {cycles.start} of the recording is cycle {cycle}"
    return f"{text}, and all before is silent" if cycle else text
