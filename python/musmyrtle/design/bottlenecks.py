"""Bottlenecks of missed deadlines: the numbers of the program, the frames before a slot, and the change that helps."""
from musmyrtle.design.judging import Judged, Verdict
from musmyrtle.design.scheduling import Miss, Schedule
from musmyrtle.findings import counted, joined

MOST_NAMED = 3


def misses_of(schedule: Schedule, verdict: Verdict) -> list[Miss]:
    """Returns the deadlines that the program doesn't confirm, and the warnings of `lint`."""
    known = {it.name for it in schedule.misses}
    return [*(miss_of(it, schedule, verdict) for it in verdict.late if it.line.placed.frame.name not in known),
            *(Miss(f"lint {it.name}", f"{it.headline}. {it.reason}", f"other parameters, or --allow {it.name}")
              for it in verdict.warnings)]


def miss_of(it: Judged, schedule: Schedule, verdict: Verdict) -> Miss:
    """Returns a missed deadline. A deadline as long as the worst case is met by this schedule itself."""
    frame, found, worst = it.line.placed.frame, it.latency, it.latency.worst
    if it.deadline is not None and it.distance > frame.period:
        return Miss(frame.name, f"its cycles come every {it.distance} macroticks, and its period is {frame.period}",
                    f"a period of at least {it.distance} macroticks, or a place with more cycles")
    if found.last is None or found.latest is None or found.first is None:
        return Miss(frame.name, f"its worst case is {worst} macroticks, and its deadline {it.deadline}",
                    f"a deadline of at least {worst} macroticks")
    before = longest_before(it, schedule, verdict)
    if worst is None or it.deadline is None:
        more = found.last - found.latest
        return Miss(frame.name, f"slot {found.slot} on {found.channels} can open at minislot {found.last}, and its "
                    f"node begins no frame after minislot {found.latest}{before}",
                    f"{counted(more, 'more minislot')}, or as many fewer in the frames before it")
    return Miss(frame.name, f"its worst case is {worst} macroticks, and its deadline {it.deadline}: slot {found.slot} "
                f"on {found.channels} opens from minislot {found.first} to {found.last}{before}",
                f"a deadline of at least {worst} macroticks")


def longest_before(it: Judged, schedule: Schedule, verdict: Verdict) -> str:
    """Returns a clause with the longest frames in the slots before one, of the cycles in which it is sent."""
    assert verdict.shown is not None
    parameters, own = verdict.shown.cluster.parameters, it.line.placed
    others = [(parameters.minislots_of(other.frame.words) + parameters.idle, other.frame.name)
              for other in schedule.dynamic if other.channels == own.channels and other.slot < own.slot
              and other.cycles.meet(own.cycles)]
    named = [f"{name} with {counted(length, 'minislot')}" for length, name in sorted(others, reverse=True)[:MOST_NAMED]]
    return f"; the longest of {counted(len(others), 'frame')} before it: {joined(named)}" if named else ""
