"""The reason why a world isn't opened: the refusal of the program, and the explanation by `musmyrtle lint`."""
import os
from pathlib import Path

from musmyrtle.program import OF_THE_MACHINE
from musmyrtle.visible import visible
from musmyrtle.world.refusals import BadCycles, ClusterRefused, NoRoom

REFUSED = "refused "
OF_OUTPUTS = ("Record", "Capture", "Trace", "SameFile")
"""Refusals of the files to which a world writes."""


def refused_cluster(said: str, cluster: str) -> ClusterRefused | BadCycles | NoRoom | None:
    """Returns the exception for the program's answer in place of its first line.

    Returns None if that is no refusal of the file or of the number of cycles. SAID may have further lines: before
    the refusal those of a launcher, and after it those that explain it.
    """
    lines = said.split("\n")
    places = [number for number, line in enumerate(lines) if line.startswith(REFUSED)]
    if not places:
        return None
    refusal, _, explained = lines[places[-1]].removeprefix(REFUSED).partition(": ")
    if refusal == "BadCycles":
        return BadCycles(too_many(cluster))
    name, _, node = refusal.partition(" ")
    if name == "NoRoom" and node.isdigit():
        return NoRoom(int(node))
    told = " ".join(filter(None, (explained, *lines[places[-1] + 1:])))
    reason = reason_of(refusal, cluster) or told
    # A failure of the machine is no verdict on a file that can be read.
    is_of_machine = name in (*OF_OUTPUTS, *OF_THE_MACHINE) and not (name == "Read" and reason)
    return None if is_of_machine else ClusterRefused(refusal, visible(reason))


def too_many(cluster: str) -> str:
    """Returns why a world can't have so many cycles, with the greatest number if the cluster file can be read again."""
    from musmyrtle.cluster import Reading
    from musmyrtle.cluster_file import document_of
    from musmyrtle.most_cycles import too_many_cycles
    try:
        found = Reading(document_of(Path(cluster).read_bytes())).cluster if os.path.isfile(cluster) else None
    except (OSError, ValueError):
        found = None
    if found is None:
        return "a run of the cluster can't have so many cycles"
    finding = too_many_cycles(found)
    return f"{finding.headline}. {finding.reason}"


def reason_of(refusal: str, cluster: str) -> str:
    """Returns file, line and column, the reason and related places, or nothing where none is known."""
    if os.path.exists(cluster) and not os.path.isfile(cluster) and not os.path.isdir(cluster):
        # Reading a pipe again would wait for a writer.
        return ""
    # The rules of clusters are read only where one is broken, so that opening a world takes no longer.
    from musmyrtle.lint.lint import Task, lint
    found = lint(Task(cluster)).refusals
    if not found or found[0][0] != refusal:
        return ""
    finding = found[0][1]
    where = f"{finding.place}: " if finding.place else ""
    notes = "; ".join(f"{note.place}: {note.text}" if note.place else note.text for note in finding.notes)
    return f"{where}{finding.headline}. {finding.reason}" + (f" ({notes})" if notes else "")
