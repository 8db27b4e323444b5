"""Transmit buffers that a schedule doesn't guarantee, and the load of each channel, by `fr_view latency`."""
from collections.abc import Iterable
from typing import IO

from musmyrtle.cluster import Buffer, Cluster
from musmyrtle.findings import Finding, counted, joined
from musmyrtle.latencies import (BLOCKED, GUARANTEED, IDLE, POSSIBLE, Latency, Load, Way, read_latencies, read_way,
                                 words_for_way)
from musmyrtle.lint.loads import load_section
from musmyrtle.names import name_in, tables_of
from musmyrtle.output import CANNOT_BE_USED, Stop, pass_on
from musmyrtle.program import VARIABLES, ask, itself, no_answer, usual_program
from musmyrtle.show.tables import Section
from musmyrtle.texts import Text
from musmyrtle.visible import cut

MOST_LINES, LONGEST_LINE = 2500, 4096
"""The lines and the characters of a line that are read: at most 1,026 of latencies, and 2,046 of a way."""
MOST_WAYS, MOST_FRAMES = 8, 8
"""The notes that have a way to the latest start, each of which asks the program, and the frames named of a way."""
FRONT = "musmyrtle lint: no latencies: "


class NoLatencies(Exception):
    """The program prints no latencies. The message has the reason."""


def lines_of(words: list[str], is_checked: bool = False) -> list[str]:
    """Returns what `fr_view` prints for these words. Raises `NoLatencies` if it refuses or fails.

    IS_CHECKED is true after a call of the launcher, which then needn't check the sources again.
    """
    program, lines = usual_program("fr_view"), list[str]()
    if program and is_checked:
        program = itself(program)
    if program is None:
        raise NoLatencies(f"there is no fr_view: name one by the variable {VARIABLES['fr_view']}, or put it on PATH")

    def listen(output: IO[str]) -> None:
        while line := output.readline(LONGEST_LINE):
            if len(lines) < MOST_LINES:
                lines.append(line.rstrip("\n"))
    try:
        answer = ask(program, words, listen=listen)
    except OSError as error:
        raise NoLatencies(f"{program} can't be run: {error.strerror}") from None
    if answer.status:
        raise NoLatencies(no_answer(program, words, answer))
    return lines


def latencies_of(file: str) -> tuple[list[Latency], list[Load]]:
    """Returns the latencies of a cluster file. Raises `NoLatencies` if there is no such answer."""
    try:
        return read_latencies(lines_of(["latency", "--", file]))
    except ValueError as error:
        raise NoLatencies(f"fr_view prints other lines: {error}") from None


def way_of(file: str, it: Latency) -> Way | None:
    """Returns the way to the latest start of a buffer's slot, if that is in one of its cycles."""
    try:
        way = read_way(lines_of([*words_for_way(it.slot, it.channels), "--", file], True))
    except (ValueError, NoLatencies) as error:
        pass_on(f"{FRONT}{error}")
        return None
    return way if way and it.cycles.admit(way.cycle) else None


class Guarantees:
    """The findings about latencies, which `fr_view` is asked for if a cluster has dynamic transmit buffers, or if the
    words of the command want them."""

    def __init__(self, file: str, wanted: Iterable[tuple[str, str]] = (), has_load: bool = False) -> None:
        """FILE is the cluster file. WANTED has a node and a buffer for each buffer that has to be guaranteed."""
        self.file, self.wanted, self.has_load = file, tuple(wanted), has_load
        self.loads: list[Section] = []
        self.is_wanted, self.is_done = bool(self.wanted) or has_load, False

    def notes_and_errors(self, cluster: Cluster, text: Text) -> tuple[list[Finding], list[Finding]]:
        """Returns the notes of buffers that can be kept from sending, and the errors of those that mustn't be.

        Raises `Stop` if the words want something that the program or the cluster doesn't have.
        """
        wanted = [buffer_of(cluster, text, *words) for words in self.wanted]
        self.is_done = True
        if not self.is_wanted and not any(it.transmits and not cluster.is_static(it.slot) for it in cluster.buffers()):
            return [], []
        try:
            found, loads = latencies_of(self.file)
        except NoLatencies as error:
            if self.is_wanted:
                raise Stop(CANNOT_BE_USED, str(error)) from None
            pass_on(f"{FRONT}{error}")
            return [], []
        self.loads = [load_section(loads, cluster)] if self.has_load else []
        by_place = {(it.node, it.buffer): it for it in found}
        errors = [it for it in wanted if by_place[it.node, it.number].state != GUARANTEED]
        weak = [it for it in cluster.buffers() if it not in errors
                and it.transmits and by_place[it.node, it.number].state == POSSIBLE]
        return ([self.finding(cluster, text, it, by_place, place < MOST_WAYS) for place, it in enumerate(weak)],
                [self.finding(cluster, text, it, by_place) for it in errors])

    def finding(self, cluster: Cluster, text: Text, buffer: Buffer, by_place: dict[tuple[int, int], Latency],
                has_way: bool = True) -> Finding:
        """Returns why a buffer isn't guaranteed, with the way to its latest start if that is asked for."""
        it = by_place[buffer.node, buffer.number]
        return finding_of(cluster, text, buffer, it,
                          way_of(self.file, it) if has_way and it.state == POSSIBLE else None)


def finding_of(cluster: Cluster, text: Text, buffer: Buffer, it: Latency, way: Way | None) -> Finding:
    """Returns why a buffer isn't guaranteed."""
    node, slot = cluster.nodes[buffer.node], f"slot {buffer.slot}"
    headline, path = f"{buffer} isn't guaranteed: ", (*buffer.path, "slot")
    if it.state == IDLE:
        reason = f"Its host has no task that could commit. Expected `tasks = 1` or more at node {node.number}."
        return text.finding(f"{headline}node {node.number} has no task", reason, (*node.path, "tasks"))
    key = f"latest_{buffer.channels.lower()}"
    is_there = key in text.document["node"][node.number]
    notes = [(f"`{key}` of node {node.number}", (*node.path, key))] if is_there else []
    if it.state == BLOCKED:
        reason = "It is never sent. The warning `never-sends` has the reason."
        return text.finding(f"{headline}{slot} never opens in time", reason, path, notes)
    admitted = 64 // it.cycles.repetition
    share = f"{admitted - it.guaranteed} of its {admitted} cycles" if it.guaranteed else "each of its cycles"
    reason = (f"{slot.capitalize()} opens at minislot {it.first} if nothing is sent before it, and `{key}` of node "
              f"{node.number} is {it.latest}. ")
    reason += moved_by(way, it) if way else "Frames in the slots before it can move it beyond that minislot. "
    reason += "Expected a lower slot, shorter frames before it, or frames in other cycles."
    return text.finding(f"{headline}its slot can open too late in {share}", reason, path, notes)


def moved_by(way: Way, it: Latency) -> str:
    """Returns which frames move a slot beyond the latest minislot of its node."""
    missing = way.minislot - (it.latest or 0)
    sent = [f"slot {frame.slot} by buffer {frame.buffer} of node {frame.node}" for frame in way.frames[:MOST_FRAMES]]
    more = len(way.frames) - len(sent)
    return (f"In cycle {way.cycle} frames before it can move it to minislot {way.minislot}, "
            f"{counted(missing, 'minislot')} too late: {joined(sent + [counted(more, 'more frame')] * (more > 0))}. ")


def names_in(tables: object) -> list[str | None]:
    """Returns the keys `name` of the tables of an array, each None where it is no string."""
    return [name_in(table) for table in tables_of(tables)]


def buffer_of(cluster: Cluster, text: Text, node: str, buffer: str) -> Buffer:
    """Returns the transmit buffer of a node and a buffer, by their names or numbers. Raises `Stop` if there is none."""
    tables = text.document.get("node")
    number = number_of(node, names_in(tables), "node", "the cluster")
    buffers = names_in(tables_of(tables)[number].get("buffer"))
    found = cluster.nodes[number].buffers[number_of(buffer, buffers, "buffer", f"node {number}")]
    if not found.transmits:
        raise Stop(CANNOT_BE_USED, f"{found} is a receive buffer; expected a transmit buffer")
    return found


def number_of(word: str, names: list[str | None], what: str, whose: str) -> int:
    """Returns the number of the thing that a word names, or is. Raises `Stop` if none or several have the name.

    A word that is a number of such a thing is this number, also if another one has it as a name, as in scenarios.
    """
    if word.isascii() and word.isdecimal() and word in map(str, range(len(names))):
        return int(word)
    named = [number for number, name in enumerate(names) if name == word]
    if len(named) == 1:
        return named[0]
    if named:
        raise Stop(CANNOT_BE_USED, f"several {what}s of {whose} have the name {cut(word)}; give the number")
    known = joined([cut(it) for it in names if it is not None]) or "none"
    raise Stop(CANNOT_BE_USED, f"{whose} has {counted(len(names), what)}, and none is {cut(word)}; names: {known}")
