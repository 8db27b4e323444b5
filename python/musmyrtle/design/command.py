"""The command `design`: from a network file to a cluster file whose deadlines the proved programs confirm."""
import argparse
import os
import sys
import time

from musmyrtle.cluster import Reading
from musmyrtle.design.building import Builder, Built
from musmyrtle.design.extending import Extender
from musmyrtle.design.judging import Verdict, verdict_of
from musmyrtle.design.keeping import Kept, kept_of
from musmyrtle.design.network import Network
from musmyrtle.design.parameters import settings
from musmyrtle.design.reading import NetworkReading
from musmyrtle.design.report import sections_of, text_of
from musmyrtle.design.scheduling import Miss, Schedule, Scheduler, Wishes
from musmyrtle.ending import FINE
from musmyrtle.faults.whole_files import Unusable, replace_file, spare_inputs
from musmyrtle.findings import block, counted
from musmyrtle.lint.command import REFUSED, USAGE, formed, is_bold_on, printed
from musmyrtle.lint.lint import read_bytes, unreadable
from musmyrtle.output import Stop, pass_on, write
from musmyrtle.places import Places
from musmyrtle.show.engines import COMMAND, MOST_REASONS, opened
from musmyrtle.show.latency import latencies
from musmyrtle.texts import FILE_LIMIT, Text, no_toml, not_utf8, read_text
from musmyrtle.toml_reader import Reader
from musmyrtle.toml_tables import BY_HEADER, Table
from musmyrtle.toml_values import NoToml

MISSED = 3
"""The status where a deadline isn't met."""
MOST_BYTES = 16 * 1_048_576
# ---- the network file


def network_text(file: str) -> Text:
    """Returns the text of a network file. Raises `Stop` after the reason where it is none."""
    try:
        with open(file, "rb") as source:
            data = source.read(MOST_BYTES + 1)
    except (OSError, ValueError):
        found = unreadable(file, "the network file")
        raise Stop(USAGE, f"{found.headline}. {found.reason}") from None
    if len(data) > MOST_BYTES:
        raise Stop(REFUSED, f"refused TooLong: {file} has more than {MOST_BYTES} bytes")
    try:
        text = data.decode().removeprefix("\ufeff")
    except UnicodeDecodeError as error:
        raise refused(["Toml"], [block("refused Toml", not_utf8(file, data, error.start), is_bold_on(sys.stderr))]) \
            from None
    try:
        document = Reader(text).document()
    except NoToml as error:
        why = no_toml(Places(file, text, Table(BY_HEADER)), error)
        raise refused(["Toml"], [block("refused Toml", why, is_bold_on(sys.stderr))]) from None
    return Text(file, document, Places(file, text, document))


def refused(names: list[str], reasons: list[str]) -> Stop:
    """Returns the end of a command whose network file is refused, after the reasons."""
    more = [f"and {counted(len(names) - MOST_REASONS, 'more mistake')}\n"] if len(names) > MOST_REASONS else []
    write(sys.stderr, ["\n".join([f"{COMMAND}: refused {names[0]}\n", *reasons, *more])])
    return Stop(REFUSED)


def kept_from(file: str, network: Network) -> Kept:
    """Returns the cluster file of `--keep`, which `fr_bench` accepts. Raises `Stop` for another one."""
    with opened(file) as inputs:
        inputs.of_cluster("fr_bench", "check")
        found, _ = latencies(inputs)
        data = read_bytes(inputs.task.file(file)) or b""
    text = read_text(file, data)
    cluster = Reading(text.document).cluster
    if cluster is None:
        raise Stop(USAGE, f"{file} was changed meanwhile")
    return kept_of(text, cluster, network, found)


def network_of(file: str, has_parameters: bool = True) -> Network:
    """Returns the network of a file. Raises `Stop` after all reasons to refuse it."""
    text = network_text(file)
    reading = NetworkReading(text, has_parameters)
    if reading.faults:
        reasons = [block(f"refused {it.refusal}", text.finding(it.headline, it.reason, it.path, it.notes),
                         is_bold_on(sys.stderr)) for it in reading.faults[:MOST_REASONS]]
        raise refused([it.refusal for it in reading.faults], reasons)
    return reading.network


# ---- the schedule


class Progress:
    """A line on a terminal that shows what the search does."""

    def __init__(self) -> None:
        self.is_on_terminal = sys.stderr is not None and sys.stderr.isatty()
        self.is_shown, self.last = False, time.monotonic()

    def __call__(self, text: str) -> None:
        now = time.monotonic()
        if self.is_on_terminal and now - self.last > 0.2:
            self.is_shown, self.last = True, now
            write(sys.stderr, [f"\r\x1b[K{text}"])

    def end(self) -> None:
        """Removes the line."""
        if self.is_shown:
            write(sys.stderr, ["\r\x1b[K"])


Design = tuple[Schedule, Built | None, Verdict | None]


def best_of(network: Network, wishes: Wishes, allowed: frozenset[str], kept: Kept | None = None) -> Design:
    """Returns the first schedule that meets all deadlines, or otherwise the one that misses least."""
    best: tuple[tuple[int, int], Design] | None = None
    for setting in settings(network) if kept is None else [kept.setting]:
        schedule = Scheduler(network, setting, wishes, kept).schedule()
        built = verdict = None
        if schedule.is_possible and schedule.parameters is not None:
            built = Builder(network, schedule, schedule.parameters).built() if kept is None else \
                Extender(kept, schedule, schedule.parameters).built()
            if len(built.text.encode()) > FILE_LIMIT:
                schedule.miss_length(len(built.text.encode()))
            else:
                verdict = verdict_of(built, setting.static_mt, allowed, kept)
            miss_uncarried(network, schedule)
        is_good = verdict is not None and verdict.is_good and not schedule.misses
        missing = len(schedule.misses) + (len(verdict.late) + len(verdict.warnings) if verdict else 0)
        rank = 0 if verdict else 1, missing
        if best is None or rank < best[0]:
            best = rank, (schedule, built, verdict)
        if is_good or time.monotonic() > wishes.until:
            break
    assert best is not None
    return best[1]


def miss_uncarried(network: Network, schedule: Schedule) -> None:
    """Notes the messages that no frame carries, so that a schedule without them is none."""
    carried = {member.name for it in schedule.frames for member in it.members}
    schedule.misses += [Miss(it.name, "no frame carries it") for it in network.messages if it.name not in carried]


def done(given: argparse.Namespace) -> int:
    """Does the command, and returns the status."""
    check_output(given)
    network = network_of(given.network, given.keep is None)
    kept = None if given.keep is None else kept_from(given.keep, network)
    network = network if kept is None else kept.network
    progress = Progress()
    slots, minislots = given.reserve
    wishes = Wishes(slots, minislots, given.seed, time.monotonic() + given.seconds, progress)
    try:
        schedule, built, verdict = best_of(network, wishes, frozenset(given.allow), kept)
    finally:
        progress.end()
    sections = list(sections_of(network, schedule, verdict))
    is_good = verdict is not None and verdict.is_good and not schedule.misses
    if is_good and built is not None and given.output is not None:
        written(given.output, built)
    printed(formed(given, sections, text_of(sections, is_bold_on(sys.stdout))))
    if is_good:
        return FINE
    note_missed(given.output)
    return MISSED


def note_missed(output: str | None) -> None:
    """Says on standard error that there is no cluster file."""
    pass_on(f"{COMMAND}: no schedule was found that meets each deadline"
            + ("" if output is None else f"; {output} isn't written"))


def check_output(given: argparse.Namespace) -> None:
    """Raises `Stop` for an output that would overwrite an input, or is a folder."""
    if given.output is None:
        return
    try:
        kept = [] if given.keep is None else [("the kept cluster file", given.keep)]
        spare_inputs({"-o": given.output}, [("the network file", given.network), *kept])
    except Unusable as error:
        raise Stop(USAGE, str(error)) from None
    if os.path.isdir(given.output):
        raise Stop(USAGE, f"{given.output} is a folder")


def written(file: str, built: Built) -> None:
    """Writes the cluster file, whole or not at all."""
    try:
        replace_file(file, built.text.encode())
    except OSError as error:
        raise Stop(USAGE, f"{file}: {error.strerror or error}") from None
