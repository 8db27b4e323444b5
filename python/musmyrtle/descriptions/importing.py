"""The import of a description: files are read, and the cluster file is made and checked before it is written."""
from collections import Counter
from dataclasses import dataclass, replace

from musmyrtle.cluster import Reading
from musmyrtle.descriptions.autosar import Autosar
from musmyrtle.descriptions.building import Builder
from musmyrtle.descriptions.collecting import AUTOSAR, Collector, Description
from musmyrtle.descriptions.elements import path_of, unread
from musmyrtle.descriptions.fibex import Fibex
from musmyrtle.descriptions.left_out import GROUP_OF, groups_of
from musmyrtle.descriptions.network import Network
from musmyrtle.descriptions.report import Refused, Report, few
from musmyrtle.descriptions.scheduling import Schedule
from musmyrtle.descriptions.stand_ins import chosen_nodes
from musmyrtle.descriptions.toml_text import comment
from musmyrtle.descriptions.xml_files import Tell, read_files
from musmyrtle.findings import counted
from musmyrtle.lint.clashes import clashes
from musmyrtle.places import Path
from musmyrtle.signals.frames import Definitions, Frames
from musmyrtle.signals.reading import FrameReading
from musmyrtle.texts import FILE_LIMIT, NoText, read_text
from musmyrtle.version import version

VARIATION = "VARIATION-POINT"
FEWEST_SYNC_NODES = 2


@dataclass(frozen=True)
class Wishes:
    """The wishes that the words of the command have."""

    cluster: str | None = None
    nodes: tuple[str, ...] = ()
    is_split: bool = False
    is_listening: bool = False
    guard: str = "none"
    bit_counting: str | None = None


@dataclass(frozen=True)
class Imported:
    """A cluster file, the notes of its import, and the SHA-256 digest of each source."""

    text: str
    notes: tuple[str, ...]
    sources: tuple[tuple[str, str], ...]

    @property
    def with_notes(self) -> str:
        """Returns the file with its sources and notes in comments at the top."""
        lines = [f"imported by musmyrtle {version()}", *(f"{name} sha256 {digest}" for name, digest in self.sources),
                 *(f"note {it}" for it in self.notes)]
        return "".join(f"{comment(it)}\n" for it in lines) + self.text


class NotImported(Exception):
    """The description is refused, with all reasons that were found."""

    def __init__(self, refusals: list[str], notes: list[str]) -> None:
        super().__init__(*refusals[:1])
        self.refusals, self.notes = refusals, notes


def imported(files: list[str], wishes: Wishes, tell: Tell = lambda done, of: None) -> Imported:
    """Returns the cluster file of a description. TELL gets how many bytes of all are read. Raises `NotImported`."""
    report, description = Report(), Description()
    network = made = None
    with report.going_on():
        digests = read_files(files, lambda file: Collector(file, description), tell)
        with report.going_on():
            network = network_of(description, wishes, report)
        # A refusal may come from a name that only these notes show.
        note_unread(description, report)
        if network is not None and not report.refusals:
            made = made_of(network, wishes, report)
    if report.refusals or made is None:
        raise NotImported(list(report.refusals), report.lines())
    names = tuple((file.rpartition("/")[2], digest.hex()) for file, digest in zip(files, digests))
    found = Imported("\n".join(made.lines) + "\n", tuple(report.lines()), names)
    check(found, made.origins)
    return found


def network_of(description: Description, wishes: Wishes, report: Report) -> Network | None:
    """Returns the network of a description, or None after refusals.

    One in which no frame has a slot or a sender is refused.
    """
    if description.format is AUTOSAR:
        network = Autosar(description, report).network(wishes.cluster)
    else:
        network = Fibex(description, report, wishes.bit_counting).network(wishes.cluster)
    if network is None:
        return None
    if not network.sendings:
        report.refuse("NoFrames", network.path, "no frame of the cluster has a slot")
    elif not any(it.senders for it in network.sendings) and not wishes.is_listening:
        report.refuse("NoSenders", network.path, "no frame has a sender; --listen takes such a description, as an "
                      "extract for one node")
    return network


def note_unread(description: Description, report: Report) -> None:
    """Notes all elements that weren't read: those that are left out, and those that the reader doesn't know."""
    left, unknown = [], Counter[str]()
    first: dict[str, str] = {}
    for it in unread(description.reached.values()):
        if it.tag == VARIATION:
            report.refuse("Variants", path_of(it), "the element exists in some variants alone: choose one in the tool "
                          "that writes the description")
        elif it.tag in GROUP_OF:
            left.append(it)
        else:
            unknown[it.tag] += 1
            first.setdefault(it.tag, path_of(it))
    if left:
        groups = [f"{group} ({counted(count, 'element')})" for group, count in groups_of(left).items()]
        report.note(f"left out, since the bench models nothing of it: {few(groups)}")
    for tag, count in sorted(unknown.items()):
        report.note(f"{counted(count, 'element')} {tag} {'is' if count == 1 else 'are'} unknown to this reader and not "
                    "read, the first one", first[tag])
    if description.dropped:
        report.note("elements of other kinds aren't read",
                    few([f"{count} {tag}" for tag, count in sorted(description.dropped.items())]))


@dataclass(frozen=True)
class Made:
    """The lines of a cluster file, and the paths of the elements from which its tables come."""

    lines: list[str]
    origins: dict[Path, str]


def made_of(network: Network, wishes: Wishes, report: Report) -> Made:
    """Returns the lines of the cluster file."""
    schedule = Schedule(network, report)
    if wishes.nodes:
        network.nodes = chosen_nodes(schedule, list(wishes.nodes), report)
    if sum(any(part.is_sync for part in it.whole) for it in network.nodes) < FEWEST_SYNC_NODES:
        report.note("fewer than two nodes have a sync slot")
    builder = Builder(schedule, wishes.guard, wishes.is_split, report)
    return Made(builder.lines(), builder.origins)


def check(found: Imported, origins: dict[Path, str]) -> None:
    """Raises `NotImported` for a file that the programs or the reader of signals would refuse."""
    data = found.with_notes.encode()
    try:
        text = read_text("", data)
    except NoText as error:
        reason = error.why.headline if error.refusal != "TooLong" else (
            f"it would have {len(data)} bytes, and has at most {FILE_LIMIT}: choose fewer nodes by --nodes")
        raise NotImported([str(Refused(error.refusal, "the cluster file", reason))], list(found.notes)) from None
    reading = Reading(text.document)
    cluster = reading.cluster
    faults = reading.faults if cluster is None else clashes(cluster)
    faults = faults or [replace(it, refusal="BadSignal") for it in FrameReading(text.document).faults]
    refusals = [str(Refused(it.refusal.partition(" ")[0], origin_of(origins, it.path), f"{it.headline}. {it.reason}"))
                for it in faults]
    if cluster is not None and not refusals:
        refusals = [str(Refused("BadFrame", "the cluster file", f"{it.headline}. {it.reason}"))
                    for it in Frames(cluster, Definitions.of(text)).faults]
    if refusals:
        raise NotImported(refusals, list(found.notes))


def origin_of(origins: dict[Path, str], path: Path) -> str:
    """Returns the path of the element from which a place of the cluster file comes."""
    while path and path not in origins:
        path = path[:-1]
    return origins.get(path, "the cluster file")
