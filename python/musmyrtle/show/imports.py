"""The command `import`: a cluster file, made of a system description of AUTOSAR 4 or FIBEX.

The readers are imported where they are used, since all other commands would wait for them.
"""
import argparse
import io
import os
import sys
import time
from contextlib import suppress
from textwrap import fill
from typing import TYPE_CHECKING

from musmyrtle.cluster import GUARDS, Reading
from musmyrtle.ending import FINE, status_of
from musmyrtle.faults.whole_files import Unusable, replace_file, spare_inputs
from musmyrtle.findings import counted
from musmyrtle.lint.command import REFUSED, USAGE, Parser, add_forms, formed, is_bold_on, printed, shown_examples
from musmyrtle.lint.lint import read_bytes, unreadable
from musmyrtle.output import Stop, pass_on, write
from musmyrtle.show.engines import COMMAND
from musmyrtle.show.options import WIDTH
from musmyrtle.show.tables import as_text
from musmyrtle.signals.refusals import BadSignals
from musmyrtle.texts import NoText, Text, read_text
from musmyrtle.visible import visible

if TYPE_CHECKING:
    from musmyrtle.descriptions.importing import Imported, Wishes

PURPOSE = "Makes a cluster file of an AUTOSAR 4 system description or a FIBEX 3.1 or 4 file."
EXAMPLES = ("import examples/descriptions/network.arxml > cluster.toml",
            "import examples/descriptions/network.fibex.xml --nodes Brake --guard AB > cluster.toml")
STATUSES = ("status: 0 if it is done, with notes on standard error, 1 if the description is refused, with "
            "lines `refused NAME PATH: REASON` and no output, 2 if the words are no command, a file can't be read or "
            "written, or defusedxml isn't installed, 3 if --compare finds differences")
SAME = "The description says what the cluster file says.\n"
DIFFERENT = 3
MEGABYTE = 1_000_000
MOST_REFUSALS = 200
"""The refusals that are printed."""


def arguments() -> argparse.ArgumentParser:
    """Returns the parser of the words."""
    parser = Parser(prog=f"{COMMAND} import", description=PURPOSE, allow_abbrev=False,
                    epilog=f"{shown_examples(EXAMPLES)}\n{fill(STATUSES, WIDTH)}",
                    formatter_class=argparse.RawDescriptionHelpFormatter)
    add = parser.add_argument
    add("files", metavar="FILE", nargs="+", help="the AUTOSAR files of one system description, or one FIBEX file")
    add("--cluster", metavar="NAME", help="the FlexRay cluster, if the description has several")
    add("-o", "--output", metavar="FILE", help="the cluster file, with the notes as comments at the top; otherwise it "
        "goes to standard output")
    add("--nodes", metavar="NODE,..", action="append", default=[],
        help="the nodes to keep, by name; the others become stand-ins, which only send")
    add("--split", action="store_true", help="the receive buffers of a node beyond 64 go to nodes that only listen")
    add("--listen", action="store_true", help="take a description in which no frame has a sender")
    add("--guard", metavar="WHICH", choices=GUARDS, default="none",
        help="the channels with bus guardians, which descriptions don't have: AB, A, B or none, which is usual")
    add("--bit-counting", choices=("lsb", "msb"),
        help="whether a FIBEX file counts the bits of a byte from the least or the most significant one, whatever it "
             "says")
    add("--compare", metavar="CLUSTER", help="print what the description changes against this cluster file, by name, "
        "instead of the new one")
    add_forms(parser)
    return parser


def parsed(words: list[str]) -> argparse.Namespace:
    """Returns the words. Ends with status 2 for wrong ones."""
    parser = arguments()
    given = parser.parse_args(words)
    if given.compare is None and (given.json or given.csv):
        parser.error("--json and --csv are forms of the table of --compare CLUSTER")
    return given


class Progress:
    """A line on a terminal that shows how much of the files is read."""

    def __init__(self) -> None:
        self.is_on_terminal = sys.stderr is not None and sys.stderr.isatty()
        self.is_shown, self.last = False, time.monotonic()

    def __call__(self, done: int, of: int) -> None:
        """Shows the bytes that are read."""
        now = time.monotonic()
        if self.is_on_terminal and now - self.last > 0.2:
            self.is_shown, self.last = True, now
            write(sys.stderr, [f"\r\x1b[K{done // MEGABYTE} of {of // MEGABYTE} MB read"])

    def end(self) -> None:
        """Removes the line."""
        if self.is_shown:
            write(sys.stderr, ["\r\x1b[K"])


def wishes_of(given: argparse.Namespace) -> "Wishes":
    """Returns what the words ask for."""
    from musmyrtle.descriptions.importing import Wishes
    names = tuple(dict.fromkeys(name for it in given.nodes for name in it.split(",") if name))
    return Wishes(given.cluster, names, given.split, given.listen, given.guard, given.bit_counting)


def made(given: argparse.Namespace) -> "Imported":
    """Returns the cluster file. Raises `Stop` after the refusals of a description."""
    from musmyrtle.descriptions.importing import NotImported, imported
    progress = Progress()
    try:
        try:
            return imported(given.files, wishes_of(given), progress)
        finally:
            progress.end()
    except NotImported as refused:
        tell("note", refused.notes)
        tell("refused", refused.refusals[:MOST_REFUSALS])
        more = len(refused.refusals) - MOST_REFUSALS
        raise Stop(REFUSED, f"{counted(more, 'more refusal')} aren't shown" if more > 0 else "") from None


def tell(word: str, lines: list[str]) -> None:
    """Writes lines to standard error, if that can be written."""
    for line in lines:
        pass_on(f"{word} {line}")


def written(given: argparse.Namespace, found: "Imported") -> None:
    """Writes the cluster file, whole or not at all."""
    if given.output is None:
        if isinstance(sys.stdout, io.TextIOWrapper):
            # A cluster file is UTF-8, whatever the terminal has.
            sys.stdout.reconfigure(encoding="utf-8")
        with suppress(BrokenPipeError):
            write(sys.stdout, [found.text])
        return
    try:
        replace_file(given.output, found.with_notes.encode())
    except OSError as error:
        raise Stop(USAGE, f"{given.output}: {error.strerror or error}") from None


def existing(file: str) -> Text:
    """Returns the text of the cluster file of `--compare`. Raises `Stop` for what is none."""
    data = read_bytes(file)
    if data is None:
        found = unreadable(file, "the cluster file")
        raise Stop(USAGE, f"{found.headline}. {found.reason}")
    try:
        text = read_text(file, data)
    except NoText as error:
        raise Stop(USAGE, f"{error.why.place or file}: {error.why.headline}. {error.why.reason}") from None
    if Reading(text.document).cluster is None:
        raise Stop(USAGE, visible(f"{file} isn't accepted as a cluster file: `{COMMAND} lint {file}` has the reasons"))
    return text


def compared(given: argparse.Namespace, old: Text, found: "Imported") -> int:
    """Prints the differences, and returns the status."""
    from musmyrtle.descriptions.comparing import compare
    from musmyrtle.diff.differences import for_people, sections_of
    try:
        sections = sections_of(compare(old, read_text("", found.text.encode())))
    except BadSignals as error:
        raise Stop(USAGE, visible(f"{given.compare}: {error}")) from None
    text = as_text(for_people(sections), is_bold_on(sys.stdout)) if sections else [SAME]
    printed(formed(given, sections, text))
    return DIFFERENT if sections else FINE


def done(given: argparse.Namespace) -> int:
    """Does the command, and returns the status."""
    old = None if given.compare is None else existing(given.compare)
    if given.output is not None:
        try:
            spare_inputs({"-o": given.output}, [*(("the description", it) for it in given.files),
                                                *([("the cluster file", given.compare)] if given.compare else [])])
        except Unusable as error:
            raise Stop(USAGE, str(error)) from None
        if os.path.isdir(given.output):
            raise Stop(USAGE, f"{given.output} is a folder")
    found = made(given)
    if given.output is not None or old is None:
        written(given, found)
    tell("note", list(found.notes))
    return FINE if old is None else compared(given, old, found)


def main(words: list[str]) -> int:
    """Does `import`, and returns its status."""
    if sys.stderr is not None and hasattr(sys.stderr, "reconfigure"):
        # A terminal may be unable to spell the names of a description.
        sys.stderr.reconfigure(errors="backslashreplace")
    return status_of(COMMAND, lambda: done(parsed(words)))
