"""The commands `encode`, `decode` and `annotate`: payloads by the signals of their frames."""
import argparse
import sys
from collections.abc import Callable
from textwrap import fill

from musmyrtle.cluster import Buffer
from musmyrtle.ending import FINE, status_of
from musmyrtle.findings import Finding, block, counted
from musmyrtle.lint.command import (
    REFUSED, USAGE, Parser, add_forms, formed, is_bold_on, printed, shown_examples, spare,
)
from musmyrtle.lint.guarantees import number_of
from musmyrtle.lint.lint import read_bytes, unreadable
from musmyrtle.names import Names, named_in
from musmyrtle.output import Stop, pass_on, write
from musmyrtle.scenario import Reading, Scenario
from musmyrtle.scenario_words import NEWEST
from musmyrtle.selections import Directory
from musmyrtle.show.engines import COMMAND, MOST_REASONS, Inputs, opened
from musmyrtle.show.options import CLUSTER, SCENARIO, WIDTH
from musmyrtle.show.tables import Column, Exact, Row, Section, Value, as_text
from musmyrtle.signals.annotating import annotated
from musmyrtle.signals.frames import Definitions, Frames
from musmyrtle.signals.layout import Layout, Read
from musmyrtle.signals.refusals import BadValue, UnknownSignal
from musmyrtle.signals.texts import bytes_of, given_values, hex_of
from musmyrtle.texts import FILE_LIMIT, NoText, Text, read_text
from musmyrtle.visible import cut, visible

ENCODE = "Prints a payload of a transmit buffer, made of values of its signals, as scenarios write it."
DECODE = ("Prints the signals of a payload: of a transmit buffer by the frame that it sends, and of a receive buffer\n"
          "by that of its sender.")
ANNOTATE = "Prints a scenario with the signals of each payload in a comment behind it."
OF_SIGNALS = "examples/signals/cluster.toml"
ENCODE_EXAMPLES = (f"encode {OF_SIGNALS} engine data speed=87.5 gear=drive",)
DECODE_EXAMPLES = (f"decode {OF_SIGNALS} engine data x222e1000",)
ANNOTATE_EXAMPLES = (f"annotate {OF_SIGNALS} examples/signals/scenario",)
STATUSES = ("status: 0 if it is done, 1 if the cluster file, its signals or the scenario are refused, with the reason, "
            "2 if the words are no command, or name no buffer, signal or value, fr_bench can't be run, or the output "
            "can't be written")
YES = {"true": "yes", "false": "no"}
COLUMNS = (Column("signal", "signal", "whole"), Column("value", "value"), Column("unit", "unit"),
           Column("name", "name"), Column("raw", "raw", "bytes"), Column("new", "new", words=YES),
           Column("in_range", "within limits", words=YES))


def parser_of(name: str, purpose: str, examples: tuple[str, ...]) -> argparse.ArgumentParser:
    """Returns the parser of a command with a cluster file."""
    parser = Parser(prog=f"{COMMAND} {name}", description=purpose, allow_abbrev=False,
                    epilog=f"{shown_examples(examples)}\n{fill(STATUSES, WIDTH)}",
                    formatter_class=argparse.RawDescriptionHelpFormatter)
    parser.add_argument("cluster", metavar=CLUSTER, help="a cluster file")
    return parser


def add_buffer(parser: argparse.ArgumentParser) -> None:
    """Adds the words that name a buffer."""
    parser.add_argument("node", metavar="NODE", help="the node of the buffer, by its name or number")
    parser.add_argument("buffer", metavar="BUFFER", help="the buffer, by its name or number")


def encode_arguments() -> argparse.ArgumentParser:
    """Returns the parser of `encode`."""
    parser = parser_of("encode", ENCODE, ENCODE_EXAMPLES)
    add_buffer(parser)
    parser.add_argument("values", metavar="NAME=VALUE", nargs="*",
                        help="a signal and its value: a number, as 87.5 or 1/3, the name of a value, bytes as x0a0b, "
                             "or none for the invalid value; other signals are initial")
    return parser


def decode_arguments() -> argparse.ArgumentParser:
    """Returns the parser of `decode`."""
    parser = parser_of("decode", DECODE, DECODE_EXAMPLES)
    add_buffer(parser)
    parser.add_argument("payload", metavar="HEX", help="the payload as scenarios write it, as x0a0b")
    add_forms(parser)
    return parser


def annotate_arguments() -> argparse.ArgumentParser:
    """Returns the parser of `annotate`."""
    parser = parser_of("annotate", ANNOTATE, ANNOTATE_EXAMPLES)
    parser.add_argument("scenario", metavar=SCENARIO, help="a scenario of version 3 of this cluster")
    return parser


# ---- the cluster and its frames


def frames_in(inputs: Inputs) -> tuple[Text, Frames]:
    """Returns the text and the frames of a cluster file that `fr_bench` accepts. Raises `Stop` after the reasons."""
    inputs.of_cluster("fr_bench", "check")
    data = read_bytes(inputs.task.file(inputs.task.cluster))
    try:
        text = read_text(inputs.task.cluster, data or b"")
    except NoText:
        raise Stop(USAGE, f"{inputs.task.cluster} can't be read again, or was changed meanwhile") from None
    frames = Frames(inputs.network.cluster, Definitions.of(text))
    if frames.faults:
        tell_faults(f"the signals of {inputs.task.cluster} are refused", frames.faults)
        raise Stop(REFUSED)
    return text, frames


def tell_faults(headline: str, faults: list[Finding]) -> None:
    """Writes the faults of an input to standard error, below a headline."""
    lines = [f"{COMMAND}: {visible(headline)}\n"]
    lines += [block("error", it, is_bold_on(sys.stderr)) for it in faults[:MOST_REASONS]]
    more = len(faults) - MOST_REASONS
    write(sys.stderr, ["\n".join([*lines, *([f"and {counted(more, 'more error')}\n"] if more > 0 else [])])])


def named_buffer(given: argparse.Namespace, text: Text, frames: Frames) -> Buffer:
    """Returns the buffer that the words name. Raises `Stop` if there is none."""
    directory = Directory.of(text.document)
    node = number_of(given.node, list(directory.nodes), "node", "the cluster")
    buffer = number_of(given.buffer, list(directory.buffers[node]), "buffer", f"node {node}")
    return frames.cluster.nodes[node].buffers[buffer]


def done(given: argparse.Namespace, work: Callable[[Inputs, Text, Frames], None]) -> int:
    """Does a command, and returns its status."""
    def whole() -> int:
        with opened(given.cluster) as inputs:
            try:
                work(inputs, *frames_in(inputs))
            except (UnknownSignal, BadValue) as error:
                raise Stop(USAGE, visible(str(error))) from None
        return FINE
    return status_of(COMMAND, whole)


# ---- the commands


def encode(words: list[str]) -> int:
    """Does `encode`, and returns its status."""
    given = encode_arguments().parse_args(words)

    def work(_: Inputs, text: Text, frames: Frames) -> None:
        buffer = named_buffer(given, text, frames)
        layout = frames.sent_by(buffer.node, buffer.number)
        payload = layout.encoded(given_values(layout, given.values), None, 2 * buffer.words)
        printed([f"{hex_of(payload)}\n"])
    return done(given, work)


def decode(words: list[str]) -> int:
    """Does `decode`, and returns its status."""
    parser = decode_arguments()
    given = parser.parse_args(words)
    payload = bytes_of(given.payload)
    if payload is None:
        parser.error(f"HEX is {cut(given.payload)}: expected `x` and two lower-case hexadecimal digits for each byte")

    def work(_: Inputs, text: Text, frames: Frames) -> None:
        layout = frames.layout_of(named_buffer(given, text, frames))
        sections = [signals_section(layout, payload or b"")]
        printed(formed(given, sections, as_text(sections, is_bold_on(sys.stdout))))
    return done(given, work)


def signals_section(layout: Layout, payload: bytes) -> Section:
    """Returns the table of the signals that a payload has."""
    rows = [Row(values_of(it), not it.is_in_range) for it in layout.reads(payload)]
    return Section("signal", f"Signals of frame {layout.name}", COLUMNS, rows,
                   f"The payload has no signal of frame {layout.name}.")


def values_of(read: Read) -> dict[str, Value]:
    """Returns the values of a row by their keys."""
    def value(it: int | float | bytes | None) -> Value:
        return hex_of(it) if isinstance(it, bytes) else None if it is None else Exact(it)
    return {"signal": read.signal.name, "value": value(read.number), "unit": read.signal.unit or None,
            "name": None if read.number is None else read.name, "raw": value(read.raw), "new": read.is_new,
            "in_range": read.is_in_range}


def annotate(words: list[str]) -> int:
    """Does `annotate`, and returns its status."""
    given = annotate_arguments().parse_args(words)

    def work(_: Inputs, text: Text, frames: Frames) -> None:
        spare([("the scenario", given.scenario)])
        scenario = right_scenario(given.scenario, named_in(text.document))
        found = annotated(scenario, frames)
        whole = "\n".join(found.lines)
        if len(whole.encode()) > FILE_LIMIT:
            raise Stop(REFUSED, f"with its comments {given.scenario} has {len(whole.encode())} bytes, and a scenario "
                                f"has at most {FILE_LIMIT}")
        printed([whole])
        for number, why in found.without:
            pass_on(f"{COMMAND}: line {number} has no comment: {why}")
    return done(given, work)


def right_scenario(file: str, names: Names) -> Scenario:
    """Returns a scenario of version 3 with these names. Raises `Stop` after the reasons of a refusal."""
    data = read_bytes(file)
    if data is None:
        found = unreadable(file, "the scenario")
        raise Stop(REFUSED, visible(f"{found.headline}. {found.reason}"))
    scenario = Reading(file, data, None, names).scenario
    if scenario.refusals:
        write(sys.stderr, ["\n".join(block(f"refused {words}", it, is_bold_on(sys.stderr))
                                     for words, it in scenario.refusals[:MOST_REASONS])])
        raise Stop(REFUSED)
    if scenario.version < NEWEST:
        raise Stop(REFUSED, f"{file} is of version {scenario.version}, which has no comments: expected `frscenario "
                            f"{NEWEST}` in the first line, and its lines in that form")
    return scenario
