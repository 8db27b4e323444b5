"""The command `replay`: a scenario of a recording, whose run gives the frames of the recording back."""
import argparse
import sys
from contextlib import ExitStack

from musmyrtle.breaking import breaking_off
from musmyrtle.cluster import CYCLES
from musmyrtle.ending import FINE, status_of
from musmyrtle.findings import counted
from musmyrtle.lint.command import REFUSED, USAGE, Parser, lasting_file, shown_examples, spare
from musmyrtle.lint.runs import MOST_CYCLES
from musmyrtle.names import LineNames
from musmyrtle.output import Stop, pass_on, write
from musmyrtle.replay.checking import Given, differences, in_order
from musmyrtle.replay.lines import Lines
from musmyrtle.replay.notes import difference_lines, left_lines, recording_lines, run_line
from musmyrtle.replay.places import Placing, Windows
from musmyrtle.replay.recording import Listened
from musmyrtle.replay.running import bus_of
from musmyrtle.replay.senders import Senders
from musmyrtle.replay.sending import Actions, Sending
from musmyrtle.scenario import MOST_LINES
from musmyrtle.scenario_words import NEWEST
from musmyrtle.show.engines import COMMAND, Inputs, opened
from musmyrtle.show.monitor import FOUND, MOST_NUMBER, STANDARD_INPUT, judged, recording_of, source_of, tell
from musmyrtle.show.options import CLUSTER
from musmyrtle.show.page_recording import range_of
from musmyrtle.show.signals import frames_in
from musmyrtle.signals.frames import Frames
from musmyrtle.visible import visible

PURPOSE = ("Makes a scenario of a recording of a bus, whose run gives the frames of the recording back: commits for\n"
           "the frames of the senders, and faults for what no node sent. Standard error names each difference.")
FILES = "examples/three-nodes/cluster.toml examples/recordings/disturbed.pcap"
EXAMPLES = (f"replay {FILES} > replayed", f"replay {FILES} --cycles 1")
STATUSES = """status: 0 if the run of the scenario gives each frame of the recording back and no other one, 3 if not, 1
if the cluster file or the recording is refused, or a scenario has no room for the recording, 2 if the words are no
command, a program can't be run or fails, or the output can't be written, 130, 143 or 129 if SIGINT, SIGTERM or SIGHUP
broke it off"""
MOST_BYTES, CHOOSE = 1_048_576, "choose a part of the recording with --cycles FIRST-LAST"
"""The bytes of a scenario, and what to do with a recording that is too long."""


def arguments() -> argparse.ArgumentParser:
    """Returns the parser of the command's words."""
    parser = Parser(prog=f"{COMMAND} replay", description=PURPOSE, epilog=f"{shown_examples(EXAMPLES)}\n{STATUSES}",
                    allow_abbrev=False, formatter_class=argparse.RawDescriptionHelpFormatter)
    add = parser.add_argument
    add("cluster", metavar=CLUSTER, help="a cluster file")
    add("recording", metavar="RECORDING", nargs="?", default=STANDARD_INPUT,
        help="a capture (pcap or pcapng, link type 210); without it, or for -, standard input")
    add("--cycles", metavar="FIRST-LAST", type=range_of,
        help="the cycles of the recording to replay, counted from 0, as 0-63")
    return parser


class Part:
    """The cycles of a recording that are replayed, and those of the run: SHIFT more than those of the recording."""

    def __init__(self, listened: Listened, windows: Windows, wanted: range | None) -> None:
        first_count = listened.first_count()
        if first_count is None:
            raise Stop(REFUSED, "the recording has no frame whose cycle is known, so there is nothing to replay")
        whole = range(1 + max((cycle for cycle, _ in (*windows.of_slot, *windows.of_minislot)), default=0))
        self.cycles = whole if wanted is None else range(wanted.start, min(wanted.stop, whole.stop))
        if not self.cycles:
            raise Stop(USAGE, f"the recording has no cycle {wanted.start if wanted else 0}: its last one is cycle "
                              f"{whole.stop - 1}")
        first = self.cycles.start
        self.shift = (first_count + first) % len(CYCLES) - first
        self.run = self.cycles.stop + self.shift
        if self.run > MOST_CYCLES:
            raise Stop(REFUSED, f"the run would have {self.run} cycles, and a run of a scenario has at most "
                                f"{MOST_CYCLES}; {CHOOSE}")


def name_of(inputs: Inputs, node: int, buffer: int | None) -> str:
    """Returns the name of a node, or of a buffer of it, if a scenario can use it, and otherwise the number."""
    network, names = inputs.network, LineNames(inputs.names)
    name = network.node_names[node] if buffer is None else network.buffer_names[node][buffer]
    number = node if buffer is None else buffer
    if name is None or name.isdigit():
        return str(number)
    found = names.node(name) if buffer is None else names.buffer(node, name)
    return name if found == number else str(number)


def text_of(inputs: Inputs, frames: Frames, actions: Actions, part: Part) -> str:
    """Returns the scenario. Raises `Stop` if it would have more lines than a scenario may have."""
    names: dict[tuple[int, int | None], str]
    names = {(it.number, None): name_of(inputs, it.number, None) for it in frames.cluster.nodes}
    names |= {(it.node, it.number): name_of(inputs, it.node, it.number) for it in frames.cluster.buffers()}
    before = [(it.number, cycle) for it in frames.cluster.nodes for cycle in range(part.cycles.start + part.shift)]
    lines = list(Lines(actions, lambda node, buffer: names[node, buffer],
                       lambda it: frames.claims.get((it.node, it.number)), before).all())
    count = sum(it.count for it in lines) + 2
    texts = [f"frscenario {NEWEST}", f"# {run_line(part.shift, part.cycles, part.run)}", *(it.text for it in lines)]
    text = "".join(f"{it}\n" for it in [*texts, "end"])
    if max(count, len(texts) + 1) > MOST_LINES or len(text.encode()) > MOST_BYTES:
        raise Stop(REFUSED, f"the replay of {counted(len(part.cycles), 'cycle')} would have {count} lines and "
                            f"{len(text.encode())} bytes, and a scenario has at most {MOST_LINES} lines and "
                            f"{MOST_BYTES} bytes; {CHOOSE}")
    return text


def replay(inputs: Inputs, given: argparse.Namespace, listened: Listened, file: str) -> tuple[str, list[str], bool]:
    """Returns the scenario of a recording, notes on it, and whether its run gives all frames back."""
    text_file, frames = frames_in(inputs)
    with open(file, "rb") as source:
        heard = list(listened.heard(source))
    windows = Placing(frames.cluster, heard, inputs.network.macrotick).windows
    part = Part(listened, windows, given.cycles)
    its = frames.cluster.parameters
    actions = Sending(frames.cluster, Senders(frames.cluster, text_file), windows, part.shift, part.cycles).actions
    text = text_of(inputs, frames, actions, part)
    data, has_room = bus_of(inputs, text, part.run)
    found = in_order(differences(Given(its, data), windows, its, part.shift, part.cycles))
    left = [it for it in windows.left if it[1] is None or given.cycles is None or it[1] in part.cycles]
    notes = [run_line(part.shift, part.cycles, part.run), *recording_lines(listened.counts)]
    if not has_room:
        notes.append(f"the nodes have no room for the journals of {part.run} cycles: run it with --endless")
    notes += [*left_lines(left), *difference_lines(found, actions.whys, part.shift)]
    return text, notes, not found and not left


def lasting_recording(given: argparse.Namespace, files: ExitStack) -> str:
    """Returns a name under which the recording can be read twice, also if it is a pipe."""
    if given.recording == STANDARD_INPUT:
        source_of(given, files)
        return lasting_file("/dev/stdin", files)
    spare([("the recording", given.recording)])
    return lasting_file(given.recording, files)


def done(given: argparse.Namespace) -> int:
    """Prints the replay of a recording, and returns the status."""
    with ExitStack() as files:
        file = lasting_recording(given, files)
        # `fr_monitor` judges the whole recording, with all findings.
        words = argparse.Namespace(**{**vars(given), "findings": MOST_NUMBER, "channel": None, "whole": False,
                                      "times": False, "macrotick": None})
        with opened(given.cluster) as inputs:
            inputs.of_cluster("fr_bench", "check")
            listened = Listened(inputs.network)
            status, told = judged(inputs, words, recording_of(file, files), listened.add, "--frames")
            tell(told)
            if status == REFUSED and not listened.found.frames:
                return REFUSED
            text, notes, is_whole = replay(inputs, given, listened, file)
            write(sys.stdout, [text])
            for note in notes:
                pass_on(f"{COMMAND}: {visible(note)}")
    return REFUSED if status == REFUSED else FINE if is_whole else FOUND


def main(words: list[str]) -> int:
    """Does the command, and returns the status."""
    def work() -> int:
        with breaking_off():
            return done(arguments().parse_args(words))
    return status_of(COMMAND, work)
