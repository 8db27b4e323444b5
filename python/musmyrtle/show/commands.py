"""The one table of the commands of `musmyrtle`, from which help, completion and the man page are made."""
import argparse
import sys
from collections.abc import Callable
from dataclasses import dataclass

import musmyrtle.design.words
import musmyrtle.diff.command
import musmyrtle.faults.command
import musmyrtle.faults.options
import musmyrtle.lint.command
import musmyrtle.replay.command
from musmyrtle.breaking import breaking_off
from musmyrtle.ending import status_of
from musmyrtle.lint.command import formed, is_bold_on, printed
from musmyrtle.selections import single_slot
from musmyrtle.show import imports, monitor, options, over_time, page, signals
from musmyrtle.show.commits import commits
from musmyrtle.show.engines import COMMAND, Inputs, opened
from musmyrtle.show.facts import Facts
from musmyrtle.show.latency import latencies, latency, way
from musmyrtle.show.log import log
from musmyrtle.show.options import Words
from musmyrtle.show.parameters import check
from musmyrtle.show.payloads import with_signals
from musmyrtle.show.reads import reads
from musmyrtle.show.selection import Selection, known_buffers, known_places, numbers_of_nodes
from musmyrtle.show.senders import plan
from musmyrtle.show.summary import run
from musmyrtle.show.tables import Section, as_text

Main = Callable[[list[str]], int]
THREE, TEN = "examples/three-nodes/cluster.toml", "examples/ten-nodes/cluster.toml"
RUN = f"{THREE} examples/three-nodes/scenario --cycles 4"
RUN_EXAMPLE = f"run {RUN}"


@dataclass(frozen=True)
class Command:
    """A command: its name, purpose and examples, the parser of its words, and what does it and returns the status."""

    name: str
    purpose: str
    examples: tuple[str, ...]
    parser: Callable[[], argparse.ArgumentParser]
    main: Main


def selection_of(given: argparse.Namespace, inputs: Inputs, has_minislots: bool = False) -> Selection:
    """Returns the rows that the words select."""
    channels = None if given.channel is None else frozenset(given.channel)
    named, is_errors = getattr(given, "in_cycles", None), getattr(given, "errors", False)
    cycles = frozenset(named.numbers) if named else None
    nodes = numbers_of_nodes(given.node, inputs.network)
    buffers = known_buffers(getattr(given, "buffer", []), nodes, inputs.network)
    places = known_places(given.slot, inputs, has_minislots)
    static_slots = inputs.network.cluster.parameters.static_slots
    return Selection(nodes, places, channels, cycles, is_errors, buffers, static_slots)


def table(name: str, purpose: str, words: Words, examples: tuple[str, ...],
          sections: Callable[[Inputs, argparse.Namespace], list[Section]]) -> Command:
    """Returns a command that prints tables."""
    def parser() -> argparse.ArgumentParser:
        return options.arguments(name, purpose, words, examples)

    def main(given_words: list[str]) -> int:
        def work() -> int:
            with breaking_off():
                given = options.parsed(parser(), given_words)
                scenario = (given.scenario, given.cycles) if words.has_run else (None, None)
                with opened(given.cluster, *scenario) as inputs:
                    found = sections(inputs, given)
                    if getattr(given, "signals", False):
                        found = with_signals(inputs, found)
                    printed(formed(given, found, as_text(found, is_bold_on(sys.stdout))))
            return inputs.status
        return status_of(COMMAND, work)
    return Command(name, purpose, examples, parser, main)


def of_cluster(make: Callable[[Inputs], list[Section]]) -> Callable[[Inputs, argparse.Namespace], list[Section]]:
    """Returns the tables of a command that takes a cluster file alone."""
    return lambda inputs, _: make(inputs)


def selected(make: Callable[[Facts, Selection], list[Section]], has_minislots: bool = False
             ) -> Callable[[Inputs, argparse.Namespace], list[Section]]:
    """Returns the tables of a run, of which only some rows are selected.

    The run comes first, since only an accepted cluster has names.
    """
    def sections(inputs: Inputs, given: argparse.Namespace) -> list[Section]:
        facts = Facts(inputs)
        facts.run()
        return make(facts, selection_of(given, inputs, has_minislots))
    return sections


def guarantees(inputs: Inputs, given: argparse.Namespace) -> list[Section]:
    """Returns the tables of `latency`. The program comes first, since only an accepted cluster has names."""
    answer = latencies(inputs)
    tables = latency(inputs.network, *answer, selection_of(given, inputs))
    return tables + way(inputs, given.slot and single_slot(given.slot), given.channel)


TABLES = (
    table("check", "Prints the parameters and the nodes of a cluster file.", Words(), (f"check {THREE}",),
          of_cluster(check)),
    table("plan", "Prints who sends in which slot, who is to receive it, and when bus guardians are open.", Words(),
          (f"plan {THREE}", f"plan {THREE} --json"), of_cluster(plan)),
    table("latency", "Prints which transmit buffers the schedule guarantees, their worst latencies, and the load of\n"
          "each channel. With one slot and its channel it also prints the frames before the slot's latest start.",
          Words(has_places=True), (f"latency {TEN}", f"latency {TEN} --slot 67 --channel A"), guarantees),
    table("run", "Runs a scenario, and prints what went wrong: commits that no node received and why, receive buffers\n"
          "that hold nothing, FIFOs that overwrote frames, errors with their slots, faults without effect, and the\n"
          "expectations of the scenario that were missed.",
          Words(has_run=True), (RUN_EXAMPLE,), lambda inputs, _: run(Facts(inputs))),
    table("log", "Prints all transmissions of a run and their fates.", Words(True, True, True),
          (f"log {RUN} --slot 1 --channel B", f"log {RUN} --errors --csv"),
          selected(log, has_minislots=True)),
    table("commits", "Prints what came of each commit of a run: when it was sent, its latency and its receivers.",
          Words(True, True, True, True), (f"commits {RUN} --node 0 --in-cycles 2",), selected(commits)),
    table("reads", "Prints what tasks read and popped in a run, and what each receive FIFO holds and lost.",
          Words(True, True, True, True), (f"reads {RUN} --node 1",), selected(reads)),
)
COMMANDS = (
    Command("lint", "Explains the faults of a cluster file, a scenario or a trace.",
            musmyrtle.lint.command.EXAMPLES, musmyrtle.lint.command.arguments, musmyrtle.lint.command.main),
    Command("faults", "Runs a scenario once for each single fault, and prints what each receiver loses.",
            musmyrtle.faults.options.EXAMPLES, musmyrtle.faults.options.arguments, musmyrtle.faults.command.main),
    *TABLES,
    Command("signals", over_time.PURPOSE, over_time.EXAMPLES, over_time.arguments, over_time.main),
    Command("encode", signals.ENCODE, signals.ENCODE_EXAMPLES, signals.encode_arguments, signals.encode),
    Command("decode", signals.DECODE, signals.DECODE_EXAMPLES, signals.decode_arguments, signals.decode),
    Command("annotate", signals.ANNOTATE, signals.ANNOTATE_EXAMPLES, signals.annotate_arguments, signals.annotate),
    Command("diff", musmyrtle.diff.command.PURPOSE, musmyrtle.diff.command.EXAMPLES, musmyrtle.diff.command.arguments,
            musmyrtle.diff.command.main),
    Command("design", musmyrtle.design.words.PURPOSE, musmyrtle.design.words.EXAMPLES,
            musmyrtle.design.words.arguments, musmyrtle.design.words.main),
    Command("import", imports.PURPOSE, imports.EXAMPLES, imports.arguments, imports.main),
    Command("monitor", monitor.PURPOSE, monitor.EXAMPLES, monitor.arguments, monitor.main),
    Command("replay", musmyrtle.replay.command.PURPOSE, musmyrtle.replay.command.EXAMPLES,
            musmyrtle.replay.command.arguments, musmyrtle.replay.command.main),
    Command("page", page.PURPOSE, page.EXAMPLE, page.arguments, page.main),
)
