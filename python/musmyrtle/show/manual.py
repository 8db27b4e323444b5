"""The man page, made from the table of commands."""
from collections.abc import Iterator, Sequence

from musmyrtle.program import VARIABLES
from musmyrtle.show.arguments import arguments_of
from musmyrtle.show.commands import Command
from musmyrtle.show.engines import COMMAND
from musmyrtle.version import version

ABOUT = f"""Runs FlexRay 2.1 clusters before there is hardware, and shows what came of them. All facts come from the
programs fr_bench, fr_view, fr_world and fr_monitor. {COMMAND} gives them names and microseconds."""
STATUSES = (
    ("0", "it is done; also if the reader of the output ends early"),
    ("1", "the cluster file, the scenario, the trace or the run is refused"),
    ("2", "the words are no command, a program can't be run or fails, or the output can't be written"),
    ("3", "the run missed expectations of the scenario; faults: a fault costs one of --fail-on; monitor: there is a "
          "finding; diff: something differs"),
    ("4", "lint: there are warnings, with --strict; faults: a run was refused or has no answer"),
    ("129, 130, 143", "SIGHUP, SIGINT or SIGTERM broke it off"),
)


def escaped(text: str) -> str:
    """Returns a text in which `man` reads no request and no escape."""
    text = text.replace("\\", "\\e").replace("-", "\\-")
    return "\n".join(f"\\&{line}" if line.startswith((".", "'")) else line for line in text.split("\n"))


def manual(commands: Sequence[Command]) -> str:
    """Returns the page in the format of `man`."""
    return "\n".join([
        f'.TH {COMMAND.upper()} 1 "" "{COMMAND} {escaped(version())}"',
        ".SH NAME", f"{COMMAND} \\- {escaped('shows FlexRay clusters, runs and faults')}",
        ".SH SYNOPSIS", f".B {COMMAND}", escaped("COMMAND [ARGUMENT ..]"), ".br", f".B {COMMAND}",
        escaped("COMMAND --help"), ".SH DESCRIPTION", escaped(ABOUT), ".SH COMMANDS",
        *(line for it in commands for line in command_lines(it)),
        ".SH EXIT STATUS", *(line for status, text in STATUSES for line in tagged(status, text)),
        ".SH ENVIRONMENT", *(line for name, variable in VARIABLES.items()
                             for line in tagged(variable, f"the program {name} to run")),
        *tagged("NO_COLOR", "if it is set and not empty, terminals get no colours"), "",
    ])


def tagged(tag: str, text: str) -> list[str]:
    """Returns the lines of a paragraph with a tag."""
    return [".TP", f".B {escaped(tag)}", escaped(text)]


def command_lines(command: Command) -> Iterator[str]:
    """Yields the lines of one command: its purpose, arguments and examples."""
    yield from (f'.SS "{command.name}"', escaped(command.purpose))
    for argument in arguments_of(command.parser()):
        yield from tagged(argument.spelled, argument.help or "the same")
    for example in command.examples:
        yield from (".PP", "Example:", f".B {escaped(f'{COMMAND} {example}')}")
