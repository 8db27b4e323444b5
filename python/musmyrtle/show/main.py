"""The command `musmyrtle`: finds the command of its first word, and does it."""
import argparse
import os
import sys
from collections.abc import Callable, Iterator
from contextlib import suppress
from textwrap import fill

from musmyrtle.ending import FINE, status_of
from musmyrtle.findings import nearest
from musmyrtle.lint.command import USAGE, Parser
from musmyrtle.output import Stop, write
from musmyrtle.program import VARIABLES, places
from musmyrtle.show.commands import COMMANDS, RUN_EXAMPLE, Command
from musmyrtle.show.completion import bash, first_line, zsh
from musmyrtle.show.engines import COMMAND
from musmyrtle.show.manual import manual
from musmyrtle.version import version
from musmyrtle.visible import cut, visible

SHELLS = {"bash": bash, "zsh": zsh}
HELP, VERSION = ("help", "--help", "-h"), ("--version", "-V")
WIDTH = 110
OF_PROGRAMS = {
    "fr_bench": ("audit", "midpoint"),
    "fr_view": ("schedule", "links", "capture", "frames", "fifo", "why", "matrix", "trace", "outcome", "answers",
                "record", "windows", "reasons", "origins", "received", "bus"),
}
"""The commands of the programs that this command doesn't have."""


def texts(name: str, purpose: str, example: str, adding: Callable[[argparse.ArgumentParser], None],
          text: Callable[[argparse.Namespace], str]) -> Command:
    """Returns a command that prints a text."""
    def parser() -> argparse.ArgumentParser:
        made = Parser(prog=f"{COMMAND} {name}", description=purpose, epilog=f"example: {COMMAND} {example}",
                      allow_abbrev=False)
        adding(made)
        return made

    def main(words: list[str]) -> int:
        return printed(text(parser().parse_args(words)))
    return Command(name, purpose, (example,), parser, main)


def printed(text: str) -> int:
    """Writes a text to standard output, and returns the status."""
    with suppress(BrokenPipeError):
        write(sys.stdout, [text])
    return FINE


def add_shell(parser: argparse.ArgumentParser) -> None:
    """Adds the word for the shell."""
    parser.add_argument("shell", choices=tuple(SHELLS), help="the shell for which the script is")


EVERY: tuple[Command, ...] = (
    *COMMANDS,
    texts("completion", "Prints the script that completes words of this command in a shell.", "completion bash",
          add_shell, lambda given: SHELLS[given.shell](EVERY)),
    texts("man", "Prints the man page.", "man > musmyrtle.1", lambda _: None, lambda _: manual(EVERY)),
)


def overview() -> Iterator[str]:
    """Yields the lines of the help."""
    yield f"usage: {COMMAND} COMMAND [ARGUMENT ..]\n\ncommands:\n"
    width = max(len(it.name) for it in EVERY)
    for it in EVERY:
        yield fill(first_line(it.purpose), WIDTH, initial_indent=f"  {it.name:{width}}  ",
                   subsequent_indent=" " * (width + 4)) + "\n"
    yield f"\n`{COMMAND} COMMAND --help` describes the arguments of a command, with examples.\n"
    yield f"`{COMMAND} --version` prints the version.\n\nexample: {COMMAND} {RUN_EXAMPLE}\n\n"
    yield "The programs are looked for in this order:\n"
    for name in VARIABLES:
        yield f"  {name}: {visible(places(name))}\n"


def done(words: list[str]) -> int:
    """Does the command of some words, and returns the status."""
    if not words or words[0] in HELP and len(words) == 1:
        return printed("".join(overview()))
    if words[0] in VERSION:
        if len(words) > 1:
            raise Stop(USAGE, f"{words[0]} stands alone; {COMMAND} COMMAND --help describes a command")
        return printed(f"{COMMAND} {version()}\n")
    if words[0] in HELP:
        words = [words[1], "--help"]
    for command in EVERY:
        if command.name == words[0]:
            return command.main(words[1:])
    raise Stop(USAGE, no_command(words[0]))


def no_command(word: str) -> str:
    """Returns why a word is no command, and what to write."""
    if os.path.isfile(word):
        return f"the first word must be a command, not the file {cut(word)}: {COMMAND} lint {cut(word)}"
    for program in ("fr_bench", "fr_view"):
        if word in OF_PROGRAMS[program]:
            return f"{word} is a command of ./{program}: ./{program} {word}"
    names = [it.name for it in EVERY]
    meant = nearest(word, [*names, *HELP, *VERSION])
    if word.startswith("-") and not meant:
        return f"the first word must be a command, not the option {cut(word)}; the commands are {', '.join(names)}"
    more = f"did you mean {meant}?" if meant else f"the commands are {', '.join(names)}"
    return f"there is no command {cut(word) or 'without a name'}; {more}"


def main(words: list[str] | None = None) -> int:
    """Does the command of these words, or of those of the process. Returns the status."""
    return status_of(COMMAND, lambda: done(sys.argv[1:] if words is None else words))


if __name__ == "__main__":
    sys.exit(main())
