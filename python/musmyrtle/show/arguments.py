"""The arguments of a command as its parser has them, for completion and the man page."""
import argparse
from collections.abc import Iterator
from dataclasses import dataclass

FILES = ("FILE", "CLUSTER", "SCENARIO", "TABLE", "RECORDING")
"""The words for values that are names of files."""


@dataclass(frozen=True)
class Argument:
    """An argument: its options, or none if it stands alone, its value, the known values, and its help."""

    options: tuple[str, ...]
    value: str | None
    choices: tuple[str, ...]
    help: str

    @property
    def is_file(self) -> bool:
        """Returns whether the value is the name of a file."""
        return self.value in FILES

    @property
    def values(self) -> list[str]:
        """Returns the words for the values, each of which is an argument of its own."""
        return self.value.split(" ") if self.value else ["word"] if self.choices else []

    @property
    def spelled(self) -> str:
        """Returns the argument as `--sshlogin HOST, -S HOST`, or `CLUSTER`."""
        value = self.value or "|".join(self.choices)
        back = f" {value}" if value else ""
        return ", ".join(f"{it}{back}" for it in self.options) or value


def arguments_of(parser: argparse.ArgumentParser) -> Iterator[Argument]:
    """Yields the arguments of a parser, in their order."""
    for action in parser._actions:
        takes_value = action.nargs != 0
        value = " ".join(action.metavar) if isinstance(action.metavar, tuple) else action.metavar
        if takes_value and value is None and not action.choices:
            value = action.dest.upper()
        choices = tuple(map(str, action.choices or ()))
        text = " ".join((action.help or "").split()).replace("%%", "%")
        yield Argument(tuple(action.option_strings), value if takes_value else None, choices, text)
