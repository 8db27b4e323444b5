"""The exceptions of signals, and the types of their values. Host programs import them without all that reads files."""
from collections.abc import Mapping
from typing import TYPE_CHECKING, Union

from musmyrtle.findings import Finding, counted

if TYPE_CHECKING:
    from decimal import Decimal
    from fractions import Fraction

SignalValue = Union[int, float, "Fraction", "Decimal", str, bytes, None]
"""A value that is given: a physical number, the name of a raw value, bytes, or None for the invalid value."""
ReadValue = int | float | str | bytes | None
"""A value that is read."""
Raw = int | float | bytes
"""A raw value: an integer, a float of a signal with the coding float, or bytes."""
Given = Mapping[str, SignalValue]
"""Values of signals by their names."""
MOST_FAULTS = 20
"""The faults that an exception describes."""


class UnknownSignal(KeyError):
    """A frame has no signal of this name, or its payload hasn't it, or no layout of the frame is known."""

    def __str__(self) -> str:
        return str(self.args[0])


class BadValue(ValueError):
    """A signal can't have this value. The message names the signal, the value and what is allowed."""


class BadSignals(ValueError):
    """The frames or signals of a cluster file have faults. The message has the first ones, with their places."""

    def __init__(self, findings: list[Finding]) -> None:
        super().__init__(findings)
        self.findings = findings

    def __str__(self) -> str:
        lines = [f"{it.place}: {it.headline}: {it.reason}" if it.place else f"{it.headline}: {it.reason}"
                 for it in self.findings[:MOST_FAULTS]]
        more = len(self.findings) - len(lines)
        return "\n".join([*lines, *([f"and {counted(more, 'more fault')}"] if more else [])])
