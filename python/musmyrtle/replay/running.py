"""The run of a replay: the program that makes its capture."""
from tempfile import NamedTemporaryFile

from musmyrtle.ending import FINE, reason_of
from musmyrtle.output import Stop
from musmyrtle.program import Answer, no_answer
from musmyrtle.show.engines import ENDLESS, Inputs
from musmyrtle.show.monitor import refusals_of

USAGE, NO_ROOM = 2, "NoRoom"


def bus_of(inputs: Inputs, text: str, cycles: int) -> tuple[bytes, bool]:
    """Returns the capture of the run of a scenario, and whether the nodes have room for the journals of so many cycles.

    Raises `Stop` where the program gives no answer.
    """
    try:
        with NamedTemporaryFile(prefix="musmyrtle-") as file:
            file.write(text.encode())
            file.flush()
            found = captured(inputs, file.name, cycles)
            return (found, True) if found is not None else (captured(inputs, file.name, cycles, ENDLESS) or b"", False)
    except OSError as error:
        raise Stop(USAGE, f"the scenario can't be written to a temporary file: {reason_of(error)}") from None


def captured(inputs: Inputs, scenario: str, cycles: int, *more: str) -> bytes | None:
    """Returns the capture of a run, or None if the nodes have no room for their journals."""
    program = inputs.program("fr_view")
    words = ["bus", *more, "--cycles", str(cycles), "--", inputs.task.file(inputs.task.cluster), scenario]
    status, output, told = inputs.ran(program, "fr_view", words, b"")
    if status == FINE:
        return output
    lines = told.decode(errors="replace").splitlines()
    refusals = refusals_of(lines)
    if not more and any(it.startswith(NO_ROOM) for it in refusals):
        return None
    raise Stop(USAGE, no_answer(program, words, Answer(status, " ".join(refusals or lines), bool(refusals))))
