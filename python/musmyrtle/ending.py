"""The end of a command: its status, and one line on standard error for each failure of the machine."""
import os
from collections.abc import Callable
from errno import ENOENT

from musmyrtle.breaking import BrokenOff, SIGNALLED, SIGNALS
from musmyrtle.output import CANNOT_BE_USED, Stop
from musmyrtle.streams import CLOSED_INPUT, fill_streams, is_closed_input

FINE = 0
OUT_OF_MEMORY = "out of memory"
NO_THREAD = "can't start new thread"
"""The message of the error that Python raises where the machine has no further thread."""
NO_FOLDER = "No usable temporary directory found in "
"""The beginning of the reason where no folder for temporary files can be used."""


def status_of(command: str, work: Callable[[], int]) -> int:
    """Does a command, and returns its status. Failures of the machine end a command here, and nowhere else."""
    try:
        fill_streams()
        return work()
    except Stop as stop:
        return stop.tell(command)
    except BrokenPipeError:
        return FINE
    except BrokenOff as signal:
        return signal.status
    except KeyboardInterrupt:
        return SIGNALLED + SIGNALS[0]
    except MemoryError:
        failure = OUT_OF_MEMORY
    except OSError as error:
        failure = reason_of(error)
    except RuntimeError as error:
        if str(error) != NO_THREAD:
            raise
        failure = "no further thread can be started"
    # Here the frames of the failure are gone, with the memory that they kept.
    return Stop(CANNOT_BE_USED, failure).tell(command)


def has_folder() -> bool:
    """Returns whether the current folder is still there."""
    try:
        os.getcwd()
    except OSError:
        return False
    return True


def reason_of(error: OSError) -> str:
    """Returns the file and the reason of a failure."""
    reason = error.strerror or str(error) or type(error).__name__
    if reason.startswith(NO_FOLDER):
        places = reason.removeprefix(NO_FOLDER).strip("[]").replace("'", "")
        return f"no folder for temporary files can be used ({places}); name one by the variable TMPDIR"
    files = [str(it) for it in (error.filename, error.filename2) if it is not None]
    if not files and error.errno == ENOENT and not has_folder():
        return "the current folder was removed; go to another one"
    reason = CLOSED_INPUT if files and is_closed_input(files[0]) else reason
    return ": ".join([" and ".join(files), reason] if files else [reason])
