"""Output files of a command: none of its inputs, and written whole or not at all."""
import os
import shutil
import stat
import tempfile
from contextlib import suppress
from pathlib import Path

from musmyrtle.spared import Output, clash


class Unusable(Exception):
    """A file or a folder can't be used. The message names it and has the reason."""


def unusable(name: str, error: OSError) -> Unusable:
    return Unusable(f"{name}: {error.strerror or error}")


def spare_inputs(outputs: dict[str, str], inputs: list[tuple[str, str]]) -> None:
    """Raises `Unusable` if an output is the file of an input or of another output.

    The outputs are given by their options, and the inputs by their kinds. Another name, a symbolic or a hard link
    doesn't hide it.
    """
    named = [Output(file, f"{option} {file}", f"the file of {option}") for option, file in outputs.items()]
    found = clash(named, inputs)
    # The shell has opened these two, which may be one file.
    for number, stream in ((1, "standard output"), (2, "standard error")):
        found = found or clash([Output(f"/dev/fd/{number}", stream, "")] if is_file(number) else [],
                               [*inputs, *((it.what, it.file) for it in named)])
    if found:
        raise Unusable(found)


def is_file(number: int) -> bool:
    """Returns whether a descriptor is a regular file."""
    try:
        return stat.S_ISREG(os.fstat(number).st_mode)
    except OSError:
        return False


def write_file(file: Path, data: bytes) -> None:
    """Writes a file of the temporary folder. Raises `Unusable`."""
    try:
        file.write_bytes(data)
    except OSError as error:
        raise unusable(f"the temporary folder {file.parent} can't be written", error) from None


def try_file(name: str) -> None:
    """Raises `OSError` if a file can't be written, before the work whose result it gets. The trial leaves no file."""
    path = Path(name)
    if not path.exists():
        tempfile.TemporaryFile(dir=path.parent).close()
    elif path.is_file() or path.is_dir():
        # A pipe isn't opened here, since its reader would take that for the whole file.
        open(path, "ab").close()


def replace_file(name: str, data: bytes) -> None:
    """Writes a file beside the named one and puts it in its place, so that a failure leaves the old file whole.

    Anything but a regular file, such as a pipe, is written directly.
    """
    file = Path(os.path.realpath(name))
    if os.path.exists(name) and not (os.path.isfile(name) and os.access(file.parent, os.W_OK)):
        Path(name).write_bytes(data)
        return
    beside = file.with_name(f".musmyrtle-{os.getpid()}")
    try:
        beside.write_bytes(data)
        if file.exists():
            shutil.copymode(file, beside)
        os.replace(beside, file)
    except BaseException:
        with suppress(OSError):
            beside.unlink()
        raise
