"""The standard streams of this process, and the signals of the programs that it starts."""
import os

CLOSED_INPUT = "standard input is closed"

RESTORED = False
"""False, so that programs ignore the signals that Python ignores.

One of them is SIGXFSZ, which would end a program that writes beyond `ulimit -f`. Ignored, it lets the write fail, which
the program reports.
"""
CLOSED: set[int] = set()
"""The descriptors 0 to 2 that were closed."""


def fill_streams() -> None:
    """Opens each of the descriptors 0 to 2 that is closed, so that no file and no pipe gets its number.

    Their use still fails, also by a name such as `/dev/stdin`.
    """
    for number in (0, 1, 2):
        try:
            os.fstat(number)
        except OSError:
            # The lowest free number is this one.
            os.set_inheritable(unusable(number), True)
            CLOSED.add(number)


def unusable(number: int) -> int:
    """Opens a descriptor that can't be used as the stream of a number: a socket without a peer has no name either."""
    # Few processes have a closed stream, and each one would wait for the import.
    try:
        from socket import AF_UNIX, socket
        return socket(AF_UNIX).detach()
    except (ImportError, OSError):
        return os.open(os.devnull, os.O_RDONLY if number else os.O_WRONLY)


def is_closed_input(name: str) -> bool:
    """Returns whether a name is that of a closed standard input, as `/dev/stdin`."""
    return 0 in CLOSED and os.path.realpath(name) == os.path.realpath("/dev/stdin")


def why_unread(name: str, error: OSError) -> str:
    """Returns why a file can't be read."""
    return CLOSED_INPUT if is_closed_input(name) else error.strerror or str(error)
