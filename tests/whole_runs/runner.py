"""Runs of the built program, and their comparison."""
import os
import socket
import subprocess
import sys
from pathlib import Path

EXAMPLES = Path(__file__).resolve().parent.parent.parent / "examples"
SECONDS = 60
WRITTEN = "written at once"


def need(*programs):
    """Ends the script if one of the programs isn't there."""
    for program in programs:
        if not os.access(program, os.X_OK):
            sys.exit(f"{program} isn't there: tools/build builds it, and --shipped takes the one of dist/")


def run(words, given=b"", output=subprocess.PIPE, closed=()):
    """Returns the program's answer to words and input: its output, its standard error and its status."""
    how = {"stdin": given} if hasattr(given, "fileno") else {"input": given}
    if closed:
        how["preexec_fn"] = lambda: [os.close(number) for number in closed]
    ran = subprocess.run(words, stdout=output, stderr=subprocess.PIPE, timeout=SECONDS, cwd=EXAMPLES, **how)
    return ran.stdout or b"", ran.stderr, ran.returncode


def refused(error):
    return b"", f"refused {error}\n".encode(), 1


USAGE = b"", b"usage\n", 2


class Folder:
    """A folder, opened as an input."""

    def __init__(self, number):
        self.number = number

    def fileno(self):
        return self.number

    def __enter__(self):
        return self

    def __exit__(self, *_):
        os.close(self.number)


class Runs:
    """The numbers of passed and failed runs so far."""

    def __init__(self, program):
        self.program, self.passed, self.failed = program, 0, 0

    def compare(self, name, got, wanted):
        if got == wanted:
            self.passed += 1
            return
        self.failed += 1
        print(f"{name}\n    wanted {wanted}\n    got    {got}")

    def check(self, name, words, wanted, **how):
        try:
            got = run([self.program, *words], **how)
        except (OSError, subprocess.TimeoutExpired) as error:
            got = str(error)
        self.compare(name, got, wanted)

    def check_once(self, name, words, wanted, given=b""):
        """Compares the same, and checks that the whole output came by one write.

        Each write to this socket is a message of its own.
        """
        ours, theirs = socket.socketpair(socket.AF_UNIX, socket.SOCK_SEQPACKET)
        ours.settimeout(SECONDS)
        with ours, theirs:
            _, errors, status = run([self.program, *words], given, output=theirs.fileno())
            theirs.close()
            text, writes = b"", 0
            while message := ours.recv(1 << 20):
                text, writes = text + message, writes + 1
        self.compare(name, ((text, errors, status), writes), (wanted, 1))
