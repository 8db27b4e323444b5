"""The built program with a library in front of the C library, which the machine's C compiler makes."""
import os
import shutil
import subprocess
from pathlib import Path

from .runner import EXAMPLES

SECONDS = 60

MARK = r"""
#define _GNU_SOURCE
#include <errno.h>
#include <fcntl.h>
#include <stdatomic.h>
#include <stdlib.h>
#include <sys/syscall.h>
#include <unistd.h>

/* Returns whether this is the N-th call of the kind in the environment. A file marks that it came. */
static int is_met(atomic_long *made, const char *kind) {
    const char *wanted = getenv(kind);
    if (!wanted || atomic_fetch_add(made, 1) + 1 != atol(wanted))
        return 0;
    syscall(SYS_close, syscall(SYS_openat, AT_FDCWD, getenv("MARK_OF_THE_CALL"), O_CREAT | O_WRONLY, 0600));
    return 1;
}
"""


class NoRun(Exception):
    pass


class Preloaded:
    """The program, and the library: the functions of SOURCE replace those of the C library."""

    def __init__(self, program, source, folder, built_by="tools/build"):
        self.program, self.source, self.folder, self.built_by = program, source, Path(folder), built_by
        self.library = self.folder / "preloaded.so"

    def make(self):
        """Makes the library, and returns whether there is a compiler."""
        compiler = shutil.which("cc") or shutil.which("clang") or shutil.which("gcc")
        if compiler is None:
            return False
        words = [compiler, "-shared", "-fPIC", "-O1", "-xc", "-", "-o", str(self.library), "-ldl"]
        made = subprocess.run(words, input=MARK + self.source, capture_output=True, text=True)
        if made.returncode != 0 or not self.program.exists():
            raise NoRun(made.stderr or f"{self.program} isn't there: build it by {self.built_by}")
        return True

    def run(self, command, kind=None, number=0, **more):
        """Returns the command's answer where its N-th call of this kind fails, and whether it came so far."""
        words, given = command
        mark = self.folder / "-".join([kind or "whole", str(number), Path(words[0]).name, *more])
        added = {"LD_PRELOAD": str(self.library), "MARK_OF_THE_CALL": str(mark), **more}
        added |= {kind: str(number)} if kind else {}
        try:
            ran = subprocess.run([self.program, *words], input=given, capture_output=True, timeout=SECONDS,
                                 env=os.environ | added)
        except subprocess.TimeoutExpired:
            return "it doesn't end", True
        met = mark.exists()
        mark.unlink(missing_ok=True)
        return (ran.returncode, ran.stdout, ran.stderr), met


FOLDER = EXAMPLES / "three-nodes"
WITH_FILES = "session with files"
FILE_REFUSALS = b"refused Record\n", b"refused Capture\n"
CLUSTER = str(FOLDER / "cluster.toml")


def trace():
    return (EXAMPLES / "receive-buffer" / "trace").read_bytes()


def commands():
    """Returns each command of fr_bench with an example, as its words and its standard input."""
    return {
        "audit": (["audit"], trace()),
        "check": (["check", CLUSTER], b""),
        "plan": (["plan", CLUSTER], b""),
        "midpoint": (["midpoint"], b"3 -1 4 1 -5 9 2 -6\n"),
        "run": (["run", CLUSTER, str(FOLDER / "scenario"), "--cycles", "4"], b""),
        "run, expected": (["run", CLUSTER, str(FOLDER / "expectations"), "--cycles", "4"], b""),
    }


def views():
    """Returns the same for fr_view."""
    run = [CLUSTER, str(FOLDER / "scenario"), "--cycles", "4"]
    return {
        "schedule": (["schedule", CLUSTER], b""),
        "latency": (["latency", CLUSTER], b""),
        "links": (["links", CLUSTER], b""),
        "capture": (["capture"], trace()),
        "frames": (["frames"], trace()),
        "frames until the fault": (["frames", "--until-fault"], trace()[:-4]),
        "why": (["why"], trace().replace(b"2:A", b"2:B")),
        "fifo": (["fifo"], (EXAMPLES / "several-buffers" / "trace").read_bytes()),
        "outcome": (["outcome", *run], b""),
        "outcome, expected": (["outcome", CLUSTER, str(FOLDER / "expectations"), "--cycles", "4"], b""),
        "answers": (["answers", *run], b""),
        "commits": (["commits", *run], b""),
        "record": (["record", *run], b""),
        "windows": (["windows", *run], b""),
        "reasons": (["reasons", *run], b""),
        "origins": (["origins", *run], b""),
        "received": (["received", *run], b""),
        "bus": (["bus", *run], b""),
        "matrix": (["matrix", *run], b""),
        "trace": (["trace", "0", *run], b""),
        "outcome, endless": (["outcome", *run, "--endless"], b""),
        "windows, endless": (["windows", *run, "--endless"], b""),
        "reasons, endless": (["reasons", *run, "--endless"], b""),
        "origins, endless": (["origins", *run, "--endless"], b""),
        "received, endless": (["received", *run, "--endless"], b""),
        "answers, endless": (["answers", *run, "--endless"], b""),
        "commits, endless": (["commits", *run, "--endless"], b""),
        "record, endless": (["record", *run, "--endless"], b""),
        "bus, endless": (["bus", *run, "--endless"], b""),
    }


def sessions():
    """Returns the same for fr_world: a request of each kind that takes memory."""
    asked = ["commit 0 0 0 x0a0b", "window", "window", "babble 2 A x00", "mute 1 A * s*", "window", "run 2", "now",
             "report 1", "receive 1 0 1", "trace 0", "record 1"]
    given = "".join(f"{line}\n" for line in asked).encode()
    files = ["--record", os.devnull, "--capture", os.devnull]
    return {"session": ([CLUSTER, "--cycles", "4"], given), WITH_FILES: ([CLUSTER, "--endless", *files], given),
            "session with kept windows": ([CLUSTER, "--endless", "--keep", "2"], given)}


def recordings():
    """Returns the same for fr_monitor: a recording with findings."""
    return {"recording": ([CLUSTER, "--whole"], (EXAMPLES / "recordings" / "disturbed.pcap").read_bytes())}


def replies(output):
    """Returns the replies of a session, each with the lines of its block.

    Returns None where the first line or a reply isn't whole.
    """
    lines = output.decode().split("\n")
    if lines[:1] != ["frworld 1"] or lines.pop() != "":
        return None
    found, at = [], 1
    while at < len(lines):
        count = int(lines[at].split(" ")[1]) if lines[at].startswith("lines ") else 0
        if at + count >= len(lines):
            return None
        found.append(lines[at : at + 1 + count])
        at += 1 + count
    return found
