"""Runs on many machines, by GNU `parallel`.

`parallel` sends the files of `fault_job` by `rsync`, and runs the jobs by `ssh` or on this machine. The folder of these
files has the same name on each machine, so that one that shares the temporary folder of this machine, or its file
system, uses the files themselves. The campaign reads none of them, and they are gone from all machines at the end.
"""
import os
import re
import shlex
import shutil
import subprocess
from collections.abc import Generator
from contextlib import suppress
from dataclasses import dataclass
from pathlib import Path

from musmyrtle.faults.answers import Answer
from musmyrtle.faults.job import SENT, Sent, prepare, read_answers
from musmyrtle.faults.listing import SingleFault
from musmyrtle.faults.runs import Folder
from musmyrtle.faults.whole_files import write_file

TRIES = 4
"""The number of machines that are given a job at most, as long as it fails."""
SSH_OPTIONS = "-o BatchMode=yes -o ConnectTimeout=10 -o ServerAliveInterval=5 -o ServerAliveCountMax=3"
"""The options that give up a dead machine after some 15 seconds."""
THIS_MACHINE = re.compile(r"--sshlogin|([0-9]+/)?:")
TIDY_SECONDS = 15
"""The seconds for the removal of the files from all machines."""


@dataclass(frozen=True)
class Hosts:
    """Options of `parallel` such as `--sshlogin 4/host` and `--sshloginfile FILE`, and the jobs at once on each
    machine."""

    words: tuple[str, ...] = ()
    jobs: int | None = None

    @property
    def is_far(self) -> bool:
        """Returns whether one of the words may name another machine, so that files have to be sent."""
        return any(not THIS_MACHINE.fullmatch(it) for it in self.words)


class NoParallel(Exception):
    """`parallel` can't be started."""


def command(sent: Sent, hosts: Hosts) -> list[str]:
    """Returns the command that gives the jobs to the machines."""
    files = ["--cleanup", *(word for name in SENT for word in ("--basefile", name))] if hosts.is_far else []
    jobs = [] if hosts.jobs is None else ["--jobs", str(hosts.jobs)]
    return ["parallel", "--will-cite", "--retries", str(TRIES), *jobs, *hosts.words, *files, "--workdir",
            str(sent.folder), "--colsep", " ", sent.command]


def answers(folder: Folder, program: str, faults: list[SingleFault],
            hosts: Hosts) -> Generator[tuple[SingleFault, Answer], None, None]:
    """Yields each fault with the answer of its run, in the order of answers.

    A fault whose run has no answer is left out.
    """
    sent = prepare(folder, program, faults)
    arguments = folder.path / "arguments"
    write_file(arguments, "".join(f"{it}\n" for it in sent.arguments).encode())
    environment = surroundings(folder.path)
    try:
        with open(arguments) as given, folder.children.started(
                command(sent, hosts), stdin=given, stdout=subprocess.PIPE, cwd=sent.folder, env=environment,
                # `parallel` and its tools expect the usual signals.
                restore_signals=True) as running:
            for number, answer in read_answers(running.stdout or (), sent):
                yield faults[number], answer
    except FileNotFoundError as error:
        raise NoParallel(f"`parallel` can't be started: {error.strerror}") from None
    finally:
        tidy(sent, hosts, environment)


def surroundings(folder: Path) -> dict[str, str]:
    """Returns the environment of `parallel`.

    The command `ssh` has the options above in it, also where it stands in the name of a machine. The shell of the jobs
    is `sh`, whatever shell the user has.
    """
    tools = folder / "tools"
    tools.mkdir()
    ssh = shutil.which("ssh")
    if ssh:
        write_file(tools / "ssh", f'#!/bin/sh\nexec {shlex.quote(ssh)} {SSH_OPTIONS} "$@"\n'.encode())
        (tools / "ssh").chmod(0o755)
    path = os.environ.get("PATH", os.defpath)
    return {**os.environ, "PATH": f"{tools}{os.pathsep}{path}", "PARALLEL_SHELL": "/bin/sh"}


def tidy(sent: Sent, hosts: Hosts, environment: dict[str, str]) -> None:
    """Removes the files from all machines that still answer, also those of jobs that were broken off."""
    shutil.rmtree(sent.folder, ignore_errors=True)
    if not hosts.is_far:
        return
    folders = shlex.quote(str(sent.folder)), shlex.quote(str(sent.folder.parent))
    words = ["parallel", "--will-cite", "--nonall", *hosts.words,
             "rm -rf -- {}; rmdir -- {} 2>/dev/null; :".format(*folders)]
    quiet = subprocess.DEVNULL
    with suppress(OSError, subprocess.TimeoutExpired):
        subprocess.run(words, stdin=quiet, stdout=quiet, stderr=quiet, env=environment, timeout=TIDY_SECONDS,
                       process_group=0)
