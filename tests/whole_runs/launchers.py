"""The launchers at the top, over small repositories whose programs are shell scripts."""
import contextlib
import hashlib
import os
import pty
import re
import shutil
import signal
import subprocess
import time
from collections.abc import Callable, Iterator, Sequence
from pathlib import Path

from .runner import SECONDS, Runs

TOP = Path(__file__).resolve().parent.parent.parent
RIGHT = "#!/bin/sh\necho right\n"
WRONG = "#!/bin/sh\necho wrong\n"
LATER = 4_000_000_000
"""A time in the future, in seconds since 1970."""
CAUGHT = "#!/bin/sh\ntrap 'echo caught; exit 5' TERM\necho ready\nwhile :; do sleep 0.02; done\n"
KILLED = "#!/bin/sh\necho ready\nwhile :; do sleep 0.02; done\n"
READING = "#!/bin/sh\necho $$\nread -r line\necho \"$line\"\nexit 7\n"
"""A program that prints its process ID, and ends once it has read a line."""
SHOWS_CORES = "#!/bin/sh\ngrep Cpus_allowed_list /proc/self/status\n"
SHOWS_SLICE = "#!/bin/sh\nawk '/^se.slice/ {print $3}' /proc/$$/sched\nnice\n"
"""A program that prints the length of its slices in nanoseconds, if the system has it, and its nice value."""
LINUX_WITH_SLICES = (6, 12)
LOOP = ["sh", "-c", "while :; do :; done"]
A_RUN = ["run", "crates.txt", "crates.txt", "--cycles", "1"]
SHELLS = ["dash"], ["bash", "--posix"]
"""Shells that systems have as `sh`."""
NO_KIT = "/usr/bin:/bin"
"""A search path without a kit, so that nothing is built."""


def digest(data: bytes) -> str:
    return hashlib.sha256(data).hexdigest()


LAUNCHER_FILES = ("fr_bench", "fr_view", "fr_world", "fr_monitor", "python/musmyrtle/VERSION", "tools/launch",
                  "tools/launch_anew", "tools/identities.sh", "tools/digests.bash", "tools/told",
                  "tools/words.sh", "tools/busy.sh", "tools/help.sh", "tools/explained.sh",
                  "tools/help/fr_bench", "tools/help/fr_view", "tools/help/fr_world", "tools/help/fr_monitor")


class Checkout:
    """A repository with one source file and some programs, and the real launchers."""

    def __init__(self, path: Path, program: str = RIGHT) -> None:
        self.prepare(path)
        self.ship(path / "dist", program)

    @classmethod
    def of(cls, path: Path, programs: dict[str, bytes]) -> "Checkout":
        """Returns a repository with these programs."""
        made = object.__new__(cls)
        made.prepare(path)
        made.ship_all(path / "dist", programs)
        return made

    def prepare(self, path: Path) -> None:
        self.path = path
        for folder in ("src", "specs", "proofs"):
            (path / "crates/fr_bench" / folder).mkdir(parents=True)
        (path / "crates/fr_bench/src/main.rt").write_text("source\n")
        (path / "crates.txt").write_text("fr_bench:\n")
        (path / "HANDLES").write_text("none\n")
        for name in LAUNCHER_FILES:
            self.copy(name)

    def copy(self, name: str) -> None:
        (self.path / name).parent.mkdir(parents=True, exist_ok=True)
        (self.path / name).write_bytes((TOP / name).read_bytes())
        (self.path / name).chmod(0o755)

    def sources(self) -> str:
        """Returns the digest of all sources, as dist/README.md computes it."""
        command = ("find crates.txt HANDLES crates/*/{src,specs,proofs} -type f -print0 | LC_ALL=C sort -z |"
                   " xargs -0 sha256sum | sha256sum")
        told = subprocess.run(["bash", "-c", command], cwd=self.path, capture_output=True, check=True, text=True).stdout
        return told.split()[0]

    def ship(self, folder: Path, program: str) -> None:
        """Puts a program into a folder, with digests that name it."""
        self.ship_all(folder, {"fr_bench": program.encode()})

    def ship_all(self, folder: Path, programs: dict[str, bytes]) -> None:
        folder.mkdir(exist_ok=True)
        lines = ["kit none", f"sources {self.sources()}"]
        for name, data in programs.items():
            (folder / name).write_bytes(data)
            (folder / name).chmod(0o755)
            lines.append(f"{name} {digest(data)}")
        (folder / "digests").write_text("".join(f"{line}\n" for line in lines))

    def call(self, **environment: str) -> tuple[str, str, int]:
        """Returns the launcher's output in a call, and its status."""
        words = [self.path / "fr_bench", "midpoint"]
        ran = subprocess.run(words, capture_output=True, text=True, timeout=SECONDS, stdin=subprocess.DEVNULL,
                             env=os.environ | {"PATH": NO_KIT} | environment)
        return ran.stdout, ran.stderr, ran.returncode

    @property
    def note(self) -> Path:
        return self.path / "out/fr_bench.found"


RAN = "right\n", "", 0


def not_run(reason: str) -> tuple[str, str, int]:
    return "", (f"fr_bench: {reason}\n"
                "fr_bench: not built: there is no rt; put the bin folder of the Rattle kit on PATH\n"), 1


class Launchers:
    """Each case in a repository of its own."""

    def __init__(self, runs: Runs, folder: Path) -> None:
        self.runs, self.folder, self.count = runs, folder, 0

    def checkout(self, name: str = "", program: str = RIGHT) -> Checkout:
        self.count += 1
        return Checkout(self.folder / f"{self.count}{name}", program)

    def noted(self) -> Checkout:
        """Returns a repository whose program has been run, so that the next call uses the note."""
        made = self.checkout()
        self.runs.compare("a first call", (made.call(), made.note.exists()), (RAN, True))
        return made

    def all(self) -> None:
        self.plain()
        self.replacing()
        self.replaced()
        self.forged()
        self.paths()
        self.busy()
        self.slices()
        for words, is_terminal in ((["midpoint"], False), (["midpoint"], True), (["no", "command"], False)):
            self.signals(words, is_terminal)
            self.stops(words, is_terminal)
        for shell in SHELLS:
            if shutil.which(shell[0]):
                self.shell(shell)

    def plain(self) -> None:
        made = self.noted()
        self.runs.compare("a second call", made.call(), RAN)
        for name in ("lock", "noted", "folder", "found", "why", "sources"):
            made.note.unlink()
            self.runs.compare(f"a call with {name} in the environment", made.call(**{name: "7"}), RAN)
        for option in ("noglob", "noexec"):
            made.note.unlink()
            self.runs.compare(f"a call with the shell option {option}", made.call(SHELLOPTS=option), RAN)
        (made.path / "crates/fr_bench/src/more.rt").write_text("more\n")
        self.runs.compare("a call after a change of the sources", made.call(),
                          not_run("the sources aren't those that dist/fr_bench was made from"))

    def replacing(self) -> None:
        """Checks that with right words the program replaces the launcher, at the first call and later."""
        made = self.checkout(program="#!/bin/sh\necho $$\n")
        for when in ("first", "second"):
            running = subprocess.Popen([made.path / "fr_bench", "midpoint"], stdin=subprocess.DEVNULL,
                                       stdout=subprocess.PIPE, stderr=subprocess.PIPE, text=True)
            output = running.communicate(timeout=SECONDS)[0]
            self.runs.compare(f"the process of a {when} call", output, f"{running.pid}\n")

    def replaced(self) -> None:
        """Checks that another program in place of the one that is named isn't run."""
        wrong = not_run("dist/fr_bench isn't the program that dist/digests names")
        made = self.noted()
        other = made.path / "other"
        made.ship(other, RIGHT)
        (other / "fr_bench").write_text(WRONG)
        for file in (other, *other.iterdir()):
            os.utime(file, (1, 1))
        time.sleep(0.05)
        made.note.touch()
        (made.path / "dist").rename(made.path / "old")
        other.rename(made.path / "dist")
        self.runs.compare("a call after another folder was moved to dist", made.call(), wrong)
        made = self.noted()
        program = made.path / "dist/fr_bench"
        before = program.stat()
        program.write_text(WRONG)
        os.utime(program, ns=(before.st_atime_ns, before.st_mtime_ns))
        os.utime(made.note, (LATER, LATER))
        self.runs.compare("a call with a note from the future", made.call(), wrong)

    def forged(self) -> None:
        """Checks that notes that name another program aren't used."""
        made = self.noted()
        made.ship(made.path / "elsewhere", WRONG)
        for folder in ("elsewhere", "dist/../elsewhere", "/", "", str(made.path / "elsewhere")):
            # The note is spelled as the launcher spells it, so that all but the folder is right.
            words = ["sh", "-c", 'top=. name=fr_bench folder=$1; . tools/identities.sh; identities', "sh", folder]
            told = subprocess.run(words, cwd=made.path, capture_output=True, env={"PATH": NO_KIT}, timeout=SECONDS)
            made.note.write_bytes(told.stdout)
            self.runs.compare(f"a call whose note begins with {folder!r}", made.call(), RAN)

    def paths(self) -> None:
        for name in (" with spaces", " back\\slash", "\nline feed", " at the end\n", " $(echo) `*`"):
            made = self.checkout(name)
            self.runs.compare(f"a call below {name!r}", (made.call(), made.call()), (RAN, RAN))
            link = made.path / "dist" / "link"
            link.symlink_to(made.path / "fr_bench")
            ran = subprocess.run([link, "midpoint"], capture_output=True, text=True, timeout=SECONDS)
            self.runs.compare(f"a call by a link below {name!r}", (ran.stdout, ran.returncode), ("right\n", 0))

    def busy(self) -> None:
        """Beside a program, if all cores are busy, a run in threads is kept on one of them. No other command is."""
        every, made = len(os.sched_getaffinity(0)), self.checkout(program=SHOWS_CORES)
        with busy_loop():
            self.kept_cores(made, every)

    def kept_cores(self, made: Checkout, every: int) -> None:
        for case, online, failing, words, cores in (
                ("a run on busy cores", 0, [], A_RUN, 1),
                ("a run on free cores", 1_000_000, [], A_RUN, every),
                ("a run on busy cores without taskset", 0, ["taskset"], A_RUN, every),
                ("a run without a number of cores", 0, ["getconf"], A_RUN, every),
                ("another command on busy cores", 0, [], ["midpoint"], every)):
            fakes = {"getconf": f"echo {online}"} | {name: "exit 1" for name in failing}
            self.runs.compare(case, cores_of(made, words, fakes), cores)

    def slices(self) -> None:
        """Beside another program, a run in threads asks for short slices, and keeps its nice value."""
        made = self.checkout(program=SHOWS_SLICE)
        common = slice_of(made, ["midpoint"], {})
        if len(common) == 1 or linux_release() < LINUX_WITH_SLICES:
            return
        wanted = ["100000", common[1]] if shutil.which("perl", path=NO_KIT) else common
        with busy_loop():
            for case, words, fakes, printed in (
                    ("a run beside a busy loop", A_RUN, {}, wanted),
                    ("a run beside a busy loop without perl", A_RUN, {"perl": "exit 1"}, common),
                    ("another command beside a busy loop", ["midpoint"], {}, common)):
                self.runs.compare(f"slice and nice value of {case}", slice_of(made, words, fakes), printed)

    def signals(self, words: list[str], is_terminal: bool) -> None:
        """Checks that a signal to the launcher ends the program, which may catch it."""
        place = f"with {words} {'at a terminal' if is_terminal else 'without a terminal'}"
        for program, number, wanted in ((CAUGHT, signal.SIGTERM, ("caught\n", 5)),
                                        (KILLED, signal.SIGTERM, ("", -signal.SIGTERM)),
                                        (KILLED, signal.SIGINT, ("", -signal.SIGINT)),
                                        (KILLED, signal.SIGHUP, ("", -signal.SIGHUP)),
                                        (KILLED, signal.SIGALRM, ("", -signal.SIGALRM)),
                                        (KILLED, signal.SIGXCPU, ("", -signal.SIGXCPU))):
            made = self.checkout(program=program)
            self.runs.compare(f"{number.name} to the launcher {place}", ended_by(made, words, number, is_terminal),
                              wanted)

    def stops(self, words: list[str], is_terminal: bool) -> None:
        """Checks that SIGTSTP and SIGCONT reach the program, from the launcher or by a terminal to all processes."""
        place = f"with {words} {'at a terminal' if is_terminal else 'without a terminal'}"
        made = self.checkout(program=READING)
        for send, whom in ((os.kill, "the launcher"), (os.killpg, "both")):
            self.runs.compare(f"SIGTSTP and SIGCONT to {whom} {place}",
                              stopped_by(made, [made.path / "fr_bench", *words], send, is_terminal),
                              ("stopped", "going on", "end\n", 7))

    def shell(self, shell: list[str]) -> None:
        """Checks tools/told in a shell that isn't `sh` here."""
        place = f"to tools/told in {' '.join(shell)}"
        made = self.checkout(program=READING)
        told = [*shell, made.path / "tools/told", "fr_bench", made.path / "dist/fr_bench"]
        self.runs.compare(f"SIGTSTP and SIGCONT {place}", stopped_by(made, told, os.kill, False),
                          ("stopped", "going on", "end\n", 7))
        slow = made.path / "tools/slow"
        slow.write_text((TOP / "tools/told").read_text().replace("\nrunning=$!\n", "\nsleep 0.2\nrunning=$!\n"))
        late = [*shell, slow, "fr_bench", made.path / "dist/fr_bench"]
        self.runs.compare(f"SIGTSTP {place} before it has the program's number", stopped_by(made, late, os.kill, False),
                          ("stopped", "going on", "end\n", 7))
        self.runs.compare(f"SIGINT that is ignored {place}", interrupted(told), ("end\n", 7))
        self.runs.compare(f"a signal {place} as the program ends", signalled(told), 7)


def printed_by(made: Checkout, words: list[str], fakes: dict[str, str], before: Sequence[str] = ()) -> list[str]:
    """Returns the words that the launcher's program prints, where these commands are fakes."""
    folder = made.path / "fakes"
    shutil.rmtree(folder, ignore_errors=True)
    folder.mkdir()
    for name, body in fakes.items():
        (folder / name).write_text(f"#!/bin/sh\n{body}\n")
        (folder / name).chmod(0o755)
    ran = subprocess.run([*before, made.path / "fr_bench", *words], cwd=made.path, capture_output=True, text=True,
                         timeout=SECONDS, stdin=subprocess.DEVNULL, check=True,
                         env=os.environ | {"PATH": f"{folder}:{NO_KIT}"})
    return ran.stdout.split()


def cores_of(made: Checkout, words: list[str], fakes: dict[str, str]) -> int:
    """Returns the number of cores on which the launcher's program may run, where these commands are fakes."""
    ranges = [part.split("-") for part in printed_by(made, words, fakes)[-1].split(",")]
    return sum(int(part[-1]) - int(part[0]) + 1 for part in ranges)


def slice_of(made: Checkout, words: list[str], fakes: dict[str, str]) -> list[str]:
    """Returns the length of slices of the launcher's program, if the system has it, and its nice value."""
    return printed_by(made, words, fakes, ["nice", "-n", "3"])


@contextlib.contextmanager
def busy_loop() -> Iterator[None]:
    """Runs a busy loop while the block runs."""
    with subprocess.Popen(LOOP) as loop:
        try:
            yield
        finally:
            loop.kill()


def linux_release() -> tuple[int, ...]:
    """Returns the first two numbers of the system's release."""
    return tuple(int(part) for part in re.findall("[0-9]+", os.uname().release)[:2])


def state_of(process: int) -> str:
    """Returns the state of a process, as Linux has it: `T` if it is stopped."""
    return Path(f"/proc/{process}/stat").read_text().rpartition(")")[2].split()[0]


def ticks_of(process: int) -> int:
    """Returns the processor time of a process, in hundredths of a second."""
    return sum(map(int, Path(f"/proc/{process}/stat").read_text().rpartition(")")[2].split()[11:13]))


def wait_until(processes: set[int], *states: str) -> bool:
    end = time.monotonic() + SECONDS
    while any(state_of(it) not in states for it in processes):
        if time.monotonic() > end:
            return False
        time.sleep(0.005)
    return True


def stopped_by(made: Checkout, words: list[str | Path], send: Callable[[int, int], None],
               is_terminal: bool) -> tuple[str, str, str, int]:
    """Returns the effects of SIGTSTP and then of SIGCONT, and how the program ends after that."""
    ours, theirs = pty.openpty() if is_terminal else os.pipe()
    # A process group whose parent is in another session is never stopped by SIGTSTP.
    running = subprocess.Popen(words, stdin=subprocess.PIPE, stdout=subprocess.PIPE, stderr=theirs, text=True,
                               process_group=0)
    os.close(theirs)
    try:
        assert running.stdout is not None
        both = {running.pid, int(running.stdout.readline())}
        send(running.pid, signal.SIGTSTP)
        stopped = "stopped" if wait_until(both, "T") else f"{[state_of(it) for it in both]}"
        send(running.pid, signal.SIGCONT)
        going = "going on" if wait_until(both, "S", "R") else f"{[state_of(it) for it in both]}"
        before = ticks_of(running.pid)
        time.sleep(0.3)
        if ticks_of(running.pid) > before + 10:
            going = "the launcher waits in a busy loop"
        return stopped, going, running.communicate("end\n", timeout=SECONDS)[0], running.returncode
    except subprocess.TimeoutExpired:
        os.killpg(running.pid, signal.SIGKILL)
        return stopped, going, "the program goes on", running.wait(SECONDS)
    finally:
        running.kill()
        os.close(ours)


def interrupted(words: list[str | Path]) -> tuple[str, int]:
    """Returns the effect of SIGINT to all processes, if that was ignored before the launcher was started."""
    with_ignored = ["env", "--ignore-signal=INT", *words]
    with subprocess.Popen(with_ignored, stdin=subprocess.PIPE, stdout=subprocess.PIPE, stderr=subprocess.DEVNULL,
                          text=True, process_group=0) as running:
        assert running.stdout is not None
        running.stdout.readline()
        os.killpg(running.pid, signal.SIGINT)
        return running.communicate("end\n", timeout=SECONDS)[0], running.returncode


def signalled(words: list[str | Path]) -> int:
    """Returns how the launcher ends if a signal for it and the end of the program come at once."""
    with subprocess.Popen(words, stdin=subprocess.PIPE, stdout=subprocess.PIPE, stderr=subprocess.DEVNULL, text=True,
                          process_group=0) as running:
        assert running.stdin is not None and running.stdout is not None
        program = int(running.stdout.readline())
        running.send_signal(signal.SIGSTOP)
        wait_until({running.pid}, "T")
        running.stdin.write("end\n")
        running.stdin.flush()
        wait_until({program}, "Z")
        running.send_signal(signal.SIGUSR1)
        running.send_signal(signal.SIGCONT)
        return running.wait(SECONDS)


def ended_by(made: Checkout, words: list[str], number: signal.Signals, is_terminal: bool) -> tuple[str, int]:
    """Returns the program's output after a signal to the launcher, and how the launcher ended."""
    ours, theirs = pty.openpty() if is_terminal else os.pipe()
    running = subprocess.Popen([made.path / "fr_bench", *words], stdin=subprocess.DEVNULL, stdout=subprocess.PIPE,
                               stderr=theirs, text=True, start_new_session=True)
    os.close(theirs)
    try:
        assert running.stdout is not None
        running.stdout.readline()
        os.kill(running.pid, number)
        # Standard output ends only once the program has ended.
        return running.communicate(timeout=SECONDS)[0], running.returncode
    except subprocess.TimeoutExpired:
        os.killpg(running.pid, signal.SIGKILL)
        return "the program goes on", running.wait(SECONDS)
    finally:
        running.kill()
        os.close(ours)
