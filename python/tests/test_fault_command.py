"""The command `musmyrtle faults`: a failure of a file or a program is one line and a status, and no traceback."""
import contextlib
import io
import os
import resource
import signal
import subprocess
import sys
import tempfile
import time
import unittest
from pathlib import Path
from unittest.mock import patch

from musmyrtle import program
from musmyrtle.faults import played
from musmyrtle.faults.command import main
from musmyrtle.world.world_program import usual_world
from tests.campaigns import PROGRAM
from tests.two_nodes import SCENE, TWO_NODES

TOP = Path(__file__).resolve().parents[2]
FAULTS = [sys.executable, "-B", str(TOP / "musmyrtle"), "faults"]
SECONDS = 60
"""The limit for what takes a second or two."""
LONG = 600
"""The seconds that a program sleeps which has to be ended."""
FAULTY = "grep -q '^mute' \"$last\" &&"
"""The front of words for a run with a fault alone."""


class Command(unittest.TestCase):
    def setUp(self):
        folder = tempfile.TemporaryDirectory()
        self.addCleanup(folder.cleanup)
        self.folder = Path(folder.name)
        (self.folder / "temporary").mkdir()
        (self.folder / "cluster").write_text(TWO_NODES)
        (self.folder / "scenario").write_text(SCENE)

    def words(self, *more: str) -> list[str]:
        """Returns the words for two faults of node 1, and more words. Of an option that repeats, the last one counts.
        """
        files = [str(self.folder / "cluster"), str(self.folder / "scenario")]
        return [*files, "--cycles", "2", "--kinds", "mute", "--nodes", "1", "--program", str(PROGRAM), "--world",
                usual_world(), *more]

    def asked(self, *more: str) -> tuple[str, str, int]:
        """Returns the output, standard error and the status."""
        output, told = io.StringIO(), io.StringIO()
        with patch.object(tempfile, "tempdir", str(self.folder / "temporary")), \
                contextlib.redirect_stdout(output), contextlib.redirect_stderr(told):
            status = main(self.words(*more))
        self.assertEqual(os.listdir(self.folder / "temporary"), [])
        return output.getvalue(), told.getvalue(), status

    def stopped(self, told: str, status: int, *more: str) -> None:
        self.assertEqual(self.asked(*more), ("", f"musmyrtle faults: {told}\n", status))

    def program(self, does: str) -> str:
        """Returns a program that does this, and then its usual task."""
        file = self.folder / "program"
        file.write_text(f"#!/bin/sh\nfor last; do :; done\n{does}\nexec '{PROGRAM}' \"$@\"\n")
        file.chmod(0o755)
        return str(file)


class TestRuns(Command):
    def test_the_run_without_a_fault_fails(self):
        for does, told in (("kill -9 $$", "was killed: signal 9 (SIGKILL)"),
                           ("kill -11 $$", "was killed: signal 11 (SIGSEGV)"),
                           ("exit 134", "was killed: signal 6 (SIGABRT)"), ("exit 127", "has no outcome: status 127"),
                           ("exit 126", "has no outcome: status 126"),
                           ("echo 'refused Memory' >&2; exit 1", "has no outcome: refused Memory"),
                           ("echo 'refused Truncated' >&2; exit 1", "has no outcome: refused Truncated")):
            with self.subTest(does):
                self.stopped(f"the run without a fault {told}", 4, "--program", self.program(does))

    def test_it_fails_the_second_time(self):
        """The first of both runs shows whether the inputs are accepted."""
        noted = self.folder / "noted"
        does = f"if [ -e '{noted}' ]; then kill -9 $$; fi; : >'{noted}'"
        self.stopped("the run without a fault was killed: signal 9 (SIGKILL)", 4, "--program", self.program(does))

    def test_runs_without_an_answer(self):
        """They are reported with status 4, and repeated with the job log."""
        log = str(self.folder / "log")
        for does, effect in (("kill -9 $$", "killed\t1\t-\tsignal 9 (SIGKILL)"),
                             ("exit 127", "unreadable\t1\t-\tstatus 127"),
                             ("{ echo 'refused Memory' >&2; exit 1; }", "unreadable\t1\t-\trefused Memory"),
                             (f"{{ '{PROGRAM}' \"$@\" | head -n 4; exit; }}",
                              "unreadable\t1\t-\tline 5 is nothing, and `A ..` was due")):
            with self.subTest(does):
                program = self.program(f"{FAULTY} {does}")
                output, told, status = self.asked("--program", program, "--joblog", log)
                self.assertEqual((output.count(effect), status), (2, 4))
                self.assertEqual(len(Path(log).read_bytes().splitlines()), 1)
                os.unlink(log)

    def test_a_refusal_of_a_run_is_noted(self):
        log = str(self.folder / "log")
        program = self.program(f"{FAULTY} {{ echo 'refused BadFault 0' >&2; exit 1; }}")
        output, told, status = self.asked("--program", program, "--joblog", log)
        self.assertEqual((output.count("refused\t1\t-\tBadFault 0"), status), (2, 4))
        self.assertEqual(len(Path(log).read_bytes().splitlines()), 3)


class TestFiles(Command):
    def test_names_that_are_no_strings(self):
        """Such a key `name` is no name. The table is that of the cluster without such keys."""
        right = self.asked()
        (self.folder / "cluster").write_text(TWO_NODES.replace("[[node]]\n", "[[node]]\nname = 7\n"))
        self.assertEqual(self.asked(), right)
        self.assertEqual((right[0].count("\n") > 1, right[2]), (True, 0))

    def test_a_session_that_hangs(self):
        world = self.folder / "world"
        world.write_text(f"#!/bin/sh\necho 'frworld 1'\nexec sleep {LONG}\n")
        world.chmod(0o755)
        with patch.object(played, "REQUEST_SECONDS", 1.0):
            self.stopped(f"{world}: no reply to `now` within 1 s", 4, "--world", str(world))

    def test_a_launcher_is_not_sent(self):
        """A launcher with no note of its program runs on this machine alone."""
        launcher = self.program("")
        with patch.object(program, "CHECKOUT", self.folder.resolve()):
            self.assertEqual(self.asked("--program", launcher)[2], 0)
            self.stopped(f"--parallel can't send {launcher}, which runs only in its checkout: name the program that it "
                         "runs, in dist, by --program FILE", 2, "--program", launcher, "--parallel")

    def test_forms_of_a_cluster_file(self):
        """A byte order mark is no fault, and neither is TOML 1.1, which the engines read."""
        right = self.asked()
        self.assertEqual(right[2], 0)
        (self.folder / "cluster").write_bytes(b"\xef\xbb\xbf" + TWO_NODES.encode())
        self.assertEqual(self.asked(), right)
        (self.folder / "cluster").write_text(TWO_NODES.replace("{slot = 1, ", "{\nslot = 1, "))
        self.assertEqual(self.asked(), right)

    def test_the_job_log(self):
        log = self.folder / "log"
        self.assertEqual(self.asked("--joblog", str(log))[2], 0)
        data = log.read_bytes()
        self.stopped(f"--joblog {log}: the log is there already: go on from it by --resume, or name another file", 2,
                     "--joblog", str(log))
        self.assertEqual(log.read_bytes(), data)
        self.assertEqual(self.asked("--joblog", str(log), "--resume")[2], 0)
        for broken in (b"\xff\n", b"{\n", b"[]\n", data[:-30] + b"\n", data + b"{}\n", data + b"\xff\n"):
            log.write_bytes(broken)
            output, told, status = self.asked("--joblog", str(log), "--resume")
            self.assertEqual((output, told.count("\n"), status, log.read_bytes()), ("", 1, 2, broken))
        self.stopped(f"--joblog {self.folder}: Is a directory", 2, "--joblog", str(self.folder))

    def test_inputs_are_spared(self):
        earlier = self.folder / "earlier"
        earlier.write_text(self.asked()[0])
        hard = self.folder / "hard"
        hard.hardlink_to(earlier)
        hosts = self.folder / "hosts"
        hosts.write_text(":\n")
        for option in ("--joblog", "--html"):
            for name, what in (("cluster", "the cluster file"), ("scenario", "the scenario"),
                               ("earlier", "the table of --against"), ("hard", "the table of --against"),
                               ("hosts", "the file of --sshloginfile")):
                file = self.folder / name
                data = file.read_bytes()
                more = "--against", str(earlier), "--parallel", "--sshloginfile", str(hosts)
                self.stopped(f"{option} {file} is {what}, which would be overwritten: name another file", 2, *more,
                             option, str(file))
                self.assertEqual(file.read_bytes(), data)
        program = self.program("")
        for option in ("--joblog", "--html"):
            self.stopped(f"{option} {program} is the program, which would be overwritten: name another file", 2,
                         "--program", program, option, program)
        both = str(self.folder / "both")
        self.stopped(f"--html {both} is the file of --joblog, which would be overwritten: name another file", 2,
                     "--joblog", both, "--html", both)

    def test_a_bad_table(self):
        earlier = self.folder / "earlier"
        heading, line, *_ = self.asked()[0].splitlines(True)
        words = line.split("\t")
        for data, why in ((b"\xff\xfe", "isn't a table of faults: it is no UTF-8"),
                          (b"", "isn't a whole table of faults"),
                          (b"name,cost\n", "isn't a whole table of faults"),
                          ((heading + line[:-5]).encode(), "isn't a whole table of faults"),
                          ((heading + "\t".join(words[:-1]) + "\n").encode(), "has no fault in line 2")):
            earlier.write_bytes(data)
            self.stopped(f"--against {earlier}: {why}", 2, "--against", str(earlier))
        self.stopped(f"--against {self.folder}: Is a directory", 2, "--against", str(self.folder))
        earlier.write_text(heading + "\t".join([*words[:8], "9" * 5000, *words[9:]]))
        output, told, status = self.asked("--against", str(earlier))
        self.assertEqual((output, told.count("\n"), status), ("", 1, 2))

    def test_a_full_disk(self):
        """A file that can't be written whole is reported, and the old page stays."""
        page = self.folder / "page"
        page.write_text("old")
        (self.folder / "cluster").write_text(TWO_NODES + "#" * 2000)
        small = len(TWO_NODES) + 2000
        for more, limit, told in ((["--html", str(page)], small, f"--html {page}: File too large"),
                                  (["--joblog", "/dev/full"], small, "--joblog /dev/full: No space left on device"),
                                  (["--list"], 150, "the temporary folder .* can't be written: File too large"),
                                  (["--list"], 0, "no folder for temporary files can be used .*; name one by .*")):
            _, got, status = self.apart(more, limit)
            self.assertRegex(got.splitlines()[-1], f"^musmyrtle faults: {told}$")
            self.assertEqual((got.count("\n") == 1, status), (more[0] != "--html", 2))
        self.assertEqual(page.read_text(), "old")
        self.assertEqual(sorted(it.name for it in self.folder.iterdir()), ["cluster", "page", "scenario", "temporary"])

    def test_a_full_disk_for_the_log(self):
        """The entries noted by then stay, and the log goes on once there is room."""
        right, log = self.asked()[0], self.folder / "log"
        output, told, status = self.apart(["--joblog", str(log)], len(TWO_NODES))
        self.assertEqual((output, told, status), ("", f"musmyrtle faults: --joblog {log}: File too large\n", 2))
        self.assertEqual((log.stat().st_size, log.read_bytes().count(b"\n")), (len(TWO_NODES), 2))
        self.assertEqual(self.asked("--joblog", str(log), "--resume")[::2], (right, 0))
        self.assertEqual(log.read_bytes().count(b"\n"), 3)

    def apart(self, more: list[str], limit: int) -> tuple[str, str, int]:
        """Runs the command as a process of its own, in which no file has more bytes than this."""
        def before() -> None:
            resource.setrlimit(resource.RLIMIT_FSIZE, (limit, limit))
        words = [*FAULTS, *self.words(*more)]
        environment = {**os.environ, "TMPDIR": str(self.folder / "temporary")}
        ran = subprocess.run(words, capture_output=True, text=True, env=environment, timeout=SECONDS, preexec_fn=before)
        return ran.stdout, ran.stderr, ran.returncode

    def test_folders_that_are_gone(self):
        gone = self.folder / "gone"
        gone.mkdir()
        words = [*FAULTS, *self.words("--joblog", "log")]
        ran = subprocess.run(words, capture_output=True, text=True, cwd=gone, timeout=SECONDS,
                             preexec_fn=lambda: os.rmdir(gone))
        self.assertEqual((ran.stdout, ran.stderr.count("\n"), ran.returncode), ("", 1, 2), ran.stderr)
        # The folder of the page, once the runs have begun.
        page = self.folder / "pages/page"
        page.parent.mkdir()
        program = self.program(f"{FAULTY} rmdir '{page.parent}' 2>/dev/null")
        output, told, status = self.asked("--program", program, "--html", str(page))
        self.assertEqual(told.splitlines()[-1], f"musmyrtle faults: --html {page}: No such file or directory")
        self.assertEqual((output.count("\n") > 1, status), (True, 2))
        # The temporary folder.
        program = self.program(f"{FAULTY} rm -rf '{self.folder}'/temporary/musmyrtle-faults-*")
        output, told, status = self.asked("--program", program, "--cores", "1")
        self.assertEqual((told.count("\n") if status == 2 else 1, status in (2, 4)), (1, True))


class TestSignals(Command):
    """A signal ends the command with all programs that it started, and leaves no file."""

    def broken_off(self, number: int, does: str, *more: str) -> None:
        noted = self.folder / "noted"
        waits = f"sleep {LONG} & echo $! $$ >>'{noted}'; wait"
        program = self.program(does.replace("WAIT", waits))
        words = [*FAULTS, *self.words("--program", program, *more)]
        path = f"{self.folder}{os.pathsep}{os.environ['PATH']}"
        environment = {**os.environ, "TMPDIR": str(self.folder / "temporary"), "PATH": path}
        # A test in the background may have SIGINT ignored, which a child would inherit.
        with subprocess.Popen(words, stdout=subprocess.PIPE, stderr=subprocess.PIPE, text=True, env=environment,
                              preexec_fn=lambda: signal.signal(signal.SIGINT, signal.SIG_DFL)) as running:
            self.wait_for(lambda: noted.exists() and noted.read_text().endswith("\n"))
            running.send_signal(number)
            output, told = running.communicate(timeout=SECONDS)
        how = f"; --joblog {self.folder / 'log'} --resume goes on" if "--joblog" in more else ""
        self.assertEqual((output, told, running.returncode), ("", f"musmyrtle faults: broken off{how}\n", 128 + number))
        self.assertEqual(os.listdir(self.folder / "temporary"), [])
        for started in noted.read_text().split():
            self.wait_for(lambda: not is_alive(int(started)))
        noted.unlink()

    def wait_for(self, is_so) -> None:
        limit = time.monotonic() + SECONDS
        while not is_so():
            self.assertLess(time.monotonic(), limit)
            time.sleep(0.01)

    def test_in_the_run_without_a_fault(self):
        for number in (signal.SIGINT, signal.SIGTERM, signal.SIGHUP):
            self.broken_off(number, "WAIT")

    def test_in_a_run_with_a_fault(self):
        self.broken_off(signal.SIGTERM, f"{FAULTY} {{ WAIT; }}", "--joblog", str(self.folder / "log"))
        self.assertEqual(len((self.folder / "log").read_bytes().splitlines()), 1)

    def test_a_program_that_ignores_it(self):
        self.broken_off(signal.SIGTERM, f"trap '' TERM; {FAULTY} {{ WAIT; }}")

    def test_in_the_reading_of_a_receive_fifo(self):
        queue = '[[node]]\nqueue = {capacity = 2, first = 1, last = 2, channels = "AB"}\n'
        (self.folder / "cluster").write_text(queue.join(TWO_NODES.rsplit("[[node]]\n", 1)))
        self.broken_off(signal.SIGTERM, '[ "$1" != fifo ] || { WAIT; }')

    def test_in_a_job_of_parallel(self):
        file = self.folder / "parallel"
        file.write_text(f"#!/bin/sh\nsleep {LONG} & echo $! $$ >>'{self.folder / 'noted'}'; wait\n")
        file.chmod(0o755)
        self.broken_off(signal.SIGTERM, "", "--parallel")


def is_alive(process: int) -> bool:
    try:
        return Path(f"/proc/{process}/stat").read_text().rpartition(")")[2].split()[0] != "Z"
    except OSError:
        return False
