"""Tests of the command as a whole: its words, its statuses and its output."""
import os
import signal
import stat
import subprocess
import sys
import tempfile
from pathlib import Path
from typing import Any
from unittest import mock

from musmyrtle.lint import command
from tests.cases import CLUSTER, SCENARIO, Cases

LINT = [sys.executable, "-B", str(Path(__file__).resolve().parents[2] / "musmyrtle"), "lint"]
UNWRITTEN = "musmyrtle lint: the output can't be written: "
COPYING = """#!/bin/sh
for word; do if [ -f "$word" ]; then cat "$word"; fi; done >'{}'
"""
"""A program that copies the files that it is given."""


class Command(Cases):
    def stub(self, refusal: str = "") -> str:
        """Writes a program that always answers the same."""
        lines = ["#!/bin/sh", f'echo "refused {refusal}" >&2; exit 1' if refusal else "echo fine"]
        path = self.written("stub", "\n".join(lines) + "\n")
        os.chmod(path, stat.S_IRWXU)
        return path

    def launch(self, *words: str, **streams: Any) -> tuple[int, str]:
        """Returns the status and standard error of the command as a process of its own."""
        streams = {"stderr": subprocess.PIPE, **streams}
        ran = subprocess.run([*LINT, *words], **streams)
        return ran.returncode, (ran.stderr or b"").decode()

    def copying(self) -> tuple[str, Path]:
        """Writes a program that keeps its input and its place."""
        path, kept = self.written("copying", COPYING.format(self.folder / "kept")), self.folder / "kept"
        os.chmod(path, stat.S_IRWXU)
        return path, kept

    def pipe(self, text: str) -> str:
        """Yields a name by which this process alone can read the text, and once."""
        source, end = os.pipe()
        self.addCleanup(os.close, source)
        os.write(end, text.encode())
        os.close(end)
        return f"/dev/fd/{source}"

    def test_statuses(self):
        cluster, scenario = self.written("cluster.toml", CLUSTER), self.written("scenario", SCENARIO)
        fine = CLUSTER.replace('"AB"}]\nbuffer = [\n  {kind = "state"',
                               '"AB", sync = true}]\nbuffer = [\n  {kind = "state"')
        fine = fine.replace("sync = true", "sync = true, startup = true")
        quiet, refused = self.written("fine.toml", fine), self.written("refused.toml",
                                                                       CLUSTER.replace("idle = 0", "idle = 3"))
        taken, bad = ["--program", self.stub()], "Params OutOfRange idle"
        self.assertEqual(self.run_with(quiet, "--strict", "--allow", "fault-tolerance", "--allow", "unchecked-bits",
                                       *taken), (0, "fr_bench: accepted\n", ""))
        self.assertEqual(self.run_with(cluster, *taken)[0], 0)
        self.assertEqual(self.run_with(cluster, scenario, "--cycles", "4", "--strict", *taken)[0], 4)
        status, output, _ = self.run_with(refused, "--program", self.stub(bad))
        self.assertEqual((status, output.splitlines()[:3]), (1, [f"fr_bench: refused {bad}", "",
                         f"{refused}:12:1: refused {bad}: `idle` of `[params]` is 3"]))
        self.assertIn("     12 | idle = 3\n          ^\n    Expected a whole number from 0 to 2.\n", output)

    def test_the_program_decides(self):
        cluster, refused = self.written("cluster.toml", CLUSTER), self.written("refused.toml",
                                                                               CLUSTER.replace("idle = 0", "idle = 3"))
        status, output, _ = self.run_with(refused, "--program", self.stub())
        told = "fr_bench decides, although musmyrtle lint finds a reason to refuse the input: Params OutOfRange idle."
        self.assertEqual((status, output), (0, f"fr_bench: accepted\n\n{told}\n"))
        status, output, _ = self.run_with(cluster, "--program", self.stub("TooLong"))
        self.assertEqual((status, output.splitlines()[2]), (1, "No reason is known for `TooLong`."))

    def failing(self, *lines: str) -> str:
        """Writes a program that does this."""
        path = self.written("failing", "\n".join(["#!/bin/sh", *lines]) + "\n")
        os.chmod(path, stat.S_IRWXU)
        return path

    def test_a_program_without_an_answer(self):
        """The message has the words of the call, its end and the program's output, and nothing about the file, which is
        refused."""
        cluster = self.written("cluster.toml", CLUSTER.replace("idle = 0", "idle = 3"))
        for lines, ended in (
            (["kill -9 $$"], "was killed by signal 9 (SIGKILL)"),
            (["kill -11 $$"], "was killed by signal 11 (SIGSEGV)"),
            (["exit 137"], "was killed by signal 9 (SIGKILL)"),
            (["exit 1"], "ended with status 1"),
            (["echo not built >&2; exit 1"], "ended with status 1: not built"),
            (["echo refusedToml >&2; exit 1"], "ended with status 1: refusedToml"),
            (["echo 'Params OutOfRange idle' >&2; exit 3"], "ended with status 3: Params OutOfRange idle"),
            (["echo 'refused Params OutOfRange idle' >&2; exit 3"],
             "ended with status 3: refused Params OutOfRange idle"),
            (["echo panicked >&2; echo why >&2; exit 101"], "ended with status 101: panicked why"),
            (["exit 126"], "ended with status 126"), (["exit 127"], "ended with status 127"),
            (["echo other >&2; exit 2"], "ended with status 2: other"), (["exit 4"], "ended with status 4"),
        ):
            program = self.failing(*lines)
            with self.subTest(lines=lines):
                status, output, error = self.run_with(cluster, "--program", program)
                self.assertEqual((status, output), (2, ""))
                self.assertEqual(error.splitlines()[-1], f"musmyrtle lint: {program} check -- {cluster} {ended}")

    def test_a_program_that_cannot_be_started(self):
        cluster = self.written("cluster.toml", CLUSTER)
        for program, why in ((self.written("none", ""), "Permission denied"), (str(self.folder), "Permission denied"),
                             (str(self.folder / "missing"), "No such file or directory")):
            status, output, error = self.run_with(cluster, "--program", program)
            self.assertEqual((status, output, error), (2, "", f"musmyrtle lint: {program} can't be run: {why}\n"))

    def test_a_program_that_says_much(self):
        """The messages are passed on, and their end is repeated."""
        cluster = self.written("cluster.toml", CLUSTER)
        program = self.failing("head -c 300000 /dev/zero | tr '\\0' y >&2; echo end >&2; exit 3")
        status, _, error = self.run_with(cluster, "--program", program)
        self.assertEqual((status, error.count("y") > 300_000, len(error.splitlines()[-1]) < 1000), (2, True, True))
        self.assertTrue(error.endswith("end\n"), error[-20:])

    def test_a_program_that_knows_no_such_words(self):
        status, output, error = self.run_with(self.written("cluster.toml", CLUSTER.replace("idle = 0", "idle = 3")),
                                              "--program", self.failing("echo usage >&2; exit 2"))
        self.assertEqual((status, output.splitlines()[0], error), (2, "fr_bench: usage", "usage\n"))
        self.assertNotIn("idle", output)

    def test_a_program_that_accepts_and_says_something(self):
        program = self.failing("echo refused Toml >&2; echo building >&2")
        status, output, error = self.run_with(self.written("cluster.toml", CLUSTER), "--program", program)
        self.assertEqual((status, output.splitlines()[0], error), (0, "fr_bench: accepted", "building\n"))

    def test_words_of_a_program_that_cannot_be_passed_on(self):
        """A full, closed or abandoned standard error changes nothing in the output and the status."""
        taken = [self.written("cluster.toml", CLUSTER), "--program", self.failing("echo building >&2")]
        source, end = os.pipe()
        os.close(source)
        with open("/dev/full", "wb") as full:
            for how in ({"stderr": full}, {"stderr": end}, {"stderr": None, "preexec_fn": lambda: os.close(2)}):
                ran = subprocess.run([*LINT, *taken, "--strict"], stdout=subprocess.PIPE, **how)
                self.assertEqual((ran.returncode, ran.stdout[:19]), (4, b"fr_bench: accepted\n"))
        os.close(end)

    def test_a_signal(self):
        """An interrupt ends the command without a traceback."""
        words = [*LINT, self.written("cluster.toml", CLUSTER), "--program",
                 self.failing("echo begun >&2; exec sleep 60")]
        with subprocess.Popen(words, stdout=subprocess.PIPE, stderr=subprocess.PIPE, process_group=0) as running:
            self.assertEqual(running.stderr.readline(), b"begun\n")
            os.killpg(running.pid, signal.SIGINT)
            output, error = running.communicate()
        self.assertEqual((running.returncode, output, error), (130, b"", b""))

    def test_many_warnings_and_mistakes(self):
        """20 unread keys, 40 warnings with these and 20 mistakes are printed, and the number of the others."""
        keys = "".join(f"other{number} = 1\n" for number in range(60))
        slots = ", ".join(f'{{slot = {slot}, channels = "B"}}' for slot in range(4, 54))
        many = CLUSTER.replace("static_slots = 3", "static_slots = 103").replace("cycle_mt = 90", "cycle_mt = 2090")
        many = many.replace("slot = 4, ", "slot = 104, ").replace("latest_a = 4", f"latest_a = 4\nown = [{slots}]")
        status, output, _ = self.run_with(self.written("cluster.toml", f"{keys}{many}"), "--program", self.stub())
        self.assertEqual((status, output.count("is an unknown key"), output.count(": warning: ")), (0, 20, 40))
        # 60 keys and 50 slots that are never filled, a FIFO without any traffic, one sync node, no startup node.
        self.assertEqual(output.splitlines()[-1], "and 73 more warnings")
        wrong = self.written("cluster.toml", many.replace(slots, slots.replace("B", "C")))
        status, output, _ = self.run_with(wrong, "--program", self.stub("BadNode 2"))
        self.assertEqual((status, output.count(": refused BadNode 2: "), output.splitlines()[-1]),
                         (1, 20, "and 30 more mistakes"))

    def test_one_more(self):
        text = "".join(f"other{number} = 1\n" for number in range(41)) + CLUSTER.replace("sync = true", "sync = false")
        status, output, _ = self.run_with(self.written("cluster.toml", text), "--program", self.stub())
        self.assertEqual(output.splitlines()[-1], "and 21 more warnings")

    def test_long_keys_and_values(self):
        """Each is cut, and so is each line that is shown."""
        long = "k" * 5000
        for old, new, refusal in (
            ("idle = 0", f"idle = 0\n{long} = 1", ""), ("idle = 0", f"{long} = 1\n{long} = 2", "Toml"),
            ("idle = 0", f'idle = "{long}"', "Params NotANumber idle"), ("idle = 0", f"idle = {long}", "Toml"),
            ('"A"', f'"{long}"', "BadGuard"), ("idle = 0", f"idle = {long}.{long} = 3", "Toml"),
        ):
            cluster = self.written("cluster.toml", CLUSTER.replace(old, new, 1))
            _, output, _ = self.run_with(cluster, "--program", self.stub(refusal))
            with self.subTest(new=new[:20]):
                self.assertIn("k..", output)
                self.assertLess(max(map(len, output.splitlines())), 200)
                self.assertNotIn("No reason is known", output)
        scenario = self.written("scenario", SCENARIO.replace("commit", long[:1000], 1))
        _, output, _ = self.run_with(self.written("cluster.toml", CLUSTER), scenario, "--cycles", "4", "--program",
                                     self.stub("BadLine 2"))
        self.assertIn(f"`{'k' * 40}..`", output)

    def test_words_that_are_no_command(self):
        cluster = self.written("cluster.toml", CLUSTER)
        for words in ([], [cluster, "scenario"], [cluster, "scenario", "--cycles", "0"], [cluster, "--cycles", "1025"],
                      [cluster, "--cycles", "4"], [cluster, "--strikt"],
                      [cluster, "a", "b", "--cycles", "4"], [cluster, "--program", str(self.folder / "none")]):
            self.assertEqual(self.run_with(*words)[0], 2, words)
        self.assertEqual(self.run_with("--help")[0], 0)

    def test_no_program(self):
        with mock.patch.object(command, "usual_program", lambda: None):
            status, _, error = self.run_with(self.written("cluster.toml", CLUSTER))
        self.assertEqual((status, "there is no fr_bench" in error), (2, True))

    def test_output_that_cannot_be_written(self):
        """Output fails at once, or when Python writes it at its end."""
        taken = [self.written("cluster.toml", CLUSTER), "--program", self.stub()]
        for words in (taken, ["--help"]):
            for kept in ("", "1"):
                how = {"env": {**os.environ, "PYTHONUNBUFFERED": kept}}
                with self.subTest(words=words, kept=kept), open("/dev/full", "wb") as full:
                    told = 2, f"{UNWRITTEN}No space left on device\n"
                    self.assertEqual(self.launch(*words, stdout=full, **how), told)
                    self.assertEqual(self.launch(*words, stdout=full, stderr=full, **how), (2, ""))
                    closed = self.launch(*words, preexec_fn=lambda: os.close(1), **how)
                    self.assertEqual(closed, (2, f"{UNWRITTEN}it is closed\n"))

    def test_a_reader_that_has_gone_away(self):
        """Nothing is printed, and the status is the same: the cluster has a warning."""
        taken = [self.written("cluster.toml", CLUSTER), "--program", self.stub()]
        source, end = os.pipe()
        os.close(source)
        self.addCleanup(os.close, end)
        for words, status in ((taken, 0), ([*taken, "--strict"], 4), (["--help"], 0)):
            self.assertEqual(self.launch(*words, stdout=end), (status, ""), words)

    def test_files_that_can_be_read_once(self):
        """The program has the same text, and the place has the name that was given: `[[node]]` is in line 15."""
        program, kept = self.copying()
        for cluster, scenario in ((self.pipe(CLUSTER), None), (self.pipe(CLUSTER), self.pipe(SCENARIO)),
                                  (self.written("cluster.toml", CLUSTER), self.pipe(SCENARIO))):
            words = [cluster, *([] if scenario is None else [scenario, "--cycles", "4"]), "--program", program]
            status, output, _ = self.run_with(*words)
            place = f"{cluster}:15:1: warning: "
            self.assertEqual((status, output.splitlines()[0], place in output), (0, "fr_bench: accepted", True), words)
            self.assertEqual(kept.read_text(), CLUSTER + (SCENARIO if scenario else ""))

    def test_a_file_on_standard_input(self):
        """It is the command's and not the program's, which has nothing there."""
        program, kept = self.copying()
        with open(self.written("cluster.toml", CLUSTER), "rb") as given:
            ran = self.launch("/dev/stdin", "--program", program, stdin=given, stdout=subprocess.DEVNULL)
        self.assertEqual((ran, kept.read_text()), ((0, ""), CLUSTER))

    def test_no_room_for_a_copy(self):
        name = self.pipe(CLUSTER)
        with mock.patch.object(tempfile, "NamedTemporaryFile", side_effect=OSError(28, "No space left on device")):
            status, output, error = self.run_with(name, "--program", self.stub())
        self.assertEqual((status, output), (2, ""))
        self.assertEqual(error, f"musmyrtle lint: {name} can't be copied: No space left on device\n")
