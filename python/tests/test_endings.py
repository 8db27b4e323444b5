"""Failures of the machine: one line, status 2 and no traceback, whichever command meets them."""
import errno
import os
import sys
import unittest
from unittest.mock import patch

import musmyrtle.faults.command
import musmyrtle.lint.command
from musmyrtle.ending import reason_of, status_of
from musmyrtle.lint.lint import unreadable
from musmyrtle.output import Stop
from musmyrtle.program import ask, usual_program
from tests.shows import EXAMPLES, THREE, Shows
from tests.test_streams import TOP, shell

LONG = "n" * 300
"""A name that is longer than those of files."""
RECORDING = ["--recording", str(EXAMPLES / "recordings/disturbed.pcap")]
NO_FOLDER = "no folder for temporary files can be used (/tmp, /var/tmp, /usr/tmp, "
COMMANDS = (["check", THREE[0]], ["plan", THREE[0]], ["latency", THREE[0]], ["run", *THREE], ["log", *THREE],
            ["commits", *THREE], ["reads", *THREE], ["page", *THREE], ["page", *THREE, "--endless"],
            ["page", THREE[0], *RECORDING], ["diff", THREE[0], THREE[0]], ["diff", THREE[0], THREE[1], *THREE[1:]],
            ["diff", "--recordings", THREE[0], RECORDING[1], RECORDING[1]],
            ["monitor", THREE[0], RECORDING[1]], ["lint", *THREE],
            ["faults", *THREE, "--kinds", "mute"])


class Endings(Shows):
    def ended(self, failure: BaseException) -> tuple[int, str]:
        def work() -> int:
            raise failure
        with patch("musmyrtle.output.write") as written:
            status = status_of("musmyrtle", work)
        return status, "".join(text for call in written.call_args_list for text in call.args[1])

    def test_failures(self) -> None:
        for failure, told in (
                (MemoryError(), "out of memory"),
                (OSError(errno.ENOSPC, "No space left on device"), "No space left on device"),
                (PermissionError(errno.EACCES, "Permission denied", "folder/file"), "folder/file: Permission denied"),
                (OSError(errno.EXDEV, "Invalid cross-device link", "a", None, "b"),
                 "a and b: Invalid cross-device link"),
                (OSError("no number"), "no number"),
                (RuntimeError("can't start new thread"), "no further thread can be started"),
                (Stop(2, "told"), "told")):
            with self.subTest(failure=failure):
                self.assertEqual(self.ended(failure), (2, f"musmyrtle: {told}\n"))

    def test_other_ends(self) -> None:
        self.assertEqual(self.ended(BrokenPipeError()), (0, ""))
        self.assertEqual(self.ended(KeyboardInterrupt()), (130, ""))
        with self.assertRaises(RuntimeError):
            self.ended(RuntimeError("a mistake of this package"))

    def test_temporary_folders(self) -> None:
        wanted = "no folder for temporary files can be used (/tmp, /x); name one by the variable TMPDIR"
        self.assertEqual(reason_of(FileNotFoundError(
            errno.ENOENT, "No usable temporary directory found in ['/tmp', '/x']")), wanted)

    def test_each_command_has_these_ends(self) -> None:
        """Also those that a program calls without the command `musmyrtle`."""
        for main in (musmyrtle.lint.command.main, musmyrtle.faults.command.main):
            with patch(f"{main.__module__}.parsed", side_effect=MemoryError), patch("musmyrtle.output.write"):
                self.assertEqual(main([]), 2)

    def test_a_folder_of_temporary_files_that_can_not_be_used(self) -> None:
        """A limit of 0 bytes lets no file be written, in whichever folder."""
        for words in COMMANDS:
            with self.subTest(words=words):
                status, _, error = shell('ulimit -f 0; ./musmyrtle "$@"', *words)
                self.assertNotIn("Traceback", error)
                self.assertIn(status, (0, 2))
                if status:
                    self.assertIn(NO_FOLDER, error)
                    self.assertEqual(error.count("\n"), 1)
        self.assertEqual(shell('ulimit -f 0; ./musmyrtle "$@"', "run", *THREE)[0], 2)

    def test_little_memory(self) -> None:
        """Wherever the memory ends, there is a line, or the answer."""
        for words in (COMMANDS[3], COMMANDS[7], *COMMANDS[-3:]):
            for limit in (20_000, 33_000, 46_000):
                with self.subTest(words=words, limit=limit):
                    status, _, error = shell(f'ulimit -v {limit}; ./musmyrtle "$@"', *words)
                    self.assertNotIn("Traceback", error)
                    self.assertIn(status, (0, 2, 3))
                    if status == 2:
                        self.assertEqual(error.count("\n"), 1, error)

    def test_a_long_name(self) -> None:
        for words, status in ((["lint", LONG], 1), (["check", LONG], 1), (["run", THREE[0], LONG, "--cycles", "4"], 1),
                              (["monitor", THREE[0], LONG], 2), (["page", THREE[0], "--recording", LONG], 2),
                              (["faults", LONG, *THREE[1:]], 1), (["faults", *THREE, "--against", LONG], 2),
                              (["faults", *THREE, "--html", LONG], 2), (["faults", *THREE, "--joblog", LONG], 2)):
            with self.subTest(words=words):
                found = shell('./musmyrtle "$@"', *words)
                self.assertEqual(found[0], status)
                self.assertIn("File name too long", found[1] + found[2])

    def test_a_table_without_an_end(self) -> None:
        for file in ("/dev/zero", "/dev/null"):
            told = f"musmyrtle faults: --against {file}: isn't a whole table of faults\n"
            self.assertEqual(shell('./musmyrtle "$@"', "faults", *THREE, "--against", file), (2, "", told))

    @unittest.skipIf(os.geteuid() == 0, "the superuser may read everything")
    def test_a_folder_without_permission(self) -> None:
        closed = self.folder / "closed"
        closed.mkdir(mode=0)
        self.addCleanup(closed.chmod, 0o700)
        status, output, error = self.asked("lint", str(closed / "cluster.toml"))
        self.assertEqual((status, error), (1, ""))
        self.assertIn("can't be read: Permission denied", output)

    def test_reasons_why_a_file_can_not_be_read(self) -> None:
        for file, why in (("missing", "isn't there"), (str(self.folder), "is a folder"),
                          (LONG, "can't be read: File name too long"), ("a\0", "can't be read: embedded null byte")):
            self.assertTrue(unreadable(file, "the cluster file").headline.endswith(why))

    def test_a_listener_that_fails(self) -> None:
        """Its failure is raised by the one who asks, and the program doesn't wait for a reader."""
        def listen(_: object) -> None:
            raise MemoryError
        with self.assertRaises(MemoryError):
            ask("sh", ["-c", "head -c 1000000 /dev/zero 2>/dev/null"], listen=listen)


class Machine(Shows):
    """Programs that report a failure of the machine: no verdict on the input, and no explanation of it."""

    def stub(self, refusal: str) -> str:
        """Returns a program that refuses each input so."""
        return self.script(f"echo 'refused {refusal}' >&2\nexit 1\n")

    def script(self, lines: str) -> str:
        """Returns a program of these lines of a shell."""
        file = self.folder / "stub"
        file.write_text(f"#!/bin/sh\n{lines}")
        file.chmod(0o755)
        return str(file)

    def test_an_output_that_is_cut_off(self) -> None:
        """The status is 0, and the last line has no line feed."""
        stub = self.script(f"{usual_program('fr_view')} \"$@\" | head -c -1\n")
        for words in (it for it in COMMANDS if it[0] in ("latency", "run", "log", "commits", "reads")):
            with self.subTest(words=words), patch.dict(os.environ, {"MUSMYRTLE_VIEW": stub}):
                status, output, error = self.asked(*words)
                self.assertEqual((status, output, error.count("\n")), (2, "", 1), error)
                self.assertRegex(error, "^musmyrtle: the output of .* is cut off: its last line has no line feed\n$")

    def test_no_verdict(self) -> None:
        for refusal, what in (("Memory", "out of memory"), ("Write", "its output can't be written"),
                              ("Read", "its input can't be read"),
                              ("Thread", "a thread can't be started, or its run didn't complete")):
            stub = self.stub(refusal)
            told = f"ended with status 1: refused {refusal} ({what}), which is no verdict on the input\n"
            for words in COMMANDS[:-1]:
                with self.subTest(refusal=refusal, words=words), patch.dict(os.environ, {
                        "MUSMYRTLE_BENCH": stub, "MUSMYRTLE_VIEW": stub}):
                    status, output, error = self.asked(*words)
                    self.assertEqual((status, output, error.count("\n")), (2, "", 1), error)
                    self.assertRegex(error, "^musmyrtle( lint)?: ")
                    self.assertTrue(error.endswith(told), error)

    def test_a_recording(self) -> None:
        for refusal in ("Memory", "Read", "Write"):
            for words in (["monitor", THREE[0], RECORDING[1]], ["page", THREE[0], *RECORDING]):
                with self.subTest(words=words), patch.dict(os.environ, {"MUSMYRTLE_MONITOR": self.stub(refusal)}):
                    status, output, error = self.asked(*words)
                self.assertEqual((status, output, error.count("\n")), (2, "", 1), error)
                self.assertIn(f"ended with status 1: refused {refusal} (", error)

    def test_a_file_that_is_not_there(self) -> None:
        """It is refused by the program, and can't be read here either, so it has its explanation."""
        for words in (["lint", "missing"], ["lint", THREE[0], "missing", "--cycles", "4"], ["check", "missing"]):
            status, output, error = self.asked(*words)
            self.assertEqual(status, 1)
            self.assertIn("'missing' isn't there", output + error)

    def test_a_folder_that_was_removed(self) -> None:
        """Names of files in it lead nowhere."""
        gone = self.folder / "gone"
        gone.mkdir()
        command = f'cd {gone}; rmdir {gone}; {sys.executable} {TOP / "musmyrtle"} check cluster.toml'
        told = "musmyrtle: the current folder was removed; go to another one\n"
        self.assertEqual(shell(command), (2, "", told))

    def test_a_trace(self) -> None:
        trace = self.written("trace", "frtrace 1\n")
        for refusal in ("Memory", "Read", "Write"):
            with patch.dict(os.environ, {"MUSMYRTLE_VIEW": self.stub(refusal)}):
                status, output, error = self.asked("lint", trace)
            self.assertEqual((status, output), (2, ""))
            self.assertIn(f"why ended with status 1: refused {refusal}", error)


if __name__ == "__main__":
    unittest.main()
