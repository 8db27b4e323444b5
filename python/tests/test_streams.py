"""Closed standard streams, and limits on the size of files: no message gets into a file, and a failed write is one."""
import os
import subprocess
import sys
import unittest
from pathlib import Path

from tests.shows import EXAMPLES, THREE, Shows

TOP = Path(__file__).resolve().parents[2]
CLOSED = "the output can't be written: it is closed"
HOST = """
import os, sys
from musmyrtle import World
with World(sys.argv[1], endless=True, record=sys.argv[2]) as world:
    world.node(0).commit(0, b"\\x0a\\x0b")
    world.cycle()
    print("printed")
    for number in (1, 2):
        try:
            os.write(number, b"written")
        except OSError:
            pass
"""
RECORD = "0 0 - 1 A 0 offer passed "
"""The begin of the first line of the record: window and cycle 0, slot 1 on A, and the node that sends."""


def shell(command: str, *words: str | Path, cwd: Path = TOP) -> tuple[int, str, str]:
    """Returns the status of a command of Bash, its output and its standard error."""
    ran = subprocess.run(["bash", "-c", command, "bash", *words], cwd=cwd, capture_output=True, text=True,
                         stdin=subprocess.DEVNULL, env={**os.environ, "PYTHONPATH": str(TOP / "python")})
    return ran.returncode, ran.stdout, ran.stderr


class Closed(Shows):
    def test_a_command(self) -> None:
        """Each command with a closed output ends with status 2, and with a line where that can be written."""
        for words in (["check", THREE[0]], ["run", *THREE], ["page", *THREE], ["lint", THREE[0]], ["man"], ["--help"]):
            for streams, told in ((">&-", CLOSED), (">&- <&-", CLOSED), (">&- 2>&- <&-", "")):
                with self.subTest(words=words, streams=streams):
                    status, output, error = shell(f'./musmyrtle "$@" {streams}', *words)
                    self.assertEqual((status, output), (2, ""))
                    self.assertIn(told, error)
                    self.assertLessEqual(error.count("\n"), 1)

    def test_a_command_without_standard_error(self) -> None:
        for words, status in ((["check", THREE[0]], 0), (["lint", "missing"], 1), (["lint", "--wrong"], 2)):
            self.assertEqual(shell('./musmyrtle "$@" 2>&- >/dev/null', *words), (status, "", ""))

    def test_a_recording_from_a_closed_input(self) -> None:
        for words in (["monitor", THREE[0]], ["page", THREE[0], "--recording", "-"]):
            told = "musmyrtle: the recording can't be read: standard input is closed\n"
            self.assertEqual(shell('./musmyrtle "$@" <&-', *words), (2, "", told))

    def test_files_that_are_a_closed_input(self) -> None:
        """Its names are those of no file, so the input isn't taken for an empty one."""
        signals = [str(EXAMPLES / "signals/cluster.toml"), str(EXAMPLES / "signals/scenario"), "--cycles", "4"]
        closed = ": standard input is closed\n"
        for words, name in ((["lint", "/dev/stdin"], "lint"), (["check", "/dev/fd/0"], ""),
                            (["run", THREE[0], "/proc/self/fd/0", "--cycles", "4"], ""),
                            (["signals", *signals, "--expect", "/dev/stdin"], ""),
                            (["faults", *THREE, "--against", "/dev/stdin"], "faults"),
                            (["monitor", THREE[0], "/dev/stdin"], ""), (["annotate", THREE[0], "/dev/stdin"], ""),
                            (["diff", "--cycles", "4", *THREE[:2], "/dev/stdin"], "")):
            with self.subTest(words):
                status, output, error = shell('./musmyrtle "$@" <&-', *words)
                self.assertEqual((status, output, error.count("\n")), (2, "", 1))
                self.assertTrue(error.startswith(f"musmyrtle {name}".rstrip() + ": "), error)
                self.assertTrue(error.endswith(closed), error)

    def test_a_file_that_is_a_closed_output(self) -> None:
        signals = [str(EXAMPLES / "signals/cluster.toml"), str(EXAMPLES / "signals/scenario"), "--cycles", "4"]
        status, _, _ = shell('./musmyrtle "$@" 2>&-', "signals", *signals, "--svg", "/dev/stderr")
        self.assertEqual(status, 2)

    def test_a_host_program(self) -> None:
        """Its output gets neither into the record of its world nor into the pipes to it."""
        program, record = self.written("host.py", HOST), self.folder / "record"
        for streams in (">&-", "2>&-", "<&- >&- 2>&-"):
            with self.subTest(streams=streams):
                status, output, error = shell(f'{sys.executable} "$@" {streams}', program, THREE[0], record)
                self.assertEqual(status, 0)
                self.assertEqual(output + error, {">&-": "written", "2>&-": "printed\nwritten"}.get(streams, ""))
                text = record.read_text()
                self.assertEqual((text[:len(RECORD)], "written" in text, "open" in text), (RECORD, False, False))


class Limited(Shows):
    def test_little_memory(self) -> None:
        """A package that can't be loaded is one line, without those of the modules of Python that it needs."""
        for kilobytes in (20_000, 24_000, 27_500):
            limit = f"ulimit -v {kilobytes}; "
            if shell(f"{limit}python3 -c 'import logging'")[0] == 0:
                status, _, error = shell(f'{limit}./musmyrtle "$@"', "log", *THREE)
                self.assertIn((status, error.count("\n")), ((0, 0), (2, 1)), error)

    def test_a_page(self) -> None:
        """Without a buffer, Python drops the rest of a write that is cut off, and raises no error."""
        file, told = self.folder / "page.html", "musmyrtle: the output can't be written: File too large\n"
        for unbuffered in ("PYTHONUNBUFFERED=", "PYTHONUNBUFFERED=1"):
            for words in (["page", *THREE], ["log", *THREE]):
                with self.subTest(words=words, unbuffered=unbuffered):
                    command = f'ulimit -f 1; {unbuffered} ./musmyrtle "$@" > {file}'
                    self.assertEqual(shell(command, *words), (2, "", told))

    def test_the_record_of_a_world(self) -> None:
        """The program reports the file, and isn't ended by a signal."""
        program = self.written("host.py", HOST.replace("world.cycle()", "world.run(200)"))
        status, _, error = shell(f'ulimit -f 1; {sys.executable} "$@"', program, THREE[0], self.folder / "record")
        self.assertEqual(status, 1)
        self.assertIn("SessionOver", error)
        self.assertNotIn("SIGXFSZ", error)
        self.assertIn("record", error.splitlines()[-1])


if __name__ == "__main__":
    unittest.main()
