"""Tests of programs that print something else: a command ends with one line, and doesn't show what it can't read."""
import os
import stat
import unittest
from pathlib import Path
from unittest.mock import patch

from musmyrtle.program import VARIABLES
from musmyrtle.show.first_lines import is_foreign
from musmyrtle.version import version
from tests.shows import EXAMPLES, THREE, Shows

OTHER = "#!/bin/sh\necho 'another program 1 2 3'\n"
NOTHING = "#!/bin/sh\nexit 0\n"


class Others(Shows):
    def told(self, text: str, name: str, *words: str) -> tuple[int | str | None, str, str]:
        """Returns what a command does with this program in the place of one."""
        program = Path(self.written("program", text))
        program.chmod(stat.S_IRWXU)
        with patch.dict(os.environ, {VARIABLES[name]: str(program)}):
            status, output, error = self.asked(*words)
        return status, output, error.replace(str(program), "PROGRAM")

    def foreign(self, command: str) -> tuple[int, str, str]:
        """Returns the end of a command whose program prints something else."""
        return 2, "", (f"musmyrtle: PROGRAM {command} doesn't print what musmyrtle {version()} reads: is it another "
                       "program, or one of another version?\n")

    def test_views(self) -> None:
        for command, first in (("log", "record"), ("commits", "record"), ("reads", "record"), ("page", "record"),
                               ("run", "outcome"), ("page --endless", "windows"), ("signals", "record")):
            with self.subTest(command):
                name, *words = command.split()
                self.assertEqual(self.told(OTHER, "fr_view", name, *THREE, *words), self.foreign(first))

    def test_clusters(self) -> None:
        for name, command, first in (("fr_bench", "check", "check"), ("fr_bench", "plan", "plan"),
                                     ("fr_view", "plan", "links")):
            self.assertEqual(self.told(OTHER, name, command, THREE[0]), self.foreign(first))

    def test_recordings(self) -> None:
        recording = str(EXAMPLES / "recordings/disturbed.pcap")
        for text in (OTHER, NOTHING):
            self.assertEqual(self.told(text, "fr_monitor", "monitor", THREE[0], recording), self.foreign("--frames"))

    def test_no_output(self) -> None:
        self.assertEqual(self.told(NOTHING, "fr_bench", "check", THREE[0]), self.foreign("check"))
        self.assertEqual(self.told(NOTHING, "fr_view", "run", *THREE), self.foreign("outcome"))
        for words in ((), ("--endless",)):
            self.assertEqual(self.told(NOTHING, "fr_view", "page", *THREE, *words), self.foreign("windows"))

    def test_forms(self) -> None:
        """A record may be empty. Other commands have readers of their own."""
        for command, first, expected in (
                ("record", None, False), ("record", "0 0 - 1 A - corrupt 3 12", False), ("record", "0 0 1 - B", True),
                ("commits", "0 1 0 2 3 x = pending", False), ("commits", "withdrawn 0 1 2 3 4", False),
                ("links", "0 - static 1 A 0 1 - - - -", False), ("reasons", "sent 1 2", True),
                ("received", "0 0 0 own - - conflict conflict -", False), ("origins", "0 0 3 pop", False),
                ("plan", "dynamic 4 A 2 0 1", False), ("latency", "anything", False), ("windows", None, True)):
            self.assertEqual(is_foreign(command, first), expected, (command, first))


if __name__ == "__main__":
    unittest.main()
