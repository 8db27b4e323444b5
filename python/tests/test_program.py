"""Tests of the choice of the program: the one that a launcher has noted, or otherwise the launcher itself."""
import contextlib
import io
import tomllib
import unittest
from contextlib import chdir
from pathlib import Path
from tempfile import TemporaryDirectory
from unittest.mock import patch

from musmyrtle import program
from musmyrtle.program import Answer, ask, itself
from musmyrtle.version import version

NAME = "fr_view"
BUILT = f"crates/{NAME}/out"


class Noted(unittest.TestCase):
    def setUp(self) -> None:
        folder = TemporaryDirectory()
        self.addCleanup(folder.cleanup)
        self.checkout = Path(folder.name).resolve()
        for place in (".", "dist", BUILT, "elsewhere"):
            (self.checkout / place).mkdir(parents=True, exist_ok=True)
            self.runnable(self.checkout / place / NAME)
        patched = patch.object(program, "CHECKOUT", self.checkout)
        patched.start()
        self.addCleanup(patched.stop)
        self.launcher = str(self.checkout / NAME)

    def runnable(self, file: Path) -> None:
        file.write_text("#!/bin/sh\n")
        file.chmod(0o755)

    def note(self, data: bytes) -> None:
        (self.checkout / "out").mkdir(exist_ok=True)
        (self.checkout / f"out/{NAME}.found").write_bytes(data)

    def test_the_folder_that_is_noted(self) -> None:
        for folder in ("dist", BUILT):
            self.note(f"{folder}\n{folder}/digests\nelsewhere\n".encode())
            self.assertEqual(itself(self.launcher), str(self.checkout / folder / NAME))

    def test_no_such_note(self) -> None:
        self.assertEqual(itself(self.launcher), self.launcher)
        for data in (b"", b"\n", f"dist/{NAME}\n".encode(), b"elsewhere\n", b"dist/\n", b" dist\n", b"dist\r\n",
                     b"crates/fr_world/out\n", str(self.checkout / "dist").encode(), b"\xff\ndist\n", b"d\0\n",
                     b"..\n"):
            self.note(data)
            self.assertEqual(itself(self.launcher), self.launcher, data)

    def test_a_note_that_cannot_be_read(self) -> None:
        (self.checkout / f"out/{NAME}.found").mkdir(parents=True)
        self.assertEqual(itself(self.launcher), self.launcher)

    def test_a_program_that_cannot_be_run(self) -> None:
        self.note(b"dist\n")
        built = self.checkout / "dist" / NAME
        built.chmod(0o644)
        self.assertEqual(itself(self.launcher), self.launcher)
        built.unlink()
        self.assertEqual(itself(self.launcher), self.launcher)
        built.mkdir()
        self.assertEqual(itself(self.launcher), self.launcher)

    def test_another_program_than_a_launcher(self) -> None:
        self.note(b"dist\n")
        other = str(self.checkout / "elsewhere" / NAME)
        self.assertEqual(itself(other), other)

    def test_a_name_that_is_looked_for_on_the_path(self) -> None:
        self.note(b"dist\n")
        with chdir(self.checkout):
            self.assertEqual(itself(NAME), NAME)
            self.assertEqual(itself(f"./{NAME}"), str(self.checkout / "dist" / NAME))


class Asked(unittest.TestCase):
    def answer(self, lines: str) -> tuple[Answer, str]:
        """Returns the answer of a program that refuses with these lines, and the output meanwhile."""
        with TemporaryDirectory() as folder:
            program = Path(folder) / NAME
            program.write_text(f"#!/bin/sh\nprintf '{lines}' >&2\nexit 1\n")
            program.chmod(0o755)
            shown = io.StringIO()
            with contextlib.redirect_stderr(shown):
                return ask(str(program), ["check"]), shown.getvalue()

    def test_lines_of_a_launcher(self) -> None:
        answer, shown = self.answer(f"{NAME}: building\\nrefused Read\\n{NAME}: no such file: x\\n")
        self.assertEqual((answer, shown), (Answer(1, "Read"), f"{NAME}: building\n"))


class Version(unittest.TestCase):
    def test_the_one_file(self) -> None:
        file = Path(program.__file__).with_name("VERSION")
        settings = tomllib.loads((program.CHECKOUT / "python/pyproject.toml").read_text())
        self.assertEqual(settings["project"]["dynamic"], ["version"])
        self.assertEqual(version(), file.read_text().strip())


if __name__ == "__main__":
    unittest.main()
