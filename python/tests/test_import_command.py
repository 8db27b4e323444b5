"""Tests of the words, the outputs and the failures of `import`."""
import hashlib
import io
import os
import subprocess
import sys
import tomllib
from pathlib import Path
from unittest import mock

from musmyrtle.show import imports
from musmyrtle.version import version
from tests.importing import ARXML, FIBEX, FOLDER, Importing, changed, flat

TOP = Path(__file__).resolve().parents[1]
TRUSTING = """
import sys
from unittest import mock
from xml.etree.ElementTree import XMLParser
from musmyrtle.show.main import main
mock.patch("musmyrtle.descriptions.xml_files.parser_of", lambda target: XMLParser(target=target)).start()
sys.exit(main(["import", *sys.argv[1:]]))
"""
HOSTILE = "a&quot;]\\x\n&#x9b;\u202e" + "é" * 300


class TestWords(Importing):
    def test_wrong_words(self) -> None:
        for words, told in (((), "the following arguments are required: FILE"),
                            ((str(ARXML), "--guard", "C"), "invalid choice"),
                            ((str(ARXML), "--nodez", "a"), "did you mean --nodes?"),
                            ((str(ARXML), "--bit-counting", "x"), "invalid choice"),
                            ((str(ARXML), "--json"), "--json and --csv are forms of the table of --compare CLUSTER"),
                            ((str(self.folder / "none.arxml"),), "none.arxml: No such file or directory"),
                            ((str(self.folder),), f"{self.folder}: Is a directory"), (("a\0b",), "embedded null byte")):
            status, output, error = self.asked("import", *words)
            self.assertEqual((status, output), (2, ""))
            self.assertIn(told, error)

    def test_help(self) -> None:
        text = self.printed("import", "--help")
        for word in ("--nodes", "--split", "--listen", "--guard", "--bit-counting", "--compare", "examples:",
                     "status: 0"):
            self.assertIn(word, text)

    def test_guard(self) -> None:
        for word in ("AB", "A", "B", "none"):
            self.assertEqual(self.tables(ARXML.read_text(), "--guard", word)["guard"], word)


class TestOutput(Importing):
    def test_a_file(self) -> None:
        """It has the version, the digests of the sources and the notes at the top, and otherwise the same lines."""
        file = self.folder / "made.toml"
        status, output, told = self.asked("import", str(ARXML), "-o", str(file))
        self.assertEqual((status, output), (0, ""))
        lines, digest = file.read_text().splitlines(), hashlib.sha256(ARXML.read_bytes()).hexdigest()
        self.assertEqual(lines[:2], [f"# imported by musmyrtle {version()}", f"# network.arxml sha256 {digest}"])
        notes = told.splitlines()
        self.assertEqual(lines[2:2 + len(notes)], [f"# {it}" for it in notes])
        self.assertEqual("\n".join([*lines[2 + len(notes):], ""]), (FOLDER / "network.toml").read_text())
        self.assertEqual(self.asked("check", str(file))[0], 0)

    def test_a_refusal_writes_nothing(self) -> None:
        file = Path(self.written("made.toml", "old"))
        broken = self.written("broken.arxml", ARXML.read_text().replace("<SLOT-ID>1<", "<SLOT-ID>0<"))
        self.assertEqual(self.asked("import", broken, "-o", str(file))[0], 1)
        self.assertEqual(file.read_text(), "old")
        self.assertEqual(sorted(it.name for it in self.folder.iterdir()), ["broken.arxml", "made.toml"])

    def test_an_input_is_never_written(self) -> None:
        copy = Path(self.written("network.arxml", ARXML.read_text()))
        os.link(copy, self.folder / "linked")
        (self.folder / "symbolic").symlink_to(copy)
        for name in ("network.arxml", "linked", "symbolic"):
            status, _, told = self.asked("import", str(copy), "-o", str(self.folder / name))
            self.assertEqual(status, 2)
            self.assertIn("which would be overwritten: name another file", told)
        self.assertEqual(copy.read_text(), ARXML.read_text())

    def test_places_that_cant_be_written(self) -> None:
        for name, told in (("/dev/full", "No space left on device"), (str(self.folder), f"{self.folder} is a folder"),
                           (str(self.folder / "none/made.toml"), "No such file or directory")):
            status, _, error = self.asked("import", str(ARXML), "-o", name)
            self.assertEqual(status, 2)
            self.assertIn(told, error)

    def test_a_folder_without_permission(self) -> None:
        with mock.patch("musmyrtle.show.imports.replace_file", side_effect=PermissionError(13, "Permission denied")):
            status, _, error = self.asked("import", str(ARXML), "-o", str(self.folder / "made.toml"))
        self.assertEqual((status, error), (2, f"musmyrtle: {self.folder}/made.toml: Permission denied\n"))

    def test_streams(self) -> None:
        """A full standard output is status 2; a reader that ends early and a full standard error change nothing."""
        words = [sys.executable, "-c", TRUSTING, str(ARXML)]
        with open("/dev/full", "w") as full:
            ran = subprocess.run(words, cwd=TOP, stdout=full, stderr=subprocess.PIPE, text=True)
            self.assertEqual((ran.returncode, "can't be written: No space left" in ran.stderr), (2, True))
            ran = subprocess.run(words, cwd=TOP, stdout=subprocess.PIPE, stderr=full, text=True)
            self.assertEqual((ran.returncode, ran.stdout), (0, (FOLDER / "network.toml").read_text()))
        above, below = os.pipe()
        os.close(above)
        ran = subprocess.run(words, cwd=TOP, stdout=below, stderr=subprocess.PIPE, text=True)
        os.close(below)
        self.assertEqual(ran.returncode, 0)
        ran = subprocess.run(["sh", "-c", 'exec "$0" "$@" >&-', *words], cwd=TOP, stderr=subprocess.PIPE, text=True)
        self.assertEqual(ran.returncode, 2)

    def test_a_pipe(self) -> None:
        ran = subprocess.run([sys.executable, "-c", TRUSTING, "/dev/stdin"], cwd=TOP, input=ARXML.read_bytes(),
                             capture_output=True)
        self.assertEqual((ran.returncode, ran.stdout), (0, (FOLDER / "network.toml").read_bytes()))

    def test_a_terminal_that_spells_little(self) -> None:
        text = ARXML.read_text().replace(">km/h<", ">µm<").replace("Brakes", "Brüder")
        env = {**os.environ, "PYTHONIOENCODING": "ascii"}
        ran = subprocess.run([sys.executable, "-c", TRUSTING, self.written("it.arxml", text)], cwd=TOP, env=env,
                             capture_output=True)
        self.assertEqual(ran.returncode, 0, ran.stderr)
        self.assertIn('unit = "µm"', ran.stdout.decode())


class TestProgress(Importing):
    def test_on_a_terminal(self) -> None:
        """The line is shown after a while, and removed before anything else is printed."""
        terminal = io.StringIO()
        with mock.patch.object(sys, "stderr", terminal), mock.patch.object(terminal, "isatty", return_value=True):
            progress = imports.Progress()
            progress(1_000_000, 3_000_000)
            progress.last -= 1
            progress(2_000_000, 3_000_000)
            progress.end()
        self.assertEqual(terminal.getvalue(), "\r\x1b[K2 of 3 MB read\r\x1b[K")

    def test_elsewhere(self) -> None:
        terminal = io.StringIO()
        with mock.patch.object(sys, "stderr", terminal):
            progress = imports.Progress()
            progress.last -= 1
            progress(2_000_000, 3_000_000)
            progress.end()
        self.assertEqual(terminal.getvalue(), "")


class TestHostileNames(Importing):
    def test_names(self) -> None:
        """No name of a description breaks the file or a terminal, and each signal is found by another name."""
        for text in (flat(ARXML.read_text()), flat(FIBEX.read_text())):
            for old in ("speed", "Gateway", "Speed", "Brakes", "km/h", "park", "Backbone", "Controller"):
                with self.subTest(old=old):
                    hostile = text
                    for before, after in ((">", "<"), ("/", "<"), ("/", "/")):
                        hostile = hostile.replace(f"{before}{old}{after}", f"{before}{HOSTILE}{after}")
                    made, notes = self.imported(hostile)
                    found, cluster = tomllib.loads(made), self.written("made.toml", made)
                    self.assertEqual(len(found["node"]), 3)
                    self.assertTrue(all(line.isprintable() for line in [*made.splitlines(), *notes]))
                    self.assertEqual(self.asked("check", cluster)[0], 0)
                    self.assertEqual(self.asked("decode", cluster, "0", "0", "x" + "00" * 16)[0], 0)

    def test_names_of_refusals(self) -> None:
        text = flat(ARXML.read_text()).replace(">speed<", f">{HOSTILE}<").replace("/speed<", f"/{HOSTILE}<")
        for line in self.refusals(changed(text, ("<LENGTH>16<", "<LENGTH>0<"))):
            self.assertTrue(line.isprintable())

    def test_names_that_are_alike(self) -> None:
        """Two names that are one in the form of cluster files stay two."""
        text = flat(ARXML.read_text())
        for old, new in (("speed", "a ü"), ("gear", "a ö")):
            text = text.replace(f">{old}<", f">{new}<").replace(f"/{old}<", f"/{new}<")
        names = [it["name"] for it in self.tables(text)["frame"][0]["signal"]]
        self.assertEqual(names[:3], ["a__", "acceleration", "a__-2"])

    def test_two_frames_of_one_name(self) -> None:
        """Frames of two packages may have one name."""
        text = flat(ARXML.read_text())
        frame = text[text.index("<FLEXRAY-FRAME><SHORT-NAME>Pressure"):]
        frame = frame[:frame.index("</FLEXRAY-FRAME>") + len("</FLEXRAY-FRAME>")]
        other = "<AR-PACKAGE><SHORT-NAME>Other</SHORT-NAME><ELEMENTS>" + frame.replace(">Pressure<", ">Speed<") + \
            "</ELEMENTS></AR-PACKAGE>"
        text = text.replace(frame, "").replace("<AR-PACKAGES>", f"<AR-PACKAGES>{other}").replace(
            "/Network/Pressure<", "/Other/Speed<")
        found = self.tables(text)
        self.assertEqual([(it["name"], it["bytes"]) for it in found["frame"]],
                         [("Speed", 16), ("Speed-2", 12), ("Diagnosis", 33)])
        self.assertEqual([it["frame"] for it in found["node"][0]["buffer"]], ["Speed", "Speed-2", "Diagnosis"])
