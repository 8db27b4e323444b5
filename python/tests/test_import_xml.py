"""Tests of XML that has to be refused, or read in bounded memory: bombs, entities, huge and deep files.

Those that need `defusedxml` are skipped without it. Memory is measured in a process of its own.
"""
import os
import subprocess
import sys
from pathlib import Path
from unittest import mock

from musmyrtle.descriptions import collecting, xml_files
from tests.importing import ARXML, FIBEX, Importing, flat, needs_defusedxml
from tests.shows import Shows

TOP = Path(__file__).resolve().parents[1]
NAMESPACE = 'xmlns="http://autosar.org/schema/r4.0"'
BOMB = "".join(f'<!ENTITY e{number + 1} "{f"&e{number};" * 10}">' for number in range(12))
UNSAFE = (
    f'<!DOCTYPE x [<!ENTITY e0 "ha">{BOMB}]><AUTOSAR {NAMESPACE}>&e12;</AUTOSAR>',
    f'<!DOCTYPE x [<!ENTITY e SYSTEM "file:///etc/passwd">]><AUTOSAR {NAMESPACE}>&e;</AUTOSAR>',
    f'<!DOCTYPE x SYSTEM "http://127.0.0.1:1/x.dtd"><AUTOSAR {NAMESPACE}/>',
    f'<!DOCTYPE x [<!ENTITY % e SYSTEM "file:///etc/passwd"> %e;]><AUTOSAR {NAMESPACE}/>',
    f"<!DOCTYPE x><AUTOSAR {NAMESPACE}/>",
)
MEASURED = """
import contextlib, resource, sys
from unittest import mock
from xml.etree.ElementTree import XMLParser
from musmyrtle.show.main import main
if sys.argv[1] == "trusting":
    mock.patch("musmyrtle.descriptions.xml_files.parser_of", lambda target: XMLParser(target=target)).start()
status = main(["import", sys.argv[2]])
print(status, resource.getrusage(resource.RUSAGE_SELF).ru_maxrss // 1024, file=sys.stderr)
"""


def measured(kind: str, file: str) -> str:
    """Returns what an import in a process of its own prints on standard error: at last its status and its memory."""
    return subprocess.run([sys.executable, "-c", MEASURED, kind, file], cwd=TOP, capture_output=True, text=True).stderr


class TestUnsafe(Shows):
    @needs_defusedxml
    def test_bombs_and_references(self) -> None:
        for text in UNSAFE:
            with self.subTest(text=text[:60]):
                file = self.written("bomb.arxml", f"<?xml version='1.0'?>{text}")
                status, output, told = self.asked("import", file)
                self.assertEqual((status, output), (1, ""))
                self.assertEqual(told, f"refused UnsafeXml {file}: DTDForbidden: a document type, an entity or an "
                                       "external reference isn't read\n")

    @needs_defusedxml
    def test_what_is_no_xml(self) -> None:
        for text, told in (("", "line 1, column 1: no element found"),
                           (f"<AUTOSAR {NAMESPACE}>", "line 1, column 49: no element found"),
                           ("no XML", "line 1, column 1: syntax error")):
            status, _, error = self.asked("import", self.written("bad.arxml", text))
            self.assertEqual((status, error), (1, f"refused NotXml {self.folder}/bad.arxml: {told}\n"))

    @needs_defusedxml
    def test_the_example(self) -> None:
        """The parser of strangers' files reads what Python's own reads."""
        self.assertEqual(self.asked("import", str(ARXML))[1], (ARXML.parent / "network.toml").read_text())

    def test_without_the_parser(self) -> None:
        with mock.patch.dict(sys.modules, {"defusedxml": None, "defusedxml.ElementTree": None}):
            status, output, told = self.asked("import", str(ARXML))
        self.assertEqual((status, output), (2, ""))
        self.assertEqual(told, "musmyrtle: import reads XML by defusedxml, which isn't installed: apt install "
                               "python3-defusedxml, or pip install defusedxml\n")


class TestLimits(Importing):
    def test_a_large_file(self) -> None:
        """A file that is too large isn't opened, as the hole of this one shows."""
        with open(self.folder / "large.arxml", "wb") as file:
            file.truncate(xml_files.FILE_LIMIT + 1)
        with mock.patch("builtins.open", side_effect=AssertionError):
            status, _, told = self.asked("import", str(self.folder / "large.arxml"))
        self.assertEqual((status, told), (1, f"refused TooLarge {self.folder}/large.arxml: the files have 536870913 "
                                             "bytes, and at most 536870912 are read\n"))

    def test_a_large_pipe(self) -> None:
        os.mkfifo(self.folder / "pipe")
        with mock.patch.object(xml_files, "FILE_LIMIT", 1000), subprocess.Popen(
                ["sh", "-c", f"cat '{ARXML}' > '{self.folder}/pipe'"], stderr=subprocess.DEVNULL):
            status, _, told = self.asked("import", str(self.folder / "pipe"))
        self.assertEqual((status, told), (1, f"refused TooLarge {self.folder}/pipe: it has more than the 1000 bytes "
                                             "that are read\n"))

    def test_deep_nesting(self) -> None:
        for depth, is_refused in ((250, False), (256, True), (100_000, True)):
            text = f"<AUTOSAR {NAMESPACE}>{'<AR-PACKAGES><AR-PACKAGE>' * (depth // 2)}"
            text += f"{'</AR-PACKAGE></AR-PACKAGES>' * (depth // 2)}</AUTOSAR>"
            self.assertEqual(self.refusals(text)[0].startswith("TooDeep"), is_refused, depth)

    def test_deep_nesting_of_what_is_dropped(self) -> None:
        text = flat(ARXML.read_text()).replace("<ELEMENTS>", f"<ELEMENTS>{'<X>' * 300}{'</X>' * 300}", 1)
        self.assertIn("TooDeep", self.refusals(text)[0])

    def test_a_long_text(self) -> None:
        text = flat(ARXML.read_text()).replace("<SYMBOL-WINDOW>30", f"<SYMBOL-WINDOW>{'3' * 65537}")
        self.assertIn(": a text has more than 65536 characters", self.refusals(text)[0])

    def test_many_elements(self) -> None:
        with mock.patch.object(collecting, "MOST_ELEMENTS", 100):
            self.assertIn(": more than 100 elements would be kept", self.refusals(ARXML.read_text())[0])

    @needs_defusedxml
    def test_a_long_tag(self) -> None:
        """The parser keeps a tag until it ends, and looks at all of it for each piece."""
        for text in (f'<AUTOSAR {NAMESPACE} x="{"y" * 3_000_000}"/>', f"<AUTOSAR {NAMESPACE}><!--{'y' * 3_000_000}-->"):
            file = self.written("long.arxml", text)
            self.assertIn("a tag or a comment has more than 1048576 bytes", measured("defused", file))

    def test_encodings(self) -> None:
        text = ARXML.read_text().replace(">km/h<", ">µm<")
        for name in ("utf-8", "utf-16", "iso-8859-1"):
            (self.folder / "encoded.arxml").write_bytes(text.replace("UTF-8", name).encode(name))
            status, output, told = self.asked("import", str(self.folder / "encoded.arxml"))
            self.assertEqual((status, 'unit = "µm"' in output), (0, True), told)
        (self.folder / "encoded.arxml").write_bytes(text.replace("UTF-8", "klingon").encode())
        self.assertEqual(self.asked("import", str(self.folder / "encoded.arxml"))[0], 1)
        (self.folder / "encoded.arxml").write_bytes(text.encode("iso-8859-1"))
        self.assertEqual(self.asked("import", str(self.folder / "encoded.arxml"))[0], 1)

    def test_memory(self) -> None:
        """Elements that aren't needed take no memory: 20 MB of components cost less than 40 MB."""
        text = flat(ARXML.read_text())
        port = "<P-PORT-PROTOTYPE><SHORT-NAME>P</SHORT-NAME></P-PORT-PROTOTYPE>"
        component = f"<SW-COMPONENT><SHORT-NAME>S</SHORT-NAME><PORTS>{port * 100}</PORTS></SW-COMPONENT>"
        used = []
        for count in (1, 3000):
            file = self.written("big.arxml", text.replace("<ELEMENTS>", f"<ELEMENTS>{component * count}", 1))
            status, memory = measured("trusting", file).splitlines()[-1].split()
            self.assertEqual(status, "0")
            used.append(int(memory))
        self.assertLess(used[1] - used[0], 40)

    def test_fibex_is_dropped_too(self) -> None:
        functions = "<fx:FUNCTIONS><fx:FUNCTION/></fx:FUNCTIONS>"
        text = flat(FIBEX.read_text()).replace("<fx:ELEMENTS>", f"<fx:ELEMENTS>{functions}")
        output, notes = self.imported(text)
        self.assertEqual(output, self.imported(FIBEX.read_text())[0])
        self.assertIn("elements of other kinds aren't read: 1 FUNCTIONS, 1 PROJECT and 1 PROTOCOLS", notes)
