"""Tests of the tables `[[frame]]` of cluster files: what is read, and the words and the place of each fault."""
import unittest
from fractions import Fraction
from pathlib import Path
from tempfile import TemporaryDirectory

from musmyrtle.signals.exact import exact_text, exact_value
from musmyrtle.signals.frames import Definitions
from musmyrtle.signals.signal import Coding, NamedValues, Order, Signal
from musmyrtle.texts import read_text

FRAME = '''[[frame]]
name = "Speed"
bytes = 16
unused = 255
signal = [
  {name = "speed", bit = 7, bits = 16, order = "big", factor = 0.01, min = 0, max = 655.34, invalid = 65535},
  {name = "gear", bit = 28, bits = 4, values = {0 = "park", 1 = "drive", 2-5 = "reserved"}, initial = 1},
  {name = "mode", bit = 32, bits = 8, unit = "1", update = [16, 17]},
  {name = "torque", bit = 40, bits = 32, float = true, when = {mode = 1}},
  {name = "serial", bit = 96, bits = 32, bytes = true, initial = "x01020304"},
]
'''
FAULTS = (
    ("2:1", ("`name` of frame 0 is 7", "letters, digits"), '"Speed"', "7"),
    ("2:1", ('`name` of frame the speed is "the speed"',), '"Speed"', '"the speed"'),
    ("1:1", ("frame Speed has no `bytes`", "a whole number from 1 to 254"), "bytes = 16\n", ""),
    ("3:1", ("`bytes` of frame Speed is 255",), "bytes = 16", "bytes = 255"),
    ("4:1", ("`unused` of frame Speed is 256", "from 0 to 255"), "255\n", "256\n"),
    ("5:1", ("`signal` of frame Speed is a table", "an array of at most 1024 tables"), "signal = [",
     "signal = {}\nx = ["),
    ("1:1", ("`frame` at the top of the file is a table", "`[[frame]]`, with two brackets"), "[[frame]]", "[frame]"),
    ("6:4", ('`name` of signal a=b of frame Speed is "a=b"',), '"speed"', '"a=b"'),
    ("6:3", ("signal speed of frame Speed has no `bit`", "from 0 to 127, since the frame has 16 bytes"), "bit = 7, ",
     ""),
    ("6:20", ("`bit` of signal speed of frame Speed is 128",), "bit = 7", "bit = 128"),
    ("6:29", ("`bits` of signal speed of frame Speed is 65", "from 1 to 64"), "bits = 16", "bits = 65"),
    ("6:29", ("`bits` of signal speed of frame Speed is 0",), "bits = 16", "bits = 0"),
    ("6:31", ("signal speed of frame Speed ends in byte 17, and the frame has 16 bytes",
              "From bit 127 on it has room for 8 bits"), "bit = 7,", "bit = 127,"),
    ("7:30", ("signal gear of frame Speed ends in byte 17", "room for 2 bits"), "bit = 28", "bit = 126"),
    ("6:40", ('`order` of signal speed of frame Speed is "motorola"', '"little" or "big"'), '"big"', '"motorola"'),
    ("6:55", ("`factor` of signal speed of frame Speed is 0", "another number than 0"), "0.01", "0"),
    ("6:55", ("`factor` of signal speed of frame Speed is \"1/0\"", 'a text such as "1/3"'), "0.01", '"1/0"'),
    ("6:55", ("`factor` of signal speed of frame Speed is nan",), "0.01", "nan"),
    ("6:55", ("`factor` of signal speed of frame Speed is true",), "0.01", "true"),
    ("6:55", ("`factor` of signal speed of frame Speed is 0.0", "1e-100"), "0.01", "1e-999999999"),
    ("6:70", ("`min` of signal speed of frame Speed is 656", "not above `max`, which is 655.34"), "min = 0",
     "min = 656"),
    ("6:93", ("`invalid` of signal speed of frame Speed is 65536", "from 0 to 65535"), "65535", "65536"),
    ("7:39", ("`values` of signal gear of frame Speed is 1", "a table of names"),
     '{0 = "park", 1 = "drive", 2-5 = "reserved"}', "1"),
    ("7:49", ("has the key `p`", "two as 2-5"), "0 =", "p ="),
    ("7:74", ("has the key `5-2`", "the first not above the second"), "2-5", "5-2"),
    ("7:74", ("`1-5` in `values` of signal gear of frame Speed has raw values of `1` too",), "2-5", "1-5"),
    ("7:49", ("`0` in `values` of signal gear of frame Speed is 7", "Expected a name"), '"park"', "7"),
    ("7:93", ("`initial` of signal gear of frame Speed is 16", "from 0 to 15"), "initial = 1", "initial = 16"),
    ("7:93", ('`initial` of signal gear of frame Speed is "drive"',), "initial = 1", 'initial = "drive"'),
    ("8:51", ("`update` of signal mode of frame Speed is an array of 2", "from 0 to 127"), "17]", "128]"),
    ("8:39", ("`unit` of signal mode of frame Speed is 1", "a string"), '"1"', "1"),
    ("9:56", ("`when` of signal torque of frame Speed is 1", "as {mode = 1}"), "{mode = 1}", "1"),
    ("9:64", ("frame Speed has no signal mood, which `when` of torque names",), "{mode = 1}", "{mood = 1}"),
    ("9:64", ("`when` of torque in frame Speed names serial", "can't select"), "{mode = 1}", "{serial = 1}"),
    ("9:64", ("`mode` in `when` of torque in frame Speed is 256", "from 0 to 255"), "{mode = 1}", "{mode = 256}"),
    ("9:31", ("`bits` of signal torque of frame Speed is 24", "16, 32 or 64"), "40, bits = 32", "40, bits = 24"),
    ("9:42", ('`float` of signal torque of frame Speed is "yes"', "true or false"), "float = true", 'float = "yes"'),
    ("10:31", ("`bits` of signal serial of frame Speed is 31", "a multiple of 8"), "96, bits = 32", "96, bits = 31"),
    ("10:21", ("`bit` of signal serial of frame Speed is 95", "bit 0 of a byte, as 88"), "bit = 96", "bit = 95"),
    ("10:56", ("`initial` of signal serial of frame Speed is \"x01\"", "4 bytes"), '"x01020304"', '"x01"'),
    ("10:56", ("`factor` of signal serial of frame Speed is 2", "no such key"), "bytes = true, ",
     "bytes = true, factor = 2, "),
    ("10:56", ("`bytes` of signal serial", "at most one of", "`float` is true"), "bytes = true,",
     "float = true, bytes = true,"),
    ("7:4", ("frame Speed has two signals with the name speed",), '"gear"', '"speed"'),
)
"""The place of each fault, its words, and the change that makes it."""


class Folders(unittest.TestCase):
    def setUp(self) -> None:
        folder = TemporaryDirectory()
        self.addCleanup(folder.cleanup)
        self.folder = Path(folder.name)

    def read(self, text: str) -> Definitions:
        return Definitions.of(read_text(str(self.folder / "cluster.toml"), text.encode()))

    def told(self, text: str) -> list[tuple[str, str]]:
        """Returns the place of each fault without the folder, and its words."""
        return [(str(it.place).replace(f"{self.folder}/", ""),
                 " ".join([it.headline, it.reason, *(f"{note.text} {note.place}" for note in it.notes)]))
                for it in self.read(text).faults]


class TestReading(Folders):
    def test_all_keys(self) -> None:
        found = self.read(FRAME)
        self.assertEqual(found.faults, [])
        layout = found.layouts["Speed"]
        self.assertEqual((layout.length, layout.unused, list(layout.signals)),
                         (16, 255, ["speed", "gear", "mode", "torque", "serial"]))
        self.assertEqual(layout.signals["speed"], Signal(
            "speed", 7, 16, Order.BIG, factor=Fraction(1, 100), least=Fraction(0), most=Fraction(65534, 100),
            invalid=65535))
        self.assertEqual(layout.signals["gear"], Signal("gear", 28, 4, initial=1, values=(
            NamedValues(0, 0, "park"), NamedValues(1, 1, "drive"), NamedValues(2, 5, "reserved"))))
        self.assertEqual(layout.signals["mode"], Signal("mode", 32, 8, unit="1", update=(16, 17)))
        self.assertEqual(layout.signals["torque"],
                         Signal("torque", 40, 32, coding=Coding.FLOAT, initial=0.0, when=(("mode", 1),)))
        self.assertEqual(layout.signals["serial"],
                         Signal("serial", 96, 32, coding=Coding.BYTES, initial=b"\1\2\3\4"))

    def test_faults(self) -> None:
        for place, words, old, new in FAULTS:
            with self.subTest(new=new, words=words):
                self.assertIn(old, FRAME)
                told = self.told(FRAME.replace(old, new, 1))
                self.assertTrue(told, "there is no fault")
                self.assertEqual(told[0][0], f"cluster.toml:{place}", told)
                for word in words:
                    self.assertIn(word, told[0][1])

    def test_each_change_has_one_fault(self) -> None:
        """A fault of a signal has no second one, as that its `when` names an unknown selector."""
        for _, _, old, new in FAULTS:
            with self.subTest(new=new):
                self.assertEqual(len(self.told(FRAME.replace(old, new, 1))), 1)

    def test_a_name_twice(self) -> None:
        second = '[[frame]]\nname = "Speed"\nbytes = 1\n'
        self.assertEqual(self.told(FRAME + second), [
            ("cluster.toml:13:1", f"two frames have the name Speed Expected each name once. the first one "
                                  f"{self.folder}/cluster.toml:2:1")])

    def test_digits_with_underscores(self) -> None:
        """The decimals are those of the file: these are more than a float has."""
        found = self.read(FRAME.replace("0.01", "0.000_000_000_000_000_000_1").replace("min = 0, max = 655.34, ", ""))
        self.assertEqual(found.layouts["Speed"].signals["speed"].factor, Fraction(1, 10**19))

    def test_no_frames(self) -> None:
        self.assertEqual((self.read("").layouts, self.read("").faults), ({}, []))


class TestSecondFile(Folders):
    FIRST = 'signals = "signals.toml"\n'

    def written(self, text: str, name: str = "signals.toml") -> None:
        (self.folder / name).write_text(text)

    def test_a_second_file(self) -> None:
        self.written(FRAME)
        found = self.read(f'{self.FIRST}[[frame]]\nname = "Other"\nbytes = 2\n')
        self.assertEqual((found.faults, list(found.layouts)), ([], ["Other", "Speed"]))

    def test_places_in_it(self) -> None:
        self.written(FRAME.replace("255", "256"))
        self.assertEqual([place for place, _ in self.told(self.FIRST)], ["signals.toml:4:1"])

    def test_a_name_in_both_files(self) -> None:
        self.written(FRAME)
        (place, words), = self.told(f"{self.FIRST}{FRAME}")
        self.assertEqual(place, "signals.toml:2:1")
        self.assertIn("two frames have the name Speed", words)
        self.assertIn("cluster.toml:3:1", words)

    def test_faults(self) -> None:
        (self.folder / "folder").mkdir()
        self.written("[[frame]\n", "broken.toml")
        self.written("other = 1\n", "other.toml")
        self.written(f'{self.FIRST}{FRAME}', "third.toml")
        for value, place, words in (
                ("7", "cluster.toml:1:1", "`signals` at the top of the file is 7"),
                ('""', "cluster.toml:1:1", 'is "" Expected the name of a file'),
                ('"none.toml"', "cluster.toml:1:1", "the file none.toml of `signals` isn't there"),
                ('"folder"', "cluster.toml:1:1", "the file folder of `signals` is no file"),
                ('"broken.toml"', "broken.toml:1:8", "the header has no end"),
                ('"other.toml"', "None", "the file has no `[[frame]]`"),
                ('"third.toml"', "third.toml:1:1", "the file has a key `signals` too")):
            with self.subTest(value=value):
                told = self.told(f"signals = {value}\n")
                self.assertEqual(told[0][0], place)
                self.assertIn(words, told[0][1])


class TestExact(unittest.TestCase):
    def test_texts(self) -> None:
        for text, value in (("0.01", Fraction(1, 100)), ("1/3", Fraction(1, 3)), ("-2/4", Fraction(-1, 2)),
                            ("1e-3", Fraction(1, 1000)), ("+7", Fraction(7)), ("0", Fraction(0)),
                            ("0.1234567890123456789", Fraction(1234567890123456789, 10**19))):
            self.assertEqual(exact_text(text), value, text)
        for text in ("", "1/0", "1/3/3", "1.", ".5", "0x10", "1e999", "nan", "inf", " 1", "1e-101", "1" * 61):
            self.assertIsNone(exact_text(text), text)

    def test_values_of_programs(self) -> None:
        self.assertEqual(exact_value(0.1), Fraction(1, 10))
        self.assertEqual(exact_value(Fraction(1, 3)), Fraction(1, 3))
        self.assertIsNone(exact_value(float("nan")))
        self.assertIsNone(exact_value(1e300))
        self.assertEqual((exact_value(10**100), exact_value(10**100 + 1)), (Fraction(10**100), None))


if __name__ == "__main__":
    unittest.main()
