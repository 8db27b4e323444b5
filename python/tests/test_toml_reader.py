"""Tests of TOML texts with their values, and of texts that aren't TOML, each with the place of the mistake."""
import math
import tomllib
import unittest
from random import Random

from musmyrtle.places import Places
from musmyrtle.toml_reader import Reader
from musmyrtle.toml_tables import BY_HEADER, Table
from musmyrtle.toml_values import Moment, NoToml
from tests.cases import Cases

VALUES = {
    "0": 0, "+7": 7, "-0": 0, "1_000": 1000, "0x1_F": 31, "0o17": 15, "0b101": 5, "9223372036854775807": 2**63 - 1,
    "-9223372036854775808": -(2**63), "1.5": 1.5, "-1_0.0_1": -10.01, "2e3": 2000.0, "1.5E-1": 0.15, "1e-400": 0.0,
    "inf": math.inf, "-inf": -math.inf, "true": True, "false": False, '""': "", "''": "",
    r'"a\tb\\\"\u00e9\U0001f600"': 'a\tb\\"é😀',
    r"'a\tb\'": "a\\tb\\", r'"\e\x41"': "\x1bA", '"""\nx\ny"""': "x\ny", '"""\r\nx\r\ny"""': "x\ny",
    "'''\nx'y''z'''": "x'y''z", '"""x"""""': 'x""', "'''x''''": "x'", '"""a\\\n  \n  b"""': "ab",
    '"""a\\  \n b"""': "ab",
    "[]": [], "[ 1 , 2, ]": [1, 2], "[ # a\n1 # b\n, # c\n]": [1], "[[1], ['a', 2.0]]": [[1], ["a", 2.0]],
    "{}": {}, "{a = 1, b.c = 2, b.d = 3}": {"a": 1, "b": {"c": 2, "d": 3}}, "{\n# one\na = 1, # two\n}": {"a": 1},
    "1979-05-27": Moment("1979-05-27"), "2000-02-29 07:32:60.5-07:00": Moment("2000-02-29 07:32:60.5-07:00"),
    "1979-05-27t07:32z": Moment("1979-05-27t07:32z"), "07:32": Moment("07:32"),
    "23:59:59.123456789": Moment("23:59:59.123456789"),
}
DOCUMENTS = {
    "": {}, "# only a comment": {}, "a = 1\r\n\r\nb = 2": {"a": 1, "b": 2}, "\t a\t=\t1 # one": {"a": 1},
    '"a b" = 1\n\'c"\' = 2\n"" = 3\n"\\u0061" = 4': {"a b": 1, 'c"': 2, "": 3, "a": 4},
    "1.2 = 3\n-_ = 4": {"1": {"2": 3}, "-_": 4}, "a . 'b' = 1\na.c = 2": {"a": {"b": 1, "c": 2}},
    "[a.b]\nc = 1\n[a]\nd = 2": {"a": {"b": {"c": 1}, "d": 2}}, "[ a . b ] # c": {"a": {"b": {}}},
    "[[a]]\nb = 1\n[[a]]\n[a.c]\nd = 2\n[[a.e]]\n[[a.e]]": {"a": [{"b": 1}, {"c": {"d": 2}, "e": [{}, {}]}]},
    "[a]\nb.c = 1\n[a.b.d]\ne = 2": {"a": {"b": {"c": 1, "d": {"e": 2}}}},
    "[a.b.c]\n[a]\nb.d = 1": {"a": {"b": {"c": {}, "d": 1}}},
}
NONE = {
    "a = 1 b = 2": "1:7", "a": "1:2", "a =": "1:4", "a = \nb = 1": "1:5", "= 1": "1:1", "a. = 1": "1:4",
    "a..b = 1": "1:3",
    "ä = 1": "1:1", "[]": "1:2", "[a": "1:3", "[a]]": "1:4", "[[a]": "1:4", "[[a] ]": "1:4", "[a] b": "1:5",
    "[a.]": "1:4",
    "a = 1\na = 2": "2:1", "[a]\n[a]": "2:2", "[a]\n[[a]]": "2:3", "[[a]]\n[a]": "2:2", "a.b = 1\n[a]": "2:2",
    "a = 1\n[a.b]": "2:2", "a = []\n[[a]]": "2:3", "a = {}\n[a.b]": "2:2", "a = {}\na.b = 1": "2:1",
    "[a.b.c]\n[a]\nb.c.d = 1": "3:3", "[[a.b]]\n[a]\nb.c = 1": "3:1", "a = {b = 1, b = 2}": "1:13",
    "a = {b = {}, b.c = 2}": "1:14", "a = [1 2]": "1:8", "a = [1,, 2]": "1:8", "a = [": "1:6", "a = {b}": "1:7",
    "a = {,}": "1:6", "a = {b = 1": "1:11", "a = 'x": "1:5", "a = 'x\n'": "1:5", 'a = "x\\"': "1:5",
    'a = """x""': "1:5",
    'a = """x""""""': "1:14", r'a = "\q"': "1:5", r'a = "\ud800"': "1:5", r'a = "\U00110000"': "1:5",
    "a = \"\x01\"": "1:6",
    "a = 1 # \x7f": "1:9", "a = 1\rb = 2": "1:6", "a = 01": "1:5", "a = 1_": "1:5", "a = 1__0": "1:5", "a = .5": "1:5",
    "a = 1.": "1:5", "a = 1e": "1:5", "a = +0x1": "1:5", "a = 0XA": "1:5", "a = tru": "1:5", "a = 2001-02-29": "1:5",
    "a = 24:00": "1:5", "a = 1979-13-01": "1:5", "a = 1979-05-27T": "1:5", "a = 9223372036854775808": "1:5",
    "a = -9223372036854775809": "1:5", "a = 0x8000000000000000": "1:5", "a = 1e309": "1:5", f"a = {'9' * 5000}": "1:5",
    f"{'a.' * 80}a = 1": "1:1", f"[{'a.' * 80}a]": "1:2", f"a = {'[' * 81}{']' * 81}": "1:85",
    f"a = {'{a=' * 81}1{'}' * 81}": "1:245",
}
DEEPEST = (f"{'a.' * 79}a = {'[' * 80}{']' * 80}", f"[{'a.' * 79}a]\n{'b.' * 79}b = 1", f"a = {'{a=' * 80}1{'}' * 80}")
PARTS = ("a", "b", "[", "]", "{", "}", "=", ",", ".", "\n", " ", "#", '"', "'", "1", "[a]\n", "[[a]]\n", "a.b = 1\n",
         "a = {b = 1}\n",
         "[a.b]\n", "b = [1, 2]\n", "\\", "-", "true", '"""', "'''", "\t", "\r\n", "1979-05-27", "07:32:00", "0x1",
         "1.5")


class Texts(Cases):
    def read(self, text: str) -> Table:
        return Reader(text).document()

    def is_accepted(self, text: str) -> bool:
        try:
            self.read(text)
        except NoToml as error:
            Places("file", text, Table(BY_HEADER)).at(error.at)
            return False
        return True

    def test_values(self):
        for spelling, value in VALUES.items():
            with self.subTest(spelling=spelling):
                found = self.read(f"key = {spelling}\n")["key"]
                self.assertEqual(repr(plain(found)), repr(plain(value)))
                self.assertEqual(str(found) if isinstance(found, Moment) else found,
                                 str(value) if isinstance(value, Moment) else value)
        self.assertTrue(math.isnan(self.read("key = +nan")["key"]))

    def test_documents(self):
        for text, document in DOCUMENTS.items():
            with self.subTest(text=text):
                self.assertEqual(self.read(text), document)

    def test_texts_that_are_none(self):
        for text, place in NONE.items():
            with self.subTest(text=text[:40]):
                with self.assertRaises(NoToml) as caught:
                    self.read(text)
                self.assertEqual(str(Places("f", text, Table(BY_HEADER)).at(caught.exception.at)), f"f:{place}")

    def test_the_deepest(self):
        for text in DEEPEST:
            self.assertTrue(self.is_accepted(text), text[:40])

    def test_the_program_reads_the_same(self):
        """A text that is TOML is refused for its missing parameters."""
        for texts, refusal in (((*DOCUMENTS, *DEEPEST), "Params Missing static_slots"), (NONE, "Toml")):
            for text in texts:
                with self.subTest(text=text[:40]):
                    _, answer = self.look(text)
                    self.assertEqual(answer.refusal, refusal)

    def test_tomllib_reads_the_same(self):
        """Of random texts `tomllib` accepts none that isn't accepted here, and has the same values."""
        random = Random(1)
        taken = 0
        for _ in range(3000):
            text = "".join(random.choice(PARTS) for _ in range(random.randint(1, 9)))
            try:
                wanted = tomllib.loads(text)
            except tomllib.TOMLDecodeError:
                continue
            taken += 1
            with self.subTest(text=text):
                self.assertEqual(repr(plain(self.read(text))), repr(plain(wanted)))
        self.assertGreater(taken, 100)


def plain(value: object) -> object:
    """Returns the value without the kinds of tables, and with each date as `moment`."""
    if isinstance(value, dict):
        return {key: plain(held) for key, held in value.items()}
    if isinstance(value, list):
        return [plain(held) for held in value]
    return value if isinstance(value, (str, bool, int, float)) else "moment"


if __name__ == "__main__":
    unittest.main()
