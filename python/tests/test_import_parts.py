"""Tests of parts of `import`: lengths in minislots, filters, names, texts of TOML and conversions, by hand.

With a minislot of 7 macroticks of 1 us and a start sequence of 11 bits, a frame of p words has 95 + 20 p bits. A slow
sender draws them out by 2003/1997 against the 70 bits of a minislot, and one minislot comes before the first action
point. So 4 words take 1 + ceil(175.5 / 70) = 4 minislots, and 100 words 1 + ceil(2101.3 / 70) = 32.
"""
import tomllib
import unittest
from fractions import Fraction

from musmyrtle.cluster import Cycles
from musmyrtle.descriptions.coding import clash_free
from musmyrtle.descriptions.conversions import conversion_of
from musmyrtle.descriptions.elements import Element, every, is_alike, path_of, unread
from musmyrtle.descriptions.minislots import Lengths, in_file
from musmyrtle.descriptions.naming import NameBook
from musmyrtle.descriptions.network import SignalTable, cover
from musmyrtle.descriptions.report import MOST_NAMED, Report
from musmyrtle.descriptions.toml_text import Value, comment, inline, number_text, quoted, value_text

HOSTILE = ('a"b', "a\\b", "a\nb", "a\x1b[31mb", "a\u202eb", "a\x00b", "é" * 300, "a'b", "#", "", "a\ud800b",
           "\U0001f600", "]]")


class TestMinislots(unittest.TestCase):
    def test_on_the_bus(self) -> None:
        """The numbers of a table that was made by another program."""
        for bits, wanted in ((Fraction(40), (4, 6, 8, 20, 68)), (Fraction(50), (3, 5, 7, 16, 54)),
                             (Fraction(70), (3, 4, 5, 12, 39)), (Fraction(100), (2, 3, 4, 9, 28)),
                             (Fraction(275, 4), (3, 4, 5, 12, 40)), (Fraction(275, 2), (2, 3, 3, 7, 21))):
            self.assertEqual(tuple(Lengths(bits, 11).on_the_bus(it) for it in (0, 4, 8, 32, 127)), wanted)
        self.assertEqual([Lengths(Fraction(70), 11).on_the_bus(it) for it in (100, 16)], [32, 7])

    def test_nearest(self) -> None:
        """Over all lengths the nearest numbers are those of the table; over one length it is the one of that length."""
        for bits, wanted in ((40, 2), (50, 2), (70, 3), (100, 5)):
            self.assertEqual(Lengths(Fraction(bits), 11).nearest(range(128)), {"words_per_minislot": wanted})
        # 4 words take 4 minislots with 2 words in each, 3 with 3, and 2 with 4 to 7.
        self.assertEqual(Lengths(Fraction(70), 11).nearest([4]), {"words_per_minislot": 2})
        self.assertEqual(Lengths(Fraction(70), 11).nearest([]), {"words_per_minislot": 3})
        # Each frame counts: 4 words are off by 1 with 3, and 100 words are off by 3 with 3 and by 20 with 2.
        self.assertEqual(Lengths(Fraction(70), 11).nearest([4] * 30 + [100]), {"words_per_minislot": 2})
        self.assertEqual(Lengths(Fraction(70), 11).nearest([4, 100]), {"words_per_minislot": 3})

    def test_in_file(self) -> None:
        self.assertEqual([in_file(*it) for it in ((0, 4), (0, 3), (4, 3), (127, 1))], [1, 2, 3, 131])


class TestFilters(unittest.TestCase):
    def test_cover(self) -> None:
        every: list[list[Cycles]] = [[Cycles(0, 1)], [Cycles(3, 4)], [Cycles(5, 64)], [Cycles(0, 2), Cycles(1, 4)],
                                     [Cycles(0, 64), Cycles(1, 64), Cycles(2, 64)], []]
        for wanted in every:
            bits = sum(it.bits for it in wanted)
            self.assertEqual(cover(bits), wanted)
        self.assertEqual(cover(Cycles(5, 64).bits | Cycles(37, 64).bits), [Cycles(5, 32)])


class TestNames(unittest.TestCase):
    def test_forms(self) -> None:
        report = Report()
        book = NameBook(32, report, "n")
        for word, wanted in (("Speed", "Speed"), ("Speed", "Speed-2"), ("a b/c", "a_b_c"), ("12", "n12"), ("", "_"),
                             ("é", "_"), ("x" * 32, "x" * 32)):
            self.assertEqual(book.name(word).removesuffix("-2") if word == "é" else book.name(word), wanted)
        long = book.name("x" * 33)
        self.assertRegex(long, r"^x{27}\.[0-9a-f]{4}$")
        self.assertNotEqual(long, NameBook(32, report).name("x" * 34))
        self.assertEqual(len(book.name("x" * 33)), 32)
        self.assertIn("a b/c is a_b_c", report.lines()[0])
        self.assertEqual(book.name("Ecu", ".2"), "Ecu.2")

    def test_names_of_signals(self) -> None:
        signals = [SignalTable("", {"name": it}) for it in ("a", "b", "a", "a.2", "a")]
        clash_free(signals, Report())
        self.assertEqual([it.name for it in signals], ["a", "b", "a.2", "a.2.2", "a.3"])

    def test_notes(self) -> None:
        report = Report()
        for number in range(MOST_NAMED + 3):
            report.note("things", str(number))
        self.assertTrue(report.lines()[0].endswith("48, 49 and 3 more"))


class TestToml(unittest.TestCase):
    def test_hostile_texts(self) -> None:
        for text in HOSTILE:
            made = f"x = {quoted(text)} {comment(text)}\ny = {inline({'a.b': text, text: 'z'})}\n"
            found = tomllib.loads(made)
            clean = text.replace("\ud800", "?")
            self.assertEqual((found["x"], found["y"]), (clean, {"a.b": clean, clean: "z"}))
            self.assertTrue(all(line.isprintable() for line in made.splitlines()), made)
            self.assertEqual(made.count("\n"), 2)

    def test_numbers(self) -> None:
        for value, wanted in ((Fraction(1, 100), "0.01"), (Fraction(-1, 8), "-0.125"), (Fraction(3), "3"),
                              (Fraction(1, 3), '"1/3"'), (Fraction(-7, 6), '"-7/6"'), (Fraction(5, 2), "2.5"),
                              (Fraction(10)**20, '"100000000000000000000"'), (Fraction(1, 10**30), f"0.{'0' * 29}1")):
            self.assertEqual(number_text(value), wanted)
        self.assertIsNone(number_text(Fraction(1, 3**200)))
        values: list[Value] = [True, [1, 2], 1.5, "x"]
        self.assertEqual([value_text(it) for it in values], ["true", "[1, 2]", "1.5", '"x"'])


def element(tag: str, *children: Element, text: str = "", **attributes: str) -> Element:
    """Returns an element with children."""
    made = Element(tag, {key.replace("_", "-"): it for key, it in attributes.items()}, None)
    made.text = text
    for it in children:
        it.parent = made
        made.add(it)
    return made


def scale(low: str, high: str, *children: Element) -> Element:
    def end(name: str, word: str) -> Element:
        kind = "INFINITE" if not word else "OPEN" if word.startswith("(") else "CLOSED"
        return element(f"{name}-LIMIT", text=word.strip("()"), INTERVAL_TYPE=kind)
    return element("COMPU-SCALE", end("LOWER", low), end("UPPER", high), *children)


def line(above: str, below: str) -> Element:
    parts = (element(f"COMPU-{name}", *(element("V", text=it) for it in numbers.split()))
             for name, numbers in (("NUMERATOR", above), ("DENOMINATOR", below)))
    return element("COMPU-RATIONAL-COEFFS", *parts)


def text(word: str) -> Element:
    return element("COMPU-CONST", element("VT", text=word))


def method(*scales: Element, category: str = "LINEAR") -> Element:
    return element("COMPU-METHOD", element("CATEGORY", text=category), element(
        "COMPU-INTERNAL-TO-PHYS", element("COMPU-SCALES", *scales)))


class TestConversions(unittest.TestCase):
    def test_lines(self) -> None:
        for scales, wanted in (
                ([scale("0", "100", line("0 1", "10"))], {"factor": Fraction(1, 10), "min": 0, "max": 10}),
                ([scale("0", "100", line("-40 1", "1"))], {"offset": -40, "min": -40, "max": 60}),
                ([scale("0", "100", line("0 -1", "2"))], {"factor": Fraction(-1, 2), "min": -50, "max": 0}),
                ([scale("(0", "100)", line("0 1", "2"))], {"factor": Fraction(1, 2), "min": Fraction(1, 2), "max": 50}),
                ([scale("(0", "(100", line("0 1", "2"))],
                 {"factor": Fraction(1, 2), "min": Fraction(1, 2), "max": Fraction(99, 2)}),
                ([scale("", "100", line("0 1", "2"))], {"factor": Fraction(1, 2)}),
                ([scale("0", "9", line("0 1", "1"))], {"min": 0, "max": 9}),
                ([scale("0", "9", line("1 2", "3"))], {
                    "factor": Fraction(2, 3), "offset": Fraction(1, 3), "min": Fraction(1, 3), "max": Fraction(19, 3)}),
                ([scale("0", "9", line("0 1", "2")), scale("10", "19", line("0 1", "2"))],
                 {"factor": Fraction(1, 2), "min": 0, "max": Fraction(19, 2)}),
                ([scale("0", "0", text("off")), scale("1", "3", text("on"))], {"values": {"0": "off", "1-3": "on"}}),
                ([scale("0", "250", line("0 1", "2")), scale("251", "255", text("bad"))],
                 {"factor": Fraction(1, 2), "min": 0, "max": 125, "values": {"251-255": "bad"}})):
            said: list[str] = []
            found = conversion_of(method(*scales), said.append)
            self.assertEqual((found.keys(), found.raw_since, said), (wanted, "", []))

    def test_what_is_no_line(self) -> None:
        for scales in ([scale("0", "1", line("0 1 1", "1"))], [scale("0", "1", line("0 1", "1 1"))],
                       [scale("0", "1", line("0 1", "0"))], [scale("0", "1", line("5", "1"))],
                       [scale("0", "1", line("0 1", "1")), scale("2", "3", line("0 1", "2"))]):
            said: list[str] = []
            found = conversion_of(method(*scales, category="RAT_FUNC"), said.append)
            self.assertEqual((found.keys(), found.raw_since), ({}, "RAT_FUNC"))
            self.assertEqual(said, ["conversion RAT_FUNC is no straight line, so that values stay raw"])

    def test_texts(self) -> None:
        for scales, values, wanted in (
                ([scale("0", "3", text("a")), scale("3", "4", text("b"))], {(0, 3): "a"}, "several texts"),
                ([scale("0.5", "3", text("a"))], {}, "no whole raw values"),
                ([scale("", "", text("a"))], {}, "no whole"), ([scale("", "5", text("a"))], {(5, 5): "a"}, "one limit"),
                ([scale("1", "1", element("MASK", text="1"), text("a"))], {}, "single bits"),
                ([scale("1", "1")], {}, "neither a line nor a text"),
                ([scale("1", "1", text("a" * 129))], {(1, 1): "a" * 128}, "is cut")):
            said: list[str] = []
            self.assertEqual(conversion_of(method(*scales), said.append).values, values)
            self.assertTrue(any(wanted in it for it in said), said)
        said = []
        conversion_of(element("COMPU-METHOD", element("CATEGORY", text="TAB_NOINTP")), said.append)
        self.assertEqual(said, ["conversion TAB_NOINTP has no scales, so that values stay raw"])
        self.assertEqual(conversion_of(None, said.append).keys(), {})


class TestElements(unittest.TestCase):
    def test_unread(self) -> None:
        """An element that was read is looked into, and one that wasn't stands for all below it."""
        tree = element("A", element("B", element("C"), element("D")), element("E", element("F")), element("B"))
        self.assertEqual(len(every(tree, "B/C")), 1)
        self.assertEqual(sorted(it.tag for it in unread([tree, tree])), ["D", "E"])
        self.assertEqual(path_of(tree.children[0].children[1]), "/A/B/D")

    def test_alike(self) -> None:
        one, other = (element("A", element("B", text="1", x="y"), element("C")) for _ in range(2))
        self.assertTrue(is_alike(one, other))
        other.children[0].text = "2"
        self.assertFalse(is_alike(one, other))
        self.assertFalse(is_alike(one, element("A", element("B", text="1", x="z"), element("C"))))
        self.assertFalse(is_alike(one, element("A", element("B", text="1", x="y"))))


if __name__ == "__main__":
    unittest.main()
