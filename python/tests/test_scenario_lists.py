"""Lines of scenarios with lists, and the lines for which they stand."""
import unittest

from musmyrtle.scenario import Reading, Scenario
from musmyrtle.world.faults import fault_line


def read(body: str, cycles: int = 8) -> Scenario:
    """Returns the scenario of some lines of version 3."""
    return Reading("scenario", f"frscenario 3\n{body}end\n".encode(), cycles).scenario


def refused(body: str) -> tuple[str, str, str, int | None]:
    """Returns the first refusal of some lines: its name, headline, reason and column."""
    name, finding = read(body).refusals[0]
    return name, finding.headline, finding.reason, finding.place.column if finding.place else None


class Lists(unittest.TestCase):
    def test_the_last_list_varies_fastest(self) -> None:
        faults = read("lost 1,2 3,5\n").faults
        self.assertEqual([(it.number, *it.words[1:4]) for it in faults],
                         [(2, node, on, cycle) for node in "12" for cycle in "35" for on in "AB"])

    def test_calls_of_a_list_are_in_the_order_of_cycles(self) -> None:
        calls = [(cycle, line.word("HEX")) for cycle, line in read("commit 0 0 5,1-2 0 x0000,x0001\n").calls(8)]
        self.assertEqual(calls, [(cycle, it) for cycle in (1, 2, 5) for it in ("x0000", "x0001")])

    def test_columns_are_those_of_the_elements(self) -> None:
        faults = read("mute 2 A 0,10-12/2 s1,d7\n", 20).faults
        self.assertEqual([(str(it.cycles), str(it.place), it.column("CYCLES"), it.column("PLACE")) for it in faults],
                         [("0", "s1", 10, 20), ("0", "d7", 10, 23), ("10-12/2", "s1", 12, 20),
                          ("10-12/2", "d7", 12, 23)])

    def test_a_line_is_left_out_if_all_its_lines_are(self) -> None:
        scenario = read("lost 0 7,9\nlost 1 8,9\nexpect-none 0 0,9 1,2\n")
        self.assertEqual(scenario.skipped, [3])
        self.assertEqual([it.number for it in scenario.faults], [2, 2])
        self.assertEqual([it.words for it in scenario.expectations],
                         [("expect-none", "0", "0", "1"), ("expect-none", "0", "0", "2")])

    def test_a_wrong_element_is_named(self) -> None:
        name, headline, _, column = refused("commit 0 0 1,x 0 x0000\n")
        self.assertEqual((name, headline, column), ("BadLine 2", "CYCLES is `x`", 14))
        name, headline, _, column = refused("mute 0,16 A 1 s1\n")
        self.assertEqual((name, headline, column), ("BadLine 2", "NODE is `16`", 8))

    def test_ranges_of_filters(self) -> None:
        """The message has the list that means the same, for up to eight numbers."""
        expected = "Expected `{}`, since only static slots have ranges, without steps. "
        for word, listed in (("d4-6", "d4,d5,d6"), ("m1-9/4", "m1,m5,m9"), ("s1-3/2", "s1,s3"), ("s1,m2-3", "m2,m3")):
            with self.subTest(word):
                self.assertTrue(refused(f"mute 0 A 0 {word}\n")[2].startswith(expected.format(listed)))
        for word in ("d4-12", "d4-4", "d6-4", "d", "x4-6"):
            self.assertTrue(refused(f"mute 0 A 0 {word}\n")[2].startswith("Expected `sN` for static slot N, "), word)
        for word, place in (("3", "s3"), ("3-5", "s3-5"), ("1-5/2", "s1,s3,s5")):
            self.assertIn(f"Expected `{place}` for static slots, or `d` or `m` and each number. ",
                          refused(f"mute 0 A 0 {word}\n")[2])
        self.assertIn("with commas between them, as `2,4,6`.", refused("lost 2-6/2 0\n")[2])
        self.assertIn("with commas between them, as `0,1`.", refused("read 0 0 0 2-60\n")[2])

    def test_an_empty_element_is_named(self) -> None:
        right = "Expected one comma between two elements, and none at the ends."
        for word, column in (("1,", 10), (",1", 8), ("1,,2", 10), (",", 8)):
            with self.subTest(word):
                self.assertEqual(refused(f"lost 0 {word}\n"),
                                 ("BadLine 2", f"the list `{word}` has an empty element", right, column))

    def test_too_many_choices_are_counted(self) -> None:
        name, headline, reason, column = refused(f"read 0,1 0 {','.join(map(str, range(33)))} 0\n")
        self.assertEqual((name, headline, column), (
            "BadLine 2", "the line stands for 66 lines, one for each choice of an element of each list", 1))
        self.assertEqual(reason, "It stands for at most 64. Expected shorter lists, or several lines.")

    def test_too_many_lines_of_all_lists_are_refused_at_the_end(self) -> None:
        long = "read 0 0 " + ",".join(["0"] * 64) + " 0\n"
        self.assertEqual(read(long * 63 + "pop 0 0 0\n" * 62).refusals, [])
        name, headline, _, _ = refused(long * 63 + "pop 0 0 0\n" * 63)
        self.assertEqual((name, headline), (
            "TooManyLines", "the scenario stands for 4097 lines, with the lines of lists counted one by one"))
        place = read(long * 63 + "pop 0 0 0\n" * 70).refusals[0][1].place
        self.assertEqual(place and place.line, 127)
        self.assertEqual(refused(long * 64 + "pop\n")[0], "BadLine 66")

    def test_earlier_versions_have_no_lists(self) -> None:
        scenario = Reading("scenario", b"frscenario 2\nread 0 0 0,1 0\nend\n", 8).scenario
        name, finding = scenario.refusals[0]
        self.assertEqual((name, finding.headline), ("BadLine 2", "CYCLE is `0,1`"))
        self.assertTrue(finding.reason.endswith("`frscenario 3` has this form."))

    def test_a_session_takes_no_lists(self) -> None:
        with self.assertRaisesRegex(ValueError, "has lists. A session takes a fault line for each of the 4 lines"):
            fault_line("lost 1,2 3,5")


if __name__ == "__main__":
    unittest.main()
