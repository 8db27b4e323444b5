"""The texts of `BadLine`: what is wrong with a line that is no request, and what to write."""
import os
import re
import unittest
from pathlib import Path

from musmyrtle import BadLine, World
from musmyrtle.world.bad_lines import REQUESTS, why_no_request
from tests.shows import THREE

TOP = Path(__file__).resolve().parents[2]
LINES = (
    ("commit 0 0 0 0 x0a0b", "expected `commit NODE TASK BUFFER HEX`, without the cycle that a scenario has"),
    ("read 1 0 3 1", "expected `read NODE TASK BUFFER`, without the cycle that a scenario has"),
    ("commit brake 0 0 x0a0b", "NODE is `brake`, and has to be a number from 0 to 15; names are for scenarios"),
    ("read 1 0 position", "BUFFER is `position`, and has to be a number from 0 to 63; names are for scenarios"),
    ("read 1 0 64", "BUFFER is `64`, and has to be a number from 0 to 63; expected `read NODE TASK BUFFER`"),
    ("commit 0 0 0 x0A0B", "HEX is `x0A0B`, and has to be `x` and two lower-case hexadecimal digits for each byte"),
    ("commit 0 0 0 0a0b", "HEX is `0a0b`, and has to be `x` and two lower-case"),
    ("now\r", "the line ends with a carriage return; requests end with a line feed alone"),
    ("frscenario 3", "`frscenario` is for scenarios"), ("end", "`end` is for scenarios"),
    ("expect 1 0 1 x0a0b", "`expect` is for scenarios"),
    ("comit 0 0 0 x0a0b", "no request begins with `comit`; is `commit` meant?"),
    ("quit now please", "no request begins with `quit`"),
    ("status 0", "expected `status NODE CH`"), ("status 0 AB", "CH is `AB`, and has to be `A` or `B`"),
    ("babble 2 A", "expected `babble NODE CH HEX` or `babble NODE CHS CYCLES PLACE HEX`"),
    ("read  1 0 1", "expected one space between two words, and none at the ends"),
    ("run 04", "N is `04`, and has to be a number from 0 to 1024"),
    ("mute brake AB 0 s1", "Names of nodes are for scenarios"),
    ("mute 2 AB 0 s9999", "N from 1 to 8000, in `mute NODE CHANNELS CYCLES PLACE`: mute 2"),
    ("corrupt AC 0 s1 3", "no fault line: CHANNELS is `AC`"), ("lost brake 0", "Names of nodes are for scenarios"),
    ("lost", "the line has 1 words, and `lost` has 3. Expected `lost NODE CYCLES`: lost"),
    ("lost # 3", "the line has 1 words, and `lost` has 3. Expected `lost NODE CYCLES`: lost"),
    ("mute 0 A # c", "expected `mute NODE CH` or `mute NODE CHS CYCLES PLACE`"),
    ("run 1025", "N is `1025`, and has to be a number from 0 to 1024"),
    ("commit 0 0 0 x" + "00" * 700, "a request has at most 1200 bytes"),
)


class Lines(unittest.TestCase):
    def test_reasons(self) -> None:
        for line, why in LINES:
            with self.subTest(line=line[:40]):
                self.assertIn(why, f"{why_no_request(line)}: {line}")

    def test_the_requests_are_those_of_the_document(self) -> None:
        table = (TOP / "docs/WORLD.md").read_text().partition("### Requests and replies")[2].partition("###")[0]
        forms = {it for row in table.splitlines() if row.startswith("| `")
                 for it in re.findall(r"`([^`]+)`", row.split(" | ")[0])}
        self.assertEqual(forms, {f"{kind} {it}".rstrip() for kind, its in REQUESTS.items() for it in its})

    @unittest.skipUnless(os.environ.get("MUSMYRTLE_WORLD"), "no program is named")
    def test_the_program_refuses_each(self) -> None:
        with World(THREE[0], cycles=4) as world:
            for number, (line, why) in enumerate(LINES, 1):
                with self.subTest(line=line[:40]), self.assertRaises(BadLine) as refused:
                    world.ask(line)
                self.assertTrue(str(refused.exception).startswith(f"BadLine {number}: "))
                self.assertIn(why, str(refused.exception))


if __name__ == "__main__":
    unittest.main()
