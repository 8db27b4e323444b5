"""Tests of the job log of a campaign: its notes, how it is resumed, and which logs it refuses."""
import json
import tempfile
import unittest
from pathlib import Path

from musmyrtle.faults.costs import Difference
from musmyrtle.faults.listing import SingleFault
from musmyrtle.faults.log import Log
from musmyrtle.faults.whole_files import Unusable

INPUTS = (b"cluster", b"scenario")
LOST = Difference(1, "rx 1", "lost", 1, "0:A x1111", "-")


def fault(node: int) -> SingleFault:
    return SingleFault("mute", node, "A", "*", "s1", ())


class TestLog(unittest.TestCase):
    def setUp(self) -> None:
        folder = tempfile.TemporaryDirectory()
        self.addCleanup(folder.cleanup)
        self.file = Path(folder.name) / "log"

    def opened(self, is_resumed: bool = False, inputs: tuple[bytes, ...] = INPUTS) -> Log:
        log = Log(str(self.file), inputs, is_resumed)
        self.addCleanup(log.close)
        return log

    def refused(self, why: str, is_resumed: bool = True, inputs: tuple[bytes, ...] = INPUTS) -> None:
        before = self.file.read_bytes()
        with self.assertRaises(Unusable) as raised:
            self.opened(is_resumed, inputs)
        self.assertEqual(str(raised.exception), f"--joblog {self.file}: {why}")
        self.assertEqual(self.file.read_bytes(), before)

    def noted(self) -> bytes:
        log = self.opened()
        log.add(fault(0), [LOST])
        log.add(fault(1), [])
        return self.file.read_bytes()

    def test_it_goes_on(self):
        data = self.noted()
        self.assertEqual(len(data.split(b"\n")), 4)
        self.assertEqual(self.opened(True).done, {str(fault(0)): [LOST], str(fault(1)): []})
        self.assertEqual(self.file.read_bytes(), data)

    def test_what_is_done_again_is_not_noted(self):
        """A run without an answer, or that isn't comparable, is neither harmless nor harmful for good."""
        log = self.opened()
        for number, effect in enumerate(("killed", "unreadable", "not comparable", "refused")):
            log.add(fault(number), [LOST, Difference(1, "queue", effect, 1, "-", "-")])
        self.assertEqual(len(log.done), 4)
        self.assertEqual(list(self.opened(True).done), [str(fault(3))])

    def test_one_that_is_there_is_refused(self):
        self.noted()
        self.refused("the log is there already: go on from it by --resume, or name another file", False)
        self.file.write_bytes(b"")
        self.opened()

    def test_a_last_line_that_is_cut_is_done_again(self):
        data = self.noted()
        for cut in range(1, len(data.split(b"\n")[2]) + 1):
            self.file.write_bytes(data[:-cut])
            log = self.opened(True)
            self.assertEqual(list(log.done), [str(fault(0))])
            log.add(fault(1), [])
            self.assertEqual(self.file.read_bytes(), data)
        for cut in range(len(data.split(b"\n")[0]) + 1):
            self.file.write_bytes(data[:cut])
            self.assertEqual(self.opened(True).done, {})
            self.assertEqual(self.file.read_bytes(), data.split(b"\n")[0] + b"\n")

    def test_what_is_no_log(self):
        first, second, third, _ = self.noted().split(b"\n")
        entry = "line 2 is no entry of a job log"
        for broken in (second[:-9], b"\xff", b"{}", b"[]", b"null", b"1", b"", b"[" * 100_000,
                       second.replace(b'"mute 0 A * s1"', b"1"), second.replace(b'"node": 1', b'"node": "1"'),
                       second.replace(b'"amount": 1', b'"amount": true'), second.replace(b'"lost"', b'"lots"'),
                       second.replace(b'"lost"', b"[]"), second.replace(b'"amount"', b'"amounts"'),
                       second.replace(b'"-"', b"null"), b'{"fault": "mute", "differences": {}}',
                       b'{"fault": "mute", "differences": [1]}'):
            self.file.write_bytes(b"\n".join([first, broken, third, b""]))
            self.refused(entry)
        for data in (b"[package]\nname = 1\n", b"\x7fELF\x00\n", b"\xff\n"):
            self.file.write_bytes(data)
            self.refused("line 1 is no entry of a job log")
        for data in (b"{}\n", b"3\n", b"some words", b"\x7fELF"):
            self.file.write_bytes(data)
            self.refused("line 1 isn't the first line of a job log")

    def test_a_log_of_others(self):
        data = self.noted()
        self.refused("is of another program, cluster, scenario or number of cycles", True, (b"cluster", b"others"))
        self.refused("is of another program, cluster, scenario or number of cycles", True, (b"clusters", b"cenario"))
        head = json.loads(data.split(b"\n")[0])
        for version in (1, 2):
            self.file.write_text(json.dumps({**head, "musmyrtle faults": version}) + "\n")
            self.refused("is of another version of musmyrtle")

    def test_a_run_without_an_answer_is_not_noted(self):
        log = self.opened()
        for effect in ("killed", "unreadable"):
            log.add(fault(0), [Difference(None, "-", effect, 1, "-", "why")])
        self.assertEqual(len(log.done), 1)
        log.add(fault(1), [Difference(None, "-", "refused", 1, "-", "BadFault 0")])
        self.assertEqual(list(self.opened(True).done), [str(fault(1))])

    def test_a_full_disk(self):
        with self.assertRaises(Unusable) as raised:
            Log("/dev/full", INPUTS, False)
        self.assertEqual(str(raised.exception), "--joblog /dev/full: No space left on device")
