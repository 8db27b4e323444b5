"""Runs of `fr_view why` on refused traces, and of the views of a trace up to its fault."""
import os

from .runner import EXAMPLES, USAGE, WRITTEN, Folder, refused
from .captured import FILE_HEADER
from .views import COLUMNS, record

SEEN = [(record(20, 0x01, 0, "200203c1400a0b"), "20 0 2 A valid - 2 ---- b0 x0a0b"),
        (record(110, 0x01, 0, "000203c1410000"), "110 1 2 A valid - 2 -n-- - x0000")]
"""The views of the receive-buffer trace: a record, and a line of the table, for its two windows."""

RECEIVED = [
    # A byte of the payload is another, so its CRC is wrong and the buffer stays empty.
    (8, "see 0 x200203c1400a0ca32217 noise", "WrongAnswer 9", "read 0 0 2:A", "due read 0 0 -", 1),
    (12, "read 0 0 -", "WrongAnswer 12", "read 0 0 -", "due read 0 0 2:A", 2),
    (9, "read 0 0 2:B", "WrongAnswer 9", "read 0 0 2:B", "due read 0 0 2:A", 1),
    (6, "commit 0 0 x0001", "Refused 6", "commit 0 0 x0001", "reason Host NotTransmit", 0),
    (6, "read 1 0 -", "Refused 6", "read 1 0 -", "reason Host UnknownTask", 0),
    (6, "pop 0 -", "Refused 6", "pop 0 -", "reason Host NoQueue", 0),
    (6, "see 0 - -", "Refused 6", "see 0 - -", "reason Slot NotFetched", 0),
    (7, "fetch 0 0 0 4 4 - -", "Refused 7", "fetch 0 0 0 4 4 - -", "reason Slot BadWindow", 0),
    (8, "see 1 - -", "Refused 8", "see 1 - -", "reason Slot WrongWindow", 1),
    (8, "fetch 1 1 0 2 2 - -", "Refused 8", "fetch 1 1 0 2 2 - -", "reason Slot NotObserved", 1),
    (10, "fetch 0 1 0 2 2 - -", "Refused 10", "fetch 0 1 0 2 2 - -", "reason Slot WindowOrder", 1),
    (3, "node 1 0 0 8 2", "Refused 10", "fetch 1 1 0 2 2 - -", "reason Slot SlotFull", 1),
    # Its frame may begin in the last minislot, and with header and trailer it has 12 words, which fill three.
    (3, "node 1 4 0 8 8\ntx state 4 A 0 1 8 0", "Refused 6", "begin", "reason Plan TooLong 0", 0),
    (2, "params 1 4 1 20 5 0 10 50 0 5", "Refused 2", "params 1 4 1 20 5 0 10 50 0 5",
     "reason Params OutOfRange static_slots", 0),
    (2, "params 3 4 1 20 5 0 10 91 0 5", "Refused 2", "params 3 4 1 20 5 0 10 91 0 5", "reason Params CycleSum", 0),
    (2, "node 1 0 0 8 8", "BadLine 2", "node 1 0 0 8 8", "reason Line Word 1 1", 0),
    (2, "params 3 4 1 20 5 0 10 90 0", "BadLine 2", "params 3 4 1 20 5 0 10 90 0", "reason Line Form 11 29", 0),
    (3, "node 9 0 0 8 8", "BadLine 3", "node 9 0 0 8 8", "reason Line Form 2 6", 0),
    (3, "node 1 0 0 0 8", "BadLine 3", "node 1 0 0 0 8", "reason Line Form 5 12", 0),
    (3, "node 1 0 0 8 1", "BadLine 3", "node 1 0 0 8 1", "reason Line Form 6 14", 0),
    (4, "own 1024 A 0 0", "BadLine 4", "own 1024 A 0 0", "reason Line Form 2 5", 0),
    (4, "own 1 A 0 1", "BadLine 4", "own 1 A 0 1", "reason Line Form", 0),
    (4, "rx 2 AB 0 3", "BadLine 4", "rx 2 AB 0 3", "reason Line Form 5 11", 0),
    (4, "read 0 0 -", "BadLine 4", "read 0 0 -", "reason Line Word 1 1", 0),
    (9, "own 1 A 0 0", "BadLine 9", "own 1 A 0 0", "reason Line Word 1 1", 1),
    (9, "withdraw 0 0 -", "BadLine 9", "withdraw 0 0 -", "reason Line Form 1 1", 1),
    (9, "read 0  0 -", "BadLine 9", "read 0  0 -", "reason Line Form 3 8", 1),
    (9, "", "BadLine 9", "", "reason Line Word 1 1", 1),
    (9, "read\t0\\ \x7f\r", "BadLine 9", r"read\x090\x5c \x7f\x0d", "reason Line Word 1 1", 1),
    (9, "0" * 1201, "LineTooLong 9", "0" * 1200, "", 1),
    (1, "frtrace 4", "BadMagic", "frtrace 4", "", 0),
    # An upper-case digit, an odd number of digits, a word too many, an end that goes on, words that don't go together.
    (8, "see 0 x0A noise", "BadLine 8", "see 0 x0A noise", "reason Line Form 3 7", 1),
    (8, "see 0 x0a1 noise", "BadLine 8", "see 0 x0a1 noise", "reason Line Form 3 7", 1),
    (8, "see 0 - - -", "BadLine 8", "see 0 - - -", "reason Line Form 5 11", 1),
    (13, "end x", "BadLine 13", "end x", "reason Line Form 2 5", 2),
    (4, "rx 2 AB 1 1", "BadLine 4", "rx 2 AB 1 1", "reason Line Form", 0),
    (7, "fetch 0 0 0 2 3 - -", "BadLine 7", "fetch 0 0 0 2 3 - -", "reason Line Form", 0),
    (13, "end\nend", "BadLine 14", "end", "reason Line After", 2),
]
"""A line in place of one of the receive-buffer trace: the refusal, the line at fault, its reason, the windows
before."""

COMMITTED = [
    (7, "commit 0 0 x00010203", "Refused 7", "commit 0 0 x00010203", "reason Host WrongLength", 0),
    (7, "commit 0 1 x0001", "Refused 7", "commit 0 1 x0001", "reason Host UnknownBuffer", 0),
    (7, "read 0 0 -", "Refused 7", "read 0 0 -", "reason Host NotReceive", 0),
    (3, "node 1 0 0 1 8", "Refused 8", "commit 0 0 x0002", "reason Host HostFull", 0),
    (9, "fetch 0 0 0 1 1 0 -", "WrongAnswer 9", "fetch 0 0 0 1 1 0 -", "due fetch 0 0 0 1 1 1 -", 0),
    (9, "fetch 0 0 0 2 2 1 0", "WrongAnswer 9", "fetch 0 0 0 2 2 1 0", "due fetch 0 0 0 2 2 - -", 0),
    (4, "own 1 A 0 0\nown 1 A 0 0", "Refused 7", "begin", "reason Plan Overlap 1 A 0", 0),
    (4, "own 4 A 0 0", "Refused 6", "begin", "reason Plan OutOfParams", 0),
    (4, "own 2 A 0 0", "Refused 6", "begin", "reason Plan NotOwned 0", 0),
    (5, "tx event 4 AB 0 1 1 0", "Refused 6", "begin", "reason Plan DynamicBoth 0", 0),
    (5, "tx event 1 A 0 1 - 0\nown 2 A 0 0", "BadLine 6", "own 2 A 0 0", "reason Line Late", 0),
    (5, "queue 2 1 3 AB 0 1\nrx 2 A 0 1", "BadLine 6", "rx 2 A 0 1", "reason Line Late", 0),
    (5, "queue 2 1 3 AB 0 1\nqueue 2 1 3 AB 0 1", "BadLine 6", "queue 2 1 3 AB 0 1", "reason Line Full", 0),
    (5, "queue 0 1 3 AB 0 1", "BadLine 5", "queue 0 1 3 AB 0 1", "reason Line Form 2 7", 0),
    (5, "rx 1 A 0 1\n" * 65 + "begin", "BadLine 69", "rx 1 A 0 1", "reason Line Full", 0),
]
"""The same for the three-commits trace."""


def told(refusal, number, text, reason, windows):
    """Returns the output of `why` for a refused trace."""
    lines = [f"refused {refusal}", f"line {number} {text}".rstrip(" "), reason, f"lines {number - 1}",
             f"windows {windows}"]
    return "".join(f"{line}\n" for line in lines if line).encode(), b"", 1


class Reasons:
    """Runs of `why`, and of `frames` and `capture` with `--until-fault`."""

    def __init__(self, runs):
        self.runs = runs
        self.received = (EXAMPLES / "receive-buffer/trace").read_text().splitlines()
        self.committed = (EXAMPLES / "three-commits/trace").read_text().splitlines()

    def accepted(self):
        for folder in sorted(path for path in EXAMPLES.iterdir() if (path / "trace").exists()):
            given = (folder / "trace").read_bytes()
            lines = given.splitlines()
            windows = sum(line.startswith(b"fetch") for line in lines)
            wanted = f"accepted\nlines {len(lines)}\nwindows {windows}\n".encode(), b"", 0
            self.runs.check(f"why of {folder.name}", ["why"], wanted, given=given)
        told_first = b"accepted\nlines 13\nwindows 2\n", b"", 0
        self.runs.check_once(f"why of an accepted trace, {WRITTEN}", ["why"], told_first, self.text(self.received))

    def worked(self):
        for lines, rows in ((self.received, RECEIVED), (self.committed, COMMITTED)):
            for place, line, refusal, text, reason, windows in rows:
                given = self.text([*lines[:place - 1], line, *lines[place:]])
                number = int((refusal.split() + ["1"])[1])
                wanted = told(refusal, number, text, reason, windows)
                self.runs.check(f"why where line {place} is {line[:40]!r}", ["why"], wanted, given=given)
                self.runs.check(f"frames where line {place} is {line[:40]!r}", ["frames"], refused(refusal),
                                given=given)

    def broken_off(self):
        given = self.text(self.received)
        start = given.index(b"fetch 1")
        wanted = told("Truncated", 10, "fetch 1 1 0 2", "", 1)
        self.runs.check("why of a trace that breaks off in a line", ["why"], wanted, given=given[:start + 13])
        wanted_after = told("Truncated", 10, "", "", 1)
        self.runs.check("why of a trace that breaks off after a line", ["why"], wanted_after, given=given[:start])
        wanted_end = told("Truncated", 13, "end", "reason Feed", 2)
        self.runs.check("why of a trace whose last line feed is missing", ["why"], wanted_end, given=given[:-1])
        self.runs.check("why of nothing", ["why"], told("BadMagic", 1, "", "", 0))
        self.runs.check_once(f"why of a refused trace, {WRITTEN}", ["why"], wanted, given[:start + 13])

    def until_fault(self):
        given = self.text(self.received)
        start = given.index(b"fetch 1")
        self.shown("an accepted trace", given, 2, None)
        self.shown("a trace that breaks off in a line", given[:start + 13], 1, "Truncated")
        self.shown("a trace with a wrong answer", self.text([*self.received[:11], "read 0 0 -", "end"]), 2,
                   "WrongAnswer 12")
        self.shown("a trace with a refused call", self.text([*self.received[:9], "pop 0 -", *self.received[9:]]), 1,
                   "Refused 10")
        self.shown("a trace with a line after its end", given + b"end", 2, "BadLine 14")
        self.shown("a trace that breaks off before its entries", self.text(self.received[:5]), 0, "Truncated")
        for refusal, text in {"Truncated": self.text(self.received[:4]), "BadMagic": b"", "Refused 2": self.text(
                [self.received[0], "params 3 4 1 20 5 0 10 91 0 5"])}.items():
            for form in ("frames", "capture"):
                self.runs.check(f"{form} of a trace without a plan", [form, "--until-fault"], refused(refusal),
                                given=text)

    def shown(self, name, given, count, refusal):
        """Returns the views of the first observations, in both forms."""
        errors = f"refused {refusal}\n".encode() if refusal else b""
        table = COLUMNS + "".join(f"{line}\n" for _, line in SEEN[:count])
        capture = FILE_HEADER + b"".join(told for told, _ in SEEN[:count])
        status = 1 if refusal else 0
        for form, text in (("frames", table.encode()), ("capture", capture)):
            self.runs.check(f"{form} --until-fault of {name}", [form, "--until-fault"], (text, errors, status),
                            given=given)
            if refusal:
                self.runs.check(f"{form} of {name}", [form], refused(refusal), given=given)

    def words(self):
        for given in (["why", "trace"], ["why", "--until-fault"], ["frames", "--until-fault", "--until-fault"],
                      ["frames", "--until-fault=1"], ["schedule", "a", "--until-fault"], ["Why"]):
            self.runs.check(f"the words {given}", given, USAGE)

    def outputs(self):
        given = self.text(self.received)
        for name, text in (("an accepted trace", given), ("a refused trace", given[:-1])):
            for words in (["why"], ["frames", "--until-fault"], ["capture", "--until-fault"]):
                with open("/dev/full", "wb") as full:
                    self.runs.check(f"{words} of {name} to a full device", words, refused("Write"), given=text,
                                    output=full)
                self.runs.check(f"{words} of {name} to a closed output", words, refused("Write"), given=text,
                                closed=(1,))
        with Folder(os.open(EXAMPLES, os.O_RDONLY)) as folder:
            for words in (["why"], ["frames", "--until-fault"]):
                self.runs.check(f"{words} of a folder", words, refused("Read"), given=folder)

    @staticmethod
    def text(lines):
        return "".join(f"{line}\n" for line in lines).encode("latin-1")
