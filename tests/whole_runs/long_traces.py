"""Audits of traces of version 4."""
from .runner import EXAMPLES, refused

HEAD = ["frtrace 4", "params 3 4 1 20 5 0 10 90 0 5"]

REPORT = b"rx 0 2:A x0a0b\nA 2 0 0 0 0\nB 0 1 0 0 0\n"
"""The report of `receive-buffer`, as docs/formats/trace.md explains it."""

EMPTY = b"rx 0 - -\nA 0 0 0 0 0\nB 0 0 0 0 0\n"
"""The report of a node with one receive buffer in which nothing has arrived."""


class LongTraces:
    """Traces of version 4, and the same with one line in another form."""

    def __init__(self, runs):
        self.runs = runs
        frames = (EXAMPLES / "receive-buffer/trace").read_text().splitlines()
        self.frames = [HEAD[0], *frames[1:]]

    def all(self):
        self.reports()
        self.rooms()
        self.refusals()
        self.ends()
        self.first_lines()

    def given(self, name, given, wanted):
        self.runs.check(f"audit of version 4 where {name}", ["audit"], wanted, given=given)

    def check(self, name, lines, wanted):
        self.given(name, "".join(f"{line}\n" for line in lines).encode(), wanted)

    def reports(self):
        """Checks that the same lines have the same report in versions 3 and 4."""
        for version in (3, 4):
            lines = [f"frtrace {version}", *self.frames[1:]]
            self.check(f"the first line is {lines[0]!r}", lines, (REPORT, b"", 0))

    def rooms(self):
        """Checks the room of the line `node`, and its limits."""
        plan = ["rx 2 AB 0 1", "begin"]
        reads = ["read 0 0 -", "read 0 0 -"]
        small = [*HEAD, "node 1 0 0 1 8", *plan, *reads]
        self.check("the second call has no room", small, refused("Refused 7"))
        self.check("one call has room", [*small[:6], "end"], (EMPTY, b"", 0))
        for host, slot in ((16385, 8), (8, 65537), (1073741824, 3221225469)):
            lines = [*HEAD, f"node 1 0 0 {host} {slot}", *plan, *reads, "end"]
            self.check(f"the room is {host} and {slot}", lines, (EMPTY, b"", 0))
        for host, slot in ((0, 8), (8, 1), (1073741825, 8), (8, 3221225470)):
            self.check(f"the room is {host} and {slot}", [*HEAD, f"node 1 0 0 {host} {slot}"], refused("BadLine 3"))
        self.check("version 3 has less room", ["frtrace 3", HEAD[1], "node 1 0 0 16385 8"], refused("BadLine 3"))

    def refusals(self):
        """Checks the refusals of lines of the journal."""
        for line, error in (("read 8 0 -", "BadLine 6"), ("read 1 0 -", "Refused 6"), ("read 0 0 2:A", "WrongAnswer 6"),
                            ("pop 0 -", "Refused 6")):
            self.check(f"line 6 is {line!r}", [*self.frames[:5], line, *self.frames[6:]], refused(error))
        front = "".join(f"{line}\n" for line in self.frames[:7])
        for size, error in ((1200, "Truncated"), (1201, "LineTooLong 8")):
            self.given(f"the eighth line has {size} bytes", f"{front}{'a' * size}".encode(), refused(error))

    def ends(self):
        """Checks truncated traces, and bytes after the end."""
        text = "\n".join(self.frames)
        after = len(self.frames) + 1
        for name, rest, error in (("its last line feed is missing", "", "Truncated"),
                                  ("a byte stands after it", "\nx", f"BadLine {after}"),
                                  ("an empty line stands after it", "\n\n", f"BadLine {after}")):
            self.given(name, f"{text}{rest}".encode(), refused(error))
        for done in range(1, len(self.frames)):
            self.check(f"{done} lines have come", self.frames[:done], refused("Truncated"))

    def first_lines(self):
        """Checks first lines that name no version, and unfinished ones."""
        for first in ("frtrace 5", "frtrace 4x", "frtrace 40", "frtrace  4", "frtrace 4 ", "Frtrace 4"):
            self.check(f"the first line is {first!r}", [first, *self.frames[1:]], refused("BadMagic"))
        for size in range(10):
            self.given(f"{size} bytes have come", b"frtrace 4"[:size], refused("BadMagic"))
