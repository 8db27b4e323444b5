"""Audits of traces, each with one line in another form or with a report of its own."""
from .runner import EXAMPLES, refused

QUEUE = """frtrace 1
params 3 4 1 20 5 0 10 90 0 5
node 1 0 0 8 8
rx 1 A 0 1
queue 2 1 3 AB 0 1
begin
fetch 0 0 0 2 2 - -
see 0 x200203c1400a0ba32217 x200203c1400a0b85a2c6
fetch 1 0 0 2 2 - -
see 1 x200203c1400a0ba32217 conflict
pop 0 1:B
pop 0 3:A
pop 0 -
end
"""


ONE_WORD = "params 3 4 1 20 5 0 10 90 0 5"
"""A cycle of three static slots, whose frames have one word, and of four minislots."""

TEN_MINISLOTS = "params 3 10 1 20 5 4 6 120 1 4"

DATA_A, DATA_B = "x200203c1400a0ba32217", "x200203c1400a0b85a2c6"
"""The data frame of slot 2 in cycle 0 with payload `0a0b`, on each channel."""

NULL_A = "x000203c1400000d82038"
"""The null frame there on channel A."""

NULL_A_1 = "x000203c1410000d14f6c"
"""The same in cycle 1."""

WRONG = {
    "two words": "x200204e2800a0b0c0d11eed6",
    "the ID of slot 3": "x200303bc000a0b3e8bc8",
    "cycle 1": "x200203c1410a0baa4d43",
    "startup without sync": "x28020379000a0b830320",
}
"""Frames on channel A that are wrong for slot 2 in cycle 0."""

MARKED = [
    "x200203c1400001d23305",
    "x200203c14100023cea0c",
    "x200203c14200037a363b",
]
"""Data frames of slot 2 in cycles 0, 1 and 2 on channel A, with payloads `0001`, `0002` and `0003`."""

MARKED_B = "x200203c1400001f4b3d4"
"""The first of them on channel B."""


def window(number, a, b, offered="- -"):
    """Returns the window of slot 2 in the cycle of this number, with the observations."""
    return [f"fetch {number} {number} 0 2 2 {offered}", f"see {number} {a} {b}"]


class Traces:
    """Traces, each with one line in another form."""

    def __init__(self, runs):
        self.runs = runs
        self.frames = (EXAMPLES / "receive-buffer/trace").read_text().splitlines()
        self.commits = (EXAMPLES / "three-commits/trace").read_text().splitlines()
        self.withdrawn = (EXAMPLES / "withdrawn-commits/trace").read_text().splitlines()
        self.queue = QUEUE.splitlines()

    def check(self, name, lines, wanted):
        given = "".join(f"{line}\n" for line in lines).encode()
        self.runs.check(f"audit where {name}", ["audit"], wanted, given=given)

    def changed(self, lines, place, line, error):
        """Returns the trace with this line in the place of another, counted from 1."""
        self.check(f"line {place} is {line!r}", [*lines[:place - 1], line, *lines[place:]], refused(f"{error} {place}"))

    def reports(self):
        told = b"rx 0 - -\nqueue 0 1\nA 2 0 0 0 0\nB 1 0 0 0 1\n"
        self.check("a full queue loses its oldest frame", self.queue, (told, b"", 0))
        told = b"rx 0 - -\nA 0 0 0 0 0\nB 0 0 0 0 0\n"
        self.check("an empty buffer holds nothing", [*self.frames[:5], "end"], (told, b"", 0))
        told = b"A 0 0 0 0 0\nB 0 0 0 0 0\n"
        self.check("there is no buffer", [*self.frames[:3], "begin", "end"], (told, b"", 0))

    def plans(self):
        for line in ("own 1 A 0 1", "own 1024 A 0 0", "own 0 A 0 0", "own 1 C 0 0"):
            self.changed(self.commits, 4, line, "BadLine")
        for line in ("tx receive 1 A 0 1 - 0", "tx event 1 A 0 3 - 0", "tx event 1 A 0 1 128 0", "tx event 1 A 0 1 - 2",
                     "tx event 1 A 0 1 -"):
            self.changed(self.commits, 5, line, "BadLine")
        for place, line in ((4, "own 2 A 0 0"), (4, "own 4 A 0 0"), (5, "tx event 1 A 0 1 1 0")):
            lines = [*self.commits[:place - 1], line, *self.commits[place:]]
            self.check(f"the plan has a fault by {line!r}", lines, refused("Refused 6"))
        for lines in ([*self.commits[:2], "node 1 5 0 8 8"], [*self.commits[:2], "node 1 0 5 8 8"],
                      [*self.commits[:4], "tx event 1 A 0 1 2 0"], [*self.commits[:3], "tx event 4 A 0 1 - 0"]):
            name = f"{lines[-1]!r} is out of the parameters"
            self.check(f"the plan has a fault: {name}", [*lines, "begin"], refused(f"Refused {len(lines) + 1}"))
        late = [*self.commits[:3], self.commits[4], self.commits[3], *self.commits[5:]]
        self.check("an ownership line comes after a buffer", late, refused("BadLine 5"))
        late = [*self.queue[:3], self.queue[4], self.queue[3], *self.queue[5:]]
        self.check("a buffer comes after the queue", late, refused("BadLine 5"))
        self.check("there are two queues", [*self.queue[:5], self.queue[4]], refused("BadLine 6"))
        for line in ("own 1 A 0 0", "rx 1 A 0 1"):
            self.check(f"there are 64 of {line!r}", [*self.commits[:3], *[line] * 64], refused("Truncated"))
            self.check(f"there are 65 of {line!r}", [*self.commits[:3], *[line] * 65], refused("BadLine 68"))

    def entries(self):
        self.changed(self.frames, 7, "fetch 99999999999 0 0 2 2 - -", "BadLine")
        for line in ("fetch 0 0 0 2 2 0 -", "fetch 0 0 0 2 2 - null"):
            self.changed(self.frames, 7, line, "WrongAnswer")
        self.changed(self.frames, 6, "pop 0 -", "Refused")
        self.changed(self.queue, 11, "pop 0 1:A", "WrongAnswer")
        self.changed(self.commits, 7, "commit 0 0 x00", "BadLine")
        for line in ("commit 0 0 x00010002", "commit 0 1 x0001", "read 0 0 -"):
            self.changed(self.commits, 7, line, "Refused")
        for line in ("fetch 0 0 0 1 1 0 -", "fetch 0 0 0 1 1 null -", "fetch 0 0 0 1 1 - -", "fetch 0 0 0 1 1 1 1",
                     "fetch 0 0 0 1 1 7 -"):
            self.changed(self.commits, 9, line, "WrongAnswer")

    def withdraws(self):
        for line in ("withdraw 0 0 -", "withdraw 0 0 1", "withdraw 0 0 4294967295"):
            self.changed(self.withdrawn, 8, line, "WrongAnswer")
        self.changed(self.withdrawn, 15, "withdraw 0 0 6", "WrongAnswer")
        for line in ("withdraw 1 0 0", "withdraw 0 1 0", "withdraw 0 63 -"):
            self.changed(self.withdrawn, 8, line, "Refused")
        for line in ("withdraw 8 0 0", "withdraw 0 64 0", "withdraw 0 0 4294967296", "withdraw 0 0 00",
                     "withdraw 0 0 null", "withdraw 0 0", "withdraw 0 0 0 0", "withdraw"):
            self.changed(self.withdrawn, 8, line, "BadLine")
        self.check("a withdraw stands in version 1", ["frtrace 1", *self.withdrawn[1:]], refused("BadLine 8"))
        for name, lines in (("receive-buffer", self.frames), ("three-commits", self.commits)):
            report = (EXAMPLES / name / "report").read_bytes()
            self.check(f"{name} is told in version 2", ["frtrace 2", *lines[1:]], (report, b"", 0))
        receiver = ["frtrace 2", ONE_WORD, "node 1 0 0 8 8", "rx 2 AB 0 1", "begin", "withdraw 0 0 -", "end"]
        self.check("a receive buffer is withdrawn", receiver, refused("Refused 6"))
        full = ["frtrace 2", ONE_WORD, "node 1 0 0 1 8", "own 1 A 0 0", "tx state 1 A 0 1 - 0", "begin",
                "commit 0 0 x0001"]
        self.check("a withdraw has no room", [*full, "withdraw 0 0 0", "end"], refused("Refused 8"))
        for mode in ("event", "state"):
            plan = ["node 1 0 0 8 8", "own 2 AB 0 0", f"tx {mode} 2 AB 0 1 - 0"]
            entries = ["commit 0 0 x0001", *window(0, "own", "own", "0 0"), "withdraw 0 0 -", "commit 0 0 x0002",
                       "withdraw 0 0 4", *window(1, "own", "own", "null null"), "commit 0 0 x0003", "withdraw 0 0 8",
                       "withdraw 0 0 -"]
            report = ["tx 0 3 1 0 0 2", "A 0 0 0 0 0", "B 0 0 0 0 0"]
            self.told(f"commits are withdrawn in {mode} mode", plan, entries, report, version=2)

    def divided(self):
        """Checks a slot that nodes divide by cycles, and the form of an ownership line in each version."""
        lines = (EXAMPLES / "divided-slot/trace").read_text().splitlines()
        for version in (1, 2):
            self.check(f"an ownership line has cycles in version {version}", [f"frtrace {version}", *lines[1:]],
                       refused("BadLine 4"))
            self.check(f"they are all cycles in version {version}",
                       [f"frtrace {version}", *lines[1:3], "own 3 A 0 0 0 1", *lines[4:]], refused("BadLine 4"))
            self.check(f"a line without cycles is for all in version {version}",
                       [f"frtrace {version}", *lines[1:3], "own 3 A 0 0", *lines[4:]], refused("WrongAnswer 8"))
        for line in ("own 3 A 0 0", "own 3 A 0 0 0", "own 3 A 0 0 0 3", "own 3 A 0 0 2 2", "own 3 A 0 0 0 2 0",
                     "own 3 A 0 0 00 2", "own 3 A 0 1 0 2", "own 3 A 0 0 - 2", "own 3 A 0 0 64 64",
                     "own 3 A 0 0 0 128", "own 3 A 0 0 0 0"):
            self.changed(lines, 4, line, "BadLine")
        for line in ("own 3 A 0 0 1 2", "own 3 A 0 0 0 4", "own 3 B 0 0 0 2"):
            self.check(f"a buffer is for other cycles than {line!r}", [*lines[:3], line, *lines[4:]],
                       refused("Refused 6"))
        for line, wanted in (("own 3 A 0 0 1 2", "Truncated"), ("own 3 A 0 0 2 4", "Refused 7"),
                             ("own 3 B 0 0 0 2", "Truncated")):
            self.check(f"there is {line!r} too", [*lines[:4], line, *lines[4:6]], refused(wanted))
        for place, line in ((8, "fetch 0 1 0 3 3 null -"), (8, "fetch 0 1 0 3 3 0 -"), (10, "fetch 1 2 0 3 3 null -")):
            self.changed(lines, place, line, "WrongAnswer")
        withdrawn = [*self.withdrawn[:3], f"{self.withdrawn[3]} 0 1", *self.withdrawn[4:]]
        report = (EXAMPLES / "withdrawn-commits/report").read_bytes()
        self.check("commits are withdrawn in version 3", ["frtrace 3", *withdrawn[1:]], (report, b"", 0))
        entries = [*window(0, "-", "-", "- -"), *window(1, "own", "own", "null null"), *window(2, "-", "-", "- -")]
        plan = ["node 1 0 0 8 8", "own 2 AB 1 1 1 4", "own 3 A 0 0 0 1"]
        self.told("a null frame goes out in one cycle of four", plan, entries, ["A 0 0 0 0 0", "B 0 0 0 0 0"],
                  version=3)

    def told(self, name, plan, entries, report, params=ONE_WORD, version=1):
        """Checks that a trace of this plan is legal, and that its report has these lines."""
        lines = [f"frtrace {version}", params, *plan, "begin", *entries, "end"]
        self.check(name, lines, ("".join(f"{line}\n" for line in report).encode(), b"", 0))

    def refused_at_last(self, name, plan, entries):
        """Checks that the last of the entries is a call that is refused."""
        lines = ["frtrace 1", ONE_WORD, *plan, "begin", *entries]
        self.check(name, [*lines, "end"], refused(f"Refused {len(lines)}"))

    def receive_buffers(self):
        plan = ["node 1 0 0 8 8", "rx 2 AB 0 1"]
        seen = {
            (DATA_A, DATA_B): ["rx 0 1:A x0a0b", "A 1 0 0 0 0", "B 1 0 0 0 0"],
            ("-", DATA_B): ["rx 0 1:B x0a0b", "A 0 0 0 0 0", "B 1 0 0 0 0"],
            (NULL_A, DATA_B): ["rx 0 1:B x0a0b", "A 1 0 0 0 0", "B 1 0 0 0 0"],
            (NULL_A, "noise"): ["rx 0 - -", "A 1 0 0 0 0", "B 0 1 0 0 0"],
            ("conflict", "overrun"): ["rx 0 - -", "A 0 0 0 0 1", "B 0 0 0 1 0"],
        }
        for (a, b), report in seen.items():
            self.told(f"a receive buffer is shown {a} and {b}", plan, window(0, a, b), report)
        for name, frame in WRONG.items():
            report = ["rx 0 - -", "A 0 0 1 0 0", "B 0 0 0 0 0"]
            self.told(f"a frame is wrong by {name}", plan, window(0, frame, "-"), report)

    def queues(self):
        plan = ["node 1 0 0 8 8", "queue 2 1 3 AB 0 1"]
        came = [line for number, frame in enumerate(MARKED) for line in window(number, frame, "-")]
        pops = ["pop 0 3:A", "pop 0 5:A", "pop 0 -"]
        self.told("three frames come to a queue of two", plan, [*came, *pops],
                  ["queue 0 1", "A 3 0 0 0 0", "B 0 0 0 0 0"])
        both = [*window(0, MARKED[0], MARKED_B), *window(1, NULL_A_1, "noise")]
        self.told("a queue takes both channels", plan, [*both, "pop 0 1:A"],
                  ["queue 1 0", "A 2 0 0 0 0", "B 1 1 0 0 0"])
        beside = [plan[0], "rx 2 A 0 1", plan[1]]
        report = ["rx 0 1:A x0001", "queue 0 0", "A 1 0 0 0 0", "B 1 0 0 0 0"]
        self.told("a buffer takes its frame from a queue", beside, [*window(0, MARKED[0], MARKED_B), "pop 0 1:B"],
                  report)
        dynamic = ["fetch 0 0 1 4 - - -", "see 0 conflict noise"]
        self.told("a channel has no slot", plan, dynamic, ["queue 0 0", "A 0 0 0 0 1", "B 0 0 0 0 0"])

    def transmit_buffers(self):
        for mode, last in (("event", "null null"), ("state", "3 3")):
            plan = ["node 1 0 0 8 8", "own 2 AB 0 0", f"tx {mode} 2 AB 0 1 - 0"]
            entries = ["commit 0 0 x0001", "commit 0 0 x0002", "fetch 0 0 0 2 2 1 1", "commit 0 0 x0003",
                       "see 0 own own", *window(1, "own", "own", "3 3"), f"fetch 2 2 0 2 2 {last}"]
            report = ["tx 0 3 2 1 0 0", "A 0 0 0 0 0", "B 0 0 0 0 0"]
            self.told(f"there are three commits in {mode} mode", plan, entries, report)
        for latest, offer, report in ((5, "0", "tx 0 1 1 0 0 0"), (4, "-", "tx 0 1 0 0 1 0"),
                                      (0, "-", "tx 0 1 0 0 1 0")):
            plan = [f"node 1 {latest} 0 8 8", "tx event 8 A 0 1 4 0"]
            entries = ["commit 0 0 x0101010101010101", f"fetch 0 0 5 8 - {offer} -"]
            report = [report, "A 0 0 0 0 0", "B 0 0 0 0 0"]
            self.told(f"a transmission begins at minislot 5 of {latest}", plan, entries, report, TEN_MINISLOTS)

    def calls(self):
        """Checks calls that are refused."""
        sender = ["node 1 0 0 2 8", "own 2 AB 0 0", "tx event 2 AB 0 1 - 0"]
        commit = "commit 0 0 x0001"
        for line in ("commit 1 0 x0001", "commit 0 1 x0001", "commit 0 0 x00010002", "read 0 0 -", "pop 0 -"):
            self.refused_at_last(f"the call is {line!r}", sender, [line])
        self.refused_at_last("a third commit has no room", sender, [commit, commit, commit])
        told = ["tx 0 2 1 1 0 0", "A 0 0 0 0 0", "B 0 0 0 0 0"]
        self.told("windows go on where commits have no room", sender,
                  [commit, commit, *window(0, "own", "own", "1 1")], told)
        owner = ["node 1 0 0 1 3", "own 2 A 1 0"]
        first = window(0, "own", "-", "null -")
        self.refused_at_last("a fetch has no room for its observe", owner, [*first, "fetch 1 1 0 2 2 null -"])
        for name, entries in {
            "a window isn't fetched": ["see 0 - -"],
            "there is no such window": ["fetch 0 0 0 4 4 - -"],
            "a window isn't observed": ["fetch 0 0 0 2 2 - -", "fetch 1 1 0 2 2 - -"],
            "another window is fetched": ["fetch 0 0 0 2 2 - -", "see 1 - -"],
            "a window comes again": [*window(0, "-", "-"), "fetch 0 0 0 2 2 - -"],
        }.items():
            self.refused_at_last(f"where {name}", ["node 1 0 0 8 8"], entries)

    def full_journals(self):
        """Checks that two commits fill the room for the host, after which windows go on to the end of theirs without
        host calls."""
        plan = ["node 1 0 0 2 6", "own 2 A 0 0", "tx event 2 A 0 1 - 0", "rx 1 AB 0 1", "queue 1 3 3 AB 0 1"]
        commits = ["commit 0 0 x0001", "commit 0 0 x0002"]
        windows = [*window(0, "own", DATA_B, "1 -"), *window(1, "conflict", "-", "null -")]
        windows += window(2, "own", "noise", "null -")
        counted = [("A 0 0 0 0 0", "B 0 0 0 0 0"), ("A 0 0 0 0 0", "B 1 0 0 0 0"), ("A 0 0 0 0 1", "B 1 0 0 0 0"),
                   ("A 0 0 0 0 1", "B 1 1 0 0 0")]
        for done in range(len(windows) + 1):
            entries = [*commits, *windows[:done]]
            for line in ("commit 0 0 x0003", "read 0 1 -", "pop 0 -"):
                self.refused_at_last(f"{line!r} has no room after {done} entries of windows", plan, [*entries, line])
            report = [f"tx 0 2 {int(done > 0)} 1 {int(done == 0)} 0", "rx 1 - -", "queue 0 0", *counted[done // 2]]
            self.told(f"{done} entries of windows go on where no host call has room", plan, entries, report)
        self.refused_at_last("a fourth window has no room", plan, [*commits, *windows, "fetch 3 3 0 2 2 null -"])

    def ends(self):
        """Checks truncated traces, and bytes after the end."""
        for lines, error in ((["frtrace 1"], "Truncated"), ([], "BadMagic"), (["frtrace 2"], "Truncated"),
                             (["frtrace 3"], "Truncated"), (["frtrace 5"], "BadMagic"),
                             ([*self.frames, "x"], f"BadLine {len(self.frames) + 1}")):
            self.check(f"the lines are {[line[:10] for line in lines[-1:]]}", lines, refused(error))
        text = "\n".join(self.frames)
        for name, rest, error in (("its last line feed is missing", "", "Truncated"),
                                  ("a byte stands after it", "\nx", "BadLine 14")):
            self.runs.check(f"audit where {name}", ["audit"], refused(error), given=f"{text}{rest}".encode())
        self.runs.check("audit of a magic line without its end", ["audit"], refused("BadMagic"), given=b"frtrace 2")
        for name, lines, error in (("first", [], "BadMagic"), ("eighth", self.frames[:7], "LineTooLong 8")):
            for size, wanted in ((1200, "Truncated" if lines else "BadMagic"), (1201, error)):
                given = "".join(f"{line}\n" for line in lines) + "a" * size
                self.runs.check(f"audit where the {name} line has {size} bytes", ["audit"], refused(wanted),
                                given=given.encode())

    def forms(self):
        """Checks wrong forms of lines, each in the place of a lawful one."""
        forms = {
            2: ["params 3 4 1 20 5 0 10 90 0", "params 3 4 1 20 5 0 10 90 0 5 5",
                "params 3 4 1 20 5 0 10 90 0 4294967296", "params 3 4 1 20 5 0 10 90 0 05"],
            3: ["node 9 0 0 256 4096", "node 1 0 8001 256 4096", "node 1 0 0 0 4096", "node 1 0 0 256 1"],
            4: ["rx 0 A 0 1", "rx 2048 A 0 1", "rx 2 BA 0 1", "rx 2 A 1 1", "rx 2 A 0 3", "tx state 7 B 1 2 128 1",
                "tx state 7 B 1 2 01 1", "tx state 7 B 1 2 - 2", "tx state 7 B 1 2 - 0 0", "tx state 7 B 2 2 - 0",
                "own 1 AB 0 1", "own 1 AB 1", "own 1 AB 1 true", "queue 257 4 7 AB 0 1", "queue 0 4 7 AB 0 1",
                "queue 2 8 7 AB 0 1", "queue 2 0 7 AB 0 1", "queue 2 4 2048 AB 0 1", "queue 2 4 7 AB 1 1",
                "queue 2 4 7 AB 0"],
            6: ["", "read 8 0 -", "read 0 64 -", "read 0 0 31:C", "read 0 0 :A", "read 0 0  -", "fetch 0 0 0 1 2 - -",
                "fetch 0 0 0 1 - - -", "fetch 0 0 1 - - - -", "fetch 0 0 8001 4 4 - -", "fetch 0 64 0 1 1 - -",
                "fetch 0 0 0 1 1 - 4294967296", "see 0 - x0A", "see 0 - Own", "see 0 x200203c1400A0ba32217 noise",
                "pop 8 -", "pop 0", "pop 0 0 -", "pop 0 12", "commit 7 63 x0a", "commit 7 63 x0A0a", "commit 7 63 -"],
        }
        for place, lines in forms.items():
            for line in lines:
                self.changed(self.frames, place, line, "BadLine")
        self.changed(self.frames, 9, "read 0 0 1:A", "WrongAnswer")
        self.changed(self.frames, 10, "fetch 0 1 0 2 2 - -", "Refused")
        self.changed(self.frames, 9, self.frames[7], "Refused")
        self.changed(self.frames, 8, "see 0 x200203c1400A0ba32217 noise", "BadLine")
