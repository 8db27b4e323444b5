"""Runs of `fr_view fifo`, and another reading of the same lines."""
from collections import deque
from collections.abc import Iterable

from .runner import EXAMPLES, WRITTEN, refused, run

BYTES = ("valid", "content", "syntax", "-")
"""The states of observed bytes in the column `status` of a table of frames."""

HEAD = """frtrace 3
params 3 4 1 20 5 0 10 90 0 5
node 1 0 0 8 16
{}begin
"""
QUEUE = "queue {} 1 3 AB 0 1\n"
FIRST_A, FIRST_B = "200203c1400a0ba32217", "200203c1400a0b85a2c6"
"""The data frame of slot 2 in cycle 0 with payload `0a0b`, on each channel."""
NULL = "000203c1410000d14f6c"
"""A null frame of slot 2 in cycle 1 on A."""
BOTH = f"fetch 0 0 0 2 2 - -\nsee 0 x{FIRST_A} x{FIRST_B}\n"
STORED = "stored 0 0 2 A ---- x0a0b\nstored 1 0 2 B ---- x0a0b\n"

WORKED = {
    # Two frames in one window, A before B, and both fit.
    (QUEUE.format(2), BOTH): STORED + "waiting 0\nwaiting 1\n",
    # With room for one frame that of B takes the place of that of A.
    (QUEUE.format(1), BOTH): STORED + "overwritten 0 0\nwaiting 1\n",
    # The oldest is popped first. An empty FIFO has nothing to pop. The window isn't the first of a cycle.
    (QUEUE.format(2), BOTH + "pop 0 1:A\npop 0 1:B\npop 0 -\n"): STORED + "popped 0 0 0\npopped 1 0 0\n",
    # The first slot begins cycle 0, so a pop behind its windows is a call of cycle 1.
    (QUEUE.format(2), f"fetch 0 0 0 1 1 - -\nsee 0 - -\nfetch 1 0 0 2 2 - -\nsee 1 x{FIRST_A} noise\npop 0 3:A\n"):
        "stored 0 0 2 A ---- x0a0b\npopped 0 1 0\n",
    # Nothing is stored of a null frame, of other bytes, and of a slot that isn't one of the FIFO.
    (QUEUE.format(2), f"fetch 0 1 0 2 2 - -\nsee 0 x{NULL} x00\nfetch 1 1 0 3 3 - -\nsee 1 x{FIRST_A} conflict\n"): "",
    ("queue 2 3 3 AB 0 1\n", BOTH): "",
    # On A a receive buffer is for the slot.
    ("rx 2 A 0 1\n" + QUEUE.format(2), BOTH): "stored 0 0 2 B ---- x0a0b\nwaiting 0\n",
    # A node without a FIFO, and one without entries.
    ("", BOTH): "",
    (QUEUE.format(1), ""): "",
}
"""The lines of a plan and the entries, with what is printed."""

SEVERAL = """stored 0 0 3 B ---- x30b00001
stored 1 0 4 A ---- x40a00001
stored 2 0 5 A ---- x5001
overwritten 0 0
popped 1 1 1
popped 2 2 1
"""
"""The FIFO of `examples/several-buffers/trace` has room for two frames, and three come in cycle 0."""
NODE_0 = """stored 0 0 4 A ---- x7001
stored 1 1 4 A ---- x7002
popped 0 2 1
stored 2 3 4 A ---- x7003
waiting 1
waiting 2
"""
"""Node 0 of `examples/three-nodes` gets a frame in cycles 0, 1 and 3, and its task 1 pops one in cycle 2."""


class Fifos:
    """Runs of `fr_view fifo`."""

    def __init__(self, runs):
        self.runs = runs

    def worked(self):
        for (plan, entries), told in WORKED.items():
            given, wanted = f"{HEAD.format(plan)}{entries}end\n".encode(), (told.encode(), b"", 0)
            if told:
                self.runs.check_once(f"fifo of {plan!r} and {entries!r}, {WRITTEN}", ["fifo"], wanted, given)
            else:
                self.runs.check(f"fifo of {plan!r} and {entries!r}", ["fifo"], wanted, given=given)
        given = (EXAMPLES / "several-buffers/trace").read_bytes()
        self.runs.check("fifo of several buffers", ["fifo"], (SEVERAL.encode(), b"", 0), given=given)

    def node_0(self):
        """Checks the lines of the trace of node 0 of the three nodes."""
        folder = EXAMPLES / "three-nodes"
        trace = run([self.runs.program, "trace", "0", folder / "cluster.toml", folder / "scenario", "--cycles", "4"])[0]
        self.runs.check("fifo of node 0", ["fifo"], (NODE_0.encode(), b"", 0), given=trace)

    def refusals(self):
        given = (EXAMPLES / "several-buffers/trace").read_bytes()
        for text, error in {given[:-1]: "Truncated", given + b"\n": "BadLine 63", b"": "BadMagic",
                            given.replace(b"pop 1 10:A", b"pop 1 8:B"): "WrongAnswer 37"}.items():
            self.runs.check(f"fifo of {text[-20:]}", ["fifo"], refused(error), given=text)


# ---- another reading


def fifo_of(table: str, trace: str) -> str:
    """Returns the lines of `fifo` from the table `frames` of a trace, and from the trace itself."""
    lines = trace.splitlines()
    capacity = next((int(it.split(" ")[1]) for it in lines if it.startswith("queue ")), None)
    if capacity is None:
        return ""
    rows = (row for row in (line.split(" ") for line in table.splitlines()[1:]) if row[4] in BYTES)
    return "".join(f"{it}\n" for it in told_of(capacity, lines[lines.index("begin") + 1:-1], rows))


def told_of(capacity: int, entries: list[str], rows: Iterable[list[str]]) -> Iterable[str]:
    """Yields the lines of a FIFO: the rows of its frames go in, and those that are too many go out."""
    held, places, begun, rows = deque(), [], 0, iter(rows)
    for number, words in enumerate(line.split(" ") for line in entries):
        if words[0] == "fetch":
            begun += words[3:5] == ["0", "1"]
        elif words[0] == "see":
            for channel in (it for it, word in zip("AB", words[2:]) if word.startswith("x")):
                _, _, slot, _, _, _, _, flags, receivers, payload = next(rows)
                if "queue" in receivers.split(","):
                    yield f"stored {len(places)} {max(begun - 1, 0)} {slot} {channel} {flags} {payload}"
                    held.append(len(places))
                    places.append(f"{number}:{channel}")
            while len(held) > capacity:
                yield f"overwritten {held.popleft()} {max(begun - 1, 0)}"
        elif words[0] == "pop" and words[2] != "-":
            assert places[held[0]] == words[2], f"{words} pops another frame than {places[held[0]]}"
            yield f"popped {held.popleft()} {begun} {words[1]}"
    yield from (f"waiting {number}" for number in held)
