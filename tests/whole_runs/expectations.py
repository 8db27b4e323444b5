"""Expectations of scenarios: the lines for those that a run misses, and its status, worked out by hand.

Of the three nodes of the examples, node 0 commits x0a0b in cycle 0 and x0c0d in cycle 2. Both are sent in static slot 1
of their cycle, which buffer 1 of node 1 receives. So this buffer holds x0a0b at the end of the cycles 0 and 1, and then
x0c0d. Nothing comes to buffer 1 of node 2, and buffer 0 of node 0 is a transmit buffer.
"""
from .runner import EXAMPLES, refused, run

BEGIN, END = "frscenario 3\n", "end\n"
CALLS = "commit 0 0 0 0 x0a0b\ncommit 0 1 2 0 x0c0d\n"
MET = ("expect 1 0-1 1 x0a0b", "expect 1 2-3 1 x0c0d # so", "\texpect  1 3 1\tx0c0d", "expect-none 2 * 1",
       "expect brake 2-3 state x0c0d", "expect-none radio 0-3/3 1", "", "# expect 1 0 1 x")
"""Lines that the run meets."""
MISSED = {
    "expect 1 0 1 x0a0c": "node 1 buffer 1 at the end of cycle 0: expected x0a0c, found x0a0b",
    "expect 1 0 1 x0a0b0a0b": "node 1 buffer 1 at the end of cycle 0: expected x0a0b0a0b, found x0a0b",
    "expect 1 * 1 x0a0b": "node 1 buffer 1 at the end of cycle 2: expected x0a0b, found x0c0d (and in 1 other cycle)",
    "expect brake 0-3 state x0c0d":
        "node 1 buffer 1 at the end of cycle 0: expected x0c0d, found x0a0b (and in 1 other cycle)",
    "expect 1 1-1023/2 1 x": "node 1 buffer 1 at the end of cycle 1: expected x, found x0a0b (and in 1 other cycle)",
    "expect 1 * 1 x0000": "node 1 buffer 1 at the end of cycle 0: expected x0000, found x0a0b (and in 3 other cycles)",
    "expect-none 1 3-9 1": "node 1 buffer 1 at the end of cycle 3: expected nothing, found x0c0d",
    "expect 2 0-2/2 1 x0a0b":
        "node 2 buffer 1 at the end of cycle 0: expected x0a0b, found nothing (and in 1 other cycle)",
    "expect 0 2 0 x0c0d": "node 0 buffer 0 at the end of cycle 2: expected x0c0d, found no receive buffer",
    "expect-none pedal 2 0": "node 0 buffer 0 at the end of cycle 2: expected nothing, found no receive buffer",
    "expect 1 * 63 x0c0d":
        "node 1 buffer 63 at the end of cycle 0: expected x0c0d, found no receive buffer (and in 3 other cycles)",
    "expect-none 15 0-1 0":
        "node 15 buffer 0 at the end of cycle 0: expected nothing, found no receive buffer (and in 1 other cycle)",
    f"expect 1 1 1 x{'00' * 254}": f"node 1 buffer 1 at the end of cycle 1: expected x{'00' * 254}, found x0a0b",
}
"""Lines that a run of four cycles misses, each with the words after its number."""
FAULTS = {
    "mute 0 A 0 s1": ("expect-none 1 0-1 1", "expect 1 0-1 2 x0a0b", "expect 1 2-3 1 x0c0d"),
    "lost 0 0": ("expect-none 1 0-1 1", "expect-none 1 0-1 2", "expect 1 2 2 x0c0d"),
    "corrupt A 2 s1 40": ("expect 1 2-3 1 x0a0b", "expect 1 2-3 2 x0c0d"),
    "corrupt AB 2 s1 40": ("expect 1 2-3 1 x0a0b", "expect 1 2-3 2 x0a0b"),
    "babble 1 B 0-2 s1 x00": ("expect 1 0-1 1 x0a0b", "expect-none 1 * 2"),
    "commit 1 0 1 0 x7777\ncorrupt A 1 s2 40": ("expect-none 2 0 1", "expect 2 1-3 1 x7777", "expect-none 0 0-1 1",
                                               "expect 0 2-3 1 x7777"),
}
"""Lines of faults, and expectations that a run with them meets. Buffer 2 of node 1 receives static slot 1 on B. Node 1
owns static slot 2, which buffer 1 of node 0 receives on A, and buffer 1 of node 2 on both channels."""
REFUSED = ("expect 1 0 1", "expect 1 0, 1 x", "expect 1 0 1 x0a0b,x0", "expect 1 0 1 x0a", "expect 1 0 1 x0A0B",
           f"expect 1 0 1 x{'00' * 256}", "expect 16 0 1 x", "expect 1 1024 1 x", "expect 1 1-0 1 x",
           "expect 1 0-3/0 1 x", "expect 1 0 64 x", "expect nobody 0 1 x", "expect brake 0 nothing x",
           "expect 9 0 state x", "expect 1 0 0 1 x0a0b", "expect-none 1 0 1 x", "expect-none 1 0",
           "expect_none 1 0 1", "Expect 1 0 1 x", "expect-none 1 0 1 x0a0b", "expect 1 0 1 nothing")
"""Lines that have no form of version 3, or a name that can't be used."""


class Expectations:
    """Runs of four cycles with expectations, by the command `run` of `fr_bench` or those of `fr_view`."""

    def __init__(self, runs, folder, command="run"):
        self.runs, self.command = runs, command
        named = (EXAMPLES / "three-nodes/cluster.toml").read_text().split("[[node]]")
        named[1:] = [f'\nname = "{name}"{it}' for name, it in zip(("pedal", "brake", "radio"), named[1:])]
        cluster = "[[node]]".join(named)
        second = '{kind = "receive", slot = 1, channels = "A"}'
        assert second in cluster
        self.cluster, self.file = folder / "expecting.toml", folder / "expecting"
        self.cluster.write_text(cluster.replace(second, second.replace("{", '{name = "state", ')))

    def ran(self, *lines, cycles=4, begin=BEGIN, options=()):
        self.file.write_text("".join([begin, CALLS, *(f"{line}\n" for line in lines), END]))
        node = ["1"] if self.command == "trace" else []
        return run([self.runs.program, self.command, *node, self.cluster, self.file, "--cycles", str(cycles), *options])

    def all(self):
        usual, _, _ = self.ran()
        self.runs.compare(f"{self.command} with expectations that are met", self.ran(*MET), (usual, b"", 0))
        for line, told in MISSED.items():
            wanted = usual, f"line 4: {told}\n".encode(), 3
            self.runs.compare(f"{self.command} with `{line[:40]}`", self.ran(line), wanted)
        self.several(usual)
        self.faults()
        self.others()
        self.refused()

    def several(self, usual):
        """Checks that the lines come in the order of the file, between lines that are met."""
        lines = [line for pair in zip(MISSED, MET * 2) for line in pair]
        told = [f"line {number}: {MISSED[line]}\n" for number, line in enumerate(lines, 4) if line in MISSED]
        self.runs.compare(f"{self.command} with many lines", self.ran(*lines), (usual, "".join(told).encode(), 3))
        told = "".join(f"line 4: node 1 buffer 1 at the end of cycle {cycle}: expected x0a0b, found x0c0d\n"
                       for cycle in (2, 3))
        self.runs.compare(f"{self.command} with lists", self.ran("expect 1 0,1-2,3 1 x0a0b"), (usual, told.encode(), 3))

    def faults(self):
        """Checks runs with faults, each of which has the output of the run without the expectations."""
        for fault, lines in FAULTS.items():
            usual, told, status = self.ran(fault)
            self.runs.compare(f"{self.command} with `{fault}`", self.ran(fault, *lines), (usual, told, status))

    def free(self):
        """Checks a free-running run, by `fr_bench run`. Its calls may come later than in their cycles."""
        output, told, status = self.ran("expect 0 * 1 x1111", "expect-none 2 * 1", options=("--free",))
        wanted = (b"line 4: node 0 buffer 1 at the end of cycle 0: expected x1111, found nothing"
                  b" (and in 3 other cycles)\n")
        self.runs.compare("a free-running run", (output.endswith(b"settled\n"), told, status), (True, wanted, 3))

    def endless(self):
        """Checks a run without history, by a command: it names the lines that it doesn't judge."""
        usual, _, _ = self.ran(options=("--endless",))
        wanted = b"line 6 names no cycle of the run\nline 4 is not judged in a run without history\n"
        got = self.ran("expect 1 * 1 x1111", "", "expect-none 0 4 1", options=("--endless",))
        self.runs.compare(f"{self.command} without history", got, (usual, wanted, 5))
        got = self.ran("expect 1,2 0,2 1 x1111", options=("--endless",))
        self.runs.compare(f"{self.command} without history and a list", got,
                          (usual, b"line 4 is not judged in a run without history\n", 5))
        got = self.ran("expect 1 4 1 x1111", options=("--endless",))
        self.runs.compare(f"{self.command} without history and expectations of its cycles", got,
                          (usual, b"line 4 names no cycle of the run\n", 0))

    def examples(self):
        """Checks that the run of the example meets its expectations."""
        _, told, status = run([self.runs.program, "run", "three-nodes/cluster.toml", "three-nodes/expectations",
                               "--cycles", "4"])
        self.runs.compare("the example with expectations", (told, status), (b"", 0))

    def others(self):
        """Checks lines that are left out, of the same file in runs of other lengths. Line 3 commits in cycle 2."""
        lines = "expect 1 2-9 1 x0c0d", "expect-none 9 4-5 9", "pop 0 0 9-12", "expect 1 1 1 x0c0d"
        missed = "line 7: node 1 buffer 1 at the end of cycle 1: expected x0c0d, found x0a0b\n"
        for cycles, left_out, told, status in ((1, (3, 4, 5, 6, 7), "", 0), (2, (3, 4, 5, 6), missed, 3),
                                               (4, (5, 6), missed, 3)):
            front = "".join(f"line {number} names no cycle of the run\n" for number in left_out)
            got = self.ran(*lines, cycles=cycles)[1:]
            self.runs.compare(f"{self.command} of {cycles} cycles", got, (f"{front}{told}".encode(), status))

    def refused(self):
        for line in REFUSED:
            self.runs.compare(f"{self.command} with `{line[:40]}`", self.ran(line), refused("BadLine 4"))
        for version in (1, 2):
            got = self.ran("expect 1 0 1 x0a0b", begin=f"frscenario {version}\n")
            self.runs.compare(f"an expectation in version {version}", got, refused("BadLine 4"))
        got = self.ran("expect 1 0 1 x0a0b", "pop 1 0 0")
        self.runs.compare(f"{self.command} with an expectation and a bad script", got, refused("BadScript 2"))
