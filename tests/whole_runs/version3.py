"""Runs of scenarios of version 3: the same outcome as the text that says it in version 2, refusals, and what is left
out.

The expected texts were worked out by hand.
"""
from .logs import put_together
from .runner import EXAMPLES, refused, run

BEGIN, END = "frscenario 3\n", "end\n"
PEDAL = 'name = "pedal"\ntasks = 2\nown = [{slot = 1'
BRAKE = 'name = "brake"\ntasks = 2\nown = [{slot = 2'

SAME = {
    "gaps, comments and empty lines": (
        "# first\n\n \t \ncommit  0\t0 0 0 x0a0b # sent once\n\tpop 0 1 2   # # x\n  end# all\n",
        "commit 0 0 0 0 x0a0b\npop 0 1 2\n"),
    "calls in several cycles": (
        "commit 1 0 * 0 x1111\nread 1 0 1-3/2 1\ncommit 2 0 0-1 0 x7001\ncommit 0 0 2-2 0 x0a0b\npop 0 1 3-3/9\n",
        "commit 1 0 0 0 x1111\ncommit 1 0 1 0 x1111\nread 1 0 1 1\ncommit 1 0 2 0 x1111\ncommit 1 0 3 0 x1111\n"
        "read 1 0 3 1\ncommit 2 0 0 0 x7001\ncommit 2 0 1 0 x7001\ncommit 0 0 2 0 x0a0b\npop 0 1 3\n"),
    "calls in any order": (
        "commit 0 0 3 0 x0004\ncommit 0 0 0 0 x0001\ncommit 0 0 0-1 0 x0002\nwithdraw 0 0 1 0\n",
        "commit 0 0 0 0 x0001\ncommit 0 0 0 0 x0002\ncommit 0 0 1 0 x0002\nwithdraw 0 0 1 0\ncommit 0 0 3 0 x0004\n"),
    "the order within a cycle": (
        "withdraw 0 0 0-3 0\ncommit 0 0 1-2 0 x0001\n",
        "withdraw 0 0 0 0\nwithdraw 0 0 1 0\ncommit 0 0 1 0 x0001\nwithdraw 0 0 2 0\ncommit 0 0 2 0 x0001\n"
        "withdraw 0 0 3 0\n"),
    "names": (
        "commit pedal 0 0 0 x0a0b\nread brake 0 3 first\nbabble brake A 1 s1 x00\nlost pedal 2\n",
        "commit 0 0 0 0 x0a0b\nread 1 0 3 1\nbabble 1 A 1 s1 x00\nmute 0 A 2 s*\nmute 0 B 2 s*\n"),
    "faults on both channels and in ranges": (
        "commit 0 0 0 0 x0a0b\nbabble 2 AB 0-2/2 s1-2 x00\ncorrupt AB * s3-3 7\nmute 1 AB 1-9 s*\n",
        "commit 0 0 0 0 x0a0b\ncorrupt A * s3 7\ncorrupt B * s3 7\n"
        + "".join(f"babble 2 {on} {when} {place} x00\n" for on in "AB" for when in (0, 2) for place in ("s1", "s2"))
        + "".join(f"mute 1 {on} {when} s*\n" for on in "AB" for when in (1, 2, 3))),
    "a lost node that sends in the dynamic segment": (
        "commit 2 0 0 0 x7001\ncommit 2 1 1 0 x7002\ncommit 2 0 3 0 x7003\nlost 2 0-1\n",
        "commit 2 0 0 0 x7001\ncommit 2 1 1 0 x7002\ncommit 2 0 3 0 x7003\nmute 2 A 0 m1\nmute 2 A 1 m1\n"),
    "every window of the dynamic segment": (
        "commit 2 0 0 0 x7001\nbabble 1 B 1 m* x00\nmute 2 A * m*\n",
        "commit 2 0 0 0 x7001\n" + "".join(f"babble 1 B 1 m{minislot} x00\n" for minislot in range(1, 5))
        + "".join(f"mute 2 A * m{minislot}\n" for minislot in range(1, 5))),
    "a dynamic slot that a frame moves": (
        # The frame in slot 4 takes two minislots on A, so that slot 5 opens at minislot 3 there, and at 2 on B.
        "commit 2 0 0 0 x7001\nbabble 1 AB 0-1 d5 xff\n",
        "commit 2 0 0 0 x7001\nbabble 1 A 0 m3 xff\nbabble 1 A 1 m2 xff\nbabble 1 B 0 m2 xff\nbabble 1 B 1 m2 xff\n"),
    "lines that are left out": (
        "commit 0 0 0 0 x0a0b\ncommit 0 0 4 0 x0c0d\npop 9 7 4-1023\nlost 9 4\nmute 9 A 5-7 s900\nread 1 0 3-5 1\n",
        "commit 0 0 0 0 x0a0b\nread 1 0 3 1\n"),
    "lists": (
        "commit 0 0 3,0-1 0 x0a0b\nread brake,1 1 0,2 first\nbabble 2 A,B 0,2 s1,s2 x00\nlost pedal,1 1,9\n",
        "commit 0 0 0 0 x0a0b\ncommit 0 0 1 0 x0a0b\ncommit 0 0 3 0 x0a0b\n" + "read 1 1 0 1\n" * 2
        + "read 1 1 2 1\n" * 2
        + "".join(f"babble 2 {on} {when} {place} x00\n" for on in "AB" for when in (0, 2) for place in ("s1", "s2"))
        + "".join(f"mute {node} {on} 1 s*\n" for node in "01" for on in "AB")),
    "the order of a list's lines": (
        "commit 0 0 1 0 x0001,x0002\ncommit 0 0 0-1,1 0 x0003,x0004\n",
        "commit 0 0 0 0 x0003\ncommit 0 0 0 0 x0004\n"
        + "".join(f"commit 0 0 1 0 x000{last}\n" for last in (1, 2, 3, 4, 3, 4))),
    "nothing": ("", ""),
}
"""Lines of version 3, and those of version 2 that say the same in a run of four cycles."""

MANY = ",".join(map(str, range(64)))
"""The longest list."""

LINES = (
    "commit 0 0 1024 0 x0a0b", "commit 0 0 2-1 0 x0a0b", "commit 0 0 0-3/0 0 x0a0b", "commit 0 0 0-3/1024 0 x0a0b",
    "commit 0 0 0- 0 x0a0b", "commit 0 0 -3 0 x0a0b", "commit 0 0 0/2 0 x0a0b", "commit 0 0 */2 0 x0a0b",
    "commit 0 0 00 0 x0a0b", "commit 0 0 0-03 0 x0a0b", "commit 0 0 0-1-2 0 x0a0b", "commit 0 8 0 0 x0a0b",
    "commit 16 0 0 0 x0a0b", "commit 0 0 0 64 x0a0b", "commit 0 0 0 0 x0a", "commit 0 0 0 0 x0A0B", "commit 0 0 0 0",
    "commit 0 0 0 0 x0a0b x", "pop 0 0 0\r", "pop nobody 0 0", "pop twin 0 0", "pop two words 0 0",
    f"pop {'n' * 33} 0 0", "read brake 0 0 nothing", "read pedal 0 0 first", "read 9 0 0 first", "lost", "lost 0",
    "lost 0 AB *", "lost 0 * x00", "lost 0 *-1", "mute 0 BA * s*", "mute 0 a * s*", "mute 0 A * d*", "mute 0 A * m1-2",
    "mute 0 A * d1-2", "mute 0 A * s3-2", "mute 0 A * s0-2", "mute 0 A * s1-8001", "mute 0 A * d0", "mute 0 A * **",
    "mute 0 A * s1-", "mute 0 A * S1", "corrupt * * s1 0", "corrupt AB * s1 65536", "corrupt AB * s1 -",
    f"babble 0 AB * * x{'00' * 263}", "babble 0 AB * *", "end end", "End", "frscenario 3", "withdraw 0 0 0",
    "commit 0 0 0 0 x0a 0b", "\u00fc", "commit 0 0 0,,1 0 x0a0b", "commit 0 0 0, 0 x0a0b", "commit 0 0 ,0 0 x0a0b",
    "commit,read 0 0 0 0 x0a0b", "commit 0 0 0, 1 0 x0a0b", "commit 0 0 0;1 0 x0a0b", "mute 0 A 0,1 s1,s0",
    "mute 0 A 0 s1,2", "commit 0,twin 0 0 0 x0a0b", "commit 0 0 0 0 x0a0b,x0a", "lost 0,16 0", ",", "end,",
    f"read 1 0 {MANY},0 1", "babble 0,1,2 A,B 0,1,2,3 s1,s2,s3 x",
)
"""Lines that have no form of version 3, or a name that can't be used."""

ADDED = {
    "commit 0 2 0 0 x0a0b": "BadScript 2", "commit 0 0 0-3 1 x0a0b": "BadScript 0", "read 3 0 0 0": "BadScript 6",
    "commit 0 0 3-9 0 x0a0b0c0d": "BadScript 0", "pop 1 0 3": "BadScript 2", "pop 0 1 1": "settled",
    "commit 0 2 4 0 x0a0b": "settled", "lost 3 0": "BadFault 2", "lost 3 4": "settled", "lost 2 0": "settled",
    "babble 2 AB 1-2 s1-2 x00": "BadFault 2", "babble 2 AB 1-2 s1-4 x00": "BadFault 2",
    "babble 1 AB 1-2 s1-4 x00": "BadFault 2", "babble 1 AB * d3 x00": "BadFault 2",
    "babble 1 AB * d8 x00": "BadFault 2", "babble 1 AB * d4 x00": "settled", "babble 1 AB * d7 x00": "settled",
    "babble 1 AB * m5 x00": "BadFault 2",
    "babble 1 AB * * x00": "settled", "babble 2 A 3 * x00": "BadFault 2", "babble 2 B 3 m* x00": "settled",
    "corrupt AB 0 * 1": "settled", "mute 0 A 9 s900": "settled", "babble 2 AB 4 s* x00": "settled",
    "mute 1 AB 0-2/2 s1\nmute 1 AB 1-3/2 s1": "settled", "mute 1 AB 0-2/2 s1\nmute 1 A 1-2 s1": "BadFault 4",
    "mute 1 B 0 d5\nmute 1 A 0 m2": "settled", "mute 1 B 0 d5\nmute 1 B 0 m2": "BadFault 3",
    "mute 1 B 0 d5\nmute 1 B 0 d6": "settled", "mute 1 B 0 m2\nlost 1 0-3/2": "BadFault 4",
    f"read 1 0 {MANY} 1": "settled", "mute 1 A 0,0 s1": "BadFault 3", "mute 1 A 0-2,1 s1": "BadFault 3",
    "mute 1 A,B 0,1 s1,s2": "settled", "lost 2,2 0": "BadFault 4", "commit 0,1 2 0 0 x0a0b": "BadScript 2",
    "babble 2 A,B 1 s3 x00,xff": "BadFault 2", "commit 0 0 0,4 0 x0a0b": "settled",
    "mute 1 A 1-1000/2 s1\nmute 1 A 999-1023/3 s1": "settled",
    "mute 1 A 1-1023/2 s1\nmute 1 A 2-1023/3 s1": "settled", "mute 1 A 1-1023/2 s1\nmute 1 A 0-1023/3 s1": "BadFault 3",
}
"""The results of a run of the three nodes whose scenario has these lines beside the others, in version 3.

Its fault lines 0 and 1 are babbles of node 2 in each static slot. The run has four cycles. Lines of one place that meet
only after it are accepted. Lines that begin after it have no number.
"""


class Version3:
    """Scenarios of version 3 of the three-node cluster, two of whose nodes have names."""

    def __init__(self, runs, folder):
        self.runs, self.folder = runs, folder
        cluster = (EXAMPLES / "three-nodes/cluster.toml").read_text()
        for named in (PEDAL, BRAKE):
            old = named.split("\n", 1)[1]
            assert old in cluster
            cluster = cluster.replace(old, named)
        twins = cluster.replace("tasks = 2\nlatest_a", 'name = "twin"\ntasks = 2\nlatest_a')
        twins = twins.replace('{kind = "receive", slot = 1, channels = "A"}',
                              '{name = "first", kind = "receive", slot = 1, channels = "A"}')
        self.cluster, self.twins = folder / "named.toml", folder / "twins.toml"
        self.cluster.write_text(twins.replace("twin", "radio"))
        self.twins.write_text(twins + '[[node]]\nname = "twin"\n')
        self.scenario = (EXAMPLES / "three-nodes/scenario").read_text().replace("frscenario 1\n", "").replace(END, "")

    def ran(self, text, cycles=4, cluster=None):
        """Returns the output of a run, its refusal or nothing, and its status."""
        path = self.folder / "version3"
        path.write_bytes(text if isinstance(text, bytes) else text.encode())
        return run([self.runs.program, "run", cluster or self.cluster, path, "--cycles", str(cycles)])

    def refused(self, name, text, error, cycles=4, cluster=None):
        output, errors, status = self.ran(text, cycles, cluster)
        self.runs.compare(name, (output, errors.splitlines(True)[-1:], status), (b"", [refused(error)[1]], 1))

    def all(self):
        self.same()
        self.texts()
        self.lines()
        self.added()
        self.limits()
        self.notes()
        self.examples()

    def same(self):
        """Checks that a text has the outcome of the one of version 2, of a run that completes."""
        for name, (new, old) in SAME.items():
            new = new if new.endswith("all\n") else f"{new}{END}"
            # Standard error names the lines of faults without effect, whose numbers differ.
            (output, _, status), (wanted, _, old_status) = (
                self.ran(f"{BEGIN}{new}"), self.ran(f"frscenario 2\n{old}{END}"))
            self.runs.compare(f"version 3 with {name}", (output, status), (wanted, old_status))
            self.runs.compare(f"version 2 with {name}", wanted.endswith(b"settled\n"), True)

    def texts(self):
        for text in ("frscenario 3", "frscenario 3 \n" + END, " frscenario 3\n" + END, "# \nfrscenario 3\n" + END,
                     "frscenario 3 # x\n" + END, "frscenario 4\n" + END, "frscenario 03\n" + END):
            self.refused(f"the scenario is {text!r}", text, "BadMagic")
        self.refused("a comment is no UTF-8", b"frscenario 3\n# \xff\nend\n", "BadMagic")
        for rest in ("", "end", "end # x", "pop 0 0 0\n", "# end\n", "\n", "no line"):
            self.refused(f"it ends in {rest!r}", f"{BEGIN}{rest}", "Truncated")
        for rest in ("\n", "x", "# x\n", END, " "):
            self.refused(f"{rest!r} stands after the end", f"{BEGIN}{END}{rest}", "BadLine 3")
        self.refused("the fourth line is at fault", f"{BEGIN}\n# x\npop 0\nnothing\n{END}", "BadLine 4")
        for version in (1, 2):
            for line in ("", "# x", "pop 0 0 0 # x", "pop  0 0 0", "lost 0 0", "pop 0 0 0-1", "pop pedal 0 0",
                         "mute 0 AB * s*", "mute 0 A 0-1 s*", "mute 0 A * *", "mute 0 A * m*", "mute 0 A * d5",
                         "mute 0 A * s1-2", "end "):
                self.refused(f"{line!r} in version {version}", f"frscenario {version}\n{line}\n{END}", "BadLine 2")

    def lines(self):
        for line in LINES:
            self.refused(f"the line of version 3 is {line!r}", f"{BEGIN}{line}\n{END}", "BadLine 2", cluster=self.twins)

    def added(self):
        for lines, error in ADDED.items():
            text = f"{BEGIN}{self.scenario}{lines}\n{END}"
            if error == "settled":
                output, _, status = self.ran(text)
                self.runs.compare(f"version 3 with {lines}", (output.endswith(b"settled\n"), status), (True, 0))
            else:
                self.refused(f"version 3 with {lines}", text, error)

    def limits(self):
        most = BEGIN + "# x\n" * 4094
        output, _, status = self.ran(f"{most}{END}")
        self.runs.compare("the end is line 4096", (output.endswith(b"settled\n"), status), (True, 0))
        self.refused("the end is line 4097", f"{most}\n{END}", "TooManyLines")
        output, _, status = self.ran(f"{BEGIN}{'#' * 1200}\n{END}")
        self.runs.compare("a comment has 1200 bytes", (output.endswith(b"settled\n"), status), (True, 0))
        self.refused("a comment has 1201 bytes", f"{BEGIN}{'#' * 1201}\n{END}", "BadLine 2")
        self.refused("a line has 1201 spaces", f"{BEGIN}{' ' * 1201}\n{END}", "BadLine 2")
        lists = f"{BEGIN}# x\n\n" + f"read 1 0 {MANY} 1\n" * 63
        output, _, status = self.ran(lists + "pop 0 0 9\n" * 62 + END)
        self.runs.compare("lists that stand for 4096 lines", (output.endswith(b"settled\n"), status), (True, 0))
        lists += "pop 0 0 9\n" * 63
        self.refused("lists that stand for 4097 lines", f"{lists}{END}", "TooManyLines")
        self.refused("lists that stand for 4097 lines and a bad line", f"{lists}pop\n{END}", "BadLine 130")
        self.refused("lists that stand for 4097 lines without an end", lists, "Truncated")
        calls = BEGIN + "pop 0 0 *\n" * 256
        self.refused("262144 calls", f"{calls}{END}", "NoRoom 0", 1024)
        self.refused("262145 calls", f"{calls}pop 0 0 1023\n{END}", "TooManyCalls", 1024)
        self.refused("262145 calls and a bad line", f"{calls}pop 0 0 1023\npop\n{END}", "BadLine 259", 1024)
        self.refused("262145 calls without an end", f"{calls}pop 0 0 1023\n", "Truncated", 1024)
        self.refused("262145 calls and a bad script", f"{calls}pop 0 0 1023\npop 9 0 0\n{END}", "TooManyCalls", 1024)
        self.refused("a call for each cycle and too little room", f"{BEGIN}pop 0 0 *\n{END}", "NoRoom 0", 257)

    def notes(self):
        """Checks that standard error names each line that is left out, and each fault without effect.

        Node 2 has no commit, so it offers nothing, and node 1 offers null frames.
        """
        lines = "pop 0 0 0\n\npop 0 0 4\nlost 2 5-9\nmute 1 AB 3-9 s*\npop 0 0 1,4\nlost 0 5,7\nmute 1,2 A 2,9 s*\n"
        for cycles, numbers, idle in ((4, (4, 5, 8), ""), (5, (5, 8), ""), (6, (), "line 5 struck nothing\n")):
            _, errors, status = self.ran(f"{BEGIN}{lines}{END}", cycles)
            wanted = "".join(f"line {number} names no cycle of the run\n" for number in numbers) + idle
            self.runs.compare(f"notes of a run of {cycles} cycles", (errors.decode(), status), (wanted, 0))

    def records(self):
        """Checks, of `fr_view record`, the lines that faults come from: those of the text, one for both channels."""
        path = self.folder / "version3"
        path.write_text(f"{BEGIN}# comment\n\ncommit pedal 0 0 0 x0a0b\nbabble radio AB 0-1 s1 x00 # two cycles\n"
                        f"lost brake 2\n\ncorrupt AB 3 s1 9\nlost pedal 4\n{END}")
        output, _, status = run([self.runs.program, "record", self.cluster, path, "--cycles", "4"])
        rows = [line.split(" ") for line in output.decode().splitlines()]
        found = sorted((it[1], it[3], it[4], it[6], it[-1]) for it in rows if it[-1] != "-")
        wanted = [*((cycle, "1", on, "babble", "5") for cycle in "01" for on in "AB"),
                  *(("2", "2", on, "offer", "6") for on in "AB"), *(("3", "1", on, "corrupt", "8") for on in "AB")]
        self.runs.compare("the record of version 3", (found, status), (sorted(wanted), 0))
        self.endless_notes()

    def endless_notes(self):
        """Checks, of some commands of `fr_view`, that an endless run names each line that is left out, and no other."""
        path = self.folder / "version3"
        path.write_text(f"{BEGIN}commit 0 0 0 0 x0a0b\n\npop 0 0 4\nlost 2 5-9\nmute 1 AB 3-9 s*\n{END}")
        for command in ("answers", "commits", "record", "bus"):
            for cycles, numbers in ((4, (4, 5)), (5, (5,)), (6, ()), (1025, ())):
                words = [command, self.cluster, path, "--cycles", str(cycles)]
                output, errors, status = run([self.runs.program, *words, "--endless"])
                notes = "".join(f"line {number} names no cycle of the run\n" for number in numbers)
                name = f"{command} of {cycles} cycles in version 3, endless"
                self.runs.compare(name, (errors.decode(), status), (notes, 0))
                if cycles < 1025:
                    output = put_together(output.decode()).encode() if command == "commits" else output
                    self.runs.compare(f"output of {name}", output, run([self.runs.program, *words])[0])

    def examples(self):
        """Checks that the car by names has the outcome of the car by numbers."""
        wanted = (EXAMPLES / "vehicle/outcome-of-8-cycles").read_bytes()
        self.runs.check("the car in version 3", ["run", "vehicle/cluster.toml", "vehicle/scenario-3", "--cycles", "8"],
                        (wanted, b"", 0))
