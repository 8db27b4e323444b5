"""Runs: scenario texts that are refused, and runs of the three-node cluster."""
from .runner import EXAMPLES, refused, run

ADDED = {
    "commit 0 2 0 0 x0a0b": "BadScript 2", "mute 0 A 4 s1": "BadFault 2", "babble 2 A 0 s1 x01": "BadFault 2",
    "read 3 0 0 0": "BadScript 6", "commit 0 0 0 1 x0a0b": "BadScript 0", "commit 0 0 1 0 x0a": "BadLine 13",
    "corrupt A * m5 1": "BadFault 2", "mute 0 A * s4": "BadFault 2", "pop 0 1 1": "BadScript 1",
    "commit 0 0 4 0 x0a0b": "BadScript 0", "commit 0 0 1 0 x0a0b0c0d": "BadScript 0", "read 0 0 0 1": "settled",
    "commit 0 0 1 2 x0a0b": "BadScript 0", "commit 0 0 1 0 x": "BadScript 0", "read 0 0 1 0": "BadScript 0",
    "pop 1 0 3": "BadScript 2", "pop 0 1 2": "settled", "mute 3 A 0 s1": "BadFault 2", "mute 0 A * s*": "settled",
    "babble 2 A 3 s2 x": "BadFault 2", "babble 2 A * m1 x00": "settled", "babble 1 A * s* x00": "settled",
    "corrupt A 0 s4 1": "BadFault 2", "corrupt B 3 m4 1": "settled", "corrupt A 0 m1 65535": "settled",
}
"""The results of a run of the three nodes whose scenario has this line beside the others."""


class Scenarios:
    """Scenario files that are refused, or at the border of it."""

    def __init__(self, runs, folder):
        self.runs, self.path = runs, folder / "scenario"

    def check(self, name, text, error):
        self.path.write_text(text)
        words = ["run", "three-nodes/cluster.toml", self.path, "--cycles", "4"]
        self.runs.check(f"run where {name}", words, refused(error))

    def line(self, line, error="BadLine 2", version=1):
        self.check(f"the line is {line!r} in version {version}", f"frscenario {version}\n{line}\nend\n", error)

    def texts(self):
        for text in ("", "frscenario 1", "frscenario 9\nend\n", "frscenario 1 \nend\n", "frscenario 1\r\nend\n",
                     "\nfrscenario 1\nend\n", "x" * 1201):
            self.check(f"the scenario is {text[:30]!r}", text, "BadMagic")
        for rest in ("", "end", "pop 0 0 0", "pop 0 0 0\n", "no line"):
            self.check(f"it ends in {rest!r}", f"frscenario 1\n{rest}", "Truncated")
        for rest in ("\n", "x", "end\n"):
            self.check(f"{rest!r} stands after the end", f"frscenario 1\nend\n{rest}", "BadLine 3")
        self.check("the third line is at fault", "frscenario 1\npop 0 0 0\npop 0\nnothing\nend\n", "BadLine 3")

    def lines(self):
        for line in ("commit 16 0 0 0 x", "commit 0 8 0 0 x", "commit 0 0 1024 0 x", "commit 0 0 0 64 x",
                     "read 0 0 0 64", "pop 0 0 1024", "pop 0 00 0", "commit 0 0 0 0 x0A0b", "commit 0 0 0 0 x0a",
                     "commit 0 0 0 0 0a0b", f"commit 0 0 0 0 x{'00' * 256}", "mute 16 A * s*", "mute 0 AB * s*",
                     "mute 0 A 1024 s*", "mute 0 A * s0", "mute 0 A * s8001", "mute 0 A * m*", "mute 0 A * m0",
                     "mute 0 A * 1", "corrupt A * s1 65536", "babble 0 A 0 s1 x0", "babble 0 A 0 s1  x00",
                     "babble 0 A 0 s1 x00 ", f"babble 0 A 0 s1 x{'00' * 263}", "withdraw 0 0 0 0", " pop 0 0 0",
                     "pop 0 0 0\r"):
            self.line(line)
        for line in ("withdraw 0 0 0", "withdraw 0 0 0 0 x", "withdraw 16 0 0 0", "withdraw 0 8 0 0",
                     "withdraw 0 0 1024 0", "withdraw 0 0 0 64", "withdraw 0 0 0 -"):
            self.line(line, version=2)
        for line in ("withdraw 0 2 0 0", "withdraw 0 0 0 1", "withdraw 0 0 0 9", "withdraw 3 0 0 0",
                     "withdraw 0 0 4 0"):
            self.line(line, "BadScript 0", version=2)
        self.line("commit 15 7 1023 63 x", "BadScript 0")
        self.line("babble 15 A 1023 m8000 x", "BadFault 0")
        self.line("corrupt B 1023 s8000 65535", "BadFault 0")
        self.line("mute 15 B 1023 s8000", "BadFault 0")

    def limits(self):
        most = "frscenario 1\n" + "mute 0 A 0 s1\n" * 4094
        self.check("the end is line 4096", f"{most}end\n", "BadFault 1")
        self.check("a byte stands after it", f"{most}end\nx", "BadLine 4097")
        more = f"{most}mute 0 A 0 s1\n"
        for rest in ("end\n", "end", "\n", "x", "x" * 1201):
            self.check(f"line 4097 is {rest[:5]!r}", f"{more}{rest}", "TooManyLines")
        self.check("4096 lines have no end", more, "Truncated")
        self.check("a line has 1200 bytes", f"frscenario 1\n{'x' * 1200}", "Truncated")
        self.check("a line has 1201 bytes", f"frscenario 1\n{'x' * 1201}", "BadLine 2")


def without_effect(numbers):
    """Returns the lines on standard error for lines of faults without effect."""
    return "".join(f"line {number} struck nothing\n" for number in numbers).encode()


class Scenes:
    """Runs of the three-node cluster, changed, with the babbling scenario, changed."""

    def __init__(self, runs, folder):
        self.runs, self.folder = runs, folder
        self.cluster = (EXAMPLES / "three-nodes/cluster.toml").read_text()
        self.scenario = (EXAMPLES / "three-nodes/scenario").read_text()
        self.outcome = (EXAMPLES / "three-nodes/outcome-of-4-cycles").read_text()
        self.quiet = "".join(line for line in self.scenario.splitlines(True) if not line.startswith("babble"))
        self.one_commit = "frscenario 1\ncommit 0 0 0 0 x0a0b\nend\n"

    def words(self, cluster, scenario, cycles=4):
        (self.folder / "cluster.toml").write_text(cluster)
        (self.folder / "scenario").write_text(scenario)
        return ["run", self.folder / "cluster.toml", self.folder / "scenario", "--cycles", str(cycles)]

    def check(self, name, wanted, cluster=None, scenario=None, cycles=4):
        words = self.words(cluster or self.cluster, self.scenario if scenario is None else scenario, cycles)
        self.runs.check(name, words, wanted)

    def told(self, name, lines, cluster=None, scenario=None, idle=()):
        """Checks that a run is done, and that these are the lines of these nodes, beside others. The lines of the
        scenario with these numbers have no effect."""
        words = self.words(cluster or self.cluster, scenario or self.scenario)
        self.compare_lines(name, words, lines, lambda told, line: told == line, idle)

    def guarded(self, channels):
        return self.cluster.replace('guard = "A"', f'guard = "{channels}"')

    def outcome_with(self, name, lines, cluster=None, scenario=None, idle=()):
        """Checks that a run has the example's outcome, but for these lines of these nodes. The lines of the scenario
        with these numbers have no effect."""
        parts = self.outcome.split("node ")
        for node, line in lines:
            front = line[:4] if line[1] != " " else line[:2]
            old = next(told for told in parts[node + 1].splitlines() if told.startswith(front))
            parts[node + 1] = parts[node + 1].replace(old, line)
        self.check(name, ("node ".join(parts).encode(), without_effect(idle), 0), cluster, scenario)

    def compare_lines(self, name, words, lines, are_same, idle=()):
        """Checks that the run is done, and that each of these lines is the same as one that its node has."""
        got, errors, status = run([self.runs.program, *words])
        nodes = dict(enumerate(part.splitlines()[1:] for part in got.decode().split("node ")[1:]))
        missing = [(node, line) for node, line in lines
                   if not any(are_same(told, line) for told in nodes.get(node, []))]
        self.runs.compare(name, (missing, errors, status), ([], without_effect(idle), 0))

    def with_line(self, line, scenario=None):
        return (scenario or self.scenario).replace("end\n", f"{line}\nend\n")


def scenes(runs, folder):
    scenes = Scenes(runs, folder)
    tasks = "[[node]]\ntasks = 2\nown = [{slot = 1"
    for entries, wanted in ((55, refused("NoRoom 0")), (56, (scenes.outcome.encode(), b"", 0))):
        cluster = scenes.cluster.replace(tasks, tasks.replace("own", f"slot_entries = {entries}\nown"))
        scenes.check(f"run with {entries} slot entries", wanted, cluster=cluster)
    for line, error in ADDED.items():
        if error == "settled":
            # The last line of faults. In cycle 3 nothing is sent on B at minislot 4, and no frame has so many bits.
            idle = [13] if line in ("corrupt B 3 m4 1", "corrupt A 0 m1 65535") else []
            scenes.told(f"run with {line}", [], scenario=scenes.with_line(line), idle=idle)
        else:
            scenes.check(f"run with {line}", refused(error), scenario=scenes.with_line(line))
    twice = scenes.with_line("corrupt A 3 s1 7",
                             scenes.with_line("corrupt B 3 s1 3", scenes.with_line("corrupt A * s* 3")))
    scenes.check("run with two corrupt bits", refused("BadFault 4"), scenario=twice)
    scenes.check("run of a bad script and a bad fault", refused("BadScript 6"),
                 scenario=scenes.with_line("pop 3 0 0", scenes.with_line("mute 3 A * s*")))
    scenes.check("run of another version", refused("BadMagic"), scenario="frscenario 9\nend\n")
    scenes.check("run of an empty scenario file", refused("BadMagic"), scenario="")
    scenes.check("run of a scenario without its end", refused("Truncated"), scenario="frscenario 1\n")
    scenes.check("run of a bad cluster", refused("Params CycleSum"),
                 scenes.cluster.replace("cycle_mt = 90", "cycle_mt = 91"))
    few = scenes.cluster.replace("[[node]]\ntasks = 2\nown = [{slot = 1",
                                 "[[node]]\ntasks = 2\nhost_entries = 2\nown = [{slot = 1")
    scenes.check("run of three lines with room for two", refused("NoRoom 0"), cluster=few)
    taken_back = "frscenario 2\n" + "withdraw 0 0 3 0\n" * 2
    scenes.told("run of two withdraws with room for two", [(0, "tx 0 0 0 0 0 0")], few, f"{taken_back}end\n")
    scenes.check("run of three withdraws with room for two", refused("NoRoom 0"), few,
                 f"{taken_back}withdraw 0 0 3 0\nend\n")
    babbles(scenes)
    withdraws(scenes)
    faults(scenes)
    divided(scenes)
    long_runs(scenes)
    free_runs(scenes)


def babbles(scenes):
    """Checks babbles everywhere, on a guarded channel and on one that isn't. Each outcome is compared whole."""
    b = [(0, "B 4 0 0 0 0"), (1, "B 4 0 0 0 0"), (2, "B 8 0 0 0 0")]
    quiet = [(1, "rx 2 31:B x0c0d"), *b]
    scenes.outcome_with("run without babble", quiet, scenario=scenes.quiet)
    lines = [(0, "rx 1 - -"), (0, "A 3 8 0 0 4"), (1, "rx 1 - -"), (1, "A 3 8 0 0 4"), (2, "rx 1 - -"),
             (2, "A 0 0 0 0 8")]
    scenes.outcome_with("run without guardians", lines, cluster=scenes.guarded("none"))
    long = scenes.with_line(f"babble 1 A 0 m4 x{'00' * 20}", scenes.quiet)
    lines = [*quiet, (0, "A 7 0 0 1 0"), (2, "A 8 0 0 1 0")]
    scenes.outcome_with("run with a babble that overruns", lines, scenario=long)
    longer = scenes.with_line(f"babble 2 B * s3 x{'00' * 11}", scenes.quiet)
    lines = [*quiet, (0, "B 4 0 0 4 0"), (1, "B 4 0 0 4 0")]
    scenes.outcome_with("run with a babble longer than a slot", lines, scenario=longer)
    both = scenes.guarded("AB")
    scenes.outcome_with("run with babble where both channels are guarded", quiet, cluster=both)
    faulty_nodes(scenes, both, quiet)


def faulty_nodes(scenes, both, quiet):
    """Checks that others see the same in guarded static slots, whatever node 2 commits, babbles and loses."""
    others = scenes.quiet.replace("x7001", "xffff").replace("x7002", "x0000").replace("x7003", "x1234")
    places = {"A 0 s1": "20010346800a0b34ae92", "A 1 s*": "00" * 262, "A 2 s2": "", "A 3 s*": "ff", "B * s*": "aa55"}
    babble = [f"babble 2 {place} x{sent}" for place, sent in places.items()]
    losses = ["mute 2 A * s*", "mute 2 B 0 s1", "mute 2 B 3 s2"]
    kinds = {"has no fault": [], "babbles": babble, "loses": losses, "babbles and loses": [*babble, *losses]}
    # The faults begin in line 11. A babble without bytes has no effect. Nor has a loss: node 2 owns no static slot.
    idle = {"babbles": (13,), "loses": (11, 12, 13), "babbles and loses": (13, 16, 17, 18)}
    for name, faults in kinds.items():
        scenario = others
        for line in faults:
            scenario = scenes.with_line(line, scenario)
        scenes.outcome_with(f"run where node 2 commits otherwise and {name}", quiet, both, scenario,
                            idle.get(name, ()))
    # Nothing is guarded in the dynamic segment: a lost frame and babble show in the counters, and in no static slot.
    dynamic = scenario
    places = ("mute 2 A 0 m1", "babble 2 A 1 m1 x00", "babble 2 B 2 m3 x00", "mute 2 A 3 m1", "babble 2 A 3 m1 x00")
    for line in places:
        dynamic = scenes.with_line(line, dynamic)
    lines = [*quiet, (0, "queue 0 0"), (2, "A 8 0 0 0 1")]
    lines += [(node, line) for node in (0, 1) for line in ("A 4 2 0 0 0", "B 4 1 0 0 0")]
    scenes.outcome_with("run where node 2 loses and babbles in minislots too", lines, both, dynamic,
                        idle["babbles and loses"])


def withdraws(scenes):
    """Checks withdrawn commits: one before its slot, one that was sent already, one in the same cycle, and one too
    late."""
    scenes.check("run of the same scenario in version 2", (scenes.outcome.encode(), b"", 0),
                 scenario=scenes.scenario.replace("frscenario 1", "frscenario 2"))
    lines = ["commit 0 0 0 0 x0a0b", "withdraw 0 0 0 0", "commit 0 1 2 0 x0c0d", "pop 0 1 2", "withdraw 0 1 3 0",
             "commit 1 0 0 0 x1111", "withdraw 1 0 2 0", "commit 1 1 3 0 x2222", "withdraw 1 1 3 0", "read 1 0 3 1",
             "commit 2 0 0 0 x7001", "commit 2 1 1 0 x7002", "commit 2 0 3 0 x7003", "withdraw 2 0 3 0"]
    outcome = ["node 0", "tx 0 2 1 0 0 1", "rx 1 35:A x1111", "queue 1 0", "A 6 0 0 0 0", "B 4 0 0 0 0",
               "node 1", "tx 0 2 1 0 0 1", "rx 1 31:A x0c0d", "rx 2 31:B x0c0d", "A 6 0 0 0 0", "B 4 0 0 0 0",
               "node 2", "tx 0 3 2 0 0 1", "rx 1 33:A x1111", "A 8 0 0 0 0", "B 8 0 0 0 0", "windows 28", "settled"]
    scenario, wanted = ("".join(f"{line}\n" for line in text) for text in (["frscenario 2", *lines, "end"], outcome))
    scenes.check("run with withdraws", (wanted.encode(), b"", 0), scenario=scenario)
    sends, receives = '{kind = "event", slot = 1, channels = "AB"},', '{kind = "receive", slot = 2, channels = "A"},'
    cluster = scenes.cluster.replace(f"{sends}\n  {receives}", f"{receives}\n  {sends}")
    lines = ["commit 0 0 0 1 x0a0b", "withdraw 0 0 0 1", "commit 0 0 2 1 x0c0d", "commit 1 0 1 0 x1111"]
    told = [(0, "rx 0 48:A x1111"), (0, "tx 1 2 1 0 0 1"), (1, "rx 1 30:A x0c0d"), (1, "rx 2 30:B x0c0d")]
    scenes.told("run with a withdraw of the second buffer", told, cluster, "\n".join(["frscenario 2", *lines, "end\n"]))


def faults(scenes):
    """Checks one commit of node 0 in slot 1, and one fault in its window."""
    muted = scenes.with_line("mute 0 A 0 s1", scenes.one_commit)
    scenes.told("run with a muted owner", [(0, "tx 0 1 1 0 0 0"), (1, "rx 1 - -"), (1, "rx 2 1:B x0a0b")],
                scenario=muted)
    babbles = scenes.with_line("babble 0 A 0 s1 x20010346809999e937d0", muted)
    lines = [(0, "tx 0 1 1 0 0 0"), (1, "rx 1 1:A x9999"), (1, "rx 2 1:B x0a0b")]
    scenes.told("run with a muted owner that babbles a frame", lines, scenario=babbles)
    corrupt = scenes.with_line("corrupt A 0 s1 40", scenes.one_commit)
    lines = [(1, "rx 1 - -"), (1, "rx 2 1:B x0a0b"), (1, "A 3 1 0 0 0"), (1, "B 4 0 0 0 0"), (2, "A 7 1 0 0 0")]
    scenes.told("run with a corrupt bit", lines, scenario=corrupt)
    beyond = scenes.with_line("corrupt A 0 s1 999", scenes.one_commit)
    scenes.told("run with a bit after the frame", [(1, "rx 1 1:A x0a0b"), (1, "rx 2 1:B x0a0b")], scenario=beyond,
                idle=[3])


def divided(scenes):
    """Checks a divided slot.

    Slot 3 on A is node 0's in even cycles and node 1's in odd ones. A babble of node 1 there passes in the odd ones
    alone.
    """
    cluster = (EXAMPLES / "divided-slot/cluster.toml").read_text()
    lines = [(0, "A 7 2 0 0 0"), (1, "A 9 0 0 0 2"), (2, "A 10 2 0 0 0")]
    scenario = scenes.with_line("babble 1 A * s3 x00", scenes.quiet)
    scenes.told("run with a babble in a divided slot", lines, cluster, scenario)


def long_runs(scenes):
    """Checks cycles after 63: lines and faults of cycle 65 come in it, and those of cycle 0 not in cycle 64."""
    scenario = "frscenario 1\ncommit 0 0 65 0 x0a0b\ncorrupt A 0 s1 40\ncorrupt A 65 s2 40\nmute 0 B 65 s1\nend\n"
    lines = [(0, "tx 0 1 1 0 0 0"), (0, "A 65 1 0 0 0"), (0, "B 66 0 0 0 0"), (1, "rx 1 911:A x0a0b"), (1, "rx 2 - -"),
             (1, "A 65 1 0 0 0"), (1, "B 65 0 0 0 0"), (2, "A 130 2 0 0 0"), (2, "B 131 0 0 0 0"), (2, "windows 462")]
    words = scenes.words(scenes.cluster, scenario, 66)
    scenes.compare_lines("run of 66 cycles", words, lines, lambda told, line: told == line)
    # The last cycle before the number of a cycle is 0 again, and the first one after it.
    scenario = "frscenario 1\ncorrupt A 63 s1 40\nmute 1 B 63 s2\ncorrupt A 64 s2 40\nmute 0 B 64 s1\nend\n"
    lines = [(node, line) for node in (0, 1) for line in ("A 65 1 0 0 0", "B 65 0 0 0 0")]
    lines += [(2, "A 130 2 0 0 0"), (2, "B 130 0 0 0 0"), (2, "windows 462")]
    words = scenes.words(scenes.cluster, scenario, 66)
    scenes.compare_lines("run with faults of cycles 63 and 64", words, lines, lambda told, line: told == line)


def free_runs(scenes):
    """Checks counts that don't depend on the order of the tasks."""
    lines = [(0, "tx 0 2 "), (1, "tx 0 2 "), (2, "tx 0 3 "), (2, "A 8 0 0 0 0"), (2, "windows 28"), (2, "settled")]
    for _ in range(3):
        words = [*scenes.words(scenes.cluster, scenes.scenario), "--free"]
        scenes.compare_lines("a free run", words, lines, lambda told, front: told.startswith(front))
