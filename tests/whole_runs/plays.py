"""Runs of the second program that play a scenario: the outcome, the answers and the traces."""
import os
import re
from xml.etree import ElementTree

from .captured import FILE_HEADER, record_of
from .logs import is_in_order, put_together
from .runner import EXAMPLES, USAGE, WRITTEN, refused, run
from .scenarios import Scenes

THREE_NODES = ["three-nodes/cluster.toml", "three-nodes/scenario", "--cycles", "4"]

ANSWERS = """0 0 0 commit 0 x0a0b = 0
1 0 0 commit 0 x1111 = 0
2 0 0 commit 0 x7001 = 0
1 1 1 commit 0 x2222 = 15
2 1 1 commit 0 x7002 = 15
0 1 2 commit 0 x0c0d = 29
0 1 2 pop = 0 4 A x7001
1 0 3 read 1 = 2 1 A x0c0d
2 0 3 commit 0 x7003 = 44
"""
"""The reads and pops of the three-node cluster's scenario.

A cycle has three static slots and four minislots, so a journal has 14 entries of it, and one for each line before. Node
2 sends in slot 4, and its first frame is the oldest in node 0's FIFO. Node 0's frame of slot 1 in cycle 2 is the last
that node 1 has before cycle 3.
"""

COMMITS = """0 0 0 0 0 x0a0b = sent 0 1 A alone 1:b1 0 1 B collided -
0 0 1 2 29 x0c0d = sent 2 1 A alone 1:b1 2 1 B collided -
1 0 0 0 0 x1111 = sent 0 2 A alone 0:b1,2:b1 0 2 B collided -
1 0 1 1 15 x2222 = sent 1 2 A alone 0:b1,2:b1 1 2 B collided - 2 2 A alone 0:b1,2:b1 2 2 B collided - \
3 2 A alone 0:b1,2:b1 3 2 B collided -
2 0 0 0 0 x7001 = sent 0 4 A alone 0:queue
2 0 1 1 15 x7002 = sent 1 4 A alone 0:queue
2 0 0 3 44 x7003 = sent 3 4 A alone 0:queue
"""
"""The fates of its commits.

Node 2 babbles in each static slot, where the guardians of A stop it and on B, without guardians, it collides. Node 1's
buffer is a state buffer and sends its last commit in each cycle; the others send once.
"""

LOG = """commit 0 0 0 0 0 x0a0b
commit 1 0 0 0 0 x1111
commit 2 0 0 0 0 x7001
sent 0 0 0 1 A alone 1:b1
sent 0 0 0 1 B collided -
sent 1 0 0 2 A alone 0:b1,2:b1
sent 1 0 0 2 B collided -
sent 2 0 0 4 A alone 0:queue
commit 1 0 1 1 15 x2222
commit 2 0 1 1 15 x7002
sent 1 15 1 2 A alone 0:b1,2:b1
sent 1 15 1 2 B collided -
sent 2 15 1 4 A alone 0:queue
commit 0 0 1 2 29 x0c0d
sent 0 29 2 1 A alone 1:b1
sent 0 29 2 1 B collided -
sent 1 15 2 2 A alone 0:b1,2:b1
sent 1 15 2 2 B collided -
commit 2 0 0 3 44 x7003
sent 1 15 3 2 A alone 0:b1,2:b1
sent 1 15 3 2 B collided -
sent 2 44 3 4 A alone 0:queue
"""
"""The same in the order of the run."""

RECORD = """0 0 - 1 A 0 offer passed alone 1 --s- x30010236000a0b18f7d3 -
0 0 - 1 B 0 offer passed collided 1 --s- x30010236000a0b3e7702 -
0 0 - 1 A 2 babble blocked blocked - - x00 11
0 0 - 1 B 2 babble passed collided - - x00 12
1 0 - 2 A 1 offer passed alone 2 ---- x200203c140111155f463 -
1 0 - 2 B 1 offer passed collided 2 ---- x200203c14011117374b2 -
1 0 - 2 A 2 babble blocked blocked - - x00 11
1 0 - 2 B 2 babble passed collided - - x00 12
2 0 - 3 A 2 babble blocked blocked - - x00 11
2 0 - 3 B 2 babble passed alone - - x00 12
3 0 1 4 A 2 offer passed alone 4 ---- x200402cec070012cca22 -
7 1 - 1 A 0 offer passed alone 1 -ns- x100102360100006a9aa8 -
"""
"""The record of the first cycle, and of the second up to node 0's null frame.

The lines 11 and 12 of the scenario babble, and no other line is a fault.
"""

HEARD = [(0, "A", "30010236000a0b18f7d3"), (20, "A", "200203c140111155f463"), (40, "B", "00"),
         (60, "A", "200402cec070012cca22"), (90, "A", "100102360100006a9aa8")]
"""The transmissions that a listener hears: those that passed alone, each when its window began.

A slot has 20 macroticks, a cycle 90.
"""

CELLS = [
    "data n0 blocked: cycle 0, slot 1, window 0: data; node 0 sent x30010236000a0b18f7d3; node 2 babbled x00, blocked",
    "data n1 blocked: cycle 0, slot 2, window 1: data; node 1 sent x200203c140111155f463; node 2 babbled x00, blocked",
    "silence blocked: cycle 0, slot 3, window 2: silence; node 2 babbled x00, blocked",
    "data n2: cycle 0, slot 4, window 3: data; node 2 sent x200402cec070012cca22",
    *(f"silence: cycle 0, slot {slot}, window {slot - 1}: silence" for slot in (5, 6, 7)),
    "null n0 blocked: cycle 1, slot 1, window 7: null; node 0 sent x100102360100006a9aa8; node 2 babbled x00, blocked",
]
"""The cells of these windows in a matrix of channel A."""

LOOKS = {
    ("--channel", "B"): ["collision n0", "collision n1", "broken n2"],
    ("--node", "0"): ["own n0 blocked", "data n1 blocked"],
    ("--node", "2"): ["data n0 blocked", "data n1 blocked", "silence blocked", "own n2"],
    ("--node", "2", "--channel", "B"): ["collision n0", "collision n1", "own n2"],
    ("--from", "1"): ["null n0 blocked"],
    ("--from", "4"): [],
    ("--from-window", "2"): ["silence blocked", "data n2"],
    ("--from-window", "7"): [],
}
"""The classes of the first cells of other matrices of it."""

TASKS = """frscenario 2
read 1 0 0 1
pop 0 0 0
withdraw 0 0 0 0
commit 0 0 0 0 x0101
commit 0 1 0 0 x0202
commit 0 1 0 0 x0303
withdraw 0 1 0 0
commit 1 0 0 0 x1111
read 1 1 1 2
commit 0 0 1 0 x0404
commit 2 1 1 0 x7001
withdraw 2 1 1 0
read 2 0 1 1
read 1 1 2 1
read 1 1 2 2
read 0 1 2 1
mute 0 A 1 s1
end
"""

TOLD = """0 0 0 pop = -
0 0 0 withdraw 0 = -
0 0 0 commit 0 x0101 = 2
0 1 0 commit 0 x0202 = 3
0 1 0 commit 0 x0303 = 4
0 1 0 withdraw 0 = 4
1 0 0 read 1 = -
1 0 0 commit 0 x1111 = 1
0 0 1 commit 0 x0404 = 20
1 1 1 read 2 = -
2 0 1 read 1 = 0 2 A x1111
2 1 1 commit 0 x7001 = 15
2 1 1 withdraw 0 = 15
0 1 2 read 1 = 1 2 A x1111
1 1 2 read 1 = -
1 1 2 read 2 = 1 1 B x0404
"""
"""The answers, by node, task and line within a cycle.

The withdraw takes back the commit that has overwritten those before it, so slot 1 has no frame in cycle 0. In cycle 1
it has one on B alone, since node 0's offer on A is lost.
"""

ALL_FATES = TASKS.replace("mute", "commit 2 0 2 0 x7002\nmute")

LOG_OF_ALL = """commit 0 0 0 0 2 x0101
overwritten 0 2 0 3
commit 0 0 1 0 3 x0202
overwritten 0 3 0 4
commit 0 0 1 0 4 x0303
withdrawn 0 4 0 5
commit 1 0 0 0 1 x1111
sent 1 1 0 2 A alone 0:b1,2:b1
sent 1 1 0 2 B alone -
commit 0 0 0 1 20 x0404
commit 2 0 1 1 15 x7001
withdrawn 2 15 1 16
sent 0 20 1 1 A muted -
sent 0 20 1 1 B alone 1:b2
sent 1 1 1 2 A alone 0:b1,2:b1
sent 1 1 1 2 B alone -
commit 2 0 0 2 31 x7002
sent 1 1 2 2 A alone 0:b1,2:b1
sent 1 1 2 2 B alone -
sent 1 1 3 2 A alone 0:b1,2:b1
sent 1 1 3 2 B alone -
pending 2 31
"""
"""The log of its commits, where node 2 may begin no dynamic frame, so that its last commit stays pending."""

TURNED = "frscenario 1\ncommit 0 0 0 0 x0a0b\ncorrupt A 0 s1 80\ncorrupt B 0 s1 79\ncorrupt A 0 s3 0\nend\n"
"""A frame of ten bytes has no bit 80, and slot 3 has no sender, so one of these bits is flipped."""

FAULTS = """frscenario 2
pop 0 1 2
mute 2 A 0 s1
mute 0 A 0 s1
corrupt A 0 s1 9
pop 0 1 3
corrupt B 0 s1 79
corrupt B 0 s2 80
corrupt A 0 s3 0
babble 1 A 1 m2 x00
babble 1 A 0 s2 xff
corrupt A 0 s2 0
end
"""

IN_A_CYCLE = (("-", 0, 1, 20), ("-", 20, 2, 20), ("-", 40, 3, 20),
              (1, 60, 4, 5), (2, 65, 5, 5), (3, 70, 6, 5), (4, 75, 7, 5))
WINDOWS = "".join(
    f"{7 * cycle + place} {cycle} {minislot} {90 * cycle + begin} {slot} {length} {slot} {length}\n"
    for cycle in range(4) for place, (minislot, begin, slot, length) in enumerate(IN_A_CYCLE))
"""Its windows. A frame of 10 bytes takes one minislot, as an empty slot does, so each slot of a cycle has its own."""

ORIGINS = ["0 0 - 1 A 0 offer 4", "0 0 - 1 A - corrupt 5", "0 0 - 1 B - corrupt 7", "1 0 - 2 A 1 babble 11",
           "1 0 - 2 A - corrupt 12", "1 0 - 2 B - corrupt 8", "2 0 - 3 A - corrupt 9", "11 1 2 5 A 1 babble 10"]
"""The lines of its record that come from a fault, up to the seventh word, and the number of the scenario's line."""

IDLE = "".join(f"line {number} struck nothing\n" for number in (3, 5, 8, 9, 12)).encode()
"""Its lines without effect.

Node 2 offers nothing in slot 1. Node 0's offer there on A is lost, so no bit of it is flipped. Its frame on B has 10
bytes, as that of node 1 in slot 2, so bit 79 is its last one. Slot 3 has no sender, and in slot 2 on A node 1 sends
twice, in its own slot.
"""

REFUSALS = {
    "commit 0 2 0 0 x0a0b": "BadScript 2", "mute 0 A 4 s1": "BadFault 2", "babble 2 A 0 s1 x01": "BadFault 2",
    "read 3 0 0 0": "BadScript 6", "commit 0 0 1 0 x0a": "BadLine 13", "corrupt A * m5 1": "BadFault 2",
    "commit 0 0 4 0 x0a0b": "BadScript 0", "pop 1 0 3": "BadScript 2",
}
"""Lines for which the scenario is refused, or the run with it, as by `fr_bench run`."""

REASONS = "".join(
    f"due {cycle} 2 0 4 A 4\n"
    + "".join(f"stopped {cycle} {slot} A blocked 2 11\neffect {cycle} {slot} B {end} 2 12\n"
              for slot, end in ((1, "collided"), (2, "collided"), (3, "alone")))
    + f"open {cycle} 2 0 4 A 4 1\n" for cycle in range(4))
"""The reasons of the three nodes' scenario: node 2 babbles in each static slot, and slot 3 has no owner."""

LATE = "".join(f"due {cycle} 2 0 4 A 0\nlate {cycle} 2 0 4 A 0 1\n" for cycle in range(4))
"""The reasons without faults and without a latest minislot of node 2."""

SLOT_4 = '{kind = "event", slot = 4, channels = "A", words = 1},'
CLOSED = {
    # Slots 4 to 7 open at the four minislots, and slot 9 never does.
    (1, 9, 4): "".join(
        f"due {cycle} 2 0 4 A 4\ndue {cycle} 2 1 9 A 4\nopen {cycle} 2 0 4 A 4 1\nclosed {cycle} 2 1 9 A 4\n"
        for cycle in range(4)),
    # A frame of 11 words takes three minislots, so slot 5 is the last one in cycle 0. Later slot 6 opens at minislot 3.
    (11, 6, 2): "due 0 2 0 4 A 2\ndue 0 2 1 6 A 2\nopen 0 2 0 4 A 2 1\nclosed 0 2 1 6 A 2\n" + "".join(
        f"due {cycle} 2 0 4 A 2\ndue {cycle} 2 1 6 A 2\nopen {cycle} 2 0 4 A 2 1\nlate {cycle} 2 1 6 A 2 3\n"
        for cycle in range(1, 4)),
    # A frame of 16 words takes all four, so no slot follows slot 4.
    (16, 5, 1): "due 0 2 0 4 A 1\ndue 0 2 1 5 A 1\nopen 0 2 0 4 A 1 1\nclosed 0 2 1 5 A 1\n" + "".join(
        f"due {cycle} 2 0 4 A 1\ndue {cycle} 2 1 5 A 1\nopen {cycle} 2 0 4 A 1 1\nlate {cycle} 2 1 5 A 1 2\n"
        for cycle in range(1, 4)),
}
"""The words of node 2's buffer for slot 4, the slot of a further buffer and pLatestTx, with the reasons. The buffer for
slot 4 sends in cycle 0 alone. An idle slot takes one minislot."""

AFTER_70 = "frscenario 1\ncommit 1 0 0 0 x1111\nread 0 1 70 1\nend\n"
ORIGINS_AFTER_70 = b"1 0 0 commit 0 x1111 = 0\n0 1 70 read 1 = 5 2 A x1111 69\n"
"""The state buffer of node 1 sends in each cycle, and cycle 69 of the run has count 5."""

RECEIVED = "".join(
    f"{7 * cycle} {cycle} 0 own - - conflict conflict -\n"
    f"{7 * cycle} {cycle} 1 frame valid {'-' if cycle % 2 else 'b1'} noise syntax -\n"
    f"{7 * cycle} {cycle} 2 frame valid - conflict conflict -\n"
    f"{7 * cycle + 1} {cycle} 0 frame valid b1 noise syntax -\n"
    f"{7 * cycle + 1} {cycle} 1 own - - conflict conflict -\n"
    f"{7 * cycle + 1} {cycle} 2 frame valid b1 conflict conflict -\n"
    f"{7 * cycle + 2} {cycle} 0 silence - - short syntax -\n"
    f"{7 * cycle + 2} {cycle} 1 silence - - short syntax -\n"
    f"{7 * cycle + 2} {cycle} 2 silence - - own - -\n"
    + ("" if cycle == 2 else f"{7 * cycle + 3} {cycle} 0 frame valid queue silence - -\n"
       f"{7 * cycle + 3} {cycle} 1 frame valid - silence - -\n{7 * cycle + 3} {cycle} 2 own - - silence - -\n")
    for cycle in range(4))
"""The three nodes' lines `received`. Node 2 babbles a byte on B in each static slot, and sends in slot 4 in cycles 0, 1
and 3. Node 0 sends data in cycles 0 and 2, and otherwise null frames, which no buffer stores. A cycle has three static
slots and four minislots."""

COMMANDS = [["outcome"], ["answers"], ["commits"], ["record"], ["windows"], ["bus"], ["matrix"], ["trace", "0"]]
STREAMED = [["outcome"], ["answers"], ["commits"], ["record"], ["windows"], ["reasons"], ["origins"],
            ["received"], ["bus"]]
"""The commands with `--endless`."""


class Plays:
    """Runs of the second program that play a scenario. `bench` is the first program, which audits the traces."""

    def __init__(self, runs, folder, bench):
        self.runs, self.folder, self.bench = runs, folder, bench

    def given(self, cluster, scenario):
        (self.folder / "cluster.toml").write_text(cluster)
        (self.folder / "scenario").write_text(scenario)
        return [self.folder / "cluster.toml", self.folder / "scenario", "--cycles", "4"]

    def examples(self):
        for outcome in sorted(EXAMPLES.glob("*/outcome-of-*-cycles")):
            name, cycles = outcome.parent.name, outcome.name.split("-")[2]
            words = [outcome.with_name("cluster.toml"), outcome.with_name("scenario"), "--cycles", cycles]
            wanted = outcome.read_bytes(), b"", 0
            self.runs.check(f"outcome {name}", ["outcome", *words], wanted)
            self.runs.check_once(f"outcome {name}, {WRITTEN}", ["outcome", *words], wanted)
            self.audited(name, words, outcome.read_text())
            picture = outcome.with_name("matrix.svg")
            if picture.exists():
                self.runs.check(f"matrix of {name}", ["matrix", *words], (picture.read_bytes(), b"", 0))

    def audited(self, name, words, outcome):
        """Checks that the audit of each node's trace is the node's report."""
        for node, block in enumerate(outcome.removesuffix("settled\n").split("node ")[1:]):
            report = "".join(line for line in block.splitlines(True)[1:] if not line.startswith("windows "))
            trace, errors, status = run([self.runs.program, "trace", str(node), *words])
            if errors or status:
                self.runs.compare(f"trace {node} of {name}", (errors, status), (b"", 0))
                continue
            self.runs.compare(f"audit of trace {node} of {name}", run([self.bench, "audit"], trace),
                              (report.encode(), b"", 0))

    def answers(self):
        self.runs.check_once(f"answers, {WRITTEN}", ["answers", *THREE_NODES], (ANSWERS.encode(), b"", 0))
        words = self.given((EXAMPLES / "three-nodes/cluster.toml").read_text(), TASKS)
        self.runs.check("answers with withdraws", ["answers", *words], (TOLD.encode(), b"", 0))
        words = self.given((EXAMPLES / "three-nodes/cluster.toml").read_text(), "frscenario 1\nend\n")
        self.runs.check("answers of no line", ["answers", *words], (b"", b"", 0))

    def lines(self):
        """Checks the fates of commits, and the transmissions on the bus."""
        self.runs.check_once(f"commits, {WRITTEN}", ["commits", *THREE_NODES], (COMMITS.encode(), b"", 0))
        told, errors, status = run([self.runs.program, "record", *THREE_NODES])
        front = told.decode().splitlines(True)[:RECORD.count("\n")]
        self.runs.compare(f"record, {WRITTEN}", ("".join(front), errors, status), (RECORD, b"", 0))
        self.runs.check(f"windows, {WRITTEN}", ["windows", *THREE_NODES], (WINDOWS.encode(), b"", 0))
        wanted = FILE_HEADER + b"".join(record_of(time, channel, bytes.fromhex(data)) for time, channel, data in HEARD)
        told, errors, status = run([self.runs.program, "bus", *THREE_NODES])
        self.runs.compare(f"bus, {WRITTEN}", (told[:len(wanted)], errors, status), (wanted, b"", 0))
        for outcome in sorted(EXAMPLES.glob("*/outcome-of-*-cycles")):
            words = [outcome.with_name("cluster.toml"), outcome.with_name("scenario"), "--cycles",
                     outcome.name.split("-")[2]]
            told, _, status = run([self.runs.program, "commits", *words])
            self.runs.compare(f"commits of {outcome.parent.name}", (self.counted(told.decode()), status),
                              (self.reported(outcome.read_text()), 0))

    def causes(self):
        """Checks the facts for which commits aren't sent or received, the cycles in which frames came, and what nodes
        receive."""
        cluster = (EXAMPLES / "three-nodes/cluster.toml").read_text()
        came = ANSWERS.replace("A x7001", "A x7001 0").replace("A x0c0d", "A x0c0d 2").encode()
        for more in ([], ["--endless"]):
            self.runs.check(" ".join(["reasons", *more]), ["reasons", *THREE_NODES, *more], (REASONS.encode(), b"", 0))
            self.runs.check(" ".join(["origins", *more]), ["origins", *THREE_NODES, *more], (came, b"", 0))
            self.runs.check(" ".join(["received", *more]), ["received", *THREE_NODES, *more],
                            (RECEIVED.encode(), b"", 0))
        words = self.given(cluster.replace("latest_a = 4\n", ""), "frscenario 1\nend\n")
        self.runs.check("reasons of a node that begins no frame", ["reasons", *words], (LATE.encode(), b"", 0))
        for (length, slot, latest), told in CLOSED.items():
            further = f'{{kind = "event", slot = {slot}, channels = "A", words = 1}},'
            given = cluster.replace("latest_a = 4", f"latest_a = {latest}").replace(
                SLOT_4, SLOT_4.replace("words = 1", f"words = {length}") + further)
            words = self.given(given, f"frscenario 1\ncommit 2 0 0 0 x{'0000' * length}\nend\n")
            self.runs.check(f"reasons where slot {slot} doesn't open", ["reasons", *words], (told.encode(), b"", 0))
        words = [*self.given(cluster, AFTER_70)[:2], "--cycles", "71"]
        self.runs.check("origins after 64 cycles", ["origins", *words], (ORIGINS_AFTER_70, b"", 0))

    def strikes(self):
        """Checks the scenario lines of the faults of a record, and the lines without effect, by each command."""
        words = self.given((EXAMPLES / "three-nodes/cluster.toml").read_text(), FAULTS)
        for command in COMMANDS:
            _, errors, status = run([self.runs.program, *command, *words])
            self.runs.compare(f"{command}: lines that struck nothing", (errors, status), (IDLE, 0))
        for options in ((), ("--free",)):
            _, errors, status = run([self.bench, "run", *words, *options])
            self.runs.compare(f"run {options}: lines that struck nothing", (errors, status), (IDLE, 0))
        told = run([self.runs.program, "record", *words])[0].decode()
        lines = [[*line.split(" ")[:7], line.rpartition(" ")[2]] for line in told.splitlines()
                 if not line.endswith(" -")]
        self.runs.compare("lines of a record that come from a fault", [" ".join(line) for line in lines], ORIGINS)
        # A static slot has room for 10 bytes. No node receives these 80, and one of their bits is flipped.
        cut = f"frscenario 1\nbabble 0 B 0 s3 x{'00' * 80}\ncorrupt B 0 s3 639\ncorrupt B 1 s3 0\nend\n"
        words = self.given((EXAMPLES / "three-nodes/cluster.toml").read_text(), cut)
        told = b"line 4 struck nothing\n", 0
        for program, command in ((self.runs.program, "outcome"), (self.bench, "run")):
            self.runs.compare(f"{command}: a bit within an overrun", run([program, command, *words])[1:], told)
        reasons = run([self.runs.program, "reasons", *words])[0].decode().splitlines()
        self.runs.compare("reasons of a bit within an overrun", [it for it in reasons if it.endswith(" 3")],
                          ["effect 0 3 B overrun 0 3"])

    @staticmethod
    def counted(told):
        """Returns for each node and buffer that has commits: how many, and how many were sent, overwritten, pending,
        withdrawn."""
        counts = {}
        for line in told.splitlines():
            node, buffer, *_, became = line.partition(" = ")[0].split()[:2] + line.partition(" = ")[2].split()[:1]
            place = ["sent", "overwritten", "pending", "withdrawn"].index(became)
            counts.setdefault((node, buffer), [0] * 4)[place] += 1
        return {key: [sum(four), *four] for key, four in counts.items()}

    @staticmethod
    def reported(outcome):
        """Returns the same by the reports."""
        counts, node = {}, None
        for line in map(str.split, outcome.splitlines()):
            if line[0] == "node":
                node = line[1]
            elif line[0] == "tx" and line[2] != "0":
                counts[node, line[1]] = [int(number) for number in line[2:]]
        return counts

    def cells(self, words):
        text, errors, status = run([self.runs.program, "matrix", *words])
        if status:
            return [f"status {status}, {errors}"]
        groups = ElementTree.fromstring(text).iter("{http://www.w3.org/2000/svg}g")
        cells = [(group.get("class"), group[0].text) for group in groups]
        return [f"{kind}: {title}" for kind, title in cells if title and title.startswith("cycle ")]

    def matrices(self):
        self.runs.compare(f"cells, {WRITTEN}", self.cells(THREE_NODES)[:len(CELLS)], CELLS)
        self.runs.compare("cells of four cycles", len(self.cells(THREE_NODES)), 28)
        for options, wanted in LOOKS.items():
            looks = [cell.partition(": ")[0] for cell in self.cells([*THREE_NODES, *options])]
            self.runs.compare(f"cells with {options}", looks[:len(wanted)] if wanted else looks, wanted)
        words = self.given((EXAMPLES / "three-nodes/cluster.toml").read_text(), TURNED)
        for channel, wanted in (("A", "data n0"), ("B", "broken n0 turned")):
            looks = [cell.partition(": ")[0] for cell in self.cells([*words, "--channel", channel])]
            self.runs.compare(f"the flipped bit on {channel}", looks[:3], [wanted, "null n1", "silence"])
        for options in (["--channel", "C"], ["--channel", "a"], ["--node", "16"], ["--node", "00"],
                        ["--from", "1024"], ["--from", "-1"], ["--from-window", "4096"], ["--from-window", "01"],
                        ["--from-window"], ["--node"], ["--node", "0", "--node", "0"]):
            self.runs.check(f"matrix with {options}", ["matrix", *THREE_NODES, *options], USAGE)
        self.columns()
        for node in ("3", "15"):
            self.runs.check(f"matrix of node {node}", ["matrix", *THREE_NODES, "--node", node], refused("UnknownNode"))

    def columns(self):
        """Checks by the record which columns of matrices are narrow, and that no picture is wider than 1,600 pixels."""
        words = [EXAMPLES / "vehicle/cluster.toml", EXAMPLES / "vehicle/scenario", "--cycles", "8"]
        record = [line.split(" ") for line in run([self.runs.program, "record", *words])[0].decode().splitlines()]
        for channel in "AB":
            sent = {int(line[0]) for line in record if line[4] == channel and line[6] != "corrupt"}
            starts = {cycle: window for cycle, slot, window, *_ in self.boxes([*words, "--channel", channel])[1]
                      if slot == 1}
            begin = 0
            while begin is not None:
                begin = self.columns_from(begin, [*words, "--channel", channel], sent, starts)

    def columns_from(self, begin, words, sent, starts):
        """Checks the picture that begins with this window, and returns the first window after it, if there is one."""
        words = [*words, "--from-window", str(begin)]
        width, boxes = self.boxes(words)
        places = {window - starts[cycle] for cycle, _, window, *_ in boxes}
        busy = {window - starts[cycle] for cycle, _, window, *_ in boxes if window in sent}
        wanted = []
        for cycle, slot, window, *_ in boxes:
            place = window - starts[cycle]
            wanted.append((20, None) if place < 62 else (20, str(slot)) if place in busy else (3, None))
        self.runs.compare(f"cells of {words[-3:]}", [box[3:] for box in boxes], wanted)
        end = begin + len(places)
        self.runs.compare(f"places of {words[-3:]}", (sorted(places), width <= 1600), (list(range(begin, end)), True))
        return end if f"--from-window {end} shows more" in self.text(words) else None

    def text(self, words):
        return run([self.runs.program, "matrix", *words])[0].decode()

    def boxes(self, words):
        """Returns the width of a matrix, and for each cell the numbers of its title, its width and its slot."""
        picture, boxes = ElementTree.fromstring(self.text(words)), []
        for group in picture.iter("{http://www.w3.org/2000/svg}g"):
            told = re.match("cycle ([0-9]+), slot ([0-9]+), window ([0-9]+): ", group[0].text or "")
            if told:
                slot = group.find("{http://www.w3.org/2000/svg}g")
                boxes.append((*map(int, told.groups()), int(group[1].get("width")),
                              None if slot is None else slot[0].text))
        return int(picture.get("width")), boxes

    def streams(self):
        """Checks that runs without history print the same bytes, and have more than 1,024 cycles."""
        for outcome in sorted(EXAMPLES.glob("*/outcome-of-*-cycles")):
            words = [outcome.with_name("cluster.toml"), outcome.with_name("scenario"), "--cycles",
                     outcome.name.split("-")[2]]
            for command in ("outcome", "answers", "record", "windows", "bus"):
                kept = run([self.runs.program, command, *words])[0]
                self.runs.compare(f"{command} of {outcome.parent.name}, endless",
                                  run([self.runs.program, command, *words, "--endless"]), (kept, b"", 0))
            log, errors, status = run([self.runs.program, "commits", *words, "--endless"])
            self.runs.compare(f"commits of {outcome.parent.name}, endless",
                              (put_together(log.decode()).encode(), is_in_order(log.decode()), errors, status),
                              (run([self.runs.program, "commits", *words])[0], True, b"", 0))
        self.runs.check("the log of commits", ["commits", *THREE_NODES, "--endless"], (LOG.encode(), b"", 0))
        words = self.given((EXAMPLES / "three-nodes/cluster.toml").read_text().replace("latest_a = 4\n", ""), ALL_FATES)
        self.runs.check("each fate in the log", ["commits", *words, "--endless"], (LOG_OF_ALL.encode(), b"", 0))
        words = self.given((EXAMPLES / "three-nodes/cluster.toml").read_text(), TURNED)[:2]
        told, errors, status = run([self.runs.program, "record", *words, "--endless", "--cycles", "66000"])
        cycles = [int(line.split(b" ")[1]) for line in told.splitlines()]
        self.runs.compare("cycles of an endless record", (sorted(set(cycles)), cycles == sorted(cycles)),
                          (list(range(66_000)), True))
        self.runs.compare("bits of an endless record", told.count(b"corrupt"), 3)
        long = run([self.runs.program, "answers", *words, "--endless", "--cycles", "66000"])
        self.runs.compare("the answers of a run of 66000 cycles", long,
                          (run([self.runs.program, "answers", *words, "--cycles", "4"])[0], b"", 0))
        log = run([self.runs.program, "commits", *words, "--endless", "--cycles", "66000"])
        self.runs.compare("the log of a run of 66000 cycles", log,
                          (run([self.runs.program, "commits", *words, "--endless", "--cycles", "4"])[0], b"", 0))
        for (command,) in STREAMED:
            self.runs.check(f"{command}, endless, for 4000000 cycles",
                            [command, "a", "b", "--endless", "--cycles=4000000"], refused("Read"))
            for number in ("0", "4000001", "04", ""):
                self.runs.check(f"{command}, endless, for {number!r} cycles",
                                [command, "a", "b", "--endless", "--cycles", number], USAGE)
        for command in (["matrix"], ["trace", "0"]):
            self.runs.check(f"{command}, endless", [*command, *THREE_NODES, "--endless"], USAGE)

    def refusals(self):
        scenes = Scenes(self.runs, self.folder)
        for command in COMMANDS:
            for line, error in REFUSALS.items():
                words = self.given(scenes.cluster, scenes.with_line(line))
                for more in ([], ["--endless"]) if command in STREAMED else ([],):
                    self.runs.check(f"{command} with {line} {more}", [*command, *words, *more], refused(error))
            for name, error in {"missing": "Read", ".": "Read", "three-nodes/cluster.toml": "BadMagic"}.items():
                self.runs.check(f"{command} with {name!r}",
                                [*command, "three-nodes/cluster.toml", name, "--cycles", "1"], refused(error))
            for name, error in {"missing": "Read", ".": "Read", "three-nodes/scenario": "Toml"}.items():
                self.runs.check(f"{command} of {name!r}", [*command, name, "missing", "--cycles", "1"], refused(error))
            words = self.given(scenes.cluster.replace("tasks = 2\n", "tasks = 2\nslot_entries = 55\n", 1),
                               scenes.scenario)
            self.runs.check(f"{command} without room", [*command, *words], refused("NoRoom 0"))
        for node in ("3", "15"):
            self.runs.check(f"trace of node {node}", ["trace", node, *THREE_NODES], refused("UnknownNode"))

    def words(self):
        lists = [["trace", *THREE_NODES],
                 *(["trace", node, *THREE_NODES] for node in ("16", "00", "x", "-1", "+1", ""))]
        for command in COMMANDS:
            lists += [command, [*command, "a"], [*command, "a", "b"], [*command, "a", "--cycles", "1"],
                      [*command, *THREE_NODES, "--free"], [*command, *THREE_NODES, "c"],
                      [*command, "a", "b", "--cycles"], [*command, *THREE_NODES, "--cycles", "4"],
                      *([*command, "a", "b", "--cycles", number]
                        for number in ("0", "1025", "04", "+4", "-1", "x", ""))]
        for given in lists:
            self.runs.check(f"the words {given}", given, USAGE)
        for command in COMMANDS:
            self.runs.check(f"{command} for 1024 cycles", [*command, "a", "b", "--cycles=1024"], refused("Read"))

    def outputs(self):
        for command in [*COMMANDS, *([*it, "--endless"] for it in STREAMED)]:
            words = [*command, *THREE_NODES]
            with open("/dev/full", "wb") as full:
                self.runs.check(f"{words} to a full device", words, refused("Write"), output=full)
            reading, writing = os.pipe()
            os.close(reading)
            self.runs.check(f"{words} to a reader that has left", words, refused("Write"), output=writing)
            os.close(writing)
            self.runs.check(f"{words} to a closed output", words, refused("Write"), closed=(1,))
