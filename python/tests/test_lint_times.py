"""Tests of the slowest files of up to 1 MiB: each is checked in a second or so, and little is printed.

The time is counted in loops: the processor time of a fixed loop, measured just before and after. So the limit doesn't
depend on the machine. It guards against work that grows with the square of a file's length, which takes minutes. The
slowest file takes some 20 loops.
"""
import time
from pathlib import Path

from musmyrtle.lint.command import told
from musmyrtle.lint.lint import Task, lint
from musmyrtle.program import Answer
from musmyrtle.texts import FILE_LIMIT
from tests.cases import CLUSTER, Cases

MOST_LOOPS = 150
MOST_BYTES = 100_000
LEVELS = "a." * 79
PARAMETERS = """[params]
static_slots = 1023
minislots = 900
static_words = 127
static_mt = 1
minislot_mt = 1
symbol_mt = 0
nit_mt = 1
cycle_mt = 1924
idle = 0
words_per_minislot = 127
"""


def own(slot: int, base: int = 0, repetition: int = 1) -> str:
    return f'{{slot = {slot}, channels = "AB", base = {base}, repetition = {repetition}}}'


def buffer(kind: str, slot: int, channels: str, base: int = 0, repetition: int = 1) -> str:
    cycles = f"base = {base}, repetition = {repetition}"
    return f'{{kind = "{kind}", slot = {slot}, channels = "{channels}", {cycles}, words = 0}}'


def node(lines: list[str], buffers: list[str]) -> str:
    return (f"[[node]]\nlatest_a = 900\nlatest_b = 900\nslot_entries = 65536\nown = [{', '.join(lines)}]\n"
            f"buffer = [{', '.join(buffers)}]\n")


def numbered(part: str, count: int, between: str = "") -> str:
    return between.join(part.replace("#", f"{number}") for number in range(count))


TEXTS = {
    "a key of many parts": ("Toml", "a." * 32_000 + "a = 1\n" + CLUSTER),
    "a key of many parts in quotes": ("Toml", '"a".' * 32_000 + "a = 1\n" + CLUSTER),
    "a header of many parts": ("Toml", "[" + "a." * 32_000 + "a]\n"),
    "arrays in arrays": ("Toml", "a = " + "[" * 300_000),
    "numbers in an array": (None, "a = [" + "1," * 500_000 + "]\n" + CLUSTER),
    "inline tables in an array": (None, "a = [" + "{a=1}," * 170_000 + "]\n" + CLUSTER),
    "deep keys below deep headers": (None, CLUSTER + numbered(f"[{LEVELS}h#]\n{LEVELS}k = 1\n", 3_000)),
    "headers": (None, CLUSTER + numbered("[t#]\n", 90_000)),
    "dotted keys": (None, numbered("a.b#.c = 1\n", 65_000) + CLUSTER),
    "unread keys": (None, numbered("k# = 1\n", 90_000) + CLUSTER),
    "unread keys of one line": (None, "physical = {" + numbered("k# = 1", 80_000, ", ") + "}\n" + CLUSTER),
    "unread keys of many tables": ("TooManyNodes", CLUSTER + "[[node]]\na = 1\n" * 69_000),
    "keys like one that is missing": ("Params Missing static_slots",
                                      "[params]\n" + numbered("static_slot# = 1\n", 45_000)),
    "keys like `node`": ("TooManyNodes", numbered("nodx# = 1\n", 70_000) + PARAMETERS),
    "tables without what they need": (
        "BadNode 0", PARAMETERS + node(["{" + numbered("slat#=1", 40, ",") + "}"] * 64,
                                       ["{" + numbered("kint#=1", 40, ",") + "}"] * 64) * 16),
    "a long line with many mistakes": (
        "BadNode 0", PARAMETERS.replace("[params]\n", "params = {").replace("\n", ",") + "}\nnode = [" + ", ".join(
            [f"{{x = '{'y' * 50_000}', own = [{', '.join([own(9999, 99)] * 64)}]}}"] * 16) + "]\n"),
    "ownership lines for one cycle each": ("Overlap 1 A 0", PARAMETERS + "".join(
        node([own(it + 1, base, 64) for base in range(64)], [buffer("event", it + 1, "AB")] * 64) for it in range(16))),
    "comments that allow unknown names": (None, CLUSTER + "# lint: allow sync-nod\n" * 40_000),
    "a comment that allows many names": (None, CLUSTER + "# lint: allow " + "sync-nod " * 110_000 + "\n"),
    "a long line with many warnings and names": (None, "node = [" + ", ".join(
        f"{{own = [{', '.join(own(64 * it + slot, 0, 2) for slot in range(1, 64))}]}}" for it in range(15))
        + "] # lint: allow " + "unfilled-slots " * 60_000 + "\n" + PARAMETERS),
}
"""Cluster files, with the first refusal that has to be found."""

FAULTS = {
    "bits turned at minislots": (None, [f"corrupt {channel} {cycle} m{place} 0" for cycle in range(16)
                                        for place in range(1, 900) for channel in "AB"]),
    "bits turned in static slots": (None, [f"corrupt {channel} {cycle} s{place} 0" for cycle in range(16)
                                           for place in range(1, 1024) for channel in "AB"]),
    "words like those of scenarios": ("BadLine 2", [f"committ{number} 0 0 0 0 x" for number in range(4094)]),
}
"""Lines of scenarios, with the first refusal that has to be found."""
FAULTS_3 = {
    "ranges of slots in one cycle each": (None, [f"mute 0 AB {number % 16} s{number // 16 * 3 + 1}-"
                                                 f"{number // 16 * 3 + 2}" for number in range(4094)]),
    "ranges of slots in all cycles": (None, [f"corrupt AB * s{place}-{place} 0" for place in range(1, 1024)]),
    "ranges of cycles that don't meet": (None, [
        f"babble {node} AB {first}-1023/16 m{place} x" for node in range(16) for first in range(16)
        for place in range(1, 9)]),
    "dynamic slots": (None, [f"mute {node} AB * d{1023 + place}" for node in range(4) for place in range(1, 901)]),
    "lost nodes in all cycles": ("BadFault 2", ["lost 0 0-1023"] * 4090),
    "slots in each third cycle": ("BadFault 1", ["mute 0 A 0-1023/3 s1-2"] * 4090),
    "all slots in all cycles": ("BadFault 1", ["mute 0 A 0-1023 s*"] * 4090),
    "all minislots in each other cycle": ("BadFault 1", ["mute 0 A 0-1023/2 m*"] * 4090),
    "all windows in all cycles": ("BadFault 1", ["mute 0 A * *"] * 4090),
    "lost nodes in one cycle each": (None, [f"lost {node} {cycle}" for node in range(4) for cycle in range(1022)]),
    "one slot in cycles with different steps": ("BadFault 1", [
        f"corrupt A 0-1023/{1 + number % 1000} s1 0" for number in range(4090)]),
    "slots and cycles that all differ": (None, [
        f"mute 0 A {first}-{first + 4 * (slot % 250)}/4 s{slot}" for slot in range(1, 1023) for first in range(4)]),
    "lines of later cycles": (None, ["lost 0 1000"] * 4094),
    "expectations of one buffer in each cycle": (None, [f"expect 0 * 0 x{number % 2:04}" for number in range(4094)]),
    "expectations of one buffer in all cycles": (None, ["expect 0 0-1023 0 x0000"] * 4090),
    "expectations with different steps": (None, [f"expect 0 0-1023/{1 + number % 1000} 0 x{number:04x}"
                                                 for number in range(4090)]),
    "expectations of missing buffers": (None, [f"expect-none {number % 16} * 63" for number in range(4094)]),
    "comments": (None, ["#" * 250] * 4094),
    "names like that of a node": ("BadLine 2", [f"pop nodd{number} 0 0" for number in range(4094)]),
    "calls in each cycle": ("BadScript 0", ["pop 0 0 *"] * 4094),
}
"""The same in version 3."""


def loop() -> float:
    """Returns the processor time of a loop that makes many small objects, as a reader does."""
    begun = time.process_time()
    kept = {f"{number}": [number] for number in range(50_000)}
    return time.process_time() - begun if kept else 0.0


class Times(Cases):
    def held(self, wanted: str | None, *given) -> None:
        """Asserts that a file is checked in time, and that its findings are short."""
        beside, begun = loop(), time.process_time()
        found = lint(Task(*given))
        refusal = found.refusals[0][0] if found.refusals else None
        text = "\n".join(told(Answer(1 if refusal else 0, refusal), found))
        loops = (time.process_time() - begun) / max(beside, loop())
        self.assertLess(loops, MOST_LOOPS)
        self.assertLess(len(text.encode()), MOST_BYTES)
        self.assertEqual(refusal, wanted)

    def test_cluster_files(self):
        for name, (refusal, text) in TEXTS.items():
            with self.subTest(name=name):
                self.assertLessEqual(len(text), FILE_LIMIT)
                self.held(refusal, self.written("cluster.toml", text))

    def test_scenarios(self):
        """The cluster is accepted, with 1,024 ownership lines and buffers that are for no cycle of the run."""
        cluster = self.written("cluster.toml", PARAMETERS + "".join(
            node([own(64 * it + line + 1, 32, 64) for line in range(64) if 64 * it + line < 1023],
                 [buffer("event", 1024 + 32 * it + line // 2, "AB"[line % 2], 32, 64) for line in range(64)])
            for it in range(16)))
        for name, (refusal, lines) in FAULTS.items():
            with self.subTest(name=name):
                text = "".join(f"{line}\n" for line in ("frscenario 2", *lines[:4094], "end"))
                self.held(refusal, cluster, self.written("scenario", text), 16)
        named = self.written("named.toml", Path(cluster).read_text().replace("[[node]]", '[[node]]\nname = "node"', 1))
        for name, (refusal, lines) in FAULTS_3.items():
            with self.subTest(name=name):
                text = "".join(f"{line}\n" for line in ("frscenario 3", *lines[:4094], "end"))
                self.held(refusal, named, self.written("scenario", text), 16)
