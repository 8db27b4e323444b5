"""Worked rows of `fr_view latency`: the latencies of a small cluster, and ways to the latest starts of its slots.

The expected values were worked out by hand from docs/formats/views.md.
"""
from .cycles import SMALL_CYCLE
from .runner import WRITTEN

CLUSTER = """guard = "none"
[params]
static_slots = 2
minislots = 12
static_words = 1
static_mt = 20
minislot_mt = 5
symbol_mt = 0
nit_mt = 10
cycle_mt = 110
idle = 1
words_per_minislot = 4
[[node]]
tasks = 1
latest_a = 12
latest_b = 6
own = [{slot = 1, channels = "AB"}, {slot = 2, channels = "A", base = 0, repetition = 2}]
buffer = [
  {kind = "state", slot = 1, channels = "AB"},
  {kind = "event", slot = 2, channels = "A", base = 0, repetition = 2},
  {kind = "event", slot = 3, channels = "A", words = 0},
  {kind = "event", slot = 4, channels = "B", words = 8},
]
[[node]]
tasks = 1
latest_a = 9
latest_b = 4
buffer = [
  {kind = "event", slot = 3, channels = "B", base = 0, repetition = 2, words = 20},
  {kind = "state", slot = 5, channels = "A", base = 1, repetition = 4, words = 12},
  {kind = "receive", slot = 1, channels = "AB"},
  {kind = "event", slot = 8, channels = "B", words = 4},
]
[[node]]
tasks = 0
latest_a = 10
latest_b = 10
buffer = [{kind = "event", slot = 4, channels = "A", words = 4}]
"""
"""A frame in slot 3 of B takes 7 minislots in even cycles, so that slot 4 begins at 8 then, after node 0's latest."""

LATENCIES = """0 0 1 AB 0 1 - - - guaranteed 64 130
0 1 2 A 0 2 - - - guaranteed 32 240
0 2 3 A 0 1 1 1 12 guaranteed 64 115
0 3 4 B 0 1 2 8 6 possible 32 235
1 0 3 B 0 2 1 1 4 guaranteed 32 250
1 1 5 A 1 4 3 4 9 guaranteed 16 465
1 3 8 B 0 1 6 12 4 blocked 0 -
2 0 4 A 0 1 2 3 10 idle 0 -
channel A 96 128 2 7 5
channel B 64 128 7 14 0
"""

WAYS = {
    ("4", "B"): "0 8\n1 0 3 1\n",
    ("5", "A"): "1 4\n0 2 3 1\n",
    ("8", "B"): "0 12\n1 0 3 1\n",
    ("9", "A"): "0 8\n0 2 3 1\n",
    ("3", "A"): "0 1\n",
    ("2047", "A"): "0 2046\n0 2 3 1\n",
    ("2", "A"): "",
}
"""By slot and channel: the cycle and the minislot of the latest start, and the frames before it. Slot 2 is static."""

SILENT = "channel A 0 192 0 0 10\nchannel B 0 192 0 0 10\n"
"""Three static slots and ten minislots without a buffer."""


class Latencies:
    """Latencies of clusters, and ways to latest starts."""

    def __init__(self, runs, folder):
        self.runs, self.path = runs, folder / "latencies.toml"

    def worked(self):
        self.path.write_text(CLUSTER)
        wanted = LATENCIES.encode(), b"", 0
        self.runs.check("latencies of a small cluster", ["latency", self.path], wanted)
        self.runs.check_once(f"latencies of a small cluster, {WRITTEN}", ["latency", self.path], wanted)
        for (slot, channel), text in WAYS.items():
            self.runs.check(f"a way to slot {slot} on {channel}",
                            ["latency", self.path, "--slot", slot, "--channel", channel], (text.encode(), b"", 0))
        self.runs.check("a way on channel A", ["latency", self.path, "--slot", "5"],
                        (WAYS["5", "A"].encode(), b"", 0))

    def silent(self):
        self.path.write_text(f"{SMALL_CYCLE}[[node]]\n")
        self.runs.check("latencies of a silent cluster", ["latency", self.path], (SILENT.encode(), b"", 0))
