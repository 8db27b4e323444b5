"""Worked lines of `fr_view links`: the senders of a small cluster, and the receivers of their frames.

The expected values were worked out by hand from docs/formats/views.md.
"""
from .cycles import SMALL_CYCLE
from .runner import WRITTEN

CLUSTER = """[params]
static_slots = 3
minislots = 10
static_words = 1
static_mt = 20
minislot_mt = 5
symbol_mt = 0
nit_mt = 10
cycle_mt = 120
idle = 0
words_per_minislot = 5
[[node]]
latest_a = 7
own = [
  {slot = 1, channels = "AB"},
  {slot = 3, channels = "A", base = 1, repetition = 2},
  {slot = 3, channels = "A", base = 0, repetition = 2},
]
queue = {capacity = 1, first = 1, last = 4, channels = "AB"}
buffer = [
  {kind = "event", slot = 1, channels = "AB"},
  {kind = "state", slot = 3, channels = "A"},
  {kind = "event", slot = 4, channels = "A", base = 1, repetition = 4, words = 6},
  {kind = "receive", slot = 2, channels = "AB", base = 0, repetition = 2},
]
[[node]]
own = [{slot = 2, channels = "AB"}]
queue = {capacity = 2, first = 3, last = 2047, channels = "A"}
buffer = [
  {kind = "receive", slot = 1, channels = "A"},
  {kind = "event", slot = 2, channels = "A", base = 2, repetition = 4},
  {kind = "event", slot = 2, channels = "A", base = 0, repetition = 4},
  {kind = "receive", slot = 3, channels = "B"},
  {kind = "receive", slot = 3, channels = "A", base = 3, repetition = 4},
]
[[node]]
queue = {capacity = 1, first = 1, last = 2, channels = "AB", base = 0, repetition = 2}
buffer = [
  {kind = "receive", slot = 1, channels = "AB", base = 0, repetition = 2},
  {kind = "receive", slot = 4, channels = "A", base = 2, repetition = 4},
]
"""
"""Buffer 1 of node 0 fills both of its ownership lines for slot 3. In slot 1 buffer 0 of node 2 takes all frames that
its FIFO admits, and in slot 2 buffer 3 of node 0 does. In slot 3 buffer 4 of node 1 takes half of the odd cycles."""

LINKS = """0 0 static 1 A 0 1 1 0 20 1:b0,2:b0
0 0 static 1 B 0 1 1 0 20 2:b0
1 1 static 2 A 2 4 1 20 40 0:b3,2:queue
1 2 static 2 A 0 4 1 20 40 0:b3,2:queue
1 - static 2 B 0 1 1 20 40 -
0 1 static 3 A 0 2 1 40 60 1:queue
0 1 static 3 A 1 2 1 40 60 1:b4,1:queue
0 2 dynamic 4 A 1 4 6 - - 1:queue
"""


class Links:
    """Senders of clusters, and their receivers."""

    def __init__(self, runs, folder):
        self.runs, self.path = runs, folder / "links.toml"

    def worked(self):
        self.path.write_text(CLUSTER)
        wanted = LINKS.encode(), b"", 0
        self.runs.check("links of a small cluster", ["links", self.path], wanted)
        self.runs.check_once(f"links of a small cluster, {WRITTEN}", ["links", self.path], wanted)

    def silent(self):
        self.path.write_text(f"{SMALL_CYCLE}[[node]]\n")
        self.runs.check("links of a silent cluster", ["links", self.path], (b"", b"", 0))
