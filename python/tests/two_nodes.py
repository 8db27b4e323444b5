"""A cluster of two nodes and two static slots, for which everything is worked out by hand."""

PARAMETERS = """[params]
static_slots = 2
minislots = 0
static_words = 1
static_mt = 20
minislot_mt = 5
symbol_mt = 0
nit_mt = 10
cycle_mt = 50
idle = 0
words_per_minislot = 5
"""
"""Two static slots and no dynamic segment."""
TWO_NODES = f"""guard = "A"

{PARAMETERS}
[[node]]
own = [{{slot = 1, channels = "AB"}}]
buffer = [
  {{kind = "event", slot = 1, channels = "AB"}},
  {{kind = "receive", slot = 2, channels = "A"}},
  {{kind = "receive", slot = 2, channels = "B"}},
]

[[node]]
own = [{{slot = 2, channels = "A"}}]
buffer = [
  {{kind = "state", slot = 2, channels = "A"}},
  {{kind = "receive", slot = 1, channels = "AB"}},
]
"""
SCENE = """frscenario 1
commit 0 0 0 0 x0a0b
commit 0 0 1 0 x0c0d
commit 1 0 0 0 x1111
end
"""
OUTCOME = """node 0
tx 0 2 2 0 0 0
rx 1 9:A x1111
rx 2 - -
A 2 0 0 0 0
B 0 0 0 0 0
node 1
tx 0 1 1 0 0 0
rx 1 6:A x0c0d
A 2 0 0 0 0
B 2 0 0 0 0
windows 4
settled
"""
"""The outcome after two cycles. The journal of node 0 has a commit, two entries for each of the windows 0 and 1, a
commit, and two for each of the windows 2 and 3. So it observed window 3 in entry 9. Node 1 has one commit, and observed
window 2 in entry 6."""
