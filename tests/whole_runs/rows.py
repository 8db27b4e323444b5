"""Worked rows of the bus, the world and withdraws, as sessions: each event with its reply, the observations and the
frames kept.

The expected values were worked out by hand from the rules, and stood in tests of single calls before.
"""
from .cycles import ONE_WORD, SMALL_CYCLE
from .sessions import DATA_A, DATA_B, Talk

THREE_NODES = f"""guard = "A"
{ONE_WORD}
[[node]]
tasks = 2
own = [{{slot = 1, channels = "AB", sync = true}}]
buffer = [{{kind = "event", slot = 1, channels = "AB"}}]
[[node]]
tasks = 2
own = [{{slot = 2, channels = "AB"}}]
buffer = [{{kind = "event", slot = 2, channels = "AB"}}, {{kind = "receive", slot = 1, channels = "A"}},
          {{kind = "receive", slot = 1, channels = "B"}}]
[[node]]
tasks = 2
buffer = [{{kind = "event", slot = 4, channels = "A", words = 1}}]
"""
"""Nodes 0 and 1 own one slot each, and channel A is guarded."""

SMALL = f"""guard = "AB"
{SMALL_CYCLE}
[[node]]
[[node]]
"""
"""Two nodes that own nothing."""

ONE_NODE = """{parameters}
[[node]]
tasks = 1
host_entries = 6
own = [{{slot = 1, channels = "AB"}}]
buffer = [{{kind = "{mode}", slot = 1, channels = "AB"}}, {{kind = "receive", slot = 2, channels = "A"}}]
"""
"""The one node has room for six host entries."""

EVENT_MODE = ONE_NODE.format(parameters=ONE_WORD, mode="event")
STATE_MODE = ONE_NODE.format(parameters=ONE_WORD, mode="state")

TURNS = [
    ("put 0", "refused WrongTurn"), ("look 0", "window 0 0 0 1 1"), ("fetch 0", "done"), ("put 0", "done"),
    ("seal", "refused Bus NotAllPut"), ("look 0", "refused WrongTurn"), ("look 1", "window 0 0 0 1 1"),
    ("fetch 1", "done"), ("put 1", "done"), ("look 2", "window 0 0 0 1 1"), ("fetch 2", "done"), ("put 2", "done"),
    ("seal", "done"),
]

LIST = [
    ("commit 0 0 0 x0a0b", "committed 0"), ("corrupt A 999", "done"), ("window", "open 1 0 0 2 2"),
    ("commit 0 0 0 x0c0d", "committed 3"), ("read 1 0 1", "frame 0 1 --s- x0a0b"),
    ("read 1 0 2", "frame 0 1 --s- x0a0b"),
]

WITHDRAWN = [
    ("commit 0 0 0 x0001", "committed 0"), ("withdraw 0 0 0", "withdrawn 0"), ("window", "open 1 0 0 2 2"),
    ("withdraw 0 0 0", "withdrawn -"), ("commit 0 0 0 x0002", "committed 5"), ("commit 0 0 0 x0003", "committed 6"),
    ("cycle", "open 7 1 0 1 1"), ("look 0", "window 7 1 0 1 1"), ("fetch 0", "done"), ("withdraw 0 0 0", "withdrawn -"),
    ("window", "open 8 1 0 2 2"),
]
"""A withdrawn commit is never sent, and a frame that was handed to the bus isn't taken back."""

SENT = [
    ("commit 0 0 0 x0001", "committed 0"), ("window", "open 1 0 0 2 2"), ("withdraw 0 0 0", "withdrawn -"),
    ("cycle", "open 7 1 0 1 1"), ("window", "open 8 1 0 2 2"),
]
"""A state commit that was sent stays."""

LEFT_EMPTY = [
    ("commit 0 0 0 x0001", "committed 0"), ("window", "open 1 0 0 2 2"), ("withdraw 0 0 0", "withdrawn -"),
    ("commit 0 0 0 x0002", "committed 4"), ("withdraw 0 0 0", "withdrawn 4"), ("cycle", "open 7 1 0 1 1"),
    ("window", "open 8 1 0 2 2"),
]
"""A withdrawn state commit leaves nothing."""

WITHDRAWS_REFUSED = [
    ("withdraw 1 0 0", "refused UnknownNode"), ("withdraw 0 1 2", "refused Host UnknownTask"),
    ("withdraw 0 0 2", "refused Host UnknownBuffer"), ("withdraw 0 0 1", "refused Host NotTransmit"),
    *[("withdraw 0 0 0", "withdrawn -")] * 6, ("withdraw 0 0 0", "refused Host HostFull"),
]

FRAME = [("window", "open 1 0 0 2 2"), ("commit 1 0 0 x0a0b", "committed 2")]
"""Node 1 is to send the frame of slot 2."""

BABBLES = [("babble 2 A x00", "done"), ("babble 2 B x00", "done")]
MUTED = [*BABBLES, ("mute 1 A", "done"), ("mute 2 B", "done")]
TURNED = [("corrupt A 9", "done"), ("corrupt B 80", "done")]
SLOT_2 = [("window", "open 2 0 0 3 3")]
TURNED_ON_A = "x204203c1400a0ba32217"

ELEVEN, TEN = "x" + "07" * 11, "x" + "07" * 10
SIXTEEN, SEVENTEEN = "x" + "07" * 16, "x" + "07" * 17

BABBLED = "x20010346809999e937d0"
"""A data frame of slot 1 in cycle 0 with payload `9999`, on channel A."""


def sent(*transmissions):
    """Returns the lines of the record of the window of slot 2."""
    return ["window 1 0 0 2 2", *transmissions]


class Rows:
    """The rows, each of which is a session of its own."""

    def __init__(self, runs, folder):
        self.runs, self.folder = runs, folder

    def check(self, name, cluster, cycles, asked, seen=(), kept=()):
        """Checks the replies, the nodes' observations in the last window, and lines of their traces."""
        path = self.folder / "row.toml"
        path.write_text(cluster)
        talk = Talk(self.runs.program, path, cycles)
        try:
            talk.line()
            self.runs.compare(name, [talk.ask(request) for request, _ in asked], [reply for _, reply in asked])
            looks = [talk.ask(f"trace {node}")[-2].split(" ")[2:] for node, _ in enumerate(seen)]
            self.runs.compare(f"{name}: what is seen", looks, [list(look) for look in seen])
            for request, line in kept:
                self.runs.compare(f"{name}: {request}", line in talk.ask(request), True)
        except (OSError, IndexError) as error:
            self.runs.compare(name, repr(error), "a session")
        talk.close()

    def turns(self):
        self.check("controllers take turns", THREE_NODES, 2, TURNS)
        self.check("a list of events runs a window", THREE_NODES, 2, LIST)

    def withdraws(self):
        self.check("a withdrawn commit", EVENT_MODE, 2, WITHDRAWN, kept=[
            ("trace 0", "fetch 0 0 0 1 1 null null"), ("trace 0", "fetch 7 1 0 1 1 6 6"),
            ("report 0", "tx 0 3 1 1 0 1")])
        self.check("a state commit that was sent", STATE_MODE, 2, SENT, kept=[
            ("trace 0", "fetch 0 0 0 1 1 0 0"), ("trace 0", "fetch 7 1 0 1 1 0 0"), ("report 0", "tx 0 1 1 0 0 0")])
        self.check("a withdrawn state commit", STATE_MODE, 2, LEFT_EMPTY, kept=[
            ("trace 0", "fetch 0 0 0 1 1 0 0"), ("trace 0", "fetch 7 1 0 1 1 null null"),
            ("report 0", "tx 0 2 1 0 0 1")])
        self.check("withdraws are refused as commits are", EVENT_MODE, 2, WITHDRAWS_REFUSED)

    def sights(self):
        """Checks the observations of each node where one babbles, loses an offer, has bits flipped or overruns its
        slot."""
        offers = [f"sent 1 A offer passed {DATA_A}", f"sent 1 B offer passed {DATA_B}"]
        babbles = ["sent 2 A babble blocked x00", "sent 2 B babble passed x00"]
        record = ("record 1", sent(*offers, *babbles))
        self.check("babbles", THREE_NODES, 1, [*FRAME, *BABBLES, *SLOT_2, record],
                   [(DATA_A, "noise"), ("own", "conflict"), (DATA_A, "conflict")])
        record = ("record 1", sent(f"sent 1 A offer muted {DATA_A}", offers[1], *babbles))
        self.check("lost offers", THREE_NODES, 1, [*FRAME, *MUTED, *SLOT_2, record],
                   [("-", "noise"), ("-", "conflict"), ("-", "conflict")])
        record = ("record 1", sent(*offers, "corrupt A 9", "corrupt B 80"))
        self.check("flipped bits", THREE_NODES, 1, [*FRAME, *TURNED, *SLOT_2, record],
                   [(TURNED_ON_A, DATA_B), ("own", "own")])
        for bytes_sent, look in ((ELEVEN, "overrun"), (TEN, TEN)):
            asked = [("run 0", "open 0 0 0 1 1"), ("window", "open 1 0 0 2 2"), ("window", "open 2 0 0 3 3"),
                     (f"babble 1 B {bytes_sent}", "done"), ("window", "open 3 0 1 4 4")]
            self.check("a static slot and its eleventh byte", THREE_NODES, 1, asked, [("-", look), ("-", "own")])
        for bytes_sent, look in ((SIXTEEN, SIXTEEN), (SEVENTEEN, "overrun")):
            asked = [("window", f"open {number} 0 {max(number - 2, 0)} {number + 1} {number + 1}")
                     for number in range(1, 11)]
            asked += [("window", "open 11 0 9 12 12"), (f"babble 1 A {bytes_sent}", "done"),
                      ("window", "open 12 0 10 - 13")]
            self.check("the last minislots and a seventeenth byte", SMALL, 1, asked, [(look, "-")])

    def windows(self):
        """Checks how long transmissions move the windows, and a run's cycles."""
        to_minislots = [("window", "open 1 0 0 2 2"), ("window", "open 2 0 0 3 3"), ("window", "open 3 0 1 4 4")]
        asked = [*to_minislots, ("babble 1 A x" + "00" * 8, "done"), ("window", "open 4 0 2 - 5"),
                 ("babble 0 A x01", "done"), ("window", "open 5 0 3 5 6"),
                 ("record 3", ["window 3 0 1 4 4", "sent 1 A babble passed x" + "00" * 8]),
                 ("record 4", ["window 4 0 2 - 5"])]
        self.check("what has no slot is not sent", SMALL, 1, asked)
        asked = [*to_minislots, ("babble 1 B x" + "00" * 16, "done"), ("window", "open 4 0 2 5 -"),
                 ("window", "open 5 0 3 6 -")]
        asked += [("window", f"open {minislot + 2} 0 {minislot} {minislot + 3} {minislot + 1}")
                  for minislot in range(4, 11)]
        self.check("a long slot leaves the other channel alone", SMALL, 1, [*asked, ("window", "over")])
        asked = [("window",
                  f"open {number} {number // 7 % 64} {max(number % 7 - 2, 0)} {number % 7 + 1} {number % 7 + 1}")
                 for number in range(1, 462)]
        late = "refused Bus NotCollecting"
        ended = [("mute 0 A", late), ("seal", late), ("advance", "refused Bus NotSealed"),
                 ("record 461", ["window 461 1 4 7 7"])]
        self.check("a run goes through its cycles and ends", THREE_NODES, 66, [*asked, ("window", "over"), *ended])

    def faults(self):
        """Checks the effects of faults in a guarded slot: node 1's frames of each channel, its counters, and the
        commit."""
        muted = [("mute 0 A", "done"), (f"babble 0 A {BABBLED}", "done")]
        word, none = "frame 0 1 --s- x0a0b", "frame -"
        rows = [
            ("a muted owner that babbles", muted, "frame 0 1 ---- x9999", "A 1 0 0 0 0"),
            ("a bit that is flipped in the frame", [("corrupt A 40", "done")], none, "A 0 1 0 0 0"),
            ("a bit after its end", [("corrupt A 999", "done")], word, "A 1 0 0 0 0"),
            ("another's babble", [(f"babble 2 A {BABBLED}", "done")], word, "A 1 0 0 0 0"),
        ]
        for name, harms, held, counted in rows:
            asked = [("commit 0 0 0 x0a0b", "committed 0"), *harms, ("window", "open 1 0 0 2 2"), ("read 1 0 1", held),
                     ("read 1 0 2", word)]
            self.check(name, THREE_NODES, 2, asked, kept=[("report 1", counted), ("report 0", "tx 0 1 1 0 0 0")])

    def all(self):
        self.turns()
        self.withdraws()
        self.sights()
        self.windows()
        self.faults()
