"""Runs of the third program: sessions with the world of a cluster, request by request, and its words."""
import itertools
import os
import resource
import select
import socket
import subprocess
from pathlib import Path

from .cycles import STATIC_ALONE
from .runner import EXAMPLES, SECONDS, USAGE, Folder, refused, run

GREETING = "frworld 1\n"

THREE_NODES = "three-nodes/cluster.toml"

DATA_A, DATA_B = "x200203c1400a0ba32217", "x200203c1400a0b85a2c6"
"""The data frame of slot 2 in cycle 0 with payload `0a0b`, on each channel."""

SMALL = f"""{STATIC_ALONE}
[[node]]
host_entries = 2
slot_entries = 8
own = [{{slot = 2, channels = "AB"}}]
buffer = [{{kind = "event", slot = 2, channels = "AB"}}]

[[node]]
tasks = 2
buffer = [{{kind = "receive", slot = 2, channels = "A"}}]
"""
"""Two static slots and no minislot. The journal of node 0 has room for two cycles and two calls of its task."""

A_WINDOW = [
    ("look 0", "window 0 0 0 1 1"), ("look 1", "window 0 0 0 1 1"), ("fetch 0", "done"), ("fetch 1", "done"),
    ("put 0", "done"), ("seal", "refused Bus NotAllPut"), ("put 1", "done"), ("now", "open 0 0 0 1 1"),
    ("seal", "done"), ("now", "sealed 0 0 0 1 1"), ("advance", "refused Bus NotAllTaken"), ("take 0", "done"),
    ("observe 0", "done"), ("take 1", "done"), ("advance", "done"), ("now", "open 1 0 0 2 2"),
    ("look 1", "refused WrongTurn"), ("observe 1", "done"), ("look 1", "window 1 0 0 2 2"),
]
"""A window by its single events, each with its reply."""

TWO_CYCLES = [
    ("commit 0 0 0 x0a0b", "committed 0"), ("commit 0 0 0 x0c0d", "committed 1"),
    ("withdraw 0 0 0", "refused Host HostFull"), ("origin 1", "origin -"),
    ("read 1 1 0", "frame -"), ("origin 1", "origin -"), ("window", "open 1 0 0 2 2"),
    ("babble 1 B x00", "done"), ("window", "open 2 1 0 1 1"), ("read 1 0 0", "frame 0 2 ---- x0c0d"),
    ("origin 1", "origin 4:A"), ("origin 0", "origin -"),
    ("record 0", "lines 1\nwindow 0 0 0 1 1"), ("record 2", "refused NoWindow"),
    ("report 0", "lines 3\ntx 0 2 1 1 0 0\nA 0 0 0 0 0\nB 0 0 0 0 0"), ("cycle", "over"),
]
"""A run by whole windows, after which the journal of node 0 is full."""

TIMES = [
    ("at", "at 0 0 0"), ("status 0 B", "status B 0 0 0 0 0"), ("commit 0 0 0 x0a0b", "committed 0"),
    ("look 0", "window 0 0 0 1 1"), ("at", "at 0 0 0"), ("fetch 0", "done"), ("look 1", "window 0 0 0 1 1"),
    ("fetch 1", "done"), ("put 0", "done"), ("put 1", "done"), ("seal", "done"), ("at", "at 0 0 1"),
    ("window", "open 1 0 0 2 2"), ("at", "at 0 20 1"), ("corrupt B 30", "done"), ("cycle", "open 2 1 0 1 1"),
    ("at", "at 1 0 2"), ("status 1 A", "status A 1 0 0 0 0"), ("status 1 B", "status B 0 1 0 0 0"),
    ("status 2 A", "refused UnknownNode"), ("window", "open 3 1 0 2 2"), ("at", "at 1 20 3"), ("window", "over"),
    ("at", "at 2 0 4"), ("status 1 A", "status A 2 0 0 0 0"), ("status 1 B", "status B 1 1 0 0 0"),
]
"""The time of each window, open and sealed, and the counters of a node, to which a flipped bit is a syntax error."""

RECEIPTS = [
    ("receive 1 0 0", "frame -"), ("commit 0 0 0 x0a0b", "committed 0"), ("receive 1 1 0", "frame -"),
    ("cycle", "open 2 1 0 1 1"), ("receive 1 2 0", "refused Host UnknownTask"),
    ("receive 1 1 0", "frame 0 2 ---- x0a0b A 0 new"), ("receive 1 0 0", "frame 0 2 ---- x0a0b A 0 old"),
    ("read 1 0 0", "frame 0 2 ---- x0a0b"), ("receive 1 1 0", "frame 0 2 ---- x0a0b A 0 old"),
    ("receive 0 0 0", "refused Host NotReceive"), ("receive 1 0 1", "refused Host UnknownBuffer"),
    ("receive 2 0 0", "refused UnknownNode"), ("receive 1 0", "refused BadLine 13"), ("next 1", "refused BadLine 14"),
    ("receive 1 0 64", "refused BadLine 15"), ("receive 1 8 0", "refused BadLine 16"),
    ("next 1 0 0", "refused BadLine 17"), ("next 1 0", "refused Host NoQueue"), ("next 3 0", "refused UnknownNode"),
    ("commit 0 0 0 x0a0b", "committed 5"),
    ("receive 1 0 0", "frame 0 2 ---- x0a0b A 0 old"), ("cycle", "over"), ("read 1 1 0", "frame 1 2 ---- x0a0b"),
    ("receive 1 1 0", "frame 1 2 ---- x0a0b A 1 new"), ("receive 1 1 0", "frame 1 2 ---- x0a0b A 1 old"),
]
"""Frames of one receive buffer, of which each is new once; a frame with the same payload is another one."""

QUEUED = [
    ("next 0 0", "frame -"), ("commit 2 0 0 x0102", "committed 0"), ("cycle", "open 7 1 0 1 1"),
    ("commit 2 0 0 x0102", "committed 15"), ("cycle", "open 14 2 0 1 1"), ("next 0 0", "frame 0 4 ---- x0102 A 0 new"),
    ("pop 0 0", "frame 1 4 ---- x0102"), ("next 0 0", "frame -"), ("next 1 0", "refused Host NoQueue"),
]
"""Frames of a receive FIFO, each of which is new."""

FAR_CYCLES = [
    ("run 70", "open 140 6 0 1 1"), ("commit 0 0 0 x0a0b", "committed 280"), ("cycle", "open 142 7 0 1 1"),
    ("receive 1 0 0", "frame 6 2 ---- x0a0b A 70 new"),
]
"""The cycle of the run goes on after 63, and the cycle of the frame begins again."""

KEPT = [
    ("corrupt A 1", "done"), ("cycle", "open 2 1 0 1 1"), ("record 0", "lines 2\nwindow 0 0 0 1 1\ncorrupt A 1"),
    ("record 2", "refused NoWindow"), ("window", "open 3 1 0 2 2"),
    ("record 0", "lines 2\nwindow 0 0 0 1 1\ncorrupt A 1"), ("record 2", "lines 1\nwindow 2 1 0 1 1"),
    ("window", "open 4 2 0 1 1"), ("record 0", "lines 2\nwindow 0 0 0 1 1\ncorrupt A 1"),
    ("window", "open 5 2 0 2 2"), ("record 0", "refused NotKept"), ("record 2", "lines 1\nwindow 2 1 0 1 1"),
    ("window", "open 6 3 0 1 1"), ("record 2", "lines 1\nwindow 2 1 0 1 1"), ("window", "open 7 3 0 2 2"),
    ("record 2", "refused NotKept"), ("run 200", "open 406 11 0 1 1"), ("record 400", "refused NotKept"),
    ("record 402", "lines 1\nwindow 402 9 0 1 1"), ("record 406", "refused NoWindow"),
    ("record 404", "lines 1\nwindow 404 10 0 1 1"), ("record 4294967295", "refused NoWindow"),
]
"""The windows of the last two cycles of two static slots."""

REFUSALS = [
    ("commit 3 0 0 x0000", "refused UnknownNode"), ("look 15", "refused UnknownNode"),
    ("report 3", "refused UnknownNode"), ("trace 15", "refused UnknownNode"), ("origin 3", "refused UnknownNode"),
    ("babble 3 A x00", "refused Bus UnknownNode"), ("mute 4 B", "refused Bus UnknownNode"),
    ("commit 0 2 0 x0000", "refused Host UnknownTask"), ("commit 0 0 2 x0000", "refused Host UnknownBuffer"),
    ("commit 0 0 1 x0000", "refused Host NotTransmit"), ("commit 0 0 0 x00000000", "refused Host WrongLength"),
    ("withdraw 0 0 1", "refused Host NotTransmit"), ("withdraw 0 0 0", "withdrawn -"),
    ("read 0 0 0", "refused Host NotReceive"), ("read 0 0 1", "frame -"), ("pop 1 0", "refused Host NoQueue"),
    ("pop 0 0", "frame -"), ("fetch 0", "refused WrongTurn"), ("put 0", "refused WrongTurn"),
    ("take 0", "refused WrongTurn"), ("observe 0", "refused WrongTurn"),
    ("seal", "refused Bus NotAllPut"), ("advance", "refused Bus NotSealed"), ("corrupt A 3", "done"),
    ("corrupt A 4", "refused Bus TooManyFaults"), ("mute 1 A", "done"), ("mute 1 A", "refused Bus TooManyFaults"),
    ("babble 1 B x", "done"), ("babble 1 B x00", "refused Bus TooManyFaults"), ("record 0", "refused NoWindow"),
    ("record 4294967295", "refused NoWindow"), ("commit 0 1 0 x1234", "committed 3"), ("withdraw 0 0 0", "withdrawn 3"),
]
"""Each refusal that a request has in the three-node cluster, with what is accepted beside it."""

FAULT_LINES = [
    ("commit 0 0 0 x0a0b", "committed 0"), ("babble 1 A * s2 x00", "done"), ("corrupt B 0 s* 7", "done"),
    ("corrupt B 0 s2 9", "refused BadFault 2"), ("corrupt B 1 s2 9", "done"),
    ("babble 1 A 1 s2 xff", "refused BadFault 3"), ("mute 2 A * s*", "refused BadFault 3"),
    ("mute 1 A 2 s*", "refused BadFault 3"), ("mute 1 A * s3", "refused BadFault 3"),
    ("mute 1 A * m1", "refused BadFault 3"), ("babble 1 A * s1", "refused BadLine 11"), ("cycle", "open 2 1 0 1 1"),
    ("record 0", "lines 2\nwindow 0 0 0 1 1\ncorrupt B 7"), ("record 1", "\n".join([
        "lines 5", "window 1 0 0 2 2", f"sent 0 A offer passed {DATA_A}", f"sent 0 B offer passed {DATA_B}",
        "sent 1 A babble blocked x00", "corrupt B 7"])),
    ("forget", "done"), ("corrupt B * s1 9", "done"), ("forget", "done"), ("window", "open 3 1 0 2 2"),
    ("record 2", "lines 1\nwindow 2 1 0 1 1"),
]
"""Fault lines that are kept, refused and forgotten."""

LINES_OF_VERSION_3 = [
    ("commit 0 0 0 x0a0b", "committed 0"), ("lost 0 0  # each offer of cycle 0", "done"),
    ("mute 0 B * s2", "refused BadFault 2"), ("mute\t0 AB 1-9/2 s1-2", "done"), ("babble 1 B 0-1 * x00", "done"),
    ("babble 1 AB * s1 xff", "refused BadFault 5"), ("babble 1 A * s1 xff", "done"), ("corrupt AB 0-0 s2-2 30", "done"),
    ("corrupt A 0 s* 9", "refused BadFault 8"), ("corrupt AB 2-3 s1 9", "refused BadFault 8"),
    ("mute 1 AB * d1", "refused BadFault 8"), ("mute 1 A # x", "refused BadLine 12"),
    ("mute pedal A * s1", "refused BadLine 13"), ("commit 0 0 0-1 0 x0a0b", "refused BadLine 14"),
    ("# nothing", "refused BadLine 15"), ("cycle", "open 2 1 0 1 1"), ("record 0", "\n".join([
        "lines 3", "window 0 0 0 1 1", "sent 1 A babble blocked xff", "sent 1 B babble blocked x00"])),
    ("record 1", "\n".join([
        "lines 6", "window 1 0 0 2 2", f"sent 0 A offer muted {DATA_A}", f"sent 0 B offer muted {DATA_B}",
        "sent 1 B babble blocked x00", "corrupt A 30", "corrupt B 30"])), ("window", "open 3 1 0 2 2"),
    ("record 2", "\n".join([
        "lines 3", "window 2 1 0 1 1", "sent 1 A babble blocked xff", "sent 1 B babble blocked x00"])),
]
"""Fault lines as in version 3: a line of both channels is kept as two lines or not at all."""

A_FAULT_BY_HAND = [
    ("corrupt A 5", "done"), ("corrupt A * s1 7", "done"), ("corrupt B 1 s1 9", "done"), ("window", "open 1 0 0 2 2"),
    ("record 0", "lines 2\nwindow 0 0 0 1 1\ncorrupt A 5"), ("run 1", "open 2 1 0 1 1"), ("look 0", "window 2 1 0 1 1"),
    ("fetch 0", "done"), ("window", "open 3 1 0 2 2"),
    ("record 2", "lines 3\nwindow 2 1 0 1 1\ncorrupt A 7\ncorrupt B 9"),
]
"""A fault that the window has stays, and that of a line doesn't come; in a window that is begun it does."""

A_LINE_TOO_LATE = [
    *A_WINDOW[:9], ("corrupt B * s1 3", "done"), ("window", "open 1 0 0 2 2"),
    ("record 0", "lines 1\nwindow 0 0 0 1 1"), ("run 1", "open 2 1 0 1 1"), ("window", "open 3 1 0 2 2"),
    ("record 2", "lines 2\nwindow 2 1 0 1 1\ncorrupt B 3"),
]
"""The fault of a line that comes once the window is sealed comes in the next one that it names."""

LATE_CYCLES = [
    ("corrupt A 64 s1 1", "done"), ("corrupt B 66 s1 1", "refused BadFault 1"), ("run 66", "over"),
    ("record 0", "lines 1\nwindow 0 0 0 1 1"), ("record 126", "lines 1\nwindow 126 63 0 1 1"),
    ("record 128", "lines 2\nwindow 128 0 0 1 1\ncorrupt A 1"), ("record 130", "lines 1\nwindow 130 1 0 1 1"),
    ("window", "refused Bus NotCollecting"),
]
"""A fault line names a cycle of the run, which isn't wrapped at 64."""

NO_REQUESTS = [
    "", " ", "now ", " now", "now  ", "Now", "now 1", "window 1", "cycle 1", "seal 0", "advance 0", "look", "look 16",
    "look 00", "look -1", "look 0 0", "fetch", "put", "take", "observe x", "commit", "commit 0 0 0", "commit 0 0 0 x0",
    "commit 0 0 0 x000", "commit 0 0 0 X0000", "commit 0 0 0 x0A00", "commit 0 0 0 0000", "commit 0 0 0 x0000 x0000",
    "commit 0  0 0 x0000", "commit 0 8 0 x0000", "commit 0 0 64 x0000", "commit 16 0 0 x0000", "commit +1 0 0 x0000",
    "withdraw 0 0", "withdraw 0 0 0 0", "read 0 0", "read 0 0 0 0", "pop 0", "pop 0 0 0", "babble 0 A",
    "babble 0 AB x00", "babble 0 a x00", "babble 0 A x0", "mute 0", "mute 0 C", "mute 0 A 1", "corrupt A",
    "corrupt A 65536", "corrupt 1 A", "run", "run 1025", "run -1", "run 1 1", "forget 1", "babble 0 A * s*",
    "babble 0 A * s* x0", "babble 0 A 1024 s* x00", "babble 0 A * s0 x00", "babble 0 A * 1 x00", "mute 0 A * d*",
    "mute 0 A * s01", "mute 0 A ** s*", "mute 0 A * s* 1", "mute 0 A  * s0", "corrupt A * s*", "corrupt A * s* 65536",
    "corrupt 0 A * s* 1", "commit 0 0 0 0 x0a0b", "read 0 0 0 1 ", "mute 0 A * m8001", "end", "frscenario 2", "record",
    "record 4294967296", "report", "report 16", "trace", "trace 0 0", "origin", "origin 16", "origin 0 0",
    "receive", "receive 0 0", "receive 0 0 0 0", "receive 16 0 0", "receive 0 00 0", "receive 0 0 64", "receive 0 8 0",
    "Receive 0 0 0", "next", "next 0", "next 0 0 0", "next 16 0", "next 0 8", "next x 0",
    "at 0", "At", "status", "status 0", "status 0 C", "status 16 A", "status A 0", "status 0 A 0",
    "quit", "frworld 1", "now\r", "now\t", "now\0", "lost", "lost 0", "lost 0 AB *", "lost 0 2-1", "lost pedal *",
    "mute 0 AB", "mute 0 BA * s*", "mute 0 A * m1-2", "mute 0 AB 0-1/0 s1", "mute 0 A # x", "mute 0 A * # s*", "# now",
    "now # x", "\t", "corrupt AB * s1 65536", "corrupt AB * s1", "babble 0 AB * * x" + "00" * 263,
    "commit 0 0 0 x" + "00" * 255, "babble 0 A x" + "00" * 263, "x" * 1200, "x" * 1201, "now " * 300,
    "now" + " " * 1198, "now" + " " * 5_000_000, "x" * 4095, "x" * 4096, "x" * 8191, "x" * 8192, "x" * 8193,
    "x" * 16384, "\N{EURO SIGN}",
]


def text_of(lines):
    return "".join(f"{line}\n" for line in lines)


def strikes(cycles, place, cycle, minislot, slot):
    """Returns whether a fault line of a scenario comes in a window."""
    if cycles not in ("*", str(cycle)):
        return False
    return place == (f"m{minislot}" if minislot != "0" else f"s{slot}") or place == "s*" and minislot == "0"


class Talk:
    """A session on two pipes, to which each request is given after the reply to the one before."""

    def __init__(self, program, cluster, cycles, options=()):
        pipes = {"stdin": subprocess.PIPE, "stdout": subprocess.PIPE, "stderr": subprocess.PIPE}
        words = [program, cluster, *(["--cycles", str(cycles)] if cycles else []), *options]
        self.ran = subprocess.Popen(words, cwd=EXAMPLES, bufsize=0, **pipes)
        self.held = b""

    def line(self):
        """Returns the next line of output."""
        while b"\n" not in self.held:
            ready, _, _ = select.select([self.ran.stdout], [], [], SECONDS)
            more = self.ran.stdout.read(65536) if ready else b""
            if not more:
                raise OSError(f"no reply, but {self.held}")
            self.held += more
        line, _, self.held = self.held.partition(b"\n")
        return line.decode()

    def ask(self, request):
        """Returns the reply to a request. The reply of a block is its lines."""
        self.ran.stdin.write(f"{request}\n".encode())
        reply = self.line()
        if not reply.startswith("lines "):
            return reply
        return [self.line() for _ in range(int(reply.split(" ")[1]))]

    def close(self, rest=b""):
        """Ends the input after some last bytes, and returns the output until the end."""
        output, errors = self.ran.communicate(rest, timeout=SECONDS)
        return self.held + output, errors, self.ran.returncode


def some_fault_lines(count):
    """Yields fault lines of the three nodes that don't clash."""
    places = ("s1", "s2", "s3", "m1", "m2", "m3", "m4")
    lines = itertools.product(("mute", "babble"), range(3), "AB", range(1024), places)
    for kind, node, channel, cycle, place in itertools.islice(lines, count):
        yield f"{kind} {node} {channel} {cycle} {place}" + (" x00" if kind == "babble" else "")


def without_place(output):
    """Returns the lines of a session that don't name the open window, or the end of the run."""
    return [line for line in output.splitlines() if not line.startswith((b"open", b"over"))]


def is_old(scenario):
    """Returns whether the file is there, with a scenario of version 1 or 2."""
    return scenario.exists() and scenario.read_text().startswith(("frscenario 1\n", "frscenario 2\n"))


class Sessions:
    """Runs of the third program."""

    def __init__(self, runs, folder):
        self.runs, self.folder = runs, folder
        self.small = folder / "small.toml"
        self.small.write_text(SMALL)

    def check(self, name, cluster, cycles, asked, rest=b"", status=0):
        """Checks that all requests at once get these replies, and that each reply is one write."""
        given = text_of(request for request, _ in asked).encode() + rest
        wanted = [GREETING] + [f"{reply}\n" for _, reply in asked]
        ours, theirs = socket.socketpair(socket.AF_UNIX, socket.SOCK_SEQPACKET)
        ours.settimeout(SECONDS)
        ours.setsockopt(socket.SOL_SOCKET, socket.SO_RCVBUF, 1 << 20)
        with ours, theirs:
            _, errors, ended = run([self.runs.program, cluster, "--cycles", str(cycles)], given, output=theirs.fileno())
            theirs.close()
            got = []
            while message := ours.recv(1 << 20):
                got.append(message.decode())
        self.runs.compare(name, (got, errors, ended), (wanted, b"", status))

    def worked(self):
        self.check("a window by its events", self.small, 2, A_WINDOW)
        self.check("two cycles by windows", self.small, 2, TWO_CYCLES)
        self.check("times and counters", self.small, 2, TIMES)
        self.check("each refusal", THREE_NODES, 4, REFUSALS)
        self.check("received frames", self.small, 2, RECEIPTS)
        self.check("frames of a FIFO", THREE_NODES, 4, QUEUED)
        self.check("fault lines", self.small, 2, FAULT_LINES)
        self.check("fault lines of version 3", self.small, 2, LINES_OF_VERSION_3)
        self.check("a fault by hand before one of a line", self.small, 2, A_FAULT_BY_HAND)
        self.check("a fault line too late for a window", self.small, 2, A_LINE_TOO_LATE)
        roomy = self.folder / "roomy.toml"
        roomy.write_text(SMALL.replace("slot_entries = 8\n", ""))
        self.check("a fault line of a late cycle", roomy, 66, LATE_CYCLES)
        self.check("the cycle of a frame", roomy, 80, FAR_CYCLES)
        self.check("no requests at all", THREE_NODES, 1, [])
        late = "refused Bus NotCollecting"
        over = [("run 0", "open 0 0 0 1 1"), ("run 2", "over"), ("now", "over"), ("look 0", late), ("window", late),
                ("cycle", late), ("run 1", late), ("run 0", "over"), ("advance", "refused Bus NotSealed"),
                ("mute 0 A", late), ("read 1 0 1", "frame -"), ("record 13", "lines 1\nwindow 13 1 4 7 7")]
        self.check("a run that is over", THREE_NODES, 2, over)

    def endless(self):
        """Checks that a session without history gives the replies of one with it, as far as these need no history."""
        last, newest = ([(ask, reply) for ask, reply in asked if not ask.startswith("record 0")
                         and not ask.startswith("record 1")] for asked in (FAULT_LINES, LINES_OF_VERSION_3))
        for name, asked in (("a window by its events", A_WINDOW), ("fault lines", last),
                            ("fault lines of version 3", newest), ("a fault by hand", A_FAULT_BY_HAND),
                            ("times and counters", TIMES), ("received frames", RECEIPTS)):
            self.check_endless(name, self.small, ("--cycles", "2"), asked)
        self.check_endless("frames of a FIFO", THREE_NODES, (), QUEUED)
        self.check_endless("the cycle of a frame", self.small, (), FAR_CYCLES)
        self.check_endless("kept windows", self.small, ("--keep", "2"), KEPT)
        for cycles in ("1", "64"):
            self.check_endless(f"windows of {cycles} cycles", self.small, (f"--keep={cycles}", "--cycles", "2"),
                               [("run 1", "open 2 1 0 1 1"), ("record 0", "lines 1\nwindow 0 0 0 1 1"),
                                ("run 1", "over"), ("record 2", "lines 1\nwindow 2 1 0 1 1"),
                                ("record 0", "refused NotKept" if cycles == "1" else "lines 1\nwindow 0 0 0 1 1")])
        self.check_endless("what isn't kept", THREE_NODES, (), [
            ("record 0", "refused NoWindow"), ("cycle", "open 7 1 0 1 1"), ("record 6", "lines 1\nwindow 6 0 4 7 7"),
            ("record 5", "refused NotKept"), ("record 7", "refused NoWindow"), ("trace 0", "refused NoHistory"),
            ("origin 1", "refused NoHistory"), ("trace 15", "refused NoHistory")])
        # Cycles count on beyond 16 bits, so a line of one cycle takes effect once.
        self.check_endless("many cycles", self.small, ("--cycles", "4000000"), [
            ("corrupt A 1 s1 7", "done"), ("cycle", "open 2 1 0 1 1"), ("window", "open 3 1 0 2 2"),
            ("record 2", "lines 2\nwindow 2 1 0 1 1\ncorrupt A 7"), ("window", "open 4 2 0 1 1"),
            ("run 1022", "open 2048 0 0 1 1"), *[("run 1024", f"open {2048 * n} 0 0 1 1") for n in range(2, 65)],
            ("cycle", "open 131074 1 0 1 1"), ("at", "at 65537 0 131074"), ("window", "open 131075 1 0 2 2"),
            ("at", "at 65537 20 131075"),
            ("record 131074", "lines 1\nwindow 131074 1 0 1 1"), ("corrupt A 1024 s1 7", "refused BadLine 75")])
        self.equal_endings()
        self.constant_memory()

    def check_endless(self, name, cluster, options, asked):
        given, wanted = (text_of(lines).encode() for lines in zip(*asked))
        got = run([self.runs.program, cluster, "--endless", *options], given)
        self.runs.compare(f"{name}, endless", got, (GREETING.encode() + wanted, b"", 0))

    def equal_endings(self):
        """Checks that the same requests end in the same reports in both kinds of session."""
        for folder, cycles in (("three-nodes", 54), ("vehicle", 54)):
            cluster = EXAMPLES / folder / "cluster.toml"
            nodes = cluster.read_text().count("[[node]]")
            asked = ["mute 0 A 3 s*", "babble 1 B * s1 x00", *[line for cycle in range(cycles) for line in
                     ("commit 0 0 0 x0a0b", "window", "read 1 0 1", "look 1", "cycle")], "now",
                     *[f"report {node}" for node in range(nodes)]]
            given = text_of(asked).encode()
            kept, free = (run([self.runs.program, cluster, *words], given)
                          for words in (("--cycles", str(cycles)), ("--endless",)))
            # Only the run with history ends after its last cycle.
            self.runs.compare(f"{folder}, endless", without_place(free[0]), without_place(kept[0]))

    def constant_memory(self):
        """Checks that a session needs the same memory after 200 and after 20,000 cycles."""
        sizes = set()
        for cycles in (200, 20_000):
            words = [self.runs.program, self.small, "--endless"]
            with subprocess.Popen(words, stdin=subprocess.PIPE, stdout=subprocess.PIPE, bufsize=0) as ran:
                ran.stdout.readline()
                for _ in range(max(1, cycles // 1000)):
                    ran.stdin.write(f"run {min(cycles, 1000)}\n".encode())
                    ran.stdout.readline()
                # The peak that `wait4` returns is never below the size of this process.
                status = Path(f"/proc/{ran.pid}/status").read_text()
            sizes.add(int(status.partition("VmHWM:")[2].split()[0]) // 1024)
        self.runs.compare(f"megabytes of short and long endless sessions: {sizes}", max(sizes) - min(sizes) <= 1, True)

    def many_fault_lines(self):
        """Checks that each fault line costs the same time, however many are kept, and is still compared with all of
        them."""
        seconds, cluster = {}, self.folder / "many.toml"
        text = (EXAMPLES / THREE_NODES).read_text()
        cluster.write_text(text.replace("[[node]]\n", "[[node]]\nslot_entries = 14336\n"))
        for count in (4_000, 64_000):
            lines = list(some_fault_lines(count))
            asked = [*lines, lines[0], "mute 0 A * s1", "mute 0 A 7 s*", "corrupt A 7 s* 3", "corrupt A * s2 3"]
            replies = ["done"] * count + [f"refused BadFault {count}"] * 3 + ["done", f"refused BadFault {count + 1}"]
            words = [self.runs.program, cluster, "--cycles", "1024"]
            before = resource.getrusage(resource.RUSAGE_CHILDREN)
            output, errors, status = run(words, text_of(asked).encode())
            after = resource.getrusage(resource.RUSAGE_CHILDREN)
            seconds[count] = after.ru_utime + after.ru_stime - before.ru_utime - before.ru_stime
            is_answered = output == (GREETING + text_of(replies)).encode()
            self.runs.compare(f"{count} fault lines", (is_answered, errors, status), (True, b"", 0))
        # Sixteen times the lines. If each line were compared with all others one by one, it would be 250 times the
        # time.
        times = seconds[64_000] / max(seconds[4_000], 0.005)
        self.runs.compare(f"64,000 fault lines in {times:.0f} times the time of 4,000", times < 60, True)

    def recorded(self):
        """Checks that a window of the record has each transmission with its fate."""
        asked = [("commit 0 0 0 x0a0b", "committed 0"), ("window", "open 1 0 0 2 2"), ("babble 1 A x00", "done"),
                 ("corrupt B 7", "done"), ("window", "open 2 1 0 1 1")]
        lines = ["window 1 0 0 2 2", f"sent 0 A offer passed {DATA_A}", f"sent 0 B offer passed {DATA_B}",
                 "sent 1 A babble blocked x00", "corrupt B 7"]
        asked.append(("record 1", "\n".join([f"lines {len(lines)}", *lines])))
        self.check("a window of the record", self.small, 2, asked)

    def no_requests(self):
        asked = [(line, f"refused BadLine {number}") for number, line in enumerate(NO_REQUESTS, 1)]
        self.check("lines that are no request", THREE_NODES, 1, [*asked, ("now", "open 0 0 0 1 1")])
        for rest in (b"now", b"run 1", b"commit 0 0 0 x0a0b", b"x" * 1201, b"x" * 5_000_000):
            self.check(f"a last line {rest[:20]} without its end", THREE_NODES, 1, [("now", "open 0 0 0 1 1")], rest)
        bytes_given = bytes(range(10)) + bytes(range(11, 256))
        got = run([self.runs.program, THREE_NODES, "--cycles", "1"], bytes_given + b"\nnow\n")
        self.runs.compare("all bytes", got, (b"frworld 1\nrefused BadLine 1\nopen 0 0 0 1 1\n", b"", 0))

    def examples(self):
        """Checks that requests give the outcome of a scenario's run. Requests have the forms of version 2 at most."""
        for folder in sorted(path for path in EXAMPLES.iterdir() if is_old(path / "scenario")):
            for outcome in folder.glob("outcome-of-*-cycles"):
                cycles = int(outcome.name.split("-")[2])
                for strike in (self.strike, self.keep):
                    try:
                        got = self.outcome(folder, cycles, strike)
                    except OSError as error:
                        got = str(error)
                    self.runs.compare(f"a session of {folder.name} with {strike.__name__}", got, outcome.read_text())

    def outcome(self, folder, cycles, strike):
        """Returns the outcome of a lockstep run, by a session that does the scenario's lines and faults."""
        lines = [line.split(" ") for line in (folder / "scenario").read_text().splitlines()[1:-1]]
        nodes = (folder / "cluster.toml").read_text().count("[[node]]")
        talk = Talk(self.runs.program, folder / "cluster.toml", cycles)
        talk.line()
        opened = talk.ask("now")
        windows = 0
        for cycle in range(cycles):
            for kind, *words in lines:
                if kind in ("commit", "withdraw", "read", "pop") and words[2] == str(cycle):
                    talk.ask(" ".join([kind, *words[:2], *words[3:]]))
            while True:
                strike(talk, lines, cycle, opened)
                opened, windows = talk.ask("window"), windows + 1
                if opened == "over" or opened.split(" ")[3:5] == ["0", "1"]:
                    break
        reports = [f"node {node}\n{text_of(talk.ask(f'report {node}'))}" for node in range(nodes)]
        traces = [text_of(talk.ask(f"trace {node}")).encode() for node in range(nodes)]
        talk.close()
        bench = self.runs.program.with_name("fr_bench")
        for node, trace in enumerate(traces):
            if bench.exists():
                report = run([bench, "audit"], trace)
                self.runs.compare(f"audit of node {node} of {folder.name}", report,
                                  (reports[node].partition("\n")[2].encode(), b"", 0))
        return "".join(reports) + f"windows {windows}\nsettled\n"

    def keep(self, talk, lines, cycle, opened):
        """Gives the fault lines in the first window, unchanged."""
        if cycle == 0 and opened == "open 0 0 0 1 1":
            for line in lines:
                if line[0] in ("babble", "mute", "corrupt"):
                    talk.ask(" ".join(line))

    def strike(self, talk, lines, cycle, opened):
        """Injects the faults that come in the open window, one by one."""
        minislot, slot = opened.split(" ")[3:5]
        for kind, *words in lines:
            if kind == "corrupt" and strikes(words[1], words[2], cycle, minislot, slot):
                talk.ask(f"corrupt {words[0]} {words[3]}")
            if kind in ("babble", "mute") and strikes(words[2], words[3], cycle, minislot, slot):
                talk.ask(" ".join([kind, *words[:2], *words[4:]]))

    def talks(self):
        """Checks that each reply comes before the next request, and that a partial last line isn't a request."""
        for rest in (b"", b"commit 0 0 0 x0c0d", b"now\nrun 1"):
            talk = Talk(self.runs.program, THREE_NODES, 1)
            try:
                got = [talk.line(), talk.ask("commit 0 0 0 x0a0b"), talk.ask("cycle"), talk.ask("nothing"),
                       talk.ask("read 1 1 1")]
            except OSError as error:
                got = str(error)
            self.runs.compare("a talk", got,
                              ["frworld 1", "committed 0", "over", "refused BadLine 3", "frame 0 1 --s- x0a0b"])
            self.runs.compare(f"the end {rest}", talk.close(rest), (b"over\n" if b"\n" in rest else b"", b"", 0))

    def refusals(self):
        long = self.folder / "long.toml"
        long.write_bytes(b"#" * 1_048_577)
        (self.folder / "bytes.toml").write_bytes(b"guard = \"\xff\"\n")
        for name, error in {"missing.toml": "Read", ".": "Read", "": "Read", str(long): "TooLong",
                            "receive-buffer/trace": "Toml", str(self.folder / "bytes.toml"): "Toml"}.items():
            self.runs.check(f"a session of {name!r}", [name, "--cycles", "1"], refused(error))
        for cluster, cycles in ((THREE_NODES, 293), (THREE_NODES, 1024), (self.small, 3)):
            self.runs.check(f"a session of {cycles} cycles without room", [cluster, "--cycles", str(cycles)],
                            refused("NoRoom 0"), given=b"now\n")
        self.check("a session of all cycles with room", THREE_NODES, 292, [("now", "open 0 0 0 1 1")])
        words, unread = [THREE_NODES, "--cycles", "1"], (GREETING.encode(), b"refused Read\n", 1)
        with Folder(os.open(EXAMPLES, os.O_RDONLY)) as given:
            self.runs.check("a session by a folder", words, unread, given=given)
        self.runs.check("a session by a closed input", words, unread, closed=(0,))

    def words(self):
        lists = [[], ["help"], ["--help"], ["-h"], [""], [b"\xff"], ["a"], ["a", "--cycles"], ["--cycles", "1"],
                 ["a", "--cycles", "1", "b"], ["a", "--cycle", "1"], ["a", "-cycles", "1"], ["a", "1", "--cycles"],
                 ["a", "--cycles", b"\xff"], ["a", "b", "--cycles", "1"], ["a", "--cycles", "1", "--cycles", "1"],
                 ["a", "--cycles="], ["a", "--", "--cycles", "1"],
                 *(["a", "--cycles", number] for number in ("0", "1025", "04", "+4", "-1", "x", "", "4 ", "1" * 40))]
        for given in lists:
            self.runs.check(f"the words {given}", given, USAGE)
        for given in (["a", "--cycles", "1"], ["a", "--cycles", "1024"], ["a", "--cycles=4"], ["--cycles", "4", "a"],
                      ["--cycles=4", "--", "a"]):
            self.runs.check(f"the words {given}", given, refused("Read"))

    def outputs(self):
        words = [THREE_NODES, "--cycles", "1"]
        with open("/dev/full", "wb") as full:
            self.runs.check("a session to a full device", words, refused("Write"), given=b"now\n", output=full)
        reading, writing = os.pipe()
        os.close(reading)
        self.runs.check("a session to a reader that has left", words, refused("Write"), given=b"now\n", output=writing)
        os.close(writing)
        self.runs.check("a session to a closed output", words, refused("Write"), given=b"now\n", closed=(1,))
        talk = Talk(self.runs.program, THREE_NODES, 1)
        talk.line()
        talk.ran.stdout.close()
        talk.ran.stdin.write(b"now\n")
        self.runs.compare("a reader that leaves", (talk.ran.wait(SECONDS), talk.ran.stderr.read()),
                          (1, b"refused Write\n"))
        talk.ran.stdin.close()
        talk.ran.stderr.close()
