"""Runs of the second program: captures and tables of traces, pictures of clusters, and its words."""
import os
import struct
from xml.etree import ElementTree

from .captured import FILE_HEADER
from .runner import EXAMPLES, USAGE, WRITTEN, refused, run

COLUMNS = "time cycle slot channel status error id flags taker bytes\n"

RECEIVED = """frtrace 1
params 3 4 1 20 5 0 10 90 0 5
node 1 0 0 8 12
begin
"""
"""A cycle of three static slots of 20 macroticks and four minislots of 5; it has 90 macroticks."""

DATA_A, DATA_B = "200203c1400a0ba32217", "200203c1400a0b85a2c6"
"""The data frame of slot 2 in cycle 0 with payload `0a0b`, on each channel."""


def record(time, mark, flags, data):
    """Returns a record by the format: seconds, microseconds, two lengths, the measurement header, and the bytes."""
    data = bytes([mark, flags]) + bytes.fromhex(data)
    return struct.pack("<IIII", time // 1_000_000, time % 1_000_000, len(data), len(data)) + data


WORKED = {
    # Both channels, each with its frame; the trailer is left out.
    f"fetch 0 0 0 2 2 - -\nsee 0 x{DATA_A} x{DATA_B}\n": [
        (record(20, 0x01, 0, DATA_A[:-6]), "20 0 2 A valid - 2 ---- - x0a0b"),
        (record(20, 0x81, 0, DATA_B[:-6]), "20 0 2 B valid - 2 ---- - x0a0b"),
    ],
    # A frame of channel A on B has another frame CRC, and one with a flipped bit in its ID another header CRC.
    f"fetch 0 1 0 2 2 - -\nsee 0 x200303c1400a0ba32217 x{DATA_A}\n": [
        (record(110, 0x01, 0x08, "200303c1400a0b"), "110 1 2 A syntax header - - - x200303c1400a0ba32217"),
        (record(110, 0x81, 0x10, DATA_A[:-6]), f"110 1 2 B syntax frame - - - x{DATA_A}"),
    ],
    # Bytes without a known trailer are kept whole; a frame for another slot is a content error.
    f"fetch 0 0 0 3 3 - -\nsee 0 x x{DATA_A}00\nfetch 1 0 0 2 2 - -\nsee 1 x200303bc000a0b3e8bc8 own\n": [
        (record(40, 0x01, 0x04, ""), "40 0 3 A syntax short - - - x"),
        (record(40, 0x81, 0x04, DATA_A + "00"), f"40 0 3 B syntax length - - - x{DATA_A}00"),
        # The window isn't later in its round, so it is of the next: 64 cycles of 90 macroticks later.
        (record(64 * 90 + 20, 0x01, 0, "200303bc000a0b"), "5780 0 2 A content - 3 ---- - x0a0b"),
    ],
    # A minislot, in a channel with a slot and in one without; a null frame of another cycle; nothing for an observation
    # without bytes.
    "fetch 0 63 3 5 - - -\nsee 0 x x00\nfetch 9 1 0 2 2 - -\nsee 9 x000203c1410000d14f6c noise\n": [
        (record(63 * 90 + 70, 0x01, 0x04, ""), "5740 63 5 A syntax short - - - x"),
        (record(63 * 90 + 70, 0x81, 0x04, "00"), "5740 63 - B - short - - - x00"),
        (record(64 * 90 + 90 + 20, 0x01, 0, "000203c1410000"), "5870 1 2 A valid - 2 -n-- - x0000"),
    ],
    "": [],
    "fetch 0 0 0 2 2 - -\nsee 0 - conflict\nfetch 1 0 0 3 3 - -\n": [],
}
"""Entries, with the record and the line of each observation."""

TAKEN = f"""frtrace 1
params 3 4 1 20 5 0 10 90 0 5
node 1 0 0 8 12
rx 2 AB 0 1
rx 2 A 0 1
rx 2 B 0 1
queue 2 1 3 AB 0 1
begin
fetch 0 0 0 2 2 - -
see 0 x{DATA_A} x{DATA_B}
fetch 1 0 0 2 2 - -
see 1 noise x{DATA_B}
fetch 2 1 0 1 1 - -
see 2 x -
end
"""

TAKERS = """20 0 2 A valid - 2 ---- b0,b1 x0a0b
20 0 2 B valid - 2 ---- b2 x0a0b
5780 0 2 B valid - 2 ---- b0,b2 x0a0b
5850 1 1 A syntax short - - - x
"""
"""A buffer for both channels stores the frame on A, and the one on B if there is none on A. The FIFO gets nothing that
a receive buffer is for."""

OWN = {
    # A null frame in cycle 0, and the data of commit 6 in cycle 1.
    "withdrawn-commits": [record(0, 0x01, 0, "0001034680 0000"), record(90, 0x01, 0, "2001034681 0003")],
    # The node's own frames are between those of others, A before B. A conflict that it saw has no record.
    "several-buffers": [
        record(0, 0x01, 0, "30010515c0 00000002"), record(0, 0x81, 0, "30010515c0 00000002"),
        record(20, 0x01, 0, "200204e280 20a00001"), record(20, 0x81, 0, "200204e280 20b00001"),
        record(40, 0x01, 0, "2003049fc0 c0ffee00"), record(40, 0x81, 0, "2003049fc0 30b00001"),
        record(60, 0x01, 0, "200405ed00 40a00001"),
        record(80, 0x01, 0, "200502b380 5001"),
        record(90, 0x81, 0, "2007056ac0 70017002"),
        record(130, 0x01, 0, "10010515c1 00000000"),
        record(150, 0x01, 0, "000204e281 00000000"), record(150, 0x81, 0, "200204e281 20b00002"),
        record(170, 0x01, 0, "2003049fc1 c0ffee00"),
        record(215, 0x01, 0, "6006051781 60016002"),
    ],
}
"""The records of captures that have the controller's own frames."""

RANGES = {
    0: [("A", 61, 1, 1), ("A", 62, 2, 54), ("A", 64, 4, 122), ("A", 65, 5, 145), ("A", 66, 6, 168), ("A", 67, 7, 175),
        ("B", 61, 1, 1), ("B", 62, 2, 36), ("B", 63, 3, 89), ("B", 64, 4, 96)],
    1: [("A", 61, 1, 1), ("A", 63, 3, 55), ("A", 64, 4, 122), ("A", 65, 5, 145), ("A", 66, 6, 168), ("A", 67, 7, 175),
        ("B", 61, 1, 1), ("B", 63, 3, 37)],
}
"""Channel, slot, and first and last minislot, by hand: a slot in which nothing is sent takes one minislot, and a frame
of W words takes half of W + 4, rounded up, and one more."""

HELP = [b"fr_view schedule FILE", b"fr_view latency FILE", b"fr_view links FILE", b"fr_view capture", b"fr_view frames",
        b"fr_view --help"]


def local(name):
    return name.rpartition("}")[2]


class Views:
    """Runs of the second program."""

    def __init__(self, runs, folder):
        self.runs, self.folder = runs, folder

    def worked(self):
        for entries, sightings in WORKED.items():
            given = f"{RECEIVED}{entries}end\n".encode()
            capture = FILE_HEADER + b"".join(told for told, _ in sightings)
            table = COLUMNS + "".join(f"{line}\n" for _, line in sightings)
            self.runs.check_once(f"capture of {entries!r}, {WRITTEN}", ["capture"], (capture, b"", 0), given)
            self.runs.check_once(f"frames of {entries!r}, {WRITTEN}", ["frames"], (table.encode(), b"", 0), given)

    def takers(self):
        wanted = (COLUMNS + TAKERS).encode(), b"", 0
        self.runs.check("frames that buffers take", ["frames"], wanted, given=TAKEN.encode())

    def examples(self):
        for trace in sorted(EXAMPLES.glob("*/trace")):
            given = trace.read_bytes()
            for command in ("capture", "frames"):
                self.runs.check(f"{command} of {trace.parent.name}, cut", [command], refused("Truncated"),
                                given=given[:-1])
            for name, words in (("frames", ["frames"]), ("frames-all", ["frames", "--all"])):
                made = trace.with_name(name)
                if made.exists():
                    self.runs.check(f"{name} of {trace.parent.name}", words, (made.read_bytes(), b"", 0), given=given)
        for name, records in OWN.items():
            wanted = FILE_HEADER + b"".join(records), b"", 0
            given = (EXAMPLES / name / "trace").read_bytes()
            self.runs.check(f"capture --own of {name}", ["capture", "--own"], wanted, given=given)
        for picture in sorted(EXAMPLES.glob("*/schedule.svg")):
            words = ["schedule", picture.with_name("cluster.toml")]
            self.runs.check(f"schedule of {picture.parent.name}", words, (picture.read_bytes(), b"", 0))
            self.runs.check(f"schedule of {picture.parent.name}, cycle 0", [*words, "--cycle", "0"],
                            (picture.read_bytes(), b"", 0))
        for latencies in sorted(EXAMPLES.glob("*/latency")):
            self.runs.check(f"latency of {latencies.parent.name}", ["latency", latencies.with_name("cluster.toml")],
                            (latencies.read_bytes(), b"", 0))

    def owners(self):
        """Checks that a picture names the owners of the plan's lines `slot` for its cycle, in their order."""
        for cluster in sorted(EXAMPLES.glob("*/cluster.toml")):
            plan = [line.split() for line in cluster.with_name("plan").read_text().splitlines()]
            owned, opened = ([line for line in plan if line[0] == kind] for kind in ("slot", "guard"))
            cycles = 1 + max(int(line[3]) for line in opened)
            for cycle in sorted({0, 1, 7, 63}) if cycles > 1 else [0]:
                wanted = [f"slot {line[1]} on {line[2]}: node {line[3]}" for line in owned
                          if cycle % int(line[5]) == int(line[4])]
                wanted_open = [f"node {line[1]} on {line[2]}: open from {line[4]} to {line[5]}" for line in opened
                               if cycle % cycles == int(line[3])]
                words = ["schedule", cluster, "--cycle", str(cycle)]
                got, got_open = self.titles(words, "owner"), self.titles(words, "open")
                self.runs.compare(f"owners of {cluster.parent.name} in cycle {cycle}", got, wanted)
                self.runs.compare(f"open intervals of {cluster.parent.name} in cycle {cycle}", got_open, wanted_open)

    def ranges(self):
        """Checks the minislots at which the dynamic slots of the ten nodes can open."""
        for cycle, lines in RANGES.items():
            wanted = [f"dynamic slot {slot} on {channel} opens at minislots {first} to {last}"
                      for channel, slot, first, last in lines]
            got = self.titles(["schedule", EXAMPLES / "ten-nodes/cluster.toml", "--cycle", str(cycle)], "range")
            self.runs.compare(f"ranges of the ten nodes in cycle {cycle}", got, wanted)

    def titles(self, words, kind):
        """Returns the titles of a picture's elements of a kind; each element has one."""
        text, errors, status = run([self.runs.program, *words])
        if errors or status:
            return [f"status {status}, {errors}"]
        groups = [group for group in ElementTree.fromstring(text) if local(group.tag) == "g"]
        if any(local(group[0].tag) != "title" for group in groups):
            return ["an element has no title"]
        return [group[0].text for group in groups if group.get("class", "").split(" ")[0] == kind]

    def refusals(self):
        receive = (EXAMPLES / "receive-buffer/trace").read_bytes()
        texts = {b"": "BadMagic", b"x\n": "BadMagic", b"frtrace 1\n": "Truncated", b"frtrace 2\n": "Truncated",
                 b"frtrace 3\n": "Truncated", b"frtrace 4\n": "BadMagic", b"frtrace 1\nnode\n": "BadLine 2",
                 receive + b"\n": "BadLine 14", receive.replace(b"2:A", b"2:B"): "WrongAnswer 9",
                 receive.replace(b"fetch 1", b"fetch 0"): "Refused 10",
                 b"frtrace 1\n" + b"x" * 1201: "LineTooLong 2"}
        for text, error in texts.items():
            for command in ("capture", "frames", "fifo"):
                self.runs.check(f"{command} of {text[:20]}", [command], refused(error), given=text)
        long = self.folder / "long.toml"
        long.write_bytes(b"#" * 1_048_577)
        for name, error in {"missing.toml": "Read", ".": "Read", "": "Read", str(long): "TooLong",
                            "receive-buffer/trace": "Toml"}.items():
            for command in ("schedule", "latency", "links"):
                self.runs.check(f"{command} {name!r}", [command, name], refused(error))

    def words(self):
        lists = [[], ["audit"], ["plan", "a"], ["help"], ["-h"], ["-V"], ["--help", "--help"], ["capture", "--help"],
                 ["capture", "a"], ["frames", "a"], ["fifo", "a"], ["fifo", "--until-fault"], ["Capture"], [""],
                 [b"\xff"], ["schedule"], ["schedule", "a", "b"], ["schedule", "a", "--cycle"],
                 *(["schedule", "a", "--cycle", number] for number in ("64", "00", "04", "+4", "-1", "x", "", "4 ")),
                 ["schedule", "a", "--cycle", "1", "--cycle", "1"], ["schedule", "a", "--free"],
                 ["schedule", "--cycle", "1"], ["latency"], ["latency", "a", "b"], ["latency", "a", "--slot"],
                 *(["latency", "a", "--slot", number] for number in ("2048", "0", "01", "+4", "-1", "x", "", "4 ")),
                 ["latency", "a", "--slot", "4", "--channel", "AB"], ["latency", "a", "--channel", "A"],
                 ["latency", "--slot", "1"], ["links"], ["links", "a", "b"], ["links", "a", "--slot", "1"]]
        for given in lists:
            self.runs.check(f"the words {given}", given, USAGE)
        for given in (["schedule", "a", "--cycle", "63"], ["schedule", "--cycle=0", "a"], ["schedule", "--", "a"],
                      ["latency", "a", "--slot", "2047", "--channel", "B"], ["latency", "--slot=1", "a"],
                      ["links", "a"], ["links", "--", "a"]):
            self.runs.check(f"the words {given}", given, refused("Read"))
        text, errors, status = run([self.runs.program, "--help"])
        told = [any(line.startswith(word) for line in text.splitlines()) for word in HELP]
        self.runs.compare("a call for help", (told, errors, status), ([True] * len(HELP), b"", 0))

    def outputs(self):
        given = (EXAMPLES / "receive-buffer/trace").read_bytes()
        for words in (["capture"], ["frames"], ["schedule", "three-nodes/cluster.toml"],
                      ["latency", "three-nodes/cluster.toml"], ["links", "three-nodes/cluster.toml"], ["--help"]):
            with open("/dev/full", "wb") as full:
                self.runs.check(f"{words} to a full device", words, refused("Write"), given=given, output=full)
            reading, writing = os.pipe()
            os.close(reading)
            self.runs.check(f"{words} to a reader that has left", words, refused("Write"), given=given, output=writing)
            os.close(writing)
            self.runs.check(f"{words} to a closed output", words, refused("Write"), given=given, closed=(1,))
