"""Runs of `fr_monitor`: recordings of the three nodes, with and without a disturbance, broken files, and its words.

The frames are the null frames that the cluster sends without host calls. Expected values were worked out by hand from
examples/recordings/README.md.
"""
import struct

from .runner import EXAMPLES, USAGE, refused

CLUSTER = EXAMPLES / "three-nodes" / "cluster.toml"
FILE_HEADER = struct.pack("<IHHiIII", 0xA1B2C3D4, 2, 4, 0, 0, 262144, 210)
CYCLE = 90
"""The length of a cycle, in microseconds."""

BODIES = {(1, "A"): ("010010010236", 0x00), (1, "B"): ("810010010236", 0x00),
          (2, "A"): ("0100000203c1", 0x40), (2, "B"): ("8100000203c1", 0x40)}
"""For the two static slots with an owner: the measurement header, four bytes of the header, and the bits of the header
CRC that stand before the cycle count. The header CRCs are x0d8 and x705."""

SOMETIMES = """[params]
static_slots = 2
minislots = 0
static_words = 1
static_mt = 20
minislot_mt = 5
symbol_mt = 0
nit_mt = 10
cycle_mt = 50
idle = 0
words_per_minislot = 5
[[node]]
tasks = 1
own = [{slot = 1, channels = "A", base = 0, repetition = 2}]
"""
"""A cluster whose only sender is silent in odd cycles."""


def sealed(time, data, there=None):
    """Returns a record of a classic file, of which so many bytes were there."""
    head = struct.pack("<IIII", time // 1_000_000, time % 1_000_000, len(data), there or len(data))
    return head + data


def frames(cycles):
    """Returns the records of so many cycles, in the order of the bus."""
    return [sealed(cycle * CYCLE + (slot - 1) * 20, bytes.fromhex(front) + bytes([bits | cycle, 0, 0]))
            for cycle in range(cycles) for (slot, _), (front, bits) in BODIES.items()]


def recording(records):
    return FILE_HEADER + b"".join(records)


def summary(records, on_a, missing=0, lost_a=0, span="90000"):
    """Returns the summary of two cycles in which channel B had all its frames."""
    span_a = "-" if missing else span
    return (f"records {records} foreign 0 symbols 0 skipped 0\n"
            f"channel A frames {on_a} cycles 2 gaps 0 lost 0 shortest 90000 longest 90000\n"
            "channel B frames 4 cycles 2 gaps 0 lost 0 shortest 90000 longest 90000\n"
            "slot 1 A 0 data 0 null 2 missing 0 other 0 shortest 90000 longest 90000\n"
            "slot 1 B 0 data 0 null 2 missing 0 other 0 shortest 90000 longest 90000\n"
            f"slot 2 A 1 data 0 null {2 - missing} missing {missing} other {lost_a} shortest {span_a} "
            f"longest {span_a}\n"
            "slot 2 B 1 data 0 null 2 missing 0 other 0 shortest 90000 longest 90000\n"
            "slot 4 A 2 data 0 null 0 missing 0 other 0 shortest - longest -\n")


NO_CYCLE = "".join([
    "channel A frames 0 cycles 0 gaps 0 lost 0 shortest - longest -\n",
    "channel B frames 0 cycles 0 gaps 0 lost 0 shortest - longest -\n",
    *(f"slot {slot} {channel} {node} data 0 null 0 missing 0 other 0 shortest - longest -\n"
      for slot, channel, node in ((1, "A", 0), (1, "B", 0), (2, "A", 1), (2, "B", 1), (4, "A", 2))),
])


ONE_FRAME = "".join([
    "records 2 foreign 0 symbols 0 skipped 0\n",
    *(f"channel {channel} frames 1 cycles 1 gaps 0 lost 0 shortest - longest -\n" for channel in "AB"),
    *(f"slot {slot} {channel} {node} data 0 null {null} missing 0 other 0 shortest - longest -\n"
      for slot, channel, node, null in (
          (1, "A", 0, 1), (1, "B", 0, 1), (2, "A", 1, 0), (2, "B", 1, 0), (4, "A", 2, 0),
      )),
])
"""The summary of the frames of slot 1 in a cycle."""

CUT_OFF = (
    "records 7 foreign 0 symbols 0 skipped 0\n"
    "channel A frames 4 cycles 2 gaps 0 lost 0 shortest 90000 longest 90000\n"
    "channel B frames 3 cycles 2 gaps 0 lost 0 shortest 90000 longest 90000\n"
    "slot 1 A 0 data 0 null 2 missing 0 other 0 shortest 90000 longest 90000\n"
    "slot 1 B 0 data 0 null 2 missing 0 other 0 shortest 90000 longest 90000\n"
    "slot 2 A 1 data 0 null 2 missing 0 other 0 shortest 90000 longest 90000\n"
    "slot 2 B 1 data 0 null 1 missing 0 other 0 shortest - longest -\n"
    "slot 4 A 2 data 0 null 0 missing 0 other 0 shortest - longest -\n")
"""The summary of two cycles without their last frame."""


class Monitors:
    """Runs of the program that audits recordings."""

    def __init__(self, runs, folder):
        self.runs, self.folder = runs, folder

    def check(self, name, given, output, status, told=b"", words=("--whole",)):
        self.runs.check(name, [CLUSTER, *words], (output.encode(), told, status), given=given)

    def all(self):
        self.clean()
        self.disturbed()
        self.framed()
        self.broken()
        self.words()

    def clean(self):
        whole = recording(frames(2))
        self.check("a recording of two cycles", whole, summary(8, 4), 0)
        self.check("the same with times", whole, summary(8, 4), 0, words=("--whole", "--macrotick", "1000"))
        swapped = FILE_HEADER[:4][::-1] + struct.pack(">HHiIII", 2, 4, 0, 0, 262144, 210)
        for record in frames(2):
            swapped += struct.pack(">IIII", *struct.unpack("<IIII", record[:16])) + record[16:]
        self.check("the same in the other order of bytes", swapped, summary(8, 4), 0)

    def disturbed(self):
        records = frames(2)
        self.check("a recording without slot 2 on A in cycle 0", recording(records[:2] + records[3:]),
                   "finding 4 0.000090000 0 A 2 Missing 1 0\nback 6 0.000110000 1 A 2 1 1\n"
                   + summary(7, 3, missing=1) + "found Missing 1\n", 3)
        flipped = bytearray(records[2])
        flipped[16 + 5] ^= 1
        self.check("a flipped bit in the header CRC", recording([*records[:2], bytes(flipped), *records[3:]]),
                   "finding 3 0.000020000 0 A 2 HeaderCrc x705 x701\n"
                   "finding 5 0.000090000 0 A 2 Missing 1 1\nback 7 0.000110000 1 A 2 1 1\n"
                   + summary(8, 4, missing=1, lost_a=1) + "found HeaderCrc 1\nfound Missing 1\n", 3)
        cut = sealed(20, records[2][16:-1], there=9)
        self.check("a record of which a byte wasn't captured, without lines",
                   recording([*records[:2], cut, *records[3:]]),
                   summary(8, 4, missing=1, lost_a=1) + "found Cut 1\nfound Missing 1\n", 3,
                   words=("--whole", "--findings", "0"))

    def framed(self):
        """The frames of two cycles, each of which waits for the next one of its channel if it opens a cycle."""
        lines = ["frame 1 0.000000000 0 A 1 - 0 20 0 -ns- x0000 -", "frame 2 0.000000000 0 B 1 - 0 20 0 -ns- x0000 -",
                 "opens 1 0 -", "frame 3 0.000020000 0 A 2 0 20 20 1 -n-- x0000 -",
                 "opens 2 0 0", "frame 4 0.000020000 0 B 2 0 20 20 1 -n-- x0000 0",
                 "frame 5 0.000090000 1 A 1 - 0 20 0 -ns- x0000 1", "frame 6 0.000090000 1 B 1 - 0 20 0 -ns- x0000 1",
                 "opens 5 1 1", "frame 7 0.000110000 1 A 2 1 20 20 1 -n-- x0000 1",
                 "opens 6 1 1", "frame 8 0.000110000 1 B 2 1 20 20 1 -n-- x0000 1"]
        text, whole = "".join(f"{it}\n" for it in lines), recording(frames(2))
        self.check("the frames of two cycles", whole, text + summary(8, 4), 0, words=("--whole", "--frames"))
        self.check("the frames of one channel", recording(frames(1)),
                   "".join(f"{it}\n" for it in ("frame 2 0.000000000 0 B 1 - 0 20 0 -ns- x0000 -", "opens 2 0 -",
                                                f"{lines[5][:-1]}-")) +
                   "records 4 foreign 0 symbols 0 skipped 0\n"
                   "channel B frames 2 cycles 1 gaps 0 lost 0 shortest - longest -\n"
                   "slot 1 B 0 data 0 null 1 missing 0 other 0 shortest - longest -\n"
                   "slot 2 B 1 data 0 null 1 missing 0 other 0 shortest - longest -\n", 0,
                   words=("--frames", "--channel", "B"))
        self.check("frames that wait at the end", recording(frames(1)[:2]),
                   f"{lines[0]}\n{lines[1]}\nopens 1 0 0\nopens 2 0 0\n" + ONE_FRAME, 0, words=("--frames",))
        self.check("a frame that is cut off", whole[:-1], text.replace(f"{lines[10]}\n{lines[11]}\n", "opens 6 1 1\n")
                   + CUT_OFF, 1, b"refused Truncated 199\n", words=("--frames",))

    def broken(self):
        empty = "records 0 foreign 0 symbols 0 skipped 0\n" + NO_CYCLE
        self.check("an empty input", b"", empty, 1, b"refused NoCapture\n")
        self.check("an input that is no capture", b"junk\n", empty, 1, b"refused NoCapture\n")
        self.check("a file that ends in a record's head", FILE_HEADER + b"\0" * 5, empty, 1, b"refused Truncated 24\n")
        long = FILE_HEADER + struct.pack("<IIII", 0, 0, 262145, 262145)
        self.check("a record that is too long", long, empty, 1, b"refused BadBlock 24\n")

    def words(self):
        for words in ([], [CLUSTER, CLUSTER], [CLUSTER, "--channel", "C"], [CLUSTER, "--findings", "-1"],
                      [CLUSTER, "--macrotick", "0"], [CLUSTER, "--findings", "4294967296"], [CLUSTER, "--help"]):
            self.runs.check(f"words of a monitor {words}", words, USAGE)
        self.runs.check("a missing cluster file", ["none.toml"], refused("Read"))
        cluster = self.folder / "sometimes.toml"
        cluster.write_text(SOMETIMES)
        self.runs.check("a cluster without a sender in odd cycles", [cluster], refused("NoClock A 1"))
