"""Recordings of a bus, made byte by byte, and their findings, which were worked out by hand."""
import os
import select
import subprocess

from .captured import frame_crc, header_crc
from .runner import SECONDS, USAGE, run

CLUSTER = """
[params]
static_slots = 3
minislots = 10
static_words = 1
static_mt = 20
minislot_mt = 5
symbol_mt = 0
nit_mt = 10
cycle_mt = 120
idle = 1
words_per_minislot = 5

[[node]]
latest_a = 4
own = [{slot = 1, channels = "AB", sync = true, startup = true}]
buffer = [{kind = "state", slot = 1, channels = "AB"}, {kind = "state", slot = 5, channels = "A", words = 3}]

[[node]]
own = [{slot = 2, channels = "AB"}]
"""
"""With macroticks of a microsecond a cycle takes 120 us, and slot 5 opens in minislot 2, 65 us after its cycle."""
STARTS = {1: 0, 2: 20_000, 3: 40_000, 4: 60_000, 5: 65_000}
CYCLE = 120_000
TIMED = ("--whole", "--macrotick", "1000")


def spelled(slot, cycle, payload, letters="----", words=None):
    """Returns the bytes of a frame without its trailer."""
    preamble, null, sync, startup = (letter != "-" for letter in letters)
    words = len(payload) // 2 if words is None else words
    covered = sync << 19 | startup << 18 | slot << 7 | words
    header = preamble << 38 | (not null) << 37 | covered << 17 | header_crc(covered) << 6 | cycle
    return header.to_bytes(5, "big") + payload


class Record:
    """A record of a capture."""

    def __init__(self, time, data, link=210, more=0):
        self.time, self.data, self.link, self.more = time, data, link, more


def frame(number, channel, slot, payload, letters="----", flags=0, time=None, count=None, words=None):
    """Returns the record of a frame in the cycle of a number, with another time or count if they are given."""
    data = spelled(slot, number % 64 if count is None else count, payload, letters, words)
    moment = number * CYCLE + STARTS.get(slot, 0) if time is None else time
    return Record(moment, bytes([0x81 if channel == "B" else 1, flags]) + data)


def cycle(number):
    """Returns the records of a cycle without faults."""
    first, null = b"\x0a\x0b", b"\0\0"
    return [frame(number, "A", 1, first, "--su"), frame(number, "B", 1, first, "--su"),
            frame(number, "A", 2, null, "-n--"), frame(number, "B", 2, null, "-n--"),
            frame(number, "A", 5, b"\1\2\3\4\5\6")]


def cycles(count=5):
    return [record for number in range(count) for record in cycle(number)]


def classic(records, order="little", scale=1, link=210):
    """Returns a classic capture, with times in units of so many nanoseconds."""
    def number(value, size=4):
        return value.to_bytes(size, order)
    magic = 0xA1B2C3D4 if scale == 1000 else 0xA1B23C4D
    text = number(magic) + number(2, 2) + number(4, 2) + number(0, 8) + number(65_535) + number(link)
    for record in records:
        second, rest = divmod(record.time, 1_000_000_000)
        length = len(record.data)
        text += number(second) + number(rest // scale) + number(length) + number(length + record.more) + record.data
    return text


class Blocks:
    """The blocks of a capture with sections."""

    def __init__(self, order="little"):
        self.order = order
        self.text = b""
        self.section()

    def number(self, value, size=4):
        return value.to_bytes(size, self.order, signed=value < 0)

    def padded(self, data):
        return data + bytes(-len(data) % 4)

    def block(self, kind, body):
        length = self.number(12 + len(body))
        self.text += self.number(kind) + length + body + length
        return self

    def section(self):
        return self.block(0x0A0D0D0A, self.number(0x1A2B3C4D) + self.number(1, 2) + self.number(0, 2) + b"\xff" * 8)

    def source(self, link=210, snap=0, options=((9, b"\x09"),)):
        body = self.number(link, 2) + self.number(0, 2) + self.number(snap)
        for code, value in options:
            body += self.number(code, 2) + self.number(len(value), 2) + self.padded(value)
        return self.block(1, body + (bytes(4) if options else b""))

    def packet(self, record, units=None, source=0):
        units = record.time if units is None else units
        length = len(record.data)
        return self.block(6, self.number(source) + self.number(units >> 32) + self.number(units & 0xFFFFFFFF)
                          + self.number(length) + self.number(length + record.more) + self.padded(record.data))

    def old_packet(self, record):
        length = len(record.data)
        return self.block(2, self.number(0, 2) + self.number(0, 2) + self.number(record.time >> 32)
                          + self.number(record.time & 0xFFFFFFFF) + self.number(length) + self.number(length)
                          + self.padded(record.data))

    def simple_packet(self, record):
        return self.block(3, self.number(len(record.data)) + self.padded(record.data))


def changed(place, *records):
    """Returns five cycles, with records in place of the one with this number."""
    whole = cycles()
    whole[place - 1:place] = records
    return whole


def second(nanoseconds):
    sign = "-" if nanoseconds < 0 else ""
    whole, rest = divmod(abs(nanoseconds), 1_000_000_000)
    return f"{sign}{whole}.{rest:09}"


def told(word, record, time, *words):
    return " ".join(map(str, (word, record, second(time), *words)))


def found(record, time, channel, slot, *words):
    return told("finding", record, time, time // CYCLE, channel, slot, *words)


def gone(record, slot, node, ill, back):
    """Returns the lines of a slot of channel A without a frame in cycle 2, by the records that show it and its end."""
    shown = START + STARTS[{1: 2, 2: 5}[slot]]
    return [found(record, shown, "A", slot, "Missing", node, ill),
            told("back", back, 3 * CYCLE + STARTS[slot], 3, "A", slot, node, 1)]


FIRST, NULL, DYNAMIC = b"\x0a\x0b", bytes(2), bytes(6)
START = 2 * CYCLE


def first(**how):
    """Returns record 11, the frame of slot 1 on channel A in cycle 2."""
    return frame(2, "A", 1, how.pop("payload", FIRST), how.pop("letters", "--su"), **how)


def later(payload=NULL, letters="-n--", slot=2, **how):
    """Returns record 13, the frame of slot 2 there, or another one after it."""
    return frame(2, "A", slot, payload, letters, **how)


def longer(record, more):
    return Record(record.time, record.data + more, record.link, record.more)


def with_crc(record, number, size):
    """Returns a frame's record with another header CRC, or with this trailer."""
    if size == 3:
        return longer(record, number.to_bytes(3, "big"))
    data = bytearray(record.data)
    header = int.from_bytes(data[2:7], "big")
    data[2:7] = (header & ~(0x7FF << 6) | number << 6).to_bytes(5, "big")
    return Record(record.time, bytes(data))


COVERED = 1 << 19 | 1 << 18 | 1 << 7 | 1
HEADER_CRC = header_crc(COVERED)
FRAME_CRC = frame_crc(first().data[2:], "A")


def disturbed():
    """Returns frames of slot 1 that don't count, each with its finding."""
    cut = first()
    cut.more = 2
    return [
        (cut, ("Cut", 11, 9)),
        *((first(flags=flag), (name, "-", "-")) for flag, name in (
            (2, "LoggedCoding"), (1, "LoggedStart"), (8, "LoggedHeader"), (4, "LoggedEnd"), (16, "LoggedFrame"),
            (31, "LoggedCoding"), (29, "LoggedStart"), (28, "LoggedHeader"), (20, "LoggedEnd"))),
        (longer(first(), b"x"), ("Length", 9, 10)),
        (longer(first(), b"four"), ("Length", 9, 13)),
        (Record(START, first().data[:-1]), ("Length", 9, 8)),
        (with_crc(first(), HEADER_CRC ^ 1, 2), ("HeaderCrc", f"x{HEADER_CRC:03x}", f"x{HEADER_CRC ^ 1:03x}")),
        (with_crc(first(), FRAME_CRC ^ 1, 3), ("FrameCrc", f"x{FRAME_CRC:06x}", f"x{FRAME_CRC ^ 1:06x}")),
    ]


def worked():
    """Returns recordings of five cycles, each with the lines that it shows by the format."""
    rows = [(f"a frame with {words[0]}", changed(11, record),
             [found(11, START, "A", 1, *words), *gone(13, 1, 0, 1, 16)]) for record, words in disturbed()]
    silent = [record for record in cycles() if record.data[0] == 1 or record.time < START]
    shifted = cycles()
    for record in shifted[10:]:
        record.time += CYCLE // 2
    return rows + [
        ("a frame of ID 0", changed(11, frame(2, "A", 0, FIRST, "--su", time=START)),
         [found(11, START, "A", 0, "Slot", "-", 0), *gone(13, 1, 0, 1, 16)]),
        ("a wrong count", changed(13, later(count=50)),
         [told("finding", 13, 260_000, 50, "A", 2, "Cycle", 2, 50), *gone(15, 2, 1, 1, 18)]),
        ("a frame twice", changed(13, later(), later()), [found(14, 260_000, "A", 2, "Order", 2, 2)]),
        ("a frame of nobody", changed(13, later(), later(slot=3)), [found(14, 280_000, "A", 3, "Nobody", "-", "-")]),
        ("two words", changed(13, later(bytes(4))), [found(13, 260_000, "A", 2, "Words", 1, 2)]),
        ("a sync frame", changed(13, later(letters="-ns-")),
         [found(13, 260_000, "A", 2, "Bits", "-n--", "-ns-")]),
        ("a null frame with bytes", changed(13, later(FIRST)), [found(13, 260_000, "A", 2, "NullFrame", "-", "-")]),
        ("data without a buffer", changed(13, later(letters="----")),
         [found(13, 260_000, "A", 2, "NoBuffer", 1, "-")]),
        ("a payload preamble", changed(11, first(letters="p-su")),
         [found(11, START, "A", 1, "Preamble", "--su", "p-su")]),
        ("another payload on channel A", changed(11, first(payload=NULL)),
         [found(12, START, "B", 1, "Channels", "-", "-")]),
        ("a dynamic null frame", changed(15, later(DYNAMIC, slot=5)),
         [found(15, 305_000, "A", 5, "NullFrame", "-", "-")]),
        ("a dynamic startup frame", changed(15, later(DYNAMIC, "--su", slot=5)),
         [found(15, 305_000, "A", 5, "Bits", "----", "--su")]),
        ("dynamic words", changed(15, later(FIRST, "----", slot=5)), [found(15, 305_000, "A", 5, "Words", 3, 1)]),
        ("a dynamic preamble", changed(15, later(DYNAMIC, "p---", slot=5)),
         [found(15, 305_000, "A", 5, "Preamble", "----", "p---")]),
        # Three words fill two minislots, and one more is idle: slot 5 opens in minislot 4, the latest one.
        ("a short frame before", changed(15, later(DYNAMIC, "----", slot=4), later(DYNAMIC, "----", slot=5)),
         [found(15, 300_000, "A", 4, "Nobody", "-", "-")]),
        ("a longer frame before", changed(15, later(bytes(20), "----", slot=4), later(DYNAMIC, "----", slot=5)),
         [found(15, 300_000, "A", 4, "Nobody", "-", "-"), found(16, 305_000, "A", 5, "Late", 4, 5)]),
        ("a frame that fills the segment", changed(15, later(bytes(254), "----", slot=4), cycle(2)[4]),
         [found(15, 300_000, "A", 4, "Nobody", "-", "-"), found(16, 305_000, "A", 5, "Closed", 10, 29)]),
        ("a frame less", changed(13), gone(14, 2, 1, 0, 17)),
        ("two cycles less", cycles()[:10] + cycle(4),
         [found(11, 4 * CYCLE, "A", 1, "Gap", "-", 2), found(12, 4 * CYCLE, "B", 1, "Gap", "-", 2)]),
        ("half a cycle more", shifted,
         [told("finding", 11, 300_000, 2, "A", 1, "Clock", 120_000, 180_000),
          told("finding", 12, 300_000, 2, "B", 1, "Clock", 120_000, 180_000)]),
        ("a late frame", changed(13, later(time=270_001)), [found(13, 270_001, "A", 2, "Time", 20_000, 30_001)]),
        ("a frame half a slot late", changed(13, later(time=270_000)), []),
        ("a channel that stops", silent, [told("finding", 17, 4 * CYCLE, "-", "B", "-", "Silent", 4, 1)]),
        ("a channel alone", [record for record in cycles(3) if record.data[0] == 1],
         [told("finding", 7, START, "-", "B", "-", "Silent", 2, "-"), "finding - - - B - Nothing - -"]),
        ("a symbol", changed(11, first(), Record(START, b"\x02\x20")),
         [told("finding", 12, START, "-", "A", "-", "Symbol", "-", "-")]),
        ("no fault", cycles(), []),
    ]


CLEAN = """records 10 foreign 0 symbols 0 skipped {}
channel A frames 6 cycles 2 gaps 0 lost 0 shortest 120000 longest 120000
channel B frames 4 cycles 2 gaps 0 lost 0 shortest 120000 longest 120000
slot 1 A 0 data 2 null 0 missing 0 other 0 shortest 120000 longest 120000
slot 1 B 0 data 2 null 0 missing 0 other 0 shortest 120000 longest 120000
slot 2 A 1 data 0 null 2 missing 0 other 0 shortest 120000 longest 120000
slot 2 B 1 data 0 null 2 missing 0 other 0 shortest 120000 longest 120000
slot 5 A 0 data 2 null 0 missing 0 other 0 shortest 120000 longest 120000
"""
NONE = """records 0 foreign 0 symbols 0 skipped {}
channel A frames 0 cycles 0 gaps 0 lost 0 shortest - longest -
channel B frames 0 cycles 0 gaps 0 lost 0 shortest - longest -
slot 1 A 0 data 0 null 0 missing 0 other 0 shortest - longest -
slot 1 B 0 data 0 null 0 missing 0 other 0 shortest - longest -
slot 2 A 1 data 0 null 0 missing 0 other 0 shortest - longest -
slot 2 B 1 data 0 null 0 missing 0 other 0 shortest - longest -
slot 5 A 0 data 0 null 0 missing 0 other 0 shortest - longest -
"""


def in_blocks(order, how):
    """Returns two cycles in blocks."""
    blocks = Blocks(order)
    if how == "two sections":
        blocks.source(options=((9, b"\x06"),)).section()
    options = {"seconds off": ((14, blocks.number(-3, 8)), (9, b"\x09")), "binary": ((9, b"\x9e"),),
               "no options": (), "first of two": ((9, b"\x09"), (9, b"\x06"), (2, b"name"))}
    blocks.source(options=options.get(how, ((9, b"\x09"),)))
    if how == "a block between":
        blocks.block(5, bytes(8))
    for record in cycles(2):
        if how == "obsolete":
            blocks.old_packet(record)
        elif how == "no options":
            blocks.packet(record, units=record.time // 1000)
        elif how == "seconds off":
            blocks.packet(record, units=record.time + 3_000_000_000)
        else:
            blocks.packet(record)
    return blocks.text


class Recordings:
    """Runs of `fr_monitor`."""

    def __init__(self, runs, folder):
        self.runs, self.folder, self.cluster = runs, folder, folder / "cluster.toml"
        self.cluster.write_text(CLUSTER)

    def all(self):
        self.captures()
        self.findings()
        self.options()
        self.refusals()
        self.words()
        self.outputs()
        self.waits()

    def check(self, name, text, wanted, *options):
        self.runs.check(name, [self.cluster, *options], wanted, given=text)

    def captures(self):
        """The same two cycles in each form of a capture."""
        for order in ("little", "big"):
            for scale in (1, 1000):
                self.check(f"a classic capture, {order} with parts of {scale} ns", classic(cycles(2), order, scale),
                           (CLEAN.format(0).encode(), b"", 0), *TIMED)
            for how, skipped in (("enhanced", 2), ("obsolete", 2), ("no options", 2), ("seconds off", 2),
                                 ("first of two", 2), ("a block between", 3), ("two sections", 4)):
                self.check(f"blocks, {order}, {how}", in_blocks(order, how),
                           (CLEAN.format(skipped).encode(), b"", 0), *TIMED)
        self.check("a link type with other bits", classic(cycles(2), link=210 | 0x40000 << 4),
                   (CLEAN.format(0).encode(), b"", 0), *TIMED)
        simple = Blocks().source(snap=64)
        for record in cycles(2):
            simple.simple_packet(record)
        untimed = CLEAN.format(2).replace("shortest 120000 longest 120000", "shortest - longest -").encode()
        self.check("packets without a time", simple.text, (untimed, b"", 0), *TIMED)
        foreign = Blocks().source().source(link=1)
        for record in cycles(2):
            foreign.packet(record).packet(record, source=1)
        foreign.packet(Record(0, b"")).packet(Record(0, b"\x03"))
        wanted = CLEAN.format(3).replace("records 10 foreign 0", "records 22 foreign 12").encode()
        self.check("records of other kinds", foreign.text, (wanted, b"", 0), *TIMED)
        early = Blocks().source(options=((14, (-1).to_bytes(8, "little", signed=True)), (9, b"\x8a")))
        early.packet(first(), units=1).packet(Record(0, b"\x02\x20"), units=1)
        self.lines("a binary clock that starts before zero", early.text,
                   [told("finding", 2, -999_023_438, "-", "A", "-", "Symbol", "-", "-")])

    def lines(self, name, text, wanted, *options):
        """Compares the lines before the summary, and the status."""
        output, error, status = run([self.runs.program, self.cluster, *options], text)
        lines = output.decode().splitlines()
        got = [line for line in lines if line.startswith(("finding", "back"))]
        names = [line.split(" ")[6] if line.startswith("finding") else "" for line in wanted]
        counts = [line for line in lines if line.startswith("found")]
        due = {f"found {word} {names.count(word)}" for word in names if word}
        self.runs.compare(name, (got, set(counts), error, status), (wanted, due, b"", 3 if due else 0))

    def findings(self):
        for name, records, wanted in worked():
            self.lines(name, classic(records), wanted, *TIMED)

    def options(self):
        twice = cycles()
        twice[12:13] = [later(), later(), later()]
        order = [found(record, 260_000, "A", 2, "Order", 2, 2) for record in (14, 15)]
        text = classic(twice)
        self.lines("two findings", text, order)
        for bound in (0, 1, 2):
            output, error, status = run([self.runs.program, self.cluster, "--findings", str(bound)], text)
            lines = output.decode().splitlines()
            self.runs.compare(f"--findings {bound}", ([line for line in lines if line.startswith("finding")],
                              lines[-1], error, status), (order[:bound], "found Order 2", b"", 3))
        self.lines("channel B of these", text, [], "--channel", "B")
        late = classic(changed(13, later(time=270_001)))
        self.lines("a late frame without a clock", late, [], "--whole")
        part = classic(cycles()[2:-3])
        self.lines("a part of a recording", part, [])
        self.lines("a part that is said to be whole", part, [
            found(1, 20_000, "A", 1, "Missing", 0, 0), found(2, 20_000, "B", 1, "Missing", 0, 0),
            told("back", 4, CYCLE, 1, "A", 1, 0, 1), told("back", 5, CYCLE, 1, "B", 1, 0, 1),
            "finding - - 4 A 2 Missing 1 0", "finding - - 4 B 2 Missing 1 0"], "--whole")

    def refusals(self):
        one = classic(cycles(1))
        blocks = Blocks().source()
        head = len(blocks.text)
        blocks.packet(cycle(0)[0])
        wrong = blocks.text[:-4] + bytes(4)
        for name, text, skipped, error in (
                ("nothing", b"", 0, "NoCapture"), ("three bytes", one[:3], 0, "NoCapture"),
                ("a text", b"frtrace 1\n", 0, "NoCapture"),
                ("a section without an order", blocks.text[:8] + bytes(20), 0, "NoCapture"),
                ("a head that ends", one[:20], 0, "Truncated 0"), ("a record that ends", one[:40], 0, "Truncated 24"),
                ("a block that ends", blocks.text[:-1], 2, f"Truncated {head}"),
                ("another length at the end", wrong, 2, f"BadBlock {head}"),
                ("a record of 262,145 bytes", one[:32] + (262_145).to_bytes(4, "little") + one[36:], 0, "BadBlock 24"),
                ("a source that isn't there", Blocks().source().packet(cycle(0)[0], source=1).text, 2,
                 f"BadBlock {head}"),
                ("a length that is odd", Blocks().text + b"\5\0\0\0\15\0\0\0", 1, "BadBlock 28")):
            self.check(name, text, (NONE.format(skipped).encode(), f"refused {error}\n".encode(), 1))
        two = classic(cycles(2))
        self.check("two cycles, and a record that ends", two + bytes(15),
                   (CLEAN.format(0).encode(), f"refused Truncated {len(two)}\n".encode(), 1), *TIMED)
        (self.folder / "no-clock.toml").write_text(
            CLUSTER.replace('slot = 2, channels = "AB"', 'slot = 2, channels = "B"').replace(
                "startup = true}", "startup = true, base = 1, repetition = 2}").replace(
                    '{kind = "state", slot = 1, channels = "AB"}, ', ""))
        (self.folder / "bad.toml").write_text(CLUSTER.replace("cycle_mt = 120", "cycle_mt = 121"))
        for name, error in (("no-clock.toml", "NoClock A 0"), ("bad.toml", "Params CycleSum"), ("missing", "Read")):
            self.runs.check(f"the cluster {name}", [self.folder / name], (b"", f"refused {error}\n".encode(), 1),
                            given=one)

    def words(self):
        for words in ([], ["a", "b"], ["--whole"], ["a", "--findings"], ["a", "--findings", "x"],
                      ["a", "--findings", "01"], ["a", "--findings", "4294967296"], ["a", "--channel", "AB"],
                      ["a", "--macrotick", "0"], ["a", "--macrotick=4294967296"], ["a", "--whole=1"],
                      ["a", "--whole", "--whole"], ["a", "--channel", "A", "--channel", "A"], ["a", "-w"],
                      ["a", b"\xff"], ["--help"], ["help", "a"]):
            self.runs.check(f"the words {words}", words, USAGE)
        for words in (["--whole"], ["--findings=4294967295", "--macrotick=4294967295"], ["--channel", "A", "--"]):
            lines = NONE.format(0).splitlines(True)
            left = [line for line in lines if "A" not in words or " B " not in line]
            self.runs.check(f"the words {words}", [*words, self.cluster],
                            ("".join(left).encode(), b"refused NoCapture\n", 1))

    def outputs(self):
        text = classic(cycles())
        with open("/dev/full", "wb") as full:
            self.runs.check("a full device", [self.cluster], (b"", b"refused Write\n", 1), given=text, output=full)
        reading, writing = os.pipe()
        os.close(reading)
        self.runs.check("a reader that has left", [self.cluster], (b"", b"refused Write\n", 1), given=text,
                        output=writing)
        os.close(writing)

    def waits(self):
        """A finding comes while the input is open, and pieces of one byte change nothing."""
        text = classic(changed(13))
        words = [self.runs.program, self.cluster, *TIMED]
        whole = run(words, text)[0]
        with subprocess.Popen(words, stdin=subprocess.PIPE, stdout=subprocess.PIPE, bufsize=0) as program:
            front = len(classic(changed(13)[:14]))
            for place in range(front):
                program.stdin.write(text[place:place + 1])
            ready, _, _ = select.select([program.stdout], [], [], SECONDS)
            line = program.stdout.read(200) if ready else b""
            for place in range(front, len(text)):
                program.stdin.write(text[place:place + 1])
            program.stdin.close()
            rest = program.stdout.read()
            self.runs.compare("a finding before the end", (line, line + rest, program.wait(SECONDS)),
                              (f"{gone(14, 2, 1, 0, 17)[0]}\n".encode(), whole, 3))
