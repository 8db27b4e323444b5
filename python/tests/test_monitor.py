"""The command `monitor`: recordings of the network of `shows`, with values worked out by hand.

The frames are null frames with one two-byte word of zeros: slot 1 of the pedal with the sync indicator, and slot 2 of
the brake. A cycle has 100 macroticks of 2 us, and a static slot 20.
"""
import csv
import io
import json
import os
import struct
import subprocess
import sys
import unittest
from pathlib import Path
from unittest.mock import patch

from musmyrtle.show import recordings
from musmyrtle.show.monitor import explained
from musmyrtle.show.recordings import MEANINGS, SPECIAL, WORDS
from tests.shows import NETWORK, Shows

TOP = Path(__file__).resolve().parents[2]
HEADER = struct.pack("<IHHiIII", 0xA1B2C3D4, 2, 4, 0, 0, 262144, 210)
CYCLE, SLOT = 200, 40
"""The lengths of a cycle and of a static slot, in microseconds."""


def header_crc(bits: str) -> int:
    """Returns the header CRC of the 20 bits that it covers, by long division (chapter 4)."""
    register = 0x01A
    for bit in bits:
        register = (register << 1 ^ (0x385 if int(bit) ^ register >> 10 else 0)) & 0x7FF
    return register


def frame(channel: str, slot: int, cycle: int, payload: bytes = b"\0\0", has_data: bool = False) -> bytes:
    """Returns a record of a frame without a trailer. The frame of slot 1 is a sync frame."""
    covered = f"{int(slot == 1)}0{slot:011b}{len(payload) // 2:07b}"
    bits = f"00{int(has_data)}{covered}{header_crc(covered):011b}{cycle:06b}"
    return bytes([0x01 if channel == "A" else 0x81, 0]) + int(bits, 2).to_bytes(5, "big") + payload


def sealed(time: int, data: bytes) -> bytes:
    """Returns the bytes of a record at a time in microseconds."""
    return struct.pack("<IIII", time // 1_000_000, time % 1_000_000, len(data), len(data)) + data


def frames(cycles: int) -> list[tuple[int, bytes]]:
    """Returns the times and frames of some cycles in the order of the bus."""
    return [(cycle * CYCLE + (slot - 1) * SLOT, frame(channel, slot, cycle))
            for cycle in range(cycles) for slot in (1, 2) for channel in "AB"]


class Monitor(Shows):
    def setUp(self) -> None:
        super().setUp()
        self.cluster = self.written("cluster.toml", NETWORK)

    def recording(self, records: list[tuple[int, bytes]]) -> str:
        """Returns the name of a file with these records."""
        path = self.folder / "bus.pcap"
        path.write_bytes(HEADER + b"".join(sealed(*it) for it in records))
        return str(path)

    def found(self, records: list[tuple[int, bytes]], *words: str) -> list[tuple[object, ...]]:
        """Returns the findings of some records, in whose recording there is one."""
        status, output, told = self.asked("monitor", self.cluster, self.recording(records), "--json", *words)
        self.assertEqual((status, told), (3, ""))
        rows = [json.loads(line) for line in output.splitlines()]
        keys = "record cycle channel slot node_name name why".split()
        return [tuple(row[key] for key in keys) for row in rows if row["kind"] == "finding"]


class Recordings(Monitor):
    def test_nothing_is_found(self) -> None:
        status, output, told = self.asked("monitor", self.cluster, self.recording(frames(3)), "--whole", "--times")
        self.assertEqual((status, told), (0, ""))
        lines = [line.split() for line in output.splitlines()]
        self.assertEqual(lines[0], "There is no finding.".split())
        self.assertIn("1 A pedal (0) 0 3 0 0 200 200".split(), lines)

    def test_a_missing_frame_comes_back(self) -> None:
        """The frame of slot 2 on A is missing in cycles 1 and 2, with one finding."""
        records = frames(4)
        del records[6], records[9]
        self.assertEqual(self.found(records, "--whole"), [
            (8, 1, "A", 2, "brake", "Missing", "no frame of brake (1)"),
            (13, 3, "A", 2, "brake", "back", "brake (1) is back after it was missing 2 times")])

    def test_reasons(self) -> None:
        """A flipped bit, a frame that no node sends, data without a buffer, and a payload that is too long."""
        broken = bytearray(frame("A", 2, 0))
        broken[5] ^= 0x40
        cases: list[tuple[list[tuple[int, bytes]], list[tuple[object, ...]]]] = [
            ([*frames(1)[:2], (SLOT, bytes(broken)), frames(1)[3]],
             [(3, 0, "A", 2, "brake", "HeaderCrc", "the header CRC is x705, due is x704")]),
            ([*frames(1), (100, frame("B", 7, 0, has_data=True))],
             [(5, 0, "B", 7, None, "Nobody", "no node sends in slot 7 on B in this cycle")]),
            ([*frames(1)[:3], (SLOT, frame("B", 2, 0, has_data=True))],
             [(4, 0, "B", 2, "brake", "NoBuffer", "brake (1) has no transmit buffer for data in this slot")]),
            ([*frames(1), (100, frame("A", 4, 0, b"\1\2\3\4", True))],
             [(5, 0, "A", 4, "brake", "Words", "the payload has 2 two-byte words, due are 1")]),
        ]
        for records, expected in cases:
            with self.subTest(expected[0][5]):
                found = self.found(records)
                # The header CRC of the flipped bit is worked out by the division above.
                self.assertEqual([it[:6] for it in found], [it[:6] for it in expected])
                if expected[0][5] != "HeaderCrc":
                    self.assertEqual(found, expected)

    def test_times(self) -> None:
        """The frame of slot 2 comes 60 us after that of slot 1, and a slot is 40 us long: the rest of it is late."""
        records = frames(2)
        records[6] = CYCLE + SLOT + 21, records[6][1]
        late = (7, 1, "A", 2, "brake", "Time", "the frame came 61 us after the cycle's last one, due are 40 us")
        self.assertEqual(self.found(records, "--times"), [late])
        self.assertEqual(self.found(records, "--macrotick", "2000"), [late])
        self.assertEqual(self.asked("monitor", self.cluster, self.recording(records))[0], 0)

    def test_findings_that_are_not_printed(self) -> None:
        records = frames(3) + [(3 * CYCLE, frame("A", slot, 2, has_data=True)) for slot in (7, 9)]
        status, output, _ = self.asked("monitor", self.cluster, self.recording(records), "--findings", "1")
        self.assertEqual((status, output.splitlines()[-1]), (
            3, "1 further finding isn't printed; --findings N prints more"))

    def test_csv(self) -> None:
        words = ("monitor", self.cluster, self.recording(frames(2)), "--csv")
        rows = list(csv.DictReader(io.StringIO(self.asked(*words)[1])))
        found = [(it["slot"], it["channel"], it["nodes"], it["names"]) for it in rows if it["kind"] == "slot"]
        self.assertEqual(found[:2], [("1", "A", "0", "pedal (0)"), ("1", "B", "0", "pedal (0)")])

    def test_standard_input(self) -> None:
        data = Path(self.recording(frames(2))).read_bytes()
        words = [sys.executable, "-B", str(TOP / "musmyrtle"), "monitor", self.cluster, "--whole"]
        ran = subprocess.run(words, input=data, capture_output=True)
        self.assertEqual((ran.returncode, ran.stderr, ran.stdout.split(b"\n")[0]), (0, b"", b"There is no finding."))

    def test_rows_come_while_the_recording_goes_on(self) -> None:
        """A finding is printed before the input ends."""
        words = [sys.executable, "-B", str(TOP / "musmyrtle"), "monitor", self.cluster, "--json"]
        with subprocess.Popen(words, stdin=subprocess.PIPE, stdout=subprocess.PIPE) as running:
            assert running.stdin is not None and running.stdout is not None
            records = [*frames(1), (100, frame("A", 7, 0, has_data=True))]
            running.stdin.write(HEADER + b"".join(sealed(*it) for it in records))
            running.stdin.flush()
            self.assertEqual(json.loads(running.stdout.readline())["name"], "Nobody")
            running.stdin.close()
            running.stdout.read()
        self.assertEqual(running.returncode, 3)


STAND_IN = ("frame 1 0.000000000 0 A 1 - 0 20 1 -ns- x0000 -", "frame 2 0.000010000 0 B 1 - 0 20 0 -ns- x0000 -",
            "frame 3 0.000020000 5 A 2 - 20 20 - -n-- x0000 -", "finding 1 0.000000000 0 A 1 Cycle - 0",
            "finding 3 0.000020000 5 A 2 Order 2 2", "frame 4 0.000030000 5 A 2 7 20 20 1 - - -",
            "finding 4 0.000030000 5 A 2 HeaderCrc x001 x002", "finding 4 0.000030000 5 A 1 Missing 1 0",
            "finding 4 0.000030000 - B - Silent 5 -", "finding - - - A - Nothing - -",
            "records 4 foreign 0 symbols 0 skipped 0")
"""Lines in which the cluster's senders are exchanged. Frames 1 and 3 wait."""


class Senders(Monitor):
    def test_senders_are_those_of_the_program(self) -> None:
        """A finding has the sender of the frame of its record, or the node that it names."""
        program = self.folder / "fr_monitor"
        program.write_text(f"#!{sys.executable} -IS\nimport sys\nprint({chr(10).join(STAND_IN)!r})\nsys.exit(3)\n")
        program.chmod(0o755)
        with patch.dict(os.environ, MUSMYRTLE_MONITOR=str(program)):
            found = self.found(frames(1))
        self.assertEqual([(it[0], it[4], it[5]) for it in found], [
            (1, "brake", "Cycle"), (3, None, "Order"), (4, "brake", "HeaderCrc"), (4, "brake", "Missing"),
            (4, None, "Silent"), (None, None, "Nothing")])


class Waits(unittest.TestCase):
    def test_frames_are_known_for_a_while(self) -> None:
        """A frame is known until so many other good ones came on its channel, however many broken ones come."""
        senders = recordings.LastFrames()
        finding = "finding {} 0.0 1 {} 1 Order - -"

        def known(record: int, channel: str = "A") -> int | None:
            return senders.sender(finding.format(record, channel).split())
        for record in range(1, recordings.KEPT + 1):
            senders.add(f"frame {record} 0.0 {record} A 1 - 0 20 {record % 7} -n-- x0000 -".split())
        for record in range(100, 200):
            senders.add(f"frame {record} 0.0 {record} A 1 - 0 20 5 - - -".split())
        self.assertEqual([known(1), known(8), known(recordings.KEPT), known(199), known(100), known(8, "B")],
                         [1, 1, recordings.KEPT % 7, 5, None, None])
        senders.add("frame 200 0.0 6 A 1 - 0 20 3 -n-- x0000 -".split())
        self.assertEqual([known(1), known(2), known(200)], [None, 2, 3])


class Refusals(Monitor):
    def cut(self, records: list[tuple[int, bytes]]) -> str:
        """Returns the name of a recording without its last byte."""
        path = self.folder / "cut.pcap"
        path.write_bytes((HEADER + b"".join(sealed(*it) for it in records))[:-1])
        return str(path)

    def test_recordings(self) -> None:
        """The tables begin with the refusal, and state nothing about findings."""
        begin = self.folder / "begin.pcap"
        begin.write_bytes(HEADER[:-1])
        cases: list[tuple[str, str, str, list[str]]] = [
            (self.written("broken", "no capture"), "NoCapture", "the recording is no pcap or pcapng file", []),
            (str(begin), "Truncated 0", "the recording ends within the block that begins at byte 0; "
             "what came before it was judged", []),
            (self.cut(frames(1)), "Truncated 99", "the recording ends within the block that begins at byte 99; "
             "what came before it was judged", ["", "Records"])]
        for name, refusal, why, rest in cases:
            status, output, error = self.asked("monitor", self.cluster, name)
            self.assertEqual((status, error), (1, f"musmyrtle: refused {refusal}: {why}\n"))
            lines = [" ".join(it.split()) for it in output.splitlines()]
            self.assertEqual(lines[:5], ["The recording is refused", "refusal reason", f"{refusal} {why}", *rest])
            self.assertNotIn("no finding", output)
            rows = [json.loads(it) for it in self.asked("monitor", self.cluster, name, "--json")[1].splitlines()]
            self.assertEqual(rows[0], {"kind": "refused", "refusal": refusal, "why": why})
            self.assertEqual({it["kind"] for it in rows[1:]}, {"total", "channel", "slot"} if rest else set())
            table = list(csv.DictReader(io.StringIO(self.asked("monitor", self.cluster, name, "--csv")[1])))
            self.assertEqual((table[0]["kind"], table[0]["refusal"], table[0]["why"]), ("refused", refusal, why))

    def test_findings_before_the_end(self) -> None:
        """In JSON the findings come first, since they are printed as they come."""
        broken = bytearray(frame("A", 2, 0))
        broken[5] ^= 0x40
        records = [*frames(1)[:2], (SLOT, bytes(broken)), frames(1)[3]]
        output = self.asked("monitor", self.cluster, self.cut(records), "--json")[1]
        self.assertEqual([json.loads(it)["kind"] for it in output.splitlines()][:3], ["finding", "refused", "count"])
        text = self.asked("monitor", self.cluster, self.cut(records))[1]
        self.assertLess(text.index("The recording is refused"), text.index("HeaderCrc"))

    def test_other_files(self) -> None:
        """The message has the kind of the file, and what to give in its place."""
        ethernet = struct.pack("<IHHiIII", 0xA1B2C3D4, 2, 4, 0, 0, 262144, 1)
        interface = struct.pack("<IIHHIIIII", 1, 20, 227, 0, 0, 20, 0, 0, 0)[:20]
        section = struct.pack("<IIIHHqI", 0x0A0D0D0A, 28, 0x1A2B3C4D, 1, 0, -1, 28)
        for data, status, told in (
                (ethernet + sealed(0, bytes(14)), 3,
                 "no record is of FlexRay: the recording has link type 1 (Ethernet); "
                 "expected link type 210 (FlexRay), with frames or symbols"),
                (section + interface + struct.pack("<IIIIIIIII", 6, 36, 0, 0, 0, 4, 4, 0, 36), 3,
                 "no record is of FlexRay: the recording has link type 227 (CAN); "
                 "expected link type 210 (FlexRay), with frames or symbols"),
                (HEADER + sealed(0, b"\x7f\0"), 3, "no record is of FlexRay: all records are others; "
                 "expected link type 210 (FlexRay), with frames or symbols"),
                (b"LOGG\0\0", 1, "the recording is a BLF file; "
                 "export it as a capture (pcap or pcapng) of link type 210"),
                (b"\x1f\x8b\x08", 1, "the recording is a file that gzip packed; unpack it first"),
                (NETWORK.encode(), 1, "the recording is a cluster file; expected a capture of link type 210")):
            with self.subTest(told=told):
                file = self.folder / "other"
                file.write_bytes(data)
                found = self.asked("monitor", self.cluster, str(file))
                self.assertEqual((found[0], found[2].splitlines()[-1]), (status, f"musmyrtle: {told}"))

    def test_a_cluster_without_a_clock(self) -> None:
        """Both nodes own their slots in even cycles alone."""
        network = NETWORK.replace(
            'channels = "AB", sync = true}', 'channels = "AB", sync = true, repetition = 2}').replace(
            'slot = 2, channels = "AB"}', 'slot = 2, channels = "AB", repetition = 2}').replace(
            'slot = 1, channels = "AB"}', 'slot = 1, channels = "AB", repetition = 2}').replace(
            'slot = 2, channels = "A"}', 'slot = 2, channels = "A", repetition = 2}')
        cluster = self.written("clockless.toml", network)
        status, output, told = self.asked("monitor", cluster, self.recording(frames(1)))
        self.assertEqual((status, output), (1, ""))
        self.assertTrue(told.startswith("musmyrtle: refused NoClock A 1: channel A has a sender, "), told)

    def test_a_refused_cluster_is_explained(self) -> None:
        wrong = self.written("wrong.toml", NETWORK.replace("idle = 0", "idle = 3"))
        status, output, told = self.asked("monitor", wrong, self.recording(frames(1)))
        self.assertEqual((status, output, told.split("\n")[0]), (1, "", "musmyrtle: refused Params OutOfRange idle"))

    def test_words(self) -> None:
        bus = self.recording(frames(1))
        plain = self.written("plain.toml", NETWORK.replace("macrotick_us = 2\n", ""))
        fine = self.written("fine.toml", NETWORK.replace("macrotick_us = 2\n", "macrotick_us = 0.0001\n"))
        for words, told in (
            ((self.cluster, bus, "--findings", "-1"), "musmyrtle monitor: argument --findings: "),
            ((self.cluster, bus, "--findings", "4294967296"), "musmyrtle monitor: argument --findings: '4294967296' "),
            ((self.cluster, bus, "--macrotick", "0"), "musmyrtle monitor: argument --macrotick: '0' is no number "),
            ((self.cluster, bus, "--times", "--macrotick", "1"), "musmyrtle monitor: argument --macrotick: not "),
            ((plain, bus, "--times"), f"musmyrtle: {plain} has no macrotick_us; give --macrotick NS\n"),
            ((fine, bus, "--times"), f"musmyrtle: the macrotick_us of {fine} is no whole number of nanoseconds; "),
            ((self.cluster, "no/such/file"), "musmyrtle: no/such/file can't be read: No such file or directory\n"),
        ):
            with self.subTest(words[1:]):
                status, output, error = self.asked("monitor", *words)
                self.assertEqual((status, output), (2, ""))
                self.assertTrue(error.startswith(told), error)

    def test_programs_that_fail(self) -> None:
        stub = self.folder / "stub"
        stub.write_text("#!/bin/sh\nkill -9 $$\n")
        stub.chmod(0o755)
        with patch.dict(os.environ, {"MUSMYRTLE_MONITOR": str(stub)}):
            status, output, told = self.asked("monitor", self.cluster, self.recording(frames(1)))
        self.assertEqual((status, output), (2, ""))
        self.assertIn("was killed by signal 9 (SIGKILL)", told)

    def test_lines_that_can_not_be_read(self) -> None:
        """A program that ends within a line, and one of another version."""
        stub = self.folder / "stub"
        for script, expected in (
                ("printf 'frame 1 0.1'\nkill -9 $$\n", "was killed by signal 9 (SIGKILL)"),
                ("echo frame 1 0.1\n", "stub prints `frame 1 0.1`, which this version of musmyrtle can't read")):
            stub.write_text(f"#!/bin/sh\n{script}")
            stub.chmod(0o755)
            for words in (("monitor", self.cluster), ("page", self.cluster, "--recording")):
                with self.subTest(words=words, script=script), patch.dict(os.environ, {"MUSMYRTLE_MONITOR": str(stub)}):
                    status, output, told = self.asked(*words, self.recording(frames(1)))
                    self.assertEqual((status, output), (2, ""))
                    self.assertIn(expected, told)


class Reasons(unittest.TestCase):
    def test_each_finding_has_a_reason_and_a_meaning(self) -> None:
        """The names are those of the tables in examples/recordings/README.md."""
        page = (TOP / "examples/recordings/README.md").read_text().partition("## Findings")[2].partition("## Output")[0]
        rows = [line.split("|")[1] for line in page.splitlines() if line.startswith("| `")]
        names = {name.strip(" `") for row in rows for name in row.split(",")}
        self.assertEqual(names, set(MEANINGS))
        self.assertEqual(names, set(WORDS) | set(SPECIAL))

    def test_refusals(self) -> None:
        self.assertEqual(explained("refused BadBlock 24"), (
            "refused BadBlock 24: the block or record that begins at byte 24 is broken; "
            "what came before it was judged"))
        self.assertEqual(explained("refused Unknown 1"), "refused Unknown 1")


if __name__ == "__main__":
    unittest.main()
