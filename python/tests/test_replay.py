"""The command `replay`: recordings of the network of `shows`, made by hand, and of runs that `fr_view bus` records."""
import os
import random
import struct
import subprocess
import sys
import unittest
from pathlib import Path

from tests.shows import NETWORK
from tests.test_monitor import CYCLE, SLOT, Monitor, frame, frames

TOP = Path(__file__).resolve().parents[2]
VIEW = os.environ.get("MUSMYRTLE_VIEW", str(TOP / "fr_view"))
GUARDED = NETWORK.replace('guard = "none"', 'guard = "AB"')
MINISLOTS = 80
"""The microseconds from the start of a cycle to its dynamic segment."""
RUN = "musmyrtle: a run of {}: cycle 0 of the recording is cycle {}{}\n"
SILENT = ", and all before is silent"


class Replays(Monitor):
    def replayed(self, records: list[tuple[int, bytes]], *words: str) -> tuple[int | str | None, list[str], str]:
        """Returns the status, the lines of the scenario between the first two and the last one, and the notes."""
        status, output, told = self.asked("replay", self.cluster, self.recording(records), *words)
        return status, output.splitlines()[2:-1], told

    def bus(self, scene: str, cycles: int) -> bytes:
        """Returns the capture of a run."""
        words = [VIEW, "bus", self.cluster, self.written("scene", scene), "--cycles", str(cycles)]
        return subprocess.run(words, capture_output=True, check=True).stdout


class Calls(Replays):
    def test_null_frames_need_no_line(self) -> None:
        self.assertEqual(self.replayed(frames(2)), (0, [], RUN.format("2 cycles", 0, "")))

    def test_commits_by_name(self) -> None:
        """The state buffer `force` holds x1111 in the cycles 0 and 1 by one commit, the event buffer needs two."""
        records = frames(2)
        for at, cycle in ((0, 0), (4, 1)):
            for more, channel in enumerate("AB"):
                records[at + more] = records[at][0], frame(channel, 1, cycle, b"\0\1", True)
            records[at + 2] = records[at + 2][0], frame("A", 2, cycle, b"\x11\x11", True)
        self.assertEqual(self.replayed(records)[:2], (
            0, ["commit pedal 0 0-1 position x0001", "commit brake 0 0 force x1111"]))

    def test_a_null_frame_of_a_state_buffer_after_data(self) -> None:
        records = frames(2)
        records[2] = records[2][0], frame("A", 2, 0, b"\x11\x11", True)
        self.assertEqual(self.replayed(records)[:2], (
            0, ["commit brake 0 0 force x1111", "commit brake 0 1 force x0000", "withdraw brake 0 1 force"]))

    def test_a_dynamic_frame(self) -> None:
        """The frame of `state` is in slot 4, which opens at minislot 2."""
        records = [*frames(1), (MINISLOTS + 10, frame("A", 4, 0, b"\xab\xcd", True))]
        self.assertEqual(self.replayed(records)[:2], (0, ["commit brake 0 0 state xabcd"]))

    def test_a_later_cycle_count(self) -> None:
        """The first cycle has the count 62: its cycle in the run is 62, and both nodes are silent before."""
        records = [(time, frame(channel, slot, (62 + cycle) % 64)) for cycle in range(3) for slot in (1, 2)
                   for channel in "AB" for time in [cycle * CYCLE + (slot - 1) * SLOT]]
        self.assertEqual(self.replayed(records), (
            0, ["lost pedal,brake 0-61"], RUN.format("65 cycles", 62, SILENT)))

    def test_some_cycles(self) -> None:
        records = frames(4)
        records[10] = records[10][0], frame("A", 2, 2, b"\x11\x11", True)
        self.assertEqual(self.replayed(records, "--cycles", "2"), (
            0, ["commit brake 0 2 force x1111", "lost pedal,brake 0-1"],
            "musmyrtle: a run of 3 cycles: cycle 2 of the recording is cycle 2, and all before is silent\n"))


class Faults(Replays):
    def test_missing_frames(self) -> None:
        """In cycle 0 slot 2 is missing on B, and in cycle 1 all of the pedal."""
        records = frames(2)
        del records[4:6], records[3]
        self.assertEqual(self.replayed(records)[:2], (0, ["lost pedal 1", "mute brake B 0 s2"]))

    def test_flipped_bits(self) -> None:
        """Bit 1 of byte 3 is bit 25 of the frame, where its header CRC is."""
        records = frames(1)
        broken = bytearray(records[2][1])
        broken[2 + 3] ^= 0x40
        records[2] = records[2][0], bytes(broken)
        self.assertEqual(self.replayed(records)[:2], (0, ["corrupt A 0 s2 25"]))

    def test_a_wrong_frame_crc(self) -> None:
        """The trailer wasn't recorded: its last bit, 79, is the wrong one of a frame of 10 bytes."""
        records = frames(1)
        records[3] = records[3][0], bytes([0x81, 0x10]) + records[3][1][2:]
        self.assertEqual(self.replayed(records)[:2], (0, ["corrupt B 0 s2 79"]))

    def test_a_frame_of_no_node(self) -> None:
        """Slot 4 on B has no sender. The frame CRC wasn't recorded."""
        records = [*frames(1), (MINISLOTS + 10, frame("B", 4, 0, b"\1\2", True))]
        status, lines, _ = self.replayed(records)
        self.assertEqual((status, len(lines), lines[0][:-6]), (0, 1, "babble pedal B 0 d4 x200402cec00102"))


class Notes(Replays):
    def test_a_frame_that_guardians_stop(self) -> None:
        """No node has slot 3 here, and the guardians let no node send in it."""
        text = GUARDED.replace("static_slots = 2", "static_slots = 3").replace("cycle_mt = 100", "cycle_mt = 120")
        self.cluster = self.written("cluster.toml", text.replace("slot = 3,", "slot = 6,"))
        records = [*frames(1), (2 * SLOT, frame("A", 3, 0, b"\1\2", True))]
        status, lines, told = self.replayed(records)
        self.assertEqual((status, lines, told.splitlines()[1:]), (
            3, [], ["musmyrtle: cycle 0, slot 3 on A: record 5 isn't given back: no node has this slot, and bus "
                    "guardians stop any other one"]))

    def test_two_frames_in_a_window(self) -> None:
        records = frames(1)
        records.insert(3, records[2])
        status, lines, told = self.replayed(records)
        self.assertEqual((status, lines), (3, []))
        self.assertIn("cycle 0, slot 2 by its header on A: record 4 isn't given back: another frame was seen in its "
                      "window, that of slot 2\n", told)

    def test_an_error_flag_that_the_bench_does_not_have(self) -> None:
        records = frames(1)
        records[2] = records[2][0], bytes([1, 2]) + records[2][1][2:]
        status, lines, told = self.replayed(records)
        self.assertEqual((status, lines), (3, ["corrupt A 0 s2 79"]))
        self.assertIn("cycle 0, slot 2 on A: record 3 isn't given back: the run has its bytes with another error flag",
                      told)


class Refusals(Replays):
    def test_too_many_cycles(self) -> None:
        records = [(cycle * CYCLE, frame(channel, 1, cycle % 64)) for cycle in range(1025) for channel in "AB"]
        status, lines, told = self.replayed(records)
        self.assertEqual((status, lines, told), (
            1, [], "musmyrtle: the run would have 1025 cycles, and a run of a scenario has at most 1024; choose a part "
                   "of the recording with --cycles FIRST-LAST\n"))

    def test_too_many_lines(self) -> None:
        """In each of 1,024 cycles two buffers have a new payload, and both slots other bytes on B.

        These are 2,048 commits and 2,048 babbles, two mutes of all cycles, and the first and the last line.
        """
        records = list[tuple[int, bytes]]()
        for cycle in range(1024):
            its = [frame(channel, slot, cycle % 64, (cycle + more).to_bytes(2, "big"), True)
                   for slot, channel, more in ((1, "A", 0), (1, "B", 4096), (2, "A", 0), (2, "B", 24576))]
            records += [(cycle * CYCLE + at // 2 * SLOT, data) for at, data in enumerate(its)]
        status, lines, told = self.replayed(records)
        self.assertEqual((status, lines), (1, []))
        self.assertRegex(told, "^musmyrtle: the replay of 1024 cycles would have 4100 lines and [0-9]+ bytes, and a "
                               "scenario has at most 4096 lines and 1048576 bytes; choose a part of the recording with "
                               "--cycles FIRST-LAST\n$")

    def test_no_room_for_journals(self) -> None:
        """A cycle has at most 12 windows, each with two entries, and a node has room for 4,096 entries."""
        records = [(cycle * CYCLE, frame(channel, 1, cycle % 64)) for cycle in range(1024) for channel in "AB"]
        status, lines, told = self.replayed(records)
        self.assertEqual((status, lines), (0, ["lost brake 0-1023"]))
        self.assertIn("the nodes have no room for the journals of 1024 cycles: run it with --endless\n", told)

    def test_a_cycle_that_the_recording_does_not_have(self) -> None:
        self.assertEqual(self.replayed(frames(2), "--cycles", "2-3"), (
            2, [], "musmyrtle: the recording has no cycle 2: its last one is cycle 1\n"))

    def test_no_frame(self) -> None:
        self.assertEqual(self.replayed([]), (
            1, [], "musmyrtle: the recording has no frame whose cycle is known, so there is nothing to replay\n"))

    def test_a_file_that_ends_within_a_record(self) -> None:
        file = Path(self.recording(frames(2)))
        file.write_bytes(file.read_bytes()[:-3])
        status, output, told = self.asked("replay", self.cluster, str(file))
        self.assertEqual((status, output.splitlines()[2:]), (1, ["mute brake B 1 s2", "end"]))
        self.assertIn("refused Truncated", told)


class Captures(Replays):
    """The broken frame of `Faults.test_flipped_bits` in other forms of a capture."""

    def setUp(self) -> None:
        super().setUp()
        broken = bytearray(frames(1)[2][1])
        broken[2 + 3] ^= 0x40
        self.records = [*frames(1)[:2], (SLOT, bytes(broken)), frames(1)[3]]

    def block(self, order: str, kind: int, body: bytes) -> bytes:
        """Returns a block of a pcapng file."""
        length = struct.pack(f"{order}I", 12 + len(body))
        return struct.pack(f"{order}I", kind) + length + body + length

    def pcapng(self, order: str) -> bytes:
        """Returns a pcapng file, whose second interface isn't one of FlexRay: its packet is record 3."""
        file = self.block(order, 0x0A0D0D0A, struct.pack(f"{order}IHHq", 0x1A2B3C4D, 1, 0, -1))
        for link in (210, 1):
            file += self.block(order, 1, struct.pack(f"{order}HHI", link, 0, 0))
        its = [(0, *self.records[0]), (0, *self.records[1]), (1, SLOT, b"abcd"),
               *((0, *it) for it in self.records[2:])]
        for source, time, data in its:
            head = struct.pack(f"{order}IIIII", source, 0, time, len(data), len(data))
            file += self.block(order, 6, head + data + bytes(-len(data) % 4))
        return file

    def test_pcapng(self) -> None:
        for order in "<>":
            with self.subTest(order):
                (self.folder / "bus.pcapng").write_bytes(self.pcapng(order))
                status, output, told = self.asked("replay", self.cluster, str(self.folder / "bus.pcapng"))
                self.assertEqual((status, output.splitlines()[2:]), (0, ["corrupt A 0 s2 25", "end"]))
                self.assertIn("musmyrtle: 1 foreign record left out\n", told)

    def test_a_big_endian_file(self) -> None:
        file = struct.pack(">IHHiIII", 0xA1B2C3D4, 2, 4, 0, 0, 262144, 210)
        file += b"".join(struct.pack(">IIII", 0, time, len(data), len(data)) + data for time, data in self.records)
        (self.folder / "bus.pcap").write_bytes(file)
        status, output, _ = self.asked("replay", self.cluster, str(self.folder / "bus.pcap"))
        self.assertEqual((status, output.splitlines()[2:]), (0, ["corrupt A 0 s2 25", "end"]))

    def test_a_trailer(self) -> None:
        """The frame CRC of the frame `200203c1400a0b` is a32217 on A, by docs/formats/frame.md."""
        right = bytes.fromhex("0100200203c1400a0ba32217")
        cases: list[tuple[bytes, list[str]]] = [(right, []), (right[:-1] + b"\x16", ["corrupt A 0 s2 79"])]
        for trailer, lines in cases:
            records = [*frames(1)[:2], (SLOT, trailer), frames(1)[3]]
            self.assertEqual(self.replayed(records)[:2], (0, ["commit brake 0 0 force x0a0b", *lines]))

    def test_standard_input(self) -> None:
        """A pipe is read once, and kept for the second look."""
        file = Path(self.recording(self.records)).read_bytes()
        names: list[list[str]] = [[], ["-"], ["/dev/stdin"]]
        for name in names:
            ran = subprocess.run([sys.executable, "-B", str(TOP / "musmyrtle"), "replay", self.cluster, *name],
                                 input=file, capture_output=True)
            self.assertEqual((ran.returncode, ran.stdout.splitlines()[2:]), (0, [b"corrupt A 0 s2 25", b"end"]))


class Back(Replays):
    """Captures of random runs, which `fr_view bus` of the replay has to make again."""

    def scene(self, source: random.Random, cycles: int) -> str:
        """Returns calls and faults, none at the window of another one of its kind."""
        lines = set[str]()
        for cycle in range(cycles):
            for node, buffer, words in ((0, 0, 1), (0, 1, 16), (1, 0, 1), (1, 2, 1)):
                if source.random() < 0.4:
                    lines.add(f"commit {node} 0 {cycle} {buffer} x{source.randbytes(2 * words).hex()}")
            channel, place = source.choice("AB"), source.choice(("s1", "s2", "d3", "d4"))
            lines.add(source.choice((
                f"mute {source.randrange(2)} {channel} {cycle} {place}", f"corrupt {channel} {cycle} {place} "
                f"{source.randrange(80)}", f"babble {source.randrange(2)} {channel} {cycle} {place} "
                f"x{source.randbytes(source.randrange(12)).hex()}", f"withdraw 1 0 {cycle} 0")))
        return "frscenario 3\n" + "".join(f"{it}\n" for it in sorted(lines)) + "end\n"

    def test_random_runs(self) -> None:
        for seed in range(12):
            with self.subTest(seed):
                source = random.Random(seed)
                cycles = source.randrange(2, 9)
                made = self.bus(self.scene(source, cycles), cycles)
                (self.folder / "made.pcap").write_bytes(made)
                status, text, told = self.asked("replay", self.cluster, str(self.folder / "made.pcap"))
                self.assertEqual(status, 0, told)
                # Times may differ after a collision, which no recording has.
                self.assertEqual(frames_of(self.bus(text, cycles)), frames_of(made))


def frames_of(capture: bytes) -> list[tuple[int, bytes]]:
    """Returns the cycle and the bytes of each record, in the order of cycles and channels."""
    found, at = list[tuple[int, bytes]](), 24
    while at < len(capture):
        time, length = (int.from_bytes(capture[at + it:at + it + 4], "little") for it in (4, 8))
        found.append((time // 100, capture[at + 16:at + 16 + length]))
        at += 16 + length
    return sorted(found, key=lambda it: (it[0], it[1][0]))


if __name__ == "__main__":
    unittest.main()
