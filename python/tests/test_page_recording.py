"""The page of a recording, for recordings of the network of `shows` whose places and findings are worked out by hand.

A cycle has 100 macroticks. Slot 1 of the pedal begins at 0 and slot 2 of the brake at 20, with 20 macroticks each. The
dynamic slot 3 opens at minislot 1, at macrotick 40, and its frame of 16 words takes 4 minislots of 5 macroticks. So
slot 4 opens at minislot 5, at macrotick 60.
"""
import os
import subprocess
import sys
import unittest
from pathlib import Path
from typing import Any
from unittest import mock

from musmyrtle.program import usual_program
from musmyrtle.show.idle_cycle import cycle_begins_of
from tests import test_page_browser as browser
from tests.pages import Pages, needs_node, unpacked
from tests.test_monitor import CYCLE, HEADER, SLOT, Monitor, frame, sealed

LOG = bytes(range(32))
NOTHING, NO_COUNT = 2**32 - 1, 255
MONITOR = usual_program("fr_monitor") or "fr_monitor"
VIEW = usual_program("fr_view") or "fr_view"
STAND_IN = """#!{python}
import subprocess, sys
words = sys.argv[1:]
if words[words.index("--cycles") + 1] != "1":
    sys.exit("refused BadCycles")
sys.exit(subprocess.run([{program!r}, *words]).returncode)
"""
"""A program that refuses runs of more than one cycle."""


def lines_of(columns: dict[str, list[Any]]) -> list[tuple[Any, ...]]:
    """Returns the lines of the record: cycle, begin, slot, length, channel, node, kind, findings and record."""
    found = list[tuple[Any, ...]]()
    for line, window in enumerate(columns["record_window"]):
        channel = columns["record_channel"][line]
        found.append((columns["window_cycle"][window], columns["window_begin"][window],
                      columns[f"window_slot_{channel}"][window], columns[f"window_length_{channel}"][window], channel,
                      columns["record_node"][line], columns["record_what"][line], columns["record_end"][line],
                      columns["record_number"][line]))
    return found


class Recorded(Monitor, Pages):
    def page_text(self, records: list[tuple[int, bytes]], *words: str, status: int = 0) -> str:
        """Returns the text of the page of some records."""
        found, output, told = self.asked("page", self.cluster, "--recording", self.recording(records), *words)
        self.assertEqual((found, told), (status, ""))
        return output

    def data(self, records: list[tuple[int, bytes]], *words: str, status: int = 0
             ) -> tuple[dict[str, Any], list[tuple[Any, ...]]]:
        """Returns the header and the lines of the page of some records."""
        header, columns = unpacked(self.page_text(records, *words, status=status))
        return header, lines_of(columns)

    def counts(self, records: list[tuple[int, bytes]], *words: str, status: int = 0) -> list[Any]:
        """Returns the count of each cycle on the page of some records."""
        return unpacked(self.page_text(records, *words, status=status))[1]["cycle_count"]


def static(cycle: int, count: int | None = None) -> list[tuple[int, bytes]]:
    """Returns the times and the frames of both static slots in a cycle, with this cycle count."""
    return [(cycle * CYCLE + (slot - 1) * SLOT, frame(channel, slot, cycle if count is None else count))
            for slot in (1, 2) for channel in "AB"]


class Places(Recorded):
    def test_frames_stand_in_their_slots(self) -> None:
        """The second frame of the dynamic segment opens where the first one ends."""
        dynamic = [(90, frame("A", 3, 0, LOG, True)), (130, frame("A", 4, 0, b"\1\2", True))]
        header, lines = self.data([*static(0), *dynamic, *static(1)], "--whole", status=3)
        late = "the slot opens at minislot 5, and the latest one of brake (1) is 3"
        self.assertEqual(lines, [
            (0, 0, 1, 20, "A", 0, "offer", "alone", 1), (0, 0, 1, 20, "B", 0, "offer", "alone", 2),
            (0, 20, 2, 20, "A", 1, "offer", "alone", 3), (0, 20, 2, 20, "B", 1, "offer", "alone", 4),
            (0, 40, 3, 20, "A", 0, "offer", "alone", 5), (0, 60, 4, 5, "A", 1, "offer", late, 6),
            (1, 100, 1, 20, "A", 0, "offer", "alone", 7), (1, 100, 1, 20, "B", 0, "offer", "alone", 8),
            (1, 120, 2, 20, "A", 1, "offer", "alone", 9), (1, 120, 2, 20, "B", 1, "offer", "alone", 10)])
        self.assertEqual((header["cycles"], header["first_cycle"]), (2, 0))
        self.assertEqual([it[:7] for it in header["findings"]],
                         [[6, "0.000130000", 0, "A", 4, 1, f"Late: {late}"]])

    def test_a_frame_is_missing(self) -> None:
        """Slot 2 has no frame on A in cycle 1, which the first frame of cycle 2 shows."""
        records = [*static(0), *static(1), *static(2)]
        del records[6]
        header, lines = self.data(records, status=3)
        self.assertEqual([it for it in lines if it[6] == "missing"], [
            (1, 120, 2, 20, "A", 1, "missing", "no frame of brake (1)", NOTHING)])
        self.assertEqual([it[6] for it in header["findings"]], [
            "Missing: no frame of brake (1)", "brake (1) is back after it was missing once"])

    def test_a_broken_record(self) -> None:
        """A bit of the header CRC is flipped. The header names the slot of the open cycle."""
        broken = bytearray(frame("A", 2, 0))
        broken[5] ^= 0x40
        records = [*static(0)[:2], (SLOT, bytes(broken)), *static(0)[3:], *static(1)]
        _, lines = self.data(records, status=3)
        self.assertEqual([it[:7] for it in lines if it[8] == 3], [(0, 20, 2, 20, "A", 1, "broken")])

    def test_no_node_sends(self) -> None:
        """Slot 7 of the dynamic segment opens on B at minislot 5, since slots 3 to 6 are empty."""
        header, lines = self.data([*static(0), (100, frame("B", 7, 0, b"\1\2", True)), *static(1)], status=3)
        self.assertIn((0, 60, 7, 5, "B", 2, "offer", "no node sends in slot 7 on B in this cycle", 5), lines)
        self.assertEqual([it.get("is_nobody") for it in header["nodes"]], [None, None, True])

    def test_channels_begin_apart(self) -> None:
        """Channel B begins two cycles after channel A, across the last cycle count."""
        cycles = [static(it, (62 + it) % 64) for it in range(4)]
        records = [it for place, its in enumerate(cycles) for it in its if place >= 2 or it[1][0] == 1]
        header, lines = self.data(records)
        self.assertEqual(sorted({it[0] for it in lines if it[4] == "B"}), [2, 3])
        self.assertEqual(header["cycles"], 4)
        self.assertEqual(self.counts(records), [62, 63, 0, 1])

    def test_lost_cycles(self) -> None:
        """Cycles 1 to 4 were lost, and have no windows."""
        records = [*static(0), *static(5), *static(6)]
        header, lines = self.data(records, status=3)
        self.assertEqual(sorted({it[0] for it in lines}), [0, 5, 6])
        self.assertEqual((header["cycles"], [it[6] for it in header["findings"]]),
                         (7, ["Gap: no frame of 4 cycles was recorded"] * 2))
        self.assertEqual(self.counts(records, status=3), [0, *[NO_COUNT] * 4, 5, 6])

    def test_a_part(self) -> None:
        """Cycles 2 and 3 of five begin at macrotick 0, and keep their numbers."""
        records = [it for cycle in range(5) for it in static(cycle)]
        header, lines = self.data(records, "--cycles", "2-3")
        self.assertEqual([it[:2] for it in lines], [(0, 0)] * 2 + [(0, 20)] * 2 + [(1, 100)] * 2 + [(1, 120)] * 2)
        self.assertEqual((header["cycles"], header["first_cycle"]), (2, 2))
        self.assertEqual(self.counts(records, "--cycles", "2-3"), [2, 3])
        self.assertIn("Only the cycles 2 to 3 of the recording are shown; it has 5 cycles.", header["missing"])
        self.assertEqual(self.asked("page", self.cluster, "--recording", self.recording(records), "--cycles", "7"), (
            2, "", "musmyrtle: the recording has no cycle 7: it has 5 cycles\n"))

    def test_only_the_shown_cycles_are_asked_for(self) -> None:
        """The begins of the two cycles that are shown, and of the one after them, come from a run of three."""
        records = [it for cycle in range(5) for it in static(cycle)]
        with mock.patch("musmyrtle.show.page_recording.cycle_begins_of", wraps=cycle_begins_of) as asked:
            text = self.page_text(records, "--cycles", "2-3")
        self.assertEqual([it.args[2] for it in asked.call_args_list], [2])
        self.assertEqual(unpacked(text)[1]["cycle_begin"], [0, 100, 200])

    def test_a_recording_that_is_too_long(self) -> None:
        """Three cycles have 300 macroticks. A run of four would have too many static slots and minislots for one."""
        path = self.recording([it for cycle in range(3) for it in static(cycle)])
        words = ("page", self.cluster, "--recording", path)
        told = ("musmyrtle: a page has no room for the 3 cycles of this recording, which may have 4,000,000 static "
                "slots and frames, and fewer than 2^32 macroticks; --cycles A-B shows a part of it\n")
        module = "musmyrtle.show.page_recording"
        for name, value, status in (("MOST_TIME", 300, 0), ("MOST_TIME", 299, 2), ("MOST_TIME", 99, 2),
                                    ("MOST_ENDLESS", 4, 0), ("MOST_ENDLESS", 3, 2)):
            with self.subTest(name, value=value), mock.patch(f"{module}.{name}", value):
                self.assertEqual(self.asked(*words)[::2], (status, told if status else ""))
        program = self.written("fr_view", STAND_IN.format(python=sys.executable, program=VIEW))
        Path(program).chmod(0o755)
        with mock.patch.dict(os.environ, MUSMYRTLE_VIEW=program):
            self.assertEqual(self.asked(*words), (2, "", told))

    def test_only_its_frames_are_known(self) -> None:
        header, _ = self.data([*static(0), *static(1)])
        self.assertIn("the recording doesn't say who sent it", header["missing"][0])
        self.assertEqual((header["is_recording"], header["faults"], header["findings"]), (True, [], []))


class Ends(Recorded):
    def test_no_frames(self) -> None:
        header, lines = self.data([], status=3)
        self.assertEqual((header["cycles"], lines), (1, []))
        self.assertIn("The recording has no frame.", header["missing"])
        self.assertEqual([it[6] for it in header["findings"]], [
            "Nothing: channel A has a sender, and had no good frame",
            "Nothing: channel B has a sender, and had no good frame"])

    def test_a_recording_that_ends_within_a_record(self) -> None:
        path = self.recording([*static(0), *static(1)])
        Path(path).write_bytes(Path(path).read_bytes()[:-3])
        status, page, told = self.asked("page", self.cluster, "--recording", path)
        header, columns = unpacked(page)
        self.assertEqual((status, len(lines_of(columns))), (1, 7))
        self.assertIn("musmyrtle: refused Truncated", told)
        self.assertIn("couldn't be read to its end: refused Truncated", header["missing"][-1])

    def test_no_capture(self) -> None:
        path = self.written("bus.pcap", "no capture")
        self.assertEqual(self.asked("page", self.cluster, "--recording", path), (
            1, "", "musmyrtle: refused NoCapture: the recording is no pcap or pcapng file\n"))

    def test_wrong_words(self) -> None:
        path = self.recording(static(0))
        cases = [
            (["page", self.cluster, "scene", "--recording", path], "--recording takes the place of SCENARIO and"),
            (["page", self.cluster, "--recording", path, "--endless"], "--recording takes the place of SCENARIO and"),
            (["page", self.cluster, "--recording", path, "--cycles", "3-1"], "'3-1' is no cycle of a recording"),
            (["page", self.cluster], "the following arguments are required: SCENARIO, --cycles"),
            (["page", self.cluster, "scene", "--cycles", "4", "--whole"], "--whole needs --recording"),
            (["page", self.cluster, "--recording", f"{path}.absent"], "can't be read: No such file or directory"),
        ]
        for words, expected in cases:
            with self.subTest(words):
                status, output, told = self.asked(*words)
                self.assertEqual((status, output), (2, ""))
                self.assertIn(expected, told)


@needs_node
class Shown(Recorded):
    def test_a_walk(self) -> None:
        """The findings, an error in the picture, a node, and a slot."""
        records = [*static(0), *static(1), *static(2), (2 * CYCLE + 100, frame("B", 7, 2, b"\1\2", True))]
        del records[6]
        page = self.written("page.html", self.page_text(records, status=3))
        first, error, _, slot, nobody = self.walked(page, "press n", "find slot 7", "click results slot 7",
                                                    "click details no configured sender")
        self.assertIn("3 cycles of 200 µs", first["subject"])
        self.assertIn("no frame of brake (1)", first["faults"])
        self.assertIn("Slot 2 on A in cycle 1 (count 1)", error["details"])
        self.assertNotIn("It opened", slot["details"])
        self.assertIn("no node sends in slot 7 on B in this cycle", slot["details"])
        self.assertTrue(nobody["details"].startswith("no configured sender"))


@unittest.skipUnless(browser.BROWSER, "there is no Chromium, in which the page is opened")
@needs_node
class InChromium(Recorded, browser.Walks):
    def opened(self, page: str, steps: tuple[str, ...]) -> str:
        return browser.dumped(self.with_walk(page, steps), self.folder)

    def test_a_walk(self) -> None:
        records = [*static(0), *static(1), *static(2), (2 * CYCLE + 100, frame("B", 7, 2, b"\1\2", True))]
        del records[6]
        page = self.written("page.html", self.page_text(records, status=3))
        self.held(page, ("press n", "find slot 7", "click results slot 7", "click details no configured sender",
                         "find payload x0102", "click results Slot 7", "press 0"))

    def test_no_frames(self) -> None:
        self.held(self.written("page.html", self.page_text([], status=3)), ("press n", "press 1"))


class OfManyFrames(Recorded):
    def test_many_frames(self) -> None:
        """A page of 20,000 frames has each of them."""
        records = [it for cycle in range(5000) for it in static(cycle, cycle % 64)]
        header, lines = self.data(records)
        self.assertEqual((header["cycles"], len(lines)), (5000, 20_000))


class Frames(Recorded):
    """The lines of `fr_monitor --frames`, by hand."""

    def printed_by(self, records: list[tuple[int, bytes]], *words: str) -> list[str]:
        """Returns the lines of frames that the program prints."""
        data = HEADER + b"".join(sealed(*it) for it in records)
        ran = subprocess.run([MONITOR, *words, self.cluster], input=data, capture_output=True)
        return [it for it in ran.stdout.decode().splitlines() if it.split(" ")[0] in ("frame", "opens")]

    def test_lines(self) -> None:
        records = [*static(0)[::2], (90, frame("A", 3, 0, LOG, True)), (130, frame("A", 4, 0, b"\1\2", True)),
                   *static(1)[::2]]
        self.assertEqual(self.printed_by(records, "--frames"), [
            "frame 1 0.000000000 0 A 1 - 0 20 0 -ns- x0000 -", "opens 1 0 -",
            "frame 2 0.000040000 0 A 2 0 20 20 1 -n-- x0000 -",
            f"frame 3 0.000090000 0 A 3 0 40 20 0 ---- x{LOG.hex()} -",
            "frame 4 0.000130000 0 A 4 0 60 5 1 ---- x0102 -", "frame 5 0.000200000 1 A 1 - 0 20 0 -ns- x0000 -",
            "opens 5 1 -", "frame 6 0.000240000 1 A 2 1 20 20 1 -n-- x0000 -"])
        self.assertEqual(self.printed_by(records), [])

    def test_a_frame_that_waits_at_the_end(self) -> None:
        """The first frame of cycle 1 is the last record: the end opens its cycle."""
        records = [*static(0)[::2], *static(1)[:1]]
        self.assertEqual(self.printed_by(records, "--frames")[-2:], [
            "frame 3 0.000200000 1 A 1 - 0 20 0 -ns- x0000 -", "opens 3 1 -"])

    def test_frames_of_no_cycle(self) -> None:
        """A wrong cycle count opens nothing, a slot came before, and no slot has ID 0."""
        records = [*static(0)[::2], (60, frame("A", 3, 9, b"\1\2", True)), (90, frame("A", 4, 0, b"\1\2", True)),
                   (95, frame("A", 3, 0, b"\1\2", True)), (99, frame("A", 0, 0)), (99, b"\x01\x00\x20")]
        self.assertEqual(self.printed_by(records, "--frames")[3:], [
            "frame 3 0.000060000 9 A 3 - 40 5 0 ---- x0102 -", "frame 4 0.000090000 0 A 4 0 45 5 1 ---- x0102 -",
            "frame 5 0.000095000 0 A 3 0 - 5 0 ---- x0102 -", "frame 6 0.000099000 0 A 0 0 - - - - - -",
            "frame 7 0.000099000 - A - - - - - - - -"])

    def test_broken_records(self) -> None:
        """A broken record of a static slot has the place and the sender that its header names, another one no place."""
        flipped = [bytearray(frame("A", slot, 0)) for slot in (2, 3, 9)]
        for it in flipped:
            it[5] ^= 0x40
        records = [*static(0)[:1], *((SLOT, bytes(it)) for it in flipped), *static(1)[::2]]
        self.assertEqual([it for it in self.printed_by(records, "--frames") if it.endswith("- - -")], [
            "frame 2 0.000040000 0 A 2 0 20 20 1 - - -", "frame 3 0.000040000 0 A 3 0 - - 0 - - -",
            "frame 4 0.000040000 0 A 9 0 - - - - - -"])

    def test_cycles_beside_each_other(self) -> None:
        """Channel B begins with count 63, two cycles before channel A. The counts are modulo 64."""
        records = [(200 * place, frame(channel, 1, count)) for place, (channel, count) in enumerate((
            ("B", 63), ("B", 0), ("A", 1), ("B", 1), ("A", 2), ("B", 2)))]
        found = [it.split(" ") for it in self.printed_by(records, "--frames")]
        self.assertEqual([(it[1], it[2], it[3]) for it in found if it[0] == "opens"], [
            ("1", "0", "-"), ("2", "1", "-"), ("3", "0", "2"), ("4", "2", "0"), ("5", "1", "3"), ("6", "3", "1")])
