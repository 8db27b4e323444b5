"""The files that a world without history writes: the bytes of `fr_view record` and `fr_view bus`, and the traces of the
same world with history, but for their first lines."""
import os
import subprocess
import unittest
from pathlib import Path
from tempfile import TemporaryDirectory

from musmyrtle import ClusterRefused, SessionOver, World
from musmyrtle.program import usual_program

EXAMPLES = Path(__file__).resolve().parents[2] / "examples"
THREE_NODES = EXAMPLES / "three-nodes/cluster.toml"
VIEW = os.environ.get("FR_VIEW") or usual_program("fr_view") or ""
BENCH = os.environ.get("FR_BENCH") or usual_program("fr_bench") or ""
HEADER = bytes.fromhex("d4c3b2a1 0200 0400 00000000 00000000 08010000 d2000000")
"""The file header of docs/formats/views.md."""


def unnumbered(record: str) -> str:
    """Returns a record whose lines name no line of a scenario."""
    return "".join(f"{line.rpartition(' ')[0]} -\n" for line in record.splitlines())


class TestWrittenWindows(unittest.TestCase):
    def setUp(self) -> None:
        folder = TemporaryDirectory()
        self.addCleanup(folder.cleanup)
        self.lines, self.frames = Path(folder.name) / "lines", Path(folder.name) / "bus.pcap"

    def view(self, command: str, folder: Path, cycles: int) -> bytes:
        words = [VIEW, command, str(folder / "cluster.toml"), str(folder / "scenario"), "--cycles", str(cycles)]
        return subprocess.run(words, stdout=subprocess.PIPE, stderr=subprocess.DEVNULL, check=True).stdout

    def test_examples(self) -> None:
        for name, cycles in (("three-nodes", 4), ("vehicle", 8)):
            folder = EXAMPLES / name
            with self.subTest(name):
                with World(folder / "cluster.toml", cycles, endless=True, record=self.lines,
                           capture=self.frames) as world:
                    world.play_scenario((folder / "scenario").read_text(), cycles)
                record = self.view("record", folder, cycles).decode()
                self.assertEqual(self.lines.read_text(), unnumbered(record))
                self.assertEqual(self.frames.read_bytes(), self.view("bus", folder, cycles))

    def test_each_call_has_its_windows_there(self) -> None:
        with World(THREE_NODES, record=self.lines, capture=os.fspath(self.frames)) as world:
            self.assertEqual((self.lines.read_bytes(), self.frames.read_bytes()), (b"", HEADER))
            world.node(0).commit(0, b"\0\7")
            world.window()
            self.assertEqual([line.split(" ")[:5] for line in self.lines.read_text().splitlines()],
                             [["0", "0", "-", "1", "A"], ["0", "0", "-", "1", "B"]])
            sizes = [self.frames.stat().st_size]
            for _ in range(3):
                world.node(0).commit(0, b"\0\7")
                world.cycle()
                sizes.append(self.frames.stat().st_size)
            self.assertEqual(sizes, sorted(set(sizes)))

    def test_each_alone(self) -> None:
        for name, file in (("record", self.lines), ("capture", self.frames)):
            with World(THREE_NODES, record=self.lines if name == "record" else None,
                       capture=self.frames if name == "capture" else None) as world:
                world.node(0).commit(0, b"\0\7")
                world.cycle()
            self.assertTrue(file.stat().st_size > len(HEADER))
            file.unlink()
        self.assertFalse(self.lines.exists() or self.frames.exists())

    def test_a_world_with_history_has_none(self) -> None:
        folder = self.lines.parent
        for record, capture, traces in ((self.lines, None, None), (None, self.frames, None), (None, None, folder)):
            with self.assertRaisesRegex(ValueError, "keeps its history"):
                World(THREE_NODES, cycles=4, record=record, capture=capture, traces=traces)
        self.assertFalse(self.lines.exists() or self.frames.exists())

    def test_a_file_that_cannot_be_opened(self) -> None:
        missing = self.lines / "in/no/folder"
        with self.assertRaisesRegex(SessionOver, f"{missing} can't be written") as caught:
            World(THREE_NODES, record=missing)
        self.assertNotIsInstance(caught.exception, ClusterRefused)
        with self.assertRaisesRegex(SessionOver, r"refused Capture"):
            World(THREE_NODES, capture=missing)

    def test_traces(self) -> None:
        traces = self.lines.parent / "traces"
        traces.mkdir()
        scenario = (EXAMPLES / "three-nodes/scenario").read_text()
        with World(THREE_NODES, cycles=4) as world:
            world.play_scenario(scenario, 4)
            texts = [world.node(number).trace() for number in range(3)]
            reports = ["".join(f"{line}\n" for line in world.block(f"report {number}")) for number in range(3)]
        with World(THREE_NODES, traces=traces) as world:
            world.play_scenario(scenario, 4)
        for number, (text, report) in enumerate(zip(texts, reports)):
            magic, params, node, *lines = text.splitlines(keepends=True)
            words = node.split(" ")
            node = " ".join([*words[:4], "1073741824", "3221225469\n"])
            written = (traces / str(number)).read_text()
            self.assertEqual(written, "".join(["frtrace 4\n", params, node, *lines]))
            audit = subprocess.run([BENCH, "audit"], input=written, capture_output=True, text=True, check=True)
            self.assertEqual(audit.stdout, report)

    def test_a_trace_that_cannot_be_written(self) -> None:
        with self.assertRaisesRegex(SessionOver, f"{self.lines}/0 can't be written"):
            World(THREE_NODES, traces=self.lines)
        traces = self.lines.parent / "traces"
        traces.mkdir()
        (traces / "1").symlink_to("/dev/full")
        with self.assertRaisesRegex(SessionOver, f"{traces}/1 can't be written"):
            World(THREE_NODES, traces=traces)

    def test_a_full_disk(self) -> None:
        with World(THREE_NODES, record="/dev/full") as world:
            world.node(0).commit(0, b"\0\7")
            with self.assertRaisesRegex(SessionOver, "/dev/full can't be written"):
                world.cycle()
        with self.assertRaisesRegex(SessionOver, "/dev/full can't be written"):
            World(THREE_NODES, capture="/dev/full")


if __name__ == "__main__":
    unittest.main()
