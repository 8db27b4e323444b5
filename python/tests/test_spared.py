"""Tests of outputs that are an input or another output: refused before anything is emptied, whatever their names."""
import os
import subprocess
import sys
import unittest
from pathlib import Path
from tempfile import TemporaryDirectory

from musmyrtle import World
from musmyrtle.spared import Output, clash
from musmyrtle.world.world_program import usual_world
from tests.shows import EXAMPLES, THREE
from tests.two_nodes import SCENE, TWO_NODES

TOP = Path(__file__).resolve().parents[2]
RECORDINGS, SIGNALS = EXAMPLES / "recordings", str(EXAMPLES / "signals/cluster.toml")


class Folder(unittest.TestCase):
    def setUp(self) -> None:
        folder = TemporaryDirectory()
        self.addCleanup(folder.cleanup)
        self.folder = Path(folder.name)
        self.cluster = self.folder / "cluster.toml"
        self.cluster.write_text(TWO_NODES)
        (self.folder / "traces").mkdir()

    def file(self, name: str, text: str = "kept") -> Path:
        (self.folder / name).write_text(text)
        return self.folder / name

    def ended(self, output: str, mode: str, *words: str) -> tuple[int, str]:
        """Returns the status of a command and its last message. Its table goes to a file."""
        with open(self.folder / output, mode) as file:
            ran = subprocess.run([sys.executable, "-B", str(TOP / "musmyrtle"), *words], cwd=self.folder,
                                 stdout=file, stderr=subprocess.PIPE, text=True, timeout=120)
        return ran.returncode, (ran.stderr.splitlines() or [""])[-1]

    def contents(self) -> dict[str, str]:
        """Returns the text of each file by its path."""
        files = (it for it in self.folder.rglob("*") if it.is_file())
        return {str(it.relative_to(self.folder)): it.read_text() for it in files}


class TestClashes(Folder):
    def test_names_of_one_file(self) -> None:
        one, pipe = self.file("one"), self.folder / "pipe"
        (self.folder / "soft").symlink_to("one")
        (self.folder / "hard").hardlink_to(one)
        (self.folder / "dangling").symlink_to("new")
        os.mkfifo(pipe)
        for name, other, is_clash in ((one, "soft", True), (one, "hard", True), (one, "./traces/../one", True),
                                      ("new", "dangling", True), (pipe, pipe, True), (one, "new", False),
                                      ("/dev/null", "/dev/null", False), ("new", "newer", False)):
            outputs = [Output(os.path.join(self.folder, it), f"--{number}", f"the file of --{number}")
                       for number, it in enumerate((str(name), str(other)))]
            told = "--1 is the file of --0, which would be overwritten: name another file"
            self.assertEqual(clash(outputs, []), told if is_clash else None, (name, other))


class TestWorlds(Folder):
    def refused(self, why: str, **files: object) -> None:
        """Checks that a world isn't opened, and that each file is as before."""
        before = self.contents()
        with self.assertRaises(ValueError) as raised:
            World(self.cluster, **files)  # type: ignore[arg-type]
        self.assertEqual(str(raised.exception).replace(f"{self.folder}/", ""), f"{why}, which would be overwritten: "
                         "name another file")
        self.assertEqual(self.contents(), before)

    def test_two_outputs_on_one_file(self) -> None:
        one, other = self.file("one"), self.folder / "other"
        other.symlink_to("one")
        self.refused("capture one is the file of record", record=one, capture=one)
        self.refused("capture other is the file of record", record=str(one), capture=str(other))
        traces = self.folder / "traces"
        self.refused("the trace traces/1 is the file of record", record=traces / "1", traces=traces)
        (traces / "0").symlink_to("../one")
        self.refused("the trace traces/0 is the file of capture", capture=one, traces=traces)
        (traces / "1").symlink_to("0")
        self.refused("the trace traces/1 is the trace of node 0", traces=traces)
        (traces / "1").unlink()
        with World(self.cluster, traces=traces, trace_nodes=[1], capture=self.folder / "pcap") as world:
            world.cycle()

    def test_an_output_that_is_the_cluster_file(self) -> None:
        soft, hard = self.folder / "soft", self.folder / "hard"
        soft.symlink_to("cluster.toml")
        hard.hardlink_to(self.cluster)
        for file in (self.cluster, soft, hard):
            for what in ("record", "capture"):
                self.refused(f"{what} {file.name} is the cluster file", **{what: file})
        (self.folder / "traces/1").symlink_to("../soft")
        self.refused("the trace traces/1 is the cluster file", traces=self.folder / "traces")

    def test_an_output_that_is_the_program(self) -> None:
        program = self.file("fr_world", f"#!/bin/sh\nexec '{usual_world()}' \"$@\"\n")
        program.chmod(0o755)
        self.refused("record fr_world is the program", record=program, program=program)

    def test_files_of_other_nodes(self) -> None:
        """A cluster of two nodes writes no trace of node 2, so that a record can have this name."""
        traces = self.folder / "traces"
        with World(self.cluster, record=traces / "2", traces=traces) as world:
            world.cycle()
        self.assertEqual(sorted(it.name for it in traces.iterdir()), ["0", "1", "2"])

    def test_a_capture_and_a_page_afterwards(self) -> None:
        soft = self.folder / "soft"
        soft.symlink_to("cluster.toml")
        with World(self.cluster, cycles=4) as world:
            world.cycle()
            for file in (self.cluster, soft):
                with self.assertRaisesRegex(ValueError, f"^capture {file} is the cluster file, which would be "):
                    world.capture(file)
                with self.assertRaisesRegex(ValueError, f"^page {file} is the cluster file, which would be "):
                    world.page(file)
            world.capture(self.folder / "bus.pcap")
        self.assertEqual(self.cluster.read_text(), TWO_NODES)

    def test_devices(self) -> None:
        with World(self.cluster, record="/dev/null", capture="/dev/null") as world:
            world.cycle()


class TestFaults(Folder):
    def test_the_file_of_standard_output(self) -> None:
        """The shell has opened it. Nothing more is lost, and no table goes where a page replaces it."""
        self.file("scenario", SCENE)
        words = "faults", "cluster.toml", "scenario", "--cycles", "2", "--kinds", "lost"
        self.assertEqual(self.ended("table", "w", *words)[0], 0)
        table = (self.folder / "table").read_text()
        for output, mode, more, what in (
                ("page", "w", ("--html", "page"), "the file of --html"),
                ("log", "w", ("--joblog", "log"), "the file of --joblog"),
                ("table", "a", ("--against", "table"), "the table of --against"),
                ("scenario", "a", (), "the scenario"), ("cluster.toml", "a", (), "the cluster file")):
            with self.subTest(output):
                self.assertEqual(self.ended(output, mode, *words, *more), (
                    2, f"musmyrtle faults: standard output is {what}, which would be overwritten: name another file"))
        self.assertEqual((self.folder / "table").read_text(), table)
        self.assertEqual((self.cluster.read_text(), (self.folder / "scenario").read_text()), (TWO_NODES, SCENE))

    def test_the_module_of_a_host_program(self) -> None:
        text = "def drive(world):\n    pass\n"
        module = self.file("hosts.py", text)
        (self.folder / "page").symlink_to("hosts.py")
        for option, file in (("--html", "hosts.py"), ("--joblog", "hosts.py"), ("--html", "page")):
            more = ["--resume"] if option == "--joblog" else []
            with self.subTest(option):
                status, told = self.ended("table", "w", "faults", THREE[0], "--host", "hosts:drive", "--cycles", "2",
                                          "--kinds", "lost", option, file, *more)
                self.assertEqual((status, told), (2, f"musmyrtle faults: {option} {file} is the module of --host, "
                                                     "which would be overwritten: name another file"))
                self.assertEqual(module.read_text(), text)


class TestCommands(Folder):
    def test_the_file_of_standard_output(self) -> None:
        self.file("scenario", SCENE)
        run = "cluster.toml", "scenario", "--cycles", "2"
        for command, words in ("lint", ("cluster.toml",)), ("lint", run), ("run", run), ("log", run), ("reads", run):
            self.assertEqual(self.ended("table", "w", command, *words)[0], 0)
            for output, what in (("cluster.toml", "the cluster file"), ("scenario", "the scenario"))[:len(words)]:
                with self.subTest(command, output=output):
                    status, told = self.ended(output, "a", command, *words)
                    self.assertEqual((status, told.split(": ", 1)[1]), (
                        2, f"standard output is {what}, which would be overwritten: name another file"))
        self.assertEqual((self.cluster.read_text(), (self.folder / "scenario").read_text()), (TWO_NODES, SCENE))

    def test_other_inputs_at_standard_output(self) -> None:
        """A recording is read after standard output is opened, and `annotate` prints a scenario."""
        recording, scene = (RECORDINGS / "disturbed.pcap").read_bytes(), "frscenario 3\nend\n"
        (self.folder / "recording").write_bytes(recording)
        self.file("scenario", scene)
        for output, words in (("recording", ("monitor", THREE[0], "recording")),
                              ("recording", ("page", THREE[0], "--recording", "recording")),
                              ("recording", ("diff", "--recordings", THREE[0], "recording", "recording")),
                              ("scenario", ("annotate", SIGNALS, "scenario"))):
            with self.subTest(words):
                told = f"musmyrtle: standard output is the {output}, which would be overwritten: name another file"
                self.assertEqual(self.ended(output, "a", *words), (2, told))
        with open(self.folder / "recording", "rb") as source, open(self.folder / "recording", "ab") as table:
            ran = subprocess.run([sys.executable, "-B", str(TOP / "musmyrtle"), "monitor", THREE[0], "-"],
                                 stdin=source, stdout=table, stderr=subprocess.PIPE, timeout=120)
        self.assertEqual((ran.returncode, b"standard output is the recording" in ran.stderr), (2, True))
        self.assertEqual((self.folder / "recording").read_bytes(), recording)
        self.assertEqual((self.folder / "scenario").read_text(), scene)
