"""Tests of output files: never an input, and written whole or not at all."""
import os
import tempfile
import unittest
from pathlib import Path

from musmyrtle.faults.whole_files import Unusable, replace_file, spare_inputs


class TestWholeFiles(unittest.TestCase):
    def setUp(self):
        folder = tempfile.TemporaryDirectory()
        self.addCleanup(folder.cleanup)
        self.folder = Path(folder.name)

    def refused(self, outputs: dict[str, Path | str], wanted: str | None) -> None:
        names = {option: str(file) for option, file in outputs.items()}
        inputs = [("the cluster file", str(self.folder / "cluster")), ("the scenario", str(self.folder / "missing"))]
        if wanted is None:
            spare_inputs(names, inputs)
            return
        with self.assertRaises(Unusable) as raised:
            spare_inputs(names, inputs)
        self.assertEqual(str(raised.exception), wanted)

    def test_inputs_are_spared(self):
        cluster = self.folder / "cluster"
        cluster.write_text("")
        (self.folder / "soft").symlink_to("cluster")
        (self.folder / "hard").hardlink_to(cluster)
        (self.folder / "other").write_text("")
        (self.folder / "to-missing").symlink_to("missing")
        for name in ("cluster", "soft", "hard", f"../{self.folder.name}/cluster"):
            file = self.folder / name
            self.refused({"--html": file}, f"--html {file} is the cluster file, which would be overwritten: "
                                           "name another file")
        for name in ("missing", "./missing", "to-missing"):
            file = self.folder / name
            self.refused({"--joblog": file}, f"--joblog {file} is the scenario, which would be overwritten: "
                                             "name another file")
        self.refused({"--joblog": self.folder / "other", "--html": self.folder / "new"}, None)
        self.refused({"--joblog": "/dev/null", "--html": "/dev/null"}, None)
        file = self.folder / "new"
        self.refused({"--joblog": file, "--html": file}, f"--html {file} is the file of --joblog, which would be "
                                                         "overwritten: name another file")

    def test_a_file_is_replaced(self):
        file = self.folder / "page"
        replace_file(str(file), b"one")
        self.assertEqual(file.stat().st_mode & 0o111, 0)
        file.chmod(0o640)
        (self.folder / "soft").symlink_to("page")
        replace_file(str(self.folder / "soft"), b"other")
        self.assertEqual((file.read_bytes(), file.stat().st_mode & 0o777), (b"other", 0o640))
        self.assertEqual(sorted(os.listdir(self.folder)), ["page", "soft"])

    def test_a_pipe_is_written_itself(self):
        source, end = os.pipe()
        with open(source, "rb") as reading:
            replace_file(f"/dev/fd/{end}", b"text")
            os.close(end)
            self.assertEqual(reading.read(), b"text")
