"""Tests of the pictures of `signals`, whose places are worked out by hand, and of the runs with faults.

A plot goes from x = 96 to x = 944, and the first one has its frame from y = 60 to y = 210. Its lowest value is at 204,
and its highest one at 66. Of 8 cycles each has 106 pixels. The frame of slot 1 comes at the begin of each cycle.
"""
import os
import unittest
from pathlib import Path
from xml.etree import ElementTree

from musmyrtle.show.plot import Axis, Pen, ticks_of
from tests.test_signals_over_time import CLUSTER, EXAMPLE, SCENE, WITHOUT_PLOT, OverTime

SPACE = "{http://www.w3.org/2000/svg}"


class Plots(OverTime):
    def drawn(self, *words: str) -> ElementTree.Element:
        """Returns the picture of a command, which says nothing on standard error."""
        file = self.folder / "picture.svg"
        self.printed("signals", *words, "--svg", str(file))
        return ElementTree.fromstring(file.read_text(encoding="utf-8"))

    def paths(self, picture: ElementTree.Element, kind: str) -> list[str]:
        """Returns the paths of a class."""
        return [it.get("d", "") for it in picture.iter(f"{SPACE}path") if it.get("class") == kind]

    def texts(self, picture: ElementTree.Element) -> list[str]:
        """Returns the texts of a picture."""
        return [it.text or "" for it in picture.iter(f"{SPACE}text")]


class TestPicture(Plots):
    def test_a_line(self) -> None:
        """The speed is 87.5 up to the begin of cycle 2, at x = 96 + 2 * 106, and then 90. Frames are lost in the cycles
        3, 5 and 6. The frame of cycle 4 is two cycles old at the end of cycle 5, which is the limit, and is replaced in
        cycle 7, so that its value is stale in cycle 6."""
        picture = self.drawn(*self.scene(), "brake.speed")
        line = "M96 204H308V66H944"
        self.assertEqual(self.paths(picture, "c0 d0")[0], line)
        self.assertEqual(self.paths(picture, "committed")[0], line)
        self.assertEqual(self.paths(picture, "lost")[0],
                         "M414 66m-4-4l8 8m0-8l-8 8M626 66m-4-4l8 8m0-8l-8 8M732 66m-4-4l8 8m0-8l-8 8")
        self.assertEqual(self.paths(picture, "stale")[0], "M732 66H838")
        texts = self.texts(picture)
        self.assertEqual(texts[1], "speed [km/h] of frame Engine")
        self.assertEqual(texts[-5:], ["time [ms]", "committed by engine data", "brake engine",
                                      "the held value is older than the limit", "a frame was lost"])
        self.assertEqual([it for it in texts[2:-5]], ["0", "0.5", "1", "1.5", "2", "2.5", "3", "3.5", "4",
                                                      "87.5", "88", "88.5", "89", "89.5", "90"])

    def test_a_limit(self) -> None:
        """The frames of the cycles 2 and 4 are held for two and for three cycles, and all others for one."""
        for words, path in (("500us", "M414 66H520M626 66H838"), ("1cycle", "M414 66H520M626 66H838"),
                            ("150MT", "M467 66H520M679 66H838"), ("1.25ms", "M785 66H838")):
            with self.subTest(words=words):
                picture = self.drawn(*self.scene(), "brake.speed", "--stale", words)
                self.assertEqual(self.paths(picture, "stale")[0], path)

    def test_names_of_values_and_gaps(self) -> None:
        """The gear is drive (1), then reverse (2), then invalid, which leaves a gap."""
        scene = ("frscenario 3\ncommit engine 0 0 data x222ef13c00000000\ncommit engine 0 1 data x222ef23c00000000\n"
                 "commit engine 0 2 data x222eff3c00000000\nend\n")
        picture = self.drawn(*self.scene(scene, 4), "brake.gear")
        self.assertEqual(self.paths(picture, "c0 d0")[0], "M96 204H308V66H520")
        self.assertIn("drive", self.texts(picture))
        self.assertIn("reverse", self.texts(picture))

    def test_some_cycles(self) -> None:
        """Of the cycles 2 to 3 each has 424 pixels. The value before them goes on."""
        picture = self.drawn(*self.scene(), "brake.speed", "--in-cycles", "1-2")
        self.assertEqual(self.paths(picture, "c0 d0")[0], "M96 204H520V66H944")

    def test_receivers_that_are_alike_are_one_line(self) -> None:
        picture = self.drawn(*self.scene(), "brake.speed", "dashboard.speed", "--in-cycles", "0-2")
        self.assertEqual(len(self.paths(picture, "c0 d0")), 2)
        self.assertIn("brake engine; dashboard engine", self.texts(picture))

    def test_hostile_texts(self) -> None:
        """Names with signs of HTML and of terminals are texts, and nothing runs or loads."""
        text = Path(CLUSTER).read_text().replace('unit = "km/h"', 'unit = "</text><script>\\u001b\\u202e&"')
        text = text.replace('name = "brake"\nslot', 'name = "<b onload=x>\\u0007"\nslot')
        cluster = self.written("cl<b>&.toml", text)
        file = self.folder / "picture.svg"
        scene = self.written("scenario", SCENE.replace("commit brake", "commit 1"))
        self.printed("signals", cluster, scene, "--cycles", "8", "1.speed", "--csv", "--svg", str(file))
        found = file.read_text(encoding="utf-8")
        tags = {it.tag for it in ElementTree.fromstring(found).iter()}
        self.assertEqual(tags, {f"{SPACE}{it}" for it in ("svg", "title", "style", "rect", "text", "g", "path")})
        self.assertTrue(all(it.isprintable() or it == "\n" for it in found))
        for sign in ("<script", "http://", "url(", "@import", "href"):
            self.assertNotIn(sign, found.replace("http://www.w3.org/2000/svg", ""))
        self.assertIn("&lt;b onload=x&gt;\\x07 engine", found)
        self.assertIn("prefers-color-scheme: dark", found)

    def test_bytes_are_named(self) -> None:
        scene = "frscenario 3\ncommit brake 0 0 data x0010010203040506\nend\n"
        file = self.folder / "picture.svg"
        status, _, error = self.asked("signals", *self.scene(scene, 2), "engine.serial", "--svg", str(file))
        self.assertEqual((status, error), (0, WITHOUT_PLOT))


class TestPictureFiles(Plots):
    def test_files_that_cant_be_written(self) -> None:
        words = self.scene()
        for file, told in ((words[0], "is the cluster file"), (words[1], "is the scenario"),
                           (str(self.folder), "Is a directory"), (str(self.folder / "no/a.svg"), "No such file"),
                           ("/dev/full", "No space left on device")):
            with self.subTest(file=file):
                status, output, error = self.asked("signals", *words, "brake.speed", "--json", "--svg", file)
                self.assertEqual((status, told in error), (2, True), error)
        self.assertEqual(Path(words[1]).read_text(), SCENE)

    @unittest.skipUnless(os.geteuid(), "root may write everywhere")
    def test_a_folder_without_permission(self) -> None:
        folder = self.folder / "closed"
        folder.mkdir(mode=0o500)
        status, _, error = self.asked("signals", *self.scene(), "brake.speed", "--svg", str(folder / "a.svg"))
        self.assertEqual((status, "Permission denied" in error), (2, True))

    def test_too_much_for_a_picture(self) -> None:
        signals = ", ".join(f'{{name = "s{it}", bit = {it}, bits = 1}}' for it in range(101))
        text = Path(CLUSTER).read_text()
        text = text.replace('frame = "Brake"', 'frame = "Many"', 1).replace("static_words = 4", "static_words = 8")
        text = text.replace("[[node]]", f'[[frame]]\nname = "Many"\nbytes = 16\nsignal = [{signals}]\n\n[[node]]', 1)
        file = self.written("picture.svg", "before")
        scene = f"frscenario 3\ncommit brake 0 0 data x{'00' * 16}\nend\n"
        status, _, error = self.asked("signals", *self.scene(scene, 1, text), "engine.*", "--svg", file)
        self.assertEqual((status, "draws at most 100 signals, and 101 are selected" in error), (2, True))
        self.assertEqual(Path(file).read_text(), "before")


class TestFaults(Plots):
    def test_a_fault_line(self) -> None:
        """With engine lost in cycle 2 on B alone the brake has the frame of A, and without it on both it has none."""
        words = [*self.scene(cycles=8), "brake.speed", "--in-cycles", "2"]
        found = self.samples("fault channel value what", *words, "--fault", "mute engine B 2 s1", "--fault",
                             "lost engine 2")
        self.assertEqual(found, [(None, "A", 90, "stored"), ("mute engine B 2 s1", "A", 90, "stored"),
                                 ("lost engine 2", "AB", 87.5, "lost")])

    def test_each_fault_of_a_node(self) -> None:
        """The faults are those of `musmyrtle faults` without those that are proved harmless, in other nodes' slots."""
        status, listed, _ = self.asked("faults", *EXAMPLE, "--nodes", "engine", "--list")
        lines = [it.split("\t") for it in listed.splitlines() if "proved" not in it]
        wanted = [" ".join([it[0], *(["engine"] if it[1] == "0" else []), *it[2:5]]) for it in lines]
        status, output, error = self.asked("signals", *EXAMPLE, "brake.speed", "--each-fault-of", "engine", "--csv")
        self.assertEqual((status, error), (0, ""))
        faults = list(dict.fromkeys(line.split(",")[1] for line in output.splitlines()[1:]))
        self.assertEqual(faults, ["", *wanted])
        self.assertEqual(len(output.splitlines()), 1 + 4 * (1 + len(wanted)))

    def test_the_picture_of_faults(self) -> None:
        """If the engine is lost on both channels, the brake never has a speed. On one channel alone it has all."""
        words = [*EXAMPLE, "brake.speed", "--each-fault-of", "engine", "--kinds", "lost"]
        found = self.samples("fault what", *words)
        self.assertEqual(found[4:8], [("lost engine AB * all", "lost")] * 4)
        self.assertEqual(found[8:12], [("lost engine A * all", "new")] * 4)
        texts = self.texts(self.drawn(*words))
        self.assertEqual(texts[1], "speed [km/h] of frame Engine at brake engine")
        self.assertIn("without a fault; lost engine A * all; lost engine B * all", texts)
        self.assertIn("lost engine AB * all", texts)

    def test_cycles_of_faults(self) -> None:
        words = [*EXAMPLE, "brake.speed", "--each-fault-of", "0", "--kinds", "lost", "--fault-cycles", "3"]
        found = [it for it in self.samples("fault cycle value what", *words) if it[3] == "lost"]
        self.assertEqual(found, [("lost engine AB 3 all", 3, 90, "lost")])

    def test_refused_faults(self) -> None:
        for words, status, told in (
                (("--fault", "lost engin 2"), 1, "the scenario with a fault:7:6: refused BadLine 7"),
                (("--fault", "lost 0 2\nlost 1 2"), 2, "--fault takes one line of a scenario"),
                (("--each-fault-of", "dashboard", "--fault-slots", "s1", "--kinds", "lost"), 2,
                 "no fault is selected that can have an effect")):
            with self.subTest(words=words):
                found, _, error = self.asked("signals", *EXAMPLE, "brake.speed", *words)
                self.assertEqual((found, told in error), (status, True), error)


class TestDrawing(unittest.TestCase):
    def test_marks(self) -> None:
        self.assertEqual(ticks_of(0, 10, 6), [0, 2, 4, 6, 8, 10])
        self.assertEqual(ticks_of(-1, 1, 6), [-1, -0.5, 0, 0.5, 1])
        self.assertEqual(ticks_of(3, 3, 6), [])
        self.assertEqual(ticks_of(-1e308, 1e308, 6), [])

    def test_units_of_times(self) -> None:
        """The unit is the greatest of which the axis has two."""
        for last, macrotick, unit, size in ((100, None, "MT", 1.0), (1000, 1.0, "us", 1.0), (2000, 1.0, "ms", 1000.0),
                                            (1000, 2.0, "ms", 500.0), (2_000_000, 1.0, "s", 1_000_000.0)):
            found = Axis.of(0, last, macrotick)
            self.assertEqual((found.unit, found.size), (unit, size))

    def test_many_steps_at_one_place(self) -> None:
        """The first, the highest, the lowest and the last one are drawn."""
        pen = Pen()
        pen.go("1", 5)
        for y in (9, 3, 8, 1, 7, 6):
            pen.go("1", y)
            pen.draw("1")
        pen.draw("2")
        self.assertEqual(pen.path(), "M1 5V9V1V8V6H2")


if __name__ == "__main__":
    unittest.main()
