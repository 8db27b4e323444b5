"""The page of a run: its data, its scripts, and what it shows after each step of a walk.

Expected values come from `fr_view` and by hand from the run of tests/shows.py.
"""
import importlib
import json
import os
import re
import subprocess
import sys
import unittest
from html.parser import HTMLParser
from pathlib import Path
from random import Random

from musmyrtle.program import usual_program
from musmyrtle.show.page import FILES, SCRIPTS, SIGNAL_SCRIPTS
from tests.pages import HERE, SCRIPT, Pages, needs_node, unpacked, view
from tests.shows import EXAMPLES, FIRST, IDLE_NOTE, NETWORK, SCENE, THREE, WITH_IDLE
from tests.test_visible_output import IN_TOML, SPELLED

TOP = Path(__file__).resolve().parents[2]
RANDOM_RUNS = 8
NAMES = ('<b>&\\"]]>', "</script><script>alert(1)</script>", "<!--<script>", IN_TOML, "n" * 10000)
EMPTY = ("meta", "input", "br", "link", "img")
COLUMNS = ("window_cycle", "window_minislot", "window_begin", "window_slot_A", "window_length_A", "window_slot_B",
           "window_length_B")
"""The columns of the words of a line of `fr_view windows` after the first."""


def columns_of(windows: list[str]) -> dict[str, list[int]]:
    """Returns the columns of the lines of `fr_view windows`. An absent number is 0."""
    words = [[0 if it == "-" else int(it) for it in line.split(" ")[1:]] for line in windows]
    return {name: [its[place] for its in words] for place, name in enumerate(COLUMNS)}


class Structure(HTMLParser):
    """The elements of a page: its tags in order, whether all are closed, and the texts of its scripts."""

    def __init__(self, text: str) -> None:
        super().__init__()
        self.tags: list[tuple[str, dict[str, str | None]]] = []
        self.open: list[str] = []
        self.feed(text)
        self.close()

    def handle_starttag(self, tag: str, attrs: list[tuple[str, str | None]]) -> None:
        self.tags.append((tag, dict(attrs)))
        if tag not in EMPTY:
            self.open.append(tag)

    def handle_endtag(self, tag: str) -> None:
        if self.open[-1:] == [tag]:
            self.open.pop()


@needs_node
class Data(Pages):
    def compared(self, run: list[str], page: str) -> None:
        """Compares the data of a page with what `fr_view` prints."""
        cluster, scenario, _, cycles = run
        found = self.facts(page)[0]
        idle = list[int]()
        for command in ("record", "commits", "answers"):
            lines, idle = view(command, cluster, scenario, cycles)
            self.assertEqual(found[command], lines)
        self.assertEqual(found["idle"], idle)
        windows, _ = view("windows", cluster, scenario, cycles)
        self.assertEqual(found["windows"], columns_of(windows))
        begins = {words[1]: int(words[3]) for words in (line.split(" ") for line in reversed(windows))}
        self.assertEqual(found["cycles"][:-1], [begins[str(it)] for it in range(int(cycles))])
        outcome, _ = view("outcome", cluster, scenario, cycles)
        counts = [[int(it) for it in line.split(" ")[2:]] for line in outcome if line[:2] in ("A ", "B ")]
        self.assertEqual([its for node in found["counts"] for its in node], counts)
        self.assertEqual(found["tables"], [sum(one + other) for one, other in zip(counts[::2], counts[1::2])])
        keys = "node cycle call sender sender_buffer commit_cycle"
        told = "".join(f"line {it} struck nothing\n" for it in idle)
        self.assertEqual(list(map(tuple, found["sources"])), self.values("call", keys, "reads", *run, told=told))
        self.assertEqual(found["stored"], [row for node in range(len(found["counts"]))
                                           for row in self.stored(run, node)])

    def stored(self, run: list[str], node: int) -> list[list[object]]:
        """Returns what a node stored by its table of frames: node, time, channel and receivers."""
        cluster, scenario, _, cycles = run
        trace, _ = view("trace", cluster, scenario, cycles, str(node))
        program = os.environ.get("MUSMYRTLE_VIEW") or usual_program("fr_view") or "fr_view"
        table = subprocess.run([program, "frames", "--all"], input="".join(f"{it}\n" for it in trace), text=True,
                               capture_output=True, check=True).stdout
        rows = (line.split(" ") for line in table.splitlines()[1:])
        return [[node, int(words[0]), words[3], words[8]] for words in rows if words[8] != "-"]

    def test_examples(self) -> None:
        for name, cycles in (("three-nodes", "4"), ("divided-slot", "4"), ("vehicle", "8")):
            with self.subTest(name):
                run = [str(EXAMPLES / name / "cluster.toml"), str(EXAMPLES / name / "scenario"), "--cycles", cycles]
                self.compared(run, self.page(*run))

    def test_the_run_of_two_nodes(self) -> None:
        run = self.run_of()
        self.compared(run, self.page(*run))

    def test_cycles_and_minislots(self) -> None:
        """A cycle has 100 macroticks. Ten minislots of 5 come after two static slots of 20. The run ends at 200."""
        run = self.run_of()
        page = self.page(*run)
        self.assertEqual(self.facts(page)[0]["cycles"], [0, 100, 200])
        header = unpacked(Path(page).read_text(encoding="utf-8"))[0]
        self.assertEqual(header["minislots"], [40, 45, 50, 55, 60, 65, 70, 75, 80, 85, 90])
        self.assertNotIn("params", header)

    def test_withdrawn_and_overwritten_commits(self) -> None:
        scene = SCENE.replace("frscenario 1", "frscenario 2").replace("read 1 0 1 1\n", (
            "withdraw 1 0 0 2\nwithdraw 1 0 0 2\ncommit 1 0 0 2 x3333\ncommit 1 0 1 2 x4444\nread 1 0 1 1\n"))
        run = self.run_of(scene=scene)
        commits, _ = view("commits", run[0], run[1], "2")
        self.assertEqual([it.split(" = ")[1].split(" ")[0] for it in commits if it.startswith("1 2 ")],
                         ["withdrawn", "overwritten", "pending"])
        self.compared(run, self.page(*run))

    def test_random_runs(self) -> None:
        sys.path.insert(0, str(TOP / "fuzz"))
        try:
            lawful = importlib.import_module("hostile_inputs.lawful")
        finally:
            sys.path.pop(0)
        compared = 0
        for number in range(100 * RANDOM_RUNS):
            random = Random(f"page {number}")
            made, cycles = lawful.Cluster(random), random.randint(1, 6)
            run = [self.written("cluster.toml", made.text().decode()),
                   self.written("scenario", made.scenario(cycles).decode()), "--cycles", str(cycles)]
            status, text, _ = self.asked("page", *run)
            if status == 0 and compared < RANDOM_RUNS:
                with self.subTest(number):
                    self.compared(run, self.written("run.html", text))
                compared += 1
            if compared == RANDOM_RUNS:
                break
        self.assertEqual(compared, RANDOM_RUNS)


@needs_node
class Scripts(Pages):
    def test_logic(self) -> None:
        """Views, lanes, hits and searches; page/logic.js has the tests."""
        scene = f"frscenario 3\ncommit pedal 0 0 log {FIRST}\ncorrupt A 0 m* 0\nend\n"
        bits = self.page(*self.run_of(scene=scene), name="bits.html")
        self.ran("logic.js", self.page(*self.run_of(scene=WITH_IDLE), told=IDLE_NOTE), bits)

    def test_all_that_can_be_chosen(self) -> None:
        """Each node, buffer, commit, slot and fault of some runs, and many windows, are shown and painted."""
        pages = [self.page(*self.run_of(), name="two.html"), self.page(name="three.html")]
        for name in ("divided-slot", "vehicle"):
            run = (str(EXAMPLES / name / "cluster.toml"), str(EXAMPLES / name / "scenario"), "--cycles", "8")
            pages.append(self.page(*run, name=f"{name}.html"))
        counts = [int(it) for it in self.ran("explored.js", *pages).splitlines()]
        # Two nodes, seven choices of buffers and the FIFO, five commits, two faults, and both channels of 24 windows,
        # besides the slots.
        self.assertGreater(counts[0], 2 + 7 + 5 + 2 + 48)
        self.assertEqual(len(counts), len(pages))

    def test_the_way_of_a_commit_in_three_clicks(self) -> None:
        """The pedal's commit of cycle 1 leads to its receiver and time."""
        page = self.page(*self.run_of())
        shown = self.walked(page, "click nodes pedal", "click details cycle 1")[-1]
        # Slot 3 opens at macrotick 40 of its cycle, which is 80 us after its start at 200 us.
        self.assertIn("sent inatafter the start of the commit's cycleslotchannelwhat came of itreceivers"
                      "cycle 1280 µs80 µs3Aarrivedbrake (1) FIFO", shown["details"])
        self.assertIn("pedal (0) sendsbrake (1) receives", shown["nodes"])

    def test_the_way_to_the_call_that_reads(self) -> None:
        """The brake reads in cycle 1, from 200 us on, what the pedal committed in cycle 0, and leads there and back."""
        _, _, commit, brake, back = self.walked(self.page(*self.run_of()), "click nodes pedal", "click details cycle 0",
                                                "click details brake", "click details cycle 0 of pedal")
        self.assertIn("brake (1)0cycle 1readbrake (1) position (1)200 µs200 µs", commit["details"])
        self.assertIn("10readposition (1)x0001 of cycle count 0, slot 1, channel Acycle 0 of pedal (0)",
                      brake["details"])
        self.assertEqual(back["details"], commit["details"])

    def test_commits_that_ended(self) -> None:
        """The brake's frame has no receiver, and its slot 4 opens at minislot 5, above the latest one."""
        shown = self.walked(self.page(*self.run_of()), "click nodes brake")[-1]
        self.assertIn("force (0)x1111sent on A, and stored nowhere, in cycles 0-1", shown["details"])
        self.assertIn("state (2)x2222slot 4 opened at minislot 5, latest is 3, in cycles 0-1", shown["details"])

    def test_what_buffers_hold(self) -> None:
        """The brake's entries 0 and 1 are its commits, and 2 and 3 the fetch and the observation of slot 1."""
        shown = self.walked(self.page(*self.run_of()), "click nodes brake")[-1]
        self.assertIn("position (1)receive1ABevery cycleholds x0001, received on A (entry 3)", shown["details"])
        self.assertIn("unused (3)receive5Bevery cycleholds nothing", shown["details"])

    def test_slots_and_windows(self) -> None:
        page = self.page(*self.run_of())
        _, _, slot, window = self.walked(page, "find slot 3", "click results slot 3", "click details 1")
        self.assertIn("On A it may be used by pedal (0) in every cycle.", slot["details"])
        self.assertIn("What it carried (2)", slot["details"])
        self.assertIn("Slot 3 on A in cycle 1, minislot 1It begins at 280 µs and takes 40 µs.", window["details"])
        self.assertIn("What each node received (2)nodeobservationcounted asstored inpedal (0)own"
                      "brake (1)framevalidFIFO",
                      window["details"])

    def test_faults_and_errors(self) -> None:
        page = self.page(*self.run_of(scene=WITH_IDLE), told=IDLE_NOTE)
        first, effect, idle, error, collision, none = self.walked(
            page, "click faults line 9", "click faults line 10", "click next-error", "press C", "press n")
        self.assertIn("line 9: babble brake (1) B 0 s1 x001 windowline 10: corrupt B 0 m9 0no effect", first["faults"])
        self.assertEqual(first["errors"], "Errors that nodes countednodeallcycle 0cycle 1pedal (0)110brake (1)110")
        self.assertIn("It took effect in 1 window.", effect["details"])
        self.assertIn("It had no effect in the whole run.", idle["details"])
        self.assertEqual(error["status"], "Slot 1 on B in cycle 0")
        self.assertIn("pedal (0)conflictconflictbrake (1)conflictconflict", error["details"])
        self.assertEqual(collision["status"], "There is no earlier collision.")
        self.assertEqual(none["status"], "There is no later error.")

    def test_faults_on_both_channels(self) -> None:
        """A line for both channels is one fault, and has an effect if it has one on either. Brake is lost in slot 2 on
        both channels, where it sends `force` on A and a null frame on B."""
        lines = f"commit pedal 0 0 log {FIRST}\nmute pedal AB 0 d3\ncorrupt AB 1 m9 0\nlost brake 1\n"
        page = self.page(*self.run_of(scene=f"frscenario 3\n{lines}end\n"), told="line 4 struck nothing\n")
        first, both, lost = self.walked(page, "click faults line 3", "click faults line 5")
        self.assertIn("line 3: mute pedal (0) AB 0 d31 windowline 4: corrupt AB 1 m9 0no effect"
                      "line 5: lost brake (1) 11 window", first["faults"])
        self.assertIn("It took effect in 1 window.", both["details"])
        self.assertIn("It took effect in 1 window.Where it took effect (2)", lost["details"])

    def test_the_view(self) -> None:
        shown = self.walked(self.page(*self.run_of()), "press 1", "press 0", "press +", "press Home", "press End",
                            "click whole", "press PageDown")
        self.assertEqual([it["view"] for it in shown][:3], [[0, 200], [100, 100], [0, 200]])
        for value, expected in zip(shown[3]["view"], (200 / 6, 200 / 1.5)):
            self.assertAlmostEqual(value, expected)
        self.assertEqual(shown[6]["view"], [0, 200])
        self.assertEqual(shown[4]["view"][0], 0)
        self.assertAlmostEqual(sum(shown[5]["view"]), 200)
        self.assertEqual(shown[1]["label"], "Time axis from 200 µs to 400 µs. A table below lists what is in view.")
        self.assertTrue(shown[1]["inView"].startswith("5 lines of the record from 200 µs to 400 µs."),
                        shown[1]["inView"])

    def test_the_pointer(self) -> None:
        """The axis begins at pixel 130 and has 1,000 pixels for 200 macroticks, so that a macrotick is 5 pixels wide.
        """
        chosen, closer, moved, sideways, same = self.walked(
            self.page(*self.run_of()), "drag 340 340 60", "turn 630 -462.098", "drag 630 530 60", "turn 630 100 shift",
            "drag 630 630 10")[1:]
        # Pixel 340 is macrotick 42 of channel A, in slot 3.
        self.assertEqual(chosen["status"], "Slot 3 on A in cycle 0, minislot 1")
        # The wheel makes 200 macroticks to 200 * exp(-462.098 * 0.0015), which is 100, around the middle.
        for shown, expected in ((closer, (50, 100)), (moved, (60, 100)), (sideways, (70, 100)), (same, (70, 100))):
            for value, wanted in zip(shown["view"], expected):
                self.assertAlmostEqual(value, wanted, 2)
        # Nothing is at the axis.
        self.assertEqual(same["status"], chosen["status"])

    def test_the_focus(self) -> None:
        """A button that is replaced gives its focus to the heading of the details; other buttons keep theirs."""
        shown = self.walked(self.page(*self.run_of()), "click faults line 9", "click details 0", "click in-view 0",
                            "click nodes pedal")
        self.assertEqual([it["focus"] for it in shown[1:]],
                         ["line 9: babble brake (1) B 0 s1 x00", "chosen", "chosen", "pedal (0)"])

    def test_data_that_are_broken(self) -> None:
        page = Path(self.page(*self.run_of()))
        page.write_text(page.read_text(encoding="utf-8").replace('id="data">', 'id="data">eJ'), encoding="utf-8")
        self.assertRegex(self.ran("opened.js", str(page)), r"\AThe page can't be shown: .*\. It opens in a current "
                                                           r"Firefox or Chromium\.\Z")

    def test_the_text_at_the_pointer(self) -> None:
        texts = json.loads(self.ran("hovered.js", self.page(*self.run_of()), "0 0", "0 1", "1 1", "2 0"))
        self.assertEqual(texts, [
            "Slot 1 on A in cycle 0\npedal (0): data frame, arrived",
            "Slot 1 on B in cycle 0\npedal (0): data frame, collided\n"
            "brake (1): babble, bytes that are no frame, collided",
            "Slot 2 on B in cycle 0\nbrake (1): null frame, arrived",
            "Slot 3 on A in cycle 0, minislot 1\npedal (0): data frame, arrived"])

    def test_what_is_painted(self) -> None:
        """Texts of the picture, on the screen and on paper."""
        painted = json.loads(self.ran("painted.js", self.page(*self.run_of())))
        for texts in painted:
            for text in ("cycle 0", "cycle 1", "0 µs", "Channel A", "Channel B", "at brake (1)", "1: pedal (0)"):
                self.assertIn(text, texts)
        self.assertEqual(painted[0], painted[1])


class Page(Pages):
    def test_is_one_file_that_asks_for_nothing(self) -> None:
        text = Path(self.page()).read_text(encoding="utf-8")
        self.assertIsNone(re.search(r"\b(?:src|href)=|https?:|@import|url\(|\bfetch\(|XMLHttp|WebSocket", text))
        self.assertIn("default-src 'none'", text)
        data, script = SCRIPT.findall(text)
        self.assertRegex(data, r"\A[A-Za-z0-9+/]+=*\Z")
        self.assertIn("class Explorer", script)
        structure = Structure(text)
        self.assertEqual(structure.open, [])

    def test_controls_have_names(self) -> None:
        """Each control has a text, a label or an ARIA label, for screen readers."""
        text = Path(self.page()).read_text(encoding="utf-8")
        tags = Structure(text).tags
        labelled = [its["for"] for tag, its in tags if tag == "label"]
        for tag, its in tags:
            if tag in ("select", "input", "canvas", "section"):
                self.assertTrue(its.get("aria-label") or its.get("id") in labelled or its.get("aria-describedby"), its)
        self.assertEqual(re.findall(r"<button[^>]*></button>", text), [])
        self.assertTrue(any(its.get("aria-live") == "polite" for _, its in tags))

    def test_scripts(self) -> None:
        """Lines, functions and files keep the limits, each function has a comment, and nothing ends the script."""
        self.assertEqual({it.stem for it in FILES.glob("*.js")}, {*SCRIPTS, *SIGNAL_SCRIPTS})
        for name in SCRIPTS + SIGNAL_SCRIPTS:
            lines = (FILES / f"{name}.js").read_text(encoding="utf-8").split("\n")
            self.assertLess(len(lines), 800)
            begun = 0
            for number, line in enumerate(lines):
                with self.subTest(f"{name}.js:{number + 1}"):
                    self.assertLessEqual(len(line), 120)
                    self.assertIsNone(re.search(r"</script|<!--|innerHTML|eval\(", line))
                    if re.match(r"(?:async )?function |class |  (?:async )?(?!if|for|while)\w+\(.*\) \{$", line):
                        begun = number
                        self.assertTrue(lines[number - 1].endswith("*/"), line)
                    if re.match(r" {0,2}\}$", line):
                        self.assertLess(number - begun, 40)

    def test_lines_of_the_other_files(self) -> None:
        for file in (*sorted(FILES.glob("*.html")), *sorted(FILES.glob("*.css")), *sorted(HERE.glob("*.js"))):
            for number, line in enumerate(file.read_text(encoding="utf-8").split("\n"), 1):
                self.assertLessEqual(len(line), 120, f"{file.name}:{number}")

    def test_names_that_look_like_markup(self) -> None:
        for name in NAMES:
            text = NETWORK.replace('"pedal"', f'"{name}"').replace('"log"', f'"{name}"')
            page = Path(self.page(*self.run_of(text))).read_text(encoding="utf-8")
            with self.subTest(name[:20]):
                self.assertEqual(len(SCRIPT.findall(page)), 2)
                self.assertEqual(Structure(page).open, [])
                self.assertTrue(all(it.isprintable() for it in page.replace("\n", "")))

    @needs_node
    def test_names_as_they_are_shown(self) -> None:
        for name, shown in zip(NAMES, ('<b>&"]]> (0)', f"{NAMES[1]} (0)", "<!--<script> (0)", f"{SPELLED[:40]}.. (0)",
                                       f"{'n' * 40}.. (0)")):
            text = NETWORK.replace('"pedal"', f'"{name}"').replace('"log"', f'"{name}"')
            page = self.page(*self.run_of(text))
            with self.subTest(name[:20]):
                self.assertEqual(self.walked(page, "click nodes brake", "find payload 0101",
                                             "click results")[1]["nodes"], f"{shown}brake (1)")

    def test_names_of_files(self) -> None:
        cluster = self.written('<b>"&\x1b.toml', NETWORK)
        page = self.printed("page", cluster, self.written("scenario", SCENE), "--cycles", "2")
        self.assertRegex(page, r"<title>Run of [^<]*&lt;b&gt;&quot;&amp;\\x1b.toml</title>")
        self.assertNotIn("\x1b", page)

    def test_refusals(self) -> None:
        status, output, told = self.asked("page", *self.run_of(NETWORK.replace("idle = 0", "idle = 3")))
        self.assertEqual((status, output, told.split("\n")[0]), (1, "", "musmyrtle: refused Params OutOfRange idle"))
        self.assertEqual(self.asked("page", *THREE[:2])[0], 2)


if __name__ == "__main__":
    unittest.main()
