"""Expectations of scenarios: what the package reads, writes and prints of them, and what other commands do with them.

The runs are those of the programs, or of `judging` as long as the programs refuse such lines.
"""
import csv
import io
import json
import os
import subprocess
from pathlib import Path
from typing import Any
from unittest.mock import patch

from musmyrtle import Scenario, World
from musmyrtle.faults.answers import Answer as RunAnswer
from musmyrtle.missed import Miss, miss_of, misses_of
from musmyrtle.names import Names
from musmyrtle.program import VARIABLES, ask
from musmyrtle.scenario import Reading
from tests import judging
from tests.pages import Pages, needs_node
from tests.shows import FIRST, IDLE_NOTE, NETWORK, SCENE, SECOND, WITH_IDLE, Shows

BUFFER = "brake 0-1 position"
NONE = "expect-none brake * unused\n"
MET = f"""expect {BUFFER} x0001   # it comes on A
{NONE}expect 1 1 position x0001
"""
MISSES = (
    "expect brake * position x0002\n", f"expect {BUFFER} x0001\n", "expect-none brake 1 position\n",
    "expect brake 0-1/2 unused x0003\n", "expect 3 * 0 x0001\n", "expect-none pedal 1 63\n",
    "expect 0 0 position x0001\n", "expect brake 2-9 position x0009\n",
)
TOLD = """line {0}: node 1 buffer 1 at the end of cycle 0: expected x0002, found x0001 (and in 1 other cycle)
line {2}: node 1 buffer 1 at the end of cycle 1: expected nothing, found x0001
line {3}: node 1 buffer 3 at the end of cycle 0: expected x0003, found nothing
line {4}: node 3 buffer 0 at the end of cycle 0: expected x0001, found no receive buffer (and in 1 other cycle)
line {5}: node 0 buffer 63 at the end of cycle 1: expected nothing, found no receive buffer
line {6}: node 0 buffer 0 at the end of cycle 0: expected x0001, found no receive buffer
"""
NAMED = """line {0}: brake (1) position (1) at the end of cycle 0: expected x0002, found x0001 (and in 1 other cycle)
line {2}: brake (1) position (1) at the end of cycle 1: expected nothing, found x0001
line {3}: brake (1) unused (3) at the end of cycle 0: expected x0003, found nothing
line {4}: node 3 buffer 0 at the end of cycle 0: expected x0001, found no receive buffer (and in 1 other cycle)
line {5}: pedal (0) buffer 63 at the end of cycle 1: expected nothing, found no receive buffer
line {6}: pedal (0) position (0) at the end of cycle 0: expected x0001, found no receive buffer
"""
"""The same, as `musmyrtle` passes it on."""
LEFT_OUT = "line {7} names no cycle of the run\n"
BEGIN = WITH_IDLE.replace("frscenario 1", "frscenario 3").removesuffix("end\n")
FIRST_LINE = BEGIN.count("\n") + 1


def scene(*lines: str) -> str:
    return BEGIN + "".join(lines) + "end\n"


def numbered(text: str) -> str:
    """Returns a text with the numbers of the lines of `MISSES`."""
    return text.format(*range(FIRST_LINE, FIRST_LINE + len(MISSES)))


class Expecting(Shows):
    """Commands that run programs which know expectations."""

    def setUp(self) -> None:
        super().setUp()
        found = judging.variables(self.folder)
        self.programs = {name: found[variable] for name, variable in VARIABLES.items() if variable in found}
        changed = patch.dict(os.environ, found)
        changed.start()
        self.addCleanup(changed.stop)

    def missing(self) -> list[str]:
        return self.run_of(scene=scene(*MISSES))


class Programs(Expecting):
    """Lines worked out by hand. The scenario itself is explained in `shows`."""

    def ran(self, name: str, command: str, *words: str) -> tuple[bytes, str, int]:
        ran = subprocess.run([self.programs[name], command, *words], capture_output=True)
        return ran.stdout, ran.stderr.decode(), ran.returncode

    def test_the_output_is_the_usual_one(self) -> None:
        without, missing = self.run_of(), [*self.missing()]
        missing[1], without[1] = self.written("missing", scene(*MISSES)), self.written("without", scene())
        for name, command in (("fr_bench", "run"), *(("fr_view", it) for it in (
                "outcome", "answers", "commits", "record", "bus", "matrix"))):
            with self.subTest(name=name, command=command):
                output, told, status = self.ran(name, command, *missing)
                self.assertEqual((output, status), (self.ran(name, command, *without)[0], 3))
                self.assertEqual(told, numbered(f"{LEFT_OUT}{IDLE_NOTE}{TOLD}"))
        self.assertEqual(self.ran("fr_view", "trace", "1", *missing)[2], 3)

    def test_met(self) -> None:
        self.assertEqual(self.ran("fr_bench", "run", *self.run_of(scene=scene(MET)))[1:], (IDLE_NOTE, 0))

    def test_none_of_the_run(self) -> None:
        run = self.run_of(scene=scene("expect-none 9 2-3 9\n", "expect 1 5 1 x\n"))
        told = f"line 11 names no cycle of the run\nline 12 names no cycle of the run\n{IDLE_NOTE}"
        self.assertEqual(self.ran("fr_bench", "run", *run)[1:], (told, 0))

    def test_frames_come_and_are_replaced(self) -> None:
        """The buffer is for slot 3, in which FIRST is sent in cycle 0, and SECOND in cycle 1."""
        cluster = NETWORK.replace('slot = 5, channels = "B"', 'slot = 3, channels = "AB"')
        run = self.run_of(cluster, scene(f"expect brake 0 unused {FIRST}\nexpect brake 1 unused {SECOND}\n"
                                         f"expect brake 0-1 unused {SECOND}\n"))
        told = f"{IDLE_NOTE}line 13: node 1 buffer 3 at the end of cycle 0: expected {SECOND}, found {FIRST}\n"
        self.assertEqual(self.ran("fr_bench", "run", *run)[1:], (told, 3))


class Tables(Expecting):
    def test_missed(self) -> None:
        status, output, told = self.asked("run", *self.missing(), "--json")
        self.assertEqual((status, told), (3, numbered(LEFT_OUT)))
        found = [json.loads(line) for line in output.splitlines()]
        keys = "line node node_name buffer buffer_name cycle expected found others".split()
        self.assertEqual([tuple(it[key] for key in keys) for it in found if it["kind"] == "missed"], [
            (11, 1, "brake", 1, "position", 0, "x0002", "x0001", 1),
            (13, 1, "brake", 1, "position", 1, "nothing", "x0001", 0),
            (14, 1, "brake", 3, "unused", 0, "x0003", "nothing", 0),
            (15, 3, None, 0, None, 0, "x0001", "no receive buffer", 1),
            (16, 0, "pedal", 63, None, 1, "nothing", "no receive buffer", 0),
            (17, 0, "pedal", 0, "position", 0, "x0001", "no receive buffer", 0)])

    def test_missed_in_other_forms(self) -> None:
        status, output, _ = self.asked("run", *self.missing(), "--csv")
        rows = [it for it in csv.DictReader(io.StringIO(output)) if it["kind"] == "missed"]
        self.assertEqual((status, [it["expected"] for it in rows][:2], rows[3]["node_name"]),
                         (3, ["x0002", "nothing"], ""))
        status, output, _ = self.asked("run", *self.missing())
        self.assertEqual(status, 3)
        part = output.split("\n\n")[1].splitlines()
        self.assertEqual(part[0], "Expectations that the run missed")
        self.assertEqual([line.split() for line in part[1:4]], [
            "line node buffer cycle expected found other cycles".split(),
            "11 brake (1) position (1) 0 x0002 x0001 1".split(), "13 brake (1) position (1) 1 nothing x0001 0".split()])

    def test_met(self) -> None:
        output = self.printed("run", *self.run_of(scene=scene(MET)))
        self.assertEqual(output.split("\n\n")[1], "Each expectation was met.")
        self.assertEqual(self.rows("missed", "run", *self.run_of(scene=scene(MET))), [])
        self.assertNotIn("xpectation", self.printed("run", *self.run_of()))

    def test_other_commands(self) -> None:
        """They print what is missed once, however many runs they do."""
        for words in (("log",), ("commits", "--json"), ("reads",), ("page",)):
            with self.subTest(words):
                status, output, told = self.asked(words[0], *self.missing(), *words[1:])
                self.assertEqual((status, told), (3, numbered(f"{LEFT_OUT}{IDLE_NOTE}{NAMED}")))
                self.assertTrue(output)


@needs_node
class OnPages(Expecting, Pages):
    def shown(self, scenario: str, *steps: str) -> list[dict[str, Any]]:
        """Returns what the page of a run shows at first and after some steps."""
        _, page, _ = self.asked("page", *self.run_of(scene=scenario))
        return self.walked(self.written("run.html", page), *steps)

    def test_missed(self) -> None:
        """Each row leads to its buffer and to its cycle. A buffer that is missing leads nowhere."""
        first, buffer, cycle = self.shown(scene(*MISSES), "click missed brake (1) position", "click missed cycle 1")
        rows = ("line 11brake (1) position (1)cycle 0x0002x0001and in 1 other cycle"
                "line 13brake (1) position (1)cycle 1nothingx0001line 14brake (1) unused (3)cycle 0x0003nothing"
                "line 15node 3 buffer 0cycle 0x0001no receive bufferand in 1 other cycle")
        self.assertTrue(first["missed"].startswith("Expectations that the run missed (6)"), first["missed"])
        self.assertIn(rows, first["missed"])
        self.assertIn("It stored 1 frame in the run.", buffer["details"])
        self.assertIn("Cycle 1It begins at 200 µs and takes 200 µs.", cycle["details"])

    def test_met(self) -> None:
        self.assertEqual(self.shown(scene(MET))[0]["missed"], "Each expectation of the scenario was met.")
        self.assertEqual(self.shown(SCENE)[0]["missed"], "")


class Lints(Expecting):
    def linted(self, lines: tuple[str, ...], *words: str, cluster: str = NETWORK) -> tuple[int | str, list[Any], str]:
        run = self.run_of(cluster, scene(*lines))
        status, output, told = self.asked("lint", *run, "--json", *words)
        found = [json.loads(line) for line in output.splitlines()]
        warnings = [(it["line"], it["column"], it["name"], it["headline"]) for it in found
                    if it["kind"] == "warning" and "expectation" in it["name"]]
        return status or 0, warnings, told

    def test_each_line(self) -> None:
        status, warnings, told = self.linted(MISSES, "--strict")
        self.assertEqual((status, told), (4, ""))
        wrong, missed = "wrong-expectation", "missed-expectation"
        self.assertEqual(warnings, [
            (12, None, wrong, "lines 11 and 12 expect different contents in cycle 0"),
            (13, None, wrong, "lines 11 and 13 expect different contents in cycle 1"),
            (14, 20, wrong, "nothing comes to buffer 3 of node 1"),
            (15, 8, wrong, "there is no node 3"),
            (16, 21, wrong, "node 0 has no buffer 63"),
            (17, 12, wrong, "`expect` names buffer 0 of node 0, which is of kind event"),
            (11, None, missed, "buffer 1 of node 1 holds x0001 at the end of cycle 0")])

    def test_payloads(self) -> None:
        """In a static slot each frame has `static_words`, and in a dynamic one those of its senders' buffers."""
        cluster = NETWORK.replace('slot = 5, channels = "B"', 'slot = 3, channels = "AB"')
        lines = ("expect 1 1 1 x00010002\n", f"expect 1 1 3 {FIRST}\n", "expect 1 0 3 x0101\n", "expect 1 0 1 x\n")
        warnings = [it for it in self.linted(lines, cluster=cluster)[1] if it[2] == "wrong-expectation"]
        static = "the payload has {} bytes, and frames that buffer 1 of node 1 receives have 2"
        self.assertEqual([it[3] for it in warnings], [
            static.format(4), "the payload has 2 bytes, and frames that buffer 3 of node 1 receives have 32",
            static.format("no")])
        idle = self.linted(("expect brake 0 unused x0001\n",))[1]
        self.assertEqual([it[1:] for it in idle], [(16, "wrong-expectation", "nothing comes to buffer 3 of node 1")])

    def test_payloads_that_a_node_may_babble(self) -> None:
        """A babble may be any frame, but in a static slot one of another length isn't valid."""
        lines = ("expect 1 1 1 x00010002\n", "expect 1 0 3 x01010101\n", "babble 0 B * d5 x00\n")
        for babble, wanted in ((lines[2], [11]), ("babble 0 B * s* x00\n", [11, 12]),
                               ("babble 0 B * m3 x\n", [11, 12]), ("babble 0 A * m* x00\n", [11, 12]),
                               ("babble 0 AB 1 * x00\n", [11])):
            warnings = self.linted((*lines[:2], babble))[1]
            self.assertEqual([it[0] for it in warnings if it[2] == "wrong-expectation"], wanted)

    def test_met(self) -> None:
        self.assertEqual(self.linted((MET,)), (0, [], ""))

    def test_left_out(self) -> None:
        status, warnings, told = self.linted(("expect 1 2-3 1 x0001\n",))
        self.assertEqual((status, warnings, told), (0, [], ""))

    def test_names_that_are_allowed(self) -> None:
        names = "wrong-expectation", "missed-expectation"
        self.assertEqual(self.linted(MISSES, *(it for name in names for it in ("--allow", name)))[:2], (0, []))


class Campaigns(Expecting):
    def test_a_campaign_is_as_without(self) -> None:
        """The first line has the expectations that the run without a fault misses, and the status is 3."""
        words = ["--cycles", "2", "--kinds", "lost", "--cores", "2", "--program", self.programs["fr_view"]]
        cluster = self.written("cluster.toml", NETWORK)
        found = []
        for name, lines in (("without", ()), ("missing", MISSES)):
            status, output, told = self.asked("faults", cluster, self.written(name, scene(*lines)), *words)
            found.append((status, output))
            missed = numbered(NAMED).rstrip().replace("\n", "; ")
            first = f"musmyrtle faults: the run without a fault misses 6 expectations: {missed}\n{LEFT_OUT}"
            self.assertEqual(told.partition("kind ")[0], numbered(first if lines else "") + IDLE_NOTE)
        self.assertEqual(found[0][1], found[1][1])
        self.assertEqual((found[0][0], found[1][0], found[0][1].count("\n") > 1), (0, 3, True))

    def test_the_status_of_a_campaign(self) -> None:
        """A run without an answer comes before what was missed. The list of faults needs the run without one, too."""
        words = ["--cycles", "2", "--kinds", "lost", "--cores", "1", "--program", self.programs["fr_view"]]
        cluster, missing = self.written("cluster.toml", NETWORK), self.written("missing", scene(*MISSES))
        for more, expected in ((["--list"], 3), (["--fail-on", "lost"], 3), (["--nodes", "9"], 2)):
            self.assertEqual(self.asked("faults", cluster, missing, *words, *more)[0], expected)

    def test_answers(self) -> None:
        told = "line 12: node 1 buffer 1 at the end of cycle 0: expected x, found nothing\n"
        self.assertIsNone(RunAnswer(3, "", told).failure)
        self.assertIsNone(RunAnswer(3, "", f"line 9 struck nothing\n{told}").failure)
        self.assertEqual(RunAnswer(3, "", "line 12\n").failure, ("unreadable", "status 3: line 12"))
        self.assertEqual(RunAnswer(3, "", "").failure, ("unreadable", "status 3"))


class Sessions(Shows):
    def test_a_session_refuses_them(self) -> None:
        cluster = self.written("cluster.toml", NETWORK)
        with World(cluster, 2) as world:
            with self.assertRaisesRegex(ValueError, "^scenario line 11: no session judges `expect`. Leave the line"):
                world.play_scenario(scene(MET), 2)
            with self.assertRaisesRegex(ValueError, "^no fault line: `expect 1 0 1 x0001`"):
                world.keep("expect 1 0 1 x0001")
            now = world.now()
            self.assertEqual((now and now.number, world.transcript().count("\n")), (0, 1))
            world.play_scenario(scene("expect 1 2 1 x0001\n"), 2)


class Written(Expecting):
    def test_expectations(self) -> None:
        made = Scenario(self.written("cluster.toml", NETWORK), cycles=6)
        made.task("pedal").commit("position", b"\0\7")
        made.expect("brake", "position", b"\0\7")
        made.expect(1, "unused", [b"\1\1", b"\1\1", b"\2\2"], cycles=range(1, 4))
        made.expect_none(1, 3, cycles=[0, 2, 4, 9])
        made.lose("brake", cycles=2)
        self.assertEqual(made.text(), "frscenario 3\ncommit 0 0 * 0 x0007\nlost 1 2\nexpect 1 * 1 x0007\n"
                                      "expect 1 1-2 3 x0101\nexpect 1 3 3 x0202\nexpect-none 1 0-4/2 3\nend\n")
        for wrong in (lambda: made.expect("brake", "nothing", b""), lambda: made.expect("brake", 64, b""),
                      lambda: made.expect("brake", 1, b"\0"),
                      lambda: made.expect("brake", 1, [b"\0\0"], cycles=[0, 1]),
                      lambda: made.expect_none(16, 0), lambda: made.expect_none(0, 0, cycles=-1)):
            with self.assertRaises((ValueError, KeyError)):
                wrong()
        self.assertEqual(made.text().count("expect"), 4)

    def test_it_runs(self) -> None:
        cluster = self.written("cluster.toml", NETWORK)
        made = Scenario(cluster, cycles=4)
        made.task("pedal").commit("position", [b"\0\1", b"\0\1", b"\0\2", b"\0\2"])
        made.expect("brake", "position", [b"\0\1", b"\0\1", b"\0\2", b"\0\2"])
        made.expect_none("brake", "unused")
        file = self.written("scenario", made.text())
        self.assertEqual(self.rows("missed", "run", cluster, file, "--cycles", "4"), [])


class Reader(Shows):
    def read(self, *lines: str, cycles: int = 4) -> Reading:
        return Reading("scenario", scene(*lines).encode(), cycles, Names.of(NETWORK.encode()))

    def test_lines(self) -> None:
        found = self.read("expect brake 0-2/2 position x0102 # so\n", "\texpect-none  brake\t* 3\n",
                          "expect-none 15 4 63\n").scenario
        self.assertEqual([(it.number, it.words) for it in found.expectations], [
            (11, ("expect", "1", "0-2/2", "1", "x0102")), (12, ("expect-none", "1", "*", "3"))])
        self.assertEqual((found.refusals, found.skipped), ([], [13]))
        self.assertEqual([found.expectations[1].column(it) for it in ("NODE", "CYCLES", "BUFFER")], [15, 21, 23])

    def test_misses(self) -> None:
        text = "line 7: node 2 buffer 1 at the end of cycle 3: expected x0102, found x0103"
        wanted = Miss(7, 2, 1, 3, "x0102", "x0103", 0)
        self.assertEqual(miss_of(text), wanted)
        self.assertEqual(miss_of(f"{text} (and in 4 other cycles)"), Miss(7, 2, 1, 3, "x0102", "x0103", 4))
        for other in ("", f"{text}.", f"{text} (and in 4 others)", text.replace("x0102", "some"), f" {text}",
                      text.replace("7", "7" * 10), "line 7 struck nothing", "refused Memory"):
            self.assertIsNone(miss_of(other))
        self.assertEqual((misses_of(3, ["x", text]), misses_of(0, [text]), misses_of(1, [text])), ((wanted,), (), ()))

    def test_other_ends_are_no_answer(self) -> None:
        line = "line 7: node 2 buffer 1 at the end of cycle 3: expected x0102, found x0103"
        for does, is_one in ((f"echo '{line}' >&2; exit 3", True), (f"echo '{line}' >&2; exit 4", False),
                             ("exit 3", False), ("echo x >&2; exit 3", False), (f"echo '{line}' >&2", True),
                             (f"echo '{line}' >&2; echo refused Read >&2; exit 3", False)):
            program = Path(self.written("program", f"#!/bin/sh\n{does}\n"))
            program.chmod(0o755)
            with self.subTest(does), patch("sys.stderr"):
                answer = ask(str(program), ["run"])
                self.assertEqual(answer.is_one(), is_one)
                self.assertEqual(len(answer.misses), does == f"echo '{line}' >&2; exit 3")
