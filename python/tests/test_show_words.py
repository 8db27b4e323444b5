"""The words of `musmyrtle`, its statuses and forms, and what reaches a terminal."""
import contextlib
import csv
import io
import json
import os
import pty
import re
import shutil
import signal
import subprocess
import sys
import time
import unittest
from pathlib import Path
from unittest.mock import patch

from musmyrtle.program import VARIABLES
from musmyrtle.show.commands import COMMANDS
from musmyrtle.show.main import EVERY
from musmyrtle.show.manual import manual
from musmyrtle.show.tables import Column, Name, Receiver, Receivers, Row, Section, Time, as_csv, as_json, as_text, cell
from musmyrtle.version import version
from tests import judging
from tests.designing import NETWORK as DESIGN
from tests.importing import FIBEX, FOLDER, TRUSTING
from tests.shows import NETWORK, POP, SCENE, THREE, WITH_IDLE, Shows
from tests.test_diff_clusters import WHOLE
from tests.test_diff_runs import LATER, SPEEDS, without_records
from tests.test_visible_output import IN_TOML, SPELLED

TOP = Path(__file__).resolve().parents[2]
OF_SIGNALS = str(TOP / "examples/signals/cluster.toml"), str(TOP / "examples/signals/scenario")
PEDAL, BRAKE = Name(0, "pedal", "node"), Name(1, None, "node")
TWO_STARTUP_NODES = NETWORK.replace("sync = true", "sync = true, startup = true").replace(
    'own = [{slot = 2, channels = "AB"}]', 'own = [{slot = 2, channels = "AB", sync = true, startup = true}]')
COLUMNS = (
    Column("node", "node", "name"), Column("at", "at [us]", "time"),
    Column("what", "what", words={"turned": "flipped"}), Column("receivers", "receivers"), Column("inner", ""),
    Column("empty", "empty"))
RECEIVERS = Receivers((Receiver(BRAKE, Name(2, "speed, fast", "buffer")), Receiver(PEDAL, None)))
ROWS = [
    Row({"node": PEDAL, "at": Time(4, 2.5), "what": "turned", "inner": True, "receivers": RECEIVERS}),
    Row({"node": BRAKE, "at": Time(40, None), "what": None, "receivers": Receivers(()), "inner": None}, True)]
SECTION = Section("row", "Rows", COLUMNS, ROWS)


class Forms(unittest.TestCase):
    def test_text(self) -> None:
        self.assertEqual("".join(as_text([SECTION])), (
            "Rows\n"
            "node       at [us]  what     receivers\n"
            "pedal (0)      2.5  flipped  node 1 speed, fast (2), pedal (0) FIFO\n"
            "node 1          40  -        -\n"))

    def test_values_that_are_whole(self) -> None:
        """Of ten receivers each is named. Only a long name is cut, and other long texts."""
        receivers = Receivers(tuple(Receiver(Name(it, "n" * 41, "node"), None) for it in range(10)))
        columns = Column("all", "all", "whole"), Column("some", "some")
        text = "".join(as_text([Section("row", "", columns, [Row({"all": receivers, "some": "s" * 121})])]))
        expected = ", ".join(f"{'n' * 40}.. ({it}) FIFO" for it in range(10))
        self.assertEqual(text.splitlines()[1], f"{expected}  {'s' * 120}..")

    def test_colours(self) -> None:
        lines = "".join(as_text([SECTION], True)).splitlines()
        self.assertEqual([line[:4] for line in lines], ["\x1b[1m", "\x1b[1m", "peda", "\x1b[31"])
        self.assertEqual([line.endswith("\x1b[0m") for line in lines], [True, True, False, True])

    def test_json(self) -> None:
        self.assertEqual([json.loads(line) for line in as_json([SECTION])], [
            {"kind": "row", "node": 0, "node_name": "pedal", "at_mt": 4, "at_us": 2.5, "what": "turned", "inner": True,
             "receivers": [{"node": 1, "node_name": None, "buffer": 2, "buffer_name": "speed, fast"},
                           {"node": 0, "node_name": "pedal", "buffer": None, "buffer_name": None}], "empty": None},
            {"kind": "row", "node": 1, "node_name": None, "at_mt": 40, "at_us": None, "what": None, "inner": None,
             "receivers": [], "empty": None}])

    def test_csv(self) -> None:
        rows = list(csv.reader(io.StringIO("".join(as_csv([SECTION, Section("other", "", (Column("what", "w"),), [
            Row({"what": 'a"b'})])])))))
        self.assertEqual(rows, [
            ["kind", "node", "node_name", "at_mt", "at_us", "what", "receivers", "inner", "empty"],
            ["row", "0", "pedal", "4", "2.5", "turned", "1:b2,0:queue", "true", ""],
            ["row", "1", "", "40", "", "", "", "", ""], ["other", "", "", "", "", 'a"b', "", "", ""]])

    def test_a_table_without_rows(self) -> None:
        self.assertEqual("".join(as_text([Section("a", "A", (), [], "Nothing."), Section("b", "B", (), [])])),
                         "Nothing.\n")


class Keys(Shows):
    def test_the_table_of_the_document(self) -> None:
        """Each kind of row has the keys of python/README.md, in their order."""
        page = (TOP / "python/README.md").read_text().partition("## Tables")[2]
        rows = [line.split("|")[1:4] for line in page.splitlines() if line.startswith("| `")]
        expected = {(row[0].strip(" `"), kind): re.findall(r"`([a-z_]+)`", row[2])
                    for row in rows for kind in re.findall(r"`([a-z]+)`", row[1])}
        run = self.run_of(scene=WITH_IDLE.replace(POP, ""))
        found: dict[tuple[str, ...], list[str]] = {}
        network = NETWORK.replace('"none"', '"AB"').replace("sync", "startup = true, sync")
        guarded = self.written("guarded.toml", network)
        missing = self.written("missing", "frscenario 3\nexpect 1 0 1 x\nend\n")
        past = self.written("past", SCENE.replace("read 1 0 1 1", "read 1 0 9 1"))
        for command, words in (
            ("lint", [guarded]), ("lint", [guarded, past, "--cycles", "2"]), ("lint", [THREE[0]]),
            ("lint", [self.written("two.toml", TWO_STARTUP_NODES)]),
            ("faults", [*run, "--kinds", "lost"]), ("faults --list", [*run, "--kinds", "lost"]),
            ("lint", [guarded, "--load"]), ("lint", [guarded, "--guaranteed", "brake", "state"]),
            ("latency", [guarded, "--slot", "4", "--channel", "A"]), ("check", [guarded]), ("plan", [guarded]),
            ("monitor", [THREE[0], str(TOP / "examples/recordings/disturbed.pcap")]), ("monitor", [THREE[0], THREE[0]]),
            *((it, run) for it in ("run", "log", "commits", "reads")),
            ("run", [run[0], missing, "--cycles", "2"]),
            *(("diff", it) for it in self.different()),
            ("signals", [*OF_SIGNALS, "--cycles", "4"]),
            ("signals", [*OF_SIGNALS, "--cycles", "4", "--expect", self.written("expected", "1.speed * > 0")]),
            ("signals --recording", [self.recording_of_signals(), OF_SIGNALS[0]]),
            ("decode", [OF_SIGNALS[0], "engine", "data", "x222ef13c"]),
            ("design", [self.written("network.toml", DESIGN.replace("deadline_ms = 6", "deadline_ms = 5"))]),
            ("import --compare", [str(FOLDER / "network.toml"), str(FIBEX)]),
        ):
            with TRUSTING, patch.dict(os.environ, judging.variables(self.folder) if words[1:2] == [missing] else {}):
                output = self.asked(*command.split(), *words, "--json")[1]
            for line in output.splitlines():
                row = json.loads(line)
                kind = row.pop("kind")
                # A new release of a description has the rows of two cluster files.
                found["diff" if command.startswith("import") else command, kind] = list(row)
        self.assertEqual(found, expected)

    def different(self) -> list[list[str]]:
        """Returns words by which `diff` prints rows of all kinds."""
        other = WHOLE
        for old, new in (('"none"', '"A"'), ("first = 3, last = 3", "first = 4, last = 4"), ("0.01", "0.02"),
                         ("words = 16", "words = 11"), ("latest_a = 7", "latest_a = 6"),
                         ("sync = true", "sync = false"),
                         ('name = "Force"\nbytes = 2', 'name = "Force"\nbytes = 1')):
            other = other.replace(old, new)
        clusters = [self.written("one.toml", WHOLE), self.written("other.toml", other)]
        expecting = SPEEDS.replace("end\n", "expect dashboard 3 engine x2328f13c00000000\nend\n")
        scenes = [self.written("a", expecting), self.written("b", expecting.replace("data x2328", "data x2329"))]
        capture = TOP / "examples/recordings/disturbed.pcap"
        (self.folder / "short.pcap").write_bytes(without_records(capture.read_bytes(), 2))
        shifted = [self.written("c", SPEEDS), self.written("d", LATER)]
        runs = [[OF_SIGNALS[0], *it, "--cycles", cycles] for it, cycles in ((scenes, "4"), (shifted, "12"))]
        return [clusters, *runs,
                ["--recordings", THREE[0], str(capture), str(self.folder / "short.pcap")]]

    def recording_of_signals(self) -> str:
        """Returns the name of a capture of the example with signals."""
        view = os.environ.get("MUSMYRTLE_VIEW", str(TOP / "fr_view"))
        made = subprocess.run([view, "bus", *OF_SIGNALS, "--cycles", "4"], capture_output=True, check=True).stdout
        (self.folder / "bus.pcap").write_bytes(made)
        return str(self.folder / "bus.pcap")

    def test_findings(self) -> None:
        """The place and the reason of the README: `scenario:7:10: refused BadScript 2: the run has no cycle 3`."""
        words = (*THREE[:3], "3", "--json")
        status, output, _ = self.asked("lint", *words)
        rows = [json.loads(line) for line in output.splitlines()]
        self.assertEqual((status, rows[0]), (
            1, {"kind": "answer", "program": "fr_bench", "refusal": "BadScript 2", "further_warnings": 0}))
        first = rows[1]
        self.assertEqual([first[it] for it in ("kind", "refusal", "name", "file", "line", "column", "headline")],
                         ["refused", "BadScript 2", None, THREE[1], 7, 10, "the run has no cycle 3"])

    def test_differences(self) -> None:
        """The line of FAULTS: `lost 0 A * all 1 rx 1 lost 1 2:A x0c0d -`."""
        words = ("faults", *THREE, "--kinds", "lost", "--nodes", "0")
        text = self.asked(*words, "--csv")[1]
        self.assertIn("difference,lost,0,A,*,all,1,rx 1,lost,1,2:A x0c0d,-,,,,,\n", text)
        rows = [json.loads(line) for line in self.asked(*words, "--json")[1].splitlines()]
        self.assertIn({"kind": "difference", "fault": "lost", "node": 0, "channels": "A", "cycles": "*", "place": "all",
                       "receiver": 1, "thing": "rx 1", "effect": "lost", "amount": 1, "without": "2:A x0c0d",
                       "with": "-"}, rows)


class Spreadsheets(Shows):
    def test_texts_that_a_spreadsheet_computes(self) -> None:
        """They have an apostrophe in front in CSV alone. Names stay whole in JSON, and in texts."""
        for name in ("=1+1", "+49", "-2+3", "@SUM(1)", "'quoted", "\uff1dA1", "-"):
            with self.subTest(name):
                run = self.run_of(NETWORK.replace('"pedal"', f'"{name}"'))
                text = self.printed("check", run[0], "--csv")
                cells = [row for row in csv.reader(io.StringIO(text)) if row[0] == "node"]
                heading = next(csv.reader(io.StringIO(text)))
                wanted = name if name == "-" else f"'{name}"
                self.assertEqual(cells[0][heading.index("node_name")], wanted)
                self.assertEqual(self.values("node", "node_name", "check", run[0])[0], (name,))
                self.assertIn(f"\n{name} (0) ", self.printed("check", run[0]))

    def test_numbers_stay(self) -> None:
        """A number below zero is one, and so is one in a column of texts."""
        self.assertEqual([cell(it) for it in (-5, -0.5, 7, True, "7", "-", "", "x=1", "-5", "=", "\t=1")],
                         ["-5", "-0.5", "7", "true", "7", "-", "", "x=1", "'-5", "'=", "\\x09=1"])

    def test_faults(self) -> None:
        """The marks of a failed run are no texts that are computed."""
        rows = csv.reader(io.StringIO(self.asked("faults", *THREE, "--kinds", "lost", "--nodes", "2", "--csv")[1]))
        idle = [row for row in rows if row[8] == "idle"]
        self.assertEqual({tuple(row[7:12]) for row in idle}, {("-", "idle", "0", "-", "-")})


class Escapes(Shows):
    def test_names(self) -> None:
        """Names with signs of HTML, controls of a terminal, and 10,000 characters."""
        for name, shown in (("<b>&\\\"]]>", '<b>&"]]>'), (IN_TOML, SPELLED[:40]), ("n" * 10000, "n" * 40 + "..")):
            run = self.run_of(NETWORK.replace('"pedal"', f'"{name}"'))
            of_run = [(it, *run) for it in ("run", "log", "commits", "reads")]
            for words in [("check", run[0]), ("plan", run[0]), *of_run]:
                with self.subTest(name=name[:20], command=words[0]):
                    text = self.printed(*words)
                    self.assertTrue(all(it.isprintable() for it in text.replace("\n", "")), text)
                    self.assertIn(shown[:30], text)
                    self.assertLess(max(map(len, text.splitlines())), 400)
                    for form in ("--json", "--csv"):
                        text = self.printed(*words, form)
                        self.assertTrue(all(it.isprintable() for it in text.replace("\n", "")), text)

    def test_an_empty_name(self) -> None:
        """A text has the number then, and JSON the name."""
        run = self.run_of(NETWORK.replace('"pedal"', '""'))
        self.assertEqual(self.values("node", "node_name", "check", run[0])[0], ("",))
        self.assertIn("\nnode 0 ", self.printed("check", run[0]))

    def test_a_name_in_json_is_whole(self) -> None:
        run = self.run_of(NETWORK.replace('"pedal"', f'"{"n" * 10000}\\u202e\\u001b\\u007f"'))
        self.assertEqual(self.values("node", "node_name", "check", run[0])[0], (f"{'n' * 10000}\u202e\x1b\x7f",))

    def test_long_names_in_a_message(self) -> None:
        run = self.run_of(NETWORK.replace('"pedal"', f'"{"p" * 10000}"'))
        status, _, told = self.asked("log", *run, "--node", "w" * 10000)
        self.assertEqual((status, told.splitlines()[-1]), (
            2, f"musmyrtle: the cluster has 2 nodes, and none is {'w' * 40}..; names: {'p' * 40}.., brake"))

    def test_words(self) -> None:
        for words in (("\x1b[2J",), ("log", *THREE, "--node", "\x1b[2J\u202e"), ("check", "\x1b[2J"),
                      ("completion", "\x1b[2J")):
            status, output, told = self.asked(*words)
            self.assertIn(status, (1, 2))
            self.assertEqual(output, "")
            self.assertTrue(all(it.isprintable() for it in told.replace("\n", "")), told)


class Statuses(Shows):
    def test_a_refusal_is_explained(self) -> None:
        for words, refusal, place in (
            (("check", self.written("wrong.toml", NETWORK.replace("idle = 0", "idle = 3"))),
             "Params OutOfRange idle", ":16:1: "),
            (("run", *self.run_of(scene=SCENE.replace("read 1 0 1 1", "read 1 0 2 1"))), "BadScript 1", ":7:10: "),
        ):
            status, output, told = self.asked(*words)
            self.assertEqual((status, output, told.split("\n")[0]), (1, "", f"musmyrtle: refused {refusal}"))
            self.assertIn(f"{place}refused {refusal}: ", told)

    def test_wrong_words(self) -> None:
        run = self.run_of()
        for words, told in (
            (("comits",), "musmyrtle: there is no command comits; did you mean commits?"),
            (("log", *run, "--in-cycles", "0-2"), "musmyrtle log: the run has no cycle 2: it has 2 cycles"),
            (("log", *run[:2]), "musmyrtle log: the following arguments are required: --cycles"),
            (("log", *run, "--json", "--csv"), "musmyrtle log: argument --csv: not allowed with argument --json"),
            (("log", *run, "--node", "2"), "musmyrtle: the cluster has 2 nodes, and none is 2; names: pedal, brake"),
            (("log", *run, "--node", "000001"),
             "musmyrtle: the cluster has 2 nodes, and none is 000001; names: pedal, brake"),
            (("log", *run, "--slot", "0"), "musmyrtle: the cluster has no slot 0: its slots are 1 to 12"),
            (("commits", *run, "--slot", "13"), "musmyrtle: the cluster has no slot 13: its slots are 1 to 12"),
            (("reads", *run, "--slot", "1,3-5000"), "musmyrtle: the cluster has no slot 13: its slots are 1 to 12"),
            (("latency", run[0], "--slot", "5000", "--channel", "A"), "musmyrtle: the cluster has no slot 5000: "),
            (("log", *run, "--nodes", "1"), "musmyrtle log: unknown words: --nodes 1; did you mean --node?\n"),
            (("lint", *run, "c"), "musmyrtle lint: unknown words: c; musmyrtle lint --help describes the words\n"),
            (("log", *run, "--slot"),
             "musmyrtle log: argument --slot: expected one argument; musmyrtle log --help describes the words\n"),
            (("version",), "musmyrtle: there is no command version; did you mean --version?\n"),
            (("--version", "x"), "musmyrtle: --version stands alone; musmyrtle COMMAND --help describes a command\n"),
            (("",), "musmyrtle: there is no command without a name; the commands are lint, faults, check, "),
            (("lint",), "musmyrtle lint: the following arguments are required: CLUSTER"),
            (("faults", *run, "--nodes", "9"), "musmyrtle faults: the cluster has no node 9: its nodes are 0 to 1"),
        ):
            with self.subTest(words[0]):
                status, output, error = self.asked(*words)
                self.assertEqual((status, output), (2, ""))
                # The line of a fault without effect stands before.
                self.assertTrue(error.split("\n")[-2].startswith(told.rstrip("\n")), error)
                self.assertNotIn("usage: ", error)

    def test_a_slot_that_never_opens(self) -> None:
        """A buffer is for it, so that it can be selected."""
        run = self.run_of(NETWORK.replace('kind = "event", slot = 3,', 'kind = "event", slot = 40,'))
        status, output, _ = self.asked("commits", *run, "--slot", "40", "--csv")
        self.assertEqual((status, len(output.splitlines())), (0, 3))
        self.assertEqual(self.asked("commits", *run, "--slot", "41")[0], 2)

    def test_a_name_that_two_nodes_have(self) -> None:
        status, _, told = self.asked("log", *self.run_of(NETWORK.replace('"brake"', '"pedal"')), "--node", "pedal")
        self.assertEqual((status, told), (2, "musmyrtle: several nodes have the name pedal; give the number\n"))

    def test_programs_that_fail(self) -> None:
        """The message has the variable and the places, or the end of the program."""
        stub = self.folder / "stub"
        for text, told in (("#!/bin/sh\nexit 3\n", "ended with status 3"),
                           ("#!/bin/sh\nkill -9 $$\n", "was killed by signal 9 (SIGKILL)"), (None, "can't be run: ")):
            if text is None:
                stub.unlink()
            else:
                stub.write_text(text)
                stub.chmod(0o755)
            with self.subTest(told), patch.dict(os.environ, {"MUSMYRTLE_VIEW": str(stub)}):
                status, output, error = self.asked("log", *self.run_of())
                self.assertEqual((status, output), (2, ""))
                self.assertIn(told, error)
        self.assertIn(f"the variable MUSMYRTLE_VIEW ({stub}); ", error)

    def test_no_program(self) -> None:
        with patch("musmyrtle.show.engines.usual_program", lambda _: None):
            status, _, told = self.asked("check", THREE[0])
        self.assertEqual(status, 2)
        self.assertTrue(told.startswith("musmyrtle: there is no fr_bench. It is looked for in this order: the variable "
                                        "MUSMYRTLE_BENCH ("), told)

    def test_lint_and_faults(self) -> None:
        status, output, _ = self.asked("lint", THREE[0])
        self.assertEqual((status, output), (0, "fr_bench: accepted\n"))
        status, output, _ = self.asked("faults", *THREE, "--list", "--kinds", "lost", "--nodes", "2")
        # FAULTS: a node is lost on both channels, on A and on B. Node 2 sends nothing on B.
        self.assertEqual((status, output.splitlines()[0].split()[:3]), (0, ["lost", "2", "AB"]))

    def test_inputs_from_pipes(self) -> None:
        """A pipe can be read only once, and the command asks several programs."""
        run = self.run_of()
        expected = self.printed("commits", *run)
        text = ('exec "$0" -B "$1/musmyrtle" commits <(cat "$2") <(cat "$3") --cycles 2')
        ran = subprocess.run(["bash", "-c", text, sys.executable, str(TOP), *run[:2]], capture_output=True, text=True)
        self.assertEqual((ran.stdout, ran.stderr, ran.returncode), (expected, "", 0))

    def test_outputs_that_fail(self) -> None:
        words = [sys.executable, "-B", str(TOP / "musmyrtle"), "log", *THREE]
        if Path("/dev/full").exists():
            with open("/dev/full", "w") as full:
                ran = subprocess.run(words, stdout=full, stderr=subprocess.PIPE, text=True)
            self.assertEqual((ran.returncode, ran.stderr),
                             (2, "musmyrtle: the output can't be written: No space left on device\n"))
        reading, writing = os.pipe()
        os.close(reading)
        ran = subprocess.run(words, stdout=writing, stderr=subprocess.PIPE, text=True)
        os.close(writing)
        self.assertEqual((ran.returncode, ran.stderr), (0, ""))


class Terminals(Shows):
    def on_terminal(self, **more: str) -> str:
        """Returns the output of a command on a terminal."""
        kept = {name: value for name, value in os.environ.items() if name != "NO_COLOR"}
        master, slave = pty.openpty()
        with open(master, "rb", buffering=0) as terminal:
            ran = subprocess.run([sys.executable, "-B", str(TOP / "musmyrtle"), "check", THREE[0]], stdout=slave,
                                 env={**kept, **more})
            os.close(slave)
            found = b""
            with contextlib.suppress(OSError):
                while part := terminal.read(4096):
                    found += part
        self.assertEqual(ran.returncode, 0)
        return found.decode()

    def test_colours_come_on_a_terminal_alone(self) -> None:
        self.assertTrue(self.on_terminal().startswith("\x1b[1mParameters; guardians on A\x1b[0m\r\n"))
        self.assertNotIn("\x1b", self.on_terminal(NO_COLOR="1"))
        self.assertIn("\x1b", self.on_terminal(NO_COLOR=""))
        ran = subprocess.run([sys.executable, "-B", str(TOP / "musmyrtle"), "check", THREE[0]], capture_output=True)
        self.assertNotIn(b"\x1b", ran.stdout)

    def test_signals(self) -> None:
        """A signal ends the command and the program that it waits for."""
        stub, begun = self.folder / "stub", self.folder / "begun"
        stub.write_text(f"#!/bin/sh\necho $$ > '{begun}.new'\nmv '{begun}.new' '{begun}'\nexec sleep 300\n")
        stub.chmod(0o755)
        for number, status in ((signal.SIGINT, 130), (signal.SIGTERM, 143), (signal.SIGHUP, 129)):
            with self.subTest(number):
                begun.unlink(missing_ok=True)
                words = [sys.executable, "-B", str(TOP / "musmyrtle"), "log", *THREE]
                with subprocess.Popen(words, env={**os.environ, "MUSMYRTLE_VIEW": str(stub)}, stdout=subprocess.PIPE,
                                      stderr=subprocess.PIPE, preexec_fn=usual_signals) as running:
                    limit = time.monotonic() + 60
                    while not begun.exists() and time.monotonic() < limit:
                        time.sleep(0.02)
                    running.send_signal(number)
                    self.assertEqual((running.communicate(timeout=60), running.returncode), ((b"", b""), status))
                with self.assertRaises(ProcessLookupError):
                    os.kill(int(begun.read_text()), 0)


def usual_signals() -> None:
    """Undoes what a shell without job control does to the signals of a job."""
    for number in (signal.SIGINT, signal.SIGTERM, signal.SIGHUP):
        signal.signal(number, signal.default_int_handler if number == signal.SIGINT else signal.SIG_DFL)


class Help(Shows):
    def test_overview(self) -> None:
        for words in ((), ("help",), ("--help",), ("-h",)):
            text = self.printed(*words)
            for it in EVERY:
                self.assertIn(f"\n  {it.name}", text)
            for variable in VARIABLES.values():
                self.assertIn(f"the variable {variable} (", text)

    def test_each_command_has_examples(self) -> None:
        for it in EVERY:
            with self.subTest(it.name):
                text = self.printed(it.name, "--help")
                self.assertEqual(self.printed("help", it.name), text)
                self.assertIn(f"usage: musmyrtle {it.name} ", text)
                self.assertTrue(it.examples)
                for example in it.examples:
                    self.assertIn(f" musmyrtle {example}\n", text)

    def test_the_examples_work(self) -> None:
        for it in COMMANDS:
            for example in it.examples:
                with self.subTest(example):
                    words = example.partition(" > ")[0].replace("examples/", f"{TOP}/examples/").split()
                    words = [str(self.folder / it) if it.endswith((".html", ".svg")) else it for it in words]
                    # The recording of the examples has a finding, and its files differ.
                    has_finding = it.name in ("monitor", "diff") or "--recording" in words
                    with TRUSTING:
                        self.assertEqual(self.asked(*words)[0], 3 if has_finding else 0)

    def test_version(self) -> None:
        self.assertEqual(self.printed("--version"), f"musmyrtle {version()}\n")
        for it in EVERY:
            self.assertEqual(self.printed(it.name, "--version"), f"musmyrtle {it.name} {version()}\n")

    @unittest.skipUnless(shutil.which("bash"), "there is no bash")
    def test_completion_for_bash(self) -> None:
        script = self.written("script", self.printed("completion", "bash"))
        for words, expected in (
            (("co",), "commits completion"), (("log", "--cha"), "--channel"), (("log", "--channel", ""), "A B AB"),
            (("completion", "b"), "bash"), (("log", "--cycles", ""), ""),
            (("check", "--"), "--help --version --json --csv"),
        ):
            with self.subTest(words):
                text = (f'. "{script}"; COMP_WORDS=(musmyrtle "$@"); COMP_CWORD=$#; _musmyrtle; '
                        'echo "${COMPREPLY[*]}"')
                ran = subprocess.run(["bash", "-c", text, "-", *words], capture_output=True, text=True, cwd=self.folder)
                self.assertEqual((ran.stdout, ran.stderr), (f"{expected}\n", ""))

    @unittest.skipUnless(shutil.which("zsh"), "there is no zsh")
    def test_completion_for_zsh(self) -> None:
        script = self.written("_musmyrtle", self.printed("completion", "zsh"))
        ran = subprocess.run(["zsh", "-n", script], capture_output=True, text=True)
        self.assertEqual((ran.stderr, ran.returncode), ("", 0))

    def test_the_man_page_has_each_option(self) -> None:
        page = self.printed("man").replace("\\-", "-")
        self.assertEqual(page, manual(EVERY).replace("\\-", "-"))
        for command in EVERY:
            for action in command.parser()._actions:
                for option in action.option_strings:
                    self.assertIn(option, page)

    @unittest.skipUnless(shutil.which("man"), "there is no man")
    def test_the_man_page_is_read_without_warnings(self) -> None:
        page = self.written("musmyrtle.1", self.printed("man"))
        ran = subprocess.run(["man", "--warnings=w", "-l", "-Tutf8", page], capture_output=True, text=True,
                             env={**os.environ, "MANWIDTH": "100", "LC_ALL": "C.UTF-8"})
        self.assertEqual((ran.stderr, ran.returncode), ("", 0))
        self.assertIn("musmyrtle - shows FlexRay clusters", ran.stdout)


if __name__ == "__main__":
    unittest.main()
