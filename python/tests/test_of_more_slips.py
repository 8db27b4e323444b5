"""Slips of engineers who know the standard and other tools, each with the text that says what to mend."""
import contextlib
import io
import os
import re
from pathlib import Path

from musmyrtle.show.main import OF_PROGRAMS, main
from tests.cases import CLUSTER, SCENARIO, Cases

TOP = Path(__file__).resolve().parents[2]
MARK = b"\xef\xbb\xbf"
ARXML = '<?xml version="1.0"?>\n<AUTOSAR xmlns="http://autosar.org/schema/r4.0">\n'
IMPORT = "`musmyrtle import FILE -o cluster.toml` makes a cluster file of it."
SWAPPED = "Are the two files swapped? The cluster file comes first, and then the scenario."

FOR_CLUSTERS: tuple[tuple[bytes, str], ...] = (
    (SCENARIO.encode(), f"is a scenario, and no cluster file {SWAPPED}"),
    (b"\xd4\xc3\xb2\xa1\x02\0\x04\0",
     "is a capture of a bus, and no cluster file `musmyrtle monitor CLUSTER RECORDING`"),
    (b"\x0a\x0d\x0d\x0a\x1c\0\0\0", "is a capture of a bus, and no cluster file"),
    (ARXML.encode(), f"is an ARXML file of AUTOSAR, and no cluster file {IMPORT}"),
    (MARK + ARXML.encode(), "is an ARXML file of AUTOSAR"),
    (b'<?xml version="1.0"?><fx:FIBEX>', "is a FIBEX file, and no cluster file"),
    (b"<network/>", "is an XML file, and no cluster file"),
    (b'VERSION ""\n\nNS_ :\n', "is a DBC file of CAN, and no cluster file"),
    (b"LIN_description_file;\n", "is an LDF file of LIN, and no cluster file"),
    (b'{"node": []}', "is a JSON file, and no cluster file"),
    (b"---\nnode:\n", "is a YAML file, and no cluster file"),
    (b"\x1f\x8b\x08\0", "is a file that gzip packed, and no cluster file Unpack it first."),
    (b"PK\x03\x04", "is a ZIP archive, and no cluster file Unpack it first."),
    ("\ufeff".encode("utf-16-le") + CLUSTER.encode("utf-16-le"), "The file is UTF-16. Expected a file saved as UTF-8."),
)
"""Files that are given as a cluster file, with a text of the reason."""
IN_CLUSTERS = (
    ("A comment begins with `#`, and not with `//`.", "[params]", "// the parameters\n[params]"),
    ("A comment begins with `#`, and not with `//`.", "static_mt = 20", "static_mt = 20 // macroticks"),
    ("A comment begins with `#`, and not with `/*`.", "[params]", "/* the parameters */\n[params]"),
    ("A comment begins with `#`, and not with `;`.", "[params]", "; the parameters\n[params]"),
    ("Expected straight quotes, as in \"AB\".", 'guard = "A"', "guard = \u201cA\u201d"),
    ('Expected quotes around a text: "A".', 'guard = "A"', "guard = A"),
    ("A special space or mark stands there. Expected usual spaces.", "static_mt = 20", "static_mt\u00a0= 20"),
    ("Expected `20` without a unit: each key has its own.", "static_mt = 20", "static_mt = 20 MT"),
    ("Expected `20` without a unit: each key has its own.", "static_mt = 20", "static_mt = 20us"),
    ("`cycle` is an unknown key: is `cycle_mt` meant?", "cycle_mt = 90", "cycle = 90"),
    ("`gdCycle` is an unknown key: is `cycle_mt` meant?", "cycle_mt = 90", "gdCycle = 90"),
    ("`gMacroPerCycle` is an unknown key: is `cycle_mt` meant?", "cycle_mt = 90", "gMacroPerCycle = 90"),
    ("`gNumberOfStaticSlots` is an unknown key: is `static_slots`", "static_slots = 3", "gNumberOfStaticSlots = 3"),
    ("`gNumberOfMinislots` is an unknown key: is `minislots` meant?", "minislots = 4", "gNumberOfMinislots = 4"),
    ("`gdMinislot` is an unknown key: is `minislot_mt` meant?", "minislot_mt = 5", "gdMinislot = 5"),
    ("`gdDynamicSlotIdlePhase` is an unknown key: is `idle` meant?", "idle = 0", "gdDynamicSlotIdlePhase = 0"),
    ("Is `queue` meant?", "queue = {", "fifo = {"),
    ("Are `latest_a` and `latest_b` meant?", "latest_a = 4", "pLatestTx = 4"),
    ("It is a parameter of the standard that the bench doesn't have.", "idle = 0", "gSyncNodeMax = 4\nidle = 0"),
    ("`frame_id` is an unknown key: is `slot` meant?", 'kind = "event", slot = 1', 'kind = "event", frame_id = 1'),
    ("`type` is an unknown key: is `kind` meant?", 'kind = "event"', 'type = "event"'),
    ("`length` is an unknown key: is `words` meant?", "words = 1}", "length = 1}"),
    ('Is "event" or "state" meant?', 'kind = "event"', 'kind = "tx"'),
    ('Is "receive" meant?', 'kind = "receive"', 'kind = "rx"'),
    ("Are `base` and `repetition` meant?", 'kind = "event", slot = 1', 'kind = "event", cycle = 0, slot = 1'),
    ("Are `base` and `repetition` meant?", 'kind = "event", slot = 1', 'kind = "event", cycles = 0, slot = 1'),
    ("A receive FIFO is the key `queue` of its node.", 'kind = "event"', 'kind = "fifo"'),
    ("Expected `true`, in small letters.", "sync = true", "sync = True"),
    ("Expected `false`, in small letters.", "sync = true", "sync = FALSE"),
    ("^ A header `[node]` opens one table. Expected `[[node]]`", "[[node]]", "[node]"),
    ('Is "AB" meant?', 'guard = "A"', 'guard = "both"'),
    ('Is "A" meant?', 'channels = "A"', 'channels = "a"'),
)
IN_SCENARIOS = (
    ("the file begins with a byte order mark Expected a file saved as UTF-8 without that mark", "frscenario 1",
     "\ufefffrscenario 1"),
    ("the first line isn't `frscenario 1` Expected small letters and one space", "frscenario 1", "FrScenario1"),
    ("the first line doesn't name the format Comments and empty lines come after it.", "frscenario 1",
     "# the brakes\nfrscenario 3"),
    ("the first line doesn't name the format Comments and empty lines come after it.", "frscenario 1",
     "\nfrscenario 3"),
    ("the first line doesn't name the format There is no version 4. Expected `frscenario 3`", "frscenario 1",
     "frscenario 4"),
    ("A comment begins with `#`, and not with `//`. Only `frscenario 3` has comments.", "pop 0 1 2", "// pop 0 1 2"),
    ("A comment begins with `#`, and not with `//`. Only `frscenario 3` has comments.", "pop 0 1 2",
     "pop 0 1 2 // pop"),
    ("Expected no `,` after a word.", "pop 0 1 2", "pop 0, 1, 2"),
    ("Expected no `;` after a word.", "pop 0 1 2", "pop 0 1 2;"),
    ("Expected `x0a0b`, without the 0.", "x0a0b", "0x0a0b"),
    ("Expected `x0a0b`. Expected `x` and two", "x0a0b", "0A0B"),
    ("Is `commit` meant?", "commit 0 0 0 0", "send 0 0 0 0"),
    ("Is `read` meant?", "read 1 0 3 1", "receive 1 0 3 1"),
    ("Is `babble` meant?", "babble 2 A * s* x00", "jam 2 A * s* x00"),
    (f"the file is a cluster file, and no scenario {SWAPPED}", SCENARIO, CLUSTER),
    (f"the file is an ARXML file of AUTOSAR, and no scenario {IMPORT}", SCENARIO, ARXML),
)
COMMANDS = (
    (("page", "c", "s", "--cycles", "4", "-o", "run.html"), "musmyrtle page writes to standard output: > FILE"),
    (("page", "c", "s", "--cycles", "4", "-o"), "musmyrtle page writes to standard output: > FILE"),
    (("log", "c", "s", "--cycles", "4", "--output=log.txt"), "musmyrtle log writes to standard output: > FILE"),
    (("log", "c", "s", "--cycles", "4", "--format", "json"), "did you mean --json or --csv?"),
    (("lint", "c", "s", "-c", "4"), "unknown words: -c 4; did you mean --cycles?"),
    (("run", "c", "s", "--cycle", "4"), "the following arguments are required: --cycles"),
    (("run", "c", "s", "--cycles", "4", "--cycles", "8"), "musmyrtle run: --cycles stands twice"),
    (("run", "c", "s", "--cycles=4", "--cycles=8"), "musmyrtle run: --cycles stands twice"),
    (("faults", "c", "s", "--cycles", "4", "--cycles", "4"), "--cycles stands twice"),
    (("audit",), "audit is a command of ./fr_bench: ./fr_bench audit"),
    (("matrix", "c", "s"), "matrix is a command of ./fr_view: ./fr_view matrix"),
    (("simulate", "c", "s"), "there is no command simulate; did you mean run?"),
    (("validate", "c"), "there is no command validate; did you mean lint?"),
    (("--cycles", "4", "run", "c", "s"), "the first word must be a command, not the option --cycles"),
)


class Slips(Cases):
    def asked(self, *words: str) -> tuple[str, str | int | None]:
        """Returns what a command prints on both streams, with single spaces, and its status."""
        told = io.StringIO()
        with contextlib.redirect_stdout(told), contextlib.redirect_stderr(told):
            status: str | int | None
            try:
                status = main(list(words))
            except SystemExit as ended:
                status = ended.code
        return " ".join(told.getvalue().split()), status

    def said(self, cluster, scenario=None):
        return re.sub(r" [0-9]+ \| .*?  ", " ", self.text(*self.look(cluster, scenario, scenario and 4)))

    def test_other_files_as_a_cluster(self):
        for data, text in FOR_CLUSTERS:
            with self.subTest(text=text):
                found, _ = self.look(data)
                finding = found.refusals[0][1]
                self.assertIn(text, f"{finding.headline} {finding.reason}")
                self.assertEqual(finding.place and finding.place.line, 1)

    def test_clusters(self):
        for text, *changes in IN_CLUSTERS:
            with self.subTest(text=text):
                self.assertIn(text, self.text(*self.look(self.changed(CLUSTER, changes))))

    def test_scenarios(self):
        for text, *changes in IN_SCENARIOS:
            with self.subTest(text=text):
                found, _ = self.look(CLUSTER, self.changed(SCENARIO, changes), 4)
                finding = found.refusals[0][1]
                self.assertIn(text, f"{finding.headline} {finding.reason}")

    def test_commands(self):
        for words, text in COMMANDS:
            with self.subTest(words=words):
                told, status = self.asked(*words)
                self.assertIn(text, told)
                self.assertEqual(status, 2)

    def test_files_in_the_place_of_words(self):
        cluster = self.written("cluster.toml", CLUSTER)
        self.assertEqual(self.asked(cluster), (
            f"musmyrtle: the first word must be a command, not the file {cluster[:40]}..: musmyrtle lint "
            f"{cluster[:40]}.." if len(cluster) > 40 else
            f"musmyrtle: the first word must be a command, not the file {cluster}: musmyrtle lint {cluster}", 2))

    def test_a_name_that_is_nearly_right(self):
        cluster = self.written("cluster.toml", CLUSTER)
        for name in ("cluster", "clutser.toml", "Cluster.toml"):
            told, status = self.asked("lint", os.path.join(self.folder, name))
            self.assertIn(f"Is {cluster} meant?", told)
            self.assertEqual(status, 1)

    def test_the_recording_in_the_place_of_the_cluster(self):
        cluster, recording = self.written("cluster.toml", CLUSTER), str(TOP / "examples/recordings/disturbed.pcap")
        told, status = self.asked("monitor", recording, cluster)
        self.assertIn(f"{recording}:1: refused Toml: the file is a capture of a bus, and no cluster file", told)
        self.assertEqual(status, 1)

    def test_the_commands_of_programs(self):
        for program, names in OF_PROGRAMS.items():
            known = set(re.findall("^== (.*)$", (TOP / "tools/help" / program).read_text(), re.MULTILINE))
            self.assertLessEqual(set(names), known)
            self.assertLessEqual(known - {"after", "check", "plan", "run", "latency", "commits"}, set(names))
