"""`musmyrtle latency` and the findings of `lint` about guarantees: a small network, worked out by hand.

A frame of 16 words fills 4 of the 10 minislots. So slot 4 opens at minislot 2, or at 5 if the log is sent, above the
latest minislot 3 of the brake. The log ends with minislot 4, at macrotick 40 + 4 * 5 = 60. A commit just after the
fetch at macrotick 40 waits for one cycle: 100 + 60 - 40 = 120 macroticks, each of 2 us.
"""
import contextlib
import io
from unittest.mock import patch

from musmyrtle.lint import command
from tests.shows import EXAMPLES, NETWORK, Shows

KEYS = "node_name buffer_name slot channels first last latest state guaranteed worst_mt worst_us"
ROWS = [
    ("pedal", "position", 1, "AB", None, None, None, "guaranteed", 64, 120, 240),
    ("pedal", "log", 3, "A", 1, 1, 7, "guaranteed", 64, 120, 240),
    ("brake", "force", 2, "A", None, None, None, "guaranteed", 64, 120, 240),
    ("brake", "state", 4, "A", 2, 5, 3, "possible", 0, None, None),
]
WITHOUT_DYNAMIC_SLOTS = NETWORK.replace("minislots = 10\n", "minislots = 0\n").replace("nit_mt = 10", "nit_mt = 60")


def static_network() -> str:
    """Returns the network without a dynamic segment and what is for it."""
    dynamic = ('name = "log"', 'name = "state"', 'name = "unused"', "queue", "latest_")
    kept = [line for line in WITHOUT_DYNAMIC_SLOTS.splitlines() if not any(word in line for word in dynamic)]
    return "\n".join(kept) + "\n"


class Latencies(Shows):
    def test_transmit_buffers(self) -> None:
        cluster = self.written("cluster.toml", NETWORK)
        self.assertEqual(self.values("latency", KEYS, "latency", cluster), ROWS)
        self.assertEqual(self.values("load", "channel owned static least most slack", "latency", cluster),
                         [("A", 128, 128, 5, 5, 0), ("B", 128, 128, 0, 0, 10)])

    def test_selected_rows(self) -> None:
        cluster = self.written("cluster.toml", NETWORK)
        self.assertEqual(self.values("latency", KEYS, "latency", cluster, "--node", "brake"), ROWS[2:])
        self.assertEqual(self.values("latency", KEYS, "latency", cluster, "--channel", "B"), ROWS[:1])
        self.assertEqual(self.values("latency", KEYS, "latency", cluster, "--slot", "3-12"), [ROWS[1], ROWS[3]])
        self.assertIn("No transmit buffer is selected.", self.printed("latency", cluster, "--slot", "9"))

    def test_the_way_to_the_latest_start(self) -> None:
        words = "latency", self.written("cluster.toml", NETWORK), "--slot", "4", "--channel", "A"
        self.assertEqual(self.values("way", "cycle minislot slot node_name buffer_name", *words),
                         [(0, 1, 3, "pedal", "log"), (0, 5, 4, None, None)])
        self.assertIn("Slot 4 on A begins at minislot 5 of cycle 0 at the latest, after 1 frame\n",
                      self.printed(*words))

    def test_a_static_slot_has_no_way(self) -> None:
        words = "latency", self.written("cluster.toml", NETWORK), "--slot", "2", "--channel", "A"
        self.assertEqual(self.rows("way", *words), [])
        self.assertIn("Slot 2 is static: it begins at the same macrotick of each cycle.", self.printed(*words))

    def test_slots_without_a_way(self) -> None:
        cluster = self.written("cluster.toml", NETWORK)
        for words in (("--slot", "4"), ("--channel", "A"), ("--slot", "3,4", "--channel", "A")):
            self.assertEqual(self.rows("way", "latency", cluster, *words), [])

    def test_macroticks_without_microseconds(self) -> None:
        cluster = self.written("cluster.toml", NETWORK.replace("macrotick_us = 2\n", ""))
        self.assertIn("worst [MT]", self.printed("latency", cluster))
        self.assertEqual({row["worst_us"] for row in self.rows("latency", "latency", cluster)}, {None})

    def test_a_cluster_without_dynamic_slots(self) -> None:
        cluster = self.written("cluster.toml", static_network())
        rows = self.rows("latency", "latency", cluster)
        self.assertEqual([(row["state"], row["first"]) for row in rows], [("guaranteed", None)] * 2)

    def test_names_that_a_terminal_may_obey(self) -> None:
        for name in ("<b>", "\x1b[31m", "\u202e", "n" * 10_000):
            with self.subTest(name=name[:10]):
                spelled = name.replace("\x1b", "\\u001b")
                cluster = self.written("cluster.toml", NETWORK.replace('"pedal"', f'"{spelled}"'))
                self.assertEqual(self.rows("latency", "latency", cluster)[0]["node_name"], name)
                text = self.printed("latency", cluster)
                self.assertFalse({"\x1b", "\u202e"} & set(text))
                self.assertLess(max(map(len, text.splitlines())), 300)

    def test_a_refused_cluster(self) -> None:
        cluster = self.written("cluster.toml", NETWORK.replace("cycle_mt = 100", "cycle_mt = 99"))
        status, output, told = self.asked("latency", cluster)
        self.assertEqual((status, output, "refused Params CycleSum" in told), (1, "", True))
        status, output, told = self.asked("latency", str(self.folder / "missing.toml"))
        self.assertEqual((status, output, "refused Read" in told), (1, "", True))


class Ways(Shows):
    def test_the_way_in_a_run(self) -> None:
        """In a run with the commits of the way each frame begins at its minislot, and the last slot doesn't open."""
        text = (EXAMPLES / "ten-nodes/cluster.toml").read_text()
        line = next(it for it in text.splitlines() if '"picture"' in it)
        text = text.replace(line, line.replace("repetition = 2", "repetition = 1"))
        cluster = self.written("cluster.toml", text)
        *frames, last = self.rows("way", "latency", cluster, "--slot", "67", "--channel", "A")
        words = {row["slot"]: row["words"] for row in self.rows("sender", "plan", cluster) if row["channel"] == "A"}
        commits = [(row["node"], row["buffer"], row["slot"]) for row in frames] + [(8, 7, 67)]
        lines = [f"commit {node} 0 {last['cycle']} {buffer} x{'00' * 2 * words[slot]}\n"
                 for node, buffer, slot in commits]
        run = [cluster, self.written("scenario", f"frscenario 1\n{''.join(lines)}end\n"), "--cycles",
               str(last["cycle"] + 1)]
        sent = self.values("transmission", "cycle minislot slot node", "log", *run, "--slot", "61-67", "--channel", "A")
        self.assertEqual(sent, [(row["cycle"], row["minislot"], row["slot"], row["node"]) for row in frames])
        self.assertEqual(self.values("commit", "fate", "commits", *run, "--node", "airbags"), [("pending",)])
        earlier = [run[0], self.written("scenario", f"frscenario 1\n{lines[-1]}end\n"), *run[2:]]
        self.assertEqual(self.values("commit", "fate", "commits", *earlier), [("sent",)])

    def test_a_run_with_the_worst_latency(self) -> None:
        """A commit just after the fetch of its slot is sent two cycles later, after the frames of the way.

        The frame of 127 words fills 66 minislots of 5 macroticks. Slot 62 begins at minislot 2 if slot 61 is silent.
        Two cycles have 10000 macroticks.
        """
        cluster = str(EXAMPLES / "ten-nodes/cluster.toml")
        worst, = (row["worst_mt"] for row in self.rows("latency", "latency", cluster)
                  if (row["slot"], row["channels"]) == (62, "A"))
        *frames, last = self.rows("way", "latency", cluster, "--slot", "62", "--channel", "A")
        words = {row["slot"]: row["words"] for row in self.rows("sender", "plan", cluster) if row["channel"] == "A"}
        end = last["cycle"] + 2
        calls = [(end - 1, 7, 7, 62)] + [(end, row["node"], row["buffer"], row["slot"]) for row in frames]
        lines = [f"commit {node} 0 {cycle} {buffer} x{'00' * 2 * words[slot]}\n" for cycle, node, buffer, slot in calls]
        run = [cluster, self.written("scenario", f"frscenario 1\n{''.join(lines)}end\n"), "--cycles", str(end + 1)]
        place = ("--slot", "62", "--channel", "A")
        (cycle, minislot), = self.values("transmission", "cycle minislot", "log", *run, *place)
        self.assertEqual((cycle, minislot), (end, last["minislot"]))
        self.assertEqual(10000 + (minislot - 2 + 66) * 5, worst)


class Guarantees(Shows):
    def linted(self, network: str, *words: str) -> tuple[int | str | None, str, str]:
        """Returns the status of `lint`, its output, and its standard error."""
        cluster = self.written("cluster.toml", network)
        output, told = io.StringIO(), io.StringIO()
        with contextlib.redirect_stdout(output), contextlib.redirect_stderr(told):
            status = command.main([cluster, *words])
        return status, output.getvalue(), told.getvalue()

    def test_a_note_of_a_possible_buffer(self) -> None:
        status, output, told = self.linted(NETWORK)
        self.assertEqual((status, told), (0, ""))
        self.assertIn("note: buffer 2 of node 1 isn't guaranteed: its slot can open too late in each of its cycles "
                      "[not-guaranteed]", output)
        self.assertIn("to minislot 5, 2 minislots too late: slot 3 by buffer 1 of node 0.", " ".join(output.split()))
        self.assertNotIn("not-guaranteed", self.linted(NETWORK, "--allow", "not-guaranteed")[1])

    def test_a_guaranteed_buffer(self) -> None:
        for words in (("pedal", "log"), ("0", "1"), ("brake", "force")):
            status, output, _ = self.linted(NETWORK, "--guaranteed", *words)
            self.assertEqual((status, "error" in output), (0, False))

    def test_an_error_instead_of_the_note(self) -> None:
        for words in (("brake", "state"), ("1", "2")):
            status, output, _ = self.linted(NETWORK, "--guaranteed", *words)
            self.assertEqual((status, "error: buffer 2 of node 1 isn't guaranteed" in output,
                              "[not-guaranteed]" in output), (1, True, False))

    def test_blocked_and_idle_buffers(self) -> None:
        blocked = NETWORK.replace("latest_a = 3", "latest_a = 1")
        status, output, _ = self.linted(blocked, "--guaranteed", "brake", "state")
        self.assertEqual((status, "slot 4 never opens in time" in output, "[never-sends]" in output), (1, True, True))
        self.assertNotIn("not-guaranteed", self.linted(blocked)[1])
        idle = NETWORK.replace("latest_a = 3", "latest_a = 3\ntasks = 0")
        status, output, _ = self.linted(idle, "--guaranteed", "brake", "state")
        self.assertEqual((status, "node 1 has no task" in output), (1, True))

    def test_names_that_no_buffer_has(self) -> None:
        for words, reason in ((("brake", "log"), "none is log"), (("2", "0"), "the cluster has 2 nodes"),
                              (("pedal", "2"), "node 0 has 2 buffers"), (("brake", "1"), "is a receive buffer"),
                              (("x" * 10_000, "0"), "none is xxx"), (("\x1b[31m", "0"), "none is \\x1b[31m")):
            status, output, told = self.linted(NETWORK, "--guaranteed", *words)
            self.assertEqual((status, output, reason in told, len(told) < 300), (2, "", True, True), told)

    def test_the_load(self) -> None:
        status, output, _ = self.linted(NETWORK, "--load", "--allow", "not-guaranteed")
        self.assertEqual(status, 0)
        row = next(line for line in output.splitlines() if line.startswith("A "))
        self.assertEqual(row.split(), ["A", "128", "128", "100", "5", "50", "5", "50", "10", "0", "2"])

    def test_no_program(self) -> None:
        """The note is left out with a line on standard error; what the words want isn't."""
        with patch.dict("os.environ", {"MUSMYRTLE_VIEW": str(self.folder / "missing")}):
            status, _, told = self.linted(NETWORK)
            self.assertEqual((status, told.startswith("musmyrtle lint: no latencies: ")), (0, True))
            self.assertEqual(self.linted(static_network())[2], "")
            self.assertEqual(self.linted(NETWORK, "--load")[:2], (2, ""))

    def test_a_trace_has_no_guarantees(self) -> None:
        trace = str(EXAMPLES / "three-commits/trace")
        for words in (["--load"], ["--guaranteed", "0", "0"]):
            told = io.StringIO()
            with contextlib.redirect_stderr(told):
                self.assertEqual(command.main([trace, *words]), 2)
            self.assertIn("is a trace, and has no guarantees", told.getvalue())

    def test_a_refused_cluster(self) -> None:
        status, output, _ = self.linted(NETWORK.replace("cycle_mt = 100", "cycle_mt = 99"), "--guaranteed", "0", "9")
        self.assertEqual((status, "refused Params CycleSum" in output), (1, True))

    def test_a_file_with_nothing_of_the_kind(self) -> None:
        for example in ("three-nodes", "vehicle", "ten-nodes"):
            text = (EXAMPLES / example / "cluster.toml").read_text()
            self.assertEqual(self.linted(text), (0, "fr_bench: accepted\n", ""))
