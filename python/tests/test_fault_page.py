"""Tests of the costs of faults in the table, the summary and the page."""
import base64
import hashlib
import re
import time
import unittest
from dataclasses import replace
from html import escape
from pathlib import Path
from tempfile import TemporaryDirectory

from musmyrtle.faults.campaign import failed
from musmyrtle.faults.costs import IDLE, Difference, sent_otherwise
from musmyrtle.faults.labels import Labels, grouped, ranges
from musmyrtle.faults.listing import BOTH, LeftOut, SingleFault
from musmyrtle.faults.page import Subject, page
from musmyrtle.faults.table import (
    BadTable, Done, Results, not_compared, read_ranks, summary, table, total_rows, worse,
)
from musmyrtle.visible import visible
from musmyrtle.world.replies import TransmitBuffer
from tests.campaigns import cluster_of
from tests.chromium import CHROMIUM, chromium
from tests.two_nodes import TWO_NODES

BIDI = "\u202e"
NAMED = TWO_NODES.replace("[[node]]\n", '[[node]]\nname = "pe\\u001b[31mdal"\n', 1) \
    .replace('{kind = "receive", slot = 2, channels = "A"}', f'{{kind = "receive", slot = 2, channels = "A", '
             f'name = "an{BIDI}gle <b>"}}')


def fault(kind: str, node: int | None, channels: str, place: str, lines: tuple[str, ...] = ("mute 0 A * s1",)):
    return SingleFault(kind, node, channels, "*", place, lines)


def lost(node: int, thing: str = "rx 1") -> Difference:
    return Difference(node, thing, "lost", 1, "1:A x1111", "-")


def killed(told: str = "signal 9") -> Difference:
    return Difference(None, "-", "killed", 1, "-", told)


def commits(without: str, having: str) -> list[Difference]:
    """Returns the differences of a transmit buffer with these counts of commits."""
    one, other = (TransmitBuffer(*map(int, it.split())) for it in (without, having))
    return list(sent_otherwise(0, 0, one, other))


COUNTED = Difference(1, "A", "counted", 2, "2 0 0 0 0", "0 0 0 0 0")
NO_RUN = Difference(None, "-", IDLE, 0, "-", "-")
DONE: Done = [
    (fault("lost", 0, BOTH, "all"), [Difference(0, "rx 1", "changed", 1, "1:A x1111", "1:A x2222"), lost(1)]),
    (fault("lost", 1, BOTH, "all"), [killed()]),
    (fault("lost", 1, "B", "all", ()), [NO_RUN]),
    (fault("mute", 0, "A", "s1"), [COUNTED]),
    (fault("noise", 0, BOTH, "s2"), []),
    (fault("noise", 1, BOTH, "s1"), [killed()]),
    (fault("noise", 1, "A", "s1"), [COUNTED, lost(1)]),
]


def results(done: Done = DONE, cluster: str = TWO_NODES, **more) -> Results:
    return Results(done, cluster_of(cluster.replace('guard = "A"', 'guard = "AB"')), 2, **more)


class TestSummary(unittest.TestCase):
    def lines(self, *given, **more) -> list[str]:
        return "".join(summary(results(*given, **more))).splitlines()

    def test_each_run_is_counted_once(self):
        """The seven faults have six runs, two of which failed, and one costs something lost and something changed."""
        rows = [line.split() for line in self.lines()]
        columns = "harmless not comparable lost older changed pending unsent failed proved".split()
        self.assertEqual(rows[0], ["kind", "runs", *columns])
        numbers = {" ".join(it[:-10]): [int(number) for number in it[-10:-1]] for it in rows[1:6]}
        self.assertEqual({it[-1] for it in rows[1:6]}, {"0"})
        self.assertEqual(numbers, {
            "lost, both channels": [2, 0, 0, 1, 0, 0, 0, 0, 1], "mute, one channel": [1, 1, 0, 0, 0, 0, 0, 0, 0],
            "noise, both channels": [2, 1, 0, 0, 0, 0, 0, 0, 1], "noise, one channel": [1, 0, 0, 1, 0, 0, 0, 0, 0],
            "all": [6, 2, 0, 2, 0, 0, 0, 0, 2]})
        for counts in numbers.values():
            self.assertEqual(counts[0], sum(counts[1:]))
        kinds = [it for name, it in numbers.items() if name != "all"]
        self.assertEqual([sum(column) for column in zip(*kinds)], numbers["all"])

    def test_runs_that_failed_say_nothing_of_guardians(self):
        """Of the three babbles in guarded slots of others one failed, one makes a difference, one none."""
        told = "of the babbles in guarded static slots that aren't the node's own, 2, 1 made any difference to " \
            "a node; 1 more failed"
        self.assertIn(told, self.lines())
        alone = [(fault("noise", 1, BOTH, "s1"), [killed()])]
        self.assertIn("of the babbles in guarded static slots that aren't the node's own, 0, no run completed; "
                      "1 more failed", self.lines(alone))

    def test_commits_that_were_not_sent(self):
        """A run with a commit that is late and others that weren't sent counts as pending, and a note has the rest."""
        done = [(fault("mute", 0, "A", "s1"), commits("10 10 0 0 0", having))
                for having in ("10 0 9 1 0", "10 9 1 0 0", "10 10 0 0 0")]
        lines = self.lines(done)
        self.assertEqual(lines[2].split(), ["all", "3", "1", "0", "0", "0", "0", "1", "1", "0", "0"])
        self.assertIn("in 1 run counted by a worse effect fewer commits were sent (unsent), too", lines)
        self.assertEqual([it for it in self.lines() if "unsent), too" in it], [])

    def test_what_is_proved_has_no_run(self):
        """Two babbles that guardians stop have no run. They are counted apart, with the promise, and so in JSON and on
        the page; a row with nothing else is shown, too."""
        stopped = [(replace(fault("noise", 1, channels, "s1"), is_proved=True), []) for channels in ("A", BOTH)]
        done = [*stopped, (fault("noise", 1, "A", "s2"), [lost(1)])]
        told = ("2 faults proved harmless, without a run: guardians stop each babble in guarded static slots that "
                "aren't the node's own (promise alike of fr_core); --run-proved runs them")
        lines = self.lines(done)
        self.assertIn(told, lines)
        self.assertEqual([it.split()[-10:] for it in lines[1:4]], [
            list("0000000001"), list("1001000001"), list("1001000002")])
        total = total_rows(results(done)).rows[0].values
        self.assertEqual(total, {"faults": 3, "runs": 1, "idle": 0, "proved": 2, "promise": "alike of fr_core"})
        self.assertEqual(total_rows(results(done[2:])).rows[0].values,
                         {"faults": 1, "runs": 1, "idle": 0, "proved": 0, "promise": None})
        text = page(Subject("cluster.toml", "scenario"), results(done))
        self.assertIn(f"<p>{escape(told)}.</p>", text)
        self.assertIn("<p>Scenario scenario, 2 cycles. Each of 1 fault came in a run of its own", text)
        self.assertIn('<th>node 1</th><td class="nothing"><span>-</span></td>', text)

    def test_harmless_effects_are_named(self):
        told = next(line for line in self.lines() if line.startswith("harmless: "))
        for effect in ("counted", "channel", "newer", "sent"):
            self.assertIn(f"({effect})", told)

    def test_notes(self):
        lines = self.lines(left_out=LeftOut(2, 1), overwritten={1: 561}, quiet=(0, 1))
        self.assertIn("there is no commit for node 0, node 1: nothing of these can be lost here", lines)
        self.assertIn("node 1: FIFO not emptied by its tasks: 561 frames overwritten without any fault", lines)
        self.assertIn("1 fault idle, without a run, since the node sends nothing there: node 1 on B", lines)
        self.assertIn("2 faults left out: the scenario has one of the kind in each of their windows", lines)
        self.assertIn("1 fault left out: no slot opens at their minislot", lines)


class TestAgainst(unittest.TestCase):
    HEAD = "kind\tnode\tchannel{}\tcycles\tplace\treceiver\tthing\teffect\tamount\twithout\twith\n"

    def test_the_same_table(self):
        """An idle fault and runs that failed cost nothing more."""
        before = read_ranks("".join(table(DONE)))
        self.assertEqual(worse(DONE, before), [])
        self.assertEqual(list(not_compared(DONE, before)), ["not compared: 2 runs that failed\n"])
        self.assertIn("lost\t1\tB\t*\tall\t-\t-\tidle\t0\t-\t-\n", list(table(DONE)))

    MUTED = fault("mute", 0, "A", "s1")

    def is_worse(self, before: list[Difference], after: list[Difference]) -> list[str]:
        """Returns the effects that are worse than in a table with other differences of the same fault."""
        ranks = read_ranks("".join(table([(self.MUTED, before)])))
        return [it.effect for _, it in worse([(self.MUTED, after)], ranks)]

    def test_a_frame_that_starves(self):
        """With the fault one commit was late, of ten. Now nine more are overwritten, and one is late as before."""
        late, starved = (commits("10 10 0 0 0", it) for it in ("10 9 0 1 0", "10 0 9 1 0"))
        self.assertEqual([(it.effect, it.amount) for it in starved], [("pending", 1), ("unsent", 10)])
        self.assertEqual(self.is_worse(late, starved), ["unsent"])
        self.assertEqual(self.is_worse(starved, late), [])
        self.assertEqual(self.is_worse(starved, starved), [])
        self.assertEqual(self.is_worse([], late), ["pending", "unsent"])
        self.assertEqual(self.is_worse(commits("10 10 0 0 0", "10 9 1 0 0"), late), ["pending"])

    def test_rows_of_an_earlier_version(self):
        """These have `pending` alone where fewer commits were sent, too. Their states say how many."""
        late, starved = (commits("10 10 0 0 0", it) for it in ("10 9 0 1 0", "10 0 9 1 0"))
        self.assertEqual(self.is_worse(late[:1], late), [])
        self.assertEqual(self.is_worse(starved[:1], starved), [])
        self.assertEqual(self.is_worse(late[:1], starved), ["unsent"])

    def test_frames_of_a_fifo(self):
        """Lost and other frames are counts of their own. None is worse than frames that weren't comparable."""
        def fifo(*effects: tuple[str, int]) -> list[Difference]:
            return [Difference(1, "queue", effect, amount, "4 0", "2 0") for effect, amount in effects]
        both = fifo(("lost", 2), ("changed", 1))
        self.assertEqual(self.is_worse(fifo(("lost", 2)), both), ["changed"])
        self.assertEqual(self.is_worse(both, fifo(("lost", 3), ("changed", 1))), ["lost"])
        self.assertEqual(self.is_worse(both, fifo(("lost", 2))), [])
        self.assertEqual(self.is_worse(fifo(("not comparable", 1)), both), [])
        self.assertEqual(self.is_worse(both, fifo(("not comparable", 1))), ["not comparable"])

    def test_one_state_of_a_receive_buffer(self):
        """An older frame is better than none, and worse than one that is less old."""
        def older(by: int) -> list[Difference]:
            return [Difference(1, "rx 1", "older", by, "9:A x1111", f"{9 - by}:A x1111")]
        self.assertEqual(self.is_worse([lost(1)], older(3)), [])
        self.assertEqual(self.is_worse(older(3), [lost(1)]), ["lost"])
        self.assertEqual((self.is_worse(older(3), older(2)), self.is_worse(older(3), older(4))), ([], ["older"]))

    def test_an_idle_node_that_sends_now(self):
        before = read_ranks("".join(table(DONE)))
        now = [(fault("lost", 1, "B", "all"), [lost(0)])]
        self.assertEqual([str(it) for it, _ in worse(now, before)], ["lost 1 B * all"])

    def test_a_run_that_failed_is_not_worse(self):
        found = worse([(fault("mute", 0, "A", "s1"), [killed()])], read_ranks(self.HEAD.format("s")))
        self.assertEqual(found, [])

    def test_a_table_of_an_earlier_version(self):
        """The earlier table has no faults of both channels, so these aren't compared, and a line reports that. All
        others are compared."""
        before = read_ranks(self.HEAD.format(""))
        done = DONE[:1] + DONE[-1:]
        self.assertEqual([str(it) for it, _ in worse(done, before)], ["noise 1 A * s1"])
        self.assertEqual(list(not_compared(done, before)), [
            "not compared: 1 fault on both channels, since the table is of an earlier version, which had none; make it "
            "anew\n"])

    def test_no_table(self):
        for text in ("", "kind\n", self.HEAD.format("s")[:-1], self.HEAD.format("s") + "lost\t0\n"):
            with self.assertRaises(BadTable):
                read_ranks(text)


class TestPage(unittest.TestCase):
    def page(self, *given, **more) -> str:
        return page(Subject("cluster.toml", "scenario"), results(*given, **more))

    def test_the_first_tables(self):
        text = self.page()
        heads = [text.index(f"<h2>{it}</h2>") for it in (
            "Node fails silent", "Node babbles", "One channel disturbed", "The faults that cost most")]
        self.assertEqual(heads, sorted(heads))
        silent, babbles, one = (text[begin:end] for begin, end in zip(heads, heads[1:]))
        self.assertIn('<td class="lost"><a href="#c0-0-1">lost<br>1 fault</a></td>', silent)
        self.assertIn('<td class="changed"><a href="#c0-0-0">changed<br>1 fault</a></td>', silent)
        self.assertIn("<td>lost 0 AB * all</td>", silent)
        self.assertNotIn("one channel", silent)
        self.assertIn('<th>node 0</th><td class="nothing"><span>-</span></td>', babbles)
        self.assertIn("<td>noise 1 A * s1 (one channel)</td>", one)
        self.assertIn("Harmless: mute on A (one channel) s1.", one)
        self.assertIn("sends nothing on B", one)

    def test_each_cell_opens_a_section(self):
        text = self.page()
        links, names = (re.findall(form, text) for form in (r'href="#([^"]*)"', r' id="([^"]*)"'))
        self.assertEqual((len(links) > 3, sorted(links)), (True, sorted(names)))

    def test_no_text_becomes_a_mark(self):
        """The texts are names of files and nodes, a run's messages, and the states of a buffer."""
        mark = "<i>&"
        labels = Labels({0: mark, 1: mark}, {(0, 1): mark})
        done = [(fault("lost", 1, BOTH, "all"), [Difference(0, "rx 1", "lost", 1, mark, mark)]),
                (fault("mute", 0, "A", "s1"), [killed(mark)])]
        text = page(Subject(mark, mark), results(done, labels=labels, overwritten={0: 1}, quiet=(1,)))
        self.assertEqual((text.count("&lt;i&gt;&amp;") > 8, text.count("<i>")), (True, 0))

    def test_both_effects_on_commits(self):
        text = self.page([(fault("lost", 0, BOTH, "all"), commits("10 10 0 0 0", "10 0 9 1 0"))])
        self.assertIn('<td class="pending"><a href="#c0-0-0">pending, unsent<br>1 fault</a></td>', text)
        self.assertIn("tx 0: 1 commit more pending", text)
        self.assertIn("tx 0: 10 commits fewer sent", text)

    def test_the_policy(self):
        """A browser takes the one style of the page, by its digest, and nothing else. The page has no script, no style
        of an element, and no address of a file."""
        text = self.page()
        style, = re.findall(r"<style>(.*?)</style>", text, re.DOTALL)
        digest = base64.b64encode(hashlib.sha256(style.encode()).digest()).decode()
        policy, = re.findall(r'<meta http-equiv="Content-Security-Policy" content="([^"]*)">', text)
        self.assertEqual(policy, f"default-src 'none'; style-src 'sha256-{digest}'; base-uri 'none'; "
                                 "form-action 'none'")
        self.assertLess(text.index("Content-Security-Policy"), text.index("<title>"))
        self.assertEqual(re.findall(r"<script|<link|<img| style=| src=| on[a-z]+=|href=\"(?!#)", text), [])

    @unittest.skipUnless(CHROMIUM, "there is no Chromium")
    def test_the_policy_in_a_browser(self):
        """The style of the page is applied. A script that a name had brought in would not run, nor would its style."""
        strange = "<p id=strange style='color: red'>x</p><script>document.title = 'ran'</script>"
        with TemporaryDirectory() as folder, chromium() as tab:
            file = Path(folder) / "faults.html"
            file.write_text(self.page().replace("</body>", f"{strange}</body>"))
            tab.ask("Page.navigate", url=file.as_uri())
            while not tab.valued("document.readyState === 'complete' && document.getElementById('strange') !== null"):
                time.sleep(0.01)
            found = tab.valued("[getComputedStyle(document.querySelector('td.lost')).backgroundColor, "
                               "getComputedStyle(document.getElementById('strange')).color, document.title]")
        self.assertEqual(found, ["rgb(179, 38, 30)", "rgb(34, 34, 34)", "Costs of single faults in cluster.toml"])

    def test_a_sort_that_is_not_listed(self):
        """A table without faults doesn't look like one of faults without effects."""
        text = self.page(DONE[:1])
        self.assertEqual(text.count("None of these faults was listed, so nothing is said of them."), 2)

    def test_runs_that_failed(self):
        """The only run of node 1 that fails silent was killed: its cells show neither harmless nor harmful."""
        text = self.page()
        row = '<tr><th>node 1<br><small>1 run failed</small></th>' + 2 * \
            '<td class="nothing"><span>no outcome</span></td>' + "</tr>"
        self.assertEqual(text.count(row), 2)

    def test_an_idle_node(self):
        text = self.page([(fault("lost", 1, BOTH, "all", ()), [NO_RUN])])
        row = "<tr><th>node 1<br><small>sends nothing on A and B</small></th>" + 2 * \
            '<td class="nothing"><span>idle</span></td>' + "</tr>"
        self.assertIn(row, text)

    def test_not_comparable(self):
        found = Difference(1, "queue", "not comparable", 1, "1 0", "1 0: fr_view can't be run")
        text = self.page([(fault("lost", 0, BOTH, "all"), [found])])
        self.assertIn('<td class="lost"><a href="#c0-0-1">not comparable<br>1 fault</a></td>', text)
        self.assertIn("node 1 FIFO: not comparable, which counts as a loss", text)

    def test_names(self):
        """Names of nodes and buffers are printed beside their numbers, with everything in them escaped."""
        labels = Labels.read(NAMED.encode())
        self.assertEqual(labels.node(0), "node 0 pe\\x1b[31mdal")
        self.assertEqual(labels.thing(0, "rx 1"), "rx 1 (an\\u202egle <b>)")
        found = labels.node(1), labels.thing(0, "rx 2"), labels.thing(1, "queue")
        self.assertEqual(found, ("node 1", "rx 2", "FIFO"))
        done = [(fault("lost", 1, BOTH, "all"), [lost(0)]),
                (fault("mute", 0, "A", "s1"), failed("killed", "\x1b[2J\t"))]
        subject = Subject(f"a{BIDI}.toml", "b\udcff\x07")
        text = page(subject, results(done, NAMED, labels=labels))
        self.assertIn("rx 1 (an\\u202egle &lt;b&gt;): lost", text)
        self.assertIn("a\\u202e.toml", text)
        self.assertIn("b\\udcff\\x07", text)
        self.assertIn("\\x1b[2J\\x09", text)
        told = "".join(summary(results(done, NAMED, labels=labels, overwritten={0: 1})))
        for shown in (text, told):
            self.assertEqual([it for it in shown if not it.isprintable() and it != "\n"], [])

    def test_a_file_that_has_no_names(self):
        for data in (b"\xff", b"= 1", b"node = 3", b"node = [1, {buffer = 2}, {buffer = [3]}]", b"name = \"x\""):
            self.assertEqual(Labels.read(data), Labels())
        self.assertEqual(Labels.read(b'\xef\xbb\xbfnode = [{name = "a"}]').node(0), "node 0 a")

    def test_long_names(self):
        """They are cut as in tables, so that no line of the summary is long."""
        text = TWO_NODES.replace("[[node]]\n", f'[[node]]\nname = "{"n" * 10_000}"\n')
        labels = Labels.read(text.encode())
        self.assertEqual(labels.node(1), f"node 1 {'n' * 40}..")
        found = "".join(summary(results([], text, labels=labels, overwritten={0: 1}, quiet=(0, 1))))
        self.assertIn("n" * 40, found)
        self.assertLess(max(map(len, found.split("\n"))), 200)

    def test_a_name_that_is_no_string(self):
        """The bench reads no key `name`, so a cluster file may have any value there. The number stands by itself."""
        text = 'node = [{name = 7}, {name = "b", buffer = [{name = ["c"]}, {name = "d"}]}]'
        labels = Labels.read(text.encode())
        self.assertEqual((labels.nodes, labels.buffers), ({1: "b"}, {(1, 1): "d"}))
        self.assertEqual((labels.node(0), labels.thing(1, "rx 0")), ("node 0", "rx 0"))

    def test_ranges(self):
        found = ranges(["s1", "s2", "s3", "s5", "s*", "m7", "m8", "all"])
        self.assertEqual(found, ["s1-s3", "s5", "s*", "m7-m8", "all"])
        places = [f"s{it}" for it in range(1, 51)]
        self.assertEqual(grouped(fault("noise", 0, BOTH, it) for it in places), "noise on A and B s1-s50")

    def test_visible(self):
        for text, wanted in (("a b\u00e9", "a b\u00e9"), ("\x00\n\t\x7f\x85", "\\x00\\x0a\\x09\\x7f\\x85"),
                             ("\u202e\u2066\u200b\u2028\ufeff", "\\u202e\\u2066\\u200b\\u2028\\ufeff"),
                             ("\U000e0001", "\\U000e0001"), ("\udc80", "\\udc80")):
            self.assertEqual(visible(text), wanted)
