"""Tests of the load of each channel, and of the intervals that `commits`, `reads` and `latency` measure."""
import random

from musmyrtle.cluster import Cluster, Reading
from musmyrtle.latencies import Way, read_latencies, read_way, words_for_way
from musmyrtle.lint.guarantees import lines_of
from musmyrtle.lint.loads import missing
from musmyrtle.texts import read_text
from tests.shows import EXAMPLES, NETWORK, SCENE, Shows

LOAD = "channel owned static static_percent least least_percent most most_percent minislots slack missing"
CLUSTERS = 30
PARAMETERS = """[params]
static_slots = 2
minislots = 24
static_words = 1
static_mt = 20
minislot_mt = 5
symbol_mt = 0
nit_mt = 10
cycle_mt = 170
idle = {idle}
words_per_minislot = 4
"""


def some_cluster(some: random.Random) -> str:
    """Returns a cluster of four nodes, each with a buffer for one or two of the slots 3 to 10 of channel A."""
    parts = [PARAMETERS.format(idle=some.randrange(3))]
    slots = some.sample(range(3, 11), 8)
    for _ in range(4):
        buffers = [f'{{kind = "event", slot = {slots.pop()}, channels = "A", base = {some.randrange(2)}, repetition = '
                   f'{some.choice((2, 4))}, words = {some.randrange(20)}}}' for _ in range(some.randrange(1, 3))]
        tasks = some.choice((0, 1, 1, 1))
        parts.append(f"[[node]]\ntasks = {tasks}\nlatest_a = {some.randrange(1, 18)}\n"
                     f"buffer = [{', '.join(buffers)}]\n")
    return "".join(parts)


class Loads(Shows):
    def test_the_load_of_a_small_network(self) -> None:
        """The log takes 4 of 10 minislots and the state 1. Slot 4 starts at 5, and its node's latest minislot is 3."""
        cluster = self.written("cluster.toml", NETWORK)
        self.assertEqual(self.values("load", LOAD, "latency", cluster),
                         [("A", 128, 128, 100.0, 5, 50.0, 5, 50.0, 10, 0, 2),
                          ("B", 128, 128, 100.0, 0, 0.0, 0, 0.0, 10, 10, 0)])

    def test_frames_that_take_more_minislots_than_there_are(self) -> None:
        """By examples/ten-nodes: 251 of 240 minislots, and a slot that starts at 241 while its node's latest is 188."""
        text = (EXAMPLES / "ten-nodes/cluster.toml").read_text()
        line = next(it for it in text.splitlines() if '"picture"' in it)
        cluster = self.written("cluster.toml", text.replace(line, line.replace("repetition = 2", "repetition = 1")))
        row = self.rows("load", "latency", cluster, "--channel", "A")[0]
        self.assertEqual([row[it] for it in ("most", "most_percent", "minislots", "slack", "missing")],
                         [251, 104.6, 240, 0, 53])

    def test_a_start_that_comes_from_an_earlier_one(self) -> None:
        """With 10 words a minislot slot 4 starts at 6, one too late; with 11 slot 5 starts at 10, not 8."""
        text = (EXAMPLES / "schedules/shorter-frames.toml").read_text()
        for words, lacking in ((10, 1), (11, 2)):
            cluster = self.written("cluster.toml", text.replace("words_per_minislot = 10",
                                                                f"words_per_minislot = {words}"))
            self.assertEqual(self.values("load", "missing", "latency", cluster, "--channel", "A"), [(lacking,)])

    def test_no_dynamic_segment(self) -> None:
        cluster = str(EXAMPLES / "host-programs/brakes.toml")
        self.assertEqual(self.values("load", "least_percent most_percent minislots missing", "latency", cluster),
                         [(None, None, 0, 0)] * 2)

    def test_the_meaning_of_each_number(self) -> None:
        text = self.printed("latency", self.written("cluster.toml", NETWORK))
        for line in ("state: holds for the frame lengths of the file", "worst: from a commit just after the fetch",
                     "slack: the least number of minislots", "missing: the greatest number of minislots"):
            self.assertIn(f"\n{line}", text)

    def cluster(self, text: str) -> tuple[Cluster, str]:
        """Returns a cluster, and the name of its file."""
        file = self.written("cluster.toml", text)
        cluster = Reading(read_text(file, text.encode()).document).cluster
        assert cluster is not None
        return cluster, file

    def test_the_ways_of_random_clusters(self) -> None:
        """The missing minislots are those of the latest starts that the proved program prints."""
        some = random.Random(94)
        for _ in range(CLUSTERS):
            text = some_cluster(some)
            if "refused" in "".join(self.asked("check", self.written("cluster.toml", text))[1:]):
                continue
            with self.subTest(text=text):
                cluster, file = self.cluster(text)
                late = [0]
                for it in cluster.buffers():
                    if cluster.nodes[it.node].tasks:
                        way = read_way(lines_of([*words_for_way(it.slot, "A"), "--", file]))
                        assert isinstance(way, Way)
                        late.append(way.minislot - cluster.nodes[it.node].latest["A"])
                self.assertEqual(missing(cluster, "A"), max(late))
                slack = read_latencies(lines_of(["latency", "--", file]))[1][0].slack
                self.assertFalse(slack and max(late))


class Intervals(Shows):
    """A cycle has 100 macroticks: slot 1 is macroticks 0 to 20, and the log is macroticks 40 to 60."""

    def test_the_end_of_frames(self) -> None:
        cluster, scene = self.written("cluster.toml", NETWORK), self.written("scene", SCENE)
        words = "commits", cluster, scene, "--cycles", "4", "--node", "pedal"
        self.assertEqual(self.values("commit", "buffer_name sent_cycle channel latency_mt to_end_mt to_end_us", *words),
                         [("position", 0, "A", 0, 20, 40), ("position", 0, "B", 0, 20, 40),
                          ("log", 0, "A", 40, 60, 120), ("log", 1, "A", 40, 60, 120)])

    def test_the_measure_of_worst_latencies(self) -> None:
        """A commit at the start of its cycle is no worse than the worst one. No time is above `worst` of 120."""
        cluster, scene = self.written("cluster.toml", NETWORK), self.written("scene", SCENE)
        worst = {row["buffer_name"]: row["worst_mt"] for row in self.rows("latency", "latency", cluster)}
        for row in self.rows("commit", "commits", cluster, scene, "--cycles", "4", "--node", "pedal"):
            self.assertLessEqual(row["to_end_mt"], worst[row["buffer_name"]])

    def test_texts_name_the_intervals(self) -> None:
        run = self.written("cluster.toml", NETWORK), self.written("scene", SCENE), "--cycles", "4"
        self.assertIn("\nlatency: from the start of the commit's cycle, in which calls come first, to the start of the "
                      "frame's window\nto end: from there to the end of the frame, as worst of musmyrtle latency\n",
                      self.printed("commits", *run))
        self.assertIn("\nage: from the start of the frame's window to the start of the call's cycle, in which calls "
                      "come first\nlatency: from the start of the commit's cycle to the start of the call's cycle\n",
                      self.printed("reads", *run))

    def test_no_interval_without_a_frame(self) -> None:
        """A commit that is pending has no time, and so no line about times."""
        run = self.written("cluster.toml", NETWORK), self.written("scene", SCENE), "--cycles", "4"
        text = self.printed("commits", *run, "--slot", "4", "--in-cycles", "2")
        self.assertNotIn("latency:", text)
