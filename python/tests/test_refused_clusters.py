"""Tests of a mistake of each kind for which a cluster file is refused: a text, and the words of its finding."""
from tests.cases import CLUSTER, Cases

# The first node's `own`, `queue` and buffer lines, as changes name them.
OWN = 'own = [{slot = 1, channels = "AB", sync = true}]'
QUEUE = 'capacity = 2, first = 4, last = 7, channels = "AB"'
EVENT = '{kind = "event", slot = 1, channels = "AB"}'
DYNAMIC = '{kind = "event", slot = 4, channels = "A", words = 1}'

PARAMETERS = (
    ("Params Missing idle", "cluster.toml:3:1", ("`[params]` has no `idle`", "from 0 to 2"), "idle = 0\n", ""),
    ("Params Missing idle", "cluster.toml:3:1", ("`Idle` is an unknown key: is `idle` meant?", "cluster.toml:12:1"),
     "idle = 0", "Idle = 0"),
    ("Params Missing static_slots", "None", ("no table `[params]`",), "[params]", "[parameters]"),
    ("Params Missing static_slots", "cluster.toml:1:1", ("under `params` 7",), 'guard = "A"', "params = 7", "[params]",
     "[other]"),
    ("Params NotANumber static_mt", "cluster.toml:7:1",
     ("`static_mt` of `[params]` is 20.0", "a whole number from 1 to 1000"),
     "static_mt = 20", "static_mt = 20.0"),
    ("Params NotANumber nit_mt", "cluster.toml:10:1", ('is "10"',), "nit_mt = 10", 'nit_mt = "10"'),
    ("Params OutOfRange idle", "cluster.toml:12:1", ("is 3", "from 0 to 2"), "idle = 0", "idle = 3"),
    ("Params OutOfRange cycle_mt", "cluster.toml:11:1", ("from 4 to 20000",), "cycle_mt = 90", "cycle_mt = -90"),
    ("Params CycleSum", "cluster.toml:11:1",
     ("90 macroticks long, and `cycle_mt` is 91", "3 * 20 + 4 * 5 + 0 + 10 = 90, 1 less"),
     "cycle_mt = 90", "cycle_mt = 91"),
)
TOP = (
    ("BadGuard", "cluster.toml:1:1", ('is "a"', '"AB", "A", "B" or "none"'), 'guard = "A"', 'guard = "a"'),
    ("BadGuard", "cluster.toml:1:1", ("is true",), 'guard = "A"', "guard = true"),
    ("TooManyNodes", "cluster.toml:1:1", ("`node` is 7", "1 to 16 tables"), 'guard = "A"', "node = 7",
     CLUSTER[CLUSTER.index("[[node]]"):], ""),
    ("TooManyNodes", "None", ("the file has no node", "`nodes` is an unknown key: is `node` meant?"),
     CLUSTER[CLUSTER.index("[[node]]"):], "[[nodes]]\ntasks = 1\n"),
    ("TooManyNodes", "cluster.toml:41:1", ("the file has 17 nodes",), CLUSTER[CLUSTER.index("[[node]]"):],
     "[[node]]\n" * 10
     + "\n" * 10 + "[[node]]\n" * 7),
)
NODES = (
    ("BadNode 0", "cluster.toml:16:1", ("`tasks` of node 0 is 9", "from 0 to 8"), "tasks = 2", "tasks = 9"),
    ("BadNode 1", "cluster.toml:25:1", ('`tasks` of node 1 is "2"',), "tasks = 2\nown = [{slot = 2",
     'tasks = "2"\nown = [{slot = 2'),
    ("BadNode 2", "cluster.toml:35:1", ("`latest_a` of node 2 is 5", "from 0 to 4, which is `minislots`"),
     "latest_a = 4", "latest_a = 5"),
    ("BadNode 2", "cluster.toml:35:1", ("`latest_b` of node 2 is 5",), "latest_a = 4", "latest_b = 5"),
    ("BadNode 0", "cluster.toml:16:1", ("`host_entries`", "from 1 to 16384"), "tasks = 2", "host_entries = 16385"),
    ("BadNode 0", "cluster.toml:16:1", ("`slot_entries`", "from 2 to 65536"), "tasks = 2", "slot_entries = 1"),
    ("BadNode 0", "cluster.toml:1:9", ("node 0 is 1", "Expected a table"),
     CLUSTER[CLUSTER.index("[[node]]"):], "[other]\n", 'guard = "A"\n', "node = [1]\n"),
    ("BadNode 0", "cluster.toml:17:1", ("`own` of node 0 is a table", "an array of tables"), OWN, "own = {slot = 1}"),
    ("BadNode 0", "cluster.toml:17:1", ("is an array of 65", "at most 64"), OWN, f"own = [{'{}, ' * 64}{{}}]"),
    ("BadNode 0", "cluster.toml:17:12", ("item 1 of `own` of node 0 is 7",), OWN, "own = [{}, 7]"),
    ("BadNode 0", "cluster.toml:17:9",
     ("`slot` of ownership line 0 of node 0 is 4", "from 1 to 3, which is `static_slots`"),
     OWN, OWN.replace("slot = 1", "slot = 4")),
    ("BadNode 0", "cluster.toml:17:8",
     ("has no `channels`", "`chanels` is an unknown key: is `channels` meant?", "cluster.toml:17:19"),
     OWN, OWN.replace("channels", "chanels")),
    ("BadNode 0", "cluster.toml:17:19", ('`channels` of ownership line 0 of node 0 is "BA"', '"A", "B" or "AB"'),
     OWN, OWN.replace('"AB"', '"BA"')),
    ("BadNode 0", "cluster.toml:17:36", ('`sync` of ownership line 0 of node 0 is "true"', "without quotes"),
     OWN, OWN.replace("true", '"true"')),
    ("BadNode 0", "cluster.toml:17:36", ("`startup` of", "`sync = true` beside it"), OWN,
     OWN.replace("sync", "startup")),
    ("BadNode 0", "cluster.toml:17:49", ("`repetition` of ownership line 0 of node 0 is 3", "1, 2, 4, 8, 16, 32 or 64"),
     OWN, OWN.replace("}", ", repetition = 3}")),
    ("BadNode 0", "cluster.toml:17:49", ("`base` of ownership line 0 of node 0 is 2", "below `repetition`, which is 2"),
     OWN, OWN.replace("}", ", base = 2, repetition = 2}")),
    ("BadNode 0", "cluster.toml:18:1",
     ("`queue` of node 0 is 4", "a table with `capacity`, `first`, `last` and `channels`"),
     f"queue = {{{QUEUE}}}", "queue = 4"),
    ("BadNode 0", "cluster.toml:18:10", ("`capacity` of the receive FIFO of node 0 is 257",), QUEUE,
     QUEUE.replace("2", "257")),
    ("BadNode 0", "cluster.toml:18:24", ("`first` of the receive FIFO of node 0 is 8", "not above `last`, which is 7"),
     QUEUE, QUEUE.replace("4", "8")),
    ("BadNode 0", "cluster.toml:18:1", ("the receive FIFO of node 0 has no `last`",), QUEUE,
     QUEUE.replace("last = 7, ", "")),
    ("BadNode 2", "cluster.toml:36:1", ("`buffer` of node 2 is a table",), "buffer = [\n  " + DYNAMIC,
     "buffer = {}\nother = [\n  " + DYNAMIC),
)
BUFFERS = (
    ("BadBuffer 0 0", "cluster.toml:20:4", ('`kind` of buffer 0 of node 0 is "send"', '"event", "state" or "receive"'),
     EVENT, EVENT.replace("event", "send")),
    ("BadBuffer 0 1", "cluster.toml:21:3", ("buffer 1 of node 0 has no `kind`",), 'kind = "receive", slot = 2',
     "slot = 2"),
    ("BadBuffer 0 0", "cluster.toml:20:20", ("`slot` of buffer 0 of node 0 is 2048", "from 1 to 2047"),
     EVENT, EVENT.replace("slot = 1", "slot = 2048")),
    ("BadBuffer 2 0", "cluster.toml:37:3", ("has no `words`", "since slot 4 is dynamic"), DYNAMIC,
     DYNAMIC.replace(", words = 1", "")),
    ("BadBuffer 2 0", "cluster.toml:37:46", ("`words` of buffer 0 of node 2 is 128",), DYNAMIC,
     DYNAMIC.replace("= 1", "= 128")),
    ("BadBuffer 0 0", "cluster.toml:20:47", ('`preamble` of buffer 0 of node 0 is "no"',), EVENT,
     EVENT.replace("}", ', preamble = "no"}')),
    ("BadBuffer 0 0", "cluster.toml:20:47", ("`repetition` of buffer 0 of node 0 is 65", "1, 2, 4, 8, 16, 32 or 64"),
     EVENT, EVENT.replace("}", ", repetition = 65}")),
)
CLASHES = (
    ("NotOwned 0 0", "cluster.toml:20:20",
     ("isn't node 0's on A in cycle 0", "cluster.toml:26:8: ownership line 0 of node 1 has slot 2 on AB"),
     EVENT, EVENT.replace("slot = 1", "slot = 2")),
    ("NotOwned 0 0", "cluster.toml:20:20", ("on A in cycle 1",), OWN, OWN.replace("}", ", repetition = 2}")),
    ("DynamicBoth 2 0", "cluster.toml:37:30", ("dynamic slot 4 on both channels", "the last static one, 3"),
     DYNAMIC, DYNAMIC.replace('"A"', '"AB"')),
    ("Overlap 1 A 0", "cluster.toml:26:8",
     ("ownership line 0 of node 1 and ownership line 0 of node 0 both own slot 1 on A in cycle 0",
      "cluster.toml:17:8: ownership line 0 of node 0 has slot 1 on AB in every cycle"),
     'own = [{slot = 2, channels = "AB"}]', 'own = [{slot = 1, channels = "A"}, {slot = 2, channels = "AB"}]'),
    ("Overlap 4 A 1", "cluster.toml:37:3",
     ("buffer 0 of node 2 and buffer 1 of node 0 both send in slot 4 on A in cycle 1",
      "cluster.toml:21:3: buffer 1 of node 0 has slot 4 on A in cycles 1, 3 .."),
     '{kind = "receive", slot = 2, channels = "A"}',
     '{kind = "event", slot = 4, channels = "A", base = 1, repetition = 2, words = 1}'),
    ("TooLong 2 0", "cluster.toml:37:46",
     ("needs 2 minislots, and 1 are left", "cluster.toml:35:1: `latest_a` of node 2",
      "at most 3 under `latest_a`, or at most 1 words"), DYNAMIC, DYNAMIC.replace("words = 1", "words = 2")),
)
TEXTS = (
    ("Toml", "cluster.toml:16:9", ("`two` is no value", "a string in quotes"), "tasks = 2", "tasks = two"),
    ("Toml", "cluster.toml:17:1", ("`tasks` stands twice", "cluster.toml:16:1: the first one"), OWN, "tasks = 3"),
    ("Toml", "cluster.toml:12:8", ("an integer is too great",), "idle = 0", f"idle = {2**63}"),
    ("Toml", "cluster.toml:12:10", ("an integer is too great",), "idle = 0", f"spare = [{'9' * 5000}]"),
    ("Toml", "cluster.toml:1:1", ("nested too deep",), 'guard = "A"', f"{'a.' * 80}a = 1"),
    ("Toml", "cluster.toml:12:10", ("a number is too great",), "idle = 0", "spare = [1e309]"),
    ("Toml", "cluster.toml:1:89", ("nested too deep", "At most 80"), 'guard = "A"', f"spare = {'[' * 81}{']' * 81}"),
)


class RefusedClusters(Cases):
    def rows(self, rows):
        for refusal, place, words, *changes in rows:
            with self.subTest(refusal=refusal, changes=changes[:2]):
                self.refused(refusal, place, words, self.changed(CLUSTER, changes))

    def test_parameters(self):
        self.rows(PARAMETERS)

    def test_the_top_of_the_file(self):
        self.rows(TOP)

    def test_nodes(self):
        self.rows(NODES)

    def test_buffers(self):
        self.rows(BUFFERS)

    def test_clashes(self):
        self.rows(CLASHES)

    def test_texts(self):
        self.rows(TEXTS)

    def test_a_file_that_is_too_long(self):
        self.refused("TooLong", "None", ("1048577 bytes", "at most 1048576"), "#" * 1_048_577)

    def test_a_file_that_is_no_utf8(self):
        self.refused("Toml", "cluster.toml:2:10", ("0xff is no UTF-8",), b'\nguard = "\xff"\n')

    def test_a_file_that_is_not_there(self):
        self.refused("Read", "None", ("isn't there",), None)

    def test_all_mistakes_are_told(self):
        text = self.changed(CLUSTER, ("tasks = 2", "tasks = 9", '"event", slot = 1', '"event", slot = 0',
                                      "latest_a = 4", "latest_a = 9"))
        found, answer = self.look(text)
        self.assertEqual([refusal for refusal, _ in found.refusals], ["BadNode 0", "BadBuffer 0 0", "BadNode 2"])

    def test_a_clash_on_both_channels_is_told_once(self):
        found, _ = self.look(self.changed(CLUSTER, ('own = [{slot = 2, channels = "AB"}]', f"{OWN} # again")))
        self.assertEqual([refusal for refusal, _ in found.refusals], ["NotOwned 1 0", "Overlap 1 A 0"])

    def test_a_file_of_the_newer_toml(self):
        """A last comma and a line break in an inline table, an escape of TOML 1.1, and a byte order mark."""
        newer = "\ufeff" + self.changed(CLUSTER, (EVENT, EVENT.replace("}", ',\n  name = "\\e",}')))
        found, _ = self.look(newer.replace(", sync = true", ", sync = true, startup = true,").replace(
            'slot = 2, channels = "AB"}]\nbuf', 'slot = 2, channels = "AB", sync = true, startup = true}]\nbuf'))
        self.assertEqual((found.refusals, [it.name for it in found.warnings]), ([], ["unusable-name"]))
        self.refused("BadNode 0", "cluster.toml:16:1", ("is 9",), newer.replace("tasks = 2", "tasks = 9", 1))
