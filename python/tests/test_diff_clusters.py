"""Tests of `musmyrtle diff` of two cluster files, with rows that are worked out by hand on the network of `shows`.

Slot 3 of its dynamic segment opens at minislot 1 and its frame of 16 words has 4 minislots, so slot 4 opens at minislot
5. The brake's latest minislot is 3, so a commit for slot 4 can starve.
"""
import json
from typing import Any

from tests.shows import EXAMPLES, NETWORK, Shows

FRAMES = """
[[frame]]
name = "Position"
bytes = 2
signal = [
  {name = "position", bit = 7, bits = 8, order = "big", factor = 0.01, values = {0 = "up", 1 = "down"}},
  {name = "page", bit = 8, bits = 4},
  {name = "count", bit = 12, bits = 4, when = {page = 1}},
]

[[frame]]
name = "Force"
bytes = 2
"""
WHOLE = NETWORK.replace('{name = "position", kind = "event", slot = 1, channels = "AB"}',
                        '{name = "position", kind = "event", slot = 1, channels = "AB", frame = "Position"}') + FRAMES
OPEN = "No difference: the cluster files differ in comments and spelling at most.\n"


class Diffs(Shows):
    def found(self, new: str, old: str = WHOLE, kinds: str = "") -> list[dict[str, Any]]:
        """Returns the rows of two texts, without absent values, of some kinds or of all."""
        words = self.written("old.toml", old), self.written("new.toml", new)
        status, output, told = self.asked("diff", *words, "--json")
        self.assertEqual((status, told), (3 if output else 0, ""))
        rows = [json.loads(line) for line in output.splitlines()]
        return [{key: value for key, value in row.items() if value is not None} for row in rows
                if not kinds or row["kind"] in kinds.split()]

    def changed(self, *changes: tuple[str, str]) -> str:
        """Returns the text with some changes, each of which must be one."""
        text = WHOLE
        for old, new in changes:
            self.assertEqual(text.count(old), 1, old)
            text = text.replace(old, new)
        return text


class TestClusters(Diffs):
    def test_comments_spelling_and_usual_values_are_no_difference(self) -> None:
        for changes in (
                [("idle = 0", "idle = 0 # none")], [("minislots = 10", "minislots = 0b1010")],
                [('guard = "none"', "guard = 'n\\u006fne'".replace("'", '"'))], [("factor = 0.01", 'factor = "1/100"')],
                [("factor = 0.01", "factor = 1e-2")], [("latest_a = 7", "tasks = 1\nlatest_b = 0x0\nlatest_a = 7")],
                [('slot = 5, channels = "B"', 'slot = 5, channels = "B", base = 0, repetition = 1')],
                [("words = 16", "words = 16, preamble = false")],
                [('own = [{slot = 2, channels = "AB"}]',
                  'own = [{slot = 2, channels = "AB", sync = false, startup = false, base = 0, repetition = 1}]')],
                [('last = 3, channels = "A"', 'last = 3, channels = "A", base = 0, repetition = 1')],
                [("latest_a = 3", "latest_a = 3\nhost_entries = 256\nslot_entries = 4096")],
                [('bits = 8, order', 'bits = 8, signed = false, float = false, bytes = false, initial = 0, order')],
                [('bits = 8, order', 'bits = 8, offset = 0.0, unit = "", update = [], when = {}, order')],
                [("bit = 8, bits = 4", 'bit = 8, bits = 4, values = {}, order = "little"')],
                [("macrotick_us = 2", "macrotick_us = 2.0")], [("bytes = 2\nsignal", "unused = 0\nbytes = 2\nsignal")],
                [("{page = 1}", '{"page" = 0x1}')]):
            with self.subTest(changes=changes):
                self.assertEqual(self.found(self.changed(*changes)), [])

    def test_spellings_of_unread_values(self) -> None:
        old = 'level = [0.5, 1979-05-27T07:32:00Z, -25.0, "a", 1000, {x = inf}]\n'
        new = "level = [5e-1, 1979-05-27 07:32:00z, -0.250e2, 'a', 0x3e8, {\"x\" = +inf}]\n"
        self.assertEqual(self.found(f"{new}{WHOLE}", f"{old}{WHOLE}"), [])
        self.assertTrue(self.found(f"{new}{WHOLE}", f"{old}{WHOLE}".replace("-25.0", "-25.01")))

    def test_parameters(self) -> None:
        other = self.changed(('guard = "none"\n', 'level = [1, "a"]\n'), ("nit_mt = 10", "nit_mt = 12"),
                             ("cycle_mt = 100", "cycle_mt = 102"), ("macrotick_us = 2", "macrotick_us = 1"))
        self.assertEqual(self.found(other, kinds="parameter"), [
            {"kind": "parameter", "table": "params", "change": "changed", "key": "nit_mt", "old": 10, "new": 12},
            {"kind": "parameter", "table": "params", "change": "changed", "key": "cycle_mt", "old": 100, "new": 102},
            {"kind": "parameter", "table": "physical", "change": "changed", "key": "macrotick_us", "old": 2, "new": 1},
            {"kind": "parameter", "change": "changed", "key": "guard", "old": "none", "new": "AB"},
            {"kind": "parameter", "change": "changed", "key": "level", "new": '[1, "a"]'}])

    def test_nodes_and_their_lists(self) -> None:
        brake = {"node": 1, "node_name": "brake", "change": "changed"}
        self.assertEqual(self.found(self.changed(
            ("latest_a = 3", "latest_a = 5"), ("capacity = 1", "capacity = 2"),
            ('own = [{slot = 2, channels = "AB"}]', 'own = [{slot = 2, channels = "AB", sync = true}]'),
            ('{name = "state", kind = "event"', '{name = "state", kind = "state"')),
            kinds="node slot fifo buffer"), [
            {"kind": "node", **brake, "key": "latest_a", "old": 3, "new": 5},
            {"kind": "slot", **brake, "slot": 2, "key": "sync", "old": False, "new": True},
            {"kind": "fifo", **brake, "key": "capacity", "old": 1, "new": 2},
            {"kind": "buffer", **brake, "buffer": 2, "buffer_name": "state", "slot": 4, "key": "kind", "old": "event",
             "new": "state"}])

    def test_a_buffer_that_is_new_moves_others(self) -> None:
        """The numbers of the buffers after it are others, by which scenarios may name them."""
        line = '  {name = "force", kind = "state", slot = 2, channels = "A"},\n'
        more = '  {name = "more", kind = "receive", slot = 3, channels = "A"},\n'
        self.assertEqual(self.found(self.changed((line, more + line)), kinds="node buffer"), [
            {"kind": "node", "node": 1, "node_name": "brake", "change": "order", "key": "numbers of buffers",
             "old": "0-3", "new": "1-4"},
            {"kind": "buffer", "node": 1, "node_name": "brake", "buffer": 0, "buffer_name": "more", "slot": 3,
             "change": "added", "new": '{name = "more", kind = "receive", slot = 3, channels = "A"}'}])

    def test_a_buffer_that_is_gone(self) -> None:
        line = '  {name = "unused", kind = "receive", slot = 5, channels = "B"},\n'
        self.assertEqual(self.found(self.changed((line, ""))), [
            {"kind": "buffer", "node": 1, "node_name": "brake", "buffer": 3, "buffer_name": "unused", "slot": 5,
             "change": "removed", "old": '{name = "unused", kind = "receive", slot = 5, channels = "B"}'}])

    def test_two_names_that_differ_with_more_are_two_things(self) -> None:
        found = self.found(self.changed(('name = "brake"', 'name = "clutch"'), ('"force"', '"power"')))
        self.assertEqual([it for it in found if it["kind"] == "node"], [
            {"kind": "node", "node": 1, "node_name": "brake", "change": "removed",
             "old": '{name = "brake", latest_a = 3}'},
            {"kind": "node", "node": 1, "node_name": "clutch", "change": "added",
             "new": '{name = "clutch", latest_a = 3}'}])
        sides = ("brake", "removed", "force"), ("clutch", "added", "power")
        self.assertEqual([(it["node_name"], it["change"], it["buffer_name"]) for it in found if it["kind"] == "buffer"],
                         [(node, change, name) for node, change, first in sides
                          for name in (first, "position", "state", "unused")])
        self.assertEqual([(it["kind"], it["node_name"]) for it in found if it["kind"] in ("slot", "fifo")],
                         [(kind, node) for kind in ("slot", "fifo") for node in ("brake", "clutch")])

    def test_names_alone(self) -> None:
        node: dict[str, Any] = {"node": 1, "node_name": "brake"}
        for change, kind, place in (
                (('name = "brake"', 'name = "clutch"'), "node", node),
                (('"force"', '"power"'), "buffer", {**node, "buffer": 0, "buffer_name": "force", "slot": 2}),
                (('name = "Force"', 'name = "Power"'), "frame", {"frame": "Force"}),
                (('name = "position", bit', 'name = "place", bit'), "signal",
                 {"frame": "Position", "signal": "position"})):
            with self.subTest(change):
                old, new = (it.partition('"')[2].partition('"')[0] for it in change)
                self.assertEqual(self.found(self.changed(change)), [
                    {"kind": kind, **place, "change": "renamed", "key": "name", "old": old, "new": new}])

    def test_a_name_that_is_new_is_no_other_thing(self) -> None:
        """They are the same by their slots and cycles, or by their numbers, if one of both has no name."""
        bare = WHOLE.replace('{name = "force", kind', "{kind").replace('name = "pedal"\n', "")
        self.assertEqual(
            [(it["kind"], it["change"], it["key"], it.get("old"), it["new"]) for it in self.found(WHOLE, bare)],
            [("node", "changed", "name", None, "pedal"), ("buffer", "changed", "name", None, "force")])

    def test_buffers_without_names_are_known_by_what_they_are(self) -> None:
        bare = WHOLE.replace('{name = "force", kind', "{kind").replace('{name = "unused", kind', "{kind")
        lines = [it for it in bare.splitlines(True) if it.startswith("  {kind")]
        turned = bare.replace(lines[0], "@").replace(lines[1], lines[0]).replace("@", lines[1])
        self.assertEqual(self.found(turned, bare, "node buffer"), [
            {"kind": "node", "node": 1, "node_name": "brake", "change": "order", "key": "numbers of buffers",
             "old": "0,3", "new": "3,0"}])

    def test_pairs_of_buffers_without_names(self) -> None:
        """Content comes before slot and cycles, and these before numbers."""
        def rows(new: str, old: str) -> list[tuple[Any, ...]]:
            return [(it["change"], it.get("buffer"), it.get("key"), it.get("old"), it.get("new"))
                    for it in self.found(new, old, "node buffer")]
        bare = WHOLE.replace('{name = "force", kind', "{kind").replace('{name = "unused", kind', "{kind")
        force, unused = (it for it in bare.splitlines(True) if it.startswith("  {kind"))
        self.assertEqual(rows(bare.replace("slot = 5", "slot = 6"), bare), [("changed", 3, "slot", 5, 6)])
        more = '  {kind = "receive", slot = 3, channels = "A"},\n'
        self.assertEqual(rows(bare.replace(force, more + force.replace("state", "event")), bare), [
            ("order", None, "numbers of buffers", "0-3", "1-4"), ("changed", 0, "kind", "state", "event"),
            ("added", 0, None, None, more.strip(" ,\n"))])
        named = unused.replace("{kind", '{name = "spare", kind')
        self.assertEqual(rows(bare.replace(unused, named.replace('"B"', '"A"')), bare),
                         [("changed", 3, "channels", "B", "A"), ("changed", 3, "name", None, "spare")])
        self.assertEqual(rows(bare.replace(unused, "").replace(force, named + force), bare.replace(
            "{kind = \"receive\", slot = 5", "{name = \"unused\", kind = \"receive\", slot = 5")), [
            ("order", None, "numbers of buffers", "0-2,3", "1-3,0"), ("renamed", 3, "name", "unused", "spare")])

    def test_frames_and_signals(self) -> None:
        page, more = '  {name = "page", bit = 8, bits = 4},\n', '  {name = "x", bit = 15, bits = 1},\n'
        self.assertEqual(self.found(self.changed(
            ("factor = 0.01", 'factor = "1/3"'), ('1 = "down"', '1 = "low", 2-3 = "lower"'),
            ("{page = 1}", "{page = 2}"), (page, page + more),
            ('name = "Force"\nbytes = 2', 'name = "Force"\nbytes = 1\nunused = 255'))), [
            {"kind": "frame", "frame": "Force", "change": "changed", "key": "bytes", "old": 2, "new": 1},
            {"kind": "frame", "frame": "Force", "change": "changed", "key": "unused", "old": 0, "new": 255},
            {"kind": "signal", "frame": "Position", "signal": "position", "change": "changed", "key": "factor",
             "old": 0.01, "new": "1/3"},
            {"kind": "signal", "frame": "Position", "signal": "position", "change": "changed", "key": "values.1",
             "old": "down", "new": "low"},
            {"kind": "signal", "frame": "Position", "signal": "position", "change": "changed", "key": "values.2-3",
             "new": "lower"},
            {"kind": "signal", "frame": "Position", "signal": "count", "change": "changed", "key": "when.page",
             "old": 1, "new": 2},
            {"kind": "signal", "frame": "Position", "signal": "x", "change": "added",
             "new": '{name = "x", bit = 15, bits = 1}'}])

    def test_a_second_file(self) -> None:
        """Frames in it are as if they stood in the cluster file."""
        self.written("a.toml", FRAMES), self.written("b.toml", FRAMES.replace("bytes = 2\nsignal", "bytes = 3\nsignal"))
        front = WHOLE.removesuffix(FRAMES)
        named = [f'signals = "{it}.toml"\n{front}' for it in "ab"]
        self.assertEqual(self.found(named[0]),
                         [{"kind": "parameter", "change": "changed", "key": "signals", "new": "a.toml"}])
        self.assertEqual(self.found(named[1], named[0], "frame"), [
            {"kind": "frame", "frame": "Position", "change": "changed", "key": "bytes", "old": 2, "new": 3}])
        self.written("c.toml", f"level = 1\n{FRAMES}")
        self.assertEqual(self.found(f'signals = "c.toml"\n{front}', named[0])[1],
                         {"kind": "parameter", "table": "signals", "change": "changed", "key": "level", "new": 1})
        status, output, told = self.asked("diff", self.written("x.toml", f'signals = "none.toml"\n{front}'),
                                          self.written("y.toml", front))
        self.assertEqual((status, output), (1, ""))
        self.assertIn("x.toml:1:1: error: the file none.toml of `signals` isn't there", told)

    def test_values_that_look_alike(self) -> None:
        for old, new, wanted in (("level = 1", 'level = "1"', ("1", '"1"')), ("level = 1", "level = 1.0", (1, 1.0)),
                                 ("level = 1", "level = true", (1, True)),
                                 ("level = true", 'level = "true"', (True, "true")),
                                 ("level = 0.1", "level = 0.10000000000000000001", (0.1, "0.10000000000000000001")),
                                 ("level = inf", "level = -inf", ("inf", "-inf"))):
            with self.subTest(old):
                row = self.found(f"{new}\n{WHOLE}", f"{old}\n{WHOLE}")[0]
                self.assertEqual((row["key"], row["old"], row["new"]), ("level", *wanted))

    def test_frames_with_faults_are_compared_as_they_are(self) -> None:
        for old, new in (("frame = 5\n", "frame = 6\n"), ("frame = [1]\n", "frame = [2]\n"),
                         ("[[frame]]\nsignal = 1\n", "[[frame]]\nsignal = 2\n")):
            rows = self.found(NETWORK.replace("[physical]", f"{new}[physical]") if "[[" not in new else NETWORK + new,
                              NETWORK.replace("[physical]", f"{old}[physical]") if "[[" not in old else NETWORK + old)
            self.assertEqual([(it["kind"], it["key"]) for it in rows], [("parameter", "frame")])


class TestSchedules(Diffs):
    def test_receivers(self) -> None:
        """The brake's buffer loses channel A of slot 1, and its FIFO the frames of slot 3."""
        brake = {"node": 0, "node_name": "pedal", "receiver": 1, "receiver_name": "brake"}
        found = self.found(self.changed(
            ('{name = "position", kind = "receive", slot = 1, channels = "AB"}',
             '{name = "position", kind = "receive", slot = 1, channels = "B", base = 1, repetition = 2}'),
            ("first = 3, last = 3", "first = 4, last = 4")), kinds="receiver")
        self.assertEqual(found, [
            {"kind": "receiver", **brake, "buffer": 0, "buffer_name": "position", "receiver_buffer": 1,
             "receiver_buffer_name": "position", "channel": "A", "change": "removed", "old": "0-63"},
            {"kind": "receiver", **brake, "buffer": 0, "buffer_name": "position", "receiver_buffer": 1,
             "receiver_buffer_name": "position", "channel": "B", "change": "changed", "old": "0-63", "new": "1-63/2"},
            {"kind": "receiver", **brake, "buffer": 1, "buffer_name": "log", "channel": "A", "change": "removed",
             "old": "0-63"}])

    def test_what_a_buffer_takes_from_the_fifo(self) -> None:
        """The FIFO stores slot 3 in the cycles in which no receive buffer of its node does."""
        line = '  {name = "unused", kind = "receive", slot = 5, channels = "B"},\n'
        other = line.replace('slot = 5, channels = "B"', 'slot = 3, channels = "A", base = 0, repetition = 2')
        self.assertEqual([(it.get("receiver_buffer"), it["change"], it.get("old"), it["new"])
                          for it in self.found(self.changed((line, other)), kinds="receiver")],
                         [(None, "changed", "0-63", "1-63/2"), (3, "added", None, "0-62/2")])

    def test_guardians(self) -> None:
        """Of the 100 macroticks the dynamic segment has 40 to 90, and each node 20 of the static one."""
        found = self.found(self.changed(('guard = "none"', 'guard = "A"')), kinds="guardian")
        self.assertEqual(found, [
            {"kind": "guardian", "node": node, "node_name": name, "channel": "A", "cycles": list(range(64)),
             "old": "0-90", "new": new} for node, name, new in ((0, "pedal", "0-20,40-90"), (1, "brake", "20-90"))])
        shared = self.changed(('guard = "none"', 'guard = "A"'), (
            'own = [{slot = 2, channels = "AB"}]', 'own = [{slot = 2, channels = "AB", base = 1, repetition = 4}]'),
            ('{name = "force", kind = "state", slot = 2, channels = "A"}',
             '{name = "force", kind = "state", slot = 2, channels = "A", base = 1, repetition = 4}'))
        rows = self.found(shared, self.changed(('guard = "none"', 'guard = "A"')), "guardian")
        self.assertEqual([(it["node"], it["cycles"], it["old"], it["new"]) for it in rows],
                         [(1, [it for it in range(64) if it % 4 != 1], "20-90", "40-90")])

    def test_latencies(self) -> None:
        """With the latest minislot 5 the frame of slot 4 is always sent.

        If its fetch at minislot 2, macrotick 45, comes just before the commit, it ends in the next cycle at macrotick
        65 at the latest, with minislot 5: after 120 macroticks of 2 us.
        """
        found = self.found(self.changed(("latest_a = 3", "latest_a = 5")), kinds="latency load")
        place = {"kind": "latency", "node": 1, "node_name": "brake", "buffer": 2, "buffer_name": "state", "slot": 4,
                 "change": "changed"}
        self.assertEqual([it for it in found if it["kind"] == "latency"], [
            {**place, "key": "state", "old": "possible", "new": "guaranteed"},
            {**place, "key": "guaranteed", "old": 0, "new": 64},
            {**place, "key": "latest", "old": 3, "new": 5},
            {**place, "key": "worst", "unit": "us", "new": 240}])

    def test_units(self) -> None:
        """Without the microseconds of a macrotick in one file, both have macroticks. The frame is a minislot shorter.
        """
        longer = self.changed(("words = 16", "words = 11"), ("macrotick_us = 2\n", ""))
        rows = [it for it in self.found(longer, kinds="latency") if it["key"] == "worst"]
        self.assertEqual([(it["buffer_name"], it["unit"], it["old"], it["new"]) for it in rows],
                         [("log", "MT", 120, 115)])


class TestCommand(Diffs):
    def test_tables_for_people(self) -> None:
        guarded = self.changed(('guard = "none"', 'guard = "A"'))
        words = self.written("old.toml", WHOLE), self.written("new.toml", guarded)
        status, output, told = self.asked("diff", *words)
        self.assertEqual((status, told), (3, ""))
        self.assertEqual(output, (
            "Parameters\nchange   key    old   new\nchanged  guard  none  A\n\n"
            "Macroticks in which a guardian is open\nnode       channel  cycles  old   new\n"
            "pedal (0)  A        0-63    0-90  0-20,40-90\nbrake (1)  A        0-63    0-90  20-90\n"))

    def test_the_same(self) -> None:
        words = self.written("old.toml", WHOLE), self.written("new.toml", f"# another\n{WHOLE}")
        self.assertEqual(self.printed("diff", *words), OPEN)
        self.assertEqual(self.printed("diff", *words, "--json"), "")
        self.assertEqual(self.printed("diff", *words, "--csv"), "kind\n")

    def test_csv(self) -> None:
        words = self.written("old.toml", WHOLE), self.written("new.toml", f"level = '=1+1'\n{WHOLE}")
        self.assertEqual(self.asked("diff", *words, "--csv")[1],
                         "kind,table,change,key,old,new\nparameter,,changed,level,,'=1+1\n")

    def test_refused_files(self) -> None:
        good, bad = self.written("old.toml", WHOLE), self.written("new.toml", self.changed(("idle = 0", "idle = 3")))
        for words in ((good, bad), (bad, good)):
            status, output, told = self.asked("diff", *words)
            self.assertEqual((status, output), (1, ""))
            self.assertIn("new.toml:16:1: refused Params OutOfRange idle", told)
        self.assertEqual(self.asked("diff", good, str(self.folder / "none.toml"))[0], 1)

    def test_wrong_words(self) -> None:
        one = str(EXAMPLES / "three-nodes/cluster.toml")
        for words, told in (
                ([one], "expected CLUSTER CLUSTER, and not 1 file"),
                ([one] * 3, "three files are a cluster file and two scenarios with --cycles N, or two recordings"),
                ([one] * 2 + ["--cycles", "4"], "expected CLUSTER SCENARIO SCENARIO, and not 2 files"),
                ([one] * 2 + ["--recordings"], "expected CLUSTER RECORDING RECORDING, and not 2 files"),
                ([one] * 3 + ["--recordings", "--cycles", "4"], "--recordings takes the place of --cycles"),
                ([one] * 2 + ["--cycles", "0"], "is no number from 1 to 1024")):
            with self.subTest(words):
                status, output, error = self.asked("diff", *words)
                self.assertEqual((status, output), (2, ""))
                self.assertIn(told, error)

    def test_long_values_show_where_they_differ(self) -> None:
        old, new = (f'level = "{"a" * 300}{it}"\n{WHOLE}' for it in "bc")
        words = self.written("old.toml", old), self.written("new.toml", new)
        output = self.asked("diff", *words)[1]
        self.assertIn(f"..{'a' * 24}b  ..{'a' * 24}c\n", output)
        self.assertEqual(self.found(new, old)[0]["new"], "a" * 300 + "c")

    def test_hostile_names(self) -> None:
        """Characters that a terminal obeys are escapes in texts, and JSON is ASCII."""
        name = "\\u001b[2J\\u202e<script>\\n"
        text = self.changed(('name = "brake"', f'name = "{name}"'), ("idle = 0", f'idle = 0\n"{name}" = "{name}"'))
        words = self.written("old.toml", WHOLE), self.written("new.toml", text)
        for form in ((), ("--json",), ("--csv",)):
            status, output, _ = self.asked("diff", *words, *form)
            self.assertEqual(status, 3)
            self.assertEqual([it for it in output if not it.isprintable() and it != "\n"], [])
            self.assertIn("<script>", output)
