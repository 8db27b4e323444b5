"""Tests of `musmyrtle diff` of two runs and of two recordings, with rows that are worked out by hand.

The runs are those of three nodes in `examples`, and of the network of signals there.
"""
import json
import struct
import unittest
from pathlib import Path
from random import Random
from typing import Any

from musmyrtle.diff.shifts import shift_between
from tests.shows import EXAMPLES, Shows
from tests.test_streams import shell

THREE, SIGNALS = EXAMPLES / "three-nodes", EXAMPLES / "signals"
SCENE = (THREE / "scenario").read_text()
SPEEDS = """frscenario 3
commit engine 0 0 data x222ef13c00000000
commit engine 0 2 data x2328f13c00000000
read dashboard 0 3 engine
end
"""
"""The speeds 87.5 and 90 km/h, 0x222e and 0x2328 hundredths."""
LATER = """frscenario 3
commit engine 0 3 data x222ef13c00000000
commit engine 0 5 data x2328f13c00000000
read dashboard 0 6 engine
end
"""
"""The same, three cycles later."""
SAME = "No difference: both runs are the same.\n"


class Diffs(Shows):
    def found(self, *words: str) -> list[dict[str, Any]]:
        """Returns the rows without absent values."""
        status, output, _ = self.asked("diff", *words, "--json")
        rows = [json.loads(line) for line in output.splitlines()]
        self.assertEqual(status, 3 if rows else 0)
        return [{key: value for key, value in row.items() if value is not None} for row in rows]

    def of_runs(self, old: str, new: str, cluster: Path, cycles: int = 4) -> dict[str, list[dict[str, Any]]]:
        """Returns the rows of the runs of two scenarios by their kinds."""
        words = str(cluster / "cluster.toml"), self.written("old", old), self.written("new", new)
        found: dict[str, list[dict[str, Any]]] = {}
        for it in self.found(*words, "--cycles", str(cycles)):
            found.setdefault(it.pop("kind"), []).append(it)
        return found


class TestRuns(Diffs):
    def test_the_same_run(self) -> None:
        """Comments, the version and the order of lines are no difference."""
        car = EXAMPLES / "vehicle"
        words = [str(car / it) for it in ("cluster.toml", "scenario", "scenario-3")]
        self.assertEqual(self.printed("diff", *words, "--cycles", "8"), SAME)

    def test_a_payload(self) -> None:
        found = self.of_runs(SPEEDS, SPEEDS.replace("x2328f1", "x2332f1"), SIGNALS)
        place = {"node": 0, "node_name": "engine", "buffer": 0, "buffer_name": "data", "task": 0, "cycle": 2,
                 "change": "changed"}
        speed = {"key": "signal", "signal": "speed", "unit": "km/h", "old": 90, "new": 90.1}
        self.assertEqual(found["commit"], [
            {**place, "key": "data", "old": "x2328f13c00000000", "new": "x2332f13c00000000"}, {**place, **speed}])
        call = {"node": 2, "node_name": "dashboard", "task": 0, "cycle": 3, "call": "read", "buffer": 0,
                "buffer_name": "engine", "change": "changed"}
        self.assertEqual(found["call"], [
            {**call, "key": "data", "old": "x2328f13c00000000", "new": "x2332f13c00000000"}, {**call, **speed}])
        self.assertEqual([(it["node"], it["buffer"], it["key"]) for it in found["report"]],
                         [(1, 1, "payload"), (2, 0, "payload")])
        self.assertEqual([(it["cycle"], it["slot"], it["channel"], it["key"]) for it in found["sent"]],
                         [(cycle, 1, channel, "data") for cycle in (2, 3) for channel in "AB"])
        self.assertEqual(set(found), {"commit", "call", "report", "sent"})

    def test_a_lost_commit(self) -> None:
        """Node 0 is muted in cycle 0 in the second run, and its buffer is an event buffer: nothing is sent later."""
        muted = SCENE.replace("babble 2 A", "mute 0 A 0 s1\nbabble 2 A")
        found = self.of_runs(SCENE, muted, THREE)
        receivers = [{"node": 1, "node_name": None, "buffer": 1, "buffer_name": None}]
        self.assertEqual(found["commit"], [
            {"node": 0, "buffer": 0, "task": 0, "cycle": 0, "change": "lost", "key": "receivers", "old": receivers,
             "new": []}])
        self.assertEqual(self.of_runs(muted, SCENE, THREE)["commit"][0]["change"], "arrived")
        self.assertIn({"cycle": 0, "slot": 1, "channel": "A", "node": 0, "what": "offer", "change": "changed",
                       "key": "end", "old": "alone", "new": "muted"}, found["sent"])

    def test_commits_of_one_run_alone(self) -> None:
        """The last commit of node 1 is withdrawn before its window, and another one is new."""
        more = SCENE.replace("read 1 0 3 1", "commit 1 1 2 0 x3333\nread 1 0 3 1")
        found = self.of_runs(SCENE, more, THREE)
        self.assertEqual(found["commit"], [
            {"node": 1, "buffer": 0, "task": 1, "cycle": 2, "change": "added", "key": "data", "new": "x3333"}])
        self.assertEqual(self.of_runs(more, SCENE, THREE)["commit"], [
            {"node": 1, "buffer": 0, "task": 1, "cycle": 2, "change": "removed", "key": "data", "old": "x3333"}])

    def test_fates(self) -> None:
        """Calls come before the windows of their cycle, so that the commit is withdrawn before its slot."""
        scene = SPEEDS.replace("read", "withdraw engine 0 0 data\nread")
        found = self.of_runs(SPEEDS, scene, SIGNALS)["commit"]
        self.assertEqual([(it["cycle"], it["change"], it["key"], it.get("old"), it.get("new")) for it in found][:2],
                         [(0, "changed", "fate", "sent", "withdrawn"), (0, "changed", "ended", None, 0)])
        self.assertEqual([(it["change"], it["key"]) for it in found[2:]], [("lost", "receivers")])

    def test_two_commits_of_one_cycle(self) -> None:
        """The first one is overwritten, and only its payload differs."""
        twice = SPEEDS.replace("commit engine 0 2", "commit engine 0 0 data x0000f03c00000000\ncommit engine 0 2")
        found = self.of_runs(twice, twice.replace("x222ef1", "x2230f1"), SIGNALS)
        self.assertEqual([(it["cycle"], it["key"], it["old"], it["new"]) for it in found["commit"]], [
            (0, "data", "x222ef13c00000000", "x2230f13c00000000"), (0, "signal", 87.5, 87.52)])
        self.assertEqual(set(found), {"commit"})

    def test_all_comes_later(self) -> None:
        """In the last three cycles of the first run the engine sends its frame on both channels."""
        found = self.of_runs(SPEEDS, LATER, SIGNALS, 12)
        alone = {"cycles": [9, 10, 11], "key": "data frames"}
        self.assertEqual(found, {"shift": [{"key": "everything", "change": "later", "by": 3}],
                                 "alone": [{**alone, "change": "removed", "old": 6}]})
        self.assertEqual(self.of_runs(LATER, SPEEDS, SIGNALS, 12), {
            "shift": [{"key": "everything", "change": "earlier", "by": 3}],
            "alone": [{**alone, "change": "added", "new": 6}]})
        words = str(SIGNALS / "cluster.toml"), self.written("a", SPEEDS), self.written("b", LATER), "--cycles", "12"
        status, output, told = self.asked("diff", *words)
        self.assertEqual((status, output.splitlines()[:3], told), (
            3, ["Shift", "key         change  cycles", "everything  later        3"],
            "musmyrtle: reports aren't compared, since the runs have them at the end, and are shifted\n"))

    def test_what_isnt_shifted(self) -> None:
        """An answer that differs stays a difference, by the cycles of the first run. A single later commit is none."""
        found = self.of_runs(SPEEDS, LATER.replace("read dashboard 0 6", "read brake 0 6"), SIGNALS, 20)
        self.assertEqual([(it["cycle"], it["node_name"], it["change"]) for it in found["call"]],
                         [(3, "dashboard", "removed"), (3, "brake", "added")])
        found = self.of_runs(SPEEDS, SPEEDS.replace("engine 0 2", "engine 0 3"), SIGNALS, 12)
        self.assertNotIn("shift", found)
        self.assertEqual([it["cycle"] for it in found["commit"]], [2, 3])

    def test_expectations_that_both_runs_miss(self) -> None:
        """They are no difference, and standard error has them by the lines of the first scenario."""
        other = SPEEDS.replace("end\n", "expect dashboard 3 engine x2328f13c00000000\nexpect dashboard 3 engine "
                                        "x0000000000000000\nexpect-none dashboard 0 engine\nend\n")
        words = [str(SIGNALS / "cluster.toml"), self.written("old", other),
                 self.written("new", other.replace("frscenario 3\n", "frscenario 3\n\n"))]
        told = ("musmyrtle: both runs miss 2 expectations: line 6: dashboard (2) engine (0) at the end of cycle 3: "
                "expected x0000000000000000, found x2328f13c00000000; line 7: dashboard (2) engine (0) at the end of "
                f"cycle 0: expected nothing, found x222ef13c00000000; the lines are those of {words[1]}\n")
        self.assertEqual(self.asked("diff", *words, "--cycles", "4"), (0, SAME, told))

    def test_missed_expectations(self) -> None:
        """The first run meets both lines; in the second one buffer 1 of node 1 has another payload."""
        expecting = SPEEDS.replace("end\n", "expect dashboard 2-3 engine x2328f13c00000000\nend\n")
        found = self.of_runs(expecting, expecting.replace("2 data x2328f1", "2 data x2332f1"), SIGNALS)
        self.assertEqual(found["missed"], [
            {"node": 2, "node_name": "dashboard", "buffer": 0, "buffer_name": "engine", "cycle": 2, "change": "added",
             "new": "expected x2328f13c00000000, found x2332f13c00000000, and in 1 other cycle"}])
        words = str(SIGNALS / "cluster.toml"), str(self.folder / "old"), str(self.folder / "new"), "--cycles", "4"
        self.assertEqual(self.asked("diff", *words)[2], "")
        one, other = (expecting.replace("2 data x2328f1", f"2 data {it}f1") for it in ("x2332", "x2333"))
        rows = self.of_runs(one, other, SIGNALS)["missed"]
        self.assertEqual([(it["change"], "found x2332" in it["old"], "found x2333" in it["new"]) for it in rows],
                         [("changed", True, True)])

    def test_signals_with_faults(self) -> None:
        text = (SIGNALS / "cluster.toml").read_text().replace("factor = 0.01", "factor = 0")
        cluster = self.written("cluster.toml", text)
        words = cluster, self.written("old", SPEEDS), self.written("new", SPEEDS.replace("x2328", "x2332"))
        status, output, told = self.asked("diff", *words, "--cycles", "4", "--json")
        self.assertEqual((status, '"signal"' in output.replace('"signal": null', "")), (3, False))
        self.assertEqual(told, f"musmyrtle: signals aren't compared, since the frames of {cluster} have 1 fault: "
                               f"musmyrtle lint {cluster}\n")

    def test_refusals(self) -> None:
        words = str(THREE / "cluster.toml"), self.written("old", SCENE), self.written("new", SCENE.replace("end", ""))
        for its in (words, (words[0], words[2], words[1])):
            status, output, told = self.asked("diff", *its, "--cycles", "4")
            self.assertEqual((status, output), (1, ""))
            self.assertIn("refused Truncated", told)

    def test_a_cluster_file_in_a_pipe(self) -> None:
        scenes = self.written("old", SCENE), self.written("new", SCENE.replace("0a0b", "0a0c"))
        words = str(THREE / "cluster.toml"), *scenes
        status, output, _ = shell('cat "$1" | ./musmyrtle diff /dev/stdin "$2" "$3" --cycles 4 --csv', *words)
        self.assertEqual((status, "x0a0c" in output), (3, True))


class TestRecordings(Diffs):
    def recorded(self, name: str, scene: str, cycles: int = 4, cluster: Path = SIGNALS) -> str:
        """Returns the name of a capture of a run."""
        words = str(cluster / "cluster.toml"), self.written("scenario", scene), str(self.folder / name)
        self.assertEqual(shell(f'./fr_view bus "$1" "$2" --cycles {cycles} > "$3"', *words)[0], 0)
        return words[2]

    def of_recordings(self, names: list[str]) -> list[dict[str, Any]]:
        return self.found("--recordings", str(SIGNALS / "cluster.toml"), *names)

    def test_the_same(self) -> None:
        names = [self.recorded(it, SPEEDS) for it in "ab"]
        self.assertEqual(self.printed("diff", "--recordings", str(SIGNALS / "cluster.toml"), *names),
                         "No difference: both recordings have the same frames.\n")

    def test_payloads_and_signals(self) -> None:
        names = [self.recorded("a", SPEEDS), self.recorded("b", SPEEDS.replace("x2328f1", "x2332f1"))]
        place = {"kind": "recorded", "slot": 1, "node": 0, "node_name": "engine", "change": "changed"}
        self.assertEqual(self.of_recordings(names), [
            it for cycle in (2, 3) for channel in "AB" for it in (
                {**place, "cycle": cycle, "channel": channel, "key": "data", "old": "x2328f13c00000000",
                 "new": "x2332f13c00000000"},
                {**place, "cycle": cycle, "channel": channel, "key": "signal", "signal": "speed", "unit": "km/h",
                 "old": 90, "new": 90.1})])

    def test_missing_frames(self) -> None:
        """A muted slot has no frame, and `fr_monitor` reports it."""
        names = [self.recorded("a", SPEEDS), self.recorded("b", SPEEDS.replace("end\n", "mute engine A 2 s1\nend\n"))]
        found = self.of_recordings(names)
        self.assertEqual(found[0], {
            "kind": "recorded", "cycle": 2, "slot": 1, "channel": "A", "node": 0, "node_name": "engine",
            "change": "removed", "key": "data", "old": "x2328f13c00000000"})
        self.assertIn({"kind": "count", "key": "Missing", "old": 0, "new": 1}, found)
        self.assertIn({"kind": "count", "key": "records", "old": 24, "new": 23}, found)

    def test_another_beginning(self) -> None:
        """The second recording lacks the frames of cycle 0, six records of 16 and 34 bytes, the first of which is A's.
        """
        whole = self.recorded("a", SPEEDS)
        late = str(self.folder / "late")
        Path(late).write_bytes(without_records(Path(whole).read_bytes(), 6))
        for names, change, alone, cycles in (((whole, late), "later", "removed", [0]),
                                             ((late, whole), "earlier", "added", [-1])):
            found = self.of_recordings(list(names))
            side = "old" if alone == "removed" else "new"
            self.assertEqual(found[:2], [
                {"kind": "shift", "key": "begin", "change": change, "by": 1},
                {"kind": "alone", "cycles": cycles, "change": alone, "key": "frames", side: 6}])
            self.assertEqual({it["kind"] for it in found[2:]}, {"count"})

    def test_all_comes_later(self) -> None:
        """In the second recording the engine begins three cycles later, so that cycle 9 of it has no partner."""
        names = [self.recorded("a", SPEEDS, 10), self.recorded("b", LATER, 10)]
        self.assertEqual(self.of_recordings(names), [
            {"kind": "shift", "key": "everything", "change": "later", "by": 3},
            {"kind": "alone", "cycles": [7, 8, 9], "change": "removed", "key": "frames", "old": 18},
            {"kind": "alone", "cycles": [0, 1, 2], "change": "added", "key": "frames", "new": 18}])
        self.assertEqual(self.of_recordings(names[::-1])[0],
                         {"kind": "shift", "key": "everything", "change": "earlier", "by": 3})

    def test_a_difference_beside_a_shift(self) -> None:
        """A lost frame of cycle 6 of the second recording is one of cycle 3 of the first one."""
        lost = LATER.replace("end\n", "mute brake A 6 s2\nend\n")
        names = [self.recorded("a", SPEEDS, 12), self.recorded("b", lost, 12)]
        found = self.of_recordings(names)
        self.assertEqual([(it["cycle"], it["slot"], it["channel"], it["change"]) for it in found
                          if it["kind"] == "recorded"], [(3, 2, "A", "removed")])
        self.assertEqual([it["by"] for it in found if it["kind"] == "shift"], [3])

    def test_refused_recordings(self) -> None:
        good = self.recorded("a", SPEEDS)
        for data, told in ((b"", "refused NoCapture"), (Path(good).read_bytes()[:-3], "its front was read")):
            bad = str(self.folder / "bad")
            Path(bad).write_bytes(data)
            for names in ((good, bad), (bad, good)):
                status, output, error = self.asked("diff", "--recordings", str(SIGNALS / "cluster.toml"), *names)
                self.assertEqual((status, output), (1, ""))
                self.assertIn(told, error)
                self.assertIn(f"{bad} can't be compared", error)
        self.assertEqual(self.asked("diff", "--recordings", str(SIGNALS / "cluster.toml"), good,
                                    str(self.folder / "none"))[0], 2)


def without_records(data: bytes, count: int) -> bytes:
    """Returns a capture without its first records."""
    at = 24
    for _ in range(count):
        at += 16 + struct.unpack_from("<I", data, at + 8)[0]
    return data[:24] + data[at:]


class TestShifts(unittest.TestCase):
    def shift(self, old: str, new: str) -> int:
        """Returns the shift of two rows of cycles, of which equal letters have the same content."""
        return shift_between(dict(enumerate(old)), dict(enumerate(new)))

    def test_shifts(self) -> None:
        """A letter is a cycle. With the shift at most a fifth of the cycles differs that differ without it."""
        for old, new, wanted in (
                ("aaabbbbbbb", "aaaaaabbbb", 3), ("aaaaaabbbb", "aaabbbbbbb", -3), ("abcdefghij", "xabcdefghi", 1),
                ("aaaaaaaaaa", "aaaaaaaaaa", 0), ("aaaabbbb", "ccccdddd", 0), ("abcabcabcabc", "bcabcabcabca", -1),
                ("aabbccddee", "aaabbccddee", 1), ("aaabaaaaaa", "aaaaabaaaa", 2), ("ab", "ba", 0), ("", "a", 0),
                ("abcdefghijkl", "xxxabcdXfghi", 3), ("abcdefghijkl", "xxxaXcdXfXhi", 0)):
            with self.subTest(old=old, new=new):
                self.assertEqual(self.shift(old, new), wanted)

    def test_long_rows(self) -> None:
        random = Random(7)
        row = "".join(chr(random.randrange(256)) for _ in range(5000))
        for shift in (1, 64, 1000, 4000):
            self.assertEqual((self.shift(row, row[:shift] + row[:5000 - shift]), self.shift(row, row[shift:])),
                             (shift, -shift))


class TestStreams(Diffs):
    def test_a_full_disk_and_a_closed_pipe(self) -> None:
        words = str(THREE / "cluster.toml"), str(EXAMPLES / "unguarded/cluster.toml")
        for form in ("", "--json", "--csv"):
            status, _, told = shell(f'./musmyrtle diff {form} "$1" "$2" > /dev/full', *words)
            self.assertEqual((status, told), (2, "musmyrtle: the output can't be written: No space left on device\n"))
            status, _, told = shell(f'./musmyrtle diff {form} "$1" "$2" >&-', *words)
            self.assertEqual((status, told), (2, "musmyrtle: the output can't be written: it is closed\n"))
            status, _, told = shell(f'set -o pipefail; ./musmyrtle diff {form} "$1" "$2" | :', *words)
            self.assertEqual((status, told), (3, ""))
