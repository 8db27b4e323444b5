"""The capture of a world: the same bytes as `fr_view bus` writes for the same run."""
import os
import subprocess
import unittest
from pathlib import Path
from tempfile import TemporaryDirectory

from musmyrtle import HostRefused, NotStarted, SessionOver, World
from musmyrtle.program import usual_program
from musmyrtle.world.capture import check
from musmyrtle.world.refusals import TooManyFaults, WrongTurn
from musmyrtle.world.session import VERSION, Change
from musmyrtle.world.world_program import usual_world
from tests.shows import NETWORK, SCENE

EXAMPLES = Path(__file__).resolve().parents[2] / "examples"
VIEW = os.environ.get("FR_VIEW") or usual_program("fr_view") or ""
ALONE = NETWORK.split("[[node]]\nname = \"brake\"")[0]
STATIC, DYNAMIC = 10, 100
"""The most bytes for a static slot of one word, and for 10 minislots of 5 words."""
HEADER = bytes.fromhex("d4c3b2a1 0200 0400 00000000 00000000 08010000 d2000000")
"""The file header of docs/formats/views.md."""


class Capture(unittest.TestCase):
    def setUp(self) -> None:
        folder = TemporaryDirectory()
        self.addCleanup(folder.cleanup)
        self.folder = Path(folder.name)

    def written(self, name: str, text: str) -> Path:
        (self.folder / name).write_text(text)
        return self.folder / name

    def capture(self, world: World) -> bytes:
        world.capture(self.folder / "bus.pcap")
        return (self.folder / "bus.pcap").read_bytes()

    def same(self, cluster: Path, scenario: Path, cycles: int) -> bytes:
        """Returns the capture of a run, which must be that of `fr_view bus`."""
        words = [str(word) for word in (VIEW, "bus", cluster, scenario, "--cycles", cycles)]
        expected = subprocess.run(words, capture_output=True, check=True).stdout
        with World(cluster, cycles) as world:
            world.play_scenario(scenario.read_text(), cycles)
            found = self.capture(world)
        self.assertEqual(found, expected)
        return found

    def test_examples(self) -> None:
        for name, cycles in (("three-nodes", 4), ("vehicle", 8)):
            with self.subTest(name):
                self.same(EXAMPLES / name / "cluster.toml", EXAMPLES / name / "scenario", cycles)

    def test_faults(self) -> None:
        """A flipped bit, a lost frame, a collision, a babble alone, and babbles that are too long for slot and segment.
        """
        lines = ("corrupt A 0 s1 33", "mute 0 B * s1", "babble 1 A 1 s1 x00ff", "babble 0 B 1 s2 x01",
                 "mute 1 B 1 s2", f"babble 1 B 0 s1 x{'5a' * 40}", f"babble 0 A 1 m9 x{'5a' * 60}")
        scene = SCENE.replace("babble 1 B 0 s1 x00\n", "").replace("end\n", "\n".join([*lines, "end\n"]))
        self.same(self.written("cluster.toml", NETWORK), self.written("scenario", scene), 2)

    def test_a_single_node(self) -> None:
        """Its own frames are on the bus as well, with the flipped bit."""
        scene = "frscenario 1\ncommit 0 0 0 0 x0a0b\ncorrupt A 0 s1 40\nend\n"
        found = self.same(self.written("cluster.toml", ALONE), self.written("scenario", scene), 2)
        self.assertEqual(found.count(b"\x0a\x0b"), 1)

    def test_a_single_node_sends_too_much(self) -> None:
        """A static slot has room for `8 + 2 * static_words` bytes, and the dynamic segment for its minislots."""
        lines = [f"babble 0 {channel} 0 {place} x{'5a' * length}" for channel, place, length in (
            ("A", "s2", STATIC), ("B", "s2", STATIC + 1), ("A", "m1", DYNAMIC), ("B", "m1", DYNAMIC + 1))]
        scene = "\n".join(["frscenario 1", *lines, "end\n"])
        found = self.same(self.written("cluster.toml", ALONE), self.written("scenario", scene), 1)
        self.assertIn(b"\x5a" * DYNAMIC, found)
        self.assertNotIn(b"\x5a" * (DYNAMIC + 1), found)
        self.assertEqual(found.count(b"\x5a"), STATIC + DYNAMIC)

    def test_rounds_of_64_cycles(self) -> None:
        scene = "frscenario 1\ncommit 0 0 66 0 x0a0b\nend\n"
        self.same(EXAMPLES / "three-nodes/cluster.toml", self.written("scenario", scene), 70)

    def test_windows_so_far(self) -> None:
        """The example of views.md: slot 2 begins at macrotick 20, and its frame on A is `200203c1400a0ba32217`."""
        cluster = self.written("cluster.toml", NETWORK)
        with World(cluster, 2) as world:
            self.assertEqual(self.capture(world), HEADER)
            world.node(1).commit(0, b"\x0a\x0b")
            world.window()
            before = self.capture(world)
            world.window()
            after = self.capture(world)
            transcript = world.transcript()
        self.assertTrue(after.startswith(before))
        self.assertIn(bytes.fromhex("00000000 14000000 09000000 09000000 01 00 200203c1400a0b"), after[len(before):])
        self.assertNotIn("record", transcript)

    def test_a_window_counts_once_it_is_sealed(self) -> None:
        with World(self.written("cluster.toml", NETWORK), 2) as world:
            for node in map(world.node, (0, 1)):
                node.look()
                node.fetch()
                self.assertEqual(self.capture(world), HEADER)
                node.put()
            self.assertEqual(self.capture(world), HEADER)
            world.seal()
            self.assertGreater(len(self.capture(world)), len(HEADER))

    def test_a_session_with_refusals_faults_and_calls(self) -> None:
        """The calls that read change nothing, and neither does a refused request. Faults come in both forms."""
        cluster = self.written("cluster.toml", NETWORK)
        scene = ("frscenario 3\ncommit 1 0 0 0 x0a0b\nmute 1 A 0 s2\ncorrupt B 1 s2 40\nlost 0 1\n"
                 "babble 0 B 1 s2 x0000\nend\n")
        words = [VIEW, "bus", str(cluster), str(self.written("scenario", scene)), "--cycles", "2"]
        expected = subprocess.run(words, capture_output=True, check=True).stdout
        with World(cluster, 2) as world:
            with self.assertRaises(HostRefused):
                world.node(0).commit(9, b"\0\0")
            with self.assertRaises(WrongTurn):
                world.node(0).put()
            world.ask("look 0")
            world.node(1).commit(0, b"\x0a\x0b")
            world.keep("mute 1 A 0 s2")
            with world.fault("lost 0 1"):
                world.cycle()
                world.ask("report 0")
                world.window()
                world.ask("corrupt B 40")
                world.ask("babble 0 B x0000")
                with self.assertRaises(TooManyFaults):
                    world.ask("corrupt B 41")
                world.cycle()
            self.assertEqual(self.capture(world), expected)

    def test_more_calls_than_the_journal_has_room_for(self) -> None:
        """The refused call is left out, and reads that fill the journal make no difference."""
        small = self.written("cluster.toml", NETWORK.replace('name = "brake"', 'name = "brake"\nhost_entries = 2'))
        with World(small, 2) as world:
            replies = world.send(["commit 1 0 0 x0a0b", "read 1 0 1", "commit 1 0 0 x0c0d"])
            self.assertEqual([reply.split(" ")[0] for reply in replies], ["committed", "frame", "refused"])
            world.run(2)
            found = self.capture(world)
        self.assertIn(b"\x0a\x0b", found)
        self.assertNotIn(b"\x0c\x0d", found)

    def test_a_session_that_cant_be_replayed(self) -> None:
        done = [Change("commit 0 0 0 x00", "committed 7"), Change("seal", "done")]
        check(done, f"{VERSION}\ncommitted 0\ndone\n")
        check([], f"{VERSION}\n")
        for output in ("", f"{VERSION}\ncommitted 0\n", f"{VERSION}\nrefused Memory\ndone\n",
                       f"{VERSION}\ncommitted 0\nrefused Bus Memory\n", "frworld 2\ncommitted 0\ndone\n"):
            with self.assertRaisesRegex(SessionOver, "can't be replayed", msg=output):
                check(done, output)

    def test_a_cluster_file_that_is_a_pipe(self) -> None:
        """The program reads it to its end, so that it can't be read again."""
        reader, writer = os.pipe()
        os.write(writer, NETWORK.encode())
        os.close(writer)
        self.addCleanup(os.close, reader)
        os.set_inheritable(reader, True)
        with World(f"/proc/{os.getpid()}/fd/{reader}", 2) as world:
            with self.assertRaisesRegex(ValueError, "regular file"):
                world.capture(self.folder / "c")
        self.assertFalse((self.folder / "c").exists())

    def test_programs_that_fail(self) -> None:
        program = self.folder / "fr_world"
        program.symlink_to(Path(usual_world()).resolve())
        with World(EXAMPLES / "three-nodes/cluster.toml", 2, program=program) as world:
            with self.assertRaises(FileNotFoundError):
                world.capture(self.folder / "none/c")
            program.unlink()
            with self.assertRaises(NotStarted) as missing:
                world.capture(self.folder / "c")
            self.assertTrue(str(missing.exception).startswith(
                f"{program} can't be started: No such file or directory. fr_world is looked for in this order: the "
                "argument `program`; the variable MUSMYRTLE_WORLD ("))
            program.symlink_to("/bin/false")
            with self.assertRaisesRegex(SessionOver, "status 1"):
                world.capture(self.folder / "c")
            self.assertFalse((self.folder / "c").exists())
            # The world goes on.
            world.cycle()
        with self.assertRaises(SessionOver):
            world.capture(self.folder / "c")


if __name__ == "__main__":
    unittest.main()
