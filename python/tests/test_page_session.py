"""The page of a session: the facts are those of the page of the scenario that the session did."""
from pathlib import Path

from musmyrtle import SessionOver, World
from tests.pages import Pages, needs_node
from tests.shows import EXAMPLES, NETWORK, SCENE

FACTS = ("commits", "answers", "counts", "stored", "tables")


def without_line(line: str) -> str:
    """Returns a line of the record without the line of the scenario, which has other numbers in a session."""
    return line.rsplit(" ", 1)[0]


@needs_node
class SessionPages(Pages):
    def compared(self, world: World, cluster: Path, scenario: Path, cycles: int) -> None:
        """Compares the page of a world with that of a scenario."""
        page = self.folder / "session.html"
        world.page(page)
        expected = self.page(str(cluster), str(scenario), "--cycles", str(cycles))
        found, other = self.facts(str(page), expected)
        for key in FACTS:
            self.assertEqual(found[key], other[key], key)
        self.assertEqual(list(map(without_line, found["record"])), list(map(without_line, other["record"])))

    def test_examples(self) -> None:
        for name, cycles in (("three-nodes", 4), ("divided-slot", 4), ("vehicle", 8)):
            cluster, scenario = EXAMPLES / name / "cluster.toml", EXAMPLES / name / "scenario"
            with self.subTest(name), World(cluster, cycles) as world:
                world.play_scenario(scenario.read_text(), cycles)
                self.compared(world, cluster, scenario, cycles)

    def test_cycles_that_are_done(self) -> None:
        """Calls and windows of the third cycle aren't in the page, wherever that is broken off."""
        cluster, scenario = (Path(it) for it in self.run_of()[:2])
        with World(cluster, 4) as world:
            world.play_scenario(SCENE, 2)
            self.compared(world, cluster, scenario, 2)
            world.node(0).commit(0, b"\0\7")
            self.compared(world, cluster, scenario, 2)
            world.window()
            world.node(0).commit(0, b"\0\7")
            self.compared(world, cluster, scenario, 2)

    def test_faults_have_no_lines(self) -> None:
        """The package made the scenario, so a fault is named by its cycle, and a reason names no line."""
        page = self.folder / "session.html"
        with World(self.written("cluster.toml", NETWORK), 2) as world:
            world.node(0).commit(0, b"\0\7")
            for channel in "AB":
                world.keep(f"babble brake {channel} 0 s1 x00")
            world.run(2)
            world.page(page)
        first, pedal, fault, window = self.walked(str(page), "click nodes pedal", "click faults fault of cycle 0",
                                                  "click details 0")
        self.assertIn("fault of cycle 0: babble brake (1) A 0 s1 x001 window", first["faults"])
        self.assertIn("collided on A with brake (1) in cycle 0, by a fault; collided on B with brake (1) in cycle 0, "
                      "by a fault", pedal["details"])
        self.assertTrue(fault["details"].startswith("Fault of cycle 0: babble brake (1) A 0 s1 x00"))
        self.assertIn("bytes that are no framecollidedx00fault of cycle 0", window["details"])
        for shown in (first, pedal, fault):
            self.assertNotRegex(shown["faults"] + shown["details"], r"\bline \d")

    def test_calls_that_no_scenario_has(self) -> None:
        cluster, page = self.written("cluster.toml", NETWORK), self.folder / "session.html"
        with World(cluster, 3) as world:
            with self.assertRaisesRegex(ValueError, "^no cycle is done yet$"):
                world.page(page)
            world.window()
            world.node(0).commit(0, b"\0\7")
            world.cycle()
            with self.assertRaisesRegex(ValueError, "^`commit 0 0 x0007` of node 0 came in the middle of cycle 0. "):
                world.page(page)
        tasks = self.written("tasks.toml", NETWORK.replace('name = "pedal"', 'name = "pedal"\ntasks = 2'))
        with World(tasks, 3) as world:
            world.ask("commit 0 1 0 x0007")
            world.ask(f"commit 0 0 1 x{'00' * 32}")
            world.cycle()
            with self.assertRaisesRegex(ValueError, "^the calls of node 0 came in an order that no scenario has"):
                world.page(page)
        self.assertFalse(page.exists())

    def test_programs_that_fail(self) -> None:
        with World(self.written("cluster.toml", NETWORK), 3) as world:
            world.cycle()
            with self.assertRaisesRegex(SessionOver, "can't be run"):
                world.page(self.folder / "session.html", program=self.folder / "absent")
            with self.assertRaises(OSError):
                world.page(self.folder / "absent/session.html")
