"""Tests of the lines of faults without effect, as each command over a run of a scenario reports them.

In the network of `shows` the pedal owns slot 1 and the brake slot 2, and nothing is sent at minislot 9 of channel B.
"""
import json
import subprocess
import unittest
from itertools import product
from random import Random

from musmyrtle.names import Names
from musmyrtle.scenario import Reading
from musmyrtle.show.effects import Effects
from tests.pages import view
from tests.shows import EXAMPLES, NETWORK, Shows

LISTS = """frscenario 3
commit pedal 0 0 position x0001    # no list, though with a comma
mute pedal,brake AB 0-1 s1,s2
corrupt B 0 m9 0
lost brake 9
end
"""
BEYOND, IDLE = "line 5 names no cycle of the run\n", "line 4 struck nothing\n"
PART = "line 3 struck nothing in 2 of its 4 lines: `mute pedal AB 0-1 s2`, `mute brake AB 0-1 s1`\n"
MANY = "".join(f"corrupt A,B {cycle} s1 0\n" for cycle in range(11))
"""In each of the cycles the pedal sends on A alone, since it is muted on B."""
RUNS = 40


class Commands(Shows):
    def test_each_command(self) -> None:
        run = self.run_of(scene=LISTS)
        for command in ("log", "commits", "reads", "page", "page --endless", "signals", "signals --endless"):
            with self.subTest(command):
                name, *words = command.split()
                self.assertEqual(self.asked(name, *run, *words)[::2], (0, BEYOND + IDLE + PART))

    def test_the_table_of_a_run(self) -> None:
        """It has a row for each line of a list, and nothing on standard error but lines of other cycles."""
        status, output, told = self.asked("run", *self.run_of(scene=LISTS), "--json")
        rows = [json.loads(it) for it in output.splitlines()]
        self.assertEqual((status, told), (0, BEYOND))
        self.assertEqual([(it["line"], it["fault"]) for it in rows if it["kind"] == "idle"], [
            (3, "mute pedal AB 0-1 s2"), (3, "mute brake AB 0-1 s1"), (4, "corrupt B 0 m9 0")])
        self.assertEqual(rows[0]["idle_faults"], 3)

    def test_a_campaign(self) -> None:
        _, _, told = self.asked("faults", *self.run_of(scene=LISTS), "--kinds", "lost", "--nodes", "pedal")
        self.assertEqual(told.partition("kind ")[0], BEYOND + IDLE + PART)

    def test_a_difference_of_two_runs(self) -> None:
        """Each message has the scenario. A second run of one file says nothing again."""
        cluster, one, *cycles = self.run_of(scene=LISTS)
        other = self.written("other", LISTS.replace("s1,s2", "s2,s1").replace("lost brake 9\n", ""))
        told = "".join(f"{name}: {it}" for name, its in ((one, (BEYOND, IDLE, PART)), (other, (IDLE, PART)))
                       for it in its)
        self.assertEqual(self.asked("diff", cluster, one, other, *cycles)[::2], (0, told))
        self.assertEqual(self.asked("diff", cluster, one, one, *cycles)[2], told.partition(other)[0])

    def test_further_faults(self) -> None:
        """Each of `--fault` is named as it was given, and lines of the scenario are reported once."""
        cluster = str(EXAMPLES / "signals/cluster.toml")
        scene = "frscenario 3\ncommit engine 0 0 data x222ef13c00000000\nmute brake A 0 s1\nend\n"
        words = cluster, self.written("scenario", scene), "--cycles", "4", "brake.speed"
        faults = "mute brake A 3 s1", "lost brake 99", "mute brake,engine A 3 s1", "lost engine 2"
        given = [word for it in faults for word in ("--fault", it)]
        told = ("line 3 struck nothing\n--fault 'mute brake A 3 s1' struck nothing\n--fault 'lost brake 99' names no "
                "cycle of the run\n--fault 'mute brake,engine A 3 s1' struck nothing in 1 of its 2 lines: `mute brake "
                "A 3 s1`\n")
        self.assertEqual(self.asked("signals", *words, *given)[::2], (0, told))
        self.assertEqual(self.asked("signals", *words, *given, "--endless")[::2], (0, told))

    def test_many_lists(self) -> None:
        """More than ten are one line, and more than three parts of one are counted."""
        scene = f"frscenario 3\nmute pedal B * s1\n{MANY}end\n"
        run = [*self.run_of(scene=scene)[:2], "--cycles", "11"]
        self.assertEqual(self.asked("log", *run)[::2], (
            0, "11 lines struck nothing in some of the lines of their lists: lines 3, 4, 5 and 8 more\n"))
        scene = "frscenario 3\nmute pedal A 0,1 s1,s2,m1\nend\n"
        self.assertEqual(self.asked("log", *self.run_of(scene=scene))[::2], (
            0, "line 2 struck nothing in 4 of its 6 lines: `mute pedal A 0 s2`, `mute pedal A 0 m1`, `mute pedal A 1 "
               "s2` and 1 more\n"))

    def test_an_endless_run_in_which_nothing_is_sent(self) -> None:
        """Its record is empty, and all faults are without effect."""
        network = NETWORK.replace('own = [{slot = 1, channels = "AB", sync = true}]\n', "").replace(
            'own = [{slot = 2, channels = "AB"}]\n', "")
        for part in ('  {name = "position", kind = "event", slot = 1, channels = "AB"},\n',
                     '  {name = "force", kind = "state", slot = 2, channels = "A"},\n'):
            network = network.replace(part, "")
        run = self.run_of(network, "frscenario 3\nlost pedal,brake 0\nend\n")
        for words in ((), ("--endless",)):
            self.assertEqual(self.asked("page", *run, *words)[::2], (0, "line 2 struck nothing\n"))


class Programs(Shows):
    """The package finds the parts of lists by the record; `fr_view` finds the same for lines without lists."""

    def test_random_lists(self) -> None:
        compared = parts = 0
        for number in range(RUNS):
            lines = lines_of(Random(f"effects {number}"))
            run = self.run_of(scene=f"frscenario 3\n{''.join(lines)}end\n")
            single = [" ".join(it) + "\n" for line in lines for it in product(*(it.split(",") for it in line.split()))]
            alone = self.written("single", f"frscenario 3\n{''.join(single)}end\n")
            try:
                record, idle = view("record", run[0], alone, "2")
            except subprocess.CalledProcessError:
                continue
            effects = self.effects(run)
            found = [it.has_effect for its in effects.choices.values() for it in its]
            faults = [it for it, line in enumerate(single, 2) if not line.startswith("commit")]
            self.assertEqual([line for line, has in zip(faults, found, strict=True) if not has], idle, lines)
            self.assertEqual(effects.idle(), view("record", *run[:2], "2")[1], lines)
            compared += 1
            parts += bool(effects.partly_idle())
        self.assertGreater(compared, RUNS // 2)
        self.assertGreater(parts, RUNS // 4)

    def effects(self, run: list[str]) -> Effects:
        """Returns the effects in the record of a run of two cycles."""
        names = Names.read(run[0])
        with open(run[1], "rb") as source:
            found = Effects(Reading("scenario", source.read(), 2, names).scenario, names, 2)
        for line in view("record", *run[:2], "2")[0]:
            found.add(line)
        return found


def lines_of(random: Random) -> list[str]:
    """Returns commits and a fault of each kind, with lists. Of a list no two elements name a common window."""
    lines = [f"commit pedal 0 {random.randint(0, 1)} log x{'01' * 32}\n", "commit brake 0 0 force x1111\n"]
    for kind in random.sample(("babble", "mute", "corrupt"), random.randint(1, 3)):
        places = random.choice((("s1", "s2", "m1", "m2", "m5", "m9"), ("s1-2", "d3", "d4", "d12"), ("*",),
                                ("s*", "m*")))
        words = [kind, *([] if kind == "corrupt" else [listed(random, ("pedal", "brake"))]),
                 random.choice(("A", "B", "AB", "A,B", "B,A")), random.choice(("0", "1", "0,1", "*", "1,0", "0-1")),
                 listed(random, places)]
        words += {"corrupt": [str(random.choice((0, 30, 79, 80, 400)))], "babble": [random.choice(("x", "x00"))]}.get(
            kind, [])
        lines.append(f"{' '.join(words)}\n")
    return lines


def listed(random: Random, elements: tuple[str, ...]) -> str:
    """Returns a list of some elements."""
    return ",".join(random.sample(elements, random.randint(1, min(3, len(elements)))))


if __name__ == "__main__":
    unittest.main()
