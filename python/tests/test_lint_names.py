"""Tests of the warnings of names that scenarios can't use, and of numbers that are also names.

The form of names and the meaning of numbers are those of docs/formats/scenario.md.
"""
from tests.cases import CLUSTER, Cases

HEADS = CLUSTER.split("[[node]]\n")
EVENT = '{kind = "event", slot = 1, channels = "AB"}'
RECEIVE = '{kind = "receive", slot = 2, channels = "A"}'


def named(first: str | None = None, second: str | None = None, third: str | None = None) -> str:
    """Returns the cluster of three nodes with these names, as the file spells them; `\"pedal\"` with its quotes."""
    keys = ["" if it is None else f"name = {it}\n" for it in (first, second, third)]
    return HEADS[0] + "".join(f"[[node]]\n{key}{rest}" for key, rest in zip(keys, HEADS[1:]))


class UnusableNames(Cases):
    def unusable(self, cluster: str) -> list[tuple[str, str, str]]:
        """Returns places, headlines and reasons of the warnings."""
        found, _ = self.look(cluster)
        self.assertEqual(found.refusals, [])
        return [(str(it.place).rpartition("/")[2], it.headline, it.reason) for it in found.warnings
                if it.name == "unusable-name"]

    def test_names_that_a_scenario_can_use(self) -> None:
        for name in ("a", "A-b_c.9", "n" * 32, "16", "02", "1x", "-", "2."):
            self.assertEqual(self.unusable(named(f'"{name}"')), [], name)

    def test_other_characters(self) -> None:
        for name, like in (("crash report", "crash-report"), ("Tür", "Tuer"), ("Straße", "Strasse"),
                           ("café", "cafe"), ("a/b", "a-b"), ("a  (b)", "a-b"), ("n" * 33, "n" * 32),
                           ("\U0001F697 speed", "speed")):
            self.assertEqual(self.unusable(named(f'"{name}"')), [
                ("cluster.toml:16:1", f'`name` of node 0 is "{name}", which a scenario can\'t use',
                 f"Expected 1 to 32 letters, digits, `_`, `-` and `.`, such as `{like}`.")])

    def test_names_that_resemble_no_right_one(self) -> None:
        for name in ("", "車", " ", "\uff12", "2 "):
            (_, _, reason), = self.unusable(named(f'"{name}"'))
            self.assertEqual(reason, "Expected 1 to 32 letters, digits, `_`, `-` and `.`.")

    def test_a_value_that_is_no_string(self) -> None:
        (place, headline, reason), = self.unusable(named("7"))
        self.assertEqual((place, headline), ("cluster.toml:16:1", "`name` of node 0 is 7, which a scenario can't use"))
        self.assertIn("Expected one in quotes.", reason)

    def test_the_number_of_another_node(self) -> None:
        """Nodes are numbered up to 15, also where the cluster has three. A node may have its own number as its name."""
        for name in ("2", "15"):
            (_, headline, reason), = self.unusable(named(f'"{name}"'))
            self.assertEqual(headline, f'`name` of node 0 is "{name}", which a scenario can\'t use')
            self.assertEqual(reason, f"In a scenario the word `{name}` is node {name}, and never the node of this "
                                     f"name. Expected another name, such as `node-{name}`.")
        self.assertEqual(self.unusable(named('"0"', '"1"', '"2"')), [])

    def test_buffers(self) -> None:
        cluster = self.changed(CLUSTER, (EVENT, f'{{name = "1", {EVENT[1:]}', RECEIVE, f'{{name = "ü", {RECEIVE[1:]}'))
        self.assertEqual([it[:2] for it in self.unusable(cluster)],
                         [("cluster.toml:20:4", '`name` of buffer 0 of node 0 is "1", which a scenario can\'t use'),
                          ("cluster.toml:21:4", '`name` of buffer 1 of node 0 is "ü", which a scenario can\'t use')])
        for name in ("64", "0"):
            self.assertEqual(self.unusable(cluster.replace('"1"', f'"{name}"').replace("ü", "u")), [])

    def test_strict_and_allow(self) -> None:
        taken = "--strict", "--allow", "sync-nodes", "--allow", "startup-nodes"
        cluster = self.written("cluster.toml", named('"2"'))
        self.assertEqual(self.run_with(cluster, *taken)[0], 4)
        self.assertEqual(self.run_with(cluster, *taken, "--allow", "unusable-name")[0], 0)
        silent = self.written("silent.toml", named('"2" # lint: allow unusable-name: no scenario names it'))
        self.assertEqual(self.run_with(silent, *taken)[0], 0)


class AmbiguousNumbers(Cases):
    CLUSTER = named('"2"', '"rack"', '"gateway"').replace(RECEIVE, f'{{name = "0", {RECEIVE[1:]}')

    def ambiguous(self, *lines: str, version: int = 3, refusals: tuple[str, ...] = ()) -> list[tuple[str, str, str]]:
        """Returns places, headlines and reasons of the warnings about these lines of a scenario, refused so."""
        text = "".join(f"{it}\n" for it in (f"frscenario {version}", *lines, "end"))
        found, _ = self.look(self.CLUSTER, text, 4)
        self.assertEqual(tuple(it for it, _ in found.refusals), refusals)
        return [(str(it.place).rpartition("/")[2], it.headline, it.reason) for it in found.warnings
                if it.name == "ambiguous-number"]

    def test_a_number_that_is_the_name_of_another_node(self) -> None:
        lines = "lost rack 0", "  mute 2 A 0 m*", "lost 2 1 # again", "read 2 0 0 1"
        (place, headline, reason), = self.ambiguous(*lines)
        self.assertEqual((place, headline),
                         ("scenario:3:8", "`2` means node 2, not the node named `2`, which is node 0"))
        self.assertEqual(reason, "A word that is a number is never a name. 2 other lines have it too. Expected another "
                                 "name of node 0 in the cluster file, such as `node-2`.")

    def test_a_number_that_is_the_name_of_another_buffer(self) -> None:
        """Node 0 has a buffer 0, and its buffer 1 has the name 0. The buffers of node 1 have no names."""
        found = self.ambiguous("commit 0 0 0 0 x0a0b", "commit 1 0 0 0 x0a0b")
        self.assertEqual([it[:2] for it in found], [
            ("scenario:2:14", "`0` means buffer 0 of node 0, not the buffer named `0`, which is buffer 1")])

    def test_a_run_that_is_refused(self) -> None:
        """Buffer 0 of node 0 is for transmission. Its buffer 1, for reception, has the name 0."""
        found = self.ambiguous("read 0 0 1 0", refusals=("BadScript 0",))
        self.assertEqual([it[:2] for it in found], [
            ("scenario:2:12", "`0` means buffer 0 of node 0, not the buffer named `0`, which is buffer 1")])

    def test_expectations(self) -> None:
        found = self.ambiguous("expect-none 2 0 1")
        self.assertEqual([it[0] for it in found], ["scenario:2:13"])

    def test_words_without_a_second_meaning(self) -> None:
        """Names, other numbers, places and cycles mean one thing. Versions 1 and 2 have no names."""
        self.assertEqual(self.ambiguous("lost gateway 2", "mute 1 A 2 s2", "corrupt A 2 s2 2"), [])
        self.assertEqual(self.ambiguous("mute 2 A 0 m1", version=2), [])
