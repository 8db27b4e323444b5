"""Warnings that are silenced: by a comment of the cluster file, and by `--allow`."""
from musmyrtle.program import usual_program
from tests.cases import CLUSTER, EXAMPLES, Cases

NODE = "[[node]]\ntasks = 2\nown = [{slot = 1"
ALLOW = "# lint: allow sync-nodes, startup-nodes: one is enough"


class Allowed(Cases):
    def names(self, cluster: str) -> list[str]:
        return [it.name for it in self.look(cluster)[0].warnings]

    def test_a_comment(self):
        """At the end of the line, or alone in the line before."""
        for new, names in (
            (NODE, ["sync-nodes", "startup-nodes"]),
            (NODE.replace("]]", f"]] {ALLOW}"), []),
            (f"{ALLOW}\n{NODE}", []),
            (f"{ALLOW}\n\n{NODE}", ["sync-nodes", "startup-nodes"]),
            (NODE.replace("= 2", f"= 2 {ALLOW}"), ["sync-nodes", "startup-nodes"]),
            (NODE.replace("]]", "]] # lint: allow startup-nodes"), ["sync-nodes"]),
            (NODE.replace("]]", "]] # lint: allow startup-nodes sync-nodes"), []),
            (NODE.replace("]]", "]] # lint: allow: why"), ["unknown-allow", "sync-nodes", "startup-nodes"]),
        ):
            with self.subTest(new=new):
                self.assertEqual(self.names(self.changed(CLUSTER, (NODE, new))), names)

    def test_a_comment_of_the_line_before_is_no_comment_of_this_one(self):
        cluster = self.changed(CLUSTER, ("latest_a = 4", "tasks_ = 1 # lint: allow unread-key\nlatestA = 4"))
        self.assertEqual([it.headline for it in self.look(cluster)[0].warnings if it.name == "unread-key"],
                         ["`latestA` of node 2 is an unknown key"])

    def test_a_string_is_no_comment(self):
        cluster = self.changed(CLUSTER, ("latest_a = 4", 'latestA = "# lint: allow unread-key"'))
        self.assertIn("unread-key", self.names(cluster))
        cluster = self.changed(CLUSTER, ("latest_a = 4", 'latestA = "#" # lint: allow unread-key'))
        self.assertNotIn("unread-key", self.names(cluster))

    def test_an_unknown_name(self):
        cluster = self.changed(CLUSTER, (NODE, f"# lint: allow sync-node\n{NODE}"))
        self.warned("cluster.toml:15:15", ("no warning has the name `sync-node`", "Is `sync-nodes` meant?"), cluster)


class Option(Cases):
    def test_allow(self):
        cluster = self.written("cluster.toml", CLUSTER)
        self.assertEqual(self.run_with(cluster, "--strict")[0], 4)
        taken = "--allow", "sync-nodes", "--allow=startup-nodes", "--allow", "unchecked-bits"
        self.assertEqual(self.run_with(cluster, "--strict", *taken), (0, "fr_bench: accepted\n", ""))
        many = self.written("many.toml", "".join(f"other{number} = 1\n" for number in range(60)) + CLUSTER)
        self.assertEqual(self.run_with(many, "--strict", *taken, "--allow", "unread-key")[0], 0)

    def test_an_unknown_name_is_no_command(self):
        status, _, error = self.run_with(self.written("cluster.toml", CLUSTER), "--allow", "sync-node")
        self.assertEqual((status, "no warning has the name 'sync-node'" in error, "Is `sync-nodes` meant?" in error),
                         (2, True, True))

    def test_the_examples_are_strict(self):
        self.assertIsNotNone(usual_program())
        for example, cycles in (("three-nodes", 4), ("divided-slot", 4), ("vehicle", 8), ("unguarded", None),
                                ("host-programs", None)):
            folder = EXAMPLES / example
            cluster = str(folder / ("brakes.toml" if cycles is None and example != "unguarded" else "cluster.toml"))
            with self.subTest(example=example):
                self.assertEqual(self.run_with(cluster, "--strict")[0], 0)
                if cycles:
                    words = cluster, str(folder / "scenario"), "--cycles", str(cycles), "--strict"
                    self.assertEqual(self.run_with(*words), (0, "fr_bench: accepted\n", ""))
