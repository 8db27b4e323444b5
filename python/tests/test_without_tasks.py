"""Tests of the warnings of nodes without tasks, and of slots that a node fills in some of its cycles."""
from tests.cases import CLUSTER, Cases
from tests.shows import NETWORK, Shows

SENDER = 'tasks = 2\nown = [{slot = 2, channels = "AB"}]\nbuffer = [\n  {kind = "state", slot = 2, channels = "AB"},'
DYNAMIC = "tasks = 2\nlatest_a = 4\n"


class WithoutTasks(Cases):
    def silenced(self, old: str, new: str) -> str:
        """Returns the cluster of three nodes with a node that has no task."""
        return self.changed(CLUSTER, (old, new))

    def test_a_static_and_a_dynamic_buffer_never_send(self) -> None:
        words = ("buffer 0 of node 1 never sends: the node has no task", "null frames alone", "for slot 2",
                 "Expected `tasks = 1` or more")
        self.warned("cluster.toml:25:1", words, self.silenced(SENDER, SENDER.replace("tasks = 2", "tasks = 0")))
        self.warned("cluster.toml:34:1", ("buffer 0 of node 2 never sends: the node has no task",),
                    self.silenced(DYNAMIC, DYNAMIC.replace("tasks = 2", "tasks = 0")))

    def test_one_warning_for_all_buffers_of_a_node(self) -> None:
        many = SENDER.replace("tasks = 2", "tasks = 0") + '\n  {kind = "event", slot = 5, channels = "A", words = 1},'
        found, _ = self.look(self.silenced(SENDER, many))
        self.assertEqual([it.headline for it in found.warnings if it.name == "never-sends"],
                         ["the 2 transmit buffers of node 1 never send: the node has no task"])

    def test_nothing_comes_to_the_receivers(self) -> None:
        """Buffer 1 of node 0 receives slot 2 of node 1, and its FIFO slot 4 of node 2."""
        self.warned("cluster.toml:21:22", ("buffer 1 of node 0 receives nothing", "is for it, and never sends"),
                    self.silenced(SENDER, SENDER.replace("tasks = 2", "tasks = 0")))
        self.warned("cluster.toml:18:1", ("nothing comes to the receive FIFO of node 0",),
                    self.silenced(DYNAMIC, DYNAMIC.replace("tasks = 2", "tasks = 0")))

    def test_expectations_of_what_never_comes(self) -> None:
        """Nodes 2 and 3 divide slot 4 on A by cycles, with frames of 1 and 2 words. Node 3 has no task."""
        cluster = self.changed(CLUSTER, (
            'slot = 4, channels = "A", words = 1', 'slot = 4, channels = "A", words = 1, repetition = 2',
            '{kind = "receive", slot = 2, channels = "A"}', '{kind = "receive", slot = 4, channels = "A"}'))
        cluster += ('\n[[node]]\ntasks = 0\nlatest_a = 3\nbuffer = [{kind = "event", slot = 4, channels = "A", '
                    'words = 2, base = 1, repetition = 2}]\n')
        for payload, headlines in (("x0a0b", []), ("x0a0b0c0d", [
                "the payload has 4 bytes, and frames that buffer 1 of node 0 receives have 2"])):
            found, _ = self.look(cluster, f"frscenario 3\nexpect 0 0 1 {payload}\nend\n", 1)
            self.assertEqual(found.refusals, [])
            self.assertEqual([it.headline for it in found.warnings if it.name == "wrong-expectation"], headlines)

    def test_a_node_without_transmit_buffers_needs_no_task(self) -> None:
        self.quiet("has no task", f'{CLUSTER}\n[[node]]\ntasks = 0\n'
                                  'buffer = [{kind = "receive", slot = 1, channels = "A"}]\n')


class FilledSlots(Cases):
    """Slot 3 on A and B is node 2's: by one line in even cycles, and by another in odd ones."""

    OWN = 'own = [{slot = 3, channels = "AB", repetition = 2}, {slot = 3, channels = "AB", base = 1, repetition = 2}]\n'
    BUFFER = '{kind = "state", slot = 3, channels = "AB", repetition = 2},\n'

    def unfilled(self, buffer: str) -> list[str]:
        """Returns the headlines about slots that are never filled."""
        event = '{kind = "event", slot = 4'
        found, _ = self.look(self.changed(CLUSTER, (DYNAMIC, DYNAMIC + self.OWN, event, buffer + event)))
        self.assertEqual(found.refusals, [])
        return [it.headline for it in found.warnings if it.name == "unfilled-slot"]

    def test_one_of_two_lines_is_filled(self) -> None:
        self.assertEqual(self.unfilled(self.BUFFER), [])

    def test_none_of_two_lines_is_filled(self) -> None:
        self.assertEqual(self.unfilled(""), ["slot 3 is owned by node 2 on A and B, and never filled there"])

    def test_a_channel_that_is_never_filled(self) -> None:
        self.assertEqual(self.unfilled(self.BUFFER.replace("AB", "B")),
                         ["slot 3 is owned by node 2 on A, and never filled there"])


class Load(Shows):
    def test_frames_of_a_node_without_tasks_are_no_load(self) -> None:
        """Without the log, the frame of 1 word in slot 4 is alone: 5 words are 1 minislot, at minislot 2 of 3."""
        idle = self.written("cluster.toml", NETWORK.replace('name = "pedal"', 'name = "pedal"\ntasks = 0'))
        self.assertEqual(self.values("load", "channel least most slack", "latency", idle),
                         [("A", 1, 1, 1), ("B", 0, 0, 10)])
