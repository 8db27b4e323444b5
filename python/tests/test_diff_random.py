"""Random changes of one value in cluster files: `diff` finds each one, and none of comments and spelling alone."""
import random
import unittest
from typing import Any

from musmyrtle.cluster import Reading
from musmyrtle.diff.clusters import compared
from musmyrtle.diff.differences import Difference
from musmyrtle.texts import Text, read_text
from musmyrtle.toml_values import Spelled
from tests.shows import EXAMPLES
from tests.toml_texts import Writer, changed, paths_of

FILES = ("three-nodes/cluster.toml", "divided-slot/cluster.toml", "signals/cluster.toml", "periodic/cluster.toml",
         "host-programs/cruise.toml", "schedules/rare-cycle.toml")
CHANGES, SPELLINGS = 1000, 60
MORE: dict[str, Any] = {"own": {"x": [1, {"y": Spelled("0.5")}], "text": "a"}, "level": -3}
"""Keys that no program reads."""


def text_of(data: str) -> Text:
    return read_text("cluster.toml", data.encode())


class TestRandom(unittest.TestCase):
    def setUp(self) -> None:
        self.dice = random.Random(1)
        self.documents = [{**text_of((EXAMPLES / name).read_text()).document, **MORE} for name in FILES]
        self.writer = Writer(self.dice)

    def written(self, document: dict[str, Any]) -> Text:
        """Returns the text of a document in a random spelling."""
        return text_of(self.writer.document(document))

    def differences(self, old: dict[str, Any], new: dict[str, Any]) -> list[Difference]:
        return compared(self.written(old), self.written(new))

    def test_each_change_of_a_value_is_found(self) -> None:
        """A change that the program would refuse is left out, but for one in a frame or in an unread key."""
        found = 0
        while found < CHANGES:
            document = self.dice.choice(self.documents)
            path = self.dice.choice(list(paths_of(document)))
            other = changed(document, path, self.dice)
            if Reading(other).cluster is None:
                continue
            found += 1
            with self.subTest(path=path):
                self.assertTrue(self.differences(document, other))
                self.assertTrue(self.differences(other, document))

    def test_each_absent_and_each_further_thing_is_found(self) -> None:
        """Usual values may be absent, so that the things here are whole tables."""
        for document in self.documents:
            for key in ("node", "frame"):
                for number in range(len(document.get(key, ()))):
                    fewer = {**document, key: [it for at, it in enumerate(document[key]) if at != number]}
                    self.assertTrue(self.differences(document, fewer))
                    self.assertTrue(self.differences(fewer, document))
            for number, node in enumerate(document["node"]):
                for key in ("own", "buffer"):
                    for place in range(len(node.get(key, ()))):
                        less = {**node, key: [it for at, it in enumerate(node[key]) if at != place]}
                        nodes = [less if at == number else it for at, it in enumerate(document["node"])]
                        self.assertTrue(self.differences(document, {**document, "node": nodes}))

    def test_spelling_is_no_difference(self) -> None:
        for _ in range(SPELLINGS):
            for document in self.documents:
                self.assertEqual(self.differences(document, document), [])

    def test_two_things_in_another_order_are_found(self) -> None:
        for document in self.documents:
            for key in ("node", "frame"):
                its = document.get(key, ())
                if len(its) > 1:
                    turned = {**document, key: [its[1], its[0], *its[2:]]}
                    self.assertTrue(self.differences(document, turned))


if __name__ == "__main__":
    unittest.main()
