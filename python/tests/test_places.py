"""Tests of the places of keys and items in a TOML text."""
import unittest

from musmyrtle.places import Places
from musmyrtle.toml_reader import Reader

ODD = '''# [[node]] in a comment
top = """
[[node]]
own = 3 # in a string
\\""" still in it"""
'q w' = [ # first
  1, # second ]
  "]", '}', [2,
  3], {x = "{", y.z = [true, 1979-05-27 07:32:00]},
]
[[node]]  # one
  tasks	=	2
[node.queue]
first = 4
[[node.buffer]]
slot = 1
[[ node ]]
[["node".buffer]]
[[node.buffer]]
  slot = 0x_f
'''.replace("0x_f", "0xf")


class PlacesOfTexts(unittest.TestCase):
    def places(self, text):
        return Places("file", text, Reader(text).document())

    def test_odd_spellings(self):
        places = self.places(ODD)
        for path, place in (
            (("top",), "2:1"), (("q w",), "6:1"), (("q w", 0), "7:3"), (("q w", 1), "8:3"), (("q w", 3, 1), "9:3"),
            (("q w", 4, "x"), "9:8"), (("q w", 4, "y", "z", 1), "9:30"), (("node", 0, "tasks"), "12:3"),
            (("node", 0, "queue"), "13:1"), (("node", 0, "queue", "first"), "14:1"),
            (("node", 0, "buffer", 0, "slot"), "16:1"), (("node", 1), "17:1"), (("node", 1, "buffer", 0), "18:1"),
            (("node", 1, "buffer", 1, "slot"), "20:3"),
        ):
            with self.subTest(path=path):
                self.assertEqual(str(places.of(path)), f"file:{place}")

    def test_paths_to_nothing(self):
        places = self.places(ODD)
        for path in ((), ("none",), ("node", 2), ("top", 0), ("node", "tasks"), ("node", 0, "tasks", "x")):
            self.assertIsNone(places.of(path), path)

    def test_carriage_returns(self):
        places = self.places("a = 1\r\n\r\n[b]\r\nc = 2\r\n")
        self.assertEqual((str(places.of(("b", "c"))), places.of(("b", "c")).source), ("file:4:1", "c = 2"))
