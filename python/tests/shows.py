"""A network of two nodes with names, a dynamic segment and macroticks of 2 us, for which all is worked out by hand.

A cycle has two static slots of 20 macroticks, ten minislots of 5 and 10 macroticks of idle time: 100 macroticks. The
frame of the buffer `log` has 16 words and 4 of header and trailer, which is 4 minislots of 5 words. So slot 3 opens at
minislot 1, at macrotick 40, and slot 4 at minislot 5, above the latest minislot 3 of the brake.
"""
import contextlib
import io
import json
import tempfile
import unittest
from pathlib import Path
from typing import Any

from musmyrtle.show.main import main

NETWORK = """guard = "none"

[physical]
bit_rate = 10_000_000
macrotick_us = 2

[params]
static_slots = 2
minislots = 10
static_words = 1
static_mt = 20
minislot_mt = 5
symbol_mt = 0
nit_mt = 10
cycle_mt = 100
idle = 0
words_per_minislot = 5

[[node]]
name = "pedal"
latest_a = 7
own = [{slot = 1, channels = "AB", sync = true}]
buffer = [
  {name = "position", kind = "event", slot = 1, channels = "AB"},
  {name = "log", kind = "event", slot = 3, channels = "A", words = 16},
]

[[node]]
name = "brake"
latest_a = 3
queue = {capacity = 1, first = 3, last = 3, channels = "A"}
own = [{slot = 2, channels = "AB"}]
buffer = [
  {name = "force", kind = "state", slot = 2, channels = "A"},
  {name = "position", kind = "receive", slot = 1, channels = "AB"},
  {name = "state", kind = "event", slot = 4, channels = "A", words = 1},
  {name = "unused", kind = "receive", slot = 5, channels = "B"},
]
"""
FIRST, SECOND = f"x{'01' * 32}", f"x{'02' * 32}"
POP = "pop 1 0 1\n"
SCENE = f"""frscenario 1
commit 0 0 0 0 x0001
commit 0 0 0 1 {FIRST}
commit 0 0 1 1 {SECOND}
commit 1 0 0 0 x1111
commit 1 0 0 2 x2222
read 1 0 1 1
{POP}babble 1 B 0 s1 x00
end
"""
WITH_IDLE = SCENE.replace("end\n", "corrupt B 0 m9 0\nend\n")
"""The same with a fault in line 10 that has no effect, since nothing is sent at minislot 9 of channel B."""
IDLE_NOTE = "line 10 struck nothing\n"
EXAMPLES = Path(__file__).resolve().parents[2] / "examples"
THREE = (str(EXAMPLES / "three-nodes/cluster.toml"), str(EXAMPLES / "three-nodes/scenario"), "--cycles", "4")


class Shows(unittest.TestCase):
    def setUp(self) -> None:
        folder = tempfile.TemporaryDirectory()
        self.addCleanup(folder.cleanup)
        self.folder = Path(folder.name)

    def written(self, name: str, text: str) -> str:
        (self.folder / name).write_text(text)
        return str(self.folder / name)

    def run_of(self, network: str = NETWORK, scene: str = SCENE) -> list[str]:
        """Returns the words of the run of two cycles."""
        return [self.written("cluster.toml", network), self.written("scenario", scene), "--cycles", "2"]

    def asked(self, *words: str) -> tuple[int | str | None, str, str]:
        """Returns the status of the command, its output, and its standard error."""
        output, told = io.StringIO(), io.StringIO()
        status: int | str | None
        with contextlib.redirect_stdout(output), contextlib.redirect_stderr(told):
            try:
                status = main(list(words))
            except SystemExit as ended:
                status = ended.code
        return status, output.getvalue(), told.getvalue()

    def printed(self, *words: str, told: str = "") -> str:
        """Returns the output of a command that is done, and has TOLD on standard error."""
        status, output, error = self.asked(*words)
        self.assertEqual((status, error), (0, told))
        return output

    def rows(self, kind: str, *words: str, told: str = "") -> list[dict[str, Any]]:
        """Returns the objects of one kind that the command prints with `--json`."""
        found = [json.loads(line) for line in self.printed(*words, "--json", told=told).splitlines()]
        return [it for it in found if it.pop("kind") == kind]

    def values(self, kind: str, keys: str, *words: str, told: str = "") -> list[tuple[Any, ...]]:
        """Returns the values of some keys of these objects."""
        return [tuple(row[key] for key in keys.split()) for row in self.rows(kind, *words, told=told)]
