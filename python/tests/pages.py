"""Pages of runs for the tests of `musmyrtle page`, and what node makes of them."""
import base64
import json
import os
import re
import shutil
import struct
import subprocess
import unittest
import zlib
from itertools import accumulate
from pathlib import Path
from typing import Any

from musmyrtle.program import usual_program
from tests.shows import THREE, Shows

HERE = Path(__file__).resolve().parent / "page"
NODE = shutil.which("node")
needs_node = unittest.skipUnless(NODE, "there is no node, which runs the scripts of the page")
SCRIPT = re.compile(r"<script[^>]*>(.*?)</script>", re.DOTALL)
STEPS = ("click nodes node 0", "click details cycle 2", "click details cycle 2", "press n", "find slot 4",
         "click results slot 4", "find payload x7002", "click faults line 12", "press 0", "press +", "press c",
         "click back")
"""A walk through the page of three nodes, in words of page/walk.js."""


KINDS = {"u8": "B", "u16": "H", "u32": "I"}


def unpacked(page: str) -> tuple[dict[str, Any], dict[str, list[Any]]]:
    """Returns the header and the columns of a page. Numbers of words are replaced by these."""
    found = re.search(r'id="data">(.*?)</script>', page, re.DOTALL)
    data = zlib.decompress(base64.b64decode(found[1] if found else ""))
    at = 4 + struct.unpack_from("<I", data)[0]
    header, columns = json.loads(data[4:at]), dict[str, list[Any]]()
    for it in header["columns"]:
        values = list(struct.unpack_from(f"<{it['count']}{KINDS[it['type']]}", data, at))
        at += -(-struct.calcsize(KINDS[it["type"]]) * it["count"] // 4) * 4
        values = list(accumulate(values)) if it.get("is_rising") else values
        columns[it["name"]] = [it["words"][value] for value in values] if "words" in it else values
    return header, columns


class Pages(Shows):
    def page(self, *words: str, name: str = "run.html", told: str = "") -> str:
        """Returns the name of a file with the page of a run, by which standard error has TOLD."""
        return self.written(name, self.printed("page", *(words or THREE), told=told))

    def ran(self, script: str, *words: str) -> str:
        """Returns what a script of this folder prints in node."""
        done = subprocess.run([NODE or "node", str(HERE / script), *words], capture_output=True, text=True)
        self.assertEqual(done.returncode, 0, done.stdout + done.stderr)
        return done.stdout

    def facts(self, *pages: str) -> list[dict[str, Any]]:
        """Returns what the data of pages says, as page/facts.js prints it."""
        return [json.loads(line) for line in self.ran("facts.js", *pages).splitlines()]

    def walked(self, page: str, *steps: str) -> list[dict[str, Any]]:
        """Returns what a page shows at first and after each step of a walk."""
        found: list[dict[str, Any]] = json.loads(self.ran("walked.js", page, *steps))
        return found


def view(command: str, cluster: str, scenario: str, cycles: str, *words: str) -> tuple[list[str], list[int]]:
    """Returns the lines that `fr_view` prints about a run, and the fault lines without effect."""
    program = os.environ.get("MUSMYRTLE_VIEW") or usual_program("fr_view") or "fr_view"
    done = subprocess.run([program, command, *words, "--cycles", cycles, cluster, scenario], capture_output=True,
                          text=True, check=True)
    idle = [int(line.split(" ")[1]) for line in done.stderr.splitlines() if line.endswith(" struck nothing")]
    return done.stdout.splitlines(), idle
