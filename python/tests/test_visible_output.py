"""Tests that control characters leave `lint` and `faults` as escapes: from files, names, words and programs."""
import os
import stat
import subprocess
import sys
from pathlib import Path

from tests.cases import CLUSTER, SCENARIO, Cases

TOP = Path(__file__).resolve().parents[2]
OBEYED = "\x1b[2J\x7f\x9b\u200e\u200f\u202a\u202b\u202c\u202d\u202e\u2066\u2067\u2068\u2069\u2028\u2029\ufeff"
"""Controls of a terminal, all characters that turn the direction of writing, and separators of lines and paragraphs."""
SPELLED = r"\x1b[2J\x7f\x9b\u200e\u200f\u202a\u202b\u202c\u202d\u202e\u2066\u2067\u2068\u2069\u2028\u2029\ufeff"
IN_TOML = OBEYED.replace("\x1b", r"\u001b").replace("\x7f", r"\u007f")
RAW = OBEYED.replace("\x1b", "").replace("\x7f", "")
"""Those of them that a TOML text may have unescaped."""


class VisibleOutput(Cases):
    def stub(self, text: str, status: int, name: str = "stub") -> str:
        """Writes a program that writes the text to standard error."""
        path = self.written(name, f"#!/bin/sh\nprintf '%s\\n' '{text}' >&2\nexit {status}\n")
        os.chmod(path, stat.S_IRWXU)
        return path

    def launch(self, command: str, *words: str | bytes) -> str:
        """Returns the whole output of the command. Nothing but its line ends is unprintable in it."""
        environment = {**os.environ, "PYTHONIOENCODING": "utf-8:surrogateescape", "COLUMNS": "200"}
        words = sys.executable, "-B", str(TOP / "musmyrtle"), command, *words
        ran = subprocess.run(words, capture_output=True, env=environment)
        text = (ran.stdout + ran.stderr).decode(errors="surrogateescape")
        self.assertEqual([it for it in text if not it.isprintable() and it != "\n"], [], text)
        return text

    def test_keys_and_values(self):
        for refusal, old, new, word in (
            ("", "idle = 0", f'idle = 0\n"{IN_TOML}" = 1', f"`{SPELLED}` of `[params]`"),
            ("Params NotANumber idle", "idle = 0", f'idle = "{IN_TOML}"', f'is "{SPELLED}"'),
            ("Params OutOfRange idle", "idle = 0", f"idle = 3 # {RAW}", r"idle = 3 # [2J\x9b\u200e"),
            ("Toml", "idle = 0", f'"{IN_TOML}" = 1\n"{IN_TOML}" = 2', f"`{SPELLED}` stands twice"),
        ):
            with self.subTest(new=new):
                program = self.stub(f"refused {refusal}", 1) if refusal else self.stub("", 0)
                cluster = self.written("cluster.toml", self.changed(CLUSTER, (old, new)))
                self.assertIn(word, self.launch("lint", cluster, "--program", program))

    def test_a_scenario(self):
        cluster, program = self.written("cluster.toml", CLUSTER), self.stub("refused BadLine 2", 1)
        scenario = self.written("scenario", SCENARIO.replace("commit 0", f"{OBEYED} 0", 1))
        said = self.launch("lint", cluster, scenario, "--cycles", "4", "--program", program)
        self.assertIn(f"no line begins with `{SPELLED}`", said)
        self.assertIn("2 | " + SPELLED[:20], said)

    def test_names_of_files(self):
        """A name may have bytes that are no UTF-8, and a line end."""
        name = os.fsencode(self.folder) + b"/" + OBEYED.encode() + b"\n\xff"
        Path(os.fsdecode(name)).write_text("a =")
        program = self.stub("refused Toml", 1)
        for words in (["lint", name], ["faults", name, name, "--cycles", "4"]):
            place = SPELLED + r"\x0a\udcff:1:4: refused Toml: the value is missing"
            self.assertIn(place, self.launch(*words, "--program", program))
            self.assertIn(SPELLED + r"\x0a\udcff can't be run", self.launch(*words, "--program", name))

    def test_words(self):
        for command in ("lint", "faults"):
            for words in ([f"--{OBEYED}"], ["a", "b", "--cycles", OBEYED], ["a", "b", "c", f"\n{OBEYED}"]):
                with self.subTest(command=command, words=words):
                    self.assertIn(f"musmyrtle {command}: ", self.launch(command, *words).splitlines()[-1])

    def test_files_of_campaigns(self):
        cluster, scenario = self.written("cluster.toml", CLUSTER), self.written("scenario", SCENARIO)
        for option in ("--html", "--against"):
            said = self.launch("faults", cluster, scenario, "--cycles", "4", option, f"none/{OBEYED}\n")
            self.assertIn(f"{option} none/{SPELLED}", said)

    def test_what_programs_say(self):
        cluster = self.written("cluster.toml", CLUSTER)
        for text, status in ((OBEYED, 0), (OBEYED, 3), (f"refused Toml {OBEYED}", 1), (f"refused Toml {OBEYED}", 3)):
            with self.subTest(text=text, status=status):
                said = self.launch("lint", cluster, "--program", self.stub(text, status))
                self.assertIn(SPELLED, said)
