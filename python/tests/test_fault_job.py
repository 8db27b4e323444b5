"""Tests of a job on another machine: incomplete inputs and incomplete work are no answer."""
import shlex
import shutil
import subprocess
import tempfile
import unittest
from pathlib import Path

from musmyrtle.faults.answers import Answer
from musmyrtle.faults.job import SENT, Sent, prepare, read_answers
from musmyrtle.faults.listing import SingleFault
from musmyrtle.faults.runs import Folder
from tests.two_nodes import TWO_NODES

PAYLOADS = "".join(f"commit 0 0 {cycle} 0 x0a0b\n" for cycle in range(30))
SCENE = f"frscenario 1\n{PAYLOADS}end\n"
"""A scenario of more bytes than the 512 of `ulimit -f 1`."""
FAULTS = [SingleFault("mute", 0, "A", "*", "s1", ("mute 0 A * s1",)),
          SingleFault("header", None, "A", "*", "s*", ("corrupt A * s1 8", "corrupt A * s2 8"))]
PROGRAM = """#!/bin/sh
for scenario; do :; done
HARM
tail -n 3 "$scenario"
echo said >&2
"""
"""A program that prints the end of its scenario."""
PRINTED = [f"{SCENE.splitlines()[-2]}\nmute 0 A * s1\nend\n", "corrupt A * s1 8\ncorrupt A * s2 8\nend\n"]
RIGHT = [(number, Answer(0, text, "said\n")) for number, text in enumerate(PRINTED)]


class TestJobs(unittest.TestCase):
    def setUp(self):
        folder = tempfile.TemporaryDirectory()
        self.addCleanup(folder.cleanup)
        self.folder = Path(folder.name)

    def sent(self, harm: str = "") -> Sent:
        """Prepares the runs of a program that does this harm."""
        shutil.rmtree(self.folder)
        self.folder.mkdir()
        program = self.folder / "program"
        program.write_text(PROGRAM.replace("HARM", harm))
        return prepare(Folder(self.folder, TWO_NODES.encode(), SCENE.encode(), 2), str(program), FAULTS)

    def done(self, sent: Sent, before: str = "", after: str = "") -> tuple[list[tuple[int, Answer]], int]:
        """Does a job with words of a shell before and after it. Returns its answers and its status."""
        job = sent.command.replace("{1} {2}", sent.arguments[0])
        told = subprocess.run(["sh", "-c", f"{before}\n{job} {after}"], cwd=sent.folder, capture_output=True)
        self.told = told.stderr.decode()
        return list(read_answers(told.stdout.splitlines(True), sent)), told.returncode

    def test_a_good_job(self):
        sent = self.sent()
        self.assertEqual(self.done(sent), (RIGHT, 0))
        self.assertEqual(sent.arguments, ["1 2"])
        self.assertEqual(sorted(it.name for it in sent.folder.iterdir()), sorted(SENT))
        self.assertEqual(self.told, "")

    def test_what_was_sent(self):
        """A file that is missing, cut or another one is seen before the first run."""
        for name in SENT:
            for harm in (f"rm {name}", f": >{name}", f"head -c -1 {name} >cut; mv cut {name}", f"echo >>{name}"):
                with self.subTest(harm):
                    self.assertEqual(self.done(self.sent("touch ran"), f"{harm}; chmod +x program")[0], [])
                    self.assertFalse((self.folder / "sent/ran").exists())
        self.assertEqual(self.done(self.sent(), "echo '# longer' >>script"), ([], 1))
        self.assertEqual(self.told, "musmyrtle faults: this machine: what was sent isn't here whole\n")

    def test_no_digests(self):
        tool = "mkdir bin; printf '#!/bin/sh\\nexit 127\\n' >bin/sha256sum; chmod +x bin/sha256sum; PATH=$PWD/bin:$PATH"
        self.assertEqual(self.done(self.sent(), tool), ([], 1))

    def test_a_full_disk(self):
        """A truncated scenario isn't run, and truncated output of a run is no answer."""
        for blocks in ("0", "1"):
            for how in ("", "trap '' XFSZ; "):
                with self.subTest(f"{how}{blocks}"):
                    self.assertEqual(self.done(self.sent("touch ran"), f"{how}ulimit -f {blocks}"), ([], 1))
                    self.assertFalse((self.folder / "sent/ran").exists())
        self.assertEqual(self.done(self.sent("ulimit -f 0"))[0], [])

    def test_a_list_of_other_lines(self):
        """Even with the right digests of all files sent, a run must have exactly its lines."""
        sent = self.sent()
        jobs = (sent.folder / "jobs").read_text()
        for changed in (jobs.replace("0 1 1", "0 2 2"), jobs.replace("0 1 1", "0 4 4"), jobs.replace("1 2 3", "1 2 2"),
                        jobs.replace("1 2 3", "1 1 3")):
            (sent.folder / "jobs").write_text(changed)
            digest = "$(sha256sum " + " ".join(SENT) + " | sha256sum | cut -d ' ' -f 1)"
            other = Sent(sent.folder, digest, sent.arguments, sent.runs)
            found, status = self.done(other)
            self.assertEqual((found, status), ([], 1))

    def test_answers_that_are_not_whole(self):
        for after in ("| sed 's/^out ./out /'", "| sed '/^out end/d'", "| sed '/^told/d'", "| sed '/^done/d'",
                      "| head -n 3", "| sed 's/^done .*/done 7/'", "| sed 's/^run [0-9]*/run 99/'", "| tr n m",
                      "| sed 's/^told/out/'", "| sed 's/^out end/told end/'", ">/dev/null", "| tr -d '\\n'",
                      "| sed 's/^run \\([01] 0\\) ./run \\1 x/'", "| sed 's/^out end$/out end\\nout \\xff/'",
                      "| sed 's/^run \\(. . \\).\\{64\\}/run \\1'$(echo | sha256sum | head -c 64)'/'"):
            with self.subTest(after):
                self.assertEqual(self.done(self.sent(), after=after)[0], [])
        self.assertEqual(self.done(self.sent(), after="| sed 's/^run 0/run 1/; s/^done 0/done 1/'")[0], RIGHT[1:])

    def test_an_answer_comes_once(self):
        self.assertEqual(self.done(self.sent(), after="| sed -n 'H; ${g; p; p}'")[0], RIGHT)

    def test_a_program_that_fails(self):
        """The job fails, so that another machine does it."""
        for harm in ("kill -9 $$", "exit 126", "exit 127", "exit 1", "exit 2", "exit 3", "exit 255",
                     *(f"echo 'refused {name}' >&2; exit 1" for name in ("Memory", "Read", "Write", "Truncated")),
                     "echo not refused >&2; exit 1", "echo 'refused BadFault 0' >&2; exit 3"):
            with self.subTest(harm):
                self.assertEqual(self.done(self.sent(harm)), ([], 1))

    def test_a_run_that_misses_expectations(self):
        told = "line 7: node 0 buffer 1 at the end of cycle 0: expected x00, found nothing\n"
        sent = self.sent(f"trap 'echo \"{told.strip()}\" >&2; exit 3' EXIT")
        wanted = [(number, Answer(3, text, f"said\n{told}")) for number, text in enumerate(PRINTED)]
        self.assertEqual(self.done(sent), (wanted, 0))

    def test_a_refusal_of_the_run(self):
        refused, sent = Answer(1, "", "refused BadFault 0\n"), self.sent("echo 'refused BadFault 0' >&2; exit 1")
        self.assertEqual(self.done(sent), ([(0, refused), (1, refused)], 0))

    def test_one_run_of_a_job_fails(self):
        harm = f"grep -qF {shlex.quote(FAULTS[0].lines[0])} \"$scenario\" && exit 127"
        self.assertEqual(self.done(self.sent(harm)), (RIGHT[1:], 1))
        self.assertEqual(self.told, "musmyrtle faults: this machine: no answer: status 127 \n")
