"""The common parts of the tests: the cluster of three nodes and its scenario, changes of them, and their findings."""
import contextlib
import io
import os
import re
import tempfile
import unittest
from pathlib import Path

from musmyrtle.lint import command
from musmyrtle.lint.command import KNOWN, told, words_for
from musmyrtle.lint.lint import Lint, Ran, Task, lint
from musmyrtle.program import Answer, ask


def without_allows(text: str) -> str:
    """Returns a cluster file without the comments that silence its warnings."""
    return re.sub(r" *# lint: allow.*", "", text)


EXAMPLES = Path(__file__).resolve().parents[2] / "examples"
WITH_ALLOWS = (EXAMPLES / "three-nodes/cluster.toml").read_text()
CLUSTER = without_allows(WITH_ALLOWS)
SCENARIO = (EXAMPLES / "three-nodes/scenario").read_text()
PROGRAM = os.environ.get("FR_BENCH")
"""The program whose refusals must be the same, if one is named."""


class Cases(unittest.TestCase):
    def setUp(self):
        folder = tempfile.TemporaryDirectory()
        self.addCleanup(folder.cleanup)
        self.folder = Path(folder.name)

    def run_with(self, *words: str) -> tuple[str | int | None, str, str]:
        """Returns the status of the command in this process, its output, and its standard error."""
        output, error = io.StringIO(), io.StringIO()
        with contextlib.redirect_stdout(output), contextlib.redirect_stderr(error):
            status: str | int | None
            try:
                status = command.main(list(words))
            except SystemExit as ended:
                status = ended.code
        return status, output.getvalue(), error.getvalue()

    def changed(self, text: str, changes: tuple[str, ...]) -> str:
        """Returns the text with each second of the words in the place of the one before it."""
        for old, new in zip(changes[::2], changes[1::2]):
            self.assertIn(old, text)
            text = text.replace(old, new, 1)
        return text

    def look(self, cluster: str | bytes | None, scenario: str | bytes | None = None, cycles: int | None = None):
        """Returns the findings and the program's answer; without a program the answer that the findings predict."""
        script = None if scenario is None else self.written("scenario", scenario)
        task = Task(self.written("cluster.toml", cluster), script, cycles)
        answer = None if PROGRAM is None else ask(PROGRAM, words_for(task), known=KNOWN)
        found = lint(task, Ran(idle=() if answer is None else answer.idle))
        expected = found.refusals[0][0] if found.refusals else None
        if answer is None:
            return found, Answer(1 if expected else 0, expected)
        self.assertEqual(answer.refusal, expected)
        return found, answer

    def written(self, name: str, text: str | bytes | None) -> str:
        if text is not None:
            (self.folder / name).write_bytes(text if isinstance(text, bytes) else text.encode())
        return str(self.folder / name)

    def text(self, found: Lint, answer: Answer) -> str:
        """Returns all printed words, without the folder and with each gap as one space."""
        return " ".join("\n".join(told(answer, found)).replace(f"{self.folder}/", "").split())

    def refused(self, refusal: str, place: str, words: tuple[str, ...], *given) -> None:
        """Asserts that a file is refused so, at this place, with the words in the reason."""
        found, answer = self.look(*given)
        self.assertTrue(found.refusals, "nothing is refused")
        told_refusal, finding = found.refusals[0]
        self.assertEqual((told_refusal, str(finding.place).rpartition("/")[2]), (refusal, place))
        for word in words:
            self.assertIn(word, self.text(found, answer))

    def warned(self, place: str, words: tuple[str, ...], *given) -> None:
        """Asserts that a file is accepted, and that one warning has this place and the words."""
        found, answer = self.look(*given)
        self.assertEqual(found.refusals, [])
        texts = [f"{it.headline} {it.reason} {' '.join(note.text for note in it.notes)}" for it in found.warnings
                 if str(it.place).rpartition("/")[2] == place]
        self.assertTrue(any(all(word in text for word in words) for text in texts),
                        f"{words} at {place} isn't in {self.text(found, answer)}")

    def quiet(self, word: str, *given) -> None:
        """Asserts that no warning has the word."""
        found, _ = self.look(*given)
        self.assertEqual(found.refusals, [])
        self.assertEqual([it.headline for it in found.warnings if word in it.headline], [])
