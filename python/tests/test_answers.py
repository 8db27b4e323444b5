"""Tests of what counts as the answer of a run: an outcome, or a refusal of the run itself."""
import unittest

from musmyrtle.faults.answers import UNANSWERED, Answer
from musmyrtle.faults.inputs import is_of_inputs
from musmyrtle.findings import Finding
from musmyrtle.lint.lint import Lint
from musmyrtle.program import Answer as Asked


class TestAnswers(unittest.TestCase):
    def test_failures(self):
        for status, told, wanted in (
                (0, "", None), (0, "refused Memory\n", None),
                (-9, "", ("killed", "signal 9 (SIGKILL)")), (137, "Killed\n", ("killed", "signal 9 (SIGKILL)")),
                (-15, "refused BadFault 0\n", ("killed", "signal 15 (SIGTERM)")),
                (139, "", ("killed", "signal 11 (SIGSEGV)")),
                (1, "refused BadFault 3\n", ("refused", "BadFault 3")),
                (1, "a warning\nrefused NoRoom 0\n", ("refused", "NoRoom 0")),
                (1, "refused Memory\n", ("unreadable", "refused Memory")),
                (1, "refused Read\n", ("unreadable", "refused Read")),
                (1, "refused Write\n", ("unreadable", "refused Write")),
                (1, "refused Truncated\n", ("unreadable", "refused Truncated")),
                (1, "refused Thread\n", ("unreadable", "refused Thread")),
                (1, "", ("unreadable", "status 1")), (1, "refused\n", ("unreadable", "status 1: refused")),
                (1, "fr_view: not built\n", ("unreadable", "status 1: fr_view: not built")),
                (2, "usage\n", ("unreadable", "status 2: usage")),
                (3, "refused BadFault 3\n", ("unreadable", "status 3: refused BadFault 3")),
                (126, "", ("unreadable", "status 126")),
                (127, "sh: program: not found\n", ("unreadable", "status 127: sh: program: not found")),
                (255, "", ("unreadable", "status 255"))):
            self.assertEqual(Answer(status, "", told).failure, wanted, (status, told))

    def test_the_run_without_a_fault(self):
        """Only a refusal of the inputs is reported as one. Unreadable and truncated inputs have to be noticed here too.
        """
        nothing, cut = Lint(), Lint(refusals=[("Truncated", Finding("", ""))])
        for answer, found, wanted in (
                (Asked(0, None), nothing, False), (Asked(0, None), cut, True),
                (Asked(1, "BadLine 3"), nothing, True), (Asked(1, "Truncated"), cut, True),
                (Asked(1, "Truncated"), nothing, False), (Asked(1, "Memory"), nothing, False),
                (Asked(1, "fr_view: not built", False), nothing, False),
                (Asked(-9, "status -9", False), nothing, False),
                (Asked(127, "not found", False), cut, False)):
            self.assertEqual(is_of_inputs(answer, found), wanted, answer)

    def test_effects_that_are_no_answers(self):
        self.assertEqual(UNANSWERED, ("killed", "unreadable"))
