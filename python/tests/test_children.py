"""The programs of a campaign, and signals as they start."""
import os
import signal
import subprocess
import unittest
from unittest.mock import patch

from musmyrtle.breaking import BrokenOff, breaking_off, deferred
from musmyrtle.faults.children import Children

SLEEP = ["sleep", "60"]
POPEN = subprocess.Popen


class TestChildren(unittest.TestCase):
    def test_a_signal_while_a_program_starts(self):
        """The signal comes once the program runs and before its start has ended."""
        begun = []

        def start(*words, **how):
            begun.append(POPEN(*words, **how))
            os.kill(os.getpid(), signal.SIGTERM)
            return begun[0]

        starting = patch("musmyrtle.faults.children.subprocess.Popen", start)
        with self.assertRaises(BrokenOff) as broken, breaking_off(), starting, Children().started(SLEEP):
            self.fail("the block is entered")
        self.assertEqual(broken.exception.status, 128 + signal.SIGTERM)
        self.assertEqual(begun[0].wait(20), -signal.SIGTERM)

    def test_a_signal_between_start_and_block(self):
        """The signal comes as the lock is left."""
        children = Children()
        with self.assertRaises(BrokenOff), breaking_off():
            with deferred():
                os.kill(os.getpid(), signal.SIGTERM)
        self.assertEqual(children.running, set())

    def test_a_program_that_can_not_start(self):
        children = Children()
        with self.assertRaises(FileNotFoundError):
            with children.started(["/nowhere/program"]):
                self.fail("the block is entered")
        self.assertEqual(children.running, set())

    def test_an_exception_of_the_block(self):
        children = Children()
        with self.assertRaises(KeyError), children.started(SLEEP) as process:
            raise KeyError
        self.assertEqual((process.returncode, children.running), (-signal.SIGTERM, set()))


if __name__ == "__main__":
    unittest.main()
