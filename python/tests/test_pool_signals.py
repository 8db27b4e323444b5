"""A signal that another thread takes ends the programs of a pool, although it doesn't wake the main thread."""
import signal
import threading
import unittest

from musmyrtle.breaking import BrokenOff, breaking_off
from musmyrtle.faults.children import Children
from musmyrtle.faults.runs import pooled


class Watched(Children):
    """Children whose end can be waited for."""

    def __init__(self) -> None:
        super().__init__()
        self.has_ended = threading.Event()

    def end(self) -> None:
        super().end()
        self.has_ended.set()


class TestPoolSignals(unittest.TestCase):
    def test_a_signal_in_a_worker(self) -> None:
        children = Watched()
        ended: list[bool] = []

        def work(_: int) -> None:
            # By now the main thread sleeps.
            children.has_ended.wait(0.5)
            signal.pthread_kill(threading.get_ident(), signal.SIGTERM)
            ended.append(children.has_ended.wait(10))

        with self.assertRaises(BrokenOff), breaking_off():
            list(pooled(work, [1], 1, children))
        self.assertEqual(ended, [True])


if __name__ == "__main__":
    unittest.main()
