"""The pool of processes for runs of a host program: the order of the ends, and processes that end early."""
import os
import signal
import struct
import subprocess
import sys
import time
import unittest
from collections.abc import Collection
from multiprocessing import active_children
from multiprocessing.connection import Connection
from pathlib import Path
from unittest.mock import patch

from musmyrtle.cluster import Cluster, Parameters
from musmyrtle.faults import host_pool
from musmyrtle.faults.host_pool import DIED, Pool
from musmyrtle.faults.host_runs import HostJob, HostRan


def job(host: str) -> HostJob:
    return HostJob(host, "", Cluster(Parameters(*[1] * 10), "", []), 1, "", "")


def played(it: HostJob) -> HostRan:
    """Does what the name of the host program says."""
    what, _, number = it.host.partition(":")
    if what == "late":
        time.sleep(0.3)
    if what == "stuck":
        time.sleep(300)
    if what == "dies":
        os.kill(os.getpid(), signal.SIGKILL)
    if what == "raises":
        raise KeyError
    return HostRan(number * (1 << 20 if what == "long" else 1))


def half(_: HostJob, pipe: Connection, __: Collection[Connection]) -> None:
    """Dies in the middle of an answer."""
    os.write(pipe.fileno(), struct.pack("!i", 1000) + b"x")
    os._exit(0)


STARTING = """
import os, time
from musmyrtle.breaking import breaking_off
from musmyrtle.faults import host_pool

forks = []
os.register_at_fork(before=lambda: forks.append(1), after_in_child=lambda: time.sleep(300 * (len(forks) == 4)))
host_pool.host_run = lambda number: number
with breaking_off():
    ends = host_pool.Pool(4).all(range(4))
    print(*(next(ends) for _ in range(3)))
    ends.close()
"""
"""Leaves a pool whose fourth process is still in what Python does after a fork, where exceptions are dropped."""


class HostPool(unittest.TestCase):
    def tearDown(self) -> None:
        self.assertEqual(active_children(), [])

    def ends(self, cores: int, *hosts: str) -> list[HostRan]:
        with patch.object(host_pool, "host_run", played), patch("sys.stderr"):
            return list(Pool(cores).all(map(job, hosts)))

    def test_ends_come_in_the_order_of_the_runs(self) -> None:
        expected = [HostRan(number) for number in "12345"]
        for cores in (1, 3, 50):
            with self.subTest(cores=cores):
                self.assertEqual(self.ends(cores, "late:1", "run:2", "run:3", "late:4", "run:5"), expected)
        self.assertEqual(self.ends(2), [])

    def test_a_long_answer(self) -> None:
        self.assertEqual(self.ends(2, "long:1", "long:2"), [HostRan(it * (1 << 20)) for it in "12"])

    def test_a_process_that_dies_fails_its_own_run_alone(self) -> None:
        expected = [HostRan("1"), DIED, HostRan("3"), DIED, HostRan("5")]
        for cores in (1, 2, 50):
            with self.subTest(cores=cores):
                self.assertEqual(self.ends(cores, "late:1", "dies", "run:3", "raises", "run:5"), expected)

    def test_half_an_answer_is_none(self) -> None:
        with patch.object(host_pool, "work", half):
            self.assertEqual(list(Pool(2).all(map(job, "abc"))), [DIED] * 3)

    def test_a_process_that_is_still_starting_keeps_no_pool(self) -> None:
        ran = subprocess.run([sys.executable, "-B", "-c", STARTING], capture_output=True, text=True, timeout=60,
                             cwd=Path(__file__).resolve().parents[1])
        self.assertEqual((ran.stdout, ran.stderr, ran.returncode), ("0 1 2\n", "", 0))

    def test_a_pool_that_is_left_ends_its_processes(self) -> None:
        """Most processes have just started, and have seen no signal yet."""
        began = time.monotonic()
        for _ in range(20):
            with patch.object(host_pool, "host_run", played):
                ends = Pool(30).all(map(job, ["run:1", *["stuck:2"] * 30]))
                self.assertEqual(next(ends), HostRan("1"))
                ends.close()
            self.assertEqual(active_children(), [])
        self.assertLess(time.monotonic() - began, 200)


if __name__ == "__main__":
    unittest.main()
