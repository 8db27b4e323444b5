"""The plugin of pytest: its parts over a small stand-in of pytest, and whole where pytest is installed."""
import importlib
import importlib.util
import subprocess
import sys
import tempfile
import traceback
import types
import unittest
from pathlib import Path
from typing import Any
from unittest.mock import patch

from musmyrtle import Refused, SessionOver, World

TOP = Path(__file__).resolve().parents[2]
THREE_NODES = TOP / "examples/three-nodes/cluster.toml"
HAS_PYTEST = importlib.util.find_spec("pytest") is not None
TESTS = f"""
import pytest

pytestmark = pytest.mark.world({str(THREE_NODES)!r}, cycles=8)

def test_passes(world):
    world.node(0).commit(0, b"\\0\\7")

def test_fails(world):
    world.node(0).commit(0, b"\\0\\7")
    world.cycle()
    assert world.node(1).read(1) is None

def test_is_refused(world):
    world.node(0).commit(7, b"\\0\\7")

@pytest.mark.world("no.toml", cycles=8)
def test_without_a_cluster(world):
    pass
"""


class Failed(Exception):
    """Stands for the exception of pytest."""

    def __init__(self, reason: str, pytrace: bool) -> None:
        super().__init__(reason, pytrace)


class Fail:
    """Stands for `pytest.fail`."""
    Exception = Failed

    def __call__(self, reason: str, pytrace: bool) -> None:
        raise Failed(reason, pytrace)


class StashKey:
    """Stands for the key of a stash."""

    def __class_getitem__(cls, _: object) -> type:
        return cls


def stand_in() -> types.ModuleType:
    """Returns a module with what the plugin uses of pytest."""
    module = types.ModuleType("pytest")
    names: dict[str, Any] = {"StashKey": StashKey, "fail": Fail(), "fixture": lambda function: function,
                             "hookimpl": lambda **_: lambda function: function, "FixtureRequest": object}
    vars(module).update(names)
    return module


def mark(*args: Any, **kwargs: Any) -> types.SimpleNamespace:
    return types.SimpleNamespace(args=args, kwargs=kwargs)


class Parts(unittest.TestCase):
    def setUp(self) -> None:
        with patch.dict(sys.modules, {"pytest": stand_in()}):
            sys.modules.pop("musmyrtle.pytest_plugin", None)
            self.plugin: Any = importlib.import_module("musmyrtle.pytest_plugin")
            sys.modules.pop("musmyrtle.pytest_plugin", None)
        self.is_full = False
        """The option `--full-trace` of pytest."""

    def node(self, marker: Any) -> Any:
        config = types.SimpleNamespace(getoption=lambda name, otherwise: self.is_full)
        return types.SimpleNamespace(stash={}, config=config,
                                     get_closest_marker=lambda name: marker if name == "world" else None)

    def report(self, item: Any, has_failed: bool, when: str = "call", excinfo: Any = None) -> list[tuple[str, str]]:
        """Returns the sections that the plugin adds to a report."""
        report = types.SimpleNamespace(failed=has_failed, when=when, sections=[])
        making = self.plugin.pytest_runtest_makereport(item, types.SimpleNamespace(excinfo=excinfo))
        next(making)
        with self.assertRaises(StopIteration):
            making.send(types.SimpleNamespace(get_result=lambda: report))
        sections: list[tuple[str, str]] = report.sections
        return sections

    def test_a_world_and_its_requests(self) -> None:
        item = self.node(mark(THREE_NODES, cycles=8))
        fixture = self.plugin.world(types.SimpleNamespace(node=item))
        world = next(fixture)
        self.assertIsInstance(world, World)
        world.node(0).commit(0, b"\0\7")
        world.cycle()
        self.assertEqual(self.report(item, True), [
            ("requests to the world, for fr_world", "commit 0 0 0 x0007\ncycle\n")])
        self.assertEqual((self.report(item, False), self.report(item, True, "teardown")), ([], []))
        with self.assertRaises(StopIteration):
            next(fixture)
        with self.assertRaises(SessionOver):
            world.now()

    def failed(self, marker: Any) -> tuple[str, bool]:
        """Returns the reason why the fixture fails, and whether pytest prints code with it."""
        with self.assertRaises(Failed) as raised:
            next(self.plugin.world(types.SimpleNamespace(node=self.node(marker))))
        return raised.exception.args[0], raised.exception.args[1]

    def test_a_test_without_the_marker(self) -> None:
        self.assertEqual(self.failed(None), (
            'the fixture `world` wants @pytest.mark.world("cluster.toml", cycles=8)', False))

    def test_a_world_that_cannot_be_opened(self) -> None:
        front = "the fixture `world` can't open its world: "
        self.assertEqual(self.failed(mark(THREE_NODES, cycles=0)), (
            front + "the number of cycles is 0, and has to be 1 to 1024", False))
        reason, is_code = self.failed(mark("no.toml", cycles=8))
        self.assertTrue(reason.startswith(front + "refused Read: the cluster file 'no.toml' isn't there"), reason)
        self.assertFalse(is_code)

    def refusal(self) -> Refused:
        """Returns the exception of a refused request of this test."""
        with World(THREE_NODES, cycles=8) as world:
            try:
                world.node(0).commit(7, b"\0\7")
            except Refused as error:
                return error
        raise AssertionError("nothing is refused")

    def frames(self, error: BaseException) -> list[str]:
        """Returns the names of the functions to which a traceback leads."""
        return [frame.name for frame in traceback.extract_tb(error.__traceback__)]

    def test_a_refusal_ends_in_the_test(self) -> None:
        error = self.refusal()
        self.assertEqual(self.frames(error)[:2], ["refusal", "commit"])
        self.report(self.node(None), True, excinfo=types.SimpleNamespace(value=error))
        self.assertEqual(self.frames(error), ["refusal"])

    def test_whole_tracebacks(self) -> None:
        """With `--full-trace`, and of another exception, pytest prints all of it."""
        self.is_full = True
        error = self.refusal()
        self.report(self.node(None), True, excinfo=types.SimpleNamespace(value=error))
        self.assertIn("commit", self.frames(error))
        self.is_full = False
        with self.assertRaises(TypeError) as raised:
            World(THREE_NODES, of=7)  # type: ignore[call-arg]
        before = self.frames(raised.exception)
        self.report(self.node(None), True, excinfo=types.SimpleNamespace(value=raised.exception))
        self.assertEqual(self.frames(raised.exception), before)

    def test_a_test_without_a_world(self) -> None:
        self.assertEqual(self.report(self.node(None), True), [])

    def test_the_marker_is_known(self) -> None:
        lines: list[tuple[str, str]] = []
        self.plugin.pytest_configure(types.SimpleNamespace(addinivalue_line=lambda *words: lines.append(words)))
        self.assertEqual([(name, text.split("(")[0]) for name, text in lines], [("markers", "world")])


class Whole(unittest.TestCase):
    def test_the_package_does_not_need_pytest(self) -> None:
        text = "import sys; sys.modules['pytest'] = None; import musmyrtle, musmyrtle.show.main"
        self.assertEqual(subprocess.run([sys.executable, "-B", "-c", text], cwd=TOP / "python").returncode, 0)

    @unittest.skipUnless(HAS_PYTEST, "pytest isn't installed")
    def test_pytest(self) -> None:
        with tempfile.TemporaryDirectory() as folder:
            (Path(folder) / "test_of_world.py").write_text(TESTS)
            words = [sys.executable, "-B", "-m", "pytest", "-p", "musmyrtle.pytest_plugin", "-p", "no:cacheprovider",
                     "--rootdir", folder, folder]
            ran = subprocess.run(words, cwd=TOP / "python", capture_output=True, text=True)
        self.assertIn("2 failed, 1 passed, 1 error", ran.stdout)
        self.assertIn("requests to the world, for fr_world", ran.stdout)
        self.assertIn("commit 0 0 0 x0007\ncycle\nread 1 0 1\n", ran.stdout)
        self.assertIn("Host UnknownBuffer: commit 0 0 7 x0007", ran.stdout)
        self.assertIn("the fixture `world` can't open its world: refused Read", ran.stdout)
        self.assertNotIn("session.py", ran.stdout)


if __name__ == "__main__":
    unittest.main()
