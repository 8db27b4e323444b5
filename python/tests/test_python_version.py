"""Tests that an older Python names the needed version in one line, before it meets anything that it can't do."""
import ast
import os
import subprocess
import sys
import unittest
from pathlib import Path

TOP = Path(__file__).resolve().parents[2]
OLD = """import builtins, sys
sys.version_info = (3, 10, 13, "final", 0)
found = builtins.__import__

def without(name, *more, **further):
    if name == "tomllib":
        raise ModuleNotFoundError("No module named 'tomllib'")
    return found(name, *more, **further)

builtins.__import__ = without
"""
"""Makes this Python claim to be version 3.10, which has no `tomllib`."""
NEEDS = "musmyrtle needs Python 3.11, and this is Python 3.10.13"


class TestOldPython(unittest.TestCase):
    def ran(self, text: str) -> tuple[int, list[str]]:
        ran = subprocess.run([sys.executable, "-B", "-c", OLD + text], capture_output=True, text=True, cwd=TOP,
                             env={**os.environ, "PYTHONPATH": str(TOP / "python")})
        self.assertEqual(ran.stdout, "")
        return ran.returncode, ran.stderr.splitlines()

    def test_commands(self) -> None:
        calls: list[list[str]] = [[], ["lint", "--help"], ["faults", "--help"]]
        for words in calls:
            given = f"import runpy\nsys.argv = {['musmyrtle', *words]}\n"
            self.assertEqual(self.ran(f"{given}runpy.run_path('musmyrtle', run_name='__main__')\n"), (2, [NEEDS]))

    def test_the_package(self) -> None:
        status, lines = self.ran("import musmyrtle\n")
        self.assertEqual((status, lines[-1]), (1, f"ImportError: {NEEDS}"))
        self.assertEqual(self.ran("try:\n    import musmyrtle.lint.lint\nexcept ImportError as error:\n"
                                  "    sys.exit(str(error))\n"), (1, [NEEDS]))

    def test_an_older_python_can_read_that_far(self) -> None:
        """A whole file is read before its first line is executed, so these files may have no form of a later version.
        """
        for name in ("musmyrtle", "python/musmyrtle/__init__.py"):
            ast.parse((TOP / name).read_text(), name, feature_version=(3, 7))


if __name__ == "__main__":
    unittest.main()
