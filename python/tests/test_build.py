"""The build backend: the files of a wheel, and no network, no time and no file beside it."""
import base64
import configparser
import hashlib
import importlib.util
import subprocess
import sys
import tarfile
import tempfile
import tomllib
import unittest
import zipfile
from pathlib import Path
from types import ModuleType

from musmyrtle.version import version

PYTHON = Path(__file__).resolve().parents[1]
SETTINGS = tomllib.loads((PYTHON / "pyproject.toml").read_text())
NAME = f"musmyrtle-{version()}"


def backend() -> ModuleType:
    """Returns the backend that pyproject.toml names."""
    file = PYTHON / SETTINGS["build-system"]["backend-path"][0] / f"{SETTINGS['build-system']['build-backend']}.py"
    spec = importlib.util.spec_from_file_location("backend_of_test", file)
    assert spec is not None and spec.loader is not None
    module = importlib.util.module_from_spec(spec)
    spec.loader.exec_module(module)
    return module


class Build(unittest.TestCase):
    def setUp(self) -> None:
        folder = tempfile.TemporaryDirectory()
        self.addCleanup(folder.cleanup)
        self.folder = Path(folder.name)
        self.backend = backend()

    def wheel(self) -> zipfile.ZipFile:
        name = self.backend.build_wheel(str(self.folder))
        self.assertEqual(name, f"{NAME}-py3-none-any.whl")
        return zipfile.ZipFile(self.folder / name)

    def test_nothing_is_fetched(self) -> None:
        self.assertEqual((SETTINGS["build-system"]["requires"], SETTINGS["project"]["dependencies"]), ([], []))

    def test_each_module_is_in_the_wheel(self) -> None:
        expected = {str(it.relative_to(PYTHON)) for it in (PYTHON / "musmyrtle").rglob("*.py")}
        with self.wheel() as wheel:
            names = set(wheel.namelist())
            self.assertLessEqual(expected | {"musmyrtle/py.typed", "musmyrtle/VERSION"}, names)
            self.assertEqual({it for it in names if not it.startswith(("musmyrtle/", f"{NAME}.dist-info/"))}, set())
            self.assertFalse([it for it in names if it.endswith(".pyc")])

    def test_record(self) -> None:
        with self.wheel() as wheel:
            lines = wheel.read(f"{NAME}.dist-info/RECORD").decode().splitlines()
            self.assertEqual(sorted(line.split(",")[0] for line in lines), sorted(wheel.namelist()))
            for name, digest, size in (line.split(",") for line in lines[:-1]):
                data = wheel.read(name)
                found = base64.urlsafe_b64encode(hashlib.sha256(data).digest()).decode().rstrip("=")
                self.assertEqual((digest, size), (f"sha256={found}", str(len(data))))
            self.assertEqual(lines[-1], f"{NAME}.dist-info/RECORD,,")

    def test_entry_points(self) -> None:
        with self.wheel() as wheel:
            text = wheel.read(f"{NAME}.dist-info/entry_points.txt").decode()
            metadata = wheel.read(f"{NAME}.dist-info/METADATA").decode()
        found = configparser.ConfigParser()
        found.read_string(text)
        self.assertEqual({name: dict(found[name]) for name in found.sections()}, {
            "console_scripts": {"musmyrtle": "musmyrtle.show.main:main"},
            "pytest11": {"musmyrtle": "musmyrtle.pytest_plugin"}})
        self.assertIn(f"\nVersion: {version()}\n", metadata)

    def test_the_same_bytes_again(self) -> None:
        data = []
        for _ in range(2):
            self.wheel().close()
            data.append((self.folder / f"{NAME}-py3-none-any.whl").read_bytes())
        self.assertEqual(*data)

    def test_an_editable_wheel_leads_here(self) -> None:
        with zipfile.ZipFile(self.folder / self.backend.build_editable(str(self.folder))) as wheel:
            self.assertEqual(wheel.read("musmyrtle.pth").decode(), f"{PYTHON}\n")

    def test_a_wheel_of_the_source_archive(self) -> None:
        name = self.backend.build_sdist(str(self.folder))
        self.assertEqual(name, f"{NAME}.tar.gz")
        with tarfile.open(self.folder / name) as archive:
            archive.extractall(self.folder)
        text = "import sys; sys.path.insert(0, 'backend'); import musmyrtle_build as it; print(it.build_wheel('.'))"
        ran = subprocess.run([sys.executable, "-B", "-c", text], cwd=self.folder / NAME, capture_output=True, text=True)
        self.assertEqual((ran.stdout, ran.stderr), (f"{NAME}-py3-none-any.whl\n", ""))
        with self.wheel() as here, zipfile.ZipFile(self.folder / NAME / f"{NAME}-py3-none-any.whl") as there:
            self.assertEqual(sorted(here.namelist()), sorted(there.namelist()))


if __name__ == "__main__":
    unittest.main()
