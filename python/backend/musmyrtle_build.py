"""The build backend of the package (PEP 517), with the standard library alone, so that no network is needed.

It writes only the file that is asked for, into the folder that is given, and the same sources give the same bytes.
"""
import base64
import hashlib
import io
import tarfile
import tomllib
import zipfile
from pathlib import Path
from typing import Any

HERE = Path(__file__).resolve().parent.parent
LICENCES = ("LICENSE-MIT", "LICENSE-APACHE")
TAG = "py3-none-any"
FIRST_TIME = (1980, 1, 1, 0, 0, 0)
"""The time of each file, which is the earliest that a wheel can have."""
PLAIN_FILE = 0o100644 << 16


def project() -> dict[str, Any]:
    """Returns the table `project` of pyproject.toml."""
    settings = tomllib.loads((HERE / "pyproject.toml").read_text(encoding="utf-8"))
    found: dict[str, Any] = settings["project"]
    return found


def front() -> str:
    """Returns the name and version with which file names begin."""
    version = (HERE / "musmyrtle/VERSION").read_text(encoding="ascii").strip()
    return f"{project()['name']}-{version}"


def package_files() -> dict[str, bytes]:
    """Returns the files of the package by their names in a wheel."""
    files = [it for it in sorted((HERE / "musmyrtle").rglob("*")) if it.is_file() and it.suffix != ".pyc"]
    return {str(it.relative_to(HERE)): it.read_bytes() for it in files}


def licences() -> dict[str, bytes]:
    """Returns the texts of the licences, which a checkout has above this folder, and a source archive in it."""
    found = ((name, place / name) for name in LICENCES for place in (HERE, HERE.parent))
    return {name: file.read_bytes() for name, file in found if file.is_file()}


def metadata() -> str:
    """Returns the file METADATA."""
    it, (name, _, version) = project(), front().partition("-")
    lines = ["Metadata-Version: 2.1", f"Name: {name}", f"Version: {version}", f"Summary: {it['description']}",
             f"License: {it['license']['text']}", f"Requires-Python: {it['requires-python']}"]
    return "".join(f"{line}\n" for line in [*lines, *(f"License-File: {name}" for name in licences())])


def entry_points() -> str:
    """Returns the file entry_points.txt."""
    it = project()
    groups = {"console_scripts": it.get("scripts", {}), **it.get("entry-points", {})}
    return "\n".join(f"[{group}]\n" + "".join(f"{name} = {place}\n" for name, place in entries.items())
                     for group, entries in groups.items())


def information() -> dict[str, bytes]:
    """Returns the files of the folder `.dist-info` by their names, without its RECORD."""
    wheel = f"Wheel-Version: 1.0\nGenerator: musmyrtle_build\nRoot-Is-Purelib: true\nTag: {TAG}\n"
    texts = {"METADATA": metadata(), "WHEEL": wheel, "entry_points.txt": entry_points()}
    files = {name: text.encode() for name, text in texts.items()} | licences()
    return {f"{front()}.dist-info/{name}": data for name, data in files.items()}


def record(files: dict[str, bytes]) -> bytes:
    """Returns the file RECORD, with a digest of each file."""
    lines = []
    for name, data in files.items():
        digest = base64.urlsafe_b64encode(hashlib.sha256(data).digest()).rstrip(b"=").decode()
        lines.append(f"{name},sha256={digest},{len(data)}\n")
    return "".join([*lines, f"{front()}.dist-info/RECORD,,\n"]).encode()


def written(folder: str, content: dict[str, bytes]) -> str:
    """Writes a wheel with these files, and returns its name."""
    files = content | information()
    name = f"{front()}-{TAG}.whl"
    with zipfile.ZipFile(Path(folder) / name, "w", zipfile.ZIP_DEFLATED) as wheel:
        for path, data in (files | {f"{front()}.dist-info/RECORD": record(files)}).items():
            entry = zipfile.ZipInfo(path, FIRST_TIME)
            entry.external_attr, entry.compress_type = PLAIN_FILE, zipfile.ZIP_DEFLATED
            wheel.writestr(entry, data)
    return name


def build_wheel(wheel_directory: str, config_settings: object = None, metadata_directory: object = None) -> str:
    """Writes the wheel of the package, and returns its name."""
    return written(wheel_directory, package_files())


def build_editable(wheel_directory: str, config_settings: object = None, metadata_directory: object = None) -> str:
    """Writes a wheel that leads to the package in this folder, and returns its name."""
    return written(wheel_directory, {"musmyrtle.pth": f"{HERE}\n".encode()})


def build_sdist(sdist_directory: str, config_settings: object = None) -> str:
    """Writes the archive of the sources, and returns its name."""
    backend = {f"backend/{Path(__file__).name}": Path(__file__).read_bytes()}
    files = {"PKG-INFO": metadata().encode(), "pyproject.toml": (HERE / "pyproject.toml").read_bytes(),
             **package_files(), **backend, **licences()}
    name = f"{front()}.tar.gz"
    with tarfile.open(Path(sdist_directory) / name, "w:gz", format=tarfile.PAX_FORMAT) as archive:
        for path, data in files.items():
            entry = tarfile.TarInfo(f"{front()}/{path}")
            entry.size = len(data)
            archive.addfile(entry, io.BytesIO(data))
    return name
