"""The version of the package and of the programs beside it, from the file VERSION."""
from pathlib import Path


def version() -> str:
    """Returns the version, as `1.0`. Raises `OSError` where the file can't be read."""
    return (Path(__file__).parent / "VERSION").read_text(encoding="ascii").strip()
