"""The module of a host program, which the current folder has, and the other modules there.

The folder comes first for all names but those of Python's own modules and of this package. So no file there takes the
place of one that the package imports, now or in a later run.
"""
import contextlib
import importlib
import os
import sys
from collections.abc import Iterator, Sequence
from importlib.abc import MetaPathFinder
from importlib.machinery import ModuleSpec, PathFinder, all_suffixes
from types import ModuleType

from musmyrtle.visible import cut

OWN = frozenset(sys.stdlib_module_names) | {"musmyrtle"}
"""The names of the modules that the current folder can't have."""
STANDARD = os.path.dirname(os.path.realpath(os.__file__))
MOST_NAMED = 5


class Unloadable(Exception):
    """The module can't be imported. The message has the reason."""


class OwnModules(MetaPathFinder):
    """Finds Python's own modules and those of this package in all folders of the path but the current one."""

    def find_spec(self, fullname: str, path: Sequence[str] | None = None,
                  target: ModuleType | None = None) -> ModuleSpec | None:
        """Returns the module of such a name, or None for another name. Raises `ModuleNotFoundError`."""
        if path is not None or fullname not in OWN:
            return None
        found = PathFinder.find_spec(fullname, [it for it in sys.path if not is_current(it)], target)
        if found is None:
            # Otherwise the next finder would look in the current folder.
            raise ModuleNotFoundError(f"No module named {fullname!r}", name=fullname)
        return found


def is_current(folder: str) -> bool:
    """Returns whether an entry of the path is the current folder. The folder of Python's own modules isn't one."""
    real = os.path.realpath(folder or os.curdir)
    return real == os.path.realpath(os.curdir) and real != STANDARD


def loaded(name: str) -> ModuleType:
    """Imports a module, with the current folder first in the path. Its output is dropped. Raises `Unloadable`."""
    if os.getcwd() not in sys.path:
        sys.path.insert(0, os.getcwd())
    if not any(isinstance(it, OwnModules) for it in sys.meta_path):
        # Modules that are built in have a finder before that of the path.
        at = sys.meta_path.index(PathFinder) if PathFinder in sys.meta_path else len(sys.meta_path)
        sys.meta_path.insert(at, OwnModules())
    top = name.partition(".")[0]
    files = [it for it in strange_modules() if it.partition(".")[0] == top]
    if files:
        why = f"{top} is a module of Python or of musmyrtle, so {cut(files[0])} can't be imported: rename it"
        raise Unloadable(why)
    try:
        with dropped_output():
            return importlib.import_module(name)
    except SystemExit as error:
        raise Unloadable(f"it ends Python when it is imported: SystemExit: {error}") from None
    except Exception as error:
        raise Unloadable(f"{type(error).__name__}: {error}") from None


def strange_modules() -> list[str]:
    """Returns the modules of the current folder with names of Python's own ones or of this package, in their order."""
    found = []
    with contextlib.suppress(OSError), os.scandir() as entries:
        for it in entries:
            suffix = next((suffix for suffix in all_suffixes() if it.name.endswith(suffix)), "")
            is_package = it.is_dir() and os.path.isfile(os.path.join(it.path, "__init__.py"))
            if it.name.removesuffix(suffix) in OWN and (is_package or suffix and it.is_file()):
                found.append(it.name)
    return sorted(found) if is_current(os.curdir) else []


def strange_warnings() -> Iterator[str]:
    """Yields a line on the files of the current folder that aren't imported, and one on those that were imported before
    this command had a say, as with the folder in PYTHONPATH."""
    found = [it for it in strange_modules() if not is_package_of_this(it)]
    imported = [it for it in found if is_imported(it)]
    named = "named as modules of Python or of musmyrtle"
    for what, files in (("imported", imported), ("not imported", [it for it in found if it not in imported])):
        if files:
            more = f" and {len(files) - MOST_NAMED} more" if len(files) > MOST_NAMED else ""
            yield f"{what} from the current folder: {', '.join(map(cut, files[:MOST_NAMED]))}{more}, {named}"


def is_imported(name: str) -> bool:
    """Returns whether a file or a package of the current folder is the module that Python has of this name."""
    file = getattr(sys.modules.get(name.partition(".")[0]), "__file__", None)
    return isinstance(file, str) and os.path.realpath(file) in (
        os.path.realpath(name), os.path.realpath(os.path.join(name, "__init__.py")))


def is_package_of_this(name: str) -> bool:
    """Returns whether a file of the current folder is this package."""
    return os.path.realpath(name) == os.path.dirname(os.path.dirname(os.path.realpath(__file__)))


@contextlib.contextmanager
def dropped_output() -> Iterator[None]:
    """Drops standard output, also that of programs that are started, since the table has it."""
    with open(os.devnull, "w") as nothing, contextlib.redirect_stdout(nothing):
        try:
            kept = os.dup(1)
        except OSError:
            # Standard output is closed.
            yield
            return
        try:
            os.dup2(nothing.fileno(), 1)
            yield
        finally:
            os.dup2(kept, 1)
            os.close(kept)
