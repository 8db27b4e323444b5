"""Builds a small program on crates of the repository, for the benches that measure with one."""
import shutil
import subprocess
import sys
import tempfile
from pathlib import Path

TOP = Path(__file__).resolve().parent.parent.parent


def build(name, source, libraries, program):
    """Proves and builds the program as a crate of this name in a copy of the repository, and puts it into `program`.

    `libraries` are the crates, and the kit's libraries, that the source names. All crates below are proved with it,
    unless `rt check` kept their proofs on this machine: `rt run` uses no proofs that `rt ci` kept. Without kept proofs
    that takes long, and a message is printed.
    """
    print(f"proves and builds {name} and all crates below it, which takes long without kept proofs",
          file=sys.stderr, flush=True)
    with tempfile.TemporaryDirectory() as folder:
        copy = Path(folder)
        shutil.copytree(TOP / "crates", copy / "crates", ignore=shutil.ignore_patterns("out", "must-fail"))
        shutil.copy2(TOP / "HANDLES", copy)
        listed = (TOP / "crates.txt").read_text()
        (copy / "crates.txt").write_text(f"{listed.rstrip()}\n{name}: {' '.join(libraries)}\n")
        crate = copy / "crates" / name
        (crate / "src").mkdir(parents=True)
        (crate / "src" / "main.rt").write_text(source.lstrip())
        made = subprocess.run(["rt", "run"], cwd=crate, stdout=subprocess.DEVNULL, stderr=subprocess.PIPE, text=True)
        if not (crate / "out" / name).exists():
            sys.exit(made.stderr[-4000:])
        shutil.copy2(crate / "out" / name, program)
