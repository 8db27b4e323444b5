"""The job log: a line for each fault that is done, by which an interrupted campaign goes on."""
import hashlib
import json
import os
from collections.abc import Iterable
from dataclasses import asdict, fields
from io import FileIO
from pathlib import Path
from typing import Any

from musmyrtle.faults.answers import UNANSWERED
from musmyrtle.faults.costs import EFFECTS, NOT_COMPARABLE, Difference
from musmyrtle.faults.listing import SingleFault
from musmyrtle.faults.whole_files import Unusable, unusable

LOG_VERSION = 3
UNNOTED = (*UNANSWERED, NOT_COMPARABLE)
"""The effects of a run that is repeated."""


class Log:
    """A job log, or none without a name.

    Its first line has the digest of its inputs. Each line is appended at once, so that a failure cuts no line but the
    last one.
    """

    def __init__(self, file: str | None, inputs: Iterable[bytes], is_resumed: bool) -> None:
        """Opens the log.

        An existing log goes on with IS_RESUMED, and then has to be of the same inputs. Raises `Unusable` otherwise.
        """
        self.name = file
        self.file: FileIO | None = None
        digest = hashlib.sha256()
        for data in inputs:
            digest.update(len(data).to_bytes(8, "big") + data)
        self.head = {"musmyrtle faults": LOG_VERSION, "of": digest.hexdigest()}
        self.done: dict[str, list[Difference]] = {}
        if file is None:
            return
        is_there = is_begun(file)
        if is_there and not is_resumed:
            raise already(file)
        try:
            data = Path(file).read_bytes() if is_there else b""
            kept = self.read(data)
            self.file = open(file, "ab", buffering=0)
            if kept < len(data):
                self.file.truncate(kept)
        except OSError as error:
            raise unusable(f"--joblog {file}", error) from None
        if not kept:
            self.write(self.head)

    def read(self, data: bytes) -> int:
        """Reads the results of a log and returns the bytes of its whole lines: the last line may be cut."""
        whole = data[:data.rfind(b"\n") + 1]
        if not whole:
            if not spelled(self.head).startswith(data):
                raise self.bad("line 1 isn't the first line of a job log")
            return 0
        for number, line in enumerate(whole.split(b"\n")[:-1], 1):
            try:
                entry = json.loads(line.decode())
            except (ValueError, RecursionError):
                raise self.bad(f"line {number} is no entry of a job log") from None
            if number == 1:
                self.check_head(entry)
            else:
                self.take(entry, number)
        return len(whole)

    def check_head(self, entry: Any) -> None:
        if not isinstance(entry, dict) or "musmyrtle faults" not in entry:
            raise self.bad("line 1 isn't the first line of a job log")
        if entry["musmyrtle faults"] != LOG_VERSION:
            raise self.bad("is of another version of musmyrtle")
        if entry != self.head:
            raise self.bad("is of another program, cluster, scenario or number of cycles")

    def take(self, entry: Any, number: int) -> None:
        if not isinstance(entry, dict) or not isinstance(entry.get("fault"), str) \
                or not isinstance(entry.get("differences"), list) or not all(map(is_noted, entry["differences"])):
            raise self.bad(f"line {number} is no entry of a job log")
        self.done[entry["fault"]] = [Difference(**it) for it in entry["differences"]]

    def bad(self, why: str) -> Unusable:
        return Unusable(f"--joblog {self.name}: {why}")

    def write(self, entry: dict[str, Any]) -> None:
        data = spelled(entry)
        try:
            while self.file and data:
                data = data[self.file.write(data):]
        except OSError as error:
            self.close()
            raise unusable(f"--joblog {self.name}", error) from None

    def add(self, fault: SingleFault, found: list[Difference]) -> None:
        """Notes a fault.

        A run that has no answer or isn't comparable isn't noted, so that it is repeated.
        """
        self.done[str(fault)] = found
        if not any(it.effect in UNNOTED for it in found):
            self.write({"fault": str(fault), "differences": [asdict(it) for it in found]})

    def close(self) -> None:
        if self.file:
            self.file.close()


def is_begun(file: str) -> bool:
    """Returns whether a log exists. A device or a pipe is none."""
    return os.path.isfile(file) and os.path.getsize(file) > 0


def already(file: str) -> Unusable:
    return Unusable(f"--joblog {file}: the log is there already: go on from it by --resume, or name another file")


def spelled(entry: dict[str, Any]) -> bytes:
    return f"{json.dumps(entry)}\n".encode()


def is_noted(it: Any) -> bool:
    """Returns whether a value of a log has the fields of a difference, with their types."""
    kinds = {field.name: field.type for field in fields(Difference)}
    return isinstance(it, dict) and it.keys() == kinds.keys() \
        and all(isinstance(it[name], kind) and not isinstance(it[name], bool) for name, kind in kinds.items()) \
        and it["effect"] in EFFECTS
