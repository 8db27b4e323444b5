"""A headless Firefox for the tests, asked by its Marionette protocol: lengths and JSON on a local connection."""
import json
import os
import shutil
import signal
import socket
import subprocess
import time
from collections.abc import Iterator
from contextlib import contextmanager
from pathlib import Path
from tempfile import TemporaryDirectory
from typing import Any

FIREFOX = next(filter(None, map(shutil.which, ("firefox-esr", "firefox"))), None)
SECONDS = 120
PREFERENCES = 'user_pref("marionette.port", 0);\n'
"""With port 0 Firefox chooses a port, and writes it to its profile."""


class Connection:
    """A connection to a Firefox, with commands and their answers."""

    def __init__(self, port: int) -> None:
        self.socket = socket.create_connection(("127.0.0.1", port), timeout=SECONDS)
        self.stream = self.socket.makefile("rb")
        self.number = 0
        self.message()

    def message(self) -> Any:
        """Returns the next message: its length, a colon, and JSON."""
        length = b""
        while not length.endswith(b":"):
            length += self.stream.read(1) or b"0:"
        return json.loads(self.stream.read(int(length[:-1])))

    def ask(self, command: str, **words: Any) -> Any:
        """Returns the answer to a command."""
        self.number += 1
        text = json.dumps([0, self.number, command, words]).encode()
        self.socket.sendall(b"%d:%s" % (len(text), text))
        _, _, error, answer = self.message()
        if error:
            raise AssertionError(f"Firefox: {error}")
        return answer

    def close(self) -> None:
        """Ends the connection."""
        self.stream.close()
        self.socket.close()


@contextmanager
def firefox() -> Iterator[Connection]:
    """Yields the connection to a Firefox with a session and a profile of its own."""
    # A process of Firefox that outlives the first one may still write to the profile.
    with TemporaryDirectory(ignore_cleanup_errors=True) as profile:
        Path(profile, "user.js").write_text(PREFERENCES, encoding="utf-8")
        words = [str(FIREFOX), "--headless", "--no-remote", "--marionette", "--profile", profile, "--width", "1280",
                 "--height", "1000"]
        with subprocess.Popen(words, stdin=subprocess.DEVNULL, stdout=subprocess.DEVNULL, stderr=subprocess.DEVNULL,
                              start_new_session=True) as process:
            yield from session_of(process, Path(profile, "MarionetteActivePort"))


def session_of(process: "subprocess.Popen[bytes]", port: Path) -> Iterator[Connection]:
    """Yields the connection to a Firefox with a session, and ends all its processes. It writes its port to a file."""
    try:
        connection = Connection(port_in(port))
        try:
            connection.ask("WebDriver:NewSession", capabilities={"alwaysMatch": {}})
            connection.ask("WebDriver:SetTimeouts", script=SECONDS * 1000)
            yield connection
        finally:
            connection.close()
    finally:
        os.killpg(process.pid, signal.SIGKILL)


def port_in(file: Path) -> int:
    """Returns the port in a file, once Firefox has written it."""
    end = time.monotonic() + SECONDS
    while not file.exists() or not file.read_text(encoding="ascii").strip():
        if time.monotonic() > end:
            raise AssertionError("Firefox names no port")
        time.sleep(0.05)
    return int(file.read_text(encoding="ascii"))
