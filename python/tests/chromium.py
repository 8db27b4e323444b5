"""A headless Chromium for the tests, asked by its protocol for developers: JSON on two pipes, each with a zero byte."""
import base64
import fcntl
import json
import os
import shutil
import signal
import subprocess
import time
from collections.abc import Iterator
from contextlib import contextmanager
from pathlib import Path
from tempfile import TemporaryDirectory
from typing import Any

CHROMIUM = next(filter(None, map(shutil.which, ("chromium", "chromium-browser", "google-chrome"))), None)
SECONDS = 120
WORDS = ("--headless", "--no-sandbox", "--disable-gpu", "--remote-debugging-pipe", "--window-size=1280,1000")


class Tab:
    """A tab of a Chromium, with commands and their answers."""

    def __init__(self, asking: int, answering: int) -> None:
        self.asking, self.answering = asking, answering
        self.number, self.session, self.rest = 0, "", b""
        target = self.ask("Target.createTarget", url="about:blank")["targetId"]
        self.session = self.ask("Target.attachToTarget", targetId=target, flatten=True)["sessionId"]
        self.ask("Page.enable")

    def ask(self, method: str, **words: Any) -> Any:
        """Returns the answer to a command."""
        self.number += 1
        asked: dict[str, Any] = {"id": self.number, "method": method, "params": words}
        if self.session:
            asked["sessionId"] = self.session
        os.write(self.asking, json.dumps(asked).encode() + b"\0")
        while (answer := self.message()).get("id") != self.number:
            pass
        if "error" in answer:
            raise AssertionError(f"Chromium: {method}: {answer['error']}")
        return answer["result"]

    def message(self) -> Any:
        """Returns the next message."""
        while b"\0" not in self.rest:
            chunk = os.read(self.answering, 1 << 16)
            if not chunk:
                raise AssertionError("Chromium has ended")
            self.rest += chunk
        text, _, self.rest = self.rest.partition(b"\0")
        return json.loads(text)

    def valued(self, script: str) -> Any:
        """Returns the value of an expression in the page, which may be a promise."""
        found = self.ask("Runtime.evaluate", expression=script, returnByValue=True, awaitPromise=True)
        if "exceptionDetails" in found:
            raise AssertionError(f"Chromium: {found['exceptionDetails']}")
        return found["result"].get("value")

    def open(self, page: str) -> float:
        """Opens the page of a run in a file, and returns the seconds until it is ready."""
        begin = time.monotonic()
        self.ask("Page.navigate", url=Path(page).as_uri())
        while not self.valued("document.body !== null && document.body.hasAttribute('data-ready')"):
            if time.monotonic() > begin + SECONDS:
                raise AssertionError("the page isn't ready")
            time.sleep(0.01)
        return time.monotonic() - begin

    def mouse(self, kind: str, x: float, y: float, **words: Any) -> None:
        """Does something with the mouse at a place of the window."""
        self.ask("Input.dispatchMouseEvent", type=kind, x=x, y=y, **words)

    def drag(self, start: tuple[float, float], end: tuple[float, float]) -> None:
        """Drags from one place to another, with a stop between them."""
        middle = (start[0] + end[0]) / 2, (start[1] + end[1]) / 2
        self.mouse("mousePressed", *start, button="left", buttons=1, clickCount=1)
        for place in (middle, end):
            self.mouse("mouseMoved", *place, button="left", buttons=1)
        self.mouse("mouseReleased", *end, button="left", clickCount=1)

    def click(self, x: float, y: float) -> None:
        """Clicks at a place."""
        self.mouse("mousePressed", x, y, button="left", buttons=1, clickCount=1)
        self.mouse("mouseReleased", x, y, button="left", clickCount=1)

    def press(self, key: str, text: str = "", code: int = 0) -> None:
        """Presses a key, with the text that it types and its code for Windows, which keys without a text need."""
        self.ask("Input.dispatchKeyEvent", type="keyDown" if text else "rawKeyDown", key=key, text=text,
                 windowsVirtualKeyCode=code)
        self.ask("Input.dispatchKeyEvent", type="keyUp", key=key, windowsVirtualKeyCode=code)

    def picture(self) -> bytes:
        """Returns a picture of the window."""
        return base64.b64decode(self.ask("Page.captureScreenshot", format="png")["data"])


@contextmanager
def chromium() -> Iterator[Tab]:
    """Yields a tab of a Chromium with a profile of its own. Its pipes are files 3 and 4 there."""
    its_input, asking = os.pipe()
    answering, its_output = os.pipe()

    def place() -> None:
        # Copies with higher numbers first, since one pipe may have the number at which the other one goes.
        copies = [fcntl.fcntl(it, fcntl.F_DUPFD, 10) for it in (its_input, its_output)]
        for number, copy in zip((3, 4), copies):
            os.dup2(copy, number)

    # A process of Chromium that outlives the first one may still write to the profile.
    with (TemporaryDirectory(ignore_cleanup_errors=True) as profile,
          subprocess.Popen([str(CHROMIUM), *WORDS, f"--user-data-dir={profile}"], stdin=subprocess.DEVNULL,
                           stdout=subprocess.DEVNULL, stderr=subprocess.DEVNULL, close_fds=False, preexec_fn=place,
                           start_new_session=True) as process):
        os.close(its_input)
        os.close(its_output)
        try:
            tab = Tab(asking, answering)
            yield tab
        finally:
            os.killpg(process.pid, signal.SIGKILL)
            os.close(asking)
            os.close(answering)
