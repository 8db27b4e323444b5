"""The page in headless Chromium and Firefox: a walk shows there what it shows in node, with a document of the tests."""
import html
import json
import re
import shutil
import subprocess
import unittest
from pathlib import Path
from typing import Any

from tests.firefox import FIREFOX, firefox
from tests.pages import HERE, STEPS, Pages, needs_node
from tests.shows import NETWORK
from tests.test_page import Structure
from tests.test_page_signals import SCENE as SPEEDS
from tests.test_page_signals import SIGNALS

BROWSER = next(filter(None, map(shutil.which, ("chromium", "chromium-browser", "google-chrome"))), None)
COMPARED = ("subject", "nodes", "details", "results", "status", "errors", "faults", "missing", "missed", "inView",
            "view", "label", "plots")
SECONDS = 120
ENDING = """<script>
{walk}
(async () => {{
  while (!document.body.hasAttribute("data-ready")) {{
    await new Promise((resolve) => {{ setTimeout(resolve, 20); }});
  }}
  const made = document.createElement("pre");
  made.id = "walked";
  made.textContent = JSON.stringify(await walk({steps}));
  document.body.append(made);
}})().catch((error) => {{
  const made = document.createElement("pre");
  made.id = "failed";
  made.textContent = error.stack;
  document.body.append(made);
}});
</script>
"""
"""The end of the page, with the walk. The page's policy allows scripts in the file."""


BROKEN = "document.body.setAttribute('data-broken', 1)"
STRANGE = {
    "pedal": f"<img src=x onerror={BROKEN}>", "brake": r'\"]]>\u202e\u0001',
    "log": f"</script><script>{BROKEN}</script>",
    "force": "n" * 10000, "state": r"\u001b[2J\u007f\u009b\u2028\ufeff", "unused": f'\\"><svg onload={BROKEN}>',
}
"""Names as a cluster file has them, for those of the usual network. Markup in them would break the page."""
SPELLED = ("<img src=x onerror=document.body.setAttr.. (0)", r'"]]>\u202e\x01 (1)', r"\x1b[2J\x7f\x9b\u2028\ufeff",
           "n" * 40)
STRANGE_STEPS = ("click nodes <img", "click details cycle 0", "find node <img", "click results <img", "find buffer nnn",
                 "click results", 'click nodes "]]>', "find slot 3", "click results slot 3", "click faults line 9",
                 "click next-error", "press C", "press .")
SIGNAL_STEPS = ("plot 0 point 250", "plot 0 press ArrowRight", "plot 0 press Enter", "plot 1 show 3", "press 1",
                "plot 0 age 1", "plot 0 press +", "plot 0 hide")
"""A walk through the plots of the page of test_page_signals.py."""
WAITING = """
const done = arguments[arguments.length - 1];
const look = () => {
  if (document.getElementById("walked") || document.getElementById("failed")) {
    done(document.documentElement.outerHTML);
  } else {
    setTimeout(look, 50);
  }
};
look();
"""
"""A script that returns the document as text, once a walk is done."""


def dumped(address: str, folder: Path) -> str:
    """Returns the document of a page in Chromium, as text, after its scripts."""
    words = [str(BROWSER), "--headless", "--no-sandbox", "--disable-gpu", f"--user-data-dir={folder}/profile",
             "--window-size=1280,1000", "--virtual-time-budget=30000", "--dump-dom", address]
    return subprocess.run(words, capture_output=True, text=True, timeout=SECONDS, check=True).stdout


class Walks(Pages):
    """Walks through a page in a browser, and what they show."""

    def with_walk(self, page: str, steps: tuple[str, ...]) -> str:
        """Returns the address of a page that walks when it is opened."""
        walk = (HERE / "walk.js").read_text(encoding="utf-8")
        text = Path(page).read_text(encoding="utf-8")
        ending = ENDING.format(walk=walk, steps=json.dumps(steps))
        return Path(self.written("walked.html", text.replace("</body>", f"{ending}</body>"))).as_uri()

    def opened(self, page: str, steps: tuple[str, ...]) -> str:
        """Returns the document of a page after a walk, as text. Each browser has its own way."""
        raise NotImplementedError

    def held(self, page: str, steps: tuple[str, ...]) -> str:
        """Holds what a browser shows in a walk to what node shows, and returns the document after it."""
        document = self.opened(page, steps)
        self.compared(page, document, steps)
        return document

    def shown(self, document: str) -> list[dict[str, Any]]:
        """Returns what the document of a browser showed after each step."""
        found = re.search(r'<pre id="(walked|failed)">(.*?)</pre>', document, re.DOTALL)
        self.assertIsNotNone(found, document[-2000:])
        assert found is not None
        self.assertEqual(found[1], "walked", html.unescape(found[2]))
        shown: list[dict[str, Any]] = json.loads(html.unescape(found[2]))
        return shown

    def strange(self) -> str:
        """Returns a page with names that look like markup, are long, or aren't printable."""
        text = NETWORK
        for name, strange in STRANGE.items():
            text = text.replace(f'name = "{name}"', f'name = "{strange}"')
        return self.page(*self.run_of(text))

    def of_signals(self) -> str:
        """Returns a page with signals."""
        return self.page(str(SIGNALS), self.written("scene", SPEEDS), "--cycles", "5")

    def whole(self, document: str) -> None:
        """Checks that names became texts of the document, and neither elements nor attributes nor scripts."""
        elements = Structure(document)
        self.assertEqual([tag for tag, _ in elements.tags if tag in ("img", "svg", "b")], [])
        self.assertEqual([tag for tag, _ in elements.tags].count("script"), 3)
        self.assertEqual([its for tag, its in elements.tags if tag == "body" and "data-broken" in its], [])
        self.assertTrue(all(it.isprintable() for it in document.replace("\n", "")))
        shown = "".join(its for step in self.shown(document) for its in step.values() if isinstance(its, str))
        for name in SPELLED:
            self.assertIn(name, shown)

    def compared(self, page: str, document: str, steps: tuple[str, ...] = STEPS) -> None:
        """Compares the document of a browser after a walk with that in node."""
        for step, there, here in zip(("at first", *steps), self.shown(document), self.walked(page, *steps),
                                     strict=True):
            for part in COMPARED:
                with self.subTest(step, part=part):
                    self.assertEqual(there[part], here[part])


@unittest.skipUnless(BROWSER, "there is no Chromium, in which the page is opened")
@needs_node
class InChromium(Walks):
    def opened(self, page: str, steps: tuple[str, ...]) -> str:
        return dumped(self.with_walk(page, steps), self.folder)

    def test_a_walk(self) -> None:
        self.held(self.page(), STEPS)

    def test_strange_names(self) -> None:
        self.whole(self.held(self.strange(), STRANGE_STEPS))

    def test_signals(self) -> None:
        self.held(self.of_signals(), SIGNAL_STEPS)


@unittest.skipUnless(FIREFOX, "there is no Firefox, in which the page is opened")
@needs_node
class InFirefox(Walks):
    def opened(self, page: str, steps: tuple[str, ...]) -> str:
        with firefox() as browser:
            browser.ask("WebDriver:Navigate", url=self.with_walk(page, steps))
            return str(browser.ask("WebDriver:ExecuteAsyncScript", script=WAITING, args=[])["value"])

    def test_a_walk(self) -> None:
        self.held(self.page(), STEPS)

    def test_strange_names(self) -> None:
        self.whole(self.held(self.strange(), STRANGE_STEPS))

    def test_signals(self) -> None:
        self.held(self.of_signals(), SIGNAL_STEPS)


if __name__ == "__main__":
    unittest.main()
