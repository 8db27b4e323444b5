"""The page in headless Chromium with a real mouse and keyboard, its roles and names, and its two other styles."""
import time
import unittest
from collections.abc import Callable
from typing import Any

from tests.chromium import CHROMIUM, SECONDS, Tab, chromium
from tests.pages import Pages
from tests.shows import EXAMPLES

TEN = (str(EXAMPLES / "ten-nodes/cluster.toml"), str(EXAMPLES / "ten-nodes/scenario"), "--cycles", "6")
BOX = "(({x, y, width, height}) => [x, y, width, height])(%s.getBoundingClientRect())"
BUTTON = ("[...document.getElementById(%r).querySelectorAll('button')].find((it) => it.textContent.startsWith(%r)"
          " && it.closest('tr, div').textContent.includes(%r))")
PICTURE = "document.getElementById('picture')"
ROLES = ("button", "combobox", "searchbox", "image", "img", "heading", "region", "group", "table", "search", "status")
"""Roles whose elements a screen reader has to name, but for tables and the status, which have captions and texts."""


@unittest.skipUnless(CHROMIUM, "there is no Chromium, in which the page is opened")
class Input(Pages):
    def setUp(self) -> None:
        super().setUp()
        its = chromium()
        self.tab: Tab = its.__enter__()
        self.addCleanup(its.__exit__, None, None, None)

    def view(self) -> list[float]:
        """Returns the macrotick at the left edge, and the macroticks in view."""
        found: list[float] = self.tab.valued("[explorer.view.from, explorer.view.span]")
        return found

    def place(self, element: str) -> list[float]:
        """Returns the box of an element, which is scrolled into the window."""
        self.tab.valued(f"{element}.scrollIntoView({{block: 'center', behavior: 'instant'}})")
        found: list[float] = self.tab.valued(BOX % element)
        return found

    def until(self, holds: Callable[[], bool], told: Callable[[], object]) -> None:
        """Waits until something holds, since a browser may pass events on with its next frame."""
        end = time.monotonic() + SECONDS
        while not holds():
            if time.monotonic() > end:
                self.fail(f"it is {told()}")
            time.sleep(0.02)

    def has_view(self, wanted: list[float]) -> None:
        """Waits until this is in view."""
        self.until(lambda: self.view() == wanted, self.view)

    def details(self) -> str:
        """Returns the details that are shown."""
        found: str = self.tab.valued("document.getElementById('details').textContent")
        return found

    def status(self) -> str:
        """Returns what the page announces."""
        found: str = self.tab.valued("document.getElementById('status').textContent")
        return found

    def shows(self, text: str) -> None:
        """Waits until the details have a text."""
        self.until(lambda: text in self.details(), self.details)

    def click(self, name: str, text: str, row: str = "") -> None:
        """Clicks a button within an element, in a row with a text."""
        x, y, width, height = self.place(BUTTON % (name, text, row))
        self.tab.click(x + width / 2, y + height / 2)

    def test_the_mouse(self) -> None:
        """A drag moves the view with the pointer, the wheel zooms at the pointer, and with Shift it moves."""
        self.tab.open(self.page(*TEN))
        x, y, width, height = self.place(PICTURE)
        scale: float = self.tab.valued("explorer.view.span / explorer.view.width")
        self.assertEqual(self.view(), [0, 30_000])
        at = (x + 400, y + height / 2)
        self.tab.mouse("mouseWheel", *at, deltaX=0, deltaY=-1000)
        self.until(lambda: self.view()[1] < 15_000, self.view)
        start, span = self.view()
        pointed = (400 - 130) * scale
        self.assertAlmostEqual(start + (400 - 130) * span / (30_000 / scale), pointed, delta=1)
        wanted = start - 100 * span / (30_000 / scale)
        self.tab.drag(at, (at[0] + 100, at[1]))
        self.until(lambda: abs(self.view()[0] - wanted) <= 1, self.view)
        moved, same = self.view()
        self.assertEqual(same, span)
        self.tab.mouse("mouseWheel", *at, deltaX=0, deltaY=200, modifiers=8)
        self.until(lambda: self.view()[0] > moved, self.view)
        self.assertEqual(self.view()[1], span)

    def test_a_click_on_a_frame(self) -> None:
        self.tab.open(self.page(*TEN))
        self.tab.valued("explorer.act('cycle')")
        x, y, width, _ = self.place(PICTURE)
        # Slot 19 has the macroticks 1080 to 1140 of 5000, and the lane of channel A is 56 to 120 pixels below the top.
        self.tab.click(x + 130 + (width - 130) * 1110 / 5000, y + 100)
        self.shows("Slot 19 on A in cycle")

    def test_the_keyboard(self) -> None:
        """Tab reaches each control and the picture, whose keys move, zoom and find errors."""
        self.tab.open(self.page(*TEN))
        reached = []
        for _ in range(60):
            self.tab.press("Tab", code=9)
            reached.append(self.tab.valued("document.activeElement.id || document.activeElement.textContent"))
            if reached[-1] == "picture":
                break
        for name in ("gateway (0)", "display (9)", "search-kind", "search-text", "next-error", "whole", "right"):
            self.assertIn(name, reached)
        self.assertEqual(reached[-1], "picture")
        self.tab.press("1", "1", 49)
        self.until(lambda: self.view()[1] == 5_000, self.view)
        self.tab.press("End", code=35)
        self.has_view([25_000, 5_000])
        self.tab.press("ArrowLeft", code=37)
        self.has_view([24_375, 5_000])
        self.tab.press("0", "0", 48)
        self.has_view([0, 30_000])
        self.tab.press("n", "n", 78)
        self.until(lambda: self.status() == "Slot 19 on A in cycle 3", self.status)

    def test_the_fate_of_a_commit_in_three_clicks(self) -> None:
        """The pedal's commit of cycle 3 arrived on B 1,080 us after its cycle began, and the engine read it."""
        self.tab.open(self.page(*TEN))
        self.click("nodes", "brakes (3)")
        self.shows("brakes (3)")
        self.click("details", "cycle 3", "pedal (0)")
        self.shows("cycle 316,080 µs1,080 µs19Abit flippednone")
        self.shows("cycle 316,080 µs1,080 µs19Barrivedgateway (0) pedal (9), engine (1) pedal (10)")
        self.shows("engine (1)0cycle 4readengine (1) pedal (10)20,000 µs5,000 µs")
        self.click("details", "engine (1)")
        self.shows("40readpedal (10)x01900")

    def test_names_for_a_screen_reader(self) -> None:
        """Each control, region and picture has a role and a name, and the status is announced."""
        self.tab.open(self.page(*TEN))
        self.click("nodes", "brakes (3)")
        self.shows("brakes (3)")
        nodes = self.tab.ask("Accessibility.getFullAXTree")["nodes"]
        found = [(its["role"]["value"], its.get("name", {}).get("value", "")) for its in nodes if not its["ignored"]]
        roles = {role for role, _ in found}
        self.assertLessEqual({"button", "combobox", "searchbox", "heading", "region", "group", "table", "search",
                              "status", "columnheader"}, roles)
        self.assertEqual([it for it in found if it[0] in ROLES and not it[1] and it[0] not in ("search", "status")], [])
        self.assertIn(("button", "brakes (3)"), found)
        names = [name for role, name in found if role in ("img", "image", "canvas")]
        self.assertRegex(" ".join(names), "Time axis from 0 µs to 30,000 µs. A table below lists what is in view.")

    def test_dark_and_print(self) -> None:
        self.tab.open(self.page(*TEN))
        ground = "getComputedStyle(document.body).backgroundColor"
        light = self.style("prefers-color-scheme", "light", ground)
        dark = self.style("prefers-color-scheme", "dark", ground)
        self.assertEqual((light, dark), ("rgb(255, 255, 255)", "rgb(24, 24, 24)"))
        self.tab.ask("Emulation.setEmulatedMedia", media="print", features=[])
        hidden = ("search", "keys", "status", "results")
        shown = [self.tab.valued(f"getComputedStyle(document.getElementById({it!r})).display") for it in hidden]
        self.assertEqual(shown, ["none"] * len(hidden))
        self.assertGreater(len(self.tab.ask("Page.printToPDF")["data"]), 10_000)

    def style(self, name: str, value: str, script: str) -> Any:
        """Returns the value of a script, with a preference of the reader."""
        self.tab.ask("Emulation.setEmulatedMedia", media="", features=[{"name": name, "value": value}])
        return self.tab.valued(script)


if __name__ == "__main__":
    unittest.main()
