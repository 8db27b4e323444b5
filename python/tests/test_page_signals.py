"""The signals of a page: lines of senders and receivers over time, worked out by hand, and against what programs print.

The network of `examples/signals` has cycles of 100 macroticks of 5 us, and the engine's slot 1 begins with each cycle.
"""
import json
import re
from pathlib import Path
from typing import Any
from unittest.mock import patch

from musmyrtle import World
from musmyrtle.cluster import Buffer
from musmyrtle.show.page import file
from musmyrtle.show.page_columns import header_in
from musmyrtle.signals.frames import Frames, frames_of
from musmyrtle.signals.refusals import UnknownSignal
from tests.pages import Pages, needs_node, unpacked, view
from tests.shows import EXAMPLES
from tests.test_page import Structure
from tests.test_streams import shell

SIGNALS = EXAMPLES / "signals/cluster.toml"
SCENE = """frscenario 3
commit engine 0 0 data x222ef13c00000000
commit engine 0 3 data x2328f03c00000000
lost engine 1-2
mute engine A 3 s1
end
"""
"""The speeds 87.5 and 90 km/h, in the gears drive and park. The engine is silent in cycles 1 and 2."""
CAR = [str(EXAMPLES / f"vehicle/{name}") for name in ("cluster.toml", "scenario")]


class SignalPages(Pages):
    def page_of(self, scene: str = SCENE, cluster: str | None = None, cycles: str = "5") -> str:
        """Returns the name of the page of a run."""
        words = cluster or str(SIGNALS), self.written("scene", scene), "--cycles", cycles
        return self.page(*words)

    def series(self, page: str) -> dict[str, dict[str, Any]]:
        """Returns the lines of each signal of a page, by the text of the signal and the label of the line."""
        return {it["text"]: {line["label"]: line for line in it["lines"]}
                for it in json.loads(self.ran("series.js", page))}


@needs_node
class Series(SignalPages):
    def test_lines_by_hand(self) -> None:
        found = self.series(self.page_of())
        speed = found["engine (0) data (0): speed [km/h]"]
        self.assertEqual(list(speed), ["committed", "brake (1) engine (1)", "dashboard (2) engine (0)"])
        self.assertEqual(speed["committed"]["steps"], [[0, "8750"], [300, "9000"]])
        for label in list(speed)[1:]:
            self.assertEqual(speed[label]["steps"], [[0, "8750"], [300, "9000"], [400, "9000"]])
            self.assertEqual(speed[label]["losses"], [100, 200])
        self.assertEqual(found["engine (0) data (0): gear"]["committed"]["steps"], [[0, "1"], [300, "0"]])
        self.assertEqual([len(it) for it in found.values()], [3] * 8)

    def test_multiplexed_signals_and_overwritten_commits(self) -> None:
        """The second commit of cycle 0 has the serial number, so that it has no force."""
        scene = SCENE.replace("lost", "commit brake 0 0 data x2c01000048440000\n"
                                      "commit brake 0 0 data x00100a0b0c0d0e0f\nlost")
        found = self.series(self.page_of(scene))
        force = found["brake (1) data (0): force [N]"]
        self.assertEqual(force["committed"]["steps"], [[0, "800"], [0, None]])
        self.assertEqual(force["engine (0) brake (1)"]["steps"][0], [30, None])
        serial = found["brake (1) data (0): serial"]["engine (0) brake (1)"]
        self.assertEqual(serial["steps"][0], [30, "x0a0b0c0d0e0f"])

    def test_against_the_programs(self) -> None:
        """Each receiver of the car has the payloads that `fr_view` prints, as Python reads them."""
        page = self.page(*CAR, "--cycles", "8")
        frames = frames_of(CAR[0], Path(CAR[0]).read_bytes())
        expected = stored_signals(frames, CAR[0], CAR[1], "8")
        found, lost = set(), 0
        for it in json.loads(self.ran("series.js", page)):
            for line in it["lines"][1:]:
                found |= {(it["node"], it["buffer"], it["signal"], line["label"], time, raw)
                          for time, raw in line["steps"] if raw is not None}
                lost += len(line["losses"])
        self.assertGreater(len(expected), 500)
        self.assertEqual({(node, buffer, signal, time, raw) for node, buffer, signal, _, time, raw in found},
                         {(node, buffer, signal, time, raw) for node, buffer, signal, _, time, raw in expected})
        self.assertEqual(len(found), len(expected))
        # Three receivers of three signals lose the gear in four cycles. In its slots all frames of the rear steering
        # collide on A, and arrive on B.
        self.assertEqual(lost, 3 * 3 * 4)

    def test_a_run_without_observations(self) -> None:
        """An endless run that is too long has the receivers of commits alone, which say the same here."""
        whole = self.series(self.page_of())
        with patch("musmyrtle.show.page_received.MOST_PLACES", 0):
            page = self.page(str(SIGNALS), self.written("scene", SCENE), "--cycles", "5", "--endless")
        self.assertEqual(self.series(page), whole)

    def test_a_session(self) -> None:
        with World(SIGNALS, cycles=4) as world:
            world["engine"]["data"].commit(speed=87.5)
            world.cycle()
            world.cycle()
            world.page(self.folder / "session.html")
        speed = self.series(str(self.folder / "session.html"))["engine (0) data (0): speed [km/h]"]
        self.assertEqual(speed["dashboard (2) engine (0)"]["steps"], [[0, "8750"], [100, "8750"]])

    def test_a_recording(self) -> None:
        """The frames of each channel, and the slots in which `fr_monitor` misses one. Node 0 is muted on A in cycle 3.
        """
        capture, scene = str(self.folder / "bus.pcap"), self.written("scene", SCENE)
        self.assertEqual(shell('./fr_view bus "$1" "$2" --cycles 5 > "$3"', str(SIGNALS), scene, capture)[0], 0)
        status, text, _ = self.asked("page", str(SIGNALS), "--recording", capture)
        self.assertEqual(status, 3)
        speed = self.series(self.written("page.html", text))["engine (0) data (0): speed [km/h]"]
        self.assertEqual(speed["channel A"]["steps"], [[0, "8750"], [400, "9000"]])
        self.assertEqual(speed["channel B"]["steps"], [[0, "8750"], [300, "9000"], [400, "9000"]])
        self.assertEqual(speed["channel A"]["losses"][:1], [100])

    def test_numbers_of_buffers(self) -> None:
        """Buffer 1 has the even cycles, and buffer 10 the odd ones."""
        text = SIGNALS.read_text()
        front, buffers = text[:text.rindex("buffer = [")], ['{kind = "receive", slot = 2, channels = "AB"}'] * 11
        for number, base in ((1, 0), (10, 1)):
            buffers[number] = f'{{kind = "receive", slot = 1, channels = "AB", base = {base}, repetition = 2}}'
        cluster = self.written("cluster.toml", f"{front}buffer = [{', '.join(buffers)}]\n")
        speed = self.series(self.page_of(cluster=cluster))["engine (0) data (0): speed [km/h]"]
        self.assertEqual([(speed[f"dashboard (2) buffer {it}"]["steps"], speed[f"dashboard (2) buffer {it}"]["losses"])
                          for it in (1, 10)], [([[0, "8750"], [400, "9000"]], [200]), ([[300, "9000"]], [100])])

    def test_receivers_with_a_fifo(self) -> None:
        """A FIFO is due where no buffer of its node is, and stores the frames of both channels."""
        text = SIGNALS.read_text().replace(
            'name = "dashboard"\n',
            'name = "dashboard"\nqueue = {capacity = 9, first = 1, last = 2, channels = "AB"}\n')
        text = text.replace('{name = "engine", kind = "receive", slot = 1, channels = "AB"},\n  {name = "brake"',
                            '{name = "brake"')
        found = self.series(self.page_of(cluster=self.written("cluster.toml", text)))
        speed = found["engine (0) data (0): speed [km/h]"]["dashboard (2) FIFO"]
        self.assertEqual(speed["steps"], [[0, "8750"], [0, "8750"], [300, "9000"], [400, "9000"], [400, "9000"]])
        self.assertEqual(speed["losses"], [100, 200])
        self.assertEqual(found["brake (1) data (0): pedal [%]"]["dashboard (2) FIFO"]["steps"], [])


@needs_node
class Plots(SignalPages):
    def test_logic(self) -> None:
        """Steps, scales, exact numbers and pictures; page/plotted.js has the tests."""
        self.ran("plotted.js", self.page_of())

    def test_what_is_shown(self) -> None:
        """The two signals with the most committed values are shown at first, in the order of the file."""
        first = self.walked(self.page_of())[0]["plots"]
        self.assertIn("engine (0) data (0): speed [km/h]Hidecommitted: 2 commitsbrake (1) engine (1): 3 frames, 2 lost"
                      "dashboard (2) engine (0): 3 frames, 2 lostengine (0) data (0): gearHide", first)

    def test_the_signal_with_the_most_values_comes_first(self) -> None:
        """Here the speed stays, and the gear changes."""
        first = self.walked(self.page_of(SCENE.replace("x2328", "x222e")))[0]["plots"]
        self.assertLess(first.index("gearHide"), first.index("speed [km/h]Hide"))

    def test_values_at_the_pointer(self) -> None:
        """Exact values, ages in microseconds, names, and the loss after the last frame."""
        _, early, late, named = self.walked(self.page_of(), "plot 0 point 60", "plot 0 point 250", "plot 1 point 310")
        self.assertIn("at 300 µscommitted: 87.5 km/hbrake (1) engine (1): 87.5 km/h, 300 µs old", early["plots"])
        self.assertIn("brake (1) engine (1): 87.5 km/h, 1,250 µs old, lost in cycle 2", late["plots"])
        self.assertIn("committed: park (0)brake (1) engine (1): park (0), 50 µs old", named["plots"])

    def test_keys(self) -> None:
        """Left and right go through the changes and losses, Enter opens the slot, and other keys are the axis's."""
        shown = self.walked(self.page_of(), "plot 0 press ArrowLeft", "plot 0 press ArrowRight",
                            "plot 0 press ArrowLeft", "plot 0 press 1", "plot 0 press ArrowRight",
                            "plot 0 press Enter", "plot 0 press ArrowRight", "plot 0 press ArrowRight")
        self.assertEqual(shown[1]["status"], "1,500 µs: committed 90 km/h; brake (1) engine (1) 90 km/h, 0 µs old; "
                                             "dashboard (2) engine (0) 90 km/h, 0 µs old")
        self.assertEqual(shown[2]["status"], "There is no later change.")
        self.assertTrue(shown[3]["status"].startswith("1,000 µs: committed 87.5 km/h; brake (1) engine (1) 87.5 km/h, "
                                                      "1,000 µs old, lost in cycle 2"), shown[3]["status"])
        self.assertEqual(shown[4]["view"][1], 100)
        self.assertTrue(shown[5]["status"].startswith("1,500 µs"))
        begin, span = shown[5]["view"]
        self.assertTrue(begin <= 300 <= begin + span, shown[5]["view"])
        self.assertIn("Slot 1 on", shown[6]["details"])
        self.assertIn("in cycle 3", shown[6]["details"])

    def test_choices(self) -> None:
        page = self.page_of()
        _, shown, same, hidden, aged = self.walked(page, "plot 0 show 3", "plot 0 show 3", "plot 0 hide",
                                                   "plot 0 age 1")
        self.assertIn("brake (1) data (0): pedal [%]Hide", shown["plots"])
        self.assertEqual(shown["plots"], same["plots"])
        self.assertNotIn("speed [km/h]Hide", hidden["plots"])
        self.assertEqual(aged["plots"], hidden["plots"])

    def test_frames_with_faults(self) -> None:
        cluster = self.written("cluster.toml", SIGNALS.read_text().replace("factor = 0.01", "factor = 0"))
        shown = self.walked(self.page_of(cluster=cluster))[0]["plots"]
        self.assertIn("Signals aren't shown, since the frames of the cluster file have 1 fault: `musmyrtle lint` names "
                      "them.", shown)

    def test_hostile_names(self) -> None:
        """Names of values and units are texts, whatever they hold."""
        text = SIGNALS.read_text().replace('"drive"', r'"</script><b>\u202e"').replace('"km/h"', r'"<i>\u0001"')
        page = self.page_of(cluster=self.written("cluster.toml", text))
        self.assertEqual(Structure(Path(page).read_text(encoding="utf-8")).open, [])
        shown = self.walked(page, "plot 1 point 60", "plot 0 point 60")
        self.assertIn(r"committed: </script><b>\u202e (1)", shown[1]["plots"])
        self.assertIn(r"committed: 87.5 <i>\x01", shown[2]["plots"])


class Header(SignalPages):
    def test_a_page_without_signals_has_none_of_this(self) -> None:
        """Neither scripts nor styles nor the header."""
        text = Path(self.page()).read_text(encoding="utf-8")
        self.assertNotIn("signals", unpacked(text)[0])
        for word in ("class Layout", "class Plots", "showSignals", 'id="signals"', ".plot"):
            self.assertNotIn(word, text)
        bare = re.sub(r"^frame = .*|, frame = \"\w+\"", "", SIGNALS.read_text(), flags=re.MULTILINE)
        page = self.page_of(cluster=self.written("cluster.toml", bare))
        self.assertNotIn("signals", unpacked(Path(page).read_text(encoding="utf-8"))[0])

    def test_numbers_are_exact(self) -> None:
        header = unpacked(Path(self.page_of()).read_text(encoding="utf-8"))[0]["signals"]
        speed, gear, temperature = header["frames"][0]["signals"]
        self.assertEqual((speed["factor"], speed["most"], speed["invalid"], speed["update"]),
                         (["1", "100"], ["32767", "50"], "65535", [20]))
        self.assertEqual(gear["values"][-1], ["3", "7", "reserved"])
        self.assertEqual((temperature["offset"], temperature["least"]), (["-40", "1"], ["-40", "1"]))
        self.assertEqual(header["senders"], [[0, 0, 0], [1, 0, 1]])
        self.assertEqual(header["frames"][1]["signals"][2]["when"], [["page", "0"]])

    def test_controls_have_names(self) -> None:
        text = Path(self.page_of()).read_text(encoding="utf-8")
        tags = Structure(text).tags
        labelled = [its["for"] for tag, its in tags if tag == "label"]
        self.assertEqual([its for tag, its in tags if tag in ("select", "input") and not its.get("aria-label")
                          and its.get("id") not in labelled], [])
        self.assertIn(file("plots.html"), text)

    def test_the_header_of_a_packed_text(self) -> None:
        self.assertEqual(header_in(b'\x08\0\0\0{"a": 1}rest'), {"a": 1})


def stored_signals(frames: Frames, cluster: str, scenario: str, cycles: str) -> set[tuple[Any, ...]]:
    """Returns each signal that a node stored, by the lines of `fr_view`: sender, signal, receiver, time, raw value."""
    payloads = {}
    for words in (line.split(" ") for line in view("record", cluster, scenario, cycles)[0]):
        if len(words) > 8 and words[8] == "alone" and words[9] != "-":
            payloads[words[0], words[4]] = bytes.fromhex(words[11][1:])[5:-3]
    windows = {words[0]: words for words in (it.split(" ") for it in view("windows", cluster, scenario, cycles)[0])}
    found: set[tuple[Any, ...]] = set()
    for window, cycle, node, *rest in (it.split(" ") for it in view("received", cluster, scenario, cycles)[0]):
        for place, channel in ((0, "A"), (1, "B")):
            receivers = rest[3 * place + 2]
            if receivers == "-":
                continue
            slot = int(windows[window][4 + 2 * place])
            sender = sender_of(frames, slot, channel, int(cycle))
            if sender is None or int(node) == sender.node:
                continue
            try:
                layout = frames.received(slot, channel, int(cycle))
            except UnknownSignal:
                continue
            for it in layout.reads(payloads[window, channel]):
                raw = f"x{it.raw.hex()}" if isinstance(it.raw, bytes) else str(it.raw).removesuffix(".0")
                found |= {(sender.node, sender.number, it.signal.name, (node, receiver), int(windows[window][3]), raw)
                          for receiver in receivers.split(",")}
    return found


def sender_of(frames: Frames, slot: int, channel: str, cycle: int) -> Buffer | None:
    """Returns the only transmit buffer for a place, or None."""
    found = [it for it in frames.senders.get(slot, ()) if channel in it.channels and it.cycles.admit(cycle)]
    return found[0] if len(found) == 1 else None
