"""Tests of the frames that the examples describe: no faults, and payloads of their scenarios that make sense.

The values of the car are worked out by hand: 0x02ee turns a minute are 750. Of the pedal's 255 steps 0xff are 100 %.
The temperature 0x00fa is 25 degrees in tenths. The letter D, 0x44, is the lever's position for driving.
"""
import unittest
from pathlib import Path

from musmyrtle.names import Names
from musmyrtle.scenario import Reading, Scenario
from musmyrtle.signals.annotating import annotated, buffer_of, with_payloads
from musmyrtle.signals.frames import Frames, frames_of
from musmyrtle.signals.texts import bytes_of
from tests.shows import EXAMPLES

CAR = EXAMPLES / "vehicle"
DESCRIBED = ("vehicle/cluster.toml", "signals/cluster.toml", "host-programs/brakes.toml", "host-programs/cruise.toml")
"""The cluster files of the examples that describe frames."""
ROOM = 48_000
"""The bytes that the car may have: `fuzz/hostile_inputs` makes the largest cluster file of it and a million others."""
VALUES = {
    ("engine", "speed", 2): {"engine_speed": 750, "engine_torque": 0, "accelerator": 0},
    ("engine", "service", 1): {"trouble_code": 0x0e01},
    ("transmission", "gear", 1): {"lever": "park", "gear": "none", "shifting": "no"},
    ("transmission", "gear", 5): {"lever": "drive", "gear": 3, "shifting": "no"},
    ("brakes", "pedal", 0): {"brake_pedal": 0, "parking_brake": "released"},
    ("brakes", "pedal", 5): {"brake_pedal": 100, "parking_brake": "released"},
    ("gateway", "ignition", 0): {"ignition": "on", "alarm": "off"},
    ("front-left", "pads", 0): {"pad_temperature": 25, "pad_wear": 0},
    ("front-right", "pads", 0): {"pad_temperature": 27, "pad_wear": 0},
    ("rear-steering", "angle", 0): {"rear_angle": 1.7},
    ("assistance", "message", 2): {"message": "keep your distance"},
}
"""Signals of the car's scenario, by node, buffer and cycle of the commit."""


def frames_in(file: Path) -> Frames:
    """Returns the frames of a cluster file. Raises `BadSignals` if one has a fault."""
    return frames_of(str(file), file.read_bytes())


def scene(name: str) -> Scenario:
    """Returns a scenario of the car, which is right."""
    found = Reading(name, (CAR / name).read_bytes(), None, Names.read(CAR / "cluster.toml")).scenario
    assert not found.refusals
    return found


class TestExamples(unittest.TestCase):
    def test_no_frame_has_a_fault(self) -> None:
        for name in DESCRIBED:
            with self.subTest(name):
                frames = frames_in(EXAMPLES / name)
                self.assertEqual(sorted({it.name for it in frames.claims.values()}),
                                 sorted(frames.definitions.layouts))

    def test_all_commits_of_the_car_have_signals_within_their_limits(self) -> None:
        """A payload of its values is the same one, so that no byte of a commit is without a signal."""
        frames = frames_in(CAR / "cluster.toml")
        for name in ("scenario", "scenario-3"):
            lines = list(with_payloads(scene(name)))
            self.assertEqual(len(lines), 14)
            for line in lines:
                with self.subTest(name, line=line.number):
                    layout, payload = frames.layout_of(buffer_of(frames, line)), bytes_of(line.words[-1])
                    assert payload is not None
                    reads = list(layout.reads(payload))
                    self.assertEqual([it.signal.name for it in reads if not it.is_in_range or it.value is None], [])
                    self.assertEqual(layout.encoded({it.signal.name: it.value for it in reads}, None, len(payload)),
                                     payload)

    def test_values_of_the_car(self) -> None:
        frames, names = frames_in(CAR / "cluster.toml"), Names.read(CAR / "cluster.toml")
        found = {}
        for line in with_payloads(scene("scenario")):
            layout, payload = frames.layout_of(buffer_of(frames, line)), bytes_of(line.words[-1])
            node = next(name for name, it in names.nodes.items() if it == line.value("NODE"))
            buffer = next(name for name, it in names.buffers[line.value("NODE")].items() if it == line.value("BUFFER"))
            found[node, buffer, line.value("CYCLE")] = {it.signal.name: it.value for it in layout.reads(payload or b"")}
        for key, values in VALUES.items():
            with self.subTest(key):
                self.assertEqual(found[key], values)

    def test_the_comments_of_the_car_are_those_of_its_signals(self) -> None:
        text = (CAR / "scenario-3").read_text()
        found = annotated(scene("scenario-3"), frames_in(CAR / "cluster.toml"))
        self.assertEqual(("\n".join(found.lines), found.without), (text, []))

    def test_the_car_is_short_enough(self) -> None:
        self.assertLess((CAR / "cluster.toml").stat().st_size, ROOM)


if __name__ == "__main__":
    unittest.main()
