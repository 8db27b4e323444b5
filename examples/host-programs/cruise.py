#!/usr/bin/env python3
"""Ten seconds of adaptive cruise control on a proved bus: the car ahead brakes, and the engine keeps its distance.

    examples/host-programs/cruise.py            both channels arrive, and the engine compares them
    examples/host-programs/cruise.py --babble   a logger babbles over the radar: the guardians keep channel B, and the
                                                engine drives by that
"""
import argparse
import sys
from collections.abc import Iterator
from contextlib import nullcontext
from dataclasses import dataclass, field
from pathlib import Path

HERE = Path(__file__).resolve().parent
sys.path.insert(0, str(HERE.parents[1] / "python"))

from musmyrtle import Babble, Frame, Node, Window, World, at_slot, every, on_frame  # noqa: E402

Host = Iterator[object]

CYCLE_SECONDS = 0.005
CYCLES = 2_000


@dataclass
class Road:
    """Two cars: their distance in metres, and their speeds in metres per second."""

    distance: float = 60.0
    speed: float = 27.0
    ahead: float = 22.0
    acceleration: float = 0.0
    """Set by the engine, in metres per second squared."""
    closest: float = 60.0
    heard: dict[str, int] = field(default_factory=lambda: {"A": 0, "B": 0})
    """The measurements that the engine received on each channel."""

    def drive(self, braking_ahead: float) -> None:
        """Drives both cars for a cycle."""
        self.speed = max(0.0, self.speed + self.acceleration * CYCLE_SECONDS)
        self.ahead = max(0.0, self.ahead - braking_ahead * CYCLE_SECONDS)
        self.distance += (self.ahead - self.speed) * CYCLE_SECONDS
        self.closest = min(self.closest, self.distance)


def number_of(frame: Frame, name: str) -> float:
    """Returns a signal of a frame that is a number."""
    value = frame[name]
    if not isinstance(value, int | float):
        raise TypeError(f"{name} is {value!r}, and no number")
    return value


def radar(node: Node, road: Road) -> Host:
    """Sends each measurement on both channels. The car ahead brakes from second 4 to second 7."""
    for cycle in range(CYCLES):
        for name in ("distance_a", "distance_b"):
            node[name].commit(distance=road.distance, closing_speed=road.speed - road.ahead)
        road.drive(3.0 if 800 <= cycle < 1_400 else 0.0)
        yield every(1)


def voted(frames: list[Frame]) -> tuple[float, float] | None:
    """Returns the distance and the closing speed of the frame with the least distance, or None without a frame."""
    return min(((number_of(it, "distance"), number_of(it, "closing_speed")) for it in frames), default=None)


def engine(node: Node, road: Road) -> Host:
    """Accelerates by the frames of this cycle alone, once slot 1 is over."""
    while True:
        yield at_slot(2)
        window = node.world.now()
        frames = [frame for name in ("distance_a", "distance_b") if (frame := node[name].read())
                  and window and frame.cycle == window.cycle]
        for frame in frames:
            road.heard[frame.channel or "-"] += 1
        seen = voted(frames)
        if seen is None:
            road.acceleration = -1.0
        else:
            distance, closing = seen
            wanted = 5.0 + 1.5 * road.speed
            road.acceleration = max(-4.0, min(1.5, 0.15 * (distance - wanted) - 0.9 * closing))
        node["speed"].commit(speed=road.speed)


def logger(node: Node, speeds: list[float]) -> Host:
    """Notes each speed that arrives."""
    while True:
        yield on_frame(node.number, 0)
        frame = node["speed"].read()
        if frame:
            speeds.append(number_of(frame, "speed"))


def display(road: Road) -> Host:
    """Prints a line each second."""
    for second in range(CYCLES // 200):
        print(f"{second:2} s  {road.speed:5.1f} m/s  {road.distance:5.1f} m ahead")
        yield every(200)


def is_the_radars(window: Window) -> bool:
    return window.is_static and window.a == 1


def driven(babble: bool, cycles: int = CYCLES, show: bool = False) -> tuple[Road, list[float]]:
    """Returns the road after so many cycles, and the speeds that the logger noted."""
    road, speeds = Road(), list[float]()
    with World(HERE / "cruise.toml") as world:
        hosts: list[Host] = [radar(world["radar"], road), engine(world["engine"], road),
                             logger(world["logger"], speeds)]
        if show:
            hosts.append(display(road))
        noise = bytes(20)
        with (world.fault(Babble(2, "A", noise), is_the_radars) if babble else nullcontext(),
              world.fault(Babble(2, "B", noise), is_the_radars) if babble else nullcontext()):
            world.play(*hosts, cycles=cycles)
    return road, speeds


def main() -> int:
    parser = argparse.ArgumentParser(description="Ten seconds of adaptive cruise control.")
    parser.add_argument("--babble", action="store_true", help="let the logger babble over the radar on both channels")
    road, speeds = driven(parser.parse_args().babble, show=True)
    print(f"closest {road.closest:.1f} m; distances heard on A {road.heard['A']}, on B {road.heard['B']}; "
          f"{len(speeds)} speeds logged")
    return 0


if __name__ == "__main__":
    sys.exit(main())
