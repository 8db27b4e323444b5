#!/usr/bin/env python3
"""A brake by wire, tried on a proved bus: a pedal, a brake and the car that they slow down.

    examples/host-programs/brakes.py                   the car stops
    examples/host-programs/brakes.py --babble          a radio babbles over the pedal: the guardians stop it, and the
                                                       car stops
    examples/host-programs/brakes.py --babble --guard none    without guardians nothing of the pedal arrives
"""
import argparse
import sys
import tempfile
from collections.abc import Iterator
from dataclasses import dataclass
from pathlib import Path

HERE = Path(__file__).resolve().parent
sys.path.insert(0, str(HERE.parents[1] / "python"))

from musmyrtle import Babble, Channel, Frame, Node, Window, World  # noqa: E402

CYCLE_SECONDS = 0.005
FULL_DECELERATION = 8.0
"""In metres per second squared, with the pedal down."""
CYCLES = 600
PEDAL_SLOT = 1
CHANNELS: tuple[Channel, Channel] = ("A", "B")


def number_of(frame: Frame, name: str) -> float:
    """Returns a signal of a frame that is a number."""
    value = frame[name]
    if not isinstance(value, int | float):
        raise TypeError(f"{name} is {value!r}, and no number")
    return value


@dataclass
class Car:
    """The car that the brake slows down, and the speed of its wheels."""

    speed: float = 20.0
    """In metres per second."""

    def brake(self, force: float) -> None:
        """Brakes for one cycle with this share of the full force, 0 to 1."""
        self.speed = max(0.0, self.speed - force * FULL_DECELERATION * CYCLE_SECONDS)


def pedal(node: Node, position: float) -> Iterator[None]:
    """Runs the pedal's host program, which sends its position in percent in each cycle."""
    while True:
        node["position"].commit(position=position)
        yield


def brake(node: Node, car: Car) -> Iterator[None]:
    """Runs the brake's host program, which brakes by the pedal's last position and sends the speed."""
    while True:
        frame = node["position"].read()
        car.brake(number_of(frame, "position") / 100 if frame else 0.0)
        node["speed"].commit(speed=car.speed)
        yield


def drive(world: World) -> Iterator[None]:
    """Runs both host programs, for `musmyrtle faults --host brakes:drive`."""
    hosts = pedal(world["pedal"], 100), brake(world["brake"], Car())
    while True:
        for host in hosts:
            next(host)
        yield


def is_the_pedals(window: Window) -> bool:
    return window.is_static and window.a == PEDAL_SLOT


def stopped(cluster: Path, babble: bool, cycles: int = CYCLES) -> Car:
    """Returns the car after so many cycles with the pedal down."""
    car = Car()
    with World(cluster, cycles) as world:
        hosts = pedal(world["pedal"], 100), brake(world["brake"], car)
        radio = world["radio"].number
        noise = [Babble(radio, channel, b"\xff") for channel in CHANNELS] if babble else []
        if noise:
            with world.fault(noise[0], is_the_pedals), world.fault(noise[1], is_the_pedals):
                world.play(*hosts, cycles=cycles)
        else:
            world.play(*hosts, cycles=cycles)
    return car


def with_guard(guard: str, folder: Path) -> Path:
    """Returns the cluster with another guard."""
    file = folder / "brakes.toml"
    file.write_text((HERE / "brakes.toml").read_text().replace('guard = "AB"', f'guard = "{guard}"'))
    return file


def main() -> int:
    parser = argparse.ArgumentParser(description=__doc__, formatter_class=argparse.RawDescriptionHelpFormatter)
    parser.add_argument("--babble", action="store_true", help="a radio sends over the pedal in each cycle")
    parser.add_argument("--guard", choices=("AB", "A", "B", "none"), default="AB")
    given = parser.parse_args()
    with tempfile.TemporaryDirectory() as folder:
        car = stopped(with_guard(given.guard, Path(folder)), given.babble)
    print(f"after {CYCLES * CYCLE_SECONDS:.0f} s: {car.speed:.1f} m/s")
    return 0


if __name__ == "__main__":
    sys.exit(main())
