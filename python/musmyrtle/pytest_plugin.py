"""A plugin of pytest: the fixture `world`, and its requests beside a test that fails.

    @pytest.mark.world("cluster.toml", cycles=8)
    def test_arrives(world):
        world.node(0).commit(0, b"\\0\\7")
        world.cycle()
        assert world.node(1).read(1)

pytest loads this module by its entry point. Nothing else imports it, so the package works without pytest.
"""
from collections.abc import Generator, Iterator
from pathlib import Path
from typing import Any

import pytest

from musmyrtle.world.refusals import Refused, SessionOver
from musmyrtle.world.world import World

MARKER = "world(cluster, cycles, *, program=None, timeout=None): the world that the fixture `world` opens"
SECTION = "requests to the world, for fr_world"
OPENED = pytest.StashKey[World]()
PACKAGE = Path(__file__).resolve().parent


def pytest_configure(config: Any) -> None:
    """Makes the marker known."""
    config.addinivalue_line("markers", MARKER)


@pytest.fixture
def world(request: pytest.FixtureRequest) -> Iterator[World]:
    """Opens the world that the marker `world` of the test, its class or its module names, and closes it at the end.

    The words of the marker are those of `World`. If no world can be opened, the test gets the reason without the code
    of this package.
    """
    marker = request.node.get_closest_marker("world")
    if marker is None:
        pytest.fail('the fixture `world` wants @pytest.mark.world("cluster.toml", cycles=8)', pytrace=False)
    with world_of(marker) as opened:
        request.node.stash[OPENED] = opened
        yield opened


def world_of(marker: Any) -> World:
    """Returns the world of a marker. The test fails with the reason alone if there is none."""
    try:
        return World(*marker.args, **marker.kwargs)
    except (SessionOver, ValueError) as error:
        why = str(error)
    # `mypy` knows that `pytest.fail` returns nothing only where pytest is installed.
    raise pytest.fail.Exception(f"the fixture `world` can't open its world: {why}", pytrace=False)


def shorten(error: BaseException) -> None:
    """Takes the frames of this package out of the traceback of an exception, so that it ends in the test."""
    frames, here = [], error.__traceback__
    while here:
        if PACKAGE not in Path(here.tb_frame.f_code.co_filename).parents:
            frames.append(here)
        here = here.tb_next
    # pytest goes along these links again, so a list of them wouldn't do.
    for frame, after in zip(frames, [*frames[1:], None]):
        frame.tb_next = after


@pytest.hookimpl(hookwrapper=True)
def pytest_runtest_makereport(item: Any, call: Any) -> Generator[None, Any, None]:
    """Adds the transcript of the world to the report of a test that fails.

    If a request was refused, the report shows the line of the test, unless pytest has `--full-trace`.
    """
    is_refused = call.excinfo is not None and isinstance(call.excinfo.value, (Refused, SessionOver))
    if is_refused and not item.config.getoption("fulltrace", False):
        shorten(call.excinfo.value)
    outcome: Any = yield
    report = outcome.get_result()
    opened = item.stash.get(OPENED, None)
    if opened is not None and report.failed and report.when == "call":
        report.sections.append((SECTION, opened.transcript()))
