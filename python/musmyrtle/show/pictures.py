"""The file of `signals --svg`: the lines of plots become a picture, and the commits of a run lines of it."""
from collections.abc import Mapping

from musmyrtle.faults.whole_files import Unusable, replace_file, spare_inputs, try_file
from musmyrtle.lint.command import USAGE
from musmyrtle.output import Stop, pass_on
from musmyrtle.show.engines import COMMAND, ENDLESS, Inputs
from musmyrtle.show.plot import MOST_LINES, Axis, picture
from musmyrtle.show.series import Series
from musmyrtle.signals.layout import Layout
from musmyrtle.signals.texts import bytes_of

MOST_PANELS = 100
"""The plots of a picture."""


def write_picture(file: str, title: str, series: Series, axis: Axis) -> None:
    """Writes the picture. Raises `Stop` where it can't be written, or has too much to show."""
    panels = list(series.panels.values())
    if len(panels) > MOST_PANELS:
        raise Stop(USAGE, f"--svg draws at most {MOST_PANELS} signals, and {len(panels)} are selected: name some, as "
                          "brake.speed")
    crowded = next((it for it in panels if len(it.merged()) > MOST_LINES), None)
    if crowded:
        raise Stop(USAGE, f"--svg draws at most {MOST_LINES} different lines of a signal, and {crowded.signal.name} "
                          f"has {len(crowded.merged())}: select receivers or faults")
    for frame, name in series.without_plot:
        pass_on(f"{COMMAND}: {name} of frame {frame} isn't drawn, since it is whole bytes and no number")
    try:
        replace_file(file, picture(title, panels, axis).encode())
    except OSError as error:
        raise Stop(USAGE, f"--svg {file}: {error.strerror}") from None


def add_commits(inputs: Inputs, layouts: Mapping[tuple[int, int], Layout], series: Series) -> None:
    """Adds the committed values of the signals that are drawn, each at the begin of the commit's cycle.

    LAYOUTS are those of transmit buffers, by node and number.
    """
    cycle = inputs.network.cluster.parameters.cycle_mt
    for line in inputs.lines_of_run("commits", ENDLESS):
        word, node, buffer, *rest = line.split(" ")
        layout = layouts.get((int(node), int(buffer))) if word == "commit" else None
        if layout:
            series.commit(int(node), int(buffer), layout, int(rest[1]) * cycle, bytes_of(rest[3]) or b"")


def spare(file: str | None, inputs: list[tuple[str, str | None]]) -> None:
    """Raises `Stop` where the picture would overwrite one of these inputs, or can't be written."""
    if file is None:
        return
    try:
        spare_inputs({"--svg": file}, [(what, name) for what, name in inputs if name is not None])
        try_file(file)
    except Unusable as error:
        raise Stop(USAGE, str(error)) from None
    except OSError as error:
        raise Stop(USAGE, f"--svg {file}: {error.strerror}") from None
