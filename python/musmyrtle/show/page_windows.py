"""The columns of the windows and cycles of a run for its page."""
from musmyrtle.show.page_columns import Columns
from musmyrtle.show.windows import CHANNELS, Windows


def add_windows(windows: Windows, columns: Columns) -> None:
    """Adds the columns of the windows, which are the same for all nodes, and of the begins of cycles."""
    columns.rising("cycle_begin", windows.cycle_begins)
    columns.rising("window_cycle", windows.cycles)
    columns.rising("window_begin", windows.begins)
    columns.numbers("window_minislot", "u16", windows.minislots)
    for channel in CHANNELS:
        columns.numbers(f"window_slot_{channel}", "u16", windows.slots[channel])
        columns.numbers(f"window_length_{channel}", "u16", windows.lengths[channel])
