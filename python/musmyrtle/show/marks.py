"""The marks that transmissions and observations have on a page, by the words of the programs.

The scripts of the page look these words up, and have no rule of their own.
"""
from collections.abc import Mapping

from musmyrtle.show.received import ERRORS

Marks = Mapping[str, tuple[str, ...]]
ERROR, COLLISION, BLOCKED, BABBLE, SILENT, DATA = "error", "collision", "blocked", "babble", "silent", "data"
OTHER = "other"
"""The key for all ends that a table doesn't have."""
OF_ENDS: Mapping[str, Marks] = {
    "offer": {"alone": (), "turned": (ERROR,), "overrun": (ERROR,), "collided": (ERROR, COLLISION), "muted": (ERROR,),
              "blocked": (BLOCKED,)},
    "babble": {"alone": (BABBLE, ERROR), "turned": (BABBLE, ERROR), "overrun": (BABBLE, ERROR),
               "collided": (BABBLE, ERROR, COLLISION), "blocked": (BABBLE, BLOCKED)},
    "corrupt": {OTHER: ()},
}
"""The marks of the lines of `fr_view record`, by their kind and their end."""
OF_RECORDS: Mapping[str, Marks] = {
    "offer": {"alone": (), OTHER: (ERROR,)}, "missing": {OTHER: (ERROR,)}, "broken": {OTHER: (ERROR,)},
}
"""The marks of the records of a recording. Their ends are findings."""
OF_SEEN: Marks = {
    "": (SILENT,), "silence": (SILENT,), "own": (DATA,), "frame": (DATA,), "conflict": (ERROR, COLLISION),
}
"""The marks of the observations of `fr_view received`. Others have only those of what was counted."""
OF_COUNTED: Marks = {it: (ERROR,) for it in ERRORS}
"""The marks of the bits of the slot status that were counted for an observation."""
