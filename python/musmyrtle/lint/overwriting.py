"""Warnings of receive FIFOs that a run overwrites, and that its scenario never pops."""
from collections.abc import Iterator
from typing import IO

from musmyrtle.cluster import Cluster
from musmyrtle.findings import Finding, counted
from musmyrtle.scenario import Scenario
from musmyrtle.texts import Text

LONGEST_READ = 4096


class Overwritten(dict[int, int]):
    """The frames that the receive FIFO of each node overwrote in a run, as `fr_bench run` prints them."""

    def read(self, output: IO[str]) -> None:
        """Reads the program's output, and keeps the numbers of the lines `queue HELD OVERWRITTEN`."""
        node = None
        # A line without an end comes in parts, so that a program can't fill the memory.
        while line := output.readline(LONGEST_READ):
            words = line.split()
            if len(words) == 2 and words[0] == "node" and words[1].isdecimal():
                node = int(words[1][:4])
            elif len(words) == 3 and words[0] == "queue" and words[2].isdecimal() and node is not None:
                self[node] = int(words[2][:9])


def overwriting_fifos(cluster: Cluster, text: Text, scenario: Scenario, overwritten: dict[int, int]
                      ) -> Iterator[Finding]:
    """Yields a warning for each FIFO that overwrote frames and that no line of the scenario pops."""
    popped = {node for (node, _), lines in scenario.scripts.items() if any(line.kind == "pop" for line in lines)}
    for node in cluster.nodes:
        lost = overwritten.get(node.number, 0)
        if node.queue and lost and node.number not in popped:
            headline = f"{node.queue} overwrites {counted(lost, 'frame')}, and the scenario never pops it"
            reason = (f"It holds {counted(node.queue.capacity, 'frame')}, and each further frame overwrites the "
                      f"oldest. Expected lines `pop {node.number} TASK CYCLE` in the scenario, or a greater "
                      "`capacity`.")
            yield text.finding(headline, reason, (*node.queue.path, "capacity"))
