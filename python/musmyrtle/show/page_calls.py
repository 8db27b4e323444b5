"""The commits and the answers to calls for the page of a run."""
from array import array

from musmyrtle.show.facts import FRAME_WORDS, Facts, call_of, number
from musmyrtle.show.page_columns import NOTHING, Columns, Contents, Words
from musmyrtle.show.sources import Sources
from musmyrtle.show.reasons import why
from musmyrtle.visible import visible


def add_commits(facts: Facts, columns: Columns) -> None:
    """Adds the lines of `fr_view commits`, with the reason where no receiver stored one."""
    commits = facts.commits
    for key in ("node", "buffer", "task"):
        columns.numbers(f"commit_{key}", "u8", (getattr(it, key) for it in commits))
    columns.numbers("commit_cycle", "u32", (it.cycle for it in commits))
    columns.numbers("commit_entry", "u32", (it.entry for it in commits))
    columns.contents("commit_data", (it.data for it in commits))
    columns.words("commit_fate", (it.fate for it in commits))
    columns.numbers("commit_ended", "u32", (it.ended for it in commits))
    columns.numbers("commit_ending", "u32", (it.ending for it in commits))
    columns.numbers("commit_sends", "u32", (len(it.sent) for it in commits))
    columns.words("commit_why", ("" if it.is_delivered else visible(why(facts, it)) for it in commits))
    columns.numbers("sent_cycle", "u32", (it.cycle for commit in commits for it in commit.sent))
    columns.numbers("sent_slot", "u16", (it.slot for commit in commits for it in commit.sent))
    for key in ("channel", "end", "receivers"):
        columns.words(f"sent_{key}", (getattr(it, key) for commit in commits for it in commit.sent))


class Answers:
    """The lines of `fr_view origins`, which are added one by one, with the commit whose frame a task read."""

    def __init__(self, facts: Facts) -> None:
        self.sources = Sources(facts.commits)
        self.places = {(it.node, it.entry): place for place, it in enumerate(facts.commits)}
        self.numbers = {"node": array("B"), "task": array("B"), "cycle": array("I"), "buffer": array("B"),
                        "entry": array("I"), "count": array("B"), "slot": array("H"), "commit": array("I")}
        self.words = {"kind": Words(), "channel": Words()}
        self.contents = {"committed": Contents(), "frame": Contents()}

    def add(self, line: str) -> None:
        """Adds a line."""
        front, _, back = line.partition(" = ")
        (node, task, cycle, kind, *rest), answer = front.split(" "), back.split(" ")
        count, slot, channel, frame = answer[:4] if len(answer) == FRAME_WORDS else ["-", "-", "-", ""]
        source = self.sources.of(call_of(line))
        self.put("node", int(node))
        self.put("task", int(task))
        self.put("cycle", int(cycle))
        self.put("buffer", int(rest[0]) if rest else None)
        self.put("entry", number(answer[0]) if len(answer) == 1 else None)
        self.put("count", number(count))
        self.put("slot", number(slot))
        self.put("commit", None if source is None else self.places[source[0].node, source[0].entry])
        self.words["kind"].add(kind)
        self.words["channel"].add(channel)
        self.contents["committed"].add(rest[1] if len(rest) > 1 else None)
        self.contents["frame"].add(frame)

    def put(self, key: str, value: int | None) -> None:
        """Adds a number at the end of a column."""
        column = self.numbers[key]
        column.append(NOTHING[KINDS[column.typecode]] if value is None else value)

    def fill(self, columns: Columns) -> None:
        """Adds the columns of the answers."""
        for key, its in self.numbers.items():
            columns.numbers(f"answer_{key}", KINDS[its.typecode], its)
        for key, words in self.words.items():
            columns.words(f"answer_{key}", words)
        for key, contents in self.contents.items():
            columns.contents(f"answer_{key}", contents)


KINDS = {"B": "u8", "H": "u16", "I": "u32"}
"""The types of columns by those of arrays."""
