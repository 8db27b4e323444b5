"""The lines of `fr_view commits`, put together from the log that `fr_view commits --endless` prints."""


def put_together(log: str) -> str:
    """Returns the line of each commit of a log, by node and entry, with what happened to it. Raises `ValueError` where
    a line isn't of the log, or tells what can't happen to its commit any more."""
    made: dict[tuple[int, int], str] = {}
    told: dict[tuple[int, int], list[str]] = {}
    for line in log.splitlines():
        kind, node, *words = line.split(" ")
        place = int(node), int(words[3] if kind == "commit" else words[0])
        if kind == "commit":
            if len(words) != 5 or place in made:
                raise ValueError(line)
            made[place], told[place] = " ".join([node, *words]), []
        elif kind == "sent" and told[place][:1] in ([], ["sent"]) and len(words) == 6:
            told[place] = [*(told[place] or ["sent"]), *words[1:]]
        elif (kind, len(words)) in (("overwritten", 3), ("withdrawn", 3), ("pending", 1)) and not told[place]:
            told[place] = [kind, *words[1:]]
        else:
            raise ValueError(line)
    return "".join(f"{made[place]} = {' '.join(told[place])}\n" for place in sorted(made))


def is_in_order(log: str) -> bool:
    """Returns whether the cycles of the log rise, and the pending commits come last, by node."""
    kinds = [line.split(" ") for line in log.splitlines()]
    cycles = [int(it[4] if it[0] == "commit" else it[3]) for it in kinds if it[0] != "pending"]
    left = [(int(it[1]), int(it[2])) for it in kinds[len(cycles):] if it[0] == "pending"]
    return cycles == sorted(cycles) and len(cycles) + len(left) == len(kinds) and [it[0] for it in left] == \
        sorted(it[0] for it in left)
