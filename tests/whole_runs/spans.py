"""The lines of `fr_view windows`, from a node's trace and the parameters of the cluster."""


def windows_of(trace: str, params: dict[str, int]) -> str:
    """Returns a line for each window of a node's trace.

    A dynamic slot lasts until its channel opens the next one, or to the end of the segment.
    """
    found: list[list[str]] = []
    cycle = -1
    for words in (line.split(" ") for line in trace.splitlines() if line.startswith("fetch ")):
        number, minislot, *slots = words[1], words[3], *words[4:6]
        cycle += [minislot, slots[0]] == ["0", "1"]
        place = (int(slots[0]) - 1) * params["static_mt"] if minislot == "0" else \
            params["static_slots"] * params["static_mt"] + (int(minislot) - 1) * params["minislot_mt"]
        begin = cycle * params["cycle_mt"] + place
        found.append([number, str(cycle), "-" if minislot == "0" else minislot, str(begin), *slots])
    for channel in (0, 1):
        end = (None, 0)
        for words in reversed(found):
            segment_end = params["minislots"] + 1
            if words[1] != end[0]:
                end = words[1], segment_end
            slot = words[4 + 2 * channel]
            length = "-"
            if words[2] == "-":
                length = str(params["static_mt"])
            elif slot != "-":
                length, end = str((end[1] - int(words[2])) * params["minislot_mt"]), (words[1], int(words[2]))
            words.insert(5 + 2 * channel, length)
    return "".join(f"{' '.join(words)}\n" for words in found)
