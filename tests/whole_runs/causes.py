"""The lines of `fr_view reasons`, `origins` and `received`, from other outputs and the tables of the cluster."""
from collections.abc import Iterable, Iterator
from typing import Any

Tables = dict[str, Any]
COUNTED = {"own": "-", "silence": "-", "conflict": "conflict", "noise": "syntax", "overrun": "boundary"}
"""The bit of the slot status for an observation without bytes (docs/formats/frame.md)."""
BROKEN = {"-": "frame", "short": "short", "length": "length", "header": "header-crc", "frame": "frame-crc"}
"""The words of `received` for bytes, by the errors of a table of frames."""


def reasons_of(cluster: Tables, windows: str, record: str) -> str:
    """Returns the lines of `reasons`, from those of `windows` and `record`, and the tables of the cluster file."""
    sent: dict[str, list[list[str]]] = {}
    for line in record.splitlines():
        sent.setdefault(line.split(" ")[0], []).append(line.split(" "))
    lines, all_windows = [], [line.split(" ") for line in windows.splitlines()]
    last = last_slots(all_windows)
    for words in all_windows:
        lines += slots_of(cluster, words, last)
        lines += effects_of(sent.get(words[0], []))
    return "".join(f"{it}\n" for it in lines)


def last_slots(windows: list[list[str]]) -> dict[tuple[str, str], tuple[str, int]]:
    """Returns the last window of each cycle and channel in which the dynamic segment opens a slot, and this slot."""
    return {(cycle, channel): (number, int(slot))
            for number, cycle, minislot, _, slot_a, _, slot_b, _ in windows if minislot != "-"
            for channel, slot in (("A", slot_a), ("B", slot_b)) if slot != "-"}


def slots_of(cluster: Tables, window: list[str], last: dict[tuple[str, str], tuple[str, int]]) -> Iterator[str]:
    """Yields the lines of the dynamic transmit buffers in a window."""
    window_number, cycle, minislot, _, slot_a, _, slot_b, _ = window
    is_first = minislot == "-" and slot_a == "1"
    for number, node in enumerate(cluster["node"]):
        for place, buffer in enumerate(node.get("buffer", [])):
            slot, count = buffer["slot"], int(cycle) % 64
            is_turn = count % buffer.get("repetition", 1) == buffer.get("base", 0)
            if buffer["kind"] == "receive" or slot <= cluster["params"]["static_slots"] or not is_turn:
                continue
            for channel, open_slot in (("A", slot_a), ("B", slot_b)):
                latest = node.get(f"latest_{channel.lower()}", 0)
                words = f"{cycle} {number} {place} {slot} {channel} {latest}"
                if channel in buffer.get("channels", "AB"):
                    end, last_slot = last.get((cycle, channel), ("", 0))
                    if is_first:
                        yield f"due {words}"
                        if cluster["params"]["minislots"] == 0:
                            yield f"closed {words}"
                    elif minislot != "-" and open_slot == str(slot):
                        yield f"{'late' if int(minislot) > latest else 'open'} {words} {minislot}"
                    elif end == window_number and last_slot < slot:
                        yield f"closed {words}"


def effects_of(sent: list[list[str]]) -> Iterator[str]:
    """Yields the effects of faults in a window, from the lines of its record."""
    bits = {words[4]: (int(words[7]), words[8]) for words in sent if words[6] == "corrupt"}
    offered = [words for words in sent if words[6] != "corrupt"]
    passed = [words[4] for words in offered if words[7] == "passed"]
    for _, cycle, _, slot, channel, node, kind, fate, end, _, _, payload, line in offered:
        if kind == "babble" or fate == "muted":
            yield f"{'stopped' if fate == 'blocked' else 'effect'} {cycle} {slot} {channel} {end} {node} {line}"
        bit, flipped_by = bits.get(channel, (0, None))
        if flipped_by and fate == "passed" and passed.count(channel) == 1 and bit < 4 * len(payload):
            yield f"effect {cycle} {slot} {channel} {end} {node} {flipped_by}"


def origins_of(answers: str, traces: list[str]) -> str:
    """Returns the lines of `origins`, from those of `answers` and the traces of all nodes."""
    came = [iter(list(cycles_in(it.splitlines()))) for it in traces]
    lines = []
    for line in answers.splitlines():
        words = line.split(" ")
        cycle = next(came[int(words[0])]) if words[3] in ("read", "pop") else None
        lines.append(line if cycle is None else f"{line} {cycle}")
    return "".join(f"{it}\n" for it in lines)


def cycles_in(trace: list[str]) -> Iterable[int | None]:
    """Yields for each read and pop of a trace the cycle of the run in which its frame came, or None without a frame."""
    begun: list[int] = []
    for words in (line.split(" ") for line in trace[trace.index("begin") + 1:-1]):
        if words[0] in ("read", "pop"):
            yield None if words[-1] == "-" else begun[int(words[-1].split(":")[0])] - 1
        is_start = words[0] == "fetch" and words[3:5] == ["0", "1"]
        begun.append((begun[-1] if begun else 0) + is_start)


def received_of(windows: str, tables: list[str]) -> str:
    """Returns the lines of `received`, from those of `windows`, and the tables `frames --all` of all nodes."""
    rows: dict[tuple[str, int, str], list[str]] = {}
    for node, table in enumerate(tables):
        for line in table.splitlines()[1:]:
            time, _, slot, channel, *words = line.split(" ")
            rows[time, node, channel] = [slot, *words]
    lines = []
    for number, cycle, _, begin, *_ in (line.split(" ") for line in windows.splitlines()):
        for node in range(len(tables)):
            seen = [observation_of(rows.get((begin, node, channel))) for channel in "AB"]
            if any(it[0] != "silence" for it in seen):
                lines.append(" ".join([number, cycle, str(node), *seen[0], *seen[1]]))
    return "".join(f"{it}\n" for it in lines)


def observation_of(row: list[str] | None) -> tuple[str, str, str]:
    """Returns the words of an observation: what was observed, what is counted, and what stored it."""
    if row is None:
        return "silence", "-", "-"
    slot, status, error, _, _, receivers, _ = row
    if status in COUNTED:
        return status, "-" if slot == "-" else COUNTED[status], receivers
    return BROKEN[error], status, receivers
