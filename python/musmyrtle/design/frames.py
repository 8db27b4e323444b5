"""Frames of a network for one choice of parameters: signals of one sender share frames, and each frame has its cycles.
"""
from collections import defaultdict
from collections.abc import Iterable, Iterator, Mapping, Sequence
from dataclasses import dataclass, replace
from typing import Any

from musmyrtle.design.network import EITHER, REPETITIONS, Message

DYNAMIC_ROOM = 32
"""The bytes up to which signals share a dynamic frame. Each commit sends all of them."""
MOST_SIGNALS = 1024


@dataclass(frozen=True)
class Frame:
    """A frame: a message, or the signals of several. Times are in macroticks."""

    name: str
    sender: int
    receivers: tuple[int, ...]
    bytes: int
    period: int
    deadline: int | None
    is_static: bool
    channels: str
    kind: str
    slot: int | None = None
    base: int | None = None
    repetition: int | None = None
    members: tuple[Message, ...] = ()
    signals: tuple[Mapping[str, Any], ...] = ()
    is_kept: bool = False
    """True for a frame of a kept cluster file that isn't to move."""

    @property
    def words(self) -> int:
        """Returns the two-byte words of its payload."""
        return (self.bytes + 1) // 2

    def repetitions(self, cycle: int, length: int) -> Iterator[int]:
        """Yields the repetitions, greatest first, by which each value has a cycle and can arrive in time.

        LENGTH is the time of the frame or its slot. The deadline counts from the start of the slot in one cycle to the
        end of the frame in the next one.
        """
        for it in reversed(REPETITIONS):
            in_time = self.deadline is None or it * cycle + length <= self.deadline
            if it * cycle <= self.period and in_time and self.repetition in (None, it):
                yield it

    def deadline_by(self, static_mt: int) -> int:
        """Returns the deadline. Without one it is a period and the length of a static slot."""
        return self.period + static_mt if self.deadline is None else self.deadline


def timed(value: int, cycle: int) -> int:
    """Returns a time of a message in macroticks, where a negative one is in cycles."""
    return value if value > 0 else -value * cycle


def frame_of(it: Message, cycle: int) -> Frame:
    """Returns the frame of a message that shares it with no other."""
    deadline = None if it.deadline is None else timed(it.deadline, cycle)
    return Frame(it.name, it.sender, it.receivers, it.bytes, timed(it.period, cycle), deadline, it.is_static,
                 it.channels, it.kind, it.slot, it.base, it.repetition, (it,), it.signals)


def frames_of(messages: Iterable[Message], cycle: int, room: int, names: Iterable[str]) -> list[Frame]:
    """Returns the frames of all messages, with at most ROOM bytes of signals in a static frame.

    NAMES are the names that are taken. Of first fit and best fit, the one whose frames take fewer cycles counts.
    """
    found: list[Frame] = []
    shared: dict[tuple[int, bool, str, str], list[Message]] = defaultdict(list)
    for it in messages:
        if it.bits:
            shared[it.sender, it.is_static, it.channels, it.kind].append(it)
        else:
            found.append(frame_of(it, cycle))
    taken = {it.name for it in found} | set(names)
    for members in shared.values():
        most = room if members[0].is_static else DYNAMIC_ROOM
        ways = [groups_of(members, cycle, most, is_best) for is_best in (False, True)]
        for group in min(ways, key=lambda it: (weight(it, cycle), len(it))):
            found.append(shared_frame(group, cycle, taken))
    return found


def is_big(it: Message) -> bool:
    """Returns whether a signal is big-endian."""
    return it.signals[0].get("order") == "big"


def size_of(it: Message) -> int:
    """Returns the bits that a signal takes in a shared frame: whole bytes for a big-endian one, which come first."""
    return -(-it.bits // 8) * 8 if is_big(it) else it.bits


def urgency(it: Message, cycle: int) -> tuple[int, int]:
    """Returns the repetition and the deadline of a signal."""
    deadline = timed(it.deadline or it.period, cycle)
    return cycles_of(timed(it.period, cycle), deadline, cycle), deadline


def weight(groups: Iterable[Sequence[Message]], cycle: int) -> int:
    """Returns the cycles of the 64 that the frames of groups of signals take."""
    return sum(REPETITIONS[-1] // urgency(it[0], cycle)[0] for it in groups)


def groups_of(members: Iterable[Message], cycle: int, room: int, is_best: bool) -> list[list[Message]]:
    """Returns the signals of one sender on the same channels by frames, the most urgent signals first.

    A signal goes to the first frame with room, or with IS_BEST to the fullest one. In the static segment it may be sent
    more often than it has to be, since only the rest of a frame is filled.
    """
    groups: list[list[Message]] = []
    used: list[int] = []
    for it in sorted(members, key=lambda it: (urgency(it, cycle), -it.bits, it.name)):
        fitting = [place for place, group in enumerate(groups) if used[place] + size_of(it) <= 8 * room
                   and len(group) < MOST_SIGNALS
                   and (it.is_static or urgency(group[0], cycle)[0] == urgency(it, cycle)[0])]
        if fitting:
            place = max(fitting, key=lambda place: (used[place], -place)) if is_best else fitting[0]
            groups[place].append(it)
            used[place] += size_of(it)
        else:
            groups.append([it])
            used.append(size_of(it))
    return groups


def cycles_of(period: int, deadline: int, cycle: int) -> int:
    """Returns the greatest repetition whose cycles come within a period and a deadline, at least 1."""
    return next((it for it in reversed(REPETITIONS) if it * cycle <= min(period, deadline)), 1)


def shared_frame(group: list[Message], cycle: int, taken: set[str]) -> Frame:
    """Returns the frame of some signals, with the shortest of their periods and deadlines."""
    first = group[0]
    tables, end = list[Mapping[str, Any]](), 0
    for it in sorted(group, key=lambda it: not is_big(it)):
        keys = {key: value for key, value in it.signals[0].items() if key != "name"}
        tables.append({"name": it.name, "bit": end + 7 if is_big(it) else end, **keys})
        end += size_of(it)
    deadlines = [timed(it.deadline, cycle) for it in group if it.deadline is not None]
    free = [timed(it.period, cycle) for it in group if it.deadline is None]
    period = min(timed(it.period, cycle) for it in group)
    deadline = min(deadlines) if deadlines and not (free and min(free) < min(deadlines)) else None
    receivers = dict.fromkeys(it for member in group for it in member.receivers)
    return Frame(free_name(first.name, taken), first.sender, tuple(sorted(receivers)), -(-end // 8), period, deadline,
                 first.is_static, first.channels, first.kind, members=tuple(group), signals=tuple(tables))


def free_name(first: str, taken: set[str]) -> str:
    """Returns a name for the frame of the signals that begin with this one."""
    number, name = 1, f"{first[:24]}.frame"
    while name in taken:
        number += 1
        name = f"{first[:20]}.frame{number}"
    taken.add(name)
    return name


def least_frames(messages: Iterable[Message], room: int) -> int:
    """Returns a bound: no packing of the signals, of any periods, has fewer frames.

    Signals on either channel may be in any frame of their sender, so they count only where their sum needs more frames.
    """
    groups: dict[tuple[int, bool, str], dict[str, int]] = defaultdict(lambda: defaultdict(int))
    for it in messages:
        if it.bits:
            groups[it.sender, it.is_static, it.kind][it.channels] += it.bits
    least = 0
    for (_, is_static, _), bits in groups.items():
        most = 8 * (room if is_static else DYNAMIC_ROOM)
        fixed = sum(-(-count // most) for channels, count in bits.items() if channels != EITHER)
        least += max(fixed, -(-sum(bits.values()) // most))
    return least


def on_both(it: Frame) -> Frame:
    """Returns the frame on both channels."""
    return replace(it, channels="AB")


def channels_of(it: Frame) -> str:
    """Returns the channels that a frame may have, `AB` for either."""
    return "AB" if it.channels == EITHER else it.channels
