"""The numbers and payloads that a request can name. Values out of range are refused before anything is sent."""
import operator
from collections.abc import Callable, Iterable
from typing import SupportsIndex

from musmyrtle.findings import counted
from musmyrtle.scenario_words import GREATEST, MOST_BYTES
from musmyrtle.world.replies import Channel, channel_of

MOST_CYCLES, MOST_ENDLESS, MOST_KEPT = 1024, 4_000_000, 64
MOST_SLOT = 1023
MOST_WINDOW = 2**32 - 1
MOST_NODE, MOST_TASK, MOST_BUFFER, MOST_BIT = (GREATEST[name] for name in ("NODE", "TASK", "BUFFER", "BIT"))
MOST_PAYLOAD, MOST_BABBLE = MOST_BYTES["commit"], MOST_BYTES["babble"]


def within(name: str, value: SupportsIndex, least: int, most: int) -> int:
    """Returns the value as a number. Raises `ValueError` out of range, and `TypeError` for what is no integer."""
    if type(value) is int and least <= value <= most:
        return value
    try:
        number = int(operator.index(value))
    except TypeError:
        raise TypeError(f"{name} is {value!r}, and has to be an integer") from None
    if not least <= number <= most:
        raise ValueError(f"{name} is {number}, and has to be {least} to {most}")
    return number


def node_number(value: SupportsIndex) -> int:
    """Returns a node number, 0 to 15. Raises `ValueError` and `TypeError`."""
    return within("the node", value, 0, MOST_NODE)


def task_number(value: SupportsIndex) -> int:
    """Returns a task number, 0 to 7. Raises `ValueError` and `TypeError`."""
    return within("the task", value, 0, MOST_TASK)


def buffer_number(value: SupportsIndex) -> int:
    """Returns a buffer number, 0 to 63. Raises `ValueError` and `TypeError`."""
    return within("the buffer", value, 0, MOST_BUFFER)


def bit_number(value: SupportsIndex) -> int:
    """Returns the number of a bit of a transmission, 0 to 65535. Raises `ValueError` and `TypeError`."""
    return within("the bit", value, 0, MOST_BIT)


def window_number(value: SupportsIndex) -> int:
    """Returns the number of a window of a record, 0 to 4294967295. Raises `ValueError` and `TypeError`."""
    return within("the window", value, 0, MOST_WINDOW)


def run_cycles(value: SupportsIndex) -> int:
    """Returns the number of cycles of a run, 1 to 1024. Raises `ValueError` and `TypeError`."""
    return within("the number of cycles", value, 1, MOST_CYCLES)


def endless_cycles(value: SupportsIndex) -> int:
    """Returns the number of cycles of a world without history, 1 to 4000000. Raises `ValueError` and `TypeError`."""
    return within("the number of cycles", value, 1, MOST_ENDLESS)


def some_cycles(value: SupportsIndex, most: int = MOST_CYCLES) -> int:
    """Returns a number of cycles to do, 0 to MOST. Raises `ValueError` and `TypeError`."""
    return within("the number of cycles", value, 0, most)


def kept_cycles(value: SupportsIndex) -> int:
    """Returns a number of cycles whose windows are kept, 1 to 64. Raises `ValueError` and `TypeError`."""
    return within("the number of kept cycles", value, 1, MOST_KEPT)


def traced_nodes(values: Iterable[SupportsIndex]) -> tuple[int, ...]:
    """Returns the nodes whose traces are written. Raises `ValueError` for none, for a double one and out of 0 to 15."""
    nodes = tuple(map(node_number, values))
    if not nodes or len(set(nodes)) < len(nodes):
        raise ValueError(f"the nodes to trace are {nodes}, and have to be one or more, each once")
    return nodes


def waited_cycles(value: SupportsIndex) -> int:
    """Returns a number of cycles to wait for, 1 to 4000000. Raises `ValueError` and `TypeError`."""
    return within("the number of cycles to wait for", value, 1, MOST_ENDLESS)


def slot_number(value: SupportsIndex) -> int:
    """Returns the number of a static slot, 1 to 1023. Raises `ValueError` and `TypeError`."""
    return within("the static slot", value, 1, MOST_SLOT)


def payload_hex(payload: bytes, wanted: Callable[[], int | None] = lambda: None) -> str:
    """Returns a payload as a request spells it. Raises `ValueError` unless it is 0 to 127 two-byte words.

    WANTED returns the length of the buffer's payload for the message, if that is known.
    """
    if len(payload) % 2 or len(payload) > MOST_PAYLOAD:
        length = wanted()
        right = f"be two-byte words, {MOST_PAYLOAD} bytes at most" if length is None else f"have {length}"
        raise ValueError(f"the payload has {counted(len(payload), 'byte')}, and has to {right}")
    return f"x{payload.hex()}"


def babble_hex(data: bytes) -> str:
    """Returns the bytes of a babble as a request spells them. Raises `ValueError` for more than 262 bytes."""
    if len(data) > MOST_BABBLE:
        raise ValueError(f"the babble has {len(data)} bytes, and has to have {MOST_BABBLE} at most")
    return f"x{data.hex()}"


def channel_name(value: str) -> Channel:
    """Returns a channel. Raises `ValueError` unless it is `A` or `B`."""
    if value not in ("A", "B"):
        raise ValueError(f"the channel is {value!r}, and has to be 'A' or 'B'")
    return channel_of(value)
