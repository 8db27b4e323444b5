"""The layouts of frames for the header of a page, whose script reads signals from payloads by them.

All numbers are texts, so that the script has them exactly.
"""
from fractions import Fraction
from typing import Any

from musmyrtle.cluster import Cluster
from musmyrtle.findings import counted
from musmyrtle.lint.lint import read_bytes
from musmyrtle.show.engines import Inputs
from musmyrtle.signals.frames import FILE, Definitions, Frames
from musmyrtle.signals.layout import Layout
from musmyrtle.signals.refusals import Raw
from musmyrtle.signals.signal import Signal
from musmyrtle.texts import NoText, read_text
from musmyrtle.visible import visible

REFUSED = ("Signals aren't shown, since the frames of the cluster file have {}: `musmyrtle lint` names them.")


def signals_of(inputs: Inputs) -> dict[str, Any]:
    """Returns the key `signals` of a header, or nothing for a cluster file whose buffers have no frames."""
    data = read_bytes(inputs.task.file(inputs.task.cluster))
    try:
        text = read_text(inputs.task.cluster, data or b"")
    except NoText:
        return {}
    if FILE not in text.document and "frame" not in text.document:
        return {}
    frames = Frames(inputs.network.cluster, Definitions.of(text))
    if frames.faults:
        return {"signals": {"frames": [], "senders": [], "fifos": [],
                            "why": REFUSED.format(counted(len(frames.faults), "fault"))}}
    found = senders_of(frames)
    return {"signals": {**found, "fifos": fifos_of(frames.cluster), "why": ""}} if found["senders"] else {}


def senders_of(frames: Frames) -> dict[str, Any]:
    """Returns the layouts that transmit buffers send, and the node, the buffer and the layout of each sender."""
    numbers: dict[str, int] = {}
    senders = [[it.node, it.number, numbers.setdefault(frames.claims[it.node, it.number].name, len(numbers))]
               for it in frames.cluster.buffers() if it.transmits and (it.node, it.number) in frames.claims]
    layouts = frames.definitions.layouts
    return {"frames": [layout_object(layouts[name]) for name in numbers], "senders": senders}


def fifos_of(cluster: Cluster) -> list[dict[str, Any]]:
    """Returns what the receive FIFOs of the nodes admit."""
    return [{"node": it.number, "first": it.queue.first, "last": it.queue.last, "channels": it.queue.channels,
             "base": it.queue.cycles.base, "repetition": it.queue.cycles.repetition}
            for it in cluster.nodes if it.queue]


def layout_object(layout: Layout) -> dict[str, Any]:
    """Returns a layout for the script."""
    return {"name": layout.name, "bytes": layout.length, "signals": list(map(signal_object, layout.signals.values()))}


def signal_object(signal: Signal) -> dict[str, Any]:
    """Returns a signal for the script."""
    return {
        "name": signal.name, "bit": signal.bit, "bits": signal.bits, "order": signal.order.value,
        "coding": signal.coding.value, "factor": parts(signal.factor), "offset": parts(signal.offset),
        "unit": visible(signal.unit), "least": parts(signal.least), "most": parts(signal.most),
        "values": [[str(it.first), str(it.last), visible(it.name)] for it in signal.values],
        "invalid": None if signal.invalid is None else raw_text(signal.invalid),
        "update": signal.update, "when": [[name, str(code)] for name, code in signal.when],
    }


def parts(value: Fraction | None) -> list[str] | None:
    """Returns the top and the bottom of a number as texts, or None without one."""
    return None if value is None else [str(value.numerator), str(value.denominator)]


def raw_text(raw: Raw) -> str:
    """Returns a raw value as the script reads it: `Number` knows `Infinity`, and takes any other word for NaN."""
    if isinstance(raw, bytes):
        return f"x{raw.hex()}"
    return repr(raw).replace("inf", "Infinity")
