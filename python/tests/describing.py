"""A writer of descriptions: the tables of a cluster file, spelled as AUTOSAR or FIBEX as far as these have them.

Each node is an ECU with one controller and a connector for each channel. A frame of each transmit buffer has the name
of its `frame`, or one of its place. Its receivers are the nodes with a receive buffer that admits it. Signals are those
of the tables `[[frame]]`, each frame with one PDU.
"""
from collections.abc import Iterator
from dataclasses import dataclass
from fractions import Fraction
from typing import Any

Tables = dict[str, Any]
ORDERS = {"big": "MOST-SIGNIFICANT-BYTE-FIRST", "little": "MOST-SIGNIFICANT-BYTE-LAST"}
ENCODINGS = {"": ("NONE", "A_UINT32"), "signed": ("2C", "A_INT32"), "float": ("IEEE754", "A_FLOAT32"),
             "bytes": ("NONE", "A_BYTEFIELD")}
TSS = 11


def tag(name: str, *content: object, **attributes: object) -> str:
    """Returns an element. A name of an attribute has `_` for `-`."""
    words = "".join(f' {key.replace("_", "-")}="{value}"' for key, value in attributes.items())
    return f"<{name}{words}>{''.join(map(str, content))}</{name.split(' ')[0]}>"


def cycles(line: Tables) -> set[int]:
    """Returns the cycles of a line."""
    return set(range(line.get("base", 0), 64, line.get("repetition", 1)))


@dataclass
class Triggering:
    """A frame in a slot on a channel, with its sender and its receivers."""

    frame: str
    channel: str
    buffer: Tables
    sender: int
    receivers: list[int]


@dataclass
class Described:
    """A network: its tables, the names of its nodes, its frames with their bytes, and its triggerings."""

    tables: Tables
    names: list[str]
    frames: dict[str, int]
    triggerings: list[Triggering]

    @classmethod
    def of(cls, tables: Tables) -> "Described":
        """Gathers the frames of the tables of a cluster file."""
        nodes, found = tables["node"], cls(tables, [], {}, [])
        found.names = [it.get("name", f"Node{number}") for number, it in enumerate(nodes)]
        for number, node in enumerate(nodes):
            for place, buffer in enumerate(node.get("buffer", [])):
                if buffer["kind"] != "receive":
                    found.add(number, place, buffer)
        return found

    def add(self, sender: int, place: int, buffer: Tables) -> None:
        """Adds the frame of a transmit buffer."""
        p = self.tables["params"]
        words = p["static_words"] if buffer["slot"] <= p["static_slots"] else buffer["words"]
        name = buffer.get("frame", f"F_{sender}_{place}")
        lengths = {it["name"]: it["bytes"] for it in self.tables.get("frame", [])}
        self.frames[name] = lengths.get(name, 2 * words)
        for channel in buffer["channels"]:
            receivers = [number for number, node in enumerate(self.tables["node"]) if number != sender and any(
                it["kind"] == "receive" and it["slot"] == buffer["slot"] and channel in it["channels"]
                and cycles(it) & cycles(buffer) for it in node.get("buffer", []))]
            self.triggerings.append(Triggering(name, channel, buffer, sender, receivers))

    def of_channel(self, channel: str) -> list[Triggering]:
        """Returns the triggerings of a channel."""
        return [it for it in self.triggerings if it.channel == channel]

    def latest(self, node: Tables) -> int:
        """Returns the one latest minislot of a node that descriptions have."""
        return int(max(node.get("latest_a", 0), node.get("latest_b", 0)))

    def signals(self, frame: str) -> list[Tables]:
        """Returns the signals of a frame."""
        return next((it["signal"] for it in self.tables.get("frame", []) if it["name"] == frame), [])

    def key_slot(self, node: Tables) -> Tables | None:
        """Returns the line of the key slot of a node."""
        return next((it for it in node.get("own", []) if it.get("sync")), None)


def kind_of(signal: Tables) -> str:
    """Returns the key of the coding of a signal."""
    return next((it for it in ("signed", "float", "bytes") if signal.get(it)), "")


def exact(value: object) -> Fraction:
    """Returns a number of a cluster file."""
    return Fraction(str(value))


def scales(signal: Tables) -> str:
    """Returns the scales of a signal, which both formats have alike."""
    def scale(low: object, high: object, content: str) -> str:
        ends = (tag(f"{end}-LIMIT", it, INTERVAL_TYPE="CLOSED") for end, it in (("LOWER", low), ("UPPER", high)))
        return tag("COMPU-SCALE", *ends, content)
    found = []
    for key, name in signal.get("values", {}).items():
        low, _, high = key.partition("-")
        found.append(scale(low, high or low, tag("COMPU-CONST", tag("VT", name))))
    if {"factor", "offset", "min", "max"} & set(signal):
        factor, offset = exact(signal.get("factor", 1)), exact(signal.get("offset", 0))
        below = factor.denominator * offset.denominator
        line = tag("COMPU-RATIONAL-COEFFS", tag("COMPU-NUMERATOR", tag("V", offset * below), tag("V", factor * below)),
                   tag("COMPU-DENOMINATOR", tag("V", below)))
        ends = sorted(int((exact(signal[it]) - offset) / factor) for it in ("min", "max") if it in signal)
        found.append(scale(ends[0], ends[1], line) if len(ends) == 2 else tag("COMPU-SCALE", line))
    return tag("COMPU-INTERNAL-TO-PHYS", tag("COMPU-SCALES", *found)) if found else ""


# ---- AUTOSAR


def arxml(tables: Tables) -> str:
    """Returns a system description of AUTOSAR 4."""
    it = Described.of(tables)
    packages = [("Cluster", arxml_cluster(it)), ("Frames", "".join(arxml_frames(it))),
                ("Ecus", "".join(arxml_ecus(it)))]
    body = "".join(tag("AR-PACKAGE", tag("SHORT-NAME", name), tag("ELEMENTS", text)) for name, text in packages)
    return ('<?xml version="1.0" encoding="UTF-8"?>\n'
            + tag("AUTOSAR", tag("AR-PACKAGES", body), xmlns="http://autosar.org/schema/r4.0") + "\n")


def arxml_cluster(it: Described) -> str:
    p, physical = it.tables["params"], it.tables.get("physical", {})
    macrotick = exact(physical.get("macrotick_us", 1)) / 1_000_000
    values = {
        "ACTION-POINT-OFFSET": 2, "BIT": "1E-7", "CYCLE": float(p["cycle_mt"] * macrotick),
        "DYNAMIC-SLOT-IDLE-PHASE": p["idle"], "MACRO-PER-CYCLE": p["cycle_mt"],
        "MACROTICK-DURATION": f"{float(macrotick):.9f}", "MINISLOT-ACTION-POINT-OFFSET": 2,
        "MINISLOT-DURATION": p["minislot_mt"], "NETWORK-IDLE-TIME": p["nit_mt"],
        "NUMBER-OF-MINISLOTS": p["minislots"], "NUMBER-OF-STATIC-SLOTS": p["static_slots"],
        "PAYLOAD-LENGTH-STATIC": p["static_words"], "STATIC-SLOT-DURATION": p["static_mt"],
        "SYMBOL-WINDOW": p["symbol_mt"], "TRANSMISSION-START-SEQUENCE-DURATION": TSS}
    conditional = tag("FLEXRAY-CLUSTER-CONDITIONAL", tag("BAUDRATE", 10_000_000),
                      tag("PHYSICAL-CHANNELS", *(arxml_channel(it, channel) for channel in "AB")),
                      *(tag(name, value) for name, value in values.items()))
    return tag("FLEXRAY-CLUSTER", tag("SHORT-NAME", "Net"), tag("FLEXRAY-CLUSTER-VARIANTS", conditional))


def arxml_channel(it: Described, channel: str) -> str:
    connectors = "".join(tag("COMMUNICATION-CONNECTOR-REF-CONDITIONAL", tag(
        "COMMUNICATION-CONNECTOR-REF", f"/Ecus/{name}/On{channel}")) for name in it.names)
    return tag("FLEXRAY-PHYSICAL-CHANNEL", tag("SHORT-NAME", f"Channel{channel}"), tag("COMM-CONNECTORS", connectors),
               tag("FRAME-TRIGGERINGS", *(arxml_triggering(it, at) for at in it.of_channel(channel))),
               tag("CHANNEL-NAME", f"CHANNEL-{channel}"))


def name_of(at: Triggering) -> str:
    """Returns a name that only one triggering has."""
    return f"{at.frame}_{at.buffer['slot']}_{at.buffer.get('base', 0)}_{at.channel}"


def arxml_triggering(it: Described, at: Triggering) -> str:
    ends = [(at.sender, "Out"), *((receiver, "In") for receiver in at.receivers)]
    ports = "".join(tag("FRAME-PORT-REF", f"/Ecus/{it.names[node]}/On{at.channel}/{way}_{name_of(at)}")
                    for node, way in ends)
    cycle = tag("CYCLE-REPETITION", tag("BASE-CYCLE", at.buffer.get("base", 0)),
                tag("CYCLE-REPETITION", f"CYCLE-REPETITION-{at.buffer.get('repetition', 1)}"))
    timing = tag("FLEXRAY-ABSOLUTELY-SCHEDULED-TIMING", tag("COMMUNICATION-CYCLE", cycle),
                 tag("SLOT-ID", at.buffer["slot"]))
    return tag("FLEXRAY-FRAME-TRIGGERING", tag("SHORT-NAME", name_of(at)), tag("FRAME-PORT-REFS", ports),
               tag("FRAME-REF", f"/Frames/{at.frame}"), tag("ABSOLUTELY-SCHEDULED-TIMINGS", timing),
               tag("PAYLOAD-PREAMBLE-INDICATOR", str(at.buffer.get("preamble", False)).lower()))


def arxml_frames(it: Described) -> Iterator[str]:
    for name, length in it.frames.items():
        signals = it.signals(name)
        pdu = tag("PDU-TO-FRAME-MAPPINGS", tag(
            "PDU-TO-FRAME-MAPPING", tag("SHORT-NAME", "m"), tag("PACKING-BYTE-ORDER", ORDERS["little"]),
            tag("PDU-REF", f"/Frames/{name}_Pdu"), tag("START-POSITION", 0))) if signals else ""
        yield tag("FLEXRAY-FRAME", tag("SHORT-NAME", name), tag("FRAME-LENGTH", length), pdu)
        if signals:
            yield tag("I-SIGNAL-I-PDU", tag("SHORT-NAME", f"{name}_Pdu"), tag("LENGTH", length), tag(
                "I-SIGNAL-TO-PDU-MAPPINGS", *(arxml_mapping(name, signal) for signal in signals)))
            for signal in signals:
                yield from arxml_signal(f"{name}_{signal['name']}", signal)
    for kind, (encoding, _) in ENCODINGS.items():
        yield tag("SW-BASE-TYPE", tag("SHORT-NAME", f"base_{kind}"), tag("BASE-TYPE-ENCODING", encoding))


def arxml_mapping(frame: str, signal: Tables) -> str:
    order = "OPAQUE" if signal.get("bytes") else ORDERS[signal.get("order", "little")]
    update = "".join(tag("UPDATE-INDICATION-BIT-POSITION", it) for it in signal.get("update", []))
    reference = tag("I-SIGNAL-REF", f"/Frames/{frame}_{signal['name']}")
    return tag("I-SIGNAL-TO-I-PDU-MAPPING", tag("SHORT-NAME", signal["name"]), reference,
               tag("PACKING-BYTE-ORDER", order), tag("START-POSITION", signal["bit"]), update)


def arxml_signal(name: str, signal: Tables) -> Iterator[str]:
    def value(key: str, element: str) -> str:
        if key not in signal or signal.get("bytes"):
            return ""
        return tag(element, tag("NUMERICAL-VALUE-SPECIFICATION", tag("VALUE", signal[key])))

    def properties(content: str) -> str:
        return tag("SW-DATA-DEF-PROPS-VARIANTS", tag("SW-DATA-DEF-PROPS-CONDITIONAL", content))
    base = tag("BASE-TYPE-REF", f"/Frames/base_{kind_of(signal)}") + value("invalid", "INVALID-VALUE")
    yield tag("I-SIGNAL", tag("SHORT-NAME", name), value("initial", "INIT-VALUE"), tag("LENGTH", signal["bits"]),
              tag("NETWORK-REPRESENTATION-PROPS", properties(base)), tag("SYSTEM-SIGNAL-REF", f"/Frames/s_{name}"))
    unit = signal.get("unit")
    method = tag("COMPU-METHOD-REF", f"/Frames/c_{name}")
    yield tag("SYSTEM-SIGNAL", tag("SHORT-NAME", f"s_{name}"), tag("PHYSICAL-PROPS", properties(
        method + (tag("UNIT-REF", f"/Frames/u_{name}") if unit else ""))))
    yield tag("COMPU-METHOD", tag("SHORT-NAME", f"c_{name}"), tag("CATEGORY", "LINEAR" if scales(signal) else
                                                                  "IDENTICAL"), scales(signal))
    if unit:
        yield tag("UNIT", tag("SHORT-NAME", f"u_{name}"), tag("DISPLAY-NAME", unit))


def arxml_ecus(it: Described) -> Iterator[str]:
    for number, node in enumerate(it.tables["node"]):
        name = it.names[number]
        controller = tag("FLEXRAY-COMMUNICATION-CONTROLLER", tag("SHORT-NAME", "Controller"), tag(
            "FLEXRAY-COMMUNICATION-CONTROLLER-VARIANTS", tag("FLEXRAY-COMMUNICATION-CONTROLLER-CONDITIONAL",
                                                             arxml_controller(it, node))))
        connectors = "".join(arxml_connector(it, number, channel) for channel in "AB")
        yield tag("ECU-INSTANCE", tag("SHORT-NAME", name), tag("COMM-CONTROLLERS", controller),
                  tag("CONNECTORS", connectors))


def arxml_controller(it: Described, node: Tables) -> str:
    key, queue = it.key_slot(node), node.get("queue")
    text = "" if key is None else (
        tag("KEY-SLOT-ID", key["slot"]) + tag("KEY-SLOT-USED-FOR-START-UP", str(key.get("startup", False)).lower())
        + tag("KEY-SLOT-USED-FOR-SYNC", "true"))
    if queue and len(queue["channels"]) == 1:
        text += tag("FLEXRAY-FIFOS", tag(
            "FLEXRAY-FIFO-CONFIGURATION", tag("BASE-CYCLE", queue.get("base", 0)),
            tag("CHANNEL-REF", f"/Cluster/Net/Channel{queue['channels']}"),
            tag("CYCLE-REPETITION", queue.get("repetition", 1)), tag("FIFO-DEPTH", queue["capacity"]),
            tag("FIFO-RANGES", tag("FLEXRAY-FIFO-RANGE", tag("RANGE-MAX", queue["last"]),
                                   tag("RANGE-MIN", queue["first"])))))
    return text + tag("LATEST-TX", it.latest(node))


def arxml_connector(it: Described, number: int, channel: str) -> str:
    ports = "".join(
        tag("FRAME-PORT", tag("SHORT-NAME", f"{way}_{name_of(at)}"), tag("COMMUNICATION-DIRECTION", way.upper()))
        for at in it.of_channel(channel)
        for way, is_there in (("Out", at.sender == number), ("In", number in at.receivers)) if is_there)
    controller = tag("COMM-CONTROLLER-REF", f"/Ecus/{it.names[number]}/Controller")
    return tag("FLEXRAY-COMMUNICATION-CONNECTOR", tag("SHORT-NAME", f"On{channel}"), controller,
               tag("ECU-COMM-PORT-INSTANCES", ports))


# ---- FIBEX

SPACES = ('xmlns:fx="http://www.asam.net/xml/fbx" xmlns:ho="http://www.asam.net/xml" '
          'xmlns:flexray="http://www.asam.net/xml/fbx/flexray" xmlns:xsi="http://www.w3.org/2001/XMLSchema-instance"')


def fx(name: str, *content: object, **attributes: object) -> str:
    """Returns an element of FIBEX."""
    return tag(f"fx:{name}", *content, **attributes)


def named(name: str, content: str, ident: str, short: str | None = None, kind: str = "") -> str:
    """Returns an element of FIBEX with an ID and a short name."""
    more = f' xsi:type="flexray:{kind}-TYPE"' if kind else ""
    return f'<fx:{name} ID="{ident}"{more}>{tag("ho:SHORT-NAME", short or ident)}{content}</fx:{name}>'


def refer(name: str, ident: str, space: str = "fx") -> str:
    """Returns a reference to an ID."""
    return f'<{space}:{name} ID-REF="{ident}"/>'


def fibex(tables: Tables) -> str:
    """Returns a FIBEX file of version 3.1."""
    it = Described.of(tables)
    elements = fx("ELEMENTS", fx("CLUSTERS", fibex_cluster(it)),
                  fx("CHANNELS", *(fibex_channel(it, channel) for channel in "AB")), fx("ECUS", *fibex_ecus(it)),
                  *fibex_payloads(it))
    units, codings = [], []
    for name in it.frames:
        for signal in it.signals(name):
            codings.append(fibex_coding(f"{name}_{signal['name']}", signal))
            if "unit" in signal:
                units.append(named("UNIT", tag("ho:DISPLAY-NAME", signal["unit"]), f"u_{name}_{signal['name']}"))
    rest = fx("PROCESSING-INFORMATION", fx("UNIT-SPEC", fx("UNITS", *units)), fx("CODINGS", *codings))
    return f'<?xml version="1.0" encoding="UTF-8"?>\n<fx:FIBEX {SPACES} VERSION="3.1.0">{elements}{rest}</fx:FIBEX>\n'


def fibex_cluster(it: Described) -> str:
    p, physical = it.tables["params"], it.tables.get("physical", {})
    macrotick = exact(physical.get("macrotick_us", 1))
    values = {"ACTION-POINT-OFFSET": 2, "DYNAMIC-SLOT-IDLE-PHASE": p["idle"], "MINISLOT": p["minislot_mt"],
              "MINISLOT-ACTION-POINT-OFFSET": 2, "N-I-T": p["nit_mt"], "STATIC-SLOT": p["static_mt"],
              "SYMBOL-WINDOW": p["symbol_mt"], "T-S-S-TRANSMITTER": TSS, "MACRO-PER-CYCLE": p["cycle_mt"],
              "MACROTICK": float(macrotick), "NUMBER-OF-MINISLOTS": p["minislots"],
              "NUMBER-OF-STATIC-SLOTS": p["static_slots"], "PAYLOAD-LENGTH-STATIC": p["static_words"], "BIT": 0.1,
              "CYCLE": float(p["cycle_mt"] * macrotick)}
    text = (fx("SPEED", 10_000_000) + fx("IS-HIGH-LOW-BIT-ORDER", "false") + fx("BIT-COUNTING-POLICY", "SAWTOOTH")
            + fx("CHANNEL-REFS", *(refer("CHANNEL-REF", f"Channel{channel}") for channel in "AB"))
            + "".join(tag(f"flexray:{name}", value) for name, value in values.items()))
    return named("CLUSTER", text, "Net", kind="CLUSTER")


def fibex_channel(it: Described, channel: str) -> str:
    triggerings = []
    for at in it.of_channel(channel):
        timing = fx("TIMINGS", fx("ABSOLUTELY-SCHEDULED-TIMING", fx("SLOT-ID", at.buffer["slot"]), fx(
            "BASE-CYCLE", at.buffer.get("base", 0)), fx("CYCLE-REPETITION", at.buffer.get("repetition", 1))))
        preamble = tag("flexray:PAYLOAD-PREAMBLE-INDICATOR", str(at.buffer.get("preamble", False)).lower())
        frame = refer("FRAME-REF", at.frame)
        triggerings.append(fx("FRAME-TRIGGERING", timing, frame, preamble, ID=f"T_{name_of(at)}"))
    return named("CHANNEL", fx("FRAME-TRIGGERINGS", *triggerings) + tag("flexray:FLEXRAY-CHANNEL-NAME", channel),
                 f"Channel{channel}", kind="CHANNEL")


def fibex_ecus(it: Described) -> Iterator[str]:
    for number, node in enumerate(it.tables["node"]):
        key = it.key_slot(node)
        usage = "NONE" if key is None else "STARTUP-SYNC" if key.get("startup") else "SYNC"
        text = (tag("flexray:KEY-SLOT-USAGE", tag(f"flexray:{usage}", "" if key is None else key["slot"]))
                + tag("flexray:LATEST-TX", it.latest(node)))
        controller = named("CONTROLLER", text, f"C{number}", "Controller", "CONTROLLER")
        connectors = "".join(fibex_connector(it, number, channel) for channel in "AB")
        yield named("ECU", fx("CONTROLLERS", controller) + fx("CONNECTORS", connectors), f"Ecu{number}",
                    it.names[number])


def fibex_connector(it: Described, number: int, channel: str) -> str:
    def ports(way: str) -> str:
        its = [at for at in it.of_channel(channel) if (at.sender == number if way == "OUT" else number in at.receivers)]
        return fx(f"{way}PUTS", *(fx(f"{way}PUT-PORT", refer("FRAME-TRIGGERING-REF", f"T_{name_of(at)}"),
                                     ID=f"{way}_{number}_{name_of(at)}") for at in its))
    return fx("CONNECTOR", refer("CHANNEL-REF", f"Channel{channel}"), refer("CONTROLLER-REF", f"C{number}"),
              ports("IN"), ports("OUT"), ID=f"On{number}{channel}")


def fibex_payloads(it: Described) -> Iterator[str]:
    frames, pdus, signals = [], [], []
    for name, length in it.frames.items():
        its = it.signals(name)
        instance = fx("PDU-INSTANCES", fx("PDU-INSTANCE", refer("PDU-REF", f"{name}_Pdu"), fx("BIT-POSITION", 0), fx(
            "IS-HIGH-LOW-BYTE-ORDER", "false"), ID=f"i_{name}")) if its else ""
        frames.append(named("FRAME", fx("BYTE-LENGTH", length) + instance, name))
        if its:
            pdus.append(named("PDU", fx("BYTE-LENGTH", length) + fx("SIGNAL-INSTANCES", *(
                fibex_instance(name, signal) for signal in its)), f"{name}_Pdu"))
        for signal in its:
            has_initial = "initial" in signal and not signal.get("bytes")
            initial = fx("DEFAULT-VALUE", signal["initial"]) if has_initial else ""
            ident = f"{name}_{signal['name']}"
            signals.append(named("SIGNAL", initial + refer("CODING-REF", f"c_{ident}"), f"s_{ident}", ident))
    yield from (fx("PDUS", *pdus), fx("SIGNALS", *signals), fx("FRAMES", *frames))


def fibex_instance(frame: str, signal: Tables) -> str:
    update = "".join(fx("SIGNAL-UPDATE-BIT-POSITION", it) for it in signal.get("update", []))
    ident = f"{frame}_{signal['name']}"
    return fx("SIGNAL-INSTANCE", fx("BIT-POSITION", signal["bit"]), fx(
        "IS-HIGH-LOW-BYTE-ORDER", str(signal.get("order") == "big").lower()), update, refer("SIGNAL-REF", f"s_{ident}"),
        ID=f"i_{ident}")


def fibex_coding(ident: str, signal: Tables) -> str:
    unit = refer("UNIT-REF", f"u_{ident}", "ho") if "unit" in signal else ""
    method = tag("ho:COMPU-METHOD", tag("ho:SHORT-NAME", "m"), tag("ho:CATEGORY", "LINEAR" if scales(signal) else
                                                                   "IDENTICAL"), unit, scales(signal))
    base = f'<ho:CODED-TYPE ho:BASE-DATA-TYPE="{ENCODINGS[kind_of(signal)][1]}">{tag("ho:BIT-LENGTH", signal["bits"])}'
    return named("CODING", f'{base}</ho:CODED-TYPE>{tag("ho:COMPU-METHODS", method)}', f"c_{ident}")
