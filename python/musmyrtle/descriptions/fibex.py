"""A FlexRay cluster of a FIBEX 3.1 or 4 file."""
from collections import defaultdict

from musmyrtle.descriptions.collecting import ID_REF, TYPE, Description
from musmyrtle.descriptions.elements import (Element, every, fraction, has, needed, number, one, optional, path_of,
                                             shown, text, truth)
from musmyrtle.descriptions.fibex_signals import FibexSignals
from musmyrtle.descriptions.network import (Network, Node, Sending, Times, bit_of, chosen, cycles_of, timed,
                                            times_of)
from musmyrtle.descriptions.report import Refused, Report

PARAMETERS = {
    "static_slots": "NUMBER-OF-STATIC-SLOTS", "minislots": "NUMBER-OF-MINISLOTS",
    "static_words": "PAYLOAD-LENGTH-STATIC", "static_mt": "STATIC-SLOT", "minislot_mt": "MINISLOT",
    "symbol_mt": "SYMBOL-WINDOW", "cycle_mt": "MACRO-PER-CYCLE", "idle": "DYNAMIC-SLOT-IDLE-PHASE", "nit": "N-I-T",
}
START = "T-S-S-TRANSMITTER"
PORTS = ("OUTPUTS/OUTPUT-PORT", "INPUTS/INPUT-PORT")
Ends = tuple[list[Node], list[Node]]


class Fibex:
    """Reads the cluster of a description."""

    def __init__(self, description: Description, report: Report, counting: str | None) -> None:
        self.description, self.report, self.counting = description, report, counting
        self.channels: dict[int, str] = {}
        """The letters of channels by the identities of their elements."""
        self.nodes: dict[int, Node] = {}
        """The nodes by the identities of their controllers."""
        self.ends: dict[int, Ends] = defaultdict(lambda: ([], []))
        """The senders and the receivers by the identities of triggerings of frames and PDUs."""

    def network(self, wanted: str | None) -> Network | None:
        """Returns the cluster of a name, or the only one, or None after refusals. Raises `Refused`."""
        clusters = (it for it in self.description.of_kind("CLUSTER") if is_flexray(it))
        cluster = self.description.reach(chosen(clusters, wanted, "the file"))
        signals = FibexSignals(self.description, self.report, cluster, self.counting)
        channels = [self.description.referred(it) for it in every(cluster, "CHANNEL-REFS/CHANNEL-REF")]
        for channel in channels:
            self.add_channel(channel)
        for ecu in self.description.of_kind("ECU"):
            for connector in every(ecu, "CONNECTORS/CONNECTOR"):
                with self.report.going_on():
                    self.connect(ecu, connector)
        sendings: list[Sending] = []
        for channel in channels:
            for triggering in every(channel, "FRAME-TRIGGERINGS/FRAME-TRIGGERING"):
                with self.report.going_on():
                    sendings += self.sendings(triggering, channel, signals)
        found = timed(cluster, PARAMETERS, self.report, self.times)
        if found is None:
            return None
        return Network(cluster.name, path_of(cluster), *found, list(self.nodes.values()), sendings)

    def times(self, cluster: Element, parameters: dict[str, int]) -> Times:
        """Returns the times of the cluster, whose elements are in microseconds."""
        cycle, bit = fraction(cluster, "CYCLE") if has(cluster, "CYCLE") else None, bit_of(cluster, 1, "SPEED")
        return times_of(cluster, parameters, bit, fraction(cluster, "MACROTICK"), cycle, START)

    def add_channel(self, channel: Element) -> None:
        """Keeps the letter of a channel."""
        word = text(channel, "FLEXRAY-CHANNEL-NAME")
        if word not in ("A", "B") or word in self.channels.values():
            raise Refused("ChannelName", path_of(channel), f"its FLEXRAY-CHANNEL-NAME is {shown(word)}, and expected "
                          "is A and B, each once")
        self.channels[id(channel)] = word

    # ---- nodes

    def connect(self, ecu: Element, connector: Element) -> None:
        """Adds a connector that is attached to the cluster, with what goes in and out there."""
        reference = needed(connector, "CHANNEL-REF")
        channel = self.description.by_key.get(reference.attributes.get(ID_REF, ""))
        if channel is not None and id(channel) not in self.channels:
            # It is attached to another cluster.
            return
        channel = self.description.referred(reference)
        self.description.reach(connector)
        controller = self.description.referred(needed(connector, "CONTROLLER-REF"))
        if id(controller) not in self.nodes:
            self.nodes[id(controller)] = self.node(ecu, controller)
        node = self.nodes[id(controller)]
        node.channels.add(self.channels[id(channel)])
        for end, path in enumerate(PORTS):
            for port in every(connector, path):
                for triggering in self.triggerings(port):
                    its = self.ends[id(triggering)][end]
                    if node not in its:
                        its.append(node)

    def triggerings(self, port: Element) -> list[Element]:
        """Returns the triggerings of frames and PDUs that a port has. Raises `Refused` where it has none."""
        found = every(port, "FRAME-TRIGGERING-REF") + every(port, "PDU-TRIGGERING-REF")
        if not found:
            raise Refused("Missing", f"{path_of(port)}/FRAME-TRIGGERING-REF", "the port has no triggering")
        return [self.description.referred(it) for it in found]

    def node(self, ecu: Element, controller: Element) -> Node:
        """Returns the node of a controller."""
        usage = one(controller, "KEY-SLOT-USAGE")
        both, alone = (None if usage is None else optional(usage, it) for it in ("STARTUP-SYNC", "SYNC"))
        if usage is not None and has(usage, "NONE") or both is not None and alone is not None:
            if both is not None or alone is not None:
                raise Refused("TwoKeySlots", path_of(controller), "KEY-SLOT-USAGE has several children, and expected "
                              "is one")
        return Node(ecu.name, path_of(controller), both or alone or 0, bool(both or alone), bool(both),
                    optional(controller, "LATEST-TX"))

    # ---- frames

    def ends_of(self, triggering: Element, frame: Element, channel: Element) -> Ends:
        """Returns the senders and the receivers of a frame: those of its triggering, and those of its PDUs."""
        senders, receivers = (list(it) for it in self.ends[id(triggering)])
        pdus = {it.attributes.get(ID_REF) for it in every(frame, "PDU-INSTANCES/PDU-INSTANCE/PDU-REF")}
        for it in every(channel, "PDU-TRIGGERINGS/PDU-TRIGGERING"):
            reference = one(it, "PDU-REF")
            if reference is not None and reference.attributes.get(ID_REF) in pdus:
                for known, more in zip((senders, receivers), self.ends[id(it)]):
                    known += [node for node in more if node not in known]
        return senders, receivers

    def sendings(self, triggering: Element, channel: Element, signals: FibexSignals) -> list[Sending]:
        """Returns a frame in each of its timings."""
        frame = self.description.referred(needed(triggering, "FRAME-REF"))
        senders, receivers = self.ends_of(triggering, frame, channel)
        layout, has_preamble = signals.layout(frame), truth(triggering, "PAYLOAD-PREAMBLE-INDICATOR")
        timings = every(triggering, "TIMINGS/ABSOLUTELY-SCHEDULED-TIMING")
        if not timings:
            self.report.note("frames without a slot are left out", path_of(triggering))
        return [Sending(frame.name, path_of(triggering), self.channels[id(channel)], number(it, "SLOT-ID"),
                        cycles_of(it), layout.length, has_preamble, list(senders), list(receivers), layout)
                for it in timings]


def is_flexray(cluster: Element) -> bool:
    """Returns whether a cluster is one of FlexRay, by its type or by a parameter that no other cluster has."""
    return "flexray" in cluster.attributes.get(TYPE, "").lower() or has(cluster, PARAMETERS["static_slots"])
