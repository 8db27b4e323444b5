"""A FlexRay cluster of an AUTOSAR 4 system description."""
from musmyrtle.descriptions.autosar_signals import AutosarSignals
from musmyrtle.descriptions.collecting import Description
from musmyrtle.descriptions.elements import (Element, every, fraction, has, needed, number, one, optional, path_of,
                                             shown, text, truth)
from musmyrtle.descriptions.network import (Fifo, Network, Node, Sending, Times, bit_of, chosen, cycles_of,
                                            filter_of, timed, times_of)
from musmyrtle.descriptions.report import Refused, Report

PARAMETERS = {
    "static_slots": "NUMBER-OF-STATIC-SLOTS", "minislots": "NUMBER-OF-MINISLOTS",
    "static_words": "PAYLOAD-LENGTH-STATIC", "static_mt": "STATIC-SLOT-DURATION", "minislot_mt": "MINISLOT-DURATION",
    "symbol_mt": "SYMBOL-WINDOW", "cycle_mt": "MACRO-PER-CYCLE", "idle": "DYNAMIC-SLOT-IDLE-PHASE",
    "nit": "NETWORK-IDLE-TIME",
}
START = "TRANSMISSION-START-SEQUENCE-DURATION"
CHANNELS = "PHYSICAL-CHANNELS/FLEXRAY-PHYSICAL-CHANNEL"
CONNECTORS = "COMM-CONNECTORS/COMMUNICATION-CONNECTOR-REF-CONDITIONAL/COMMUNICATION-CONNECTOR-REF"
TIMINGS = "ABSOLUTELY-SCHEDULED-TIMINGS/FLEXRAY-ABSOLUTELY-SCHEDULED-TIMING"
PORTS_OF_PDUS = "PDU-TRIGGERINGS/PDU-TRIGGERING-REF-CONDITIONAL/PDU-TRIGGERING-REF"
IN_A_SECOND = 1_000_000
"""The microseconds of a second."""


class Autosar:
    """Reads the cluster of a description."""

    def __init__(self, description: Description, report: Report) -> None:
        self.description, self.report = description, report
        self.signals = AutosarSignals(description, report)
        self.channels: dict[int, str] = {}
        """The letters of channels by the identities of their elements."""
        self.nodes: dict[int, Node] = {}
        """The nodes by the identities of their controllers."""

    def network(self, wanted: str | None) -> Network | None:
        """Returns the cluster of a name, or the only one, or None after refusals. Raises `Refused`."""
        element = chosen(self.description.of_kind("FLEXRAY-CLUSTER"), wanted, "the files")
        cluster = self.bare(self.description.reach(element))
        physicals = every(cluster, CHANNELS)
        for physical in physicals:
            self.add_channel(physical)
        sendings: list[Sending] = []
        for physical in physicals:
            sendings += self.of_channel(physical, self.channels[id(physical)])
        found = timed(cluster, PARAMETERS, self.report, self.times)
        if found is None:
            return None
        places = {id(it): place for place, it in enumerate(self.description.by_key.values())}
        nodes = [self.nodes[it] for it in sorted(self.nodes, key=lambda it: places.get(it, 0))]
        return Network(element.name, path_of(element), *found, nodes, sendings)

    def times(self, cluster: Element, parameters: dict[str, int]) -> Times:
        """Returns the times of the cluster, whose elements are in seconds."""
        cycle = fraction(cluster, "CYCLE") * IN_A_SECOND if has(cluster, "CYCLE") else None
        macrotick = fraction(cluster, "MACROTICK-DURATION") * IN_A_SECOND
        return times_of(cluster, parameters, bit_of(cluster, IN_A_SECOND, "BAUDRATE"), macrotick, cycle, START)

    def bare(self, element: Element) -> Element:
        """Returns the one variant of an element that may have several. Raises `Refused` where it has."""
        found = every(element, f"{element.tag}-VARIANTS/{element.tag}-CONDITIONAL")
        if len(found) > 1:
            raise Refused("Variants", path_of(element), f"it has {len(found)} variants: choose one in the tool that "
                          "writes the description")
        return found[0] if found else element

    def add_channel(self, physical: Element) -> None:
        """Keeps the letter of a channel."""
        word = text(physical, "CHANNEL-NAME").removeprefix("CHANNEL-")
        if word not in ("A", "B") or word in self.channels.values():
            raise Refused("ChannelName", path_of(physical), f"its CHANNEL-NAME is {shown(word)}, and expected is "
                          "CHANNEL-A and CHANNEL-B, each once")
        self.channels[id(physical)] = word

    def of_channel(self, physical: Element, channel: str) -> list[Sending]:
        """Returns the frames on a channel."""
        found: list[Sending] = []
        for reference in every(physical, CONNECTORS):
            with self.report.going_on():
                self.node_of(self.description.referred(reference), channel)
        for triggering in every(physical, "FRAME-TRIGGERINGS/FLEXRAY-FRAME-TRIGGERING"):
            with self.report.going_on():
                found += self.sendings(triggering, channel)
        return found

    # ---- nodes

    def node_of(self, connector: Element, channel: str) -> Node:
        """Returns the node of a connector, which is attached to the channel by it."""
        controller = self.description.referred(needed(connector, "COMM-CONTROLLER-REF"))
        if id(controller) not in self.nodes:
            self.nodes[id(controller)] = self.node(controller)
        node = self.nodes[id(controller)]
        node.channels.add(channel)
        return node

    def node(self, element: Element) -> Node:
        """Returns the node of a controller."""
        controller, path = self.bare(element), path_of(element)
        if truth(controller, "TWO-KEY-SLOT-MODE"):
            raise Refused("TwoKeySlots", path, "a node of version 2.1 has one key slot")
        return Node(path.split("/")[-2], path, number(controller, "KEY-SLOT-ID", 0),
                    truth(controller, "KEY-SLOT-USED-FOR-SYNC"), truth(controller, "KEY-SLOT-USED-FOR-START-UP"),
                    optional(controller, "LATEST-TX"), fifo=self.fifo(controller))

    def fifo(self, controller: Element) -> Fifo | None:
        """Returns the receive FIFO of a controller. Raises `Refused` for what the FIFO of a node can't be."""
        found = every(controller, "FLEXRAY-FIFOS/FLEXRAY-FIFO-CONFIGURATION")
        if not found:
            return None
        ranges, channel = every(found[0], "FIFO-RANGES/FLEXRAY-FIFO-RANGE"), one(found[0], "CHANNEL-REF")
        letter = None if channel is None else self.channels.get(id(self.description.referred(channel)))
        if len(found) > 1 or len(ranges) != 1 or letter is None:
            raise Refused("Fifo", path_of(found[0]), "a node has one receive FIFO, for a range of slots on one channel")
        for name in ("MSG-ID-MASK", "MSG-ID-MATCH"):
            if number(found[0], name, 0):
                raise Refused("Fifo", f"{path_of(found[0])}/{name}", "a receive FIFO admits by slots, not by messages")
        self.report.note("ranges of receive FIFOs are taken for those that are admitted", path_of(controller))
        base, repetition = number(found[0], "BASE-CYCLE", 0), cycle_repetition(found[0])
        return Fifo(number(found[0], "FIFO-DEPTH"), number(ranges[0], "RANGE-MIN"), number(ranges[0], "RANGE-MAX"),
                    letter, filter_of(found[0], base, repetition))

    # ---- frames

    def ports(self, triggering: Element) -> list[Element]:
        """Returns the ports of a triggering, or those of its PDUs where a tool writes none."""
        found = every(triggering, "FRAME-PORT-REFS/FRAME-PORT-REF")
        if not found:
            for reference in every(triggering, PORTS_OF_PDUS):
                found += every(self.description.referred(reference), "I-PDU-PORT-REFS/I-PDU-PORT-REF")
        return [self.description.referred(it) for it in found]

    def ends(self, triggering: Element, channel: str) -> tuple[list[Node], list[Node]]:
        """Returns the senders and the receivers of a frame."""
        ends: dict[str, list[Node]] = {"OUT": [], "IN": []}
        for port in self.ports(triggering):
            word, connector = text(port, "COMMUNICATION-DIRECTION"), port.parent
            if word not in ends:
                raise Refused("Direction", path_of(port), f"it is {shown(word)}, and expected is IN or OUT")
            while connector is not None and not connector.tag.endswith("-CONNECTOR"):
                connector = connector.parent
            if connector is None:
                raise Refused("Port", path_of(port), "it isn't in a communication connector")
            node = self.node_of(self.description.reach(connector), channel)
            if node not in ends[word]:
                ends[word].append(node)
        return ends["OUT"], ends["IN"]

    def sendings(self, triggering: Element, channel: str) -> list[Sending]:
        """Returns a frame in each of its timings."""
        frame = self.description.referred(needed(triggering, "FRAME-REF"))
        senders, receivers = self.ends(triggering, channel)
        layout, found = self.signals.layout(frame), []
        has_preamble = truth(triggering, "PAYLOAD-PREAMBLE-INDICATOR")
        if truth(triggering, "ALLOW-DYNAMIC-L-SDU-LENGTH"):
            self.report.note("frames that may be shorter have their full length here", frame.name)
        for timing in every(triggering, TIMINGS):
            cycle = one(timing, "COMMUNICATION-CYCLE/CYCLE-REPETITION")
            if cycle is None:
                cycle = needed(timing, "COMMUNICATION-CYCLE/CYCLE-COUNTER")
            found.append(Sending(frame.name, path_of(triggering), channel, number(timing, "SLOT-ID"), cycles_of(cycle),
                                 layout.length, has_preamble, list(senders), list(receivers), layout))
        if not found:
            self.report.note("frames without a slot are left out", path_of(triggering))
        return found


def cycle_repetition(element: Element) -> int:
    """Returns the repetition of a FIFO, which is a number or a word such as CYCLE-REPETITION-8."""
    found = one(element, "CYCLE-REPETITION")
    if found is None:
        return 1
    word = found.text.rpartition("-")[2]
    return int(word) if word.isdigit() and len(word) < 3 else 0
