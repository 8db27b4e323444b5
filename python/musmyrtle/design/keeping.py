"""A kept cluster file, to which the messages of a network are added without moving anything."""
from dataclasses import dataclass, field, replace

from musmyrtle.cluster import MOST_NODES, PARAMETERS, Buffer, Cluster
from musmyrtle.design.frames import Frame, timed
from musmyrtle.design.network import Message, Network, NodeWish
from musmyrtle.design.packing import Placed, Slots
from musmyrtle.design.parameters import COUNTED, Setting
from musmyrtle.latencies import GUARANTEED, Latency
from musmyrtle.lint.physical import bit_and_macrotick
from musmyrtle.output import Stop
from musmyrtle.selections import Directory
from musmyrtle.texts import Text

REFUSED = 1
SEVERAL = -1
"""The owner of a slot that several nodes divide, in which nothing is added."""
NO_LIMIT = 1 << 20


@dataclass
class Kept:
    """The cluster that is kept: its document, and its transmit buffers as frames with places."""

    text: Text
    cluster: Cluster
    network: Network
    """The network with the nodes of the cluster first, and the messages that the cluster doesn't have."""
    placed: list[Placed] = field(default_factory=list)
    numbers: dict[str, int] = field(default_factory=dict)
    """The buffer of each kept frame, by its name."""
    latencies: dict[tuple[int, int], Latency] = field(default_factory=dict)
    added_receivers: list[tuple[int, Placed]] = field(default_factory=list)
    """The nodes that the network file has as receivers of a kept frame."""

    @property
    def setting(self) -> Setting:
        """Returns the parameters, none of which is free."""
        it = self.cluster.parameters
        return Setting(it.cycle_mt, it.static_words, it.static_mt, it.minislot_mt, it.symbol_mt, it.nit_mt, it.idle,
                       it.words_per_minislot, (it.static_slots, it.static_slots), (it.minislots, it.minislots))

    def slots(self) -> Slots:
        """Returns the static slots with their owners and the cycles that are taken."""
        made = Slots()
        for it in self.cluster.owned():
            for channel in it.channels:
                owner = made.owners.get((it.slot, channel), it.node)
                is_whole = it.cycles.repetition == 1 and owner == it.node
                made.owners[it.slot, channel] = it.node if is_whole else SEVERAL
        for placed in self.placed:
            if placed.frame.is_static:
                made.put(placed.frame, placed.slot, placed.channels, placed.cycles)
        return made

    def is_guaranteed(self, it: Placed) -> bool:
        """Returns whether a kept frame was sent in each of its cycles before."""
        return self.latencies[it.frame.sender, self.numbers[it.frame.name]].state == GUARANTEED


def kept_of(text: Text, cluster: Cluster, network: Network, latencies: list[Latency]) -> Kept:
    """Returns the kept cluster, with the messages that it doesn't have. Raises `Stop` for contradictions."""
    check_parameters(network, cluster)
    directory = Directory.of(text.document)
    names = [directory.nodes[it.number] or f"node-{it.number}" for it in cluster.nodes]
    merged = merged_network(text, network, names)
    kept = Kept(text, cluster, merged, latencies={(it.node, it.buffer): it for it in latencies})
    signals = signals_of(text)
    matching = Matching(kept, directory, signals)
    for buffer in cluster.buffers():
        if buffer.transmits:
            matching.keep(buffer)
    merged.messages = [it for it in merged.messages if it.name not in matching.taken]
    return kept


def check_parameters(network: Network, cluster: Cluster) -> None:
    """Raises `Stop` if the network file wants other parameters than the kept cluster has."""
    for key in PARAMETERS:
        value = getattr(cluster.parameters, key)
        wanted = network.params.get(key)
        if wanted is not None and value not in wanted and not (key in (*COUNTED, "nit_mt")):
            raise Stop(REFUSED, f"refused Contradiction: `{key}` of the kept cluster file is {value}, and the network "
                                f"file has {', '.join(map(str, wanted[:8]))}; leave the key out")


def merged_network(text: Text, network: Network, names: list[str]) -> Network:
    """Returns the network with the nodes of the cluster first."""
    further = [it for it in network.nodes if it.name not in names]
    if len(names) + len(further) > MOST_NODES:
        raise Stop(REFUSED, f"refused TooManyNodes: the kept cluster file and the network file have "
                            f"{len(names) + len(further)} nodes together, and a cluster file has at most {MOST_NODES}")
    place = {name: number for number, name in enumerate(names)} | {
        it.name: len(names) + number for number, it in enumerate(further)}
    numbers = [place[it.name] for it in network.nodes]
    bit_rate, macrotick = bit_and_macrotick(text)
    messages = [replace(it, sender=numbers[it.sender], receivers=tuple(numbers[node] for node in it.receivers))
                for it in network.messages]
    guard = text.document.get("guard", "AB")
    nodes = [*(NodeWish(it) for it in names), *further]
    return Network(network.text, str(guard), bit_rate or network.bit_rate, macrotick or network.macrotick_us,
                   network.params, nodes, messages)


def signals_of(text: Text) -> dict[str, list[str]]:
    """Returns the names of the signals of each frame of the cluster file."""
    held = text.document.get("frame", [])
    tables = [it for it in held if isinstance(it, dict)] if isinstance(held, list) else []
    return {str(it.get("name")): [str(signal.get("name")) for signal in it.get("signal", []) if
                                  isinstance(signal, dict)] for it in tables}


class Matching:
    """The messages of the network that the kept cluster has already."""

    def __init__(self, kept: Kept, directory: Directory, signals: dict[str, list[str]]) -> None:
        self.kept, self.directory, self.signals = kept, directory, signals
        self.by_name = {(it.sender, it.name): it for it in kept.network.messages}
        self.taken: set[str] = set()

    def keep(self, buffer: Buffer) -> None:
        """Keeps a transmit buffer, with the deadlines of the messages that it carries."""
        node, number = buffer.node, buffer.number
        name = self.directory.buffers[node][number] or f"buffer-{node}-{number}"
        members = self.members(buffer, name)
        self.taken.update(it.name for it in members)
        frame = self.frame(buffer, self.free(name, node), members)
        placed = Placed(frame, buffer.slot, buffer.channels, buffer.cycles)
        self.kept.placed.append(placed)
        self.kept.numbers[frame.name] = number
        for receiver in dict.fromkeys(it for member in members for it in member.receivers):
            self.kept.added_receivers.append((receiver, placed))

    def free(self, name: str, node: int) -> str:
        """Returns the name of a kept frame: that of its buffer, if it is the only one with it."""
        return name if name not in self.kept.numbers else f"{name} of node {node}"

    def members(self, buffer: Buffer, name: str) -> list[Message]:
        """Returns the messages of a buffer: the one of its name, or the signals of its frame."""
        plain = name[:-2] if name.endswith((".A", ".B")) else name
        found = [self.by_name.get((buffer.node, it)) for it in dict.fromkeys([name, plain])]
        if any(it is not None and not it.bits for it in found):
            return [it for it in found if it is not None][:1]
        table = self.kept.text.document["node"][buffer.node]["buffer"][buffer.number]
        names = self.signals.get(str(table.get("frame")), [])
        signals = [self.by_name.get((buffer.node, it)) for it in names]
        return [it for it in signals if it is not None and it.bits]

    def frame(self, buffer: Buffer, name: str, members: list[Message]) -> Frame:
        """Returns the frame of a buffer. One that the network file doesn't have has no deadline."""
        cycle, static_slots = self.kept.cluster.parameters.cycle_mt, self.kept.cluster.parameters.static_slots
        deadlines = [timed(it.deadline, cycle) for it in members if it.deadline is not None]
        periods = [timed(it.period, cycle) for it in members]
        receivers = tuple(dict.fromkeys(it for member in members for it in member.receivers))
        return Frame(name, buffer.node, receivers, 2 * buffer.words, min(periods, default=NO_LIMIT * cycle),
                     min(deadlines, default=None), buffer.slot <= static_slots, buffer.channels, buffer.kind,
                     buffer.slot, buffer.cycles.base, buffer.cycles.repetition, tuple(members), (), True)


def admits(cluster: Cluster, node: int, it: Placed) -> bool:
    """Returns whether a node of the kept cluster has a receive buffer or a receive FIFO for some frame of a place."""
    if node >= len(cluster.nodes):
        return False
    for buffer in cluster.nodes[node].buffers:
        if not buffer.transmits and buffer.slot == it.slot and set(buffer.channels) & set(it.channels) \
                and buffer.cycles.meet(it.cycles):
            return True
    queue = cluster.nodes[node].queue
    return queue is not None and queue.first <= it.slot <= queue.last and bool(
        set(queue.channels) & set(it.channels)) and queue.cycles.meet(it.cycles)
