"""The network of a cluster file: the names of its nodes and buffers, and its times in macroticks and microseconds."""
from musmyrtle.cluster import Cluster, Reading
from musmyrtle.lint.physical import bit_and_macrotick
from musmyrtle.missed import Miss
from musmyrtle.selections import Directory
from musmyrtle.show.tables import Column, Name, Receiver, Receivers, Time
from musmyrtle.texts import Text


class Network:
    """A cluster with the keys `name` of its nodes and buffers, and `macrotick_us` if the file has it."""

    def __init__(self, text: Text, cluster: Cluster) -> None:
        self.cluster = cluster
        self.macrotick = bit_and_macrotick(text)[1]
        directory = Directory.of(text.document)
        self.node_names, self.buffer_names = directory.nodes, directory.buffers

    @classmethod
    def of(cls, text: Text) -> "Network | None":
        """Returns the network of a file, or None if the file has a fault."""
        cluster = Reading(text.document).cluster
        return None if cluster is None else cls(text, cluster)

    # ---- names

    def node(self, number: int) -> Name:
        """Returns the number and the name of a node."""
        return Name(number, self.node_names[number], "node")

    def buffer(self, node: int, number: int) -> Name:
        """Returns the number and the name of a buffer."""
        return Name(number, self.buffer_names[node][number], "buffer")

    def node_if_any(self, number: int) -> Name:
        """Returns the number of a node, which may be missing, and the name that it has."""
        return self.node(number) if number < len(self.node_names) else Name(number, None, "node")

    def buffer_if_any(self, node: int, number: int) -> Name:
        """Returns the number of a buffer, which or whose node may be missing, and the name that it has."""
        is_there = node < len(self.buffer_names) and number < len(self.buffer_names[node])
        return self.buffer(node, number) if is_there else Name(number, None, "buffer")

    def receiver(self, word: str) -> Receiver:
        """Returns the receiver that `fr_view commits` spells `1:b1` or `1:queue`."""
        node, _, place = word.partition(":")
        buffer = None if place == "queue" else self.buffer(int(node), int(place.removeprefix("b")))
        return Receiver(self.node(int(node)), buffer)

    def receivers(self, word: str) -> Receivers:
        """Returns the receivers of a word such as `0:b1,2:queue`, or none for `-`."""
        return Receivers(() if word == "-" else tuple(self.receiver(it) for it in word.split(",")))

    # ---- times

    def time(self, macroticks: int) -> Time:
        """Returns a time in macroticks, with its microseconds."""
        return Time(macroticks, None if self.macrotick is None else macroticks * self.macrotick)

    def column(self, key: str, heading: str, meaning: str = "") -> Column:
        """Returns a column of times, with the unit in its heading."""
        return Column(key, f"{heading} [{'MT' if self.macrotick is None else 'us'}]", "time", meaning=meaning)


def missed_text(network: Network, miss: Miss) -> str:
    """Returns the report of a missed expectation, with the names that node and buffer have."""
    return miss.text(str(network.node_if_any(miss.node)), str(network.buffer_if_any(miss.node, miss.buffer)))
