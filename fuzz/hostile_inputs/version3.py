"""Random scenarios of version 3, their windows, and the scenarios of version 2 that say the same.

Nothing here is shared with the package `musmyrtle`: the two readings of version 3 are compared by tests.
"""
import re
import tomllib
from itertools import product

NAMES = ("brake", "pedal", "gear-box", "a", "_", "x.1", "007", "lost", "end", "AB", "0x", "-", "n" * 32, "n" * 33, "7",
         "", "two words", "brake")
"""Names of nodes and buffers, some of which can't stand in a scenario."""
GAPS = (" ", " ", " ", "  ", "\t", " \t ")
COMMENTS = ("", "", "", " # one", "# two # three", "\t#", " # commit 0 0 0 0 x", " # \u00fc")
EMPTY = ("", " ", "\t", "# note", "  # end")
"""Lines without words."""
CALLS = ("commit", "withdraw", "read", "pop")


def named(random, cluster):
    """Returns a cluster file in which some nodes and buffers have names."""
    def name(found):
        if random.random() < 0.3:
            return found[0]
        word = random.choice(NAMES)
        front, end = ("{", ", ") if found[1] else ("", "\n")
        return f'{front}name = "{word}"{end}kind = '
    text = re.sub(r"(\{)?kind = ", name, cluster.decode())
    return re.sub(r"\[\[node\]\]", lambda found: f'[[node]]\nname = "{random.choice(NAMES)}"', text).encode()


class Names:
    """The names that a scenario can use, read from a cluster file."""

    def __init__(self, cluster):
        tables = tomllib.loads(cluster.decode()).get("node", [])
        self.nodes = self.unique(tables)
        self.buffers = [self.unique(table.get("buffer", [])) for table in tables]

    @staticmethod
    def unique(tables):
        names = [table.get("name") for table in tables]
        return {name: number for number, name in enumerate(names)
                if isinstance(name, str) and re.fullmatch(r"[-A-Za-z0-9_.]{1,32}", name)
                and not re.fullmatch("0|[1-9][0-9]*", name) and names.count(name) == 1}

    def node(self, word):
        return self.nodes[word] if word in self.nodes else int(word)

    def buffer(self, node, word):
        known = self.buffers[node] if node < len(self.buffers) else {}
        return known[word] if word in known else int(word)


def cycles_in(word, cycles):
    """Returns the cycles of a run of so many cycles that a word names."""
    if word == "*":
        return list(range(cycles))
    span, _, step = word.partition("/")
    first, _, last = span.partition("-")
    return [it for it in range(int(first), int(last or first) + 1, int(step or 1)) if it < cycles]


def places_in(word, static_slots, minislots):
    """Returns the windows that a word names, as words of version 2; a dynamic slot stays as it is."""
    static = [f"s{slot}" for slot in range(1, static_slots + 1)]
    dynamic = [f"m{minislot}" for minislot in range(1, minislots + 1)]
    if word in ("*", "s*", "m*"):
        return {"*": static + dynamic, "s*": static, "m*": dynamic}[word]
    first, _, last = word[1:].partition("-")
    return [f"{word[0]}{number}" for number in range(int(first), int(last or first) + 1)]


class Expanded:
    """The calls and the single faults of a scenario of version 3, in a run of so many cycles.

    `calls` has the node, the task, the cycle and the words of each call, in the order of the text. `faults` has the
    kind, node, channel, cycle, place and last words of each fault, one for each window that its line names.
    """

    def __init__(self, text, cluster, cycles):
        document, self.names, self.cycles = tomllib.loads(cluster.decode())["params"], Names(cluster), cycles
        self.size = document["static_slots"], document["minislots"]
        self.calls, self.faults = [], []
        for line in text.decode().split("\n")[1:]:
            words = line.partition("#")[0].split()
            if words == ["end"]:
                break
            for choice in product(*(word.split(",") for word in words[1:])) if words else ():
                self.read(words[0], *choice)

    def read(self, kind, *words):
        if kind in CALLS:
            node = self.names.node(words[0])
            buffer = [str(self.names.buffer(node, words[3]))] if kind != "pop" else []
            self.calls += [(node, int(words[1]), cycle, [kind, *buffer, *words[4:]])
                           for cycle in cycles_in(words[2], self.cycles)]
        elif kind == "lost":
            self.read("mute", words[0], "AB", words[1], "*")
        else:
            node = None if kind == "corrupt" else self.names.node(words[0])
            channels, cycles, place, *last = words if node is None else words[1:]
            self.faults += [(kind, node, channel, cycle, where, last) for channel in channels
                            for cycle in cycles_in(cycles, self.cycles) for where in places_in(place, *self.size)]

    @property
    def has_dynamic(self):
        """Returns whether a fault is for a dynamic slot, which version 2 can't say."""
        return any(place[0] == "d" for _, _, _, _, place, _ in self.faults)

    def text(self):
        """Returns the scenario of version 2 that says the same, if its fault lines are in order of their cycles."""
        ordered = sorted(self.calls, key=lambda it: it[:3])
        lines = [" ".join([words[0], *map(str, call), *words[1:]]) for *call, words in ordered]
        for kind, node, channel, cycle, place, last in self.faults:
            who = [] if node is None else [str(node)]
            lines.append(" ".join([kind, *who, channel, str(cycle), place, *last]))
        return "".join(f"{line}\n" for line in ["frscenario 2", *lines, "end"]).encode()


class Lines:
    """Makes lines of version 3 for a cluster, as `lawful.Cluster` makes those of version 2."""

    def __init__(self, random, made, cluster, cycles):
        self.random, self.made, self.cycles = random, made, cycles
        self.names, self.params = Names(cluster), made.params
        self.taken = set()

    def cycles_word(self):
        """Returns a word for cycles, some of which the run doesn't have."""
        first, more = self.random.randrange(self.cycles + 1), self.random.randrange(self.cycles + 2)
        words = ("*", str(self.random.randrange(self.cycles)), f"{first}-{first + more}", f"{first}-{first + more}",
                 f"{first}-{first + more}/{self.random.choice((1, 2, 3, 1023))}", "0-1023/2", "1023")
        return self.random.choice(words)

    def place_word(self, has_dynamic):
        slots, minislots = self.params[:2]
        first = self.random.randint(1, slots)
        words = ["*", "s*", "m*", f"s{first}", f"s{first}-{self.random.randint(first, slots)}"]
        if minislots:
            words.append(f"m{self.random.randint(1, min(4, minislots))}")
            words += [f"d{slots + self.random.randint(1, min(5, minislots))}"] * (3 * has_dynamic)
        return self.random.choice(words)

    def listed(self, word):
        """Returns one word that WORD makes, or a list of some."""
        return ",".join(word() for _ in range(self.random.choice((1, 1, 1, 1, 2, 3))))

    def node_word(self, node):
        names = [name for name, number in self.names.nodes.items() if number == node]
        return self.random.choice([str(node), *names])

    def buffer_word(self, node, buffer):
        names = [name for name, number in self.names.buffers[node].items() if number == int(buffer)]
        return self.random.choice([buffer, *names])

    def call(self):
        node = self.random.randrange(len(self.made.nodes))
        task = self.random.randrange(self.made.nodes[node][2])
        line = self.made.host_line(node, task, 0)
        if line is None:
            return None
        kind, _, _, _, *rest = line.split(" ")
        buffer = [self.buffer_word(node, rest[0])] if rest else []
        return [kind, self.node_word(node), str(task), self.listed(self.cycles_word), *buffer, *rest[1:]]

    def fault(self, has_dynamic):
        """Returns the words of a fault line, or None for one whose windows earlier lines have."""
        kind = self.random.choice(("babble", "mute", "corrupt", "lost"))
        node, channels = self.random.randrange(len(self.made.nodes)), self.random.choice(("A", "B", "AB"))
        cycles, place = self.listed(self.cycles_word), self.listed(lambda: self.place_word(has_dynamic))
        if kind == "lost":
            windows = ("mute", node, "AB", cycles, "*")
            words = [kind, self.node_word(node), cycles]
        else:
            windows = (kind, None if kind == "corrupt" else node, channels, cycles, place)
            words = [kind, *([] if kind == "corrupt" else [self.node_word(node)]), channels, cycles, place]
        if kind == "corrupt":
            words.append(str(self.random.choice((0, 3, 8, 16, 40, 79, 999))))
        if kind == "babble":
            words.append(f"x{self.random.randbytes(self.random.choice((0, 1, 10, 40))).hex()}")
        *front, cycles, place = windows
        choices = product(cycles.split(","), place.split(","))
        return words if all(self.is_free(*front, *choice) for choice in choices) else None

    def is_free(self, kind, node, channels, cycles, place):
        """Notes the windows of a line, unless one is taken: in any of 1,024 cycles, a dynamic slot in each minislot.
        """
        places = places_in(place, *self.params[:2])
        dynamic = [it for it in places if it[0] in "md"]
        marks = set(places)
        if any(it[0] == "d" for it in dynamic):
            marks.add("any m")
        if any(it[0] == "m" for it in dynamic):
            marks.add("any d")
        if place in ("*", "m*"):
            marks |= {"any m", "any d"}
        sort = [(kind, node, channel, cycle) for channel in channels for cycle in cycles_in(cycles, 1024)]
        claimed = {"any m" if it[0] == "m" else "any d" if it[0] == "d" else it for it in places} | set(places)
        if any((*it, mark) in self.taken for it in sort for mark in marks):
            return False
        self.taken |= {(*it, mark) for it in sort for mark in claimed}
        if place in ("*", "m*"):
            self.taken |= {(*it, mark) for it in sort for mark in ("any m", "any d")}
        return True

    def spelled(self, words):
        """Returns a line of these words, with gaps and a comment."""
        ends = [self.random.choice(("", "", "", " ", "\t")) for _ in range(2)]
        text = words[0] + "".join(self.random.choice(GAPS) + word for word in words[1:])
        return f"{ends[0]}{text}{ends[1]}{self.random.choice(COMMENTS)}"

    def text(self, has_dynamic=False):
        """Returns a scenario, which may have faults of dynamic slots."""
        lines = [self.call() for _ in range(self.random.randint(0, 12))]
        lines += [self.fault(has_dynamic) for _ in range(self.random.choice((0, 1, 2, 3, 4)))]
        self.random.shuffle(lines)
        texts = [self.spelled(words) for words in lines if words]
        for _ in range(self.random.choice((0, 0, 1, 2))):
            texts.insert(self.random.randrange(len(texts) + 1), self.random.choice(EMPTY))
        return "".join(f"{line}\n" for line in ["frscenario 3", *texts, self.spelled(["end"])]).encode()


def scenario(random, cycles, has_dynamic=False, make=None):
    """Returns a cluster file with names, and a scenario of version 3 for a run of so many cycles.

    MAKE makes the cluster, as `lawful.Cluster` does.
    """
    made = make(random)
    cluster = named(random, made.text())
    return cluster, Lines(random, made, cluster, cycles).text(has_dynamic)
