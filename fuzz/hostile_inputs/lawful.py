"""Lawful inputs: the examples, small random ones, and the largest of each kind."""
from pathlib import Path

EXAMPLES = Path(__file__).resolve().parent.parent.parent / "examples"

KEYS = ("static_slots", "minislots", "static_words", "static_mt", "minislot_mt", "symbol_mt", "nit_mt", "cycle_mt",
        "idle", "words_per_minislot")
CYCLES = ((3, 4, 1, 20, 5, 0, 10, 90, 0, 5), (3, 10, 1, 20, 5, 4, 6, 120, 1, 4), (2, 0, 2, 10, 1, 0, 5, 25, 0, 1))
"""The parameters of three cycles; the last one has no dynamic segment."""

FILTERS = ((0, 1), (0, 1), (0, 2), (1, 2), (3, 4))
FILE_LIMIT = 1_048_576


def examples(name):
    return [path.read_bytes() for path in sorted(EXAMPLES.glob(f"*/{name}"))]


def division(fields, width, polynomial, register):
    """Returns a CRC over fields, each a value with its number of bits, most significant bit first."""
    for value, bits in fields:
        for place in reversed(range(bits)):
            top = register >> (width - 1) & 1
            register = register << 1 & (1 << width) - 1
            register ^= polynomial * (top ^ value >> place & 1)
    return register


def frame(slot, cycle, payload, channel, is_data=True):
    """Returns the bytes of a frame that is neither a sync nor a startup frame."""
    covered = ((0, 2), (slot, 11), (len(payload) // 2, 7))
    fields = ((0, 2), (is_data, 1), *covered, (division(covered, 11, 0x385, 0x01A), 11), (cycle, 6))
    header = 0
    for value, bits in fields:
        header = header << bits | value
    sent = header.to_bytes(5, "big") + payload
    opening = {"A": 0xFEDCBA, "B": 0xABCDEF}[channel]
    return sent + division([(byte, 8) for byte in sent], 24, 0x5D6DCB, opening).to_bytes(3, "big")


class Buffer:
    def __init__(self, random, kind, slot, channels, words):
        self.kind, self.slot, self.channels, self.words = kind, slot, channels, words
        self.base, self.repetition = random.choice(FILTERS)
        self.last, self.is_pending, self.held = None, False, "-"

    def admits(self, slot, channel, cycle):
        return slot == self.slot and channel in self.channels and cycle % self.repetition == self.base

    def ready(self):
        return self.last if self.is_pending or self.kind == "state" else None


def buffers(random, params, owned, own_cycles):
    """Returns some buffers of a node that owns a static slot on both channels in these cycles, and may send early in
    the dynamic segment."""
    slots, minislots, words = params[:3]
    made = [Buffer(random, "receive", random.randint(1, slots), random.choice(("A", "B", "AB")), words)]
    if owned:
        made.append(Buffer(random, random.choice(("event", "state")), owned, random.choice(("A", "B", "AB")), words))
        if own_cycles != (0, 1):
            made[-1].base, made[-1].repetition = own_cycles
    if minislots:
        made.append(Buffer(random, random.choice(("event", "state")), slots + 1 + owned % 3, random.choice("AB"), 1))
        made.append(Buffer(random, "receive", slots + random.randint(1, 4), random.choice(("A", "B", "AB")), 1))
    random.shuffle(made)
    return made[: random.randint(1, len(made))]


class Journal:
    """The lines of a trace, and the state of the buffers and the FIFO after its calls.

    The node owns a slot in every cycle, or divides it with others.
    """

    def __init__(self, random):
        self.random, self.params = random, random.choice(CYCLES)
        self.owned, self.own_cycles = random.choice((0, 1, 1)), random.choice(FILTERS)
        self.buffers = buffers(random, self.params, self.owned, self.own_cycles)
        self.capacity = random.choice((0, 1, 2, 3))
        is_divided = self.owned and self.own_cycles != (0, 1)
        self.version = 3 if is_divided else random.choice((1, 2, 3))
        self.queue, self.lines = [], []

    def text(self):
        plan = [f"frtrace {self.version}", f"params {' '.join(map(str, self.params))}",
                f"node 2 {min(3, self.params[1])} 0 64 128"]
        cycles = " {} {}".format(*self.own_cycles) if self.version == 3 else ""
        plan += [f"own {self.owned} AB 0 0{cycles}"] if self.owned else []
        for it in self.buffers:
            head = f"{it.slot} {it.channels} {it.base} {it.repetition}"
            words = "-" if it.slot <= self.params[0] else it.words
            plan.append(f"rx {head}" if it.kind == "receive" else f"tx {it.kind} {head} {words} 0")
        plan += [f"queue {self.capacity} 1 2047 AB 0 1"] if self.capacity else []
        self.number = 0
        for cycle in range(self.random.randint(0, 4)):
            places = [(0, slot) for slot in range(1, self.params[0] + 1)]
            for minislot, slot in places + [(m, self.params[0] + m) for m in range(1, min(self.params[1], 4) + 1)]:
                for _ in range(self.random.choice((0, 0, 1, 2))):
                    self.host_call()
                self.window(cycle, minislot, slot)
        return "".join(f"{line}\n" for line in [*plan, "begin", *self.lines, "end"]).encode()

    def host_call(self):
        task, number = self.random.randint(0, 1), self.random.randrange(len(self.buffers))
        it = self.buffers[number]
        if self.capacity and self.random.random() < 0.3:
            self.lines.append(f"pop {task} {self.queue.pop(0) if self.queue else '-'}")
        elif it.kind == "receive":
            self.lines.append(f"read {task} {number} {it.held}")
        elif self.version > 1 and self.random.random() < 0.3:
            self.lines.append(f"withdraw {task} {number} {it.last if it.is_pending else '-'}")
            it.last, it.is_pending = None if it.is_pending else it.last, False
        else:
            it.last, it.is_pending = len(self.lines), True
            self.lines.append(f"commit {task} {number} x{self.random.randbytes(2 * it.words).hex()}")

    def offer(self, cycle, minislot, slot, channel):
        given = next((it for it in self.buffers if it.kind != "receive" and it.admits(slot, channel, cycle)), None)
        entry = given.ready() if given else None
        if minislot == 0:
            base, repetition = self.own_cycles
            is_own = slot == self.owned and cycle % repetition == base
            return ("null" if entry is None else entry) if is_own else "-", given
        return "-" if entry is None or channel == "B" or minislot > 3 else entry, given

    def window(self, cycle, minislot, slot):
        offers = {channel: self.offer(cycle, minislot, slot, channel) for channel in "AB"}
        for mark, given in offers.values():
            if given and mark not in ("-", "null"):
                given.is_pending = False
        told = " ".join(str(mark) for mark, _ in offers.values())
        self.lines.append(f"fetch {self.number} {cycle} {minislot} {slot} {slot} {told}")
        entry, words, taken = len(self.lines), self.params[2] if minislot == 0 else 1, set()
        seen = []
        for channel, (mark, _) in offers.items():
            kind = self.random.choice(("data", "data", "null", "noise", "overrun", "-", "bytes"))
            if mark != "-":
                kind = self.random.choice(("own", "own", "conflict"))
            if kind in ("data", "null"):
                sent = frame(slot, cycle, self.random.randbytes(2 * words), channel, kind == "data")
                seen.append(f"x{sent.hex()}")
            else:
                junk = f"x{self.random.randbytes(self.random.choice((0, 7, 10))).hex()}" if kind == "bytes" else kind
                seen.append(junk)
            if kind == "data":
                self.receive(f"{entry}:{channel}", slot, channel, cycle, taken)
        self.lines.append(f"see {self.number} {' '.join(seen)}")
        self.number += 1

    def receive(self, source, slot, channel, cycle, taken):
        admitting = [it for it in self.buffers if it.kind == "receive" and it.admits(slot, channel, cycle)]
        for it in admitting:
            if it not in taken:
                it.held = source
                taken.add(it)
        if not admitting and self.capacity:
            self.queue = [*self.queue, source][-self.capacity:]


def trace(random):
    return Journal(random).text()


class Cluster:
    """A small cluster, and the facts that its scenarios need."""

    def __init__(self, random):
        self.random, self.params = random, random.choice(CYCLES)
        self.nodes = []
        for number in range(random.randint(1, 4)):
            owned, cycles = number + 1 if number < self.params[0] else 0, random.choice(FILTERS)
            if number and self.nodes[-1][:2] == (number, (0, 2)) and random.random() < 0.6:
                owned, cycles = number, (1, 2)
            made = [it for it in buffers(random, self.params, owned, cycles)
                    if it.kind == "receive" or it.slot == owned or number < 3]
            self.nodes.append((owned, cycles, random.randint(1, 3), made, random.random() < 0.4))

    def text(self):
        guard = self.random.choice(("", 'guard = "AB"', 'guard = "A"', 'guard = "B"', 'guard = "none"'))
        lines = [guard, "[params]", *(f"{key} = {value}" for key, value in zip(KEYS, self.params))]
        for owned, (base, repetition), tasks, made, has_queue in self.nodes:
            lines += ["[[node]]", f"tasks = {tasks}", f"latest_a = {min(3, self.params[1])}"]
            flag = self.random.choice(("", ", sync = true", ", sync = true, startup = true"))
            flag += f", base = {base}, repetition = {repetition}" if repetition > 1 else ""
            lines += [f'own = [{{slot = {owned}, channels = "AB"{flag}}}]'] if owned else []
            lines += ['queue = {capacity = 2, first = 1, last = 2047, channels = "AB"}'] if has_queue else []
            told = [self.buffer(it) for it in made]
            if self.random.random() < 0.5:
                lines += ["buffer = [", *(f"  {{{', '.join(it)}}}," for it in told), "]"]
            else:
                lines += [line for it in told for line in ("[[node.buffer]]", *it)]
        return "".join(f"{line}\n" for line in lines).encode()

    def buffer(self, it):
        told = [f'kind = "{it.kind}"', f"slot = {it.slot}", f'channels = "{it.channels}"']
        told += [f"base = {it.base}", f"repetition = {it.repetition}"] if it.repetition > 1 else []
        told += [f"words = {it.words}"] if it.kind != "receive" and it.slot > self.params[0] else []
        return told

    def host_line(self, number, task, cycle):
        _, _, tasks, made, has_queue = self.nodes[number]
        if has_queue and self.random.random() < 0.3:
            return f"pop {number} {task} {cycle}"
        if not made:
            return None
        place = self.random.randrange(len(made))
        if made[place].kind == "receive":
            return f"read {number} {task} {cycle} {place}"
        # A buffer is one task's: of two that commit or withdraw in one cycle either may be the first.
        if place % tasks != task:
            return None
        if self.random.random() < 0.3:
            return f"withdraw {number} {task} {cycle} {place}"
        return f"commit {number} {task} {cycle} {place} x{self.random.randbytes(2 * made[place].words).hex()}"

    def fault_line(self, cycles):
        node, channel = self.random.randrange(len(self.nodes)), self.random.choice("AB")
        cycle = self.random.choice(("*", *range(cycles)))
        dynamic = [f"m{minislot}" for minislot in range(1, self.params[1] + 1)]
        place = self.random.choice(("s*", "s1", "s2", *dynamic[:3]))
        kind = self.random.choice(("babble", "mute", "corrupt"))
        if kind == "corrupt":
            return f"corrupt {channel} {cycle} {place} {self.random.choice((0, 3, 8, 16, 40, 79, 999))}"
        sent = f" x{self.random.randbytes(self.random.choice((0, 1, 10, 40))).hex()}" if kind == "babble" else ""
        return f"{kind} {node} {channel} {cycle} {place}{sent}"

    def scenario(self, cycles):
        lines = []
        for number, (_, _, tasks, _, _) in enumerate(self.nodes):
            for task in range(tasks):
                when = sorted(self.random.randrange(cycles) for _ in range(self.random.randint(0, 4)))
                lines += [self.host_line(number, task, cycle) for cycle in when]
        lines += [self.fault_line(cycles) for _ in range(self.random.choice((0, 0, 1, 1, 2, 3)))]
        lines = [line for line in lines if line]
        version = 2 if any(line.startswith("withdraw") for line in lines) else self.random.choice((1, 2))
        return "".join(f"{line}\n" for line in [f"frscenario {version}", *lines, "end"]).encode()


def request(random, nodes):
    """Returns a request of a session with the world of so many nodes. It may be refused."""
    node, task, buffer = random.randrange(nodes + 1), random.randrange(2), random.randrange(3)
    payload, channel = f"x{random.randbytes(random.choice((0, 2, 2, 4))).hex()}", random.choice("AB")
    return random.choice((
        f"commit {node} {task} {buffer} {payload}", f"withdraw {node} {task} {buffer}", f"read {node} {task} {buffer}",
        f"pop {node} {task}", f"look {node}", f"fetch {node}", f"put {node}", f"take {node}", f"observe {node}", "seal",
        "advance", "window", "window", "cycle", f"run {random.randrange(3)}", "now", "at", f"report {node}",
        f"status {node} {channel}", f"trace {node}", f"record {random.randrange(12)}",
        f"babble {node} {channel} x{random.randbytes(random.choice((0, 9, 40))).hex()}",
        f"mute {node} {channel}", f"corrupt {channel} {random.randrange(90)}", "forget",
        fault_line(random, node, channel)))


def fault_line(random, node, channel):
    """Returns a fault line for a world of some cycles. It may be refused."""
    where = f"{channel} {random.choice('**0123')} {random.choice(('s*', 's1', 's3', 's4', 'm1', 'm5'))}"
    return random.choice((f"babble {node} {where} x{random.randbytes(9).hex()}", f"mute {node} {where}",
                          f"corrupt {where} {random.randrange(90)}"))


def session(random):
    """Returns requests to the world of the three nodes of the examples."""
    return "".join(f"{request(random, 3)}\n" for _ in range(random.randint(0, 60))).encode()


def write_largest_version3(cluster, scenario):
    """Writes a cluster of sixteen nodes, and a scenario of as many lines and calls in 1,024 cycles as there can be."""
    node = ('[[node]]\nhost_entries = 16384\nslot_entries = 65536\n'
            'queue = {capacity = 2, first = 1, last = 2, channels = "AB"}\n')
    values = "".join(f"{key} = {value}\n" for key, value in zip(KEYS, (2, 0, 2, 10, 1, 0, 5, 25, 0, 1)))
    cluster.write_text(f"[params]\n{values}" + "".join(f'{node}name = "node-{it}"\n' for it in range(16)))
    calls = [f"pop node-{it} 0 *" for it in range(16) for _ in range(16)]
    faults = [f"mute node-{it % 16} AB {it // 16 * 4}-{it // 16 * 4 + 3} s1 # lost" for it in range(3838)]
    scenario.write_text("".join(f"{line}\n" for line in ("frscenario 3", *calls, *faults, "end")))


def write_largest_session(path):
    """Writes a run of as many cycles as possible, and each node's trace of it."""
    path.write_text("run 1024\n" + "".join(f"trace {node}\n" for node in range(16)))


def write_largest_trace(path):
    """Writes the longest lawful trace: each room is full, and each payload and all observed bytes are longest."""
    windows, commits = 32_768, 16_384
    seen, payload = f"x{'00' * 262}", f"x{'00' * 254}"
    with open(path, "w", encoding="ascii") as out:
        out.write("frtrace 1\nparams 3 4 1 20 5 0 10 90 0 5\nnode 8 0 0 16384 65536\n")
        out.write("tx event 2000 A 0 1 127 0\n" + "rx 2 AB 0 1\n" * 63 + "queue 256 1 2047 AB 0 1\nbegin\n")
        out.writelines(f"commit 7 0 {payload}\n" for _ in range(commits))
        out.writelines(f"fetch {it} 63 0 1 1 - -\nsee {it} {seen} {seen}\n" for it in range(windows))
        out.write("end\n")


def write_largest_cluster(path):
    """Writes a cluster file of as many bytes as possible, most of them numbers under a key that isn't read."""
    text = f"spare = [{'1,' * 500_000}]\n".encode() + (EXAMPLES / "vehicle/cluster.toml").read_bytes()
    path.write_bytes(text + b"#" * (FILE_LIMIT - len(text)))


def write_largest_scenario(path):
    """Writes a scenario of as many lines as possible for one cycle of the vehicle of the examples."""
    places = [f"{node} {channel} 0 m{it}" for node in range(9) for channel in "AB" for it in range(1, 241)]
    lines = "".join(f"babble {place} x{'00' * 40}\n" for place in places[:4094])
    path.write_text(f"frscenario 1\n{lines}end\n")
