"""Checks of cluster files, each with one fault or at the border of one, and of one cluster in many forms."""
import re

from .cycles import SMALL_CYCLE
from .runner import EXAMPLES, refused

SMALL = b"params 3 10 1 20 5 4 6 120 1 4\n", b"", 0


BOUNDS = {
    "static_slots": (2, 1023), "minislots": (0, 8000), "static_words": (0, 127), "static_mt": (1, 1000),
    "minislot_mt": (1, 100), "symbol_mt": (0, 1000), "nit_mt": (1, 1000), "cycle_mt": (4, 20000), "idle": (0, 2),
    "words_per_minislot": (1, 127),
}
"""The least and the greatest value of each parameter."""

PHYSICAL = "[physical]\nbit_rate = 10_000_000\nmacrotick_us = 1\n"
KINDS = '[1.5, -inf, 1979-05-27T07:32:00Z, {at = 07:32, is = true, text = "x"}]'


def with_dots(text):
    """Returns the text of a cluster with dotted keys of the root in place of the table `params`."""
    return re.sub(rf"^({'|'.join(BOUNDS)}) = ", r"params.\1 = ", text.replace("[params]\n", ""), flags=re.MULTILINE)


def with_headers(text):
    """Returns the text of a cluster with a header for each queue and each buffer, which stand last in their nodes."""
    lines = []
    for line in text.splitlines():
        if line.startswith(("queue = {", "  {")):
            pairs = line.removeprefix("queue = ").strip(" {},").split(", ")
            lines += ["[[node.buffer]]" if line.startswith(" ") else "[node.queue]", *pairs]
        elif line not in ("buffer = [", "]"):
            lines.append(line)
    return "".join(f"{line}\n" for line in lines)


def in_one_array(text):
    """Returns the text of a cluster with its nodes as inline tables of one array in the root."""
    head, *nodes = text.split("[[node]]\n")
    tables = ["{" + re.sub(r"\n(?=\w)", ",\n", node.strip()) + "}" for node in nodes]
    return f"node = [{', '.join(tables)}]\n{head}"


def spelled(text):
    """Yields the text of a cluster with other spellings of lines, keys and values, each with its name."""
    yield "a byte order mark comes first", f"\ufeff{text}"
    yield "lines end with carriage returns", text.replace("\n", "\r\n")
    yield "comments stand in all lines", text.replace("\n", " # [[node]] \xe4 = {\n")
    yield "no line feed ends the file", text.rstrip("\n")
    yield "a comment ends the file", f"{text}#"
    quoted = re.sub(r"(\w+) = ", r'"\1" = ', text)
    yield "keys are in quotes", quoted.replace("[params]", "['params']").replace("[[node]]", '[["node"]]')
    yield "a key has escapes", text.replace("tasks", '"t\\u0061s\\x6Bs"')
    yield "strings are literal", text.replace('"', "'")
    yield "strings have three quotes", text.replace('"', '"""')
    yield "headers have blanks", text.replace("[params]", " [ params\t]").replace("[[node]]", "\t[[ node ]] ")
    yield "pairs have no blanks", text.replace(" = ", "=")
    based = text.replace("static_mt = 20", "static_mt = 0x14").replace("latest_a = 4", "latest_a = 0b1_00")
    yield "numbers have a base or a sign", based.replace("cycle_mt = 90", "cycle_mt = +9_0")
    yield "arrays have many lines", text.replace("[{", "[\n# {\n{\n").replace("}]", "\n,}\n,\n]")


def ordered(text):
    """Yields the text of a cluster with its tables in other places and forms, each with its name."""
    head, nodes = text.split("[[node]]\n", 1)
    guard, params = head.split("\n", 1)
    first, more = nodes.split("[[node]]\n", 1)
    yield "a table comes before the parameters", text.replace("[params]", f"{PHYSICAL}[params]")
    yield "a table comes after the parameters", text.replace("[[node]]", f"{PHYSICAL}[[node]]", 1)
    yield "a table comes between two nodes", f"{head}[[node]]\n{first}{PHYSICAL}[[node]]\n{more}"
    yield "a table comes after the nodes", f"{text}{PHYSICAL}"
    yield "the parameters come after the nodes", f"{guard}\n[[node]]\n{nodes}{params}"
    pairs = ", ".join(re.findall(r"^\w+ = \d+$", params, re.MULTILINE))
    yield "the parameters are an inline table", f"{guard}\nparams = {{{pairs}}}\n[[node]]\n{nodes}"
    yield "the parameters have dotted keys", with_dots(text)
    queue = re.search(r"queue = {(.*)}", text)
    dotted = "\n".join(f"queue.{pair}" for pair in queue[1].split(", "))
    yield "a queue has dotted keys", text.replace(queue[0], dotted)
    yield "queues and buffers have headers", with_headers(text)
    yield "the nodes are an inline array", in_one_array(text)


def enriched(text):
    """Yields the text of a cluster with tables, keys and values that have no meaning, each with its name."""
    yield "tables are empty", text.replace("[params]", "[a]\n[b]\n[params]")
    yield "tables have dots", text.replace("[params]", "[params.more.of]\n[b.c]\n[b]\n[params]")
    yield "another array of tables comes first", text.replace("[params]", "[[task]]\n[[task]]\n[params]")
    root = 'guard = "none"\nnode = 1\nparams = 2\n'
    yield "another table has the keys of the root", text.replace("[params]", f"[physical]\n{root}[params]")
    yield "the parameters have the keys of the root", text.replace("[params]\n", f"[params]\n{root}")
    yield "nodes have the keys of the root", text.replace("tasks", f"{root}tasks")
    yield "nodes have values of all kinds", text.replace("tasks", f"note = {KINDS}\ntasks")
    yield "80 arrays stand in one another", text.replace("tasks", f"note = {'[' * 80}{']' * 80}\ntasks")


def broken(text):
    """Yields the text of a cluster with single faults by which it is no TOML, each with its name."""
    yield "the guard stands twice", f'guard = "A"\n{text}'
    for key in ("params = {}", "params.idle = 0", "node = 1", "node = []"):
        yield f"`{key}` comes before its header", f"{key}\n{text}"
    for header in ("params", "guard", "node"):
        yield f"`[{header}]` comes before the nodes", text.replace("[[node]]", f"[{header}]\n[[node]]", 1)
    yield "a table has a key twice", text.replace("[params]", "[physical]\nname = 1\n'name' = 1\n[params]")
    yield "an inline table has a key twice", text.replace("{slot = 2,", "{slot = 2, slot = 2,")
    for key in ("latest_a", '"latest_a"', "latest_a.x"):
        yield f"the last node has `latest_a` and `{key}`", text.replace("latest_a = 4", f"latest_a = 4\n{key} = 4")
    for header in ("[[node]] x", "[[node]", "[[node] ]", "[[node]]]", "[[]]", "[node"):
        yield f"the last header is `{header}`", header.join(text.rsplit("[[node]]", 1))
    for pair in ("latest_a = 4 x", "latest_a = 4, ", "latest_a = ", "latest_a", "latest_a = [4 4]", "latest_a = {,}"):
        yield f"the last node has `{pair}`", text.replace("latest_a = 4", pair)
    yield "81 arrays stand in one another", f"{text}note = {'[' * 81}{']' * 81}\n"
    for name, end in (("pair", "x = 1"), ("comment", "#")):
        yield f"a lone carriage return follows a {name}", f"{text}{end}\r"
        yield f"a control character is in a {name}", f"{text}{end}\x01\n"
    yield "two byte order marks come first", f"\ufeff\ufeff{text}"
    yield "a byte order mark begins the second line", text.replace("\n", "\n\ufeff", 1)
    yield "a key has a letter with the first byte of that mark", f"\ufb01 = 1\n{text}"
    yield "a node at fault comes before another line", text.replace("tasks = 2", "tasks = 9", 1) + "x\n"
    yield "a 17th node has another line", text + "[[node]]\n" * 14 + "x\n"


class Clusters:
    """Cluster files, each with one fault or at the border of one."""

    def __init__(self, runs, folder):
        self.runs, self.path = runs, folder / "cluster.toml"
        self.three = (EXAMPLES / "three-nodes/cluster.toml").read_text()

    def check(self, name, text, wanted):
        self.path.write_text(text)
        self.runs.check(f"check where {name}", ["check", self.path], wanted)

    def node(self, name, node, wanted):
        """Does the same for the small cycle with this one node."""
        self.check(name, f"{SMALL_CYCLE}[[node]]\n{node}\n", wanted)

    def files(self):
        self.check("the file is no TOML", "guard =", refused("Toml"))
        self.check("the parameters are no table", "guard = 1\nparams = 7", refused("Params Missing static_slots"))
        self.check("the last parameter is missing", SMALL_CYCLE.replace("words_per_minislot = 4\n", "[[node]]\n"),
                   refused("Params Missing words_per_minislot"))
        self.check("a parameter is no number", SMALL_CYCLE.replace("idle = 1", "idle = true"),
                   refused("Params NotANumber idle"))
        self.check("a parameter is out of range", SMALL_CYCLE.replace("idle = 1", "idle = -1"),
                   refused("Params OutOfRange idle"))
        self.check("the guard is no channels", f'guard = "BA"\n{SMALL_CYCLE}', refused("BadGuard"))
        self.check("there is no node", SMALL_CYCLE, refused("TooManyNodes"))
        self.check("the node is a table", f"{SMALL_CYCLE}[node]\n", refused("TooManyNodes"))
        self.check("there are 17 nodes", SMALL_CYCLE + "[[node]]\n" * 17, refused("TooManyNodes"))
        self.check("the second node is a number", f"node = [{{}}, 1]\n{SMALL_CYCLE}", refused("BadNode 1"))

    def forms(self):
        """Checks one cluster in other forms: `check` and `plan` have the same output for each of them."""
        wanted = {command: ((EXAMPLES / "three-nodes" / command).read_bytes(), b"", 0) for command in ("check", "plan")}
        for name, text in (*spelled(self.three), *ordered(self.three), *enriched(self.three)):
            self.path.write_bytes(text.encode())
            for command, told in wanted.items():
                self.runs.check(f"{command} where {name}", [command, self.path], told)
        nodes = "[[node]]\n" * 13
        self.check("there are 16 nodes", self.three + nodes, wanted["check"])
        self.check("the 16th node is at fault", f"{self.three}{nodes}tasks = 9\n", refused("BadNode 15"))
        self.check("the 17th node is at fault", f"{self.three}{nodes}[[node]]\ntasks = 9\n", refused("TooManyNodes"))

    def no_toml(self):
        """Checks files that are no TOML by one fault, whatever the nodes before it are."""
        for name, text in broken(self.three):
            self.path.write_bytes(text.encode())
            self.runs.check(f"check where {name}", ["check", self.path], refused("Toml"))

    def nodes(self):
        bad = refused("BadNode 0")
        self.node("a node has 9 tasks", "tasks = 9", bad)
        self.node("a number of tasks is a float", "tasks = 1.0", bad)
        self.node("a latest minislot isn't there", "latest_b = 11", bad)
        self.node("a slot that is owned isn't static", 'own = [{slot = 4, channels = "A"}]', bad)
        self.node("a startup frame is no sync frame", 'own = [{slot = 1, channels = "A", startup = true}]', bad)
        self.node("a queue goes backwards", 'queue = {capacity = 1, first = 5, last = 4, channels = "A"}', bad)
        self.node("a buffer is no table", 'buffer = [{kind = "none"}, 7]', bad)
        receive = '{kind = "receive", slot = 9, channels = "A"'
        self.node("a buffer has no kind", f'buffer = [{receive}}}, {{kind = "none"}}]', refused("BadBuffer 0 1"))
        self.node("keys without a meaning are there", f'buffer = [{receive}, preamble = 1, words = "x"}}]', SMALL)
        state = 'buffer = [{kind = "state", slot = 1, channels = "A", words = 500}]'
        self.node("such keys are there in a static slot", f'own = [{{slot = 1, channels = "A", words = "x"}}]\n{state}',
                  SMALL)
        for cycles in ('base = "x"', "base = 1", "repetition = 3", "base = 2, repetition = 2",
                       "base = -1, repetition = 2", "repetition = 128"):
            self.node(f"a slot is owned with {cycles}", f'own = [{{slot = 1, channels = "A", {cycles}}}]', bad)

    def faults(self):
        """Checks faults among the lines of all nodes."""
        own, buffer = "own = [{slot = 2,", '  {kind = "receive", slot = 2, channels = "A"},\n'
        self.check("a slot has two owners", self.three.replace(own, 'own = [{slot = 1, channels = "AB"}, {slot = 2,'),
                   refused("Overlap 1 A 0"))
        third = '  {kind = "event", slot = 4, channels = "A", base = 1, repetition = 2, words = 1},\n'
        self.check("a divided slot overlaps", self.three.replace(buffer, buffer + third), refused("Overlap 4 A 1"))
        state = 'buffer = [{kind = "state", slot = 2, channels = "AB"}]'
        self.node("a slot is owned on one channel", f'own = [{{slot = 2, channels = "A"}}]\n{state}',
                  refused("NotOwned 0 0"))
        halves = 'own = [{slot = 2, channels = "A"}, {slot = 2, channels = "B"}]'
        self.node("a slot is owned by two lines", f"{halves}\n{state}", SMALL)
        both = 'buffer = [{kind = "state", slot = 9, channels = "AB", words = 0}]'
        self.node("a dynamic buffer is for both channels", both, refused("DynamicBoth 0 0"))
        late = 'buffer = [{kind = "event", slot = 8, channels = "A", words = 4}]'
        self.node("four words begin at the tenth minislot", f"latest_a = 10\n{late}", refused("TooLong 0 0"))
        self.node("four words begin at the ninth", f"latest_a = 9\n{late}", SMALL)

    def divided(self):
        """Checks static slots that nodes divide by cycles."""
        cluster = (EXAMPLES / "divided-slot/cluster.toml").read_text()
        accepted = (EXAMPLES / "divided-slot/check").read_bytes(), b"", 0
        line = '{slot = 3, channels = "A", base = 0, repetition = 2}'
        self.check("two nodes share a cycle",
                   cluster.replace(line, line.replace("base = 0, repetition = 2", "base = 1, repetition = 4")),
                   refused("Overlap 3 A 1"))
        self.check("a node owns another's slot", cluster.replace(line, '{slot = 2, channels = "AB"}'),
                   refused("Overlap 2 A 0"))
        buffer = '  {kind = "receive", slot = 2, channels = "A"},\n'
        third = '  {kind = "event", slot = 3, channels = "A"%s},\n'
        self.check("a buffer is for the cycles of another node", cluster.replace(buffer, buffer + third % "", 1),
                   refused("NotOwned 0 2"))
        self.check("a buffer is for its node's cycles",
                   cluster.replace(buffer, buffer + third % ", base = 0, repetition = 2", 1), accepted)
        self.check("a buffer is for one of its node's cycles",
                   cluster.replace(buffer, buffer + third % ", base = 62, repetition = 64", 1), accepted)
        own = ('own = [{slot = 2, channels = "A", base = %d, repetition = %d},'
               ' {slot = 2, channels = "A", base = %d, repetition = %d}]\n')
        state = 'buffer = [{kind = "state", slot = 2, channels = "A"%s}]'
        for (one, other), cycles, wanted in (
            (((0, 2), (1, 2)), "", SMALL),
            (((0, 2), (1, 4)), "", refused("NotOwned 0 0")),
            (((0, 2), (1, 4)), ", base = 1, repetition = 4", SMALL),
            (((0, 2), (2, 4)), ", repetition = 2", refused("Overlap 2 A 2")),
            (((0, 1), (63, 64)), "", refused("Overlap 2 A 63")),
        ):
            self.node(f"its own cycles are {one} and {other}, a buffer's {cycles or 'all'}",
                      own % (*one, *other) + state % cycles, wanted)
        taken = 'own = [{slot = 3, channels = "B"}, {slot = 3, channels = "B"}]\n'
        twice = ('buffer = [{kind = "event", slot = 4, channels = "A", words = 1},'
                 ' {kind = "event", slot = 4, channels = "A", words = 1}]')
        self.node("lines and buffers overlap", f"{taken}{twice}", refused("Overlap 3 B 0"))

    def parameters(self):
        """Checks each parameter just below its least value and just above its greatest, and a file without any key."""
        self.check("there is no parameter", "guard = \"A\"\n[params]\n", refused("Params Missing static_slots"))
        self.check("the cycle isn't filled", SMALL_CYCLE.replace("cycle_mt = 120", "cycle_mt = 121"),
                   refused("Params CycleSum"))
        for value in ("3.0", '"3"', "true"):
            self.check(f"the static slots are {value}",
                       SMALL_CYCLE.replace("static_slots = 3", f"static_slots = {value}"),
                       refused("Params NotANumber static_slots"))
        for key, (least, greatest) in BOUNDS.items():
            line = next(line for line in SMALL_CYCLE.splitlines() if line.startswith(f"{key} "))
            for value in (least - 1, greatest + 1):
                self.check(f"{key} is {value}", SMALL_CYCLE.replace(line, f"{key} = {value}"),
                           refused(f"Params OutOfRange {key}"))

    def kinds(self):
        """Checks a node with a fault of each kind: one kind after another is reported and removed."""
        buffers = [
            '{kind = "event", slot = 7, channels = "B", words = 127}',
            '{kind = "event", slot = 6, channels = "A", words = 1}',
            '{kind = "event", slot = 6, channels = "AB", words = 1}',
            '{kind = "event", slot = 1, channels = "A"}',
        ]
        latest, twice = ("latest_a = 10\nlatest_b = 10\n",
                         'own = [{slot = 3, channels = "A"}, {slot = 3, channels = "A"}]\n')
        both, alone = buffers[:3], [*buffers[:2], buffers[2].replace("AB", "A")]
        for told, own, left in (("NotOwned 0 3", twice, buffers), ("DynamicBoth 0 2", twice, both),
                                ("Overlap 3 A 0", twice, alone), ("Overlap 6 A 0", "", alone),
                                ("TooLong 0 0", "", buffers[:2])):
            self.node(f"the first fault is {told}", f"{latest}{own}buffer = [{', '.join(left)}]", refused(told))
        halves = '{kind = "event", slot = 4, channels = "A", base = %d, repetition = %d, words = 1}'
        for one, other, wanted in (((0, 2), (3, 4), SMALL), ((0, 1), (1, 2), refused("Overlap 4 A 1")),
                                   ((1, 2), (3, 4), refused("Overlap 4 A 3"))):
            self.node(f"one slot is for {one} and {other}", f"buffer = [{halves % one}, {halves % other}]", wanted)

    def full_cycle(self):
        """Checks a cycle of 1,023 static slots that 16 nodes own in turn, and a buffer for the last dynamic slot in the
        last cycle."""
        slots, length, nodes = 1023, 10, 16
        segment = slots * length
        lines = ["[params]", f"static_slots = {slots}", "minislots = 1100", "static_words = 0",
                 f"static_mt = {length}", "minislot_mt = 2", "symbol_mt = 0", "nit_mt = 10",
                 f"cycle_mt = {segment + 2210}", "idle = 0", "words_per_minislot = 1"]
        for node in range(nodes):
            owned = ", ".join(f'{{slot = {slot}, channels = "AB"}}' for slot in range(node + 1, slots + 1, nodes))
            lines += ["[[node]]", f"own = [{owned}]"]
        lines += ["latest_b = 1090",
                  'buffer = [{kind = "event", slot = 2047, channels = "B", base = 63, repetition = 64, words = 0}]']
        wanted = [f"slot {slot} {channel} {(slot - 1) % nodes} 0 1" for slot in range(1, slots + 1) for channel in "AB"]
        wanted.append("dynamic 2047 B 15 63 64")
        for node in range(nodes):
            opened = [((slot - 1) * length, slot * length) for slot in range(node + 1, slots + 1, nodes)]
            dynamic = segment, segment + 2200
            if opened[-1][1] == segment:
                dynamic = opened.pop()[0], dynamic[1]
            wanted += [f"guard {node} {channel} 0 {start} {end}"
                       for channel in "AB" for start, end in [*opened, dynamic]]
        self.path.write_text("".join(f"{line}\n" for line in lines))
        told = "".join(f"{line}\n" for line in wanted).encode()
        self.runs.check("plan of a full cycle", ["plan", self.path], (told, b"", 0))

    def windows(self):
        """Checks the open windows of guardians for a node that owns slots 1 and 2 of three, or slot 3."""
        first, last = ('own = [{slot = 1, channels = "AB"}, {slot = 2, channels = "AB"}]',
                       'own = [{slot = 3, channels = "A"}]')
        apart = [f"slot {slot} {channel} 0 0 1" for slot in (1, 2) for channel in "AB"]
        quarter = 'own = [{slot = 2, channels = "AB", base = 2, repetition = 4}]'
        short = SMALL_CYCLE.replace("minislots = 10", "minislots = 0").replace("cycle_mt = 120", "cycle_mt = 70")
        for name, text, wanted in (
            ("two slots touch", f"{SMALL_CYCLE}[[node]]\n{first}\n",
             [*apart, "guard 0 A 0 0 40", "guard 0 A 0 60 110", "guard 0 B 0 0 40", "guard 0 B 0 60 110"]),
            ("a slot touches the dynamic segment", f"{SMALL_CYCLE}[[node]]\n{last}\n",
             ["slot 3 A 0 0 1", "guard 0 A 0 40 110", "guard 0 B 0 60 110"]),
            ("channel B isn't guarded", f'guard = "A"\n{SMALL_CYCLE}[[node]]\n{first}\n',
             [*apart, "guard 0 A 0 0 40", "guard 0 A 0 60 110", "guard 0 B 0 0 110"]),
            ("there are no minislots", f"{short}[[node]]\n{first}\n", [*apart, "guard 0 A 0 0 40", "guard 0 B 0 0 40"]),
            ("a slot has no owner in three cycles of four",
             f'guard = "A"\n{SMALL_CYCLE}[[node]]\n{quarter}\n[[node]]\n',
             ["slot 2 A 0 2 4", "slot 2 B 0 2 4", "guard 0 A 0 60 110", "guard 0 A 1 60 110", "guard 0 A 2 20 40",
              "guard 0 A 2 60 110", "guard 0 A 3 60 110",
              *(f"guard {node} {channel} {cycle} {start} 110"
                for node, channel, start in ((0, "B", 0), (1, "A", 60), (1, "B", 0)) for cycle in range(4))]),
        ):
            self.path.write_text(text)
            told = "".join(f"{line}\n" for line in wanted).encode()
            self.runs.check(f"plan where {name}", ["plan", self.path], (told, b"", 0))
