"""The reading of a network file: all faults at once, each with its place."""
from collections.abc import Iterable, Iterator, Sequence
from fractions import Fraction
from typing import Any

from musmyrtle.cluster import GUARDS, MOST_NODES, PARAMETERS, REPETITIONS, Fault, Reader
from musmyrtle.design.network import CHOICES, DYNAMIC, EITHER, STATIC, Message, Network, NodeWish
from musmyrtle.findings import MOST_REASONS, joined, nearest, shown
from musmyrtle.lint.physical import is_number
from musmyrtle.names import LINE_NAME, RIGHT_NAME
from musmyrtle.places import Path
from musmyrtle.signals.exact import exact_in_file
from musmyrtle.signals.reading import MOST_SIGNALS, SIGNAL_KEYS, SignalReading, TableReader
from musmyrtle.texts import Text

TOP_KEYS = ("guard", "physical", "params", "node", "message")
NODE_KEYS = ("name", "tasks", "sync", "startup")
MESSAGE_KEYS = ("name", "sender", "receivers", "bytes", "bits", "signal", "period_ms", "period_cycles", "deadline_ms",
                "deadline_cycles", "sporadic", "segment", "channels", "guarded", "slot", "base", "repetition", "kind")
SIGNAL_OF_BITS = tuple(it for it in SIGNAL_KEYS if it not in ("name", "bit", "bits", "bytes", "update", "when"))
"""The keys of a signal that a message with `bits` may have."""
MOST_MESSAGES, MOST_CHOICES = 100_000, 64
LONGEST_TIME = 2**40
LONGEST_FRAME = 254


class NetworkReading:
    """The reading of a document: the network, as far as there is one, and its faults in the order of the file."""

    def __init__(self, text: Text, has_parameters: bool = True) -> None:
        """HAS_PARAMETERS is false where a kept cluster file has the parameters."""
        self.text, self.document = text, text.document
        self.faults: list[Fault] = []
        self.network = Network(text)
        self.has_parameters = has_parameters
        self.unknown_keys(self.document, TOP_KEYS, (), "the file")
        self.read_guard()
        self.read_physical()
        self.read_params()
        self.numbers: dict[str, int] = {}
        self.read_nodes()
        self.read_messages()

    def fault(self, name: str, headline: str, reason: str, path: Path = (),
              notes: tuple[tuple[str, Path], ...] = ()) -> None:
        """Keeps a fault."""
        self.faults.append(Fault(name, headline, reason, path, notes))

    def unknown_keys(self, table: dict[str, Any], known: Sequence[str], path: Path, who: str) -> None:
        """Keeps a fault for each key that is none of the table's: a slip there would change the schedule silently."""
        for key in table:
            if key not in known:
                meant = nearest(key, list(known)) if len(self.faults) < MOST_REASONS else None
                hint = f"Is `{meant}` meant?" if meant else f"Expected {joined([f'`{it}`' for it in known], 'or')}."
                self.fault("UnknownKey", f"{who} has the unknown key {shown(key)}", hint, (*path, key))

    # ---- the cycle

    def read_guard(self) -> None:
        guard = self.document.get("guard", "AB")
        if guard not in GUARDS or not isinstance(guard, str):
            self.fault("BadGuard", f"`guard` is {shown(guard)}",
                       f"Expected {joined([shown(it) for it in GUARDS], 'or')}.", ("guard",))
        else:
            self.network.guard = guard

    def read_physical(self) -> None:
        table = self.document.get("physical", {})
        if not isinstance(table, dict):
            self.fault("BadPhysical", f"`physical` is {shown(table)}", "Expected a table.", ("physical",))
            return
        self.unknown_keys(table, ("bit_rate", "macrotick_us"), ("physical",), "`[physical]`")
        for key in ("bit_rate", "macrotick_us"):
            value = table.get(key)
            if is_number(value):
                setattr(self.network, key, value)
            elif key in table:
                self.fault("BadPhysical", f"`{key}` of `[physical]` is {shown(value)}",
                           "Expected a number from 1e-6 to 1e12.", ("physical", key))

    def read_params(self) -> None:
        table = self.document.get("params", {})
        if not isinstance(table, dict):
            self.fault("BadParams", f"`params` is {shown(table)}", "Expected a table.", ("params",))
            return
        self.unknown_keys(table, tuple(PARAMETERS), ("params",), "`[params]`")
        for key in PARAMETERS:
            if key in table:
                self.read_choices(key, table[key])
        if "cycle_mt" not in table and self.has_parameters:
            self.fault("BadParams", "`[params]` has no `cycle_mt`",
                       "Expected the macroticks of the cycle, or an array of numbers to choose from.", ("params",))

    def read_choices(self, key: str, value: object) -> None:
        least, most = PARAMETERS[key]
        found: Sequence[int] | None = None
        if type(value) is int:
            found = (value,)
        elif isinstance(value, list) and 0 < len(value) <= MOST_CHOICES and are_numbers(value):
            found = tuple(dict.fromkeys(value))
        elif isinstance(value, dict) and set(value) == {"from", "to"} and are_numbers(value.values()):
            found = range(value["from"], min(value["to"], most + 1) + 1)
        if found and all(least <= it <= most for it in (min(found), max(found))):
            self.network.params[key] = found
            return
        right = f"Expected a whole number from {least} to {most}, an array of at most {MOST_CHOICES} such numbers, or "
        self.fault("BadParams", f"`{key}` of `[params]` is {shown(value)}",
                   right + "a range {from = .., to = ..} of them.", ("params", key))

    # ---- nodes

    def tables(self, key: str, most: int) -> Iterator[tuple[dict[str, Any], Path]]:
        """Yields the tables of an array at the top of the file."""
        held = self.document.get(key, [])
        if not isinstance(held, list) or not 1 <= len(held) <= most:
            found = f"{len(held)} tables `[[{key}]]`" if isinstance(held, list) and held else f"no `[[{key}]]`"
            found = found if isinstance(held, list) else f"`{key}`, which is {shown(held)}"
            self.fault(f"Bad{key.capitalize()}", f"the file has {found}",
                       f"Expected 1 to {most} tables `[[{key}]]`.", (key,))
            return
        for number, table in enumerate(held):
            if isinstance(table, dict):
                yield table, (key, number)
            else:
                self.fault(f"Bad{key.capitalize()}", f"item {number} of `{key}` is {shown(table)}", "Expected a table.",
                           (key, number))

    def name_of(self, table: dict[str, Any], path: Path, kind: str, taken: dict[str, Path]) -> str | None:
        """Returns the name of a table, if it is one and no other table of its kind has it."""
        value = table.get("name")
        if not isinstance(value, str) or not LINE_NAME.fullmatch(value):
            found = f"is {shown(value)}" if "name" in table else "is missing"
            self.fault(f"Bad{kind.capitalize()}", f"the `name` of {kind} {path[1]} {found}", f"Expected {RIGHT_NAME}.",
                       (*path, "name") if "name" in table else path)
            return None
        if value.isdigit():
            self.fault(f"Bad{kind.capitalize()}", f"the name of {kind} {value} is a number",
                       "Expected a name with a letter, since scenarios take numbers for numbers.", (*path, "name"))
            return None
        if value in taken:
            self.fault(f"Bad{kind.capitalize()}", f"two {kind}s have the name {value}", "Expected each name once.",
                       (*path, "name"), (("the first one", (*taken[value], "name")),))
            return None
        taken[value] = path
        return value

    def read_nodes(self) -> None:
        taken: dict[str, Path] = {}
        for table, path in self.tables("node", MOST_NODES):
            name = self.name_of(table, path, "node", taken)
            who = f"node {name or path[1]}"
            self.unknown_keys(table, NODE_KEYS, path, who)
            reader = Reader(table, path, who, "BadNode", NODE_KEYS, self.faults)
            tasks, is_sync, is_startup = reader.number("tasks", 1, 8, 1), reader.flag("sync"), reader.flag("startup")
            if is_startup and not is_sync:
                reader.wrong("startup", "`sync = true` beside it: a startup frame is a sync frame as well")
            if name is not None:
                self.numbers[name] = len(self.network.nodes)
                self.network.nodes.append(NodeWish(name, tasks, is_sync, is_startup))

    # ---- messages

    def read_messages(self) -> None:
        taken: dict[str, Path] = {}
        for table, path in self.tables("message", MOST_MESSAGES):
            before = len(self.faults)
            name = self.name_of(table, path, "message", taken)
            reading = MessageReading(self, table, path, name or str(path[1]))
            message = reading.read()
            if len(self.faults) == before and message is not None:
                self.network.messages.append(message)


def are_numbers(values: Iterable[object]) -> bool:
    """Returns whether all values are whole numbers."""
    return all(type(it) is int for it in values)


class MessageReading:
    """The reading of one table `[[message]]`."""

    def __init__(self, network: NetworkReading, table: dict[str, Any], path: Path, name: str) -> None:
        self.network, self.table, self.path, self.name = network, table, path, name
        self.who = f"message {name}"
        self.reader = Reader(table, path, self.who, "BadMessage", MESSAGE_KEYS, network.faults)

    def wrong(self, key: str, reason: str, headline: str = "") -> None:
        """Keeps a fault of a key."""
        found = headline or f"`{key}` of {self.who} is {shown(self.table.get(key))}"
        place = (*self.path, key) if key in self.table else self.path
        self.network.fault("BadMessage", found, reason, place)

    def contradiction(self, headline: str, reason: str, key: str, *others: str) -> None:
        """Keeps a fault of keys that can't stand beside one another."""
        notes = tuple((f"`{it}`", (*self.path, it)) for it in others if it in self.table)
        self.network.fault("Contradiction", headline, reason, (*self.path, key), notes)

    def read(self) -> Message | None:
        """Returns the message, which counts only if no fault was found."""
        known = (*MESSAGE_KEYS, *SIGNAL_OF_BITS) if "bits" in self.table else MESSAGE_KEYS
        self.network.unknown_keys(self.table, known, self.path, self.who)
        sender, receivers = self.nodes()
        length, bits, signals = self.content()
        is_sporadic = self.reader.flag("sporadic")
        segment = self.reader.word("segment", (STATIC, DYNAMIC)) if "segment" in self.table else \
            DYNAMIC if is_sporadic and self.table.get("guarded") is not True else STATIC
        channels = self.reader.word("channels", CHOICES) if "channels" in self.table else EITHER
        kind = self.reader.word("kind", ("event", "state")) if "kind" in self.table else \
            "event" if is_sporadic else "state"
        self.check_guard(segment, channels)
        period, deadline = self.time("period"), self.time("deadline")
        if period is None:
            self.missing_period()
            return None
        if deadline is None and is_sporadic:
            deadline = period
        return Message(self.name, sender, receivers, length, period, deadline, is_sporadic, segment == STATIC, channels,
                       *self.fixed(segment, bits), kind, bits, signals, self.path)

    def missing_period(self) -> None:
        if not any(f"period_{it}" in self.table for it in ("ms", "cycles")):
            what = "the least time between two commits" if self.table.get("sporadic") is True else \
                "the time from one value to the next"
            self.wrong("period_ms", f"Expected `period_ms` or `period_cycles`, {what}.", f"{self.who} has no period")

    def nodes(self) -> tuple[int, tuple[int, ...]]:
        """Returns the sender and the receivers."""
        sender, numbers = self.table.get("sender"), self.network.numbers
        if not isinstance(sender, str) or sender not in numbers:
            self.unknown_node("sender", sender, "sender" in self.table)
        held = self.table.get("receivers", [])
        names = held if isinstance(held, list) else [held]
        for it in names:
            if not isinstance(it, str) or it not in numbers:
                self.unknown_node("receivers", it, True)
            elif it == sender:
                self.contradiction(f"{self.who} has its sender {it} as a receiver", "Expected other nodes there.",
                                   "receivers", "sender")
        found = dict.fromkeys(numbers[it] for it in names if isinstance(it, str) and it in numbers)
        return numbers.get(sender, 0) if isinstance(sender, str) else 0, tuple(found)

    def unknown_node(self, key: str, word: object, is_there: bool) -> None:
        names = list(self.network.numbers)
        meant = nearest(word, names) if isinstance(word, str) and len(self.network.faults) < MOST_REASONS else None
        hint = f" Is {meant} meant?" if meant else f" The nodes are {joined(names)}." if names else ""
        self.wrong(key, f"Expected the name of a node.{hint}",
                   f"`{key}` of {self.who} has {shown(word)}, which is no node" if is_there else
                   f"{self.who} has no `{key}`")

    def content(self) -> tuple[int, int, tuple[dict[str, Any], ...]]:
        """Returns the bytes of the frame, or the bits of a signal, and the tables of signals."""
        given = [it for it in ("bits", "signal", "bytes") if it in self.table]
        if not given:
            self.wrong("bytes", "Expected `bytes`, the length of its frame; or `bits` of a signal that shares one; or "
                       "`signal`, an array of signals.", f"{self.who} has no length")
            return 0, 0, ()
        if "bits" in self.table:
            if len(given) > 1:
                self.contradiction(f"{self.who} has `bits` and `{given[1]}`", "Expected one of both.", given[1], "bits")
            bits = self.reader.number("bits", 1, 64)
            keys = {key: self.table[key] for key in SIGNAL_OF_BITS if key in self.table}
            self.check_signal({"name": self.name, "bit": 7 if keys.get("order") == "big" else 0, "bits": bits, **keys},
                              self.path, self.who)
            return 0, bits, ({"name": self.name, "bits": bits, **keys},)
        signals = self.signal_tables()
        length = self.reader.number("bytes", 0, 254) if "bytes" in self.table else 0
        needed = -(-max((it["bit"] + it["bits"] for it in signals), default=0) // 8)
        if "bytes" in self.table and length < needed:
            self.contradiction(f"{self.who} has {length} bytes, and its signals need {needed}",
                               f"Expected `bytes` of at least {needed}, or fewer signals.", "bytes", "signal")
        return max(length, needed), 0, signals

    def check_signal(self, table: dict[str, Any], path: Path, who: str) -> None:
        """Keeps the faults of a signal, as `lint` finds them in the tables `[[frame]]` of a cluster file."""
        reader = TableReader(table, path, who, "BadSignal", SIGNAL_KEYS, self.network.faults)
        if reader.name() is not None:
            SignalReading(reader, self.name, LONGEST_FRAME).read()

    def signal_tables(self) -> tuple[dict[str, Any], ...]:
        """Returns the signals of a frame. One without `bit` comes after the one before it."""
        held = self.table.get("signal", [])
        if not isinstance(held, list) or len(held) > MOST_SIGNALS or not all(isinstance(it, dict) for it in held):
            self.wrong("signal", f"Expected an array of at most {MOST_SIGNALS} tables.")
            return ()
        found, end = [], 0
        for it in held:
            bits, order = it.get("bits"), it.get("order", "little")
            if type(bits) is not int or not 1 <= bits <= 2032 or "bit" not in it and order != "little":
                self.wrong("signal", "Expected `bits` from 1 to 64 in each signal, and `bit` in one whose `order` is "
                           '"big".', f"a signal of {self.who} has no usable bits")
                return ()
            at = it.get("bit", end)
            if type(at) is not int or not 0 <= at < 2032:
                self.wrong("signal", "Expected `bit` from 0 to 2031.", f"a signal of {self.who} has a wrong `bit`")
                return ()
            end = max(end, at + bits if order == "little" else 8 * (at // 8 + 1))
            found.append({**it, "bit": at})
            self.check_signal(found[-1], (*self.path, "signal", len(found) - 1), f"a signal of {self.who}")
        return tuple(found)

    def check_guard(self, segment: str, channels: str) -> None:
        """Notes a guarded message that no bus guardian can protect."""
        if not self.reader.flag("guarded"):
            return
        guard = "" if self.network.network.guard == "none" else self.network.network.guard
        if segment == DYNAMIC:
            self.contradiction(f"{self.who} is guarded, and in the dynamic segment",
                               "Bus guardians protect static slots alone. Expected `segment = \"static\"`, or no "
                               "`guarded`.", "guarded", "segment")
        elif channels != EITHER and not set(channels) <= set(guard) or not guard:
            self.contradiction(f"{self.who} is guarded, and `guard` of the file is {shown(guard or 'none')}",
                               "Expected `guard` with the channels of the message.", "guarded", "channels")

    def time(self, what: str) -> int | None:
        """Returns a time in macroticks, or in cycles as a negative number, or None without one."""
        given = [key for key in (f"{what}_ms", f"{what}_cycles") if key in self.table]
        if len(given) == 2:
            self.contradiction(f"{self.who} has `{given[0]}` and `{given[1]}`", "Expected one of both.", *given)
        if not given:
            return None
        key, value = given[0], exact_in_file(self.table[given[0]]) or Fraction(0)
        if key.endswith("cycles"):
            if value.denominator == 1 and 1 <= value <= LONGEST_TIME:
                return -int(value)
            self.wrong(key, "Expected a whole number of cycles, at least 1.")
            return None
        macrotick = exact_in_file(self.network.network.macrotick_us) or Fraction(1)
        found = value * 1000 / macrotick
        if not 1 <= found <= LONGEST_TIME:
            self.wrong(key, "Expected milliseconds above 0: at least one macrotick, and at most 2^40 macroticks.")
            return None
        return int(found)

    def fixed(self, segment: str, bits: int) -> tuple[int | None, int | None, int | None]:
        """Returns the slot, base and repetition that the file fixes."""
        if bits and "slot" in self.table:
            self.contradiction(f"{self.who} has a `slot`, and is a signal of a frame with others",
                               "Expected `bytes` or `signal` in a message with a slot.", "slot", "bits")
        slot = self.reader.number("slot", 1, 2047) if "slot" in self.table else None
        repetition = self.table.get("repetition")
        if repetition is not None and (type(repetition) is not int or repetition not in REPETITIONS):
            self.wrong("repetition", f"Expected {joined([str(it) for it in REPETITIONS], 'or')}.")
            repetition = None
        base = self.reader.number("base", 0, 63) if "base" in self.table else None
        for key in ("base", "repetition"):
            if key in self.table and "slot" not in self.table:
                self.contradiction(f"{self.who} has `{key}`, and no `slot`", "Expected both or none.", key)
        if base is not None and base >= (repetition or 1):
            self.wrong("base", f"Expected a number below `repetition`, which is {repetition or 1}.")
        return slot, base, repetition
