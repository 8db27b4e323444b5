"""The PDUs and signals of AUTOSAR frames."""
from musmyrtle.descriptions.coding import (BIG, LITTLE, OPAQUE, When, add_bytes, as_bytes, clash_free, coded,
                                           converted, note_outside, order_of, physical_limits, say_of, with_raw,
                                           with_unit)
from musmyrtle.descriptions.collecting import Description
from musmyrtle.descriptions.conversions import conversion_of, limit
from musmyrtle.descriptions.elements import Element, every, has, needed, number, one, optional, path_of, text, truth
from musmyrtle.descriptions.network import FrameTable, SignalTable, Toml
from musmyrtle.descriptions.report import Refused, Report

PROPERTIES = "SW-DATA-DEF-PROPS-VARIANTS/SW-DATA-DEF-PROPS-CONDITIONAL"
REFERENCES = ("BASE-TYPE-REF", "COMPU-METHOD-REF", "DATA-CONSTR-REF", "UNIT-REF")
MAPPINGS = tuple(f"{it}/I-SIGNAL-TO-I-PDU-MAPPING" for it in ("I-SIGNAL-TO-PDU-MAPPINGS", "I-SIGNAL-TO-I-PDU-MAPPINGS"))
"""The second name is that of early releases of AUTOSAR 4."""
UPDATE_BIT = "UPDATE-INDICATION-BIT-POSITION"
RULE = "DATA-CONSTR-RULES/DATA-CONSTR-RULE"
ENCODINGS = {"": "", "NONE": "", "BOOLEAN": "", "2C": "signed",
             **dict.fromkeys(("IEEE754", "SINGLE", "DOUBLE"), "float")}
FIRST_BITS = {BIG: (0, 7), LITTLE: (0,), OPAQUE: (0,), "": (0,)}
"""The bits of a byte at which a PDU may begin."""


class AutosarSignals:
    """The signals of frames, each frame once."""

    def __init__(self, description: Description, report: Report) -> None:
        self.description, self.report = description, report
        self.frames: dict[int, FrameTable] = {}

    def layout(self, frame: Element) -> FrameTable:
        """Returns the signals of a frame."""
        if id(frame) not in self.frames:
            found = FrameTable(frame.name, path_of(frame), number(frame, "FRAME-LENGTH"))
            self.frames[id(frame)] = found
            for mapping in every(frame, "PDU-TO-FRAME-MAPPINGS/PDU-TO-FRAME-MAPPING"):
                with self.report.going_on():
                    self.map_pdu(found, mapping)
            clash_free(found.signals, self.report)
        return self.frames[id(frame)]

    def map_pdu(self, frame: FrameTable, mapping: Element) -> None:
        """Adds the signals of a PDU."""
        start, update, order = number(mapping, "START-POSITION"), optional(mapping, UPDATE_BIT), one(
            mapping, "PACKING-BYTE-ORDER")
        word = order.text if order is not None else ""
        if order is not None and word not in FIRST_BITS:
            order_of(word, order, 8)
        if start % 8 not in FIRST_BITS[word]:
            raise Refused("PduPosition", path_of(mapping), f"the PDU begins at bit {start}, and expected is a byte")
        reference = needed(mapping, "PDU-REF")
        self.pdu(frame, self.description.referred(reference), start // 8, [] if update is None else [update], ())

    def pdu(self, frame: FrameTable, pdu: Element, at: int, update: list[int], when: When) -> None:
        """Adds the signals of a PDU that begins at a byte."""
        self.add_pattern(frame, pdu)
        first, length = len(frame.signals), optional(pdu, "LENGTH")
        self.add_signals(frame, pdu, at, update, when)
        if length is not None:
            note_outside(frame, pdu.name, at + length, frame.signals[first:], self.report)

    def add_signals(self, frame: FrameTable, pdu: Element, at: int, update: list[int], when: When) -> None:
        """Adds the signals of a PDU of any kind."""
        if pdu.tag == "MULTIPLEXED-I-PDU":
            if when:
                raise Refused("NestedSelector", path_of(pdu), "a multiplexed PDU in another one has no form in a "
                              "cluster file")
            self.multiplexed(frame, pdu, at, update)
            return
        mappings = [it for path in MAPPINGS for it in every(pdu, path)]
        if not mappings:
            add_bytes(frame, pdu, optional(pdu, "LENGTH"), f"kind {pdu.tag}", at, update, when, self.report)
        members = self.updates_of_groups(mappings)
        for mapping in mappings:
            with self.report.going_on():
                reference = one(mapping, "I-SIGNAL-REF")
                if reference is None:
                    needed(mapping, "I-SIGNAL-GROUP-REF")
                    continue
                signal = self.description.referred(reference)
                bit = optional(mapping, UPDATE_BIT)
                own = [it for it in (bit, members.get(id(signal))) if it is not None]
                frame.signals.append(self.signal(signal, mapping, 8 * at, update + [8 * at + it for it in own], when))

    def add_pattern(self, frame: FrameTable, pdu: Element) -> None:
        """Notes what fills unused bits, which is one byte for a whole frame."""
        pattern = optional(pdu, "UNUSED-BIT-PATTERN")
        if pattern is not None and frame.unused not in (None, pattern & 255):
            self.report.note("the PDUs of a frame fill unused bits differently, and the first pattern counts",
                             frame.name)
        elif pattern is not None:
            frame.unused = pattern & 255

    def updates_of_groups(self, mappings: list[Element]) -> dict[int, int]:
        """Returns the update bits of signals by the groups in which they are."""
        found: dict[int, int] = {}
        for mapping in mappings:
            reference, bit = one(mapping, "I-SIGNAL-GROUP-REF"), optional(mapping, UPDATE_BIT)
            if reference is None or bit is None or has(mapping, "I-SIGNAL-REF"):
                continue
            for member in every(self.description.referred(reference), "I-SIGNAL-REFS/I-SIGNAL-REF"):
                found[id(self.description.referred(member))] = bit
        return found

    def multiplexed(self, frame: FrameTable, pdu: Element, at: int, update: list[int]) -> None:
        """Adds a selector, the static signals, and those that the selector selects."""
        bits = number(pdu, "SELECTOR-FIELD-LENGTH")
        keys: dict[str, Toml] = {"name": f"{pdu.name}.selector",
                                 "bit": number(pdu, "SELECTOR-FIELD-START-POSITION") + 8 * at, "bits": bits}
        selector = SignalTable(path_of(pdu), keys | order_of(text(pdu, "SELECTOR-FIELD-BYTE-ORDER"), pdu, bits))
        coded(selector.keys, "", bits, selector.path)
        frame.signals.append(selector)
        for part in every(pdu, "STATIC-PARTS/STATIC-PART") + every(pdu, "STATIC-PART"):
            self.pdu(frame, self.description.referred(needed(part, "I-PDU-REF")), at, update, ())
        for part in every(pdu, "DYNAMIC-PARTS/DYNAMIC-PART") + every(pdu, "DYNAMIC-PART"):
            for way in every(part, "DYNAMIC-PART-ALTERNATIVES/DYNAMIC-PART-ALTERNATIVE"):
                code = number(way, "SELECTOR-FIELD-CODE")
                if truth(way, "INITIAL-DYNAMIC-PART") and code:
                    selector.keys["initial"] = code
                reference = needed(way, "I-PDU-REF")
                self.pdu(frame, self.description.referred(reference), at, update, ((selector, code),))

    def signal(self, signal: Element, mapping: Element, at: int, update: list[int], when: When) -> SignalTable:
        """Returns a signal at its place."""
        bits, order, bit = number(signal, "LENGTH"), text(mapping, "PACKING-BYTE-ORDER"), number(
            mapping, "START-POSITION") + at
        keys: dict[str, Toml] = {"name": signal.name, "bit": bit, "bits": bits}
        table = SignalTable(path_of(signal), keys, when)
        system = one(signal, "SYSTEM-SIGNAL-REF")
        properties = properties_of(signal, "NETWORK-REPRESENTATION-PROPS")
        if system is not None:
            properties += properties_of(self.description.referred(system), "PHYSICAL-PROPS")
        found = self.referred_by(properties)
        if order == OPAQUE or text(signal, "I-SIGNAL-TYPE") == "ARRAY" or bits > 64:
            as_bytes(keys, bit, bits, table.path)
            order_of(order, mapping, 1)
            base = found.get("BASE-TYPE-REF")
            if base is not None:
                text(base, "BASE-TYPE-ENCODING")
        else:
            keys |= order_of(order, mapping, bits)
            coded(keys, self.encoding(found.get("BASE-TYPE-REF"), signal.name), bits, table.path)
        self.with_meaning(table, found)
        self.with_value(table, one(signal, "INIT-VALUE"), "initial")
        for it in properties:
            if "invalid" not in keys:
                self.with_value(table, one(it, "INVALID-VALUE"), "invalid")
        if update:
            keys["update"] = update
        return table

    def referred_by(self, properties: list[Element]) -> dict[str, Element]:
        """Returns what properties refer to: those on the network first, then those of the system signal."""
        found: dict[str, Element] = {}
        for it in properties:
            for name in REFERENCES:
                reference = one(it, name)
                if reference is not None:
                    found.setdefault(name, self.description.referred(reference))
        return found

    def encoding(self, base: Element | None, name: str) -> str:
        """Returns the key for the coding of a base type. Raises `Refused` for a coding that signals can't have."""
        if base is None:
            self.report.note("signals without a base type are read as unsigned", name)
            return ""
        word = text(base, "BASE-TYPE-ENCODING")
        if word not in ENCODINGS:
            raise Refused("Encoding", path_of(base), f"its BASE-TYPE-ENCODING is {word}, and expected is "
                          f"{', '.join(it for it in ENCODINGS if it)}")
        return ENCODINGS[word]

    def with_meaning(self, table: SignalTable, found: dict[str, Element]) -> None:
        """Adds the conversion, the limits and the unit."""
        say, method = say_of(self.report, table.name), found.get("COMPU-METHOD-REF")
        conversion = conversion_of(method, say)
        converted(table, conversion, say)
        constraint, unit = found.get("DATA-CONSTR-REF"), found.get("UNIT-REF")
        if constraint is not None and "bytes" not in table.keys and not conversion.raw_since:
            for where, step in (("PHYS-CONSTRS", 0), ("INTERNAL-CONSTRS", 1)):
                ends = (limit(constraint, f"{RULE}/{where}/LOWER-LIMIT", step, say),
                        limit(constraint, f"{RULE}/{where}/UPPER-LIMIT", -step, say))
                if ends != (None, None):
                    table.keys = {key: it for key, it in table.keys.items() if key not in ("min", "max")}
                    table.keys |= physical_limits(ends, conversion, bool(step))
                    break
        if unit is None and method is not None:
            reference = one(method, "UNIT-REF")
            unit = None if reference is None else self.description.referred(reference)
        if unit is not None:
            with_unit(table, text(unit, "DISPLAY-NAME") or unit.name, say)

    def with_value(self, table: SignalTable, element: Element | None, key: str) -> None:
        """Adds a raw value that a specification of values has."""
        if element is None:
            return
        value, say = one(element, "NUMERICAL-VALUE-SPECIFICATION/VALUE"), say_of(self.report, table.name)
        if value is None:
            for it in element.children:
                it.is_read = True
            say(f"its {key} value is no number")
        else:
            with_raw(table, key, value, say)


def properties_of(element: Element, path: str) -> list[Element]:
    """Returns the one variant of properties, or none. Raises `Refused` where there are several."""
    found = every(element, f"{path}/{PROPERTIES}")
    if len(found) > 1:
        raise Refused("Variants", f"{path_of(element)}/{path}", f"it has {len(found)} variants: choose one in the tool "
                      "that writes the description")
    return found
