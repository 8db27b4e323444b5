"""The PDUs and signals of FIBEX frames."""
from collections.abc import Iterable

from musmyrtle.descriptions.coding import (When, add_bytes, as_bytes, clash_free, coded, converted, note_outside,
                                           say_of, with_raw, with_unit)
from musmyrtle.descriptions.collecting import Description
from musmyrtle.descriptions.conversions import conversion_of
from musmyrtle.descriptions.elements import Element, every, needed, number, one, optional, path_of, shown, text, truth
from musmyrtle.descriptions.network import FrameTable, SignalTable, Toml
from musmyrtle.descriptions.report import Refused, Report

LSB, MSB = "lsb", "msb"
POLICIES = ("MONOTONE", "SAWTOOTH", "")
UPDATE_BITS = {"PDU": "PDU-UPDATE-BIT-POSITION", "SIGNAL": "SIGNAL-UPDATE-BIT-POSITION"}
OF_BYTES = ("A_BYTEFIELD", "A_ASCIISTRING", "A_UNICODE2STRING")
SIGNED = ("2C", "SIGNED")
UNSIGNED = ("UNSIGNED", "BIT", "BOOLEAN", "NONE")
REFUSED = ("1C", "SM", "BCD-P", "BCD-UP", "DSP-FRACTIONAL")
"""Encodings that a signal can't have."""


class FibexSignals:
    """The signals of frames, each frame once."""

    def __init__(self, description: Description, report: Report, cluster: Element, counting: str | None) -> None:
        self.description, self.report = description, report
        self.counts_down = counts_down(cluster, counting)
        self.frames: dict[int, FrameTable] = {}

    def layout(self, frame: Element) -> FrameTable:
        """Returns the signals of a frame."""
        if id(frame) not in self.frames:
            found = FrameTable(frame.name, path_of(frame), number(frame, "BYTE-LENGTH"))
            self.frames[id(frame)] = found
            with self.report.going_on():
                self.instances(found, frame, 0, [], ())
            for instance in every(frame, "PDU-INSTANCES/PDU-INSTANCE"):
                with self.report.going_on():
                    self.place_pdu(found, instance)
            clash_free(found.signals, self.report)
        return self.frames[id(frame)]

    def bit(self, element: Element, path: str, at: int = 0) -> int:
        """Returns a bit as a cluster file counts it, in a PDU that begins at a byte."""
        bit = number(element, path)
        return 8 * at + (8 * (bit // 8) + 7 - bit % 8 if self.counts_down else bit)

    def updates(self, element: Element, kind: str, at: int = 0) -> list[int]:
        """Returns the update bit of an instance, if it has one."""
        path = UPDATE_BITS[kind]
        return [] if one(element, path) is None else [self.bit(element, path, at)]

    def place_pdu(self, frame: FrameTable, instance: Element) -> None:
        """Adds the signals of a PDU."""
        start, is_big = number(instance, "BIT-POSITION"), truth(instance, "IS-HIGH-LOW-BYTE-ORDER")
        if start % 8 not in ((0, 7) if is_big else (0,)):
            raise Refused("PduPosition", path_of(instance), f"the PDU begins at bit {start}, and expected is a byte")
        pdu = self.description.referred(needed(instance, "PDU-REF"))
        self.pdu(frame, pdu, start // 8, self.updates(instance, "PDU"), ())

    def pdu(self, frame: FrameTable, pdu: Element, at: int, update: list[int], when: When) -> None:
        """Adds the signals of a PDU that begins at a byte."""
        first, length = len(frame.signals), optional(pdu, "BYTE-LENGTH")
        self.add_signals(frame, pdu, at, update, when)
        if length is not None:
            note_outside(frame, pdu.name, at + length, frame.signals[first:], self.report)

    def add_signals(self, frame: FrameTable, pdu: Element, at: int, update: list[int], when: When) -> None:
        """Adds the signals of a PDU, or of the parts of a multiplexed one."""
        multiplexer = one(pdu, "MULTIPLEXER")
        if multiplexer is not None:
            if when:
                raise Refused("NestedSelector", path_of(pdu), "a multiplexed PDU in another one has no form in a "
                              "cluster file")
            self.multiplexed(frame, multiplexer, at, update)
        elif not self.instances(frame, pdu, at, update, when):
            kind = f"type {text(pdu, 'PDU-TYPE') or 'unknown'}"
            add_bytes(frame, pdu, optional(pdu, "BYTE-LENGTH"), kind, at, update, when, self.report)

    def multiplexed(self, frame: FrameTable, multiplexer: Element, at: int, update: list[int]) -> None:
        """Adds a selector, the static signals, and those that the selector selects."""
        switch = needed(multiplexer, "SWITCH")
        bits = number(switch, "BIT-LENGTH")
        keys: dict[str, Toml] = {"name": switch.name, "bit": self.bit(switch, "BIT-POSITION", at), "bits": bits}
        selector = SignalTable(path_of(switch), keys | self.order(switch, bits))
        coded(selector.keys, "", bits, selector.path)
        frame.signals.append(selector)
        for part in every(multiplexer, "STATIC-PART/STATIC-PDU-INSTANCE"):
            self.part(frame, part, at, update, ())
        for part in every(multiplexer, "DYNAMIC-PART/SWITCHED-PDU-INSTANCES/SWITCHED-PDU-INSTANCE"):
            self.part(frame, part, at, update, ((selector, number(part, "SWITCH-CODE")),))

    def part(self, frame: FrameTable, part: Element, at: int, update: list[int], when: When) -> None:
        """Adds the PDU of a part of a multiplexed one."""
        self.pdu(frame, self.description.referred(needed(part, "PDU-REF")), at, update, when)

    def order(self, element: Element, bits: int) -> dict[str, Toml]:
        """Returns the key of an order of bytes. Raises `Refused` where it would count, and isn't there."""
        if bits > 1:
            needed(element, "IS-HIGH-LOW-BYTE-ORDER")
        return {"order": "big"} if truth(element, "IS-HIGH-LOW-BYTE-ORDER") else {}

    def instances(self, frame: FrameTable, element: Element, at: int, update: list[int], when: When) -> bool:
        """Adds the signals of a PDU or a frame. Returns whether it has any."""
        found = every(element, "SIGNAL-INSTANCES/SIGNAL-INSTANCE")
        for instance in found:
            with self.report.going_on():
                frame.signals.append(self.signal(instance, at, update, when))
        return bool(found)

    def signal(self, instance: Element, at: int, update: list[int], when: When) -> SignalTable:
        """Returns a signal at its place."""
        signal = self.description.referred(needed(instance, "SIGNAL-REF"))
        coding = self.description.referred(needed(signal, "CODING-REF"))
        type_of = needed(coding, "CODED-TYPE")
        bits, bit = number(type_of, "BIT-LENGTH"), self.bit(instance, "BIT-POSITION", at)
        keys: dict[str, Toml] = {"name": signal.name, "bit": bit, "bits": bits}
        table = SignalTable(path_of(signal), keys, when)
        kind = self.kind_of(type_of, signal.name)
        if kind == "bytes" or bits > 64:
            as_bytes(keys, bit, bits, table.path)
            truth(instance, "IS-HIGH-LOW-BYTE-ORDER")
        else:
            keys |= self.order(instance, bits)
            coded(keys, kind, bits, table.path)
            if "order" in keys and bits > 1:
                self.report.note("positions of signals with the high byte first are taken for those of the most "
                                 "significant bit: compare one")
        self.with_meaning(table, coding)
        initial = one(signal, "DEFAULT-VALUE")
        if initial is not None:
            with_raw(table, "initial", initial, say_of(self.report, table.name))
        updates = update + self.updates(instance, "SIGNAL", at)
        if updates:
            keys["update"] = updates
        return table

    def kind_of(self, type_of: Element, name: str) -> str:
        """Returns the key for the coding of a type: `float`, `signed`, `bytes` or nothing. Raises `Refused`."""
        base, encoding = (type_of.attributes.get(it, "") for it in ("BASE-DATA-TYPE", "ENCODING"))
        if encoding in REFUSED:
            raise Refused("Encoding", path_of(type_of), f"its ENCODING is {encoding}, which signals can't have")
        if base in OF_BYTES:
            return "bytes"
        if base.startswith("A_FLOAT") or encoding.startswith("IEEE"):
            return "float"
        if base.startswith("A_INT") or encoding in SIGNED:
            return "signed"
        if not base.startswith(("A_UINT", "A_BITFIELD")) and encoding not in UNSIGNED:
            self.report.note(f"signals of the base type {shown(base)} are read as unsigned", name)
        return ""

    def with_meaning(self, table: SignalTable, coding: Element) -> None:
        """Adds the conversion, the limits and the unit."""
        say, methods = say_of(self.report, table.name), every(coding, "COMPU-METHODS/COMPU-METHOD")
        if len(methods) > 1:
            say("of several conversions the first one is taken")
            for it in methods[1:]:
                all_read(it.children)
        for method in methods[:1]:
            converted(table, conversion_of(method, say), say)
            unit = one(method, "UNIT-REF")
            if unit is not None:
                found = self.description.referred(unit)
                with_unit(table, text(found, "DISPLAY-NAME") or found.name, say)


def all_read(elements: Iterable[Element]) -> None:
    """Marks elements that a note is about already, with all below them."""
    stack = list(elements)
    while stack:
        element = stack.pop()
        element.is_read = True
        stack += element.children


def counts_down(cluster: Element, counting: str | None) -> bool:
    """Returns whether bit 0 of a byte is its most significant one. Raises `Refused`."""
    high, policy = truth(cluster, "IS-HIGH-LOW-BIT-ORDER"), text(cluster, "BIT-COUNTING-POLICY")
    if counting:
        return counting == MSB
    if policy not in POLICIES:
        raise Refused("BitCounting", f"{path_of(cluster)}/BIT-COUNTING-POLICY", f"it is {shown(policy)}, and expected "
                      "is MONOTONE or SAWTOOTH; --bit-counting overrides it")
    return high and policy != "SAWTOOTH"
