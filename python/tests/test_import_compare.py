"""Tests of `import --compare`: what a new release of a description changes against an existing cluster file.

The rows are those of `musmyrtle diff`, which has tests of its own.
"""
import json

from musmyrtle.descriptions.comparing import compare
from musmyrtle.diff.differences import KINDS
from musmyrtle.texts import read_text
from tests.importing import ARXML, FIBEX, FOLDER, Importing, changed, flat

OLD = str(FOLDER / "network.toml")
NAMES = ("node_name", "buffer_name", "frame", "signal", "table", "slot")
"""The keys by which a row names a thing."""


class TestCompare(Importing):
    def compared(self, text: str, *words: str) -> tuple[object, list[tuple[object, ...]]]:
        """Returns the status and the rows of a comparison: the kind, the names, the change, the key and both values."""
        status, output, _ = self.asked("import", self.written("new.xml", text), "--compare", OLD, "--json", *words)
        rows = [json.loads(it) for it in output.splitlines()]
        return status, [(it["kind"], *(it[name] for name in NAMES if it.get(name) is not None), it["change"],
                         it["key"], it["old"], it["new"]) for it in rows]

    def test_the_same(self) -> None:
        status, output, _ = self.asked("import", str(ARXML), "--compare", OLD)
        self.assertEqual((status, output), (0, "The description says what the cluster file says.\n"))
        status, output, _ = self.asked("import", str(ARXML), "--compare", OLD, "--json")
        self.assertEqual((status, output), (0, ""))

    def test_changes(self) -> None:
        key_slot = '{slot = %d, channels = "AB", sync = true, startup = true}'
        for old, new, rows in (
                ("<SYMBOL-WINDOW>30<", "<SYMBOL-WINDOW>33<", [
                    ("parameter", "params", "changed", "symbol_mt", 30, 33),
                    ("parameter", "params", "changed", "nit_mt", 50, 47)]),
                ("<SLOT-ID>3<", "<SLOT-ID>4<", [
                    ("slot", "Brake", 3, "changed", "slot", 3, 4),
                    ("buffer", "Gateway", "Pressure", 3, "changed", "slot", 3, 4),
                    ("buffer", "Brake", "Pressure", 3, "changed", "slot", 3, 4),
                    ("buffer", "Door", "Pressure", 3, "changed", "slot", 3, 4)]),
                ("<LATEST-TX>40<", "<LATEST-TX>41<", [
                    ("node", "Gateway", "changed", "latest_a", 40, 41),
                    ("node", "Gateway", "changed", "latest_b", 40, 41)]),
                ("<FIFO-DEPTH>16<", "<FIFO-DEPTH>8<", [("fifo", "Gateway", "changed", "capacity", 16, 8)]),
                ("<V>100</V>", "<V>200</V>", [("signal", "Speed", "speed", "changed", "factor", 0.01, 0.005),
                                              ("signal", "Speed", "speed", "changed", "max", 655.34, 327.67)]),
                ("<VT>drive<", "<VT>go<", [("signal", "Speed", "gear", "changed", "values.1", "drive", "go")]),
                ("CYCLE-REPETITION-4<", "CYCLE-REPETITION-8<", [
                    ("buffer", "Gateway", "Pressure", 3, "changed", "repetition", 4, 8),
                    ("buffer", "Brake", "Pressure", 3, "changed", "repetition", 4, 8),
                    ("buffer", "Door", "Pressure", 3, "changed", "repetition", 4, 8)]),
                ("<KEY-SLOT-ID>2<", "<KEY-SLOT-ID>4<", [
                    ("slot", "Brake", 2, "removed", None, key_slot % 2, None),
                    ("slot", "Brake", 4, "added", None, None, key_slot % 4)]),
                ("<SHORT-NAME>mMotion<", "<SHORT-NAME>other<", [])):
            with self.subTest(new=new):
                status, found = self.compared(changed(flat(ARXML.read_text()), (old, new)))
                self.assertEqual((found, status), (rows, 3 if rows else 0))

    def test_the_other_format(self) -> None:
        """FIBEX has no FIFO, no invalid values, and no first alternative of a selector."""
        status, found = self.compared(FIBEX.read_text())
        self.assertEqual(status, 3)
        self.assertEqual([it[:-2] for it in found], [
            ("fifo", "Gateway", "removed", None), ("signal", "Speed", "speed", "changed", "invalid"),
            ("signal", "Speed", "gear", "changed", "invalid"), ("signal", "Speed", "temperature", "changed", "invalid"),
            ("signal", "Pressure", "Brakes.selector", "changed", "initial")])
        self.assertEqual({it[0] for it in found} - set(KINDS), set())

    def test_a_renamed_node(self) -> None:
        """Its kinds of buffers and its tasks, which an engineer changed, don't matter."""
        old = (FOLDER / "network.toml").read_text().replace('"Brake"', '"Stopper"').replace(
            'name = "Pressure", kind = "state"', 'name = "Pressure", kind = "event"').replace(
            'host_entries = 256', 'host_entries = 512')
        status, output, _ = self.asked("import", str(ARXML), "--compare", self.written("old.toml", old), "--json")
        self.assertEqual((status, [json.loads(it) for it in output.splitlines()]), (3, [
            {"kind": "node", "node": 1, "node_name": "Stopper", "change": "renamed", "key": "name", "old": "Stopper",
             "new": "Brake"}]))

    def test_keys_of_engineers(self) -> None:
        """Tasks, rooms, the guard and the kind of a transmit buffer come from no description."""
        text = (FOLDER / "network.toml").read_text()
        for old, new in (('guard = "none"', 'guard = "AB"'), ("host_entries = 256", "host_entries = 512\ntasks = 3"),
                         ('name = "Speed", kind = "state"', 'name = "Speed", kind = "event"'),
                         ("factor = 0.01", 'factor = "1/100"'), ("bit_rate = 10000000", "bit_rate = 10_000_000.0"),
                         ("base = 5, repetition = 32", "repetition = 32, base = 5")):
            changes = compare(read_text("", text.encode()), read_text("", changed(text, (old, new)).encode()))
            self.assertEqual(changes, [], new)

    def test_both_outputs(self) -> None:
        """With `-o` the new file is written too; without it nothing is."""
        new = self.written("new.arxml", flat(ARXML.read_text()).replace("<SLOT-ID>9<", "<SLOT-ID>10<"))
        made = self.folder / "made.toml"
        status, output, _ = self.asked("import", new, "--compare", OLD, "-o", str(made))
        self.assertEqual(status, 3)
        self.assertEqual(output.splitlines(), [
            "Buffers", "node         buffer         slot  change   key   old  new",
            "Gateway (0)  Diagnosis (2)     9  changed  slot    9   10",
            "Door (2)     Diagnosis (0)     9  changed  slot    9   10"])
        self.assertIn("slot = 10", made.read_text())
        old = self.written("old.toml", (FOLDER / "network.toml").read_text())
        status, _, told = self.asked("import", new, "--compare", old, "-o", old)
        self.assertEqual((status, "which would be overwritten" in told), (2, True))

    def test_what_is_no_cluster_file(self) -> None:
        for text, told in (("a = ", "new.toml:1:"), ("<AUTOSAR/>", "and no cluster file"),
                           ("[params]\nstatic_slots = 3\n", "isn't accepted as a cluster file: `musmyrtle lint"),
                           ('signals = "none.toml"\n' + (FOLDER / "network.toml").read_text(), "none.toml")):
            status, output, error = self.asked("import", str(ARXML), "--compare", self.written("new.toml", text))
            self.assertEqual((status, output), (2, ""))
            self.assertIn(told, error)
        self.assertEqual(self.asked("import", str(ARXML), "--compare", str(self.folder / "none"))[0], 2)
