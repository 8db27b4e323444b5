"""Tests of `import`: one network in both formats, the facts of other clusters, and what is written of them.

`network.toml` of `examples/descriptions` was compared with the descriptions by hand: slots, cycles and bits.
"""
import subprocess
import tomllib
from fractions import Fraction

from musmyrtle.program import usual_program
from tests.describing import arxml, fibex
from tests.importing import ARXML, FIBEX, FOLDER, Importing, Tables, changed, facts, flat
from tests.shows import EXAMPLES

WRITERS = (arxml, fibex)


def example(name: str) -> Tables:
    """Returns the tables of the cluster file of an example."""
    return tomllib.loads((EXAMPLES / name / "cluster.toml").read_text())


class TestBothFormats(Importing):
    def test_the_file_of_the_example(self) -> None:
        output, _ = self.imported(ARXML.read_text())
        self.assertEqual(output, (FOLDER / "network.toml").read_text())

    def test_one_network(self) -> None:
        """FIBEX has no FIFO, no invalid values and no first alternative of a selector; all else is the same."""
        one, other = self.tables(ARXML.read_text()), self.tables(FIBEX.read_text())
        self.assertEqual(one["node"][0].pop("queue"), {"capacity": 16, "first": 20, "last": 60, "channels": "A"})
        for frame in one["frame"]:
            for signal in frame["signal"]:
                signal.pop("invalid", None)
                if signal["name"] == "Brakes.selector":
                    self.assertEqual(signal.pop("initial"), 1)
        self.assertEqual(one, other)

    def test_values_by_hand(self) -> None:
        """The gateway sends 8750 hundredths as 222e and gear 1, and brakes 10.0 bar with selector 1 as 64 00."""
        file = str(FOLDER / "network.toml")
        self.assertEqual(self.printed("encode", file, "Gateway", "Speed", "speed=87.5", "gear=drive"),
                         "x222e0010000000800000000028000000\n")
        self.assertEqual(self.printed("encode", file, "Brake", "Pressure", "pressure_fl=10"),
                         "x01640000000000000000000000000000\n")

    def test_lint(self) -> None:
        """The only warnings are those of the network itself."""
        output = self.printed("lint", str(FOLDER / "network.toml"))
        self.assertEqual([line for line in output.splitlines() if "unread-key" in line or "bad-signal" in line], [])

    def test_notes(self) -> None:
        notes = "\n".join(self.imported(ARXML.read_text())[1])
        for it in ("nit_mt is 50, and the network idle time is 47: 3 are of the action points",
                   "words_per_minislot is 3, by which these frames have other lengths in minislots than on the bus; "
                   "`guaranteed` and `worst` of latency hold for those of the file: Diagnosis 7 for 8",
                   "a PDU of the kind N-PDU has no signals here, and is one of bytes: Tp",
                   "attached to one channel alone, and count what they see on the other: Door to A",
                   "ranges of receive FIFOs are taken for those that are admitted",
                   "left out, since the bench models nothing of it: symbols and errors (1 element)"):
            self.assertIn(it, notes)
        self.assertIn("positions of signals with the high byte first", "\n".join(self.imported(FIBEX.read_text())[1]))

    def test_several_files(self) -> None:
        """The packages of a description may stand in several files, in any order."""
        text = flat(ARXML.read_text())
        head, rest = text.split("<AR-PACKAGES>")
        at = rest.index("<ECU-INSTANCE>")
        package = "<AR-PACKAGE><SHORT-NAME>Network</SHORT-NAME><ELEMENTS>"
        end = "</ELEMENTS></AR-PACKAGE></AR-PACKAGES></AUTOSAR>"
        one = self.written("one.arxml", f"{head}<AR-PACKAGES>{rest[:at]}{end}")
        other = self.written("other.arxml", f"{head}<AR-PACKAGES>{package}{rest[at:]}")
        whole = self.imported(text)[0]
        for files in ((one, other), (other, one)):
            self.assertEqual(self.asked("import", *files)[1], whole)


class TestFacts(Importing):
    def test_examples(self) -> None:
        """The facts of a cluster file, spelled and imported, are the same, but for slots without frames."""
        for name in ("vehicle", "ten-nodes", "signals"):
            tables = example(name)
            filled = {it[1:4] for it in facts(tables) if it[0] == "send"}
            wanted = {it for it in facts(tables) if it[0] != "own" or it[1:4] in filled or it[5]}
            for write in WRITERS:
                with self.subTest(name, format=write.__name__):
                    found = facts(self.tables(write(tables), "--guard", "AB"))
                    if name == "signals":
                        # It has no minislots, so that their words mean nothing.
                        wanted = {it for it in wanted if it[1] != "words_per_minislot"}
                        found = {it for it in found if it[1] != "words_per_minislot"}
                    self.assertEqual(wanted, found)

    def test_the_car(self) -> None:
        """The parameters and the plan are the same byte for byte, and the nodes have their names."""
        names = [it["name"] for it in example("vehicle")["node"]]
        for write in WRITERS:
            text, _ = self.imported(write(example("vehicle")), "--guard", "AB")
            self.assertEqual(names, [it["name"] for it in tomllib.loads(text)["node"]])
            for command in ("check", "plan"):
                ran = subprocess.run([usual_program("fr_bench") or "", command, self.written("imported.toml", text)],
                                     capture_output=True)
                self.assertEqual(ran.stdout, (EXAMPLES / "vehicle" / command).read_bytes())

    def test_signals(self) -> None:
        """The signals of the example, but for `when`, `unused` and bytes, which this writer doesn't spell."""
        tables = example("signals")
        for frame in tables["frame"]:
            frame["signal"] = [it for it in frame["signal"] if "when" not in it and not it.get("bytes")]
            frame.pop("unused", None)
        for write in WRITERS:
            with self.subTest(write.__name__):
                found = self.tables(write(tables))["frame"]
                for frame in found:
                    for signal in frame["signal"]:
                        signal["name"] = signal["name"].removeprefix(f"{frame['name']}_")
                wanted = [frame | {"signal": [spelled(it, write is fibex) for it in frame["signal"]]}
                          for frame in tables["frame"]]
                self.assertEqual(found, wanted)


def spelled(signal: Tables, is_fibex: bool) -> Tables:
    """Returns a signal as an import spells it: keys that say nothing are absent, and FIBEX has no invalid value."""
    usual = {"order": "little", "factor": 1, "offset": 0, "initial": 0}
    found = {key: it for key, it in signal.items() if it != usual.get(key)}
    found |= {key: float(Fraction(it)) for key, it in found.items() if key == "factor" and isinstance(it, str)}
    if is_fibex:
        found.pop("invalid", None)
    return found


class TestVariants(Importing):
    """Other spellings of the same."""

    def test_autosar(self) -> None:
        text = flat(ARXML.read_text())
        whole = self.tables(text)
        for pair in (("<SLOT-ID>3<", "<SLOT-ID>0x03<"), ("<BIT>1.0E-7<", "<BIT>0.0000001<"), ("<BIT>1.0E-7</BIT>", ""),
                     ("<CYCLE>0.001<", "<CYCLE>1e-3<"), ("<CYCLE>0.001</CYCLE>", ""),
                     ("<FRAME-PORT-REFS>", "<!-- a comment --><FRAME-PORT-REFS>"),
                     ("<INIT-VALUE>", "<DESC><L-2>text</L-2></DESC><INIT-VALUE>"),
                     ("PDU-TO-FRAME-MAPPING><SHORT-NAME>mMotion", "PDU-TO-FRAME-MAPPING><SHORT-NAME>other")):
            with self.subTest(pair=pair):
                self.assertEqual(self.tables(changed(text, pair)), whole)

    def test_fibex_4(self) -> None:
        """The ports may have triggerings of PDUs, whose frames they send and receive."""
        text = flat(FIBEX.read_text())
        whole = self.tables(text)
        triggering = ('<fx:PDU-TRIGGERINGS><fx:PDU-TRIGGERING ID="PtMotion"><fx:PDU-REF ID-REF="Motion"/>'
                      "</fx:PDU-TRIGGERING></fx:PDU-TRIGGERINGS>")
        other = changed(text, ('VERSION="3.1.0"', 'VERSION="4.1.0"'),
                        ("<fx:FRAME-TRIGGERINGS>", f"{triggering}<fx:FRAME-TRIGGERINGS>"))
        other = other.replace('<fx:FRAME-TRIGGERING-REF ID-REF="FtSpeedA"/>',
                              '<fx:PDU-TRIGGERING-REF ID-REF="PtMotion"/>')
        self.assertEqual(self.tables(other), whole)

    def test_bit_counting(self) -> None:
        """Bit 7 of byte 0 is bit 0 where bits count from the most significant one of byte 0 on."""
        text = flat(FIBEX.read_text())

        def bit_of(tables: Tables) -> object:
            return tables["frame"][0]["signal"][0]["bit"]
        high = changed(text, ("<fx:IS-HIGH-LOW-BIT-ORDER>false<", "<fx:IS-HIGH-LOW-BIT-ORDER>true<"))
        self.assertEqual([bit_of(self.tables(it, *words)) for it, words in (
            (text, ()), (high, ("--bit-counting", "lsb")), (high.replace("MONOTONE", "SAWTOOTH"), ()))], [7, 7, 7])
        for it, words in ((high, ()), (text, ("--bit-counting", "msb"))):
            found = it.replace("<fx:BIT-POSITION>7<", "<fx:BIT-POSITION>0<")
            self.assertEqual(bit_of(self.tables(found, *words)), 7)

    def test_a_cluster_is_chosen(self) -> None:
        for text, start, end, old, new in (
                (flat(ARXML.read_text()), "<FLEXRAY-CLUSTER>", "</FLEXRAY-CLUSTER>", "<SHORT-NAME>Backbone<",
                 "<SHORT-NAME>Chassis<"),
                (flat(FIBEX.read_text()), "<fx:CLUSTER ", "</fx:CLUSTER>", 'ID="Cl" ', 'ID="Other" ')):
            one = text[text.index(start):text.index(end) + len(end)]
            other = one.replace(old, new).replace(">Backbone<", ">Chassis<")
            both = text.replace(one, one + other)
            files = "the files" if old.startswith("<") else "the file"
            self.assertEqual(self.refusals(both), [
                f"SeveralClusters {files}: choose one by --cluster: Backbone, Chassis"])
            self.assertEqual(self.tables(both, "--cluster", "Backbone"), self.tables(text))
            self.assertIn("there is none of the name Body: Backbone, Chassis",
                          self.refusals(both, "--cluster", "Body")[0])
