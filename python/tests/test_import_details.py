"""Tests of details of `import` that the samples don't have: groups, whole bytes, ports of PDUs, other clusters."""
import tomllib

from tests.describing import arxml
from tests.importing import ARXML, FIBEX, Importing, Tables, changed, flat
from tests.test_import_sizes import large

UPDATE = "UPDATE-INDICATION-BIT-POSITION"


def signal_of(tables: Tables, name: str) -> Tables:
    """Returns the table of a signal."""
    found: Tables = next(it for frame in tables["frame"] for it in frame["signal"] if it["name"] == name)
    return found


class TestSignals(Importing):
    def test_whole_bytes(self) -> None:
        """A signal of bytes begins with a byte, whichever end of it the description names."""
        text = flat(ARXML.read_text())
        begin = text.index("<SHORT-NAME>ptorque<")
        mapping = text[begin:text.index("</I-SIGNAL-TO-I-PDU-MAPPING>", begin)]
        text = changed(text, ("<LENGTH>32<", "<LENGTH>64<"), (
            "<I-SIGNAL><SHORT-NAME>torque<", "<I-SIGNAL><I-SIGNAL-TYPE>ARRAY</I-SIGNAL-TYPE><SHORT-NAME>torque<"))
        for start, order in (("0", "OPAQUE"), ("7", "MOST-SIGNIFICANT-BYTE-FIRST"),
                             ("0", "MOST-SIGNIFICANT-BYTE-LAST")):
            other = changed(mapping, ("MOST-SIGNIFICANT-BYTE-LAST", order), (
                "<START-POSITION>0<", f"<START-POSITION>{start}<"))
            found = signal_of(self.tables(changed(text, (mapping, other))), "torque")
            self.assertEqual((found["bit"], found["bits"], found["bytes"]), (64, 64, True))
            self.assertNotIn("order", found)

    def test_update_bits_of_groups(self) -> None:
        """The update bit of a group is one of each of its signals, beside those of the signal and the PDU."""
        group = ('<I-SIGNAL-GROUP><SHORT-NAME>g</SHORT-NAME><I-SIGNAL-REFS><I-SIGNAL-REF>/Network/gear</I-SIGNAL-REF>'
                 "<I-SIGNAL-REF>/Network/speed</I-SIGNAL-REF></I-SIGNAL-REFS></I-SIGNAL-GROUP>")
        mapping = ("<I-SIGNAL-TO-I-PDU-MAPPING><SHORT-NAME>pg</SHORT-NAME><I-SIGNAL-GROUP-REF>/Network/g"
                   f"</I-SIGNAL-GROUP-REF><{UPDATE}>40</{UPDATE}></I-SIGNAL-TO-I-PDU-MAPPING>")
        text = changed(flat(ARXML.read_text()), ("<ELEMENTS>", f"<ELEMENTS>{group}"),
                       ("<I-SIGNAL-TO-PDU-MAPPINGS>", f"<I-SIGNAL-TO-PDU-MAPPINGS>{mapping}"))
        found = self.tables(text)
        self.assertEqual([signal_of(found, it).get("update") for it in ("speed", "gear", "acceleration", "torque")],
                         [[63, 40], [40], None, [127]])

    def test_update_bits_of_later_pdus(self) -> None:
        """The update bit of a signal counts from its PDU on, which begins at byte 8."""
        text = flat(ARXML.read_text())
        mapping = text[text.index("<SHORT-NAME>ptorque<"):]
        mapping = mapping[:mapping.index("</I-SIGNAL-TO-I-PDU-MAPPING>")]
        found = self.tables(changed(text, (mapping, f"{mapping}<{UPDATE}>40</{UPDATE}>")))
        self.assertEqual(signal_of(found, "torque")["update"], [127, 104])
        text = flat(FIBEX.read_text())
        found = self.tables(changed(text, ('<fx:SIGNAL-REF ID-REF="torque"/>', '<fx:SIGNAL-UPDATE-BIT-POSITION>40'
                                           '</fx:SIGNAL-UPDATE-BIT-POSITION><fx:SIGNAL-REF ID-REF="torque"/>')))
        self.assertEqual(signal_of(found, "torque")["update"], [127, 104])

    def test_raw_values(self) -> None:
        """An invalid value of 0 says something, and an initial one doesn't. A float may have any number."""
        text = flat(ARXML.read_text())
        found = self.tables(changed(text, ("<VALUE>65535<", "<VALUE>0<"), ("<VALUE>40<", "<VALUE>0<")))
        self.assertEqual(signal_of(found, "speed")["invalid"], 0)
        self.assertNotIn("initial", signal_of(found, "temperature"))
        value_of = "<NUMERICAL-VALUE-SPECIFICATION><VALUE>{}</VALUE></NUMERICAL-VALUE-SPECIFICATION>"
        initial = f"<INIT-VALUE>{value_of}</INIT-VALUE>"
        for value, wanted in (("1.5", 1.5), ("-1e-3", -0.001), ("1e39", None)):
            name = "<I-SIGNAL><SHORT-NAME>torque</SHORT-NAME>"
            found = self.tables(changed(text, (name, name + initial.format(value))))
            self.assertEqual(signal_of(found, "torque").get("initial"), wanted)

    def test_the_network_comes_first(self) -> None:
        """A conversion of the network representation counts, and not that of the system signal."""
        old = '<BASE-TYPE-REF DEST="SW-BASE-TYPE">/Network/base_s</BASE-TYPE-REF>'
        text = changed(flat(ARXML.read_text()), (old, f"{old}<COMPU-METHOD-REF>/Network/cm_speed</COMPU-METHOD-REF>"))
        self.assertEqual(signal_of(self.tables(text), "acceleration")["factor"], 0.01)

    def test_limits_of_constraints(self) -> None:
        """Physical limits count before internal ones, and those before the limits of scales."""
        def constrained(rules: str) -> Tables:
            old = '<BASE-TYPE-REF DEST="SW-BASE-TYPE">/Network/base_s</BASE-TYPE-REF>'
            constraint = ("<DATA-CONSTR><SHORT-NAME>dc</SHORT-NAME><DATA-CONSTR-RULES><DATA-CONSTR-RULE>"
                          f"{rules}</DATA-CONSTR-RULE></DATA-CONSTR-RULES></DATA-CONSTR>")
            reference = "<DATA-CONSTR-REF>/Network/dc</DATA-CONSTR-REF>"
            return signal_of(self.tables(changed(flat(ARXML.read_text()), (old, old + reference),
                                                 ("<ELEMENTS>", f"<ELEMENTS>{constraint}"))), "acceleration")

        def ends(kind: str, low: object, high: object, interval: str = "CLOSED") -> str:
            its = "".join(f'<{end}-LIMIT INTERVAL-TYPE="{interval}">{it}</{end}-LIMIT>'
                          for end, it in (("LOWER", low), ("UPPER", high)))
            return f"<{kind}-CONSTRS>{its}</{kind}-CONSTRS>"
        # The factor is 1/64.
        for rules, low, high in ((ends("INTERNAL", -64, 640), -1, 10), (ends("PHYS", -2, 3), -2, 3),
                                 (ends("INTERNAL", -64, 64) + ends("PHYS", -2, 3), -2, 3),
                                 (ends("INTERNAL", -65, 65, "OPEN"), -1, 1), ("", -32, 31.984375)):
            found = constrained(rules)
            self.assertEqual((found["min"], found["max"]), (low, high), rules)

    def test_selected_bytes(self) -> None:
        """A PDU without signals may be selected, too."""
        text = changed(flat(ARXML.read_text()), ('"I-SIGNAL-I-PDU">/Network/Rear<', '"N-PDU">/Network/Dump<'), (
            "<ELEMENTS>", "<ELEMENTS><N-PDU><SHORT-NAME>Dump</SHORT-NAME><LENGTH>4</LENGTH></N-PDU>"))
        self.assertEqual(signal_of(self.tables(text), "Dump"), {
            "name": "Dump", "bit": 0, "bits": 32, "bytes": True, "when": {"Brakes.selector": 2}})


class TestEnds(Importing):
    def test_ports_of_pdus(self) -> None:
        """A triggering without ports has those of its PDUs."""
        text = flat(ARXML.read_text())
        begin = text.index("<FRAME-PORT-REFS>")
        ports = text[begin:text.index("</FRAME-PORT-REFS>") + len("</FRAME-PORT-REFS>")]
        pdus = ("<PDU-TRIGGERINGS><PDU-TRIGGERING-REF-CONDITIONAL><PDU-TRIGGERING-REF>/Network/Backbone/ChannelA/pt"
                "</PDU-TRIGGERING-REF></PDU-TRIGGERING-REF-CONDITIONAL></PDU-TRIGGERINGS>")
        triggering = ("<PDU-TRIGGERING><SHORT-NAME>pt</SHORT-NAME>"
                      f"{ports.replace('FRAME-PORT', 'I-PDU-PORT')}</PDU-TRIGGERING>")
        other = changed(text, (ports, pdus), ("<CHANNEL-NAME>CHANNEL-A<", f"<PDU-TRIGGERINGS>{triggering}"
                                              "</PDU-TRIGGERINGS><CHANNEL-NAME>CHANNEL-A<"))
        self.assertEqual(self.tables(other), self.tables(text))

    def test_a_port_that_stands_twice(self) -> None:
        """A node that a triggering names twice is one sender and one receiver."""
        text = flat(ARXML.read_text())
        for port in ("Brake/OnA/Out", "Door/OnA/In"):
            reference = f'<FRAME-PORT-REF DEST="FRAME-PORT">/Network/{port}</FRAME-PORT-REF>'
            self.assertEqual(self.tables(changed(text, (reference, reference * 2))), self.tables(text))

    def test_connectors_of_other_clusters(self) -> None:
        """A controller on CAN is none of this cluster, and nothing of it is noted."""
        text = flat(FIBEX.read_text())
        channel = '<fx:CHANNEL ID="Can"><ho:SHORT-NAME>Can</ho:SHORT-NAME><fx:ODD/></fx:CHANNEL>'
        connector = ('<fx:CONNECTOR ID="OnCan"><fx:CHANNEL-REF ID-REF="Can"/><fx:CONTROLLER-REF ID-REF="DoorC"/>'
                     "<fx:STRANGE/></fx:CONNECTOR>")
        other = changed(text, ("<fx:CHANNELS>", f"<fx:CHANNELS>{channel}"),
                        ("<fx:CONNECTORS>", f"<fx:CONNECTORS>{connector}"))
        self.assertEqual(self.imported(other), self.imported(text))

    def test_senders_stand_in_once(self) -> None:
        """A node with a port of the frame and one of its PDU is one sender."""
        text = flat(FIBEX.read_text())
        triggering = ('<fx:PDU-TRIGGERINGS><fx:PDU-TRIGGERING ID="PtMotion"><fx:PDU-REF ID-REF="Motion"/>'
                      "</fx:PDU-TRIGGERING></fx:PDU-TRIGGERINGS>")
        reference = '<fx:FRAME-TRIGGERING-REF ID-REF="FtSpeedA"/>'
        other = changed(text, ("<fx:FRAME-TRIGGERINGS>", f"{triggering}<fx:FRAME-TRIGGERINGS>"))
        other = other.replace(reference, reference + '<fx:PDU-TRIGGERING-REF ID-REF="PtMotion"/>')
        self.assertEqual(self.tables(other), self.tables(text))


class TestChannels(Importing):
    def test_a_dynamic_frame_on_both_channels(self) -> None:
        """It is sent by two buffers, which the host commits to one by one, and received by one."""
        tables = large()
        sender, receiver = tables["node"][2], tables["node"][3]
        sender["buffer"] = [{"kind": "event", "slot": 200, "channels": channel, "words": 4, "frame": "Both"}
                            for channel in "AB"]
        receiver["buffer"] = [{"kind": "receive", "slot": 200, "channels": "AB"}]
        del tables["node"][4:]
        text, notes = self.imported(arxml(tables))
        found = {it["name"]: [(line["name"], line["channels"]) for line in it["buffer"]]
                 for it in tomllib.loads(text)["node"]}
        self.assertEqual((found["Ecu2"], found["Ecu3"]), ([("Both", "A"), ("Both-2", "B")], [("Both", "AB")]))
        self.assertTrue(any("are sent by several buffers" in it and "Both by 2" in it for it in notes), notes)


class TestStandIns(Importing):
    def test_latest_minislots(self) -> None:
        """Nodes with dynamic frames share a stand-in only with those of the same latest minislot."""
        tables = large()
        for number, node in enumerate(tables["node"]):
            node["latest_a"] = 450 - number % 3
        found = self.tables(arxml(tables), "--nodes", "Ecu0", "--split")["node"]
        self.assertEqual([it["name"] for it in found], ["Ecu0", "Ecu0.2", "stand-in-1", "stand-in-2", "stand-in-3"])
        self.assertEqual({it["latest_a"] for it in found[2:]}, {450, 449, 448})
