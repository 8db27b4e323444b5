"""Tests of descriptions that `import` refuses, with the name and the path, and of those that it takes with a note."""
from tests.importing import ARXML, FIBEX, Importing, changed, flat

IN_ARXML = "/Network/Backbone/FLEXRAY-CLUSTER-VARIANTS/FLEXRAY-CLUSTER-CONDITIONAL"
CONTROLLER = "/FLEXRAY-COMMUNICATION-CONTROLLER-VARIANTS/FLEXRAY-COMMUNICATION-CONTROLLER-CONDITIONAL"
TIMING = "ABSOLUTELY-SCHEDULED-TIMINGS/FLEXRAY-ABSOLUTELY-SCHEDULED-TIMING"
REFUSED_ARXML = (
    # The cluster
    ("<NUMBER-OF-STATIC-SLOTS>8</NUMBER-OF-STATIC-SLOTS>", "", f"Missing {IN_ARXML}/NUMBER-OF-STATIC-SLOTS: "),
    ("<STATIC-SLOT-DURATION>45<", "<STATIC-SLOT-DURATION>forty<",
     f"NotANumber {IN_ARXML}/STATIC-SLOT-DURATION: it is forty, and expected is a number"),
    ("<STATIC-SLOT-DURATION>45<", "<STATIC-SLOT-DURATION>045<",
     f"NotANumber {IN_ARXML}/STATIC-SLOT-DURATION: it is 045"),
    ("<STATIC-SLOT-DURATION>45<", "<STATIC-SLOT-DURATION>4.5<",
     f"NotANumber {IN_ARXML}/STATIC-SLOT-DURATION: it is 4.5, and expected is a whole number"),
    ("<STATIC-SLOT-DURATION>45<", "<STATIC-SLOT-DURATION>-45<",
     f"NotANumber {IN_ARXML}/STATIC-SLOT-DURATION: it is -45"),
    ("<STATIC-SLOT-DURATION>45<", "<STATIC-SLOT-DURATION><",
     f"NotANumber {IN_ARXML}/STATIC-SLOT-DURATION: it is empty"),
    ("<STATIC-SLOT-DURATION>45<", "<STATIC-SLOT-DURATION>1e999<", f"NotANumber {IN_ARXML}/STATIC-SLOT-DURATION: "),
    ("<STATIC-SLOT-DURATION>45<", "<STATIC-SLOT-DURATION>450<",
     "CycleSum /Network/Backbone: slots, minislots and symbol window leave -3190 macroticks of 1000, and "
     "the network idle time is 47"),
    ("<STATIC-SLOT-DURATION>45<", "<STATIC-SLOT-DURATION>46<",
     "CycleSum /Network/Backbone: slots, minislots and symbol window leave 42 macroticks of 1000, and the "
     "network idle time is 47"),
    ("<NUMBER-OF-STATIC-SLOTS>8<", "<NUMBER-OF-STATIC-SLOTS>1<",
     "OutOfRange /Network/Backbone: static_slots is 1, and expected is 2 to 1023"),
    ("<SYMBOL-WINDOW>30<", "<SYMBOL-WINDOW>30</SYMBOL-WINDOW><SYMBOL-WINDOW>31<",
     f"Several {IN_ARXML}/SYMBOL-WINDOW: there are 2, and expected is one"),
    ("<MACROTICK-DURATION>1.0E-6<", "<MACROTICK-DURATION>1.0<",
     f"Unit {IN_ARXML}: a bit of 0.1 and a macrotick of 1e+06 microseconds aren't those of FlexRay"),
    ("<CYCLE>0.001<", "<CYCLE>1<",
     f"CycleTime {IN_ARXML}/CYCLE: it is 1e+06 microseconds, and 1000 macroticks of 1 are 1000"),
    ("<BAUDRATE>10000000<", "<BAUDRATE>5000000<",
     f"BitRate {IN_ARXML}/BAUDRATE: it is 5e+06 bits a second, and BIT is 0.1 microseconds"),
    (">CHANNEL-B<", ">CHANNEL-A<", "ChannelName /Network/Backbone/ChannelB: its CHANNEL-NAME is A, and expected is"),
    ("</FLEXRAY-CLUSTER-CONDITIONAL>", "</FLEXRAY-CLUSTER-CONDITIONAL><FLEXRAY-CLUSTER-CONDITIONAL/>",
     "Variants /Network/Backbone: it has 2 variants"),
    ("<SLOT-ID>1<", "<VARIATION-POINT><SHORT-LABEL>x</SHORT-LABEL></VARIATION-POINT><SLOT-ID>1<",
     f"Variants /Network/Backbone/ChannelA/FT_Speed_A/{TIMING}/VARIATION-POINT: "),
    # Nodes
    ("<KEY-SLOT-ID>1<", "<TWO-KEY-SLOT-MODE>true</TWO-KEY-SLOT-MODE><KEY-SLOT-ID>1<",
     "TwoKeySlots /Network/Gateway/Controller: a node of version 2.1 has one key slot"),
    ("<KEY-SLOT-USED-FOR-SYNC>true<", "<KEY-SLOT-USED-FOR-SYNC>false<",
     "StartupWithoutSync /Network/Gateway/Controller"),
    ("<KEY-SLOT-USED-FOR-SYNC>true<", "<KEY-SLOT-USED-FOR-SYNC>yes<",
     f"NotABoolean /Network/Gateway/Controller{CONTROLLER}/KEY-SLOT-USED-FOR-SYNC: it is yes"),
    ("<KEY-SLOT-ID>1<", "<KEY-SLOT-ID>9<",
     "KeySlot /Network/Gateway/Controller: its key slot is 9, and expected is a"),
    ("<KEY-SLOT-ID>1<", "<KEY-SLOT-ID>2<",
     "Overlap /Network/Brake/Controller: slot 2 on A is that of Gateway and Brake"),
    ("</FLEXRAY-FIFO-RANGE>", "</FLEXRAY-FIFO-RANGE><FLEXRAY-FIFO-RANGE/>",
     f"Fifo /Network/Gateway/Controller{CONTROLLER}/"),
    ("<FIFO-DEPTH>16<", "<MSG-ID-MASK>1</MSG-ID-MASK><FIFO-DEPTH>16<",
     f"Fifo /Network/Gateway/Controller{CONTROLLER}/"),
    ("<FIFO-DEPTH>16<", "<FIFO-DEPTH>0<",
     "BadNode /Network/Gateway/Controller: `capacity` of the receive FIFO of node 0 "),
    ("/Network/Gateway/Controller<", "/Network/Gateway/Cotnroller<",
     "BrokenReference /Network/Gateway/OnA/COMM-CONTROLLER-REF: no file has /Network/Gateway/Cotnroller"),
    # Frames
    ("<SLOT-ID>1<", "<SLOT-ID>0<", "Slot /Network/Backbone/ChannelA/FT_Speed_A: slot 0 is none of 1 to 2047"),
    ("<SLOT-ID>9<", "<SLOT-ID>2048<", "Slot /Network/Backbone/ChannelA/FT_Diagnosis_A: slot 2048"),
    ("<SLOT-ID>3<", "<SLOT-ID>1<",
     "Overlap /Network/Backbone/ChannelA/FT_Pressure_A: Pressure and Speed are in slot 1 on A in the same "
     "cycles, the latter by /Network/Backbone/ChannelA/FT_Speed_A"),
    ("CYCLE-REPETITION-4<", "CYCLE-REPETITION-5<",
     f"Repetition /Network/Backbone/ChannelA/FT_Pressure_A/{TIMING}/COMMUNICATION-CYCLE/CYCLE-REPETITION: "
     "base 1 and repetition 5 are no filter of version 2.1"),
    ("CYCLE-REPETITION-4<", "CYCLE-REPETITION-1<",
     f"Repetition /Network/Backbone/ChannelA/FT_Pressure_A/{TIMING}/COMMUNICATION-CYCLE/CYCLE-REPETITION: "
     "base 1 and repetition 1"),
    ("<FRAME-LENGTH>16<", "<FRAME-LENGTH>17<",
     "FrameTooLong /Network/Speed: it has 17 bytes, and a frame of slot 1 has at most 16"),
    ("<FRAME-LENGTH>33<", "<FRAME-LENGTH>255<",
     "FrameTooLong /Network/Diagnosis: it has 255 bytes, and a frame of slot 9 has at most 254"),
    ("<FRAME-LENGTH>16</FRAME-LENGTH>", "", "Missing /Network/Speed/FRAME-LENGTH: "),
    ("/Network/Speed<", "/Network/Sped<",
     "BrokenReference /Network/Backbone/ChannelA/FT_Speed_A/FRAME-REF: no file has /Network/Sped"),
    ("<COMMUNICATION-DIRECTION>IN<", "<COMMUNICATION-DIRECTION>INOUT<",
     "Direction /Network/Gateway/OnA/In: it is INOUT"),
    ('<FRAME-PORT-REF DEST="FRAME-PORT">/Network/Brake/OnA/In<',
     '<FRAME-PORT-REF DEST="FRAME-PORT">/Network/Brake/OnA/Out<',
     "Senders /Network/Backbone/ChannelA/FT_Speed_A: its senders are Gateway and Brake, and expected is one"),
    # PDUs and signals
    ("<START-POSITION>64<", "<START-POSITION>66<", "PduPosition /Network/Speed/mEngine: the PDU begins at bit 66"),
    ("MOST-SIGNIFICANT-BYTE-FIRST<", "FIRST<", "ByteOrder /Network/Motion/pspeed: it is FIRST"),
    ("/Network/cm_speed<", "/Network/cm<",
     "BrokenReference /Network/sys_speed/PHYSICAL-PROPS/SW-DATA-DEF-PROPS-VARIANTS/"
     "SW-DATA-DEF-PROPS-CONDITIONAL/COMPU-METHOD-REF: no file has /Network/cm"),
    ("<BASE-TYPE-ENCODING>2C<", "<BASE-TYPE-ENCODING>SM<", "Encoding /Network/base_s: its BASE-TYPE-ENCODING is SM"),
    ("<V>100</V>", "<V>x</V>", "NotANumber /Network/cm_speed/"),
    ("<LENGTH>12<", "<LENGTH>65<", "Opaque /Network/acceleration: 65 bits from bit 16 on aren't whole bytes"),
    ("<LENGTH>12<", "<LENGTH>0<", "Length /Network/acceleration: it has 0 bits"),
    ("<LENGTH>32<", "<LENGTH>31<", "FloatLength /Network/torque: a float has 16, 32 or 64 bits, and not 31"),
    ("<START-POSITION>28<", "<START-POSITION>126<",
     "BadSignal /Network/gear: signal gear of frame Speed ends in byte 17"),
    ("<SELECTOR-FIELD-CODE>2<", "<SELECTOR-FIELD-CODE>256<",
     "BadSignal /Network/pressure_r: `Brakes.selector` in `when` of pressure_r in frame Pressure is 256"),
    ('INTERVAL-TYPE="CLOSED">0<', 'INTERVAL-TYPE="HALF">0<', "Limit /Network/cm_speed/"),
)
REFUSED_FIBEX = (
    ("<flexray:MACROTICK>1<", "<flexray:MACROTICK>0.000001<", "Unit /Backbone: "),
    ("<flexray:NUMBER-OF-STATIC-SLOTS>8</flexray:NUMBER-OF-STATIC-SLOTS>", "",
     "Missing /Backbone/NUMBER-OF-STATIC-SLOTS: the element isn't there"),
    ("<fx:SPEED>10000000<", "<fx:SPEED>10<", "BitRate /Backbone/SPEED: it is 10 bits a second"),
    ("<flexray:CYCLE>1000<", "<flexray:CYCLE>1<", "CycleTime /Backbone/CYCLE: it is 1 microseconds"),
    ("BIT-COUNTING-POLICY>MONOTONE<", "BIT-COUNTING-POLICY>ODD<",
     "BitCounting /Backbone/BIT-COUNTING-POLICY: it is ODD"),
    ("FLEXRAY-CHANNEL-NAME>B<", "FLEXRAY-CHANNEL-NAME>C<", "ChannelName /ChannelB: its FLEXRAY-CHANNEL-NAME is C"),
    ("<flexray:STARTUP-SYNC>1</flexray:STARTUP-SYNC>",
     "<flexray:STARTUP-SYNC>1</flexray:STARTUP-SYNC><flexray:SYNC>2</flexray:SYNC>",
     "TwoKeySlots /Gateway/Controller: "),
    ("<fx:SLOT-ID>1</fx:SLOT-ID>", "", "Missing /ChannelA/FtSpeedA/TIMINGS/ABSOLUTELY-SCHEDULED-TIMING/SLOT-ID: "),
    ("<fx:BASE-CYCLE>1<", "<fx:BASE-CYCLE>4<",
     "Repetition /ChannelA/FtPressureA/TIMINGS/ABSOLUTELY-SCHEDULED-TIMING: "),
    ("<fx:BASE-CYCLE>1</fx:BASE-CYCLE>", "", "Missing /ChannelA/FtPressureA/TIMINGS/ABSOLUTELY-SCHEDULED-TIMING/"),
    ('<fx:FRAME-REF ID-REF="Speed"/>', '<fx:FRAME-REF ID-REF="Sped"/>',
     "BrokenReference /ChannelA/FtSpeedA/FRAME-REF: no file has Sped"),
    ('<fx:CODING-REF ID-REF="cspeed"/>', "", "Missing /speed/CODING-REF: "),
    ('<fx:FRAME-TRIGGERING-REF ID-REF="FtSpeedA"/>', "", "Missing /Gateway/GatewayA/"),
    ('ENCODING="2C"', 'ENCODING="1C"', "Encoding /cacceleration/CODED-TYPE: its ENCODING is 1C"),
    ("<fx:BIT-POSITION>64<", "<fx:BIT-POSITION>68<", "PduPosition /Speed/SpeedEngine: the PDU begins at bit 68"),
    ("<fx:IS-HIGH-LOW-BYTE-ORDER>true</fx:IS-HIGH-LOW-BYTE-ORDER>", "",
     "Missing /Motion/ispeed/IS-HIGH-LOW-BYTE-ORDER: "),
    ("<fx:BYTE-LENGTH>16</fx:BYTE-LENGTH>", "", "Missing /Speed/BYTE-LENGTH: "),
    ("<ho:BIT-LENGTH>12<", "<ho:BIT-LENGTH>0<", "Length /acceleration: it has 0 bits"),
)
NOTED_ARXML = (
    ("<MINISLOT-DURATION>7<", "<NEW-THING>1</NEW-THING><MINISLOT-DURATION>7<",
     f"1 element NEW-THING is unknown to this reader and not read, the first one: {IN_ARXML}/NEW-THING"),
    ("<FRAME-LENGTH>16<", "<SPECIAL>1</SPECIAL><FRAME-LENGTH>16<",
     "1 element SPECIAL is unknown to this reader and not read, the first one: /Network/Speed/SPECIAL"),
    ("<ELEMENTS>", "<ELEMENTS><CAN-CLUSTER><X/></CAN-CLUSTER>", "elements of other kinds aren't read: 1 CAN-CLUSTER"),
    ("<KEY-SLOT-ID>1<", "<MICRO-PER-CYCLE>40000</MICRO-PER-CYCLE><KEY-SLOT-ID>1<", "microticks (1 element)"),
    ("<V>0</V><V>1</V></COMPU-NUMERATOR><COMPU-DENOMINATOR><V>100</V>",
     "<V>0</V><V>1</V><V>2</V></COMPU-NUMERATOR><COMPU-DENOMINATOR><V>100</V>",
     "conversion LINEAR is no straight line, so that values stay raw: speed"),
    ("<V>100</V>", "<V>0</V>", "conversion LINEAR is no straight line, so that values stay raw: speed"),
    ("<VALUE>65535<", "<VALUE>65536<", "its invalid value is none that the signal can have in a cluster file: speed"),
    ("<NUMERICAL-VALUE-SPECIFICATION><VALUE>1</VALUE></NUMERICAL-VALUE-SPECIFICATION>",
     "<TEXT-VALUE-SPECIFICATION><VALUE>on</VALUE></TEXT-VALUE-SPECIFICATION>",
     "its initial value is no number: gear"),
    ("/Network/Engine<", "/Network/Motion<", "signals have a name of their frame twice, and are renamed: speed.2"),
    ('<FRAME-PORT-REF DEST="FRAME-PORT">/Network/Door/OnA/Out</FRAME-PORT-REF>', "",
     "frames without a sender in the description are never sent: /Network/Backbone/ChannelA/FT_Diagnosis_A"),
    ("<KEY-SLOT-USED-FOR-SYNC>true</KEY-SLOT-USED-FOR-SYNC>",
     "<KEY-SLOT-USED-FOR-SYNC>false</KEY-SLOT-USED-FOR-SYNC>",
     "fewer than two nodes have a sync slot"),
    ("<ALLOW-DYNAMIC-L-SDU-LENGTH>false<", "<ALLOW-DYNAMIC-L-SDU-LENGTH>true<",
     "frames that may be shorter have their full length here: Speed"),
    ("<LATEST-TX>60</LATEST-TX>", "",
     "nodes without a latest minislot have the last one from which their longest frame fits: Door 73"),
    ("<LATEST-TX>60<", "<LATEST-TX>80<",
     "latest minislots are lowered to what the lengths of frames leave room for: Door 74 for 80"),
    ("<TRANSMISSION-START-SEQUENCE-DURATION>11</TRANSMISSION-START-SEQUENCE-DURATION>", "",
     "the transmission start sequence is taken to have 11 bits"),
    ("<LENGTH>33<", "<LENGTH>0x21<", "left out"),
    ("<LENGTH>8</LENGTH><I-SIGNAL-TO-PDU-MAPPINGS>", "<LENGTH>80</LENGTH><I-SIGNAL-TO-PDU-MAPPINGS>",
     "PDUs end after the length of their frame: Motion"),
    ("<LENGTH>8</LENGTH><I-SIGNAL-TO-PDU-MAPPINGS>", "<LENGTH>3</LENGTH><I-SIGNAL-TO-PDU-MAPPINGS>",
     "signals end after the length of their PDU: acceleration and gear"),
)


class TestRefusals(Importing):
    def check_refusal(self, text: str, old: str, new: str, wanted: str) -> None:
        with self.subTest(old=old, new=new):
            refusals = self.refusals(changed(text, (old, new)))
            self.assertTrue(any(it.startswith(wanted) for it in refusals), refusals)

    def test_autosar(self) -> None:
        text = flat(ARXML.read_text())
        for it in REFUSED_ARXML:
            self.check_refusal(text, *it)

    def test_fibex(self) -> None:
        text = flat(FIBEX.read_text())
        for it in REFUSED_FIBEX:
            self.check_refusal(text, *it)

    def test_all_are_reported(self) -> None:
        """The refusals of different elements come together, each once."""
        text = changed(flat(ARXML.read_text()), ("/Network/Speed<", "/Network/X<"),
                       ("MOST-SIGNIFICANT-BYTE-FIRST<", "FIRST<"), ("<SYMBOL-WINDOW>30<", "<SYMBOL-WINDOW>x<"))
        self.assertEqual(sorted(it.split(" ")[0] for it in self.refusals(text)),
                         ["BrokenReference", "ByteOrder", "NotANumber"])

    def test_versions(self) -> None:
        for text, wanted in (
                (ARXML.read_text().replace("schema/r4.0", "3.2.1"), "Version {}: its namespace is "
                 "http://autosar.org/3.2.1, and expected is http://autosar.org/schema/r4.0, of AUTOSAR 4"),
                (FIBEX.read_text().replace('VERSION="3.1.0"', 'VERSION="2.0"'), "Version {}: it is FIBEX 2.0, and "
                 "expected is 3 or 4"),
                ("<html/>", "Format {}: its root is html, and expected is AUTOSAR or FIBEX"),
                ("no XML", "NotXml {}: line 1, column 1: syntax error"),
                ("", "NotXml {}: line 1, column 1: no element found"),
                ("<AUTOSAR", "NotXml {}: line 1, column 1: unclosed token"),
                (ARXML.read_text()[:5000], "NotXml {}: line ")):
            with self.subTest(wanted=wanted):
                self.assertTrue(self.refusals(text)[0].startswith(wanted.format(self.folder / "description.xml")))

    def test_mixed_formats(self) -> None:
        status, _, told = self.asked("import", str(ARXML), str(FIBEX))
        self.assertEqual(status, 1)
        self.assertIn(f"refused Format {FIBEX}: expected is one FIBEX file, or the AUTOSAR files of one description",
                      told)
        self.assertIn("refused Format", self.asked("import", str(FIBEX), str(FIBEX))[2])

    def test_no_senders(self) -> None:
        """Wrong names of ports would read as absent."""
        text = flat(FIBEX.read_text()).replace("OUTPUT-PORT", "OUTPUT-PRT")
        self.assertIn("NoSenders /Backbone: no frame has a sender; --listen takes such a description, as an extract "
                      "for one node", self.refusals(text))
        found, notes = self.imported(text, "--listen")
        self.assertEqual(found.count('kind = "receive"'), 4)
        self.assertTrue(any(it.startswith("4 elements OUTPUT-PRT are unknown") for it in notes), notes)

    def test_no_frames(self) -> None:
        text = flat(FIBEX.read_text()).replace("FRAME-TRIGGERINGS>", "FRAMES-TRIGGERED>")
        self.assertIn("NoFrames /Backbone: no frame of the cluster has a slot", self.refusals(text))

    def test_no_cluster(self) -> None:
        status, _, told = self.asked("import", self.written("can.arxml", ARXML.read_text().replace(
            "FLEXRAY-CLUSTER>", "CAN-CLUSTER>")))
        self.assertEqual((status, told), (1, "note elements of other kinds aren't read: 1 CAN-CLUSTER\n"
                                             "refused NoCluster the files: there is no FlexRay cluster\n"))

    def test_two_elements_of_one_path(self) -> None:
        """They are one where they are the same, and refused where they differ and one of them is needed."""
        text = flat(ARXML.read_text())
        frame = text[text.index("<FLEXRAY-FRAME><SHORT-NAME>Diagnosis"):]
        frame = frame[:frame.index("</FLEXRAY-FRAME>") + len("</FLEXRAY-FRAME>")]
        self.assertEqual(self.imported(changed(text, (frame, frame + frame)))[0], self.imported(text)[0])
        other = frame.replace("<FRAME-LENGTH>33<", "<FRAME-LENGTH>32<")
        self.assertEqual(self.refusals(changed(text, (frame, frame + other))),
                         ["Several /Network/Backbone/ChannelA/FT_Diagnosis_A/FRAME-REF: /Network/Diagnosis stands in "
                          "several places, with different content"])


class TestNotes(Importing):
    def test_autosar(self) -> None:
        text = flat(ARXML.read_text())
        for old, new, wanted in NOTED_ARXML:
            with self.subTest(old=old, new=new):
                changes = changed(text, (old, new))
                if "sync slot" in wanted:
                    changes = changes.replace("<KEY-SLOT-USED-FOR-START-UP>true<", "<KEY-SLOT-USED-FOR-START-UP>false<")
                notes = self.imported(changes)[1]
                self.assertTrue(any(wanted in it for it in notes), notes)
