"""Tests of `import` with mutants of the samples: no crash, no silent loss, and each written file is accepted."""
import re
from collections import Counter
from collections.abc import Callable
from dataclasses import replace

from musmyrtle.cluster import Reading
from musmyrtle.descriptions.importing import Imported, NotImported, Wishes, imported
from musmyrtle.lint.clashes import clashes
from musmyrtle.signals.frames import Definitions, Frames
from musmyrtle.texts import read_text
from tests.importing import ARXML, FIBEX, Importing, flat
from tests.mutated import Mutator, spans

MUTANTS = 150
SECOND = {"BAUDRATE", "BIT", "CYCLE", "SPEED"}
"""Times that others have too, with which they are compared."""
ALIKE = {"SHORT-NAME", "CATEGORY", "LENGTH", "BYTE-LENGTH", "PROTOCOL-NAME", "PROTOCOL-VERSION", "BASE-TYPE-SIZE",
         "FRAME-TYPE", "PDU-TYPE", "PROTOCOL", "COLD-START-ATTEMPTS", "TRANSFER-PROPERTY", "SEGMENT-POSITION",
         "SEGMENT-LENGTH", "SEGMENT-BYTE-ORDER", "MAXIMUM-DYNAMIC-PAYLOAD-LENGTH"}
"""Texts that say nothing of the network, are counted in a note, or only limit what is in them."""
AS_ABSENT = {"ALLOW-DYNAMIC-L-SDU-LENGTH", "PAYLOAD-PREAMBLE-INDICATOR", "IS-HIGH-LOW-BIT-ORDER",
             "IS-HIGH-LOW-BYTE-ORDER", "BIT-COUNTING-POLICY", "COMPU-DENOMINATOR", "DEFAULT-VALUE", "INIT-VALUE",
             "INITIAL-DYNAMIC-PART",
             "KEY-SLOT-USAGE", "NONE", "BASE-CYCLE", "CYCLE-REPETITION", "BASE-TYPE-ENCODING", "PACKING-BYTE-ORDER",
             "COMM-CONNECTORS", "COMMUNICATION-CONNECTOR-REF-CONDITIONAL", "COMMUNICATION-CONNECTOR-REF"}
"""Elements whose value in a sample is what their absence says, or what ports say."""
IDENTICAL = {"COMPU-METHOD", "COMPU-METHODS", "COMPU-METHOD-REF", "SYSTEM-SIGNAL-REF", "PHYSICAL-PROPS",
             "SW-DATA-DEF-PROPS-VARIANTS", "SW-DATA-DEF-PROPS-CONDITIONAL"}
"""The way to a conversion that converts nothing."""


class TestMutants(Importing):
    def outcome(self, text: str) -> Imported | list[str]:
        """Returns the cluster file and the notes of a description, or its refusals."""
        try:
            found = imported([self.written("mutant.xml", text)], Wishes())
            return replace(found, sources=())
        except NotImported as refused:
            self.assertTrue(refused.refusals)
            return refused.refusals

    def check_written(self, found: Imported) -> None:
        """Checks that the program's rules and the reader of signals accept a file."""
        text = read_text("", found.with_notes.encode())
        cluster = Reading(text.document).cluster
        self.assertIsNotNone(cluster)
        if cluster is not None:
            self.assertEqual((clashes(cluster), Frames(cluster, Definitions.of(text)).faults), ([], []))

    def test_random_mutants(self) -> None:
        counts = [0, 0]
        for seed, source in enumerate((ARXML, FIBEX)):
            mutator = Mutator(flat(source.read_text()), seed)
            for number in range(MUTANTS):
                with self.subTest(source=source.name, number=number):
                    found = self.outcome(mutator.mutant())
                    counts[isinstance(found, Imported)] += 1
                    if isinstance(found, Imported):
                        self.check_written(found)
        self.assertGreater(min(counts), MUTANTS // 4)

    def test_each_element_matters(self) -> None:
        """Without any single element the file, the notes or the refusals are others."""
        found = self.silent(lambda text, begin, end: text[:begin] + text[end:])
        self.assertEqual(found - SECOND - ALIKE - AS_ABSENT - IDENTICAL, set())

    def test_each_text_matters(self) -> None:
        """With any other text the file, the notes or the refusals are others."""
        def other(text: str, begin: int, end: int) -> str:
            found = re.fullmatch(r"(<[^<>]*>)([^<>]+)(</.*)", text[begin:end])
            return f"{text[:begin]}{found[1]}{found[2]}1{found[3]}{text[end:]}" if found else ""
        self.assertEqual(self.silent(other) - ALIKE, set())

    def silent(self, change: Callable[[str, int, int], str]) -> set[str]:
        """Returns the tags of elements whose change changes nothing, of two elements of each tag in each source."""
        found = set()
        for source in (ARXML, FIBEX):
            text = flat(source.read_text())
            whole, tried = self.outcome(text), Counter[str]()
            for begin, end in spans(text):
                tag = re.split("[ >/]", text[begin + 1:], maxsplit=1)[0].rpartition(":")[2]
                mutant = change(text, begin, end)
                tried[tag] += 1
                if begin > 60 and mutant and tried[tag] < 3 and self.outcome(mutant) == whole:
                    found.add(tag)
        return found
