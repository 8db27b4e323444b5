"""Tests of the network of the tutorial with one slip at a time: the finding names the line of the slip, or the missing
part."""
import re
from pathlib import Path

from tests.cases import Cases

PAGE = (Path(__file__).resolve().parents[2] / "docs/TUTORIAL.md").read_text()
BLOCKS = dict(re.findall(r"^```(\S+)\n(.*?)^```$", PAGE, re.MULTILINE | re.DOTALL))
NETWORK = (BLOCKS["network.toml"] + BLOCKS["nodes.toml"]).replace("nit_mt = 10\n", "nit_mt = 100\n").replace("latestA",
                                                                                                             "latest_a")
DRIVE = BLOCKS["drive"].replace("x22f1\n", "x22f19000\n").replace("read wheel 0 5 0", "read wheel 0 5 1")
EVENT = '{kind = "event", slot = 5, channels = "A", words = 2}'
OWN = 'own = [{slot = 2, channels = "AB", sync = true, startup = true}]'

REFUSED = (
    ("static_slots = 4", "static_slots = 1"), ("minislots = 40", "minislots = 4O"),
    ("static_words = 2", "static_words = 2.0"), ("static_mt = 40", 'static_mt = "40"'),
    ("cycle_mt = 500", "cycle_mt = 600"), ("idle = 1", "idle = 4"), ('guard = "AB"', 'guard = "A B"'),
    ("latest_a = 30", "latest_a = 41"), ("latest_a = 30", "tasks = 9"), ("latest_a = 30", "slot_entries = 100000"),
    ("latest_a = 30", "host_entries = 0"), (OWN, OWN.replace("2", "5")), (OWN, OWN.replace('"AB"', '"C"')),
    (OWN, OWN.replace("sync = true, ", "")), (OWN, OWN.replace("}", ", repetition = 6}")),
    (OWN, OWN.replace("}", ", base = 4, repetition = 4}")), (OWN, OWN.replace("slot = 2, ", "")),
    (OWN, OWN.replace("2", "1")), ("capacity = 8", "capacity = 0"), ("first = 1, last = 2", "first = 2, last = 1"),
    ("first = 1, ", ""), (EVENT, EVENT.replace("event", "evnt")), (EVENT, EVENT.replace("5", "4")),
    (EVENT, EVENT.replace('"A"', '"AB"')), (EVENT, EVENT.replace(", words = 2", "")),
    (EVENT, EVENT.replace("words = 2", "words = 100")), (EVENT, EVENT.replace("2}", "2")),
    (EVENT, EVENT + ", " + EVENT), (OWN, OWN + "\n" + OWN),
)
WARNED = (
    ("latest_a = 30", "latestA = 340"), (EVENT, EVENT.replace("}", ", repitition = 2}")),
    (OWN, OWN.replace("startup", "start_up")), ("latest_a = 30", "latest_a = 0"), (EVENT, EVENT.replace("5", "46")),
    (OWN, OWN.replace("}", '}, {slot = 3, channels = "AB", sync = true}')),
    ("first = 1, last = 2", "first = 3, last = 4"),
    ('{kind = "receive", slot = 1, channels = "AB"}', '{kind = "receive", slot = 3, channels = "AB"}'),
    ('{kind = "receive", slot = 1, channels = "AB"}',
     '{kind = "receive", slot = 1, channels = "AB"}, {kind = "receive", slot = 1, channels = "A"}'),
    (EVENT, EVENT + ', {kind = "receive", slot = 1, channels = "A"}'), ("static_mt = 40\n", "static_mt = 10\n"),
    ("minislot_mt = 6\n", "minislot_mt = 2\n"), ("latest_a = 30", "latest_a = 30\nslot_entries = 80"),
)
OF_DRIVE = (
    ("frscenario 3", "frscenario 4"), ("pop gateway 0 2", "pop gateway 0 2\r"), ("pop gateway 0 2", "pop rack 0 2"),
    ("pop gateway 0 2", "pop gateway 1 2"), ("commit wheel 0 2", "commit 3 0 2"),
    ("commit wheel 0 2 0", "commit wheel 0 2 1"), ("read rack 0 3 1", "read rack 0 3 0"),
    ("read rack 0 3 1", "read rak 0 3 1"), ("read rack 0 3 1", "read rack 0 3 7"), ("x22f19000", "x22F19000"),
    ("x22f19000", "x22f190"), ("commit rack 0 3 0", "commit rack 0 3-2 0"), ("end\n", "mute 3 A * s*\nend\n"),
    ("end\n", "mute wheel A * s5\nend\n"), ("end\n", "mute wheel A * s1\nmute 0 AB 2 s*\nend\n"),
    ("end\n", "lost rack 2\nmute rack B 1-3 *\nend\n"), ("end\n", "babble rack A * d4 x00\nend\n"),
)


class Slips(Cases):
    def test_the_network_has_nothing_to_say(self):
        found, _ = self.look(NETWORK, DRIVE, 6)
        self.assertEqual((found.refusals, found.warnings), ([], []))

    def named(self, text: str, old: str, new: str, findings) -> None:
        """Asserts that the first finding or one of its notes is at a line of the slip, or of its cycle's parts."""
        before = text[: text.index(old)].count("\n") + 1
        lines = range(before, before + max(new.count("\n"), old.count("\n")) + 1)
        places = [place for it in findings[:1] for place in (it.place, *(note.place for note in it.notes)) if place]
        self.assertTrue(any(place.line in lines for place in places), f"{places} isn't in {lines}")

    def test_each_refusal(self):
        for old, new in REFUSED:
            with self.subTest(new=new):
                found, answer = self.look(self.changed(NETWORK, (old, new)))
                self.assertNotEqual(found.refusals, [])
                self.named(NETWORK, old, new, [it for _, it in found.refusals])

    def test_each_warning(self):
        for old, new in WARNED:
            with self.subTest(new=new):
                more = () if "_mt" not in old else ("nit_mt = 100", f"nit_mt = {220 if 'static' in old else 260}")
                found, answer = self.look(self.changed(NETWORK, (old, new, *more)))
                self.assertEqual(found.refusals, [])
                self.assertNotEqual(found.warnings, [])
                self.named(NETWORK, old, new,
                           [it for it in found.warnings if "sync" not in it.headline] or found.warnings)

    def test_each_line_of_the_drive(self):
        for old, new in OF_DRIVE:
            with self.subTest(new=new):
                found, answer = self.look(NETWORK, self.changed(DRIVE, (old, new)), 6)
                self.named(DRIVE, old, new, [it for _, it in found.refusals])
