"""Tests of the warnings of frames and signals, of their keys, and of the comments that silence them."""
from tests.cases import CLUSTER, Cases

BUFFER, RECEIVER = '{kind = "event", slot = 1, channels = "AB"}', '{kind = "receive", slot = 1, channels = "A"}'
DYNAMIC = '{kind = "event", slot = 4, channels = "A", words = 1}'
FRAME = '''
[[frame]]
name = "Data"
bytes = 2
signal = [
  {name = "speed", bit = 7, bits = 8, order = "big", factor = 0.5, min = 0, max = 127.5, update = [8]},
  {name = "gear", bit = 12, bits = 4, values = {0 = "park", 1-3 = "drive"}, invalid = 15},
]
'''
OF_FRAMES = ("bad-signal", "unknown-frame", "long-frame", "shared-bits", "value-range", "other-frame", "unread-key")


class Signals(Cases):
    def cluster(self, *changes: str) -> str:
        """Returns the cluster of three nodes, whose first buffer sends the frame, with changes."""
        named = CLUSTER.replace(BUFFER, BUFFER.replace("}", ', frame = "Data"}'), 1) + FRAME
        return self.changed(named, changes)

    def names(self, text: str) -> list[str]:
        """Returns the names of the warnings of frames and keys."""
        return [it.name for it in self.look(text)[0].warnings if it.name in OF_FRAMES]

    def found(self, name: str, line: str, words: tuple[str, ...], text: str) -> None:
        """Asserts that a text has one warning of frames: its name, the begin of its line, and its words."""
        found = [it for it in self.look(text)[0].warnings if it.name in OF_FRAMES]
        self.assertEqual([it.name for it in found], [name], found)
        place = found[0].place
        assert place and place.column
        self.assertTrue(place.source[place.column - 1:].startswith(line), (place, place.source))
        for word in words:
            self.assertIn(word, f"{found[0].headline} {found[0].reason} {[str(it) for it in found[0].notes]}")

    def test_right_frames(self) -> None:
        """All keys are known, and the program accepts the file, since it ignores them."""
        self.assertEqual(self.names(self.cluster()), [])

    def test_unread_keys(self) -> None:
        self.found("unread-key", "unusd", ("`unusd` of frame 0 is an unknown key", "Is `unused` meant?"),
                   self.cluster("bytes = 2", "bytes = 2\nunusd = 2"))
        self.found("unread-key", "start", ("`start` of signal 0 of frame 0 is an unknown key",),
                   self.cluster("bit = 7,", "bit = 7, start = 7,"))

    def test_a_bad_signal(self) -> None:
        self.found("bad-signal", "bits", ("signal gear of frame Data ends in byte 3, and the frame has 2 bytes",),
                   self.cluster("bit = 12, bits = 4", "bit = 13, bits = 4"))
        self.found("bad-signal", "factor", ("`factor` of signal speed of frame Data is 0",),
                   self.cluster("0.5", "0"))

    def test_an_unknown_frame(self) -> None:
        """A frame with a fault is known, so this is one warning and not two."""
        self.found("unknown-frame", "frame = ", ('`frame` of buffer 0 of node 0 is "Date"', "Is Data meant?"),
                   self.cluster('frame = "Data"', 'frame = "Date"'))
        self.found("unknown-frame", "frame = ", ("is 7", "the name of a table `[[frame]]`"),
                   self.cluster('frame = "Data"', "frame = 7"))

    def test_a_long_frame(self) -> None:
        """A static slot has one word here, and so has the dynamic buffer."""
        self.found("long-frame", "frame = ", ("frame Data has 4 bytes, and buffer 0 of node 0 sends 2", "static_words"),
                   self.cluster("bytes = 2", "bytes = 4"))
        dynamic = self.cluster('frame = "Data"', 'name = "x"', "bytes = 2", "bytes = 4", DYNAMIC,
                               DYNAMIC.replace("}", ', frame = "Data"}'))
        self.found("long-frame", "frame = ", ("buffer 0 of node 2 sends 2", "more `words`"), dynamic)

    def test_shared_bits(self) -> None:
        self.found("shared-bits", "bit = 6", ("signals speed and gear of frame Data share bits 6 and 7",),
                   self.cluster("bit = 12", "bit = 6", "[8]", "[10]"))
        self.found("shared-bits", "update", ("`update` of speed and gear of frame Data share bit 12",),
                   self.cluster("[8]", "[12]"))

    def test_multiplexed_signals_share_bits(self) -> None:
        """Those with different codes of a selector are never in one payload."""
        pair = ('  {{name = "a", bit = 0, bits = 8, when = {{gear = 1}}}},\n'
                '  {{name = "b", bit = 0, bits = 8, when = {{gear = {}}}}},\n]')
        speed = '{name = "speed", bit = 7, bits = 8, order = "big", factor = 0.5, min = 0, max = 127.5, update = [8]},'
        for code, names in ((2, []), (1, ["shared-bits"])):
            with self.subTest(code=code):
                self.assertEqual(self.names(self.cluster(speed, "", "15},\n]", "15},\n" + pair.format(code))), names)

    def test_values_out_of_range(self) -> None:
        self.found("value-range", "1-16", ("`1-16` in `values` of gear in frame Data is out of range", "from 0 to 15"),
                   self.cluster("1-3", "1-16"))
        self.found("value-range", "max", ("`max` of speed in frame Data is 128", "values from 0 to 127.5"),
                   self.cluster("127.5", "128"))
        self.assertEqual(self.names(self.cluster("127.5", "127.9")), [])
        self.found("value-range", "min", ("`min` of speed in frame Data is -0.5",),
                   self.cluster("min = 0", "min = -0.5"))

    def test_another_claim(self) -> None:
        """The receive buffer of node 1 stores frames of slot 1, which node 0 sends."""
        other = '\n[[frame]]\nname = "Other"\nbytes = 2\n'
        receiver = RECEIVER.replace("}", ', frame = "{}"}')
        for name, names in (("Data", []), ("Other", ["other-frame"])):
            with self.subTest(name=name):
                self.assertEqual(self.names(self.cluster(RECEIVER, receiver.replace("{}", name)) + other), names)
        self.found("other-frame", "frame", ("is Other, and buffer 0 of node 0 sends frame Data",),
                   self.cluster(RECEIVER, receiver.replace("{}", "Other")) + other)
        self.found("other-frame", "frame", ("sends a frame without `frame`",),
                   self.cluster('frame = "Data"', 'name = "x"', RECEIVER, receiver.replace("{}", "Other")) + other)

    def test_a_second_file(self) -> None:
        """Its keys are read too, and a comment in it silences its warnings."""
        first = self.cluster(FRAME, "", 'guard = "A"', 'guard = "A"\nsignals = "signals.toml"')
        self.written("signals.toml", FRAME)
        self.assertEqual(self.names(first), [])
        self.written("signals.toml", FRAME.replace("bytes = 2", "bytes = 2\nother = 1"))
        self.found("unread-key", "other", ("`other` of frame 0",), first)
        self.written("signals.toml", FRAME.replace("bytes = 2", "bytes = 2\nother = 1 # lint: allow unread-key: why"))
        self.assertEqual(self.names(first), [])
        self.written("signals.toml", "[params]\n" + FRAME)
        self.found("unread-key", "", ("`params` of the top of the file is an unknown key",), first)
        self.written("signals.toml", FRAME.replace("bit = 12", "bit = 6").replace("[8]", "[10]"))
        self.found("shared-bits", "bit = 6", (), first)
        (self.folder / "signals.toml").unlink()
        self.found("bad-signal", "signals", ("the file signals.toml of `signals` isn't there",),
                   first.replace('frame = "Data"', 'name = "x"'))

    def test_a_comment_silences(self) -> None:
        self.assertEqual(self.names(self.cluster("1-3", "1-16", "15},", "15}, # lint: allow value-range: why")), [])

    def test_many_warnings(self) -> None:
        """Of 1,024 signals in the same bits twenty have a warning each, and the others are counted."""
        many = "".join(f'  {{name = "s{number}", bit = 0, bits = 8}},\n' for number in range(1024))
        text = CLUSTER + f'[[frame]]\nname = "Data"\nbytes = 2\nsignal = [\n{many}]\n'
        found, _ = self.look(text)
        self.assertEqual((len([it for it in found.warnings if it.name == "shared-bits"]), found.further_warnings),
                         (20, 1003))
