"""Tests of the commands `encode`, `decode` and `annotate` on the cluster of `examples/signals`, with values by hand.

The speed 87.5 km/h is 8750, which is 0x222e. Byte 2 has the gear in its lower half, the update bit of the speed in bit
4, and three unused bits. The temperature 20 is 60, which is 0x3c. The pedal 30 % is 300, which is 0x012c, and 800 as a
float of 32 bits is 0x44480000.
"""
import json

from musmyrtle import World
from tests.shows import EXAMPLES, Shows
from tests.two_nodes import PARAMETERS

FOLDER = EXAMPLES / "signals"
CLUSTER = str(FOLDER / "cluster.toml")
SPEED = "x222ef13c00000000"


class Refusing(Shows):
    def check_refusal(self, command: str, words: str, told: str) -> None:
        """Checks that the words are refused with a text that has `told`."""
        with self.subTest(words=words):
            status, output, error = self.asked(command, CLUSTER, *words.split())
            self.assertEqual((status, output), (2, ""))
            self.assertIn(told, error)


class TestEncode(Refusing):
    def test_payloads(self) -> None:
        for words, payload in (
                ("engine data speed=87.5 gear=drive", SPEED), ("0 0 speed=87.5 gear=1", SPEED),
                ("engine data", "x0000e03c00000000"), ("engine data speed=none", "xfffff03c00000000"),
                ("engine data speed=175/2 temperature=-40", "x222ef00000000000"),
                ("brake data pedal=30 force=800", "x2c01000048440000"),
                ("brake data slip=-0.001", "x000000000000ffff"),
                ("brake data serial=x0a0b0c0d0e0f", "x00100a0b0c0d0e0f"),
                ("brake data page=serial", "x0010010203040506")):
            with self.subTest(words=words):
                self.assertEqual(self.printed("encode", CLUSTER, *words.split()), f"{payload}\n")

    def test_refusals(self) -> None:
        for words, told in (
                ("engine data sped=1", "frame Engine has no signal 'sped'; is speed meant?"),
                ("engine data speed", "speed is no value of a signal: expected NAME=VALUE"),
                ("engine data speed=1 speed=2", "speed stands twice"),
                ("engine data speed=700", "speed is 700, and has to be a number, 0 to 655.34 km/h"),
                ("engine data gear=drve", "is 'drive' meant?"), ("engine data gear=reserved", "3-7: give a number"),
                ("engine brake speed=1", "buffer 1 of node 0 is a receive buffer, and sends no signals"),
                ("motor data", "none is motor; names: engine, brake and dashboard"),
                ("engine dat", "none is dat; names: data and brake"),
                ("brake data serial=1", "serial is 1, and has to be 6 bytes, as x0a0b"),
                ("brake data page=forces serial=x000000000000", "serial of frame Brake is there while page is 1")):
            self.check_refusal("encode", words, told)

    def test_a_refused_cluster(self) -> None:
        cluster = self.written("cluster.toml", (FOLDER / "cluster.toml").read_text().replace("idle = 0", "idle = 9"))
        status, output, error = self.asked("encode", cluster, "engine", "data")
        self.assertEqual((status, output, "refused Params OutOfRange idle" in error), (1, "", True))

    def test_refused_signals(self) -> None:
        text = (FOLDER / "cluster.toml").read_text()
        cluster = self.written("cluster.toml", text.replace("bit = 7, bits = 16", "bit = 7, bits = 33"))
        status, output, error = self.asked("encode", cluster, "engine", "data")
        self.assertEqual((status, output), (1, ""))
        self.assertIn(f"musmyrtle: the signals of {cluster} are refused", error)
        self.assertIn("error: signal speed of frame Engine ends in byte 5, and the frame has 4 bytes", error)


class TestDecode(Refusing):
    def test_a_transmit_buffer(self) -> None:
        self.assertEqual(self.printed("decode", CLUSTER, "engine", "data", SPEED), (
            "Signals of frame Engine\n"
            "signal       value  unit  name    raw  new  within limits\n"
            "speed         87.5  km/h  -      8750  yes  yes\n"
            "gear             1  -     drive     1  yes  yes\n"
            "temperature     20  C     -        60  yes  yes\n"))

    def test_a_receive_buffer(self) -> None:
        """It has the frame of its sender, whether it names one or not."""
        for node in ("brake", "dashboard"):
            found = self.values("signal", "signal value", "decode", CLUSTER, node, "engine", SPEED)
            self.assertEqual(found, [("speed", 87.5), ("gear", 1), ("temperature", 20)])

    def test_rows(self) -> None:
        """0xffff is the invalid speed, the update bit is 0, and gear 3 is reserved. 251 - 40 is above 210."""
        found = self.values("signal", "signal value unit name raw new in_range", "decode", CLUSTER, "0", "0",
                            "xffffe3fb00000000")
        self.assertEqual(found, [("speed", None, "km/h", None, 65535, False, True),
                                 ("gear", 3, None, "reserved", 3, True, True),
                                 ("temperature", 211, "C", None, 251, True, False)])

    def test_bytes_and_multiplexed_signals(self) -> None:
        found = self.values("signal", "signal value", "decode", CLUSTER, "brake", "data", "x00100a0b0c0d0e0f")
        self.assertEqual(found, [("pedal", 0), ("page", 1), ("serial", "x0a0b0c0d0e0f")])
        found = self.values("signal", "signal value", "decode", CLUSTER, "brake", "data", "x2c0100c07f7fffff")
        self.assertEqual([it for it in found if it[0] == "slip"], [("slip", -0.001)])

    def test_numbers_have_all_decimals(self) -> None:
        """0.05 and the next smaller float of 32 bits: both are 0.05 with three decimals."""
        csv = self.printed("decode", CLUSTER, "brake", "data", "x0000cdcc4c3d0000", "--csv")
        self.assertIn("signal,force,0.05000000074505806,N,,0.05000000074505806,true,true\n", csv)

    def test_no_number_is_json(self) -> None:
        output = self.printed("decode", CLUSTER, "brake", "data", "x00000000c07f0000", "--json")
        rows = [json.loads(line) for line in output.splitlines()]
        self.assertEqual([row["value"] for row in rows if row["signal"] == "force"], ["nan"])

    def test_a_short_payload(self) -> None:
        self.assertEqual(self.values("signal", "signal", "decode", CLUSTER, "engine", "data", "x222e"), [("speed",)])
        self.assertEqual(self.printed("decode", CLUSTER, "engine", "data", "x"),
                         "The payload has no signal of frame Engine.\n")

    def test_refusals(self) -> None:
        for words, told in (("engine data 222e", "HEX is 222e: expected `x`"), ("engine data xAB", "lower-case"),
                            ("engine dat x00", "none is dat")):
            self.check_refusal("decode", words, told)

    def test_several_frames(self) -> None:
        """A receive buffer may store frames of two senders, in even and in odd cycles."""
        text = (FOLDER / "cluster.toml").read_text()
        own = '[{slot = 1, channels = "AB", sync = true, startup = true}]'
        text = text.replace(own, own.replace("}", ", repetition = 2}"), 1)
        text = text.replace('slot = 1, channels = "AB", frame = "Engine"},',
                            'slot = 1, channels = "AB", frame = "Engine", repetition = 2},')
        odd = 'slot = 1, channels = "AB", base = 1, repetition = 2'
        text = text.replace("own = [{slot = 2", f"own = [{{{odd}}}, {{slot = 2")
        text = text.replace('frame = "Brake"},', f'frame = "Brake"}},\n  {{kind = "state", {odd}}},')
        cluster = self.written("cluster.toml", text)
        status, _, error = self.asked("decode", cluster, "dashboard", "engine", SPEED)
        self.assertEqual(status, 2)
        self.assertIn("the frame of buffer 0 of node 2 may be frame Engine or one of buffer 1 of node 1 without "
                      "signals", error)


class TestSenders(Shows):
    """The sender of a frame is found by its slot, its channel and its cycle: each has another frame here."""

    CLUSTER = f'''
guard = "none"
{PARAMETERS}[[frame]]
name = "X"
bytes = 2
signal = [{{name = "x", bit = 0, bits = 8}}]
[[frame]]
name = "Y"
bytes = 2
signal = [{{name = "y", bit = 0, bits = 8}}]
[[frame]]
name = "Z"
bytes = 2
signal = [{{name = "z", bit = 0, bits = 8}}]
[[node]]
own = [{{slot = 1, channels = "AB"}}]
buffer = [
  {{kind = "state", slot = 1, channels = "A", repetition = 2, frame = "X"}},
  {{kind = "state", slot = 1, channels = "A", base = 1, repetition = 2, frame = "Y"}},
  {{kind = "state", slot = 1, channels = "B", frame = "Z"}},
  {{kind = "receive", slot = 1, channels = "A"}},
]
[[node]]
own = [{{slot = 2, channels = "AB"}}]
buffer = [
  {{kind = "receive", slot = 1, channels = "A", repetition = 2}},
  {{kind = "receive", slot = 1, channels = "B"}},
  {{kind = "receive", slot = 1, channels = "A", base = 1, repetition = 4}},
]
'''

    def test_commands(self) -> None:
        cluster = self.written("cluster.toml", self.CLUSTER)
        for buffer, name in (("0", "x"), ("1", "z"), ("2", "y")):
            self.assertEqual(self.values("signal", "signal", "decode", cluster, "1", buffer, "x0000"), [(name,)])
        status, _, error = self.asked("decode", cluster, "0", "3", "x0000")
        self.assertEqual((status, "no transmit buffer of the cluster sends it" in error), (2, True))

    def test_worlds(self) -> None:
        with World(self.written("cluster.toml", self.CLUSTER), cycles=2) as world:
            found = []
            for _ in range(2):
                for buffer in range(3):
                    world.node(0).commit(buffer, b"\1\0")
                world.cycle()
                frames = [world.node(1).read(buffer) for buffer in range(3)]
                found.append([list(it.signals()) if it else None for it in frames])
        self.assertEqual(found, [[["x"], ["z"], None], [["x"], ["z"], ["y"]]])


class TestAnnotate(Shows):
    def annotated(self, text: str) -> tuple[str, str]:
        status, output, error = self.asked("annotate", CLUSTER, self.written("scenario", text))
        self.assertEqual(status, 0, error)
        return output, error

    def test_lines(self) -> None:
        text = (f"frscenario 3\n# A comment\n\n  commit engine 0\t0 data {SPEED}\nread dashboard 0 3 engine\n"
                f"expect dashboard 2-3 engine {SPEED}\nexpect-none brake 0 engine\n"
                f"commit 0 0 1 0 {SPEED} # the start\nlost engine 3\nend\n")
        signals = " # speed=87.5 km/h gear=drive temperature=20 C"
        expected = text.replace(f"data {SPEED}", f"data {SPEED}{signals}").replace(
            f"engine {SPEED}", f"engine {SPEED}{signals}").replace("# the start", f"# the start{signals}")
        self.assertEqual(self.annotated(text), (expected, ""))

    def test_again(self) -> None:
        """Its own comments are replaced, so a second time changes nothing."""
        once, _ = self.annotated(f"frscenario 3\ncommit 0 0 0 0 {SPEED} # the start\nend\n")
        self.assertEqual(self.annotated(once)[0], once)
        self.assertEqual(self.annotated(once.replace("x222e", "x2328"))[0].count("speed="), 1)

    def test_marks(self) -> None:
        """An invalid value is none, and 211 C is above the limit."""
        self.assertIn("# speed=none gear=reserved temperature=211 C (out of range)\n",
                      self.annotated("frscenario 3\ncommit 0 0 0 0 xffffe3fb00000000\nend\n")[0])

    def test_lists(self) -> None:
        """A line with lists has a comment if all its lines have one payload for one buffer."""
        several = f"commit 0 0 4 0 {SPEED},x2328f13c00000000\nexpect 2 2-3 0,1 {SPEED}\n"
        output, error = self.annotated(f"frscenario 3\ncommit 0 0 0,2 0 {SPEED}\n{several}end\n")
        comment = "# speed=87.5 km/h gear=drive temperature=20 C"
        self.assertEqual(output, f"frscenario 3\ncommit 0 0 0,2 0 {SPEED} {comment}\n{several}end\n")
        self.assertEqual(error, "".join(
            f"musmyrtle: line {number} has no comment: its lists have several payloads or buffers\n"
            for number in (3, 4)))

    def test_a_buffer_without_signals(self) -> None:
        text = "frscenario 3\ncommit dashboard 0 0 engine x00\nexpect radio 0 0 x00\nend\n"
        self.assertEqual(self.asked("annotate", CLUSTER, self.written("scenario", text))[0], 1)
        output, error = self.annotated("frscenario 3\ncommit 0 0 0 63 x0000\nend\n")
        self.assertEqual(output, "frscenario 3\ncommit 0 0 0 63 x0000\nend\n")
        self.assertEqual(error, "musmyrtle: line 2 has no comment: the cluster has no buffer 63 of node 0\n")

    def test_the_program_takes_it(self) -> None:
        """The run of an annotated scenario is the same one."""
        made = self.written("annotated", self.printed("annotate", CLUSTER, str(FOLDER / "scenario")))
        runs = [self.printed("run", CLUSTER, file, "--cycles", "4") for file in (made, str(FOLDER / "scenario"))]
        self.assertEqual(runs[0], runs[1])

    def test_a_long_line(self) -> None:
        """A line has at most 1,200 bytes, so that of many signals the others are counted."""
        many = "".join(f'  {{name = "signal-with-a-long-name-{number}", bit = {number}, bits = 1}},\n'
                       for number in range(64))
        text = (FOLDER / "cluster.toml").read_text() + f'\n[[frame]]\nname = "Many"\nbytes = 8\nsignal = [\n{many}]\n'
        cluster = self.written("cluster.toml", text.replace('frame = "Brake"', 'frame = "Many"'))
        scenario = self.written("scenario", f"frscenario 3\ncommit brake 0 0 data x{'00' * 8}\nend\n")
        line = self.printed("annotate", cluster, scenario).splitlines()[1]
        self.assertLessEqual(len(line), 1200)
        self.assertRegex(line, r"signal-with-a-long-name-0=0 .* and \d+ more$")

    def test_refusals(self) -> None:
        for text, told in (("frscenario 2\nend\n", "is of version 2, which has no comments"),
                           ("frscenario 3\nnonsense\nend\n", "refused BadLine 2"), ("", "refused BadMagic")):
            with self.subTest(text=text):
                status, output, error = self.asked("annotate", CLUSTER, self.written("scenario", text))
                self.assertEqual((status, output), (1, ""))
                self.assertIn(told, error)
        status, _, error = self.asked("annotate", CLUSTER, str(self.folder / "none"))
        self.assertEqual((status, "isn't there" in error), (1, True))

    def test_the_example(self) -> None:
        self.assertEqual(self.printed("lint", CLUSTER, "--strict"), "fr_bench: accepted\n")
