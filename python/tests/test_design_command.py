"""The command `design`: files that the programs accept, reports, refusals, and additions to a kept cluster file."""
import json
import time
import tomllib
from typing import Any
from unittest import mock

from musmyrtle.design.command import Progress
from tests.designing import NETWORK
from tests.shows import EXAMPLES, Shows

NETWORKS = EXAMPLES / "networks"
LEVEL = '[[message]]\nname = "level"\nsender = "engine"\nreceivers = ["brakes"]\nbits = 12\nperiod_ms = 40\n'


def message(name: str, sender: str, *lines: str) -> str:
    """Returns the table of a message of 4 bytes and 10 ms."""
    given = {it.split(" ")[0] for it in lines}
    usual = [it for it in ("bytes = 4", "period_ms = 10") if it.split(" ")[0] not in given]
    return "\n".join(["[[message]]", f'name = "{name}"', f'sender = "{sender}"', *usual, *lines, ""])


def places(tables: dict[str, Any]) -> set[tuple[int, str]]:
    """Returns the dynamic slots of a cluster file with their channels, counted from the first one."""
    first = tables["params"]["static_slots"]
    return {(it["slot"] - first, it["channels"]) for node in tables["node"] for it in node["buffer"]
            if it["kind"] != "receive" and it["slot"] > first}


class Designs(Shows):
    def designed(self, text: str, *words: str) -> tuple[int, list[dict[str, Any]], str]:
        """Returns the status, the rows of the report and the messages for a network."""
        status, output, told = self.asked("design", self.written("network.toml", text), "--json", *words)
        return int(status or 0), [json.loads(it) for it in output.splitlines()], told

    def made(self, text: str, *words: str) -> dict[str, Any]:
        """Returns the tables of the cluster file of a network, of which `lint --strict` has no warning."""
        file = self.folder / "made.toml"
        status, _, told = self.designed(text, "-o", str(file), *words)
        self.assertEqual((status, told), (0, ""))
        self.assertEqual(self.asked("lint", str(file), "--strict")[0], 0)
        return tomllib.loads(file.read_text())

    def misses(self, text: str, *words: str) -> list[str]:
        """Returns what a network misses, with its changes."""
        status, rows, _ = self.designed(text, *words)
        self.assertEqual(status, 3)
        return [f"{it['name']}: {it['reason']}; {it['change']}" for it in rows if it["kind"] == "miss"]

    def refusals(self, text: str) -> list[str]:
        """Returns the headlines of the refusals of a network, with their lines."""
        status, output, told = self.asked("design", self.written("network.toml", text))
        self.assertEqual((status, output), (1, ""))
        return [it.split("network.toml:")[1] for it in told.splitlines() if ": refused " in it and "network.toml" in it]


class Made(Designs):
    def test_the_slots_of_a_small_network(self) -> None:
        tables = self.made(NETWORK)
        engine, brakes = tables["node"]
        self.assertEqual(tables["params"]["static_slots"], 2)
        self.assertEqual(engine["own"], [{"slot": 1, "channels": "AB", "sync": True, "startup": True}])
        self.assertEqual(engine["buffer"][0], {"name": "speed", "kind": "state", "slot": 1, "channels": "AB", "base": 0,
                                               "repetition": 2})
        self.assertEqual([it["name"] for it in brakes["buffer"]], ["pedal", "alarm", "speed"])

    def test_rows_have_the_worst_case_of_the_program(self) -> None:
        # The static slot has 253 bits, 26 macroticks, and an action point at both ends. The alarm fills 5 minislots.
        _, rows, _ = self.designed(NETWORK)
        found = {it["message"]: (it["worst_us"], it["deadline_us"], it["margin_us"]) for it in rows
                 if it["kind"] == "message"}
        self.assertEqual(found, {"speed": (10028, 10028, 0), "pedal": (5028, 5028, 0), "alarm": (5025, 6000, 975)})
        self.assertEqual({it: rows[0][it] for it in ("message", "worst_mt", "deadline_mt", "margin_mt")},
                         {"message": "speed", "worst_mt": 10028, "deadline_mt": 10028, "margin_mt": 0})

    def test_the_same_words_give_the_same_file(self) -> None:
        text = (NETWORKS / "car.toml").read_text()
        first = self.made(text)
        before = (self.folder / "made.toml").read_bytes()
        self.assertEqual(self.made(text), first)
        self.assertEqual((self.folder / "made.toml").read_bytes(), before)

    def test_the_car_and_ten_nodes_have_no_more_slots_than_by_hand(self) -> None:
        for name, by_hand, count in (("car", "vehicle", 62), ("ten-nodes", "ten-nodes", 30)):
            with self.subTest(name):
                held = tomllib.loads((EXAMPLES / by_hand / "cluster.toml").read_text())
                slots = {it["slot"] for node in held["node"] for it in node.get("own", ())}
                made = self.made((NETWORKS / f"{name}.toml").read_text())
                self.assertEqual((len(slots), made["params"]["static_slots"]), (count, count))
                old, new = places(held), places(made)
                self.assertLessEqual(len(new), len(old))
                for channel in "AB":
                    self.assertLessEqual(max(slot for slot, its in new if its == channel),
                                         max(slot for slot, its in old if its == channel))

    def test_the_published_signals_need_the_shorter_cycle(self) -> None:
        made = self.made((NETWORKS / "sae-class-c.toml").read_text())
        self.assertEqual(made["params"]["cycle_mt"], 2500)
        self.assertEqual(sum(len(it["signal"]) for it in made["frame"]), 53)

    def test_signals_of_one_sender_share_a_frame(self) -> None:
        text = NETWORK + LEVEL + LEVEL.replace("level", "fuel").replace("bits = 12", 'bits = 8\nunit = "l"')
        frames = self.made(text)["frame"]
        self.assertEqual([(it["bytes"], [(s["name"], s["bit"], s["bits"]) for s in it["signal"]]) for it in frames],
                         [(3, [("level", 0, 12), ("fuel", 12, 8)])])

    def test_the_bound_of_frames_holds_for_their_lengths(self) -> None:
        # Three signals of 12, 12 and 8 bits fit into one frame of 8 words, and the alarm's into one of 32 bytes.
        either = LEVEL.replace("level", "fuel").replace("bits = 12", "bits = 8")
        on_a = LEVEL.replace("level", "oil").replace("bits = 12", 'bits = 12\nchannels = "A"')
        event = LEVEL.replace("level", "trip").replace("bits = 12", "bits = 12\nsporadic = true")
        for text, expected in (
                (LEVEL + either + on_a,
                 "3 signals have 2 frames, and no packing into static frames of 16 bytes has fewer than 1"),
                (LEVEL + event, "2 signals have 2 frames, and no packing into static frames of 16 bytes and dynamic "
                                "frames of at most 32 bytes has fewer than 2")):
            notes = [it["note"] for it in self.designed(NETWORK + text)[1] if it["kind"] == "note"]
            self.assertIn(expected, notes)

    def test_big_endian_signals_take_whole_bytes(self) -> None:
        text = NETWORK + LEVEL + LEVEL.replace("level", "fuel").replace("bits = 12", 'bits = 10\norder = "big"')
        frame = self.made(text)["frame"][0]
        self.assertEqual((frame["bytes"], [(it["name"], it["bit"]) for it in frame["signal"]]),
                         (4, [("fuel", 7), ("level", 16)]))

    def test_a_fixed_slot_stays(self) -> None:
        fixed = ("slot = 4", "base = 1", "repetition = 2", 'channels = "B"')
        made = self.made(NETWORK + message("door", "brakes", *fixed))
        door = next(it for it in made["node"][1]["buffer"] if it["name"] == "door")
        self.assertEqual((door["slot"], door["channels"], door["base"], door["repetition"]), (4, "B", 1, 2))

    def test_a_dynamic_frame_on_both_channels_has_two_buffers(self) -> None:
        made = self.made(NETWORK + message("trip", "engine", "sporadic = true", 'channels = "AB"'))
        found = sorted((it["name"], it["channels"]) for it in made["node"][0]["buffer"] if "trip" in it["name"])
        self.assertEqual(found, [("trip.A", "A"), ("trip.B", "B")])

    def test_reserved_slots_and_minislots(self) -> None:
        self.assertEqual(self.made(NETWORK, "--reserve", "3")["params"]["static_slots"], 2 + 3 * 2)
        # The alarm has 975 us of margin, 195 minislots. Two nodes with 97 minislots each leave one of them.
        self.assertEqual(self.designed(NETWORK, "--reserve", "0,97")[0], 0)
        self.assertEqual(self.misses(NETWORK, "--reserve", "0,98"), [
            "alarm: with 196 reserved minislots in each cycle it is 1 minislot late; a deadline that is 1 minislot "
            "longer, or a smaller --reserve"])

    def test_networks_without_static_messages_get_key_slots(self) -> None:
        text = NETWORK[:NETWORK.index("[[message]]")] + message("trip", "engine", "sporadic = true")
        made = self.made(text)
        self.assertEqual([it["own"][0]["slot"] for it in made["node"]], [1, 2])


class Kept(Designs):
    def test_nothing_moves(self) -> None:
        first = self.made(NETWORK, "--reserve", "2")
        kept = str(self.folder / "kept.toml")
        (self.folder / "made.toml").rename(kept)
        added = message("door", "brakes", 'receivers = ["engine"]') + message("horn", "brakes", "sporadic = true")
        text = NETWORK + LEVEL + added + '[[node]]\nname = "door"\n' + message("lock", "door", 'receivers = ["brakes"]')
        second = self.made(text, "--keep", kept)
        self.assertEqual(second["params"], first["params"])
        for before, after in zip(first["node"], second["node"]):
            self.assertEqual(after["own"][:len(before["own"])], before["own"])
            self.assertEqual(after["buffer"][:len(before["buffer"])], before["buffer"])

    def test_no_room_names_the_slots(self) -> None:
        self.made(NETWORK)
        kept = str(self.folder / "made.toml")
        text = NETWORK + message("door", "brakes", "period_ms = 5")
        self.assertEqual(self.misses(text, "--keep", kept), [
            "static segment: it needs 3 slots, and the kept cluster file has 2; static_slots of at least 3"])

    def test_a_kept_frame_that_comes_too_rarely(self) -> None:
        self.made(NETWORK)
        kept = str(self.folder / "made.toml")
        text = NETWORK.replace("period_ms = 10", "period_ms = 5\ndeadline_ms = 20")
        self.assertEqual(self.misses(text, "--keep", kept), [
            "speed: its cycles come every 10000 macroticks, and its period is 5000; a period of at least 10000 "
            "macroticks, or a place with more cycles"])

    def test_old_frames_stay_guaranteed(self) -> None:
        held = str(EXAMPLES / "ten-nodes/cluster.toml")
        bulk = message("bulk", "engine", "sporadic = true", "bytes = 200", 'channels = "A"')
        text = f'[[node]]\nname = "engine"\n{bulk}'
        self.assertEqual(self.made(text, "--keep", held)["params"]["static_slots"], 60)


class Missed(Designs):
    def test_a_deadline_below_a_cycle(self) -> None:
        self.assertEqual(self.misses(NETWORK.replace("deadline_ms = 6", "deadline_ms = 5")), [
            "alarm: its deadline is 5000 macroticks, its period 20000, and the worst case of the first dynamic slot is "
            "a cycle and its frame, 5000 + 25 = 5025; a deadline of at least 5025 macroticks, or a shorter cycle"])

    def test_a_period_below_a_cycle(self) -> None:
        self.assertEqual(self.misses(NETWORK.replace("period_ms = 5\n", "period_ms = 4\n")), [
            "pedal: its period is 4000 macroticks, and a slot comes once in a cycle of 5000; cycle_mt of at most 4000"])

    def test_the_least_cycle_is_one_that_works(self) -> None:
        text = NETWORK.replace("cycle_mt = 5000", "cycle_mt = 1000\nminislots = 190\nsymbol_mt = 20")
        found = self.misses(text)
        self.assertIn("static segment: it needs 2 slots of 28 macroticks, which with 190 minislots are 1006", found[0])
        cycle = int(found[0].rpartition(" ")[2])
        self.made(text.replace("cycle_mt = 1000", f"cycle_mt = {cycle}"))

    def test_a_sum_that_is_too_great(self) -> None:
        # A log has 50 + 4 words at 2 a minislot, and an idle minislot: 28.
        logs = "".join(message(it, "engine", "sporadic = true", "bytes = 100", "deadline_ms = 5.5", 'channels = "A"')
                       for it in ("log", "dump"))
        found = self.misses(NETWORK.replace("cycle_mt = 5000", "cycle_mt = 5000\nminislots = 40") + logs)
        self.assertEqual(found[0], "dynamic segment: by their deadlines its frames need 56 minislots of each cycle on "
                         "A, with idle ones, and there are 40; at least 55 minislots in a cycle of this length, longer "
                         "deadlines, or shorter frames")

    def test_minislots_that_the_cycle_has_no_room_for_are_no_help(self) -> None:
        # Two slots of 28 macroticks and 2 of idle time leave 942 for minislots of 5, so 188; the logs need 195.
        logs = "".join(message(f"log{it}", "engine", "sporadic = true", "bytes = 100", "deadline_cycles = 2",
                               "period_cycles = 2", 'channels = "A"') for it in range(14))
        text = NETWORK.replace("cycle_mt = 5000", "cycle_mt = 1000").replace("deadline_ms = 6", 'channels = "A"')
        found = self.misses(text + logs.replace("period_ms = 10\n", ""))
        self.assertIn("; longer deadlines, or shorter frames", found[0])

    def test_a_late_slot_names_the_frames_before_it(self) -> None:
        log = message("log", "engine", "sporadic = true", "bytes = 100", "deadline_ms = 5.15", 'channels = "A"')
        more = message("dump", "engine", "sporadic = true", "bytes = 100", "deadline_ms = 5.15", 'channels = "A"')
        found = self.misses(NETWORK + log + more)
        self.assertEqual(len(found), 1)
        self.assertIn("the longest of", found[0])

    def test_the_text_has_a_paragraph_for_each_miss(self) -> None:
        file = self.written("network.toml", NETWORK.replace("deadline_ms = 6", "deadline_ms = 5"))
        status, output, _ = self.asked("design", file)
        self.assertEqual(status, 3)
        self.assertEqual(output.partition("What isn't met\n")[2].split("\n\n")[0], (
            "alarm: its deadline is 5000 macroticks, its period 20000, and the worst case of the first dynamic slot is "
            "a\n    cycle and its frame, 5000 + 25 = 5025\n"
            "    what helps: a deadline of at least 5025 macroticks, or a shorter cycle"))

    def test_nothing_is_written(self) -> None:
        file = self.folder / "made.toml"
        status, _, told = self.designed(NETWORK.replace("deadline_ms = 6", "deadline_ms = 5"), "-o", str(file))
        self.assertEqual(status, 3)
        self.assertIn(f"{file} isn't written", told)
        self.assertFalse(file.exists())

    def test_a_warning_is_a_miss_unless_it_is_allowed(self) -> None:
        text = "[physical]\nbit_rate = 5_000_000\n" + NETWORK
        self.assertIn("lint bit-rate", self.misses(text)[0])
        self.assertEqual(self.designed(text, "--allow", "bit-rate")[0], 0)


class Refused(Designs):
    def test_each_mistake_has_its_line(self) -> None:
        for change, expected in (
                (("cycle_mt = 5000", "cycle_ms = 5"),
                 '2:1: refused UnknownKey: `[params]` has the unknown key "cycle_ms"'),
                (("deadline_ms = 6", "deadline_ms = 0"),
                 "32:1: refused BadMessage: `deadline_ms` of message alarm is 0"),
                (("period_ms = 20", "period_ms = 1e200"),
                 "31:1: refused BadMessage: `period_ms` of message alarm is 1e+200"),
                (("bytes = 12", "bytes = 300"), "30:1: refused BadMessage: `bytes` of message alarm is 300"),
                (('"pedal"', '"speed"'), "19:1: refused BadMessage: two messages have the name speed"),
                (("sporadic = true", "sporadic = true\nguarded = true\nsegment = \"dynamic\""),
                 "34:1: refused Contradiction: message alarm is guarded, and in the dynamic segment"),
                (("period_ms = 20", "period_ms = 20\nperiod_cycles = 4"),
                 "31:1: refused Contradiction: message alarm has `period_ms` and `period_cycles`"),
                (('sender = "engine"', 'sender = "motor"'),
                 '12:1: refused BadMessage: `sender` of message speed has "motor", which is no node'),
                (("bytes = 12", "bits = 4\nfactor = 0"), "31:1: refused BadSignal: `factor` of message alarm is 0"),
                (("bytes = 12", "bytes = 12\nbits = 4"),
                 "30:1: refused Contradiction: message alarm has `bits` and `bytes`"),
                (("bytes = 12", "bytes = 12\nbase = 1"),
                 "31:1: refused Contradiction: message alarm has `base`, and no `slot`")):
            with self.subTest(change[1]):
                self.assertIn(expected, self.refusals(NETWORK.replace(*change, 1)))

    def test_two_nodes_in_one_fixed_slot(self) -> None:
        text = NETWORK + message("door", "brakes", "slot = 3") + message("oil", "engine", "slot = 3", 'channels = "AB"')
        self.assertEqual(self.misses(text), [
            "oil: slot 3 is fixed for oil, and another node has the slot; another fixed slot, or none"])

    def test_files_of_other_kinds(self) -> None:
        for data in (b"", b"\xff\xfe", b"[", b"node = 3\nmessage = [1]\n[params]\ncycle_mt = 'x'\n", b"a" * 100_000):
            with self.subTest(data[:20]):
                file = self.folder / "file"
                file.write_bytes(data)
                status, output, told = self.asked("design", str(file))
                self.assertEqual((status, output), (1, ""))
                self.assertIn("refused", told)
        self.assertEqual(self.asked("design", str(self.folder / "none"))[0], 2)

    def test_ten_thousand_messages_have_an_answer(self) -> None:
        text = NETWORK + "".join(message(f"m{it}", "engine") for it in range(10_000))
        begin = time.monotonic()
        self.assertIn("it would have 10003 buffers, 10001 to send and 2 to receive", self.misses(text)[0])
        text = NETWORK + "".join(message(f"m{it}", "engine", "bytes = 999") for it in range(10_000))
        self.assertEqual(len(self.refusals(text)), 20)
        self.assertLess(time.monotonic() - begin, 60)

    def test_an_output_that_is_an_input(self) -> None:
        file = self.written("network.toml", NETWORK)
        status, _, told = self.asked("design", file, "-o", file)
        self.assertEqual(status, 2)
        self.assertIn("would be overwritten", told)

    def test_wrong_words(self) -> None:
        for words in (("--seconds", "0"), ("--reserve", "x"), ("--seed", "-1"), ("--allow", "nothing")):
            with self.subTest(words):
                self.assertEqual(self.asked("design", self.written("network.toml", NETWORK), *words)[0], 2)

    def test_progress_is_a_line_on_a_terminal(self) -> None:
        with mock.patch("sys.stderr") as stream, mock.patch("musmyrtle.design.command.write") as written:
            stream.isatty.return_value = True
            progress = Progress()
            progress.last -= 1
            progress("move 1")
            progress.end()
        self.assertEqual([it.args[1] for it in written.call_args_list], [["\r\x1b[Kmove 1"], ["\r\x1b[K"]])
