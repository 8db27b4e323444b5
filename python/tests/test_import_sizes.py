"""Tests of networks that are larger than a cluster file: stand-ins for nodes, and nodes that only listen.

The large network has 20 nodes, each of which sends a frame in a static slot. Node 0 receives the 79 frames of the
dynamic slots 31 to 109, which the others send by turns.
"""
import re
import subprocess
import tomllib

from musmyrtle.program import usual_program
from tests.describing import arxml, fibex
from tests.importing import Importing, Tables, facts
from tests.shows import EXAMPLES

WRITERS = (arxml, fibex)
NODES, STATIC, DYNAMIC = 20, 30, 79


def large() -> Tables:
    """Returns a network of 20 nodes, one with 80 buffers: one sends, and the others receive."""
    nodes: list[Tables] = []
    for number in range(NODES):
        own = {"slot": number + 1, "channels": "AB"} | ({"sync": True, "startup": True} if number < 3 else {})
        nodes.append({"name": f"Ecu{number}", "own": [own], "latest_a": 450, "buffer": [
            {"kind": "state", "slot": number + 1, "channels": "AB"}]})
    for number in range(DYNAMIC):
        slot = STATIC + 1 + number
        sender = 1 + number % (NODES - 1)
        nodes[sender]["buffer"].append({"kind": "event", "slot": slot, "channels": "A", "words": 4 + number % 2})
        nodes[0]["buffer"].append({"kind": "receive", "slot": slot, "channels": "A"})
        # A second receiver shows that stand-ins leave receivers out.
        nodes[1 + (number + 1) % (NODES - 1)]["buffer"].append({"kind": "receive", "slot": slot, "channels": "A"})
    params = {"static_slots": STATIC, "minislots": 500, "static_words": 8, "static_mt": 50, "minislot_mt": 7,
              "symbol_mt": 10, "nit_mt": 90, "cycle_mt": 5100, "idle": 1, "words_per_minislot": 3}
    return {"params": params, "node": nodes}


def car() -> Tables:
    """Returns the tables of the car."""
    return tomllib.loads((EXAMPLES / "vehicle/cluster.toml").read_text())


def sent(tables: Tables) -> set[tuple[object, ...]]:
    """Returns what is sent in which cycle, whatever node sends it, with the sync slots and the latest minislots."""
    senders = {it[2:5]: it[1] for it in facts(tables) if it[0] == "send"}
    latest = {it[1]: it[2] for it in facts(tables) if it[0] == "latest"}
    static = tables["params"]["static_slots"]
    found = {(*it[2:], None if int(str(it[2])) <= static else latest[senders[it[2:5]]]) for it in facts(tables)
             if it[0] == "send"}
    return found | {("sync", *it[2:5], *it[6:]) for it in facts(tables) if it[0] == "own" and it[5]}


class TestLarge(Importing):
    def test_refusals(self) -> None:
        for write in WRITERS:
            refusals = self.refusals(write(large()))
            for name, words in (
                    ("TooManyNodes", "it has 20 nodes, and expected are 1 to 16: choose some by --nodes A,B; the "
                                     "others become stand-ins"),
                    ("TooManyBuffers", "Ecu0 has 80 buffers, of which 1 send, and expected are at most 64; with "
                                       "--split the receive buffers beyond go to")):
                self.assertTrue(any(it.startswith(name) and words in it for it in refusals), refusals)

    def test_a_name_that_no_node_has(self) -> None:
        self.assertEqual(self.refusals(arxml(large()), "--nodes", "Ecu0,Radio")[0].partition(": Ecu0")[0],
                         "NoNode --nodes: no node has the name Radio")

    def test_chosen_nodes(self) -> None:
        """Both are as in the whole; all is sent as before; what they receive is all there."""
        whole = large()
        for write in WRITERS:
            with self.subTest(write.__name__):
                text, notes = self.imported(write(whole), "--nodes", "Ecu0,Ecu7", "--split")
                found = tomllib.loads(text)
                names = [it["name"] for it in found["node"]]
                self.assertEqual(names, ["Ecu0", "Ecu0.2", "Ecu7", "stand-in-1", "stand-in-2"])
                self.assertEqual(sent(found), sent(whole))
                received = {it[2:] for it in facts(found) if it[0] == "receive" and str(it[1]).startswith("Ecu0")}
                self.assertEqual(received, {it[2:] for it in facts(whole) if it[0] == "receive" and it[1] == "Ecu0"})
                self.assertEqual([len(it["buffer"]) for it in found["node"]][:2], [64, 16])
                self.assertEqual({it for it in facts(found) if it[1] == "Ecu7"},
                                 {it for it in facts(whole) if it[1] == "Ecu7"})
                self.assertIn("receive buffers beyond 64 are those of nodes that only listen: 16 of Ecu0", notes)
                parts = next(it for it in notes if it.startswith("nodes are parts of stand-ins"))
                self.assertEqual(parts.count(" of stand-in-"), 18)
                self.assertIn("Ecu1 of stand-in-1 with 6 transmit buffers, without its 4 receive buffers", parts)
                self.assertEqual(self.asked("check", self.written("found.toml", text))[0], 0)

    def test_it_runs(self) -> None:
        """Each frame of a stand-in arrives at the chosen node, or at the one that listens for it."""
        text, _ = self.imported(arxml(large()), "--nodes", "Ecu0", "--split")
        cluster, scenario = self.written("found.toml", text), self.written("scenario", commits_of(text))
        rows = self.values("commit", "slot end receivers", "commits", cluster, scenario, "--cycles", "8")
        self.assertEqual(len(rows), 8 * (2 * NODES + DYNAMIC))
        dynamic = [it for it in rows if it[0] is None or it[0] > STATIC]
        arrived = [it for it in dynamic if any(at["node_name"] in ("Ecu0", "Ecu0.2") for at in it[2])]
        self.assertEqual([it for it in dynamic if it[1] == "alone"], arrived)
        self.assertEqual(len(arrived), 8 * DYNAMIC)

    def test_too_much_for_a_node(self) -> None:
        """Transmit buffers can't go to other nodes."""
        tables = large()
        tables["node"][0]["buffer"] = [{"kind": "event", "slot": 200 + it, "channels": "A", "words": 4}
                                       for it in range(65)]
        refusals = self.refusals(arxml(tables), "--nodes", "Ecu0", "--split")
        self.assertTrue(any("Ecu0 has 65 buffers, of which 65 send, and expected are at most 64" in it and
                            "--split" not in it for it in refusals), refusals)


class TestCar(Importing):
    def test_stand_ins(self) -> None:
        """The reports of chosen nodes are those of the whole, line for line, with commits to each buffer and faults."""
        for names in ("gateway,brakes", "radar"):
            whole = self.reports(self.imported(arxml(car()))[0], names.split(","))
            part = self.reports(self.imported(arxml(car()), "--nodes", names)[0], names.split(","))
            self.assertEqual(part, whole)
            self.assertTrue(all(sum(line.startswith("rx ") for line in it) > 5 for it in part.values()))

    def reports(self, text: str, names: list[str]) -> dict[str, list[str]]:
        """Returns the lines that each named node has in the outcome of a run, by its name."""
        tables = tomllib.loads(text)
        muted = next(number for number, it in enumerate(tables["node"]) if any(own["slot"] == 7 for own in it["own"]))
        faults = f"mute {muted} AB 3 s7\ncorrupt A 2 s1 60\nend\n"
        scenario = self.written("scenario", commits_of(text).replace("end\n", faults))
        ran = subprocess.run([usual_program("fr_view") or "", "outcome", "--cycles", "8", "--",
                              self.written("found.toml", text), scenario], capture_output=True, text=True)
        self.assertEqual((ran.returncode, ran.stderr), (0, ""))
        reports = re.split(r"^node \d+\n", ran.stdout.partition("windows ")[0], flags=re.MULTILINE)[1:]
        return {it["name"]: report.splitlines() for it, report in zip(tables["node"], reports) if it["name"] in names}


def commits_of(text: str) -> str:
    """Returns a scenario with a commit to each transmit buffer in each of 8 cycles, with a payload of its slot.

    A stand-in may send one frame of several nodes from one buffer, so the payload doesn't say the cycles.
    """
    lines = []
    for node, it in enumerate(tomllib.loads(text)["node"]):
        for buffer, line in enumerate(it["buffer"]):
            if line["kind"] != "receive":
                place = f"{line['slot']:03x}{line['channels']}".encode().hex()
                lines.append(f"commit {node} 0 0-7 {buffer} x{(place * 300)[:4 * line.get('words', 8)]}\n")
    return "".join(["frscenario 3\n", *lines, "end\n"])
