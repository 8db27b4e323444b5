"""Runs of `faults` whole: its words, its statuses, its table, and runs that are interrupted or go to `parallel`."""
import os
import re
import shutil
import signal
import subprocess
import sys
import time

from .runner import EXAMPLES, SECONDS, run

TOP = EXAMPLES.parent
THREE_NODES = ["three-nodes/cluster.toml", "three-nodes/scenario", "--cycles", "4"]
HEADING = "kind\tnode\tchannels\tcycles\tplace\treceiver\tthing\teffect\tamount\twithout\twith\n"
KILLED_AT = "#!/bin/sh\nfor last; do :; done\nif grep -q 'mute 0 A \\* s1$' \"$last\"; then kill -9 $$; fi\n" \
    "if grep -q 'mute 0 B \\* s1$' \"$last\"; then echo 'refused Memory' >&2; exit 1; fi\n" \
    "if grep -q 'mute 1 A \\* s2$' \"$last\"; then echo nothing; exit; fi\nexec '{}' \"$@\"\n"
"""A program that is killed by one fault, refuses another, and prints another text for a third."""

NOTING = "#!/bin/sh\necho >>'{}'\n"
"""A program that notes each run, and prints nothing."""

SLOW = "#!/bin/sh\nsleep 0.05\nexec '{}' \"$@\"\n"
"""A program slow enough that its list can be broken off."""


class Faults:
    """Runs of the tool over the built programs: the one that prints outcomes, the one whose refusals `lint`
    explains, and the one for sessions."""

    def __init__(self, runs, bench, world, folder):
        self.runs, self.bench, self.folder = runs, bench, folder
        self.front = [sys.executable, "-B", TOP / "musmyrtle", "faults", "--program", runs.program, "--world", world]

    def ask(self, *words):
        """Returns output, standard error and status."""
        output, told, status = run([*self.front, *words])
        return output.decode(), told.decode(), status

    def whole(self):
        """Checks that a table has a heading, and lines in the order of the list, whatever the number of cores."""
        table, told, status = self.ask(*THREE_NODES)
        lines = table.splitlines()
        self.runs.compare("the status of a whole list", (status, table[:len(HEADING)]), (0, HEADING))
        self.runs.compare("the words of each line", {line.count("\t") for line in lines}, {10})
        listed = self.ask(*THREE_NODES, "--list")
        places = {"\t".join(line.split("\t")[:5]): number for number, line in enumerate(listed[0].splitlines())}
        order = [places["\t".join(line.split("\t")[:5])] for line in lines[1:]]
        self.runs.compare("the order of the lines", (order, listed[1:]), (sorted(order), ("", 0)))
        for cores in ("1", "3"):
            self.runs.compare(f"the table by {cores} cores", self.ask(*THREE_NODES, "--cores", cores), (table, told, 0))
        stopped = "in guarded static slots that aren't the node's own, 8, none made any difference to a node\n"
        count = re.search(r"^all +(\d+).* 8$", told, re.MULTILINE)
        idle = ["lost\t2\tB\t*\tall"]
        found = [line.removesuffix("\tidle") for line in listed[0].splitlines() if line.endswith("\tidle")]
        in_table = [f"{it}\t-\t-\tidle\t0\t-\t-" in lines for it in idle]
        self.runs.compare("what is idle", (found, in_table), (idle, [True]))
        proved = [line for line in listed[0].splitlines() if line.endswith("\tproved")]
        wanted = (True, 8, len(places) - len(idle) - 8)
        self.runs.compare("what is proved harmless", (
            "\n8 faults proved harmless, without a run: " in told, len(proved), count and int(count[1])), wanted)
        ran = self.ask(*THREE_NODES, "--run-proved")
        self.runs.compare("what guardians stop", (ran[0], stopped in ran[1], ran[2]), (table, True, 0))
        return table

    def statuses(self, table):
        some = [*THREE_NODES, "--kinds", "mute"]
        for word, status in (("lost", 3), ("older", 0), ("changed", 0), ("older,changed", 0), ("older,lost", 3)):
            self.runs.compare(f"fail on {word}", self.ask(*some, "--fail-on", word)[2], status)
        earlier = self.folder / "earlier"
        earlier.write_text(table)
        told, status = self.ask(*THREE_NODES, "--against", earlier, "--fail-on", "worse")[1:]
        wanted = f"no things worse than in {earlier}", 0
        self.runs.compare("the same table again", (told.splitlines()[-1], status), wanted)
        kept = [line for line in table.splitlines(True) if not line.startswith("mute\t1\tA\t*\ts2\t2\trx")]
        earlier.write_text("".join(kept))
        told, status = self.ask(*THREE_NODES, "--against", earlier, "--fail-on", "worse")[1:]
        wanted = [f"1 thing worse than in {earlier}", "  mute 1 A * s2 (one channel): node 2 rx 1: lost"]
        self.runs.compare("one thing that is worse", (told.splitlines()[-2:], status), (wanted, 3))

    def earlier_table(self, table):
        """Compares a table of an earlier version, whose faults are all of one channel, with these."""
        earlier = self.folder / "earlier"
        lines = [it for it in table.splitlines(True) if "\tAB\t" not in it and "\tidle\t" not in it]
        earlier.write_text("".join(lines).replace("\tchannels\t", "\tchannel\t", 1))
        told, status = self.ask(*THREE_NODES, "--against", earlier, "--fail-on", "worse")[1:]
        wanted = ["not compared: 28 faults on both channels, since the table is of an earlier version, which had none; "
                  "make it anew", f"no things worse than in {earlier}"]
        self.runs.compare("a table of an earlier version", (told.splitlines()[-2:], status), (wanted, 0))

    def guarded(self):
        """Checks that no babble in a guarded static slot of another node makes any difference, on both channels too.

        The three nodes have guardians on both channels each, and the car those of node 9 and node 5 in some slots.
        """
        both = self.folder / "both.toml"
        text = (EXAMPLES / THREE_NODES[0]).read_text()
        both.write_text(text.replace('guard = "A"', 'guard = "AB"'))
        scene = self.folder / "quiet"
        lines = (EXAMPLES / THREE_NODES[1]).read_text().splitlines(True)
        scene.write_text("".join(it for it in lines if not it.startswith("babble")))
        babbles = ["--kinds", "noise,forged"]
        car = ["vehicle/cluster.toml", "vehicle/scenario", "--cycles", "8"]
        car += ["--nodes", "5,9", "--slots", "1,12,16,56,62"]
        # The three nodes have 9 places in static slots, two of which are the node's own: 7 on AB, A and B, of 2 kinds.
        # In the car the scenario has a babble of node 9 in each static slot of A, so 5 of it are left on AB and B. Slot
        # 56 on B is node 5's own in some cycles, so of it 4 are left on AB and B, and 5 on A.
        for words, count in (([both, scene, "--cycles", "4"], 7 * 3 * 2), (car, (5 + 5 + 4 + 4 + 5) * 2)):
            told, status = self.ask(*words, *babbles, "--run-proved")[1:]
            wanted = f"in guarded static slots that aren't the node's own, {count}, none made any difference to a node"
            self.runs.compare(f"babbles on both channels in {words[0]}", (wanted in told, status), (True, 0))
        by_numbers, by_names = (self.ask(car[0], scene, "--cycles", "8", "--kinds", "lost", "--nodes", "1,2")
                                for scene in ("vehicle/scenario", "vehicle/scenario-3"))
        self.runs.compare("the losses of the car by names", by_names, by_numbers)

    def refused(self):
        """Checks that a refusal is reported once, as `lint` reports it, and that nothing is printed."""
        bad = self.folder / "bad"
        text = (EXAMPLES / "three-nodes/scenario").read_text()
        bad.write_text(text.replace("commit 1 0 0 0", "commit 1 0 9 0"))
        for words in (["three-nodes/scenario", *THREE_NODES[1:]], [THREE_NODES[0], bad, *THREE_NODES[2:]],
                      ["missing", *THREE_NODES[1:]], [THREE_NODES[0], "missing", "--cycles", "4"]):
            lint = run([sys.executable, "-B", TOP / "musmyrtle", "lint", "--program", self.bench, *words])
            self.runs.compare(f"what is refused of {words[:2]}", self.ask(*words), ("", lint[0].decode(), 1))
        no_words = (["--kinds", "mutes"], ["--nodes", "x"], ["--in-cycle", "4"], ["--in-cycle", "3-2"],
                    ["--in-cycles", "0-3/0"], ["--resume"], ["--fail-on", "worse"],
                    ["--sshlogin", "a"], ["--against", "missing"], ["--against", EXAMPLES / "three-nodes/plan"],
                    ["--program", "missing"])
        for words in ([], THREE_NODES[:2], *([*THREE_NODES, *it] for it in no_words)):
            output, _, status = self.ask(*words)
            self.runs.compare(f"the words {words}", (output, status), ("", 2))

    def absent(self):
        """Checks that nodes, slots and minislots that the cluster doesn't have are reported like cycles that the run
        doesn't have."""
        for words, told in ((["--nodes", "9", "--fail-on", "lost"], "cluster has no node 9: its nodes are 0 to 2"),
                            (["--slots", "99"], "cluster has no static slot 99: its static slots are 1 to 3"),
                            (["--slots", "m99"], "cluster has no minislot 99: its minislots are 1 to 4"),
                            (["--slots", "d8"], "cluster has no dynamic slot 8: its dynamic slots are 4 to 7"),
                            (["--slots", "4"], "cluster has no static slot 4: its static slots are 1 to 3, and d4 is a "
                                               "dynamic one"),
                            (["--in-cycle", "9"], "run has no cycle 9: it has 4 cycles"),
                            (["--in-cycle", "0,2-9/7"], "run has no cycle 9: it has 4 cycles"),
                            (["--in-cycles", "2-9"], "run has no cycle 9: it has 4 cycles")):
            for more in ([], ["--list"]):
                output, error, status = self.ask(*THREE_NODES, *words, *more)
                wanted = "", f"musmyrtle faults: the {told}", 2
                self.runs.compare(f"the words {words + more}", (output, error.splitlines()[-1], status), wanted)
        listed = self.ask(*THREE_NODES, "--kinds", "lost", "--nodes", "2", "--in-cycle", "0-3/3", "--list")
        wanted = "".join(f"lost\t2\t{channels}\t0-3/3\tall{more}\n" for channels, more
                         in (("AB", ""), ("A", ""), ("B", "\tidle")))
        self.runs.compare("losses of two cycles", listed, (wanted, "", 0))
        empty = self.ask(*THREE_NODES, "--kinds", "mute", "--slots", "all", "--list")
        self.runs.compare("a place that no fault of the kind has", empty, ("", "", 0))

    def outputs(self):
        """Checks that output that can't be written is reported in a line, and that a reader that leaves early gets no
        message."""
        for words in ([*THREE_NODES, "--kinds", "mute"], [*THREE_NODES, "--list"], ["--help"]):
            with open("/dev/full", "wb") as full:
                got = run([*self.front, *words], output=full)
            wanted = b"", b"musmyrtle faults: the output can't be written: No space left on device\n", 2
            self.runs.compare(f"{words} to a full device", got, wanted)
            got = run([*self.front, *words], closed=(1,))
            wanted = b"", b"musmyrtle faults: the output can't be written: it is closed\n", 2
            self.runs.compare(f"{words} to a closed output", got, wanted)
            source, end = os.pipe()
            os.close(source)
            with open(end, "wb") as pipe:
                self.runs.compare(f"{words} without a reader", run([*self.front, *words], output=pipe), (b"", b"", 0))

    def unlike(self):
        """Checks that a program with a wrong answer is named, and so is one that can't be run."""
        program, noted = self.folder / "noting", self.folder / "noted"
        program.write_text(NOTING.format(noted))
        program.chmod(0o755)
        for word, told, status in (
                ("--program", f"{program} doesn't answer as fr_view does: the last line has no line feed", 4),
                ("--world", f"{program}: the program has ended", 4)):
            got = self.ask(*THREE_NODES, word, program)
            self.runs.compare(f"{word} of another program", got, ("", f"musmyrtle faults: {told}\n", status))
        told = "musmyrtle faults: missing can't be run: No such file or directory\n"
        for word in ("--program", "--world"):
            self.runs.compare(f"{word} that isn't there", self.ask(*THREE_NODES, word, "missing"), ("", told, 2))
        noted.unlink()
        page = self.folder / "no folder/page.html"
        told = f"musmyrtle faults: --html {page}: No such file or directory\n"
        got = self.ask(*THREE_NODES, "--html", page, "--program", program)
        self.runs.compare("a page that can't be written", (got, noted.exists()), (("", told, 2), False))
        page = self.folder / "unwritten.html"
        status = self.ask(THREE_NODES[0], "missing", *THREE_NODES[2:], "--html", page)[2]
        self.runs.compare("no page is left of what is refused", (status, page.exists()), (1, False))

    def failing(self, table):
        """Checks that a run that is killed or refused is in the table as such, and that all others are as usual."""
        program = self.folder / "killed"
        program.write_text(KILLED_AT.format(self.runs.program))
        program.chmod(0o755)
        got, told, status = self.ask(*THREE_NODES, "--program", program)
        self.runs.compare("the status where runs failed", status, 4)
        lines = [line for line in got.splitlines() if re.search("\t(killed|refused|unreadable)\t", line)]
        wanted = ["mute\t0\tA\t*\ts1\t-\t-\tkilled\t1\t-\tsignal 9 (SIGKILL)",
                  "mute\t0\tB\t*\ts1\t-\t-\tunreadable\t1\t-\trefused Memory",
                  ("mute\t1\tA\t*\ts2\t-\t-\tunreadable\t1\t-\tline 1 is `nothing`, and `node 0..` was due")]
        self.runs.compare("runs that failed", lines, wanted)
        fronts = tuple(line.split("\t-\t")[0] for line in wanted)
        others = [line for line in table.splitlines() if not line.startswith(tuple(f"{it}\t" for it in fronts))]
        self.runs.compare("all other runs", [line for line in got.splitlines() if line not in lines], others)

    def resumed(self, table):
        """Checks that an interrupted campaign ends with the same table, also if its log ends within a line."""
        log, slow = self.folder / "log", self.folder / "slow"
        slow.write_text(SLOW.format(self.runs.program))
        slow.chmod(0o755)
        words = [*THREE_NODES, "--joblog", str(log), "--program", slow]
        # A shell in the background may have the signal ignored, which a child would inherit.
        running = subprocess.Popen([*self.front, *words, "--cores", "1"], cwd=EXAMPLES, stdout=subprocess.PIPE,
                                   stderr=subprocess.PIPE,
                                   preexec_fn=lambda: signal.signal(signal.SIGINT, signal.SIG_DFL))
        for _ in range(SECONDS * 100):
            if log.exists() and log.read_bytes().count(b"\n") > 5:
                break
            time.sleep(0.01)
        running.send_signal(signal.SIGINT)
        output, told = running.communicate(timeout=SECONDS)
        is_told = f"--joblog {log} --resume goes on".encode() in told
        self.runs.compare("a run that is broken off", (output, is_told, running.returncode), (b"", True, 130))
        done = log.read_text().splitlines(True)
        self.runs.compare("what is done by then", 5 < len(done) < 95, True)
        log.write_text("".join(done)[:-20])
        self.runs.compare("it goes on", self.ask(*words, "--resume")[::2], (table, 0))
        self.runs.compare("each fault is noted once", len(log.read_text().splitlines()), 96)
        self.runs.compare("nothing is left to do", self.ask(*words, "--resume")[::2], (table, 0))
        other = [*THREE_NODES[:3], "5", "--joblog", str(log), "--program", slow, "--resume"]
        self.runs.compare("a log of another run", self.ask(*other)[::2], ("", 2))

    def paged(self, table):
        """Checks that the page is self-contained, and has a cell for each node that may have a fault and each that may
        be hurt."""
        page = self.folder / "page.html"
        got = self.ask(*THREE_NODES, "--html", page)
        text = page.read_text()
        self.runs.compare("the table beside the page", got[::2], (table, 0))
        outside = re.findall(r"https?:|<script|<link|@import|url\(|src=", text)
        self.runs.compare("nothing comes from outside", outside, [])
        opened, sections = re.findall('href="#(c[^"]*)"', text), re.findall('id="(c[^"]*)"', text)
        self.runs.compare("each cell opens its faults", sorted(opened), sorted(sections))
        cells = len(re.findall('<td class="[a-z]*">(?:<a|<span)', text))
        # Three nodes that fail silent, three that babble, and of one channel also the frames of A and of B.
        self.runs.compare("the cells of the matrices", cells, (3 + 3 + 5) * 3)

    def parallel(self, table):
        """Checks runs by GNU parallel on this machine, if it is installed."""
        if shutil.which("parallel"):
            self.runs.compare("the table by parallel", self.ask(*THREE_NODES, "--parallel")[::2], (table, 0))

    def all(self):
        table = self.whole()
        self.statuses(table)
        self.earlier_table(table)
        self.guarded()
        self.refused()
        self.absent()
        self.outputs()
        self.unlike()
        self.failing(table)
        self.resumed(table)
        self.paged(table)
        self.parallel(table)
