"""The record, the capture and the traces that sessions without history write, and the files that fail."""
import os
import subprocess
import threading

from .cycles import PARAMETERS
from .runner import EXAMPLES, SECONDS, USAGE, refused, run
from .sessions import GREETING, THREE_NODES, Talk, is_old, text_of

HEADER = bytes.fromhex("d4c3b2a1 0200 0400 00000000 00000000 08010000 d2000000")
"""The file header of docs/formats/views.md."""

FULL = "/dev/full"


def unnumbered(record):
    """Returns a record whose lines name no line of a scenario."""
    return b"".join(line.rpartition(b" ")[0] + b" -\n" for line in record.splitlines())


def lengthened(trace):
    """Returns a trace of version 3 as one of version 4, with the room of an endless session."""
    lines = trace.splitlines()
    node = " ".join([*lines[2].split()[:4], "1073741824", "3221225469"])
    return text_of(["frtrace 4", lines[1], node, *lines[3:]])


def requests_of(scenario, cycles):
    """Yields the requests of a single-threaded run with an old scenario, whose tasks have their lines in order."""
    lines = [line.split(" ") for line in scenario.read_text().splitlines()[1:-1]]
    yield from (" ".join(words) for words in lines if words[0] in ("babble", "mute", "corrupt"))
    for cycle in range(cycles):
        calls = [words for words in lines if words[0] not in ("babble", "mute", "corrupt") and words[3] == str(cycle)]
        for words in sorted(calls, key=lambda it: (int(it[1]), int(it[2]))):
            yield " ".join([*words[:3], *words[4:]])
        yield "cycle"


class Written:
    """Sessions with files for the record and the capture."""

    def __init__(self, runs, folder, view, bench):
        self.runs, self.folder, self.view, self.bench = runs, folder, view, bench
        self.lines, self.frames = folder / "lines", folder / "bus.pcap"
        self.both = [f"--record={self.lines}", "--capture", self.frames]

    def all(self):
        if os.access(self.view, os.X_OK):
            self.examples()
        self.by_events()
        self.as_they_come()
        self.emptied()
        self.used()
        self.long_runs()
        self.failures()
        self.pipes()
        self.traces()
        self.chosen_traces()
        self.traces_as_they_come()
        self.traced_failures()
        self.traced_pipes()
        self.words()

    def session(self, cluster, asked, *options):
        """Returns the answer of a session, and what the files have."""
        for file in (self.lines, self.frames):
            file.unlink(missing_ok=True)
        got = run([self.runs.program, cluster, "--endless", *options], text_of(asked).encode())
        return got, *(file.read_bytes() if file.exists() else None for file in (self.lines, self.frames))

    def examples(self):
        """Checks that a session of a run writes what `fr_view` prints of it."""
        for folder in sorted(path for path in EXAMPLES.iterdir() if is_old(path / "scenario")):
            for outcome in folder.glob("outcome-of-*-cycles"):
                cycles = outcome.name.split("-")[2]
                words = [folder / "cluster.toml", folder / "scenario", "--cycles", cycles]
                record, bus = (run([self.view, command, *words])[0] for command in ("record", "bus"))
                asked = list(requests_of(folder / "scenario", int(cycles)))
                for options in ((), ("--cycles", cycles)):
                    got, lines_told, frames_told = self.session(words[0], asked, *options, *self.both)
                    self.runs.compare(f"the files of {folder.name}, {cycles} cycles, {options}",
                                      (got[1:], lines_told == unnumbered(record), frames_told == bus),
                                      ((b"", 0), True, True))
                alone = self.session(words[0], asked, f"--record={self.lines}")[1:]
                self.runs.compare(f"the record of {folder.name} alone", alone, (unnumbered(record), None))
                alone = self.session(words[0], asked, f"--capture={self.frames}")[1:]
                self.runs.compare(f"the capture of {folder.name} alone", alone, (None, bus))

    def by_events(self):
        """Checks that single events, windows and cycles write the same, and that replies are those without files."""
        one = ["look", "fetch", "put"], ["take", "observe"]
        single = [f"{step} {node}" for step in one[0] for node in range(3)] + ["seal"]
        single += [f"{step} {node}" for step in one[1] for node in range(3)] + ["seal", "advance"]
        commit = "commit 0 0 0 x0a0b"
        ways = {"events": single, "a window": ["window"], "a seal and a window": [*single[:10], "window"]}
        found = {name: self.session(THREE_NODES, [commit, "babble 2 A x00", *way, "corrupt B 3", commit, "run 2"],
                                    *self.both) for name, way in ways.items()}
        whole = found["a window"]
        for name, (got, lines, frames) in found.items():
            self.runs.compare(f"files by {name}", (got[1:], lines, frames), ((b"", 0), *whole[1:]))
            self.runs.compare(f"replies beside files by {name}", got, self.session(
                THREE_NODES, [commit, "babble 2 A x00", *ways[name], "corrupt B 3", commit, "run 2"])[0])
        faults = [line.split()[5:7] for line in whole[1].splitlines() if b"babble" in line or b"corrupt" in line]
        self.runs.compare("lines of faults by hand", faults, [[b"2", b"babble"], [b"-", b"corrupt"]])
        self.runs.compare("the last words of a record", {line[-2:] for line in whole[1].splitlines()}, {b" -"})

    def as_they_come(self):
        """Checks that each reply comes once its windows are in the files."""
        talk = Talk(self.runs.program, THREE_NODES, None, ["--endless", *self.both])
        try:
            sizes = []
            for line in (None, "commit 0 0 0 x0a0b", "window", "now", "window", "nothing", "run 3"):
                (talk.line() if line is None else talk.ask(line))
                sizes.append((self.lines.read_bytes().count(b"\n"), self.frames.stat().st_size))
        finally:
            talk.close()
        lines, frames = zip(*sizes)
        self.runs.compare("lines as they come", lines[:6], (0, 0, 2, 2, 4, 4))
        self.runs.compare("a capture as it comes", (frames[:2], sorted(set(frames)) == sorted({*frames[1:]}),
                          frames[2] == frames[3] < frames[4] == frames[5] < frames[6]), ((24, 24), True, True))

    def emptied(self):
        """Checks that files are emptied once the cluster is accepted, and not before."""
        for file in (self.lines, self.frames):
            file.write_bytes(b"before\n" * 100)
        wrong = self.folder / "wrong.toml"
        wrong.write_text("")
        self.runs.compare("a wrong cluster and files", run([self.runs.program, wrong, "--endless", *self.both])[2], 1)
        self.runs.compare("files beside a wrong cluster", self.lines.read_bytes() + self.frames.read_bytes(),
                          b"before\n" * 200)
        self.runs.compare("no requests and files", run([self.runs.program, THREE_NODES, "--endless", *self.both]),
                          (GREETING.encode(), b"", 0))
        self.runs.compare("emptied files", (self.lines.read_bytes(), self.frames.read_bytes()), (b"", HEADER))

    def used(self):
        """Checks that no file is an input and an output, or two outputs, and that a refused start changes no file."""
        cluster, link, folder = (self.folder / name for name in ("used.toml", "used", "used-traces"))
        cluster.write_bytes((EXAMPLES / THREE_NODES).read_bytes())
        link.symlink_to(self.lines)
        folder.mkdir()
        self.lines.write_bytes(b"before\n")
        (folder / "1").hardlink_to(self.lines)
        (folder / "2").hardlink_to(cluster)
        words = [self.runs.program, cluster, "--endless"]
        for options, name in (((self.lines, self.lines), "Capture"), ((self.lines, link), "Capture"),
                              ((cluster, self.frames), "Record"), ((self.frames, cluster), "Capture"),
                              ((self.lines, self.folder / "no/file"), None)):
            both = ["--record", options[0], "--capture", options[1]]
            self.unchanged(f"{name} that is used", [*words, *both], f"SameFile {name}" if name else "Capture", cluster)
        self.unchanged("a trace that is the record", [*words, "--record", self.lines, "--trace", folder],
                       "SameFile Trace 1", cluster)
        self.unchanged("a trace that is the cluster", [*words, "--trace", folder], "SameFile Trace 2", cluster)
        (folder / "1").unlink()
        (folder / "1").symlink_to(self.lines)
        self.unchanged("a trace that is a link", [*words, "--trace", folder], "Trace 1", cluster)
        self.unchanged("too many cycles beside files", [*words, "--cycles", "0", *self.both], None, cluster)
        self.streams(words)

    def long_runs(self):
        """Checks that a run is refused before it starts if an interface lacks room for its windows.

        It has room for 3,221,225,469 slot entries, two a window. With 1,023 static slots these are 1,574,401 cycles.
        """
        cluster, empty = self.folder / "long.toml", self.folder / "empty"
        parameters = PARAMETERS.format(slots=1023, minislots=0, symbol=0, idle_time=10, cycle=15355, idle=0, words=5)
        cluster.write_text(parameters.replace("static_mt = 20", "static_mt = 15") + "[[node]]\ntasks = 1\n")
        empty.write_text("frscenario 3\nend\n")
        for cycles, wanted in (("1574401", (GREETING.encode(), b"", 0)), ("1574402", refused("BadCycles"))):
            self.runs.compare(f"a session of {cycles} cycles",
                              run([self.runs.program, cluster, "--endless", "--cycles", cycles]), wanted)
        at_most = run([self.runs.program, cluster, "--endless"], b"run 1024\n" * 2 + b"now\n")
        self.runs.compare("a session of the most cycles", at_most[0].splitlines()[-1], b"open 2095104 0 0 1 1")
        if os.access(self.view, os.X_OK):
            for command in ("outcome", "windows"):
                got = run([self.view, command, cluster, empty, "--endless", "--cycles", "1574402"])
                self.runs.compare(f"{command} of 1574402 cycles", got, refused("BadCycles"))

    def unchanged(self, name, words, refusal, cluster):
        """Checks the refusal of a start, and that the files keep what they have."""
        for file in (self.lines, self.frames):
            file.write_bytes(b"before\n")
        before = cluster.read_bytes()
        self.runs.compare(name, run(words), refused(refusal) if refusal else USAGE)
        kept = self.lines.read_bytes(), self.frames.read_bytes(), cluster.read_bytes()
        self.runs.compare(f"files after {name}", kept, (b"before\n", b"before\n", before))

    def streams(self, words):
        """Checks files that are standard streams, and standard streams that are closed."""
        asked = self.folder / "asked"
        asked.write_bytes(b"now\n")
        with asked.open("rb") as given:
            got = run([*words, "--record", asked], given)
        wanted = refused("SameFile Record"), b"now\n"
        self.runs.compare("a record that is the input", (got, asked.read_bytes()), wanted)
        with self.lines.open("wb") as output:
            got = run([*words, "--record", self.lines], b"now\n", output=output)
        self.runs.compare("a record that is the output", got, refused("SameFile Record"))
        self.runs.compare("devices that serve twice", run([*words, "--record=/dev/null", "--capture=/dev/null"]),
                          (GREETING.encode(), b"", 0))
        for closed, wanted in (((1,), (b"", b"refused Write\n", 1)), ((2,), (GREETING.encode(), b"", 0))):
            got = run([*words, "--record", self.lines], b"", closed=closed)
            self.runs.compare(f"a record and closed {closed}", (got, self.lines.read_bytes()), (wanted, b""))

    def failures(self):
        """Checks what a file that can't be opened or written leaves."""
        missing, asked = str(self.folder / "in/no/folder"), b"now\ncommit 0 0 0 x0a0b\nwindow\nnow\n"
        replies = GREETING.encode() + b"open 0 0 0 1 1\ncommitted 0\n"
        for option, name in (("--record", b"Record"), ("--capture", b"Capture")):
            for file in (missing, str(self.folder), ""):
                got = run([self.runs.program, THREE_NODES, "--endless", option, file], asked)
                self.runs.compare(f"{option} to {file!r}", got, refused(name.decode()))
        full = [self.runs.program, THREE_NODES, "--endless"]
        self.runs.compare("a record to a full disk", run([*full, "--record", FULL], asked),
                          (replies, b"refused Record\n", 1))
        self.runs.compare("a capture to a full disk", run([*full, "--capture", FULL], asked),
                          (b"", b"refused Capture\n", 1))
        self.runs.compare("a record to a full disk, without a window", run([*full, "--record", FULL], b"now\n"),
                          (GREETING.encode() + b"open 0 0 0 1 1\n", b"", 0))
        got = run([*full, "--record", FULL, "--capture", self.frames], asked)
        self.runs.compare("a capture beside a full disk", (got[1:], self.frames.read_bytes()[:24]),
                          ((b"refused Record\n", 1), HEADER))

    def pipes(self):
        """Checks named pipes: with a reader that is slow, and with one that goes."""
        pipe = self.folder / "pipe"
        os.mkfifo(pipe)
        asked = text_of(["commit 0 0 0 x0a0b", *[line for _ in range(60) for line in ("mute 0 A * s1", "forget",
                         "run 1000")]]).encode()
        kept = self.folder / "kept"
        run([self.runs.program, THREE_NODES, "--endless", "--record", kept], asked)
        words = [self.runs.program, THREE_NODES, "--endless", "--record", pipe]
        for is_slow in (True, False):
            ran = subprocess.Popen(words, cwd=EXAMPLES, stdin=subprocess.PIPE, stdout=subprocess.PIPE,
                                   stderr=subprocess.PIPE)
            with open(pipe, "rb") as reading:
                given = threading.Thread(target=lambda: ran.stdin.write(asked) and ran.stdin.close())
                given.start()
                first = reading.read(10_000)
                rest = reading.read() if is_slow else b""
            told = ran.stdout.read()
            errors = ran.stderr.read()
            status = ran.wait(SECONDS)
            given.join()
            ran.stdout.close()
            ran.stderr.close()
            if is_slow:
                self.runs.compare("a record to a slow pipe", (first + rest == kept.read_bytes(), errors, status),
                                  (True, b"", 0))
            else:
                is_front = kept.read_bytes().startswith(first) and told.startswith(GREETING.encode())
                self.runs.compare("a record to a pipe whose reader goes", (is_front, errors, status),
                                  (True, b"refused Record\n", 1))

    def traced(self, cluster, asked, *options, rest=b""):
        """Returns the answer of a session, and the traces that it wrote."""
        folder = self.folder / "traces"
        folder.mkdir(exist_ok=True)
        for file in folder.iterdir():
            file.unlink()
        got = run([self.runs.program, cluster, "--endless", "--trace", folder, *options],
                  text_of(asked).encode() + rest)
        return got, {file.name: file.read_text() for file in folder.iterdir()}

    def kept_traces(self, cluster, asked, nodes):
        """Returns the traces of a session with history, as one without it has them."""
        told = run([self.runs.program, cluster, "--cycles", "8"],
                   text_of([*asked, *(f"trace {node}" for node in range(nodes))]).encode())[0].decode()
        _, *texts = told.split("frtrace 3\n")
        return {str(node): lengthened("frtrace 3\n" + text.partition("\nend\n")[0] + "\nend\n")
                for node, text in enumerate(texts)}

    def traces(self):
        """Checks that traces are those of sessions with history, and that they audit to the reports."""
        one = [f"{step} {node}" for step in ("look", "fetch", "put") for node in range(3)] + ["seal"]
        one += [f"{step} {node}" for step in ("take", "observe") for node in range(3)] + ["advance"]
        refused_calls = ["commit 0 9 0 x0a0b", "commit 0 0 9 x0a0b", "commit 0 0 0 x0a", "read 1 0 9", "pop 0 0",
                         "fetch 0", "observe 1", "commit 9 0 0 x0a0b", "withdraw 0 0 9", "nothing", "seal"]
        ways = {"events": one * 2, "windows": ["window"] * 5, "cycles": ["cycle", "run 3"],
                "a window begun": [*one[:5], *refused_calls, "window"],
                "a window observed by some": [*one[:12], "read 1 0 1", *one[10:11], "window"], "nothing": []}
        calls = ["commit 0 0 0 x0a0b", *refused_calls, "withdraw 0 0 0", "withdraw 0 0 0", "commit 0 0 0 x0c0d",
                 "babble 2 A x00", "mute 1 B * s*", "read 1 0 1"]
        for name, way in ways.items():
            asked = [*calls, *way, "read 1 0 1", "commit 0 0 0 x0e0f", *way]
            (told, errors, status), found = self.traced(THREE_NODES, asked)
            self.runs.compare(f"traces by {name}", (found, errors, status),
                              (self.kept_traces(THREE_NODES, asked, 3), b"", 0))
            self.runs.compare(f"replies beside traces by {name}", told,
                              run([self.runs.program, THREE_NODES, "--endless"], text_of(asked).encode())[0])
        if os.access(self.bench, os.X_OK):
            self.audits([*calls, *ways["cycles"]])
        unended = self.traced(THREE_NODES, ["window"], rest=b"commit 0 0 0 x0a0b")
        self.runs.compare("an unfinished line isn't traced", unended[1], self.kept_traces(THREE_NODES, ["window"], 3))

    def chosen_traces(self):
        """Checks that the traces of some nodes are those among all traces, and that no other file is made."""
        asked = ["commit 0 0 0 x0a0b", "read 1 0 1", "window", "look 1", "fetch 1", "run 3", "pop 2 0"]
        told, texts = self.traced(THREE_NODES, asked)
        for nodes in ("0", "1,2", "2,0,1"):
            self.runs.compare(f"traces of nodes {nodes}", self.traced(THREE_NODES, asked, "--trace-nodes", nodes),
                              (told, {node: texts[node] for node in nodes.split(",")}))
        self.runs.compare("a trace of a node that isn't there",
                          self.traced(THREE_NODES, asked, "--trace-nodes", "1,3"), (refused("Trace 3"), {}))

    def audits(self, asked):
        """Checks that each trace audits to the report of its node, and that one of a session cut off is rejected."""
        told, found = self.traced(THREE_NODES, [*asked, *(f"report {node}" for node in range(3))])
        for node in range(3):
            report, errors, status = run([self.bench, "audit"], found[str(node)].encode())
            self.runs.compare(f"the audit of the trace of node {node}", (report in told[0], errors, status),
                              (True, b"", 0))
        cut = run([self.bench, "audit"], found["1"].removesuffix("end\n").encode())
        self.runs.compare("the audit of a trace without its end", (cut[0], cut[2]), (b"", 1))

    def traces_as_they_come(self):
        """Checks that each reply comes once its entries are in the traces."""
        folder = self.folder / "traces"
        talk = Talk(self.runs.program, THREE_NODES, None, ["--endless", "--trace", folder])
        try:
            counts = []
            for line in (None, "now", "commit 0 0 0 x0a0b", "commit 0 0 9 x0a0b", "window", "look 1", "fetch 1"):
                (talk.line() if line is None else talk.ask(line))
                counts.append([file.read_text().partition("begin\n")[2].count("\n")
                               for file in sorted(folder.iterdir())])
        finally:
            talk.close()
        self.runs.compare("traces as they come", counts[1:], [[0, 0, 0], [1, 0, 0], [1, 0, 0], [3, 2, 2], [3, 2, 2],
                                                              [3, 3, 2]])

    def traced_failures(self):
        """Checks what a trace that can't be opened or written leaves."""
        asked = b"now\ncommit 0 0 0 x0a0b\nwindow\nnow\n"
        cluster = [self.runs.program, THREE_NODES, "--endless"]
        for folder in (self.folder / "in/no/folder", THREE_NODES, ""):
            self.runs.compare(f"traces to {folder!r}", run([*cluster, "--trace", folder], asked), refused("Trace 0"))
        folder = self.folder / "some"
        folder.mkdir()
        (folder / "1").mkdir()
        self.runs.compare("a trace that is a folder", run([*cluster, "--trace", folder], asked), refused("Trace 1"))
        self.runs.compare("files beside it", sorted(file.name for file in folder.iterdir()), ["0", "1"])
        (folder / "1").rmdir()
        (folder / "1").symlink_to(FULL)
        self.runs.compare("a trace to a full disk", run([*cluster, "--trace", folder], asked), refused("Trace 1"))
        both = run([*cluster, "--record", FULL, "--trace", self.folder / "traces"], asked)
        self.runs.compare("traces beside a full disk",
                          (both[1:], [file.read_text().endswith("end\n")
                                      for file in sorted((self.folder / "traces").iterdir())]),
                          ((b"refused Record\n", 1), [False] * 3))

    def traced_pipes(self):
        """Checks named pipes for traces: with readers that are slow, and with one that goes."""
        asked = ["commit 0 0 0 x0a0b", *["run 1000"] * 20]
        kept = self.traced(THREE_NODES, asked)[1]
        folder = self.folder / "pipes"
        folder.mkdir()
        for node in range(3):
            os.mkfifo(folder / str(node))
        for is_slow in (True, False):
            ran = subprocess.Popen([self.runs.program, THREE_NODES, "--endless", "--trace", folder], cwd=EXAMPLES,
                                   stdin=subprocess.PIPE, stdout=subprocess.PIPE, stderr=subprocess.PIPE)
            readers = [open(folder / str(node), "rb") for node in range(3)]
            given = threading.Thread(target=lambda: ran.stdin.write(text_of(asked).encode()) and ran.stdin.close())
            given.start()
            first = readers[1].read(10_000)
            if not is_slow:
                readers[1].close()
            found = [b""] * 3

            def read(node):
                found[node] = readers[node].read()
            reading = [threading.Thread(target=read, args=(node,)) for node in range(3) if is_slow or node != 1]
            for thread in reading:
                thread.start()
            ran.stdout.read()
            errors = ran.stderr.read()
            status = ran.wait(SECONDS)
            for thread in [given, *reading]:
                thread.join()
            for file in [ran.stdout, ran.stderr, *readers]:
                file.close()
            found[1] = first + found[1]
            texts = [text.decode() for text in found]
            if is_slow:
                self.runs.compare("traces to slow pipes", (texts == [kept[str(node)] for node in range(3)], errors,
                                                           status), (True, b"", 0))
            else:
                are_fronts = all(kept[str(node)].startswith(texts[node]) and not texts[node].endswith("\nend\n")
                                 for node in range(3))
                self.runs.compare("a trace to a pipe whose reader goes", (are_fronts, errors, status),
                                  (True, b"refused Trace 1\n", 1))

    def words(self):
        """Checks the words for files."""
        for option in ("--record", "--capture", "--trace"):
            for words in (["--cycles", "4", option, "x"], ["--endless", option],
                          ["--endless", option, "x", option, "x"], [option, "x"]):
                self.runs.check(f"words {words}", [THREE_NODES, *words], USAGE)
        self.runs.compare("no file of wrong words", (EXAMPLES / "x").exists(), False)
