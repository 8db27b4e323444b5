"""Slips on command lines, each with a text that the launcher's further lines must have, and calls for help."""
import contextlib
import os
import pty
import random
import re
import subprocess
import termios
from pathlib import Path
from typing import Any

from .launchers import Checkout
from .runner import EXAMPLES, SECONDS, Runs

TOP = Path(__file__).resolve().parent.parent.parent
CLUSTER, SCENARIO = "examples/three-nodes/cluster.toml", "examples/three-nodes/scenario"
RUN = (CLUSTER, SCENARIO, "--cycles", "4")
Words = tuple[str | bytes, ...]
NOBODY = 65534

SLIPS: list[tuple[str, Words, str]] = [
    ("fr_bench", ("chek", CLUSTER), "unknown command chek; did you mean check?"),
    ("fr_bench", ("Audit",), "did you mean audit?"),
    ("fr_bench", ("rnu", *RUN), "unknown command rnu"),
    ("fr_bench", ("simulate", *RUN), "unknown command simulate"),
    ("fr_bench", (CLUSTER,), f"the first word must be a command, not the file {CLUSTER}"),
    ("fr_bench", ("--cycles", "4", "run", CLUSTER, SCENARIO), "must be a command, not the option --cycles"),
    ("fr_bench", ("",), "must be a command, not an empty word"),
    ("fr_bench", ("matrix", *RUN), "./fr_view matrix"),
    ("fr_bench", ("help", "chek"), "did you mean check?"),
    ("fr_bench", ("check",), "missing: FILE"),
    ("fr_bench", ("plan", CLUSTER, SCENARIO), f"one word too many: {SCENARIO}"),
    ("fr_bench", ("check", b"\xff"), "a word isn't UTF-8"),
    ("fr_bench", ("check", CLUSTER, "--\u202efree\x9b"), r"check has no option --\u202efree\x9b"),
    ("fr_bench", ("check", CLUSTER, "--free"), "check has no option --free"),
    ("fr_bench", ("run",), "missing: FILE, SCENARIO, --cycles N"),
    ("fr_bench", ("run", CLUSTER, "--cycles", "4"), "missing: SCENARIO"),
    ("fr_bench", ("run", CLUSTER, SCENARIO), "missing: --cycles N"),
    ("fr_bench", ("run", CLUSTER, SCENARIO, "4"), "--cycles is missing in front of 4"),
    ("fr_bench", ("run", CLUSTER, SCENARIO, "--cycles"), "--cycles has no value"),
    ("fr_bench", ("run", CLUSTER, SCENARIO, "--cycles", "--free"), "--cycles has no value"),
    ("fr_bench", ("run", CLUSTER, SCENARIO, "--cycles", "0"), "from 1 to 1024, not 0"),
    ("fr_bench", ("run", CLUSTER, SCENARIO, "--cycles=1025"), "from 1 to 1024, not 1025"),
    ("fr_bench", ("run", CLUSTER, SCENARIO, "--cycles", "04"), "without leading zeros, not 04"),
    ("fr_bench", ("run", CLUSTER, SCENARIO, "--cycles", "four"), "a whole number from 1 to 1024, not four"),
    ("fr_bench", ("run", CLUSTER, SCENARIO, "--cycles="), "from 1 to 1024, not an empty word"),
    ("fr_bench", ("run", CLUSTER, SCENARIO, "--cycle", "4"), "run has no option --cycle; did you mean --cycles?"),
    ("fr_bench", ("run", *RUN, "--cycles", "8"), "--cycles stands twice"),
    ("fr_bench", ("run", *RUN, "--free=1"), "--free takes no value"),
    ("fr_bench", ("run", *RUN, "-f"), "run has no option -f"),
    ("fr_bench", ("audit", "trace"), "audit reads TRACE on standard input: < trace"),
    ("fr_bench", ("midpoint", "1", "2"), "midpoint reads NUMBERS on standard input"),
    ("fr_view", ("matrix", *RUN, "--channel", "C"), "--channel must be A or B, not C"),
    ("fr_view", ("matrix", *RUN, "--node", "16"), "--node must be a whole number from 0 to 15, not 16"),
    ("fr_view", ("matrix", *RUN, "--from=1024"), "--from must be a whole number from 0 to 1023, not 1024"),
    ("fr_view", ("matrix", *RUN, "--from-window=4096"), "must be a whole number from 0 to 4095, not 4096"),
    ("fr_view", ("matrix", *RUN, "--chanel", "A"), "did you mean --channel?"),
    ("fr_view", ("schedule", CLUSTER, "--cycle", "64"), "--cycle must be a whole number from 0 to 63, not 64"),
    ("fr_view", ("schedule", CLUSTER, "1"), "--cycle is missing in front of 1"),
    ("fr_view", ("trace", *RUN), "NODE is missing in front of FILE"),
    ("fr_view", ("trace", CLUSTER, SCENARIO, "1", "--cycles", "4"), "NODE must be a whole number from 0 to 15, not"),
    ("fr_view", ("links", CLUSTER, "--slot", "1"), "links has no option --slot"),
    ("fr_view", ("frames", "--al"), "frames has no option --al; did you mean --all?"),
    ("fr_view", ("record", *RUN, "--endles"), "record has no option --endles; did you mean --endless?"),
    ("fr_view", ("bus", CLUSTER, SCENARIO, "--endless", "--cycles", "4000001"), "from 1 to 4000000, not 4000001"),
    ("fr_view", ("commits", *RUN, "--endles"), "commits has no option --endles; did you mean --endless?"),
    ("fr_view", ("matrix", *RUN, "--endless"), "matrix has no option --endless"),
    ("fr_view", ("run", *RUN), "./fr_bench run"),
    ("fr_view", ("why", "node.trace"), "why reads TRACE on standard input: < node.trace"),
    ("fr_view", ("fifo", "node.trace"), "fifo reads TRACE on standard input: < node.trace"),
    ("fr_world", (CLUSTER,), "missing: --cycles N or --endless"),
    ("fr_world", (CLUSTER, "--keep", "4"), "missing: --endless (--keep needs it)"),
    ("fr_world", (CLUSTER, "--record=lines"), "missing: --endless (--record needs it)"),
    ("fr_world", ("--trace", "traces", "--trace-nodes=0"), "missing: FILE, --endless (--trace"),
    ("fr_world", (CLUSTER, "4"), "--cycles is missing in front of 4"),
    ("fr_world", (CLUSTER, "--cycles"), "--cycles has no value"),
    ("fr_world", (CLUSTER, "--cycles=1025"), "from 1 to 1024, not 1025"),
    ("fr_world", (CLUSTER, "--endless", "--cycles", "4000001"), "from 1 to 4000000, not 4000001"),
    ("fr_world", ("--endless",), "missing: FILE"),
    ("fr_world", (CLUSTER, "--cycles", "4", "--record", "lines"), "--record needs --endless"),
    ("fr_world", (CLUSTER, "--cycles", "4", "--capture=bus.pcap"), "--capture needs --endless"),
    ("fr_world", (CLUSTER, "--cycles", "4", "--trace", "traces"), "--trace needs --endless"),
    ("fr_world", (CLUSTER, "--cycles", "4", "--keep", "4"), "--keep needs --endless"),
    ("fr_world", (CLUSTER, "--endless", "--keep", "0"), "--keep must be a whole number from 1 to 64, not 0"),
    ("fr_world", (CLUSTER, "--endless", "--keep=65"), "from 1 to 64, not 65"),
    ("fr_world", (CLUSTER, "--endless", "--trace-nodes", "1"), "--trace-nodes needs --trace"),
    ("fr_world", (CLUSTER, "--endless", "--trace=a", "--trace-nodes=1,16"), "with commas between them, not 1,16"),
    ("fr_world", (CLUSTER, "--endless", "--trace=a", "--trace-nodes", "1,1"), "with commas between them, not 1,1"),
    ("fr_world", (CLUSTER, "--endless", "--record"), "--record has no value"),
    ("fr_world", (CLUSTER, "--endless", "--trace", "-x"), "--trace has no value"),
    ("fr_world", (CLUSTER, "--endless", "--captre", "bus.pcap"), "no option --captre; did you mean --capture?"),
    ("fr_world", ("--cycles=4", CLUSTER, "--cycles", "4"), "--cycles stands twice"),
    ("fr_world", (CLUSTER, "--cycle", "4"), "fr_world has no option --cycle; did you mean --cycles?"),
    ("fr_world", ("--cycles", "4"), "missing: FILE"),
    ("fr_world", (CLUSTER, SCENARIO, "--cycles", "4"), f"one word too many: {SCENARIO}"),
    ("fr_world", (CLUSTER, "-cycles", "4"), "did you mean --cycles?"),
    ("fr_world", (CLUSTER, "--cycles", "0"), "from 1 to 1024, not 0"),
    ("fr_monitor", ("--whole",), "missing: FILE"),
    ("fr_monitor", (CLUSTER, "bus.pcap"), "fr_monitor reads RECORDING on standard input: < bus.pcap"),
    ("fr_monitor", (CLUSTER, "--findings", "4294967296"), "from 0 to 4294967295, not 4294967296"),
    ("fr_monitor", (CLUSTER, "--macrotick=0"), "--macrotick must be a whole number from 1 to 4294967295, not 0"),
    ("fr_monitor", (CLUSTER, "--channel", "AB"), "--channel must be A or B, not AB"),
    ("fr_monitor", (CLUSTER, "--findigs", "4"), "fr_monitor has no option --findigs; did you mean --findings?"),
    ("fr_monitor", (CLUSTER, "--whole=1"), "--whole takes no value"),
    ("fr_monitor", (CLUSTER, "--frames=1"), "--frames takes no value"),
]
"""A program, words that it answers with `usage`, and the text that names the slip.

The usage of the command must follow.
"""

UNREAD: list[tuple[str, Words, str]] = [
    ("fr_bench", ("check", "missing.toml"), "no such file: missing.toml"),
    ("fr_bench", ("plan", "examples"), "is a folder: examples"),
    ("fr_bench", ("check", ""), "FILE is an empty word"),
    ("fr_bench", ("check", f"{CLUSTER}/more"), f"no such file: {CLUSTER}/more ({CLUSTER} isn't a folder)"),
    ("fr_bench", ("check", "dangling"), "no such file: dangling (a link to nothing)"),
    ("fr_bench", ("check", "closed"), "permission denied: closed"),
    # The escapes are those of `musmyrtle`: control characters, also of the second set, and turned writing.
    ("fr_bench", ("check", "\x1b[1m\n"), r"no such file: \x1b[1m\x0a"),
    ("fr_bench", ("check", "\x9b2J\x85\x7f"), r"no such file: \x9b2J\x85\x7f"),
    ("fr_bench", ("check", "\u202elmot.\u2066\u2069"), r"no such file: \u202elmot.\u2066\u2069"),
    ("fr_view", ("schedule", "\u200b\u2028\ufeff\xa0\U000e0001"), r"no such file: \u200b\u2028\ufeff\xa0\U000e0001"),
    ("fr_view", ("schedule", "f\xfcnf \u4e94.toml"), "no such file: f\xfcnf \u4e94.toml"),
    ("fr_bench", ("run", CLUSTER, "missing", "--cycles", "4"), "no such file: missing"),
    ("fr_bench", ("run", "lost", "missing", "--cycles", "4"), "no such file: lost"),
    ("fr_view", ("trace", "1", CLUSTER, "closed", "--cycles", "4"), "permission denied: closed"),
    ("fr_view", ("schedule", "missing.toml"), "no such file: missing.toml"),
    ("fr_view", ("answers", CLUSTER, "missing", "--cycles", "4", "--endless"), "no such file: missing"),
    ("fr_view", ("record", CLUSTER, "missing", "--cycles", "4", "--endless"), "no such file: missing"),
    ("fr_world", ("missing.toml", "--cycles", "4"), "no such file: missing.toml"),
    ("fr_monitor", ("missing.toml", "--whole"), "no such file: missing.toml"),
]
"""The same for right words, with a file that can't be read: the whole second line."""

ALONE: list[tuple[str, Words, str]] = [
    ("fr_bench", ("check", SCENARIO), "refused Toml"),
    # The cluster file is refused first, so that the scenario isn't the cause.
    ("fr_bench", ("run", SCENARIO, "missing", "--cycles", "4"), "refused Toml"),
    ("fr_view", ("trace", "9", *RUN), "refused UnknownNode"),
    ("fr_bench", ("audit",), "refused BadMagic"),
]
"""Refusals that the words don't explain: the program's line is alone."""

POOL = ["a", "4", "0", "1024", "1025", "04", "--cycles", "--cycles=4", "--cycles=", "--free", "--free=1", "--channel",
        "A", "--channel=B", "C", "--node=3", "--node", "16", "--from", "--from-window", "--cycle=5", "--cycle", "--own",
        "--all", "--endless", "--until-fault", "--whole", "--findings=5", "--macrotick", "--record", "--capture=c",
        "--trace", "--keep=64", "--keep", "--trace-nodes=0,15", "--trace-nodes", "0,01", "15,", "--", "-", "-x", "--x",
        "", " ", "\u00e9", "--=", "*", "--cycles --channel", "-4"]
SHAPES = {
    "fr_bench": [["audit"], ["check", "a"], ["midpoint"], ["run", "a", "b", "--cycles", "4"]],
    "fr_view": [["schedule", "a"], ["frames"], ["matrix", "a", "b", "--cycles", "4"],
                ["trace", "1", "a", "b", "--cycles", "4"], ["answers", "a", "b", "--cycles", "4"],
                ["record", "a", "b", "--cycles", "4", "--endless"]],
    "fr_world": [["a", "--cycles", "4"], ["a", "--endless", "--record=b"],
                 ["a", "--endless", "--trace=b", "--trace-nodes=3,1"]],
    "fr_monitor": [["a"], ["a", "--findings", "4", "--macrotick=1000"]],
}
READ = '. "$1"; name=$2; shift 2; read_words "$@"; [ -z "$slip" ]'


class Slips:
    """Calls of the launchers of a small repository with the real programs."""

    def __init__(self, runs: Runs, folder: Path, programs: dict[str, Path]) -> None:
        self.runs, self.programs = runs, programs
        folder.chmod(0o755)
        self.made = Checkout.of(folder / "checkout", {name: file.read_bytes() for name, file in programs.items()})
        self.top = self.made.path
        (self.top / "examples").symlink_to(EXAMPLES)
        (self.top / "dangling").symlink_to("nowhere")
        (self.top / "closed").write_text("")
        (self.top / "closed").chmod(0)

    def all(self) -> None:
        for program in self.programs:
            self.call(program, ("--help",))
        self.words()
        self.files()
        self.streams()
        self.terminals()
        self.closed()
        self.limited()
        self.helps()
        self.versions()
        self.agreement()

    def call(self, program: str, words: Words, **how: Any) -> tuple[str, str, int]:
        # The superuser may read everything.
        if os.geteuid() == 0 and b"closed" in map(os.fsencode, words):
            how["user"] = NOBODY
        streams: dict[str, Any] = {"stdin": subprocess.DEVNULL, "stdout": subprocess.PIPE, "stderr": subprocess.PIPE}
        ran = subprocess.run([self.top / program, *words], cwd=self.top, timeout=SECONDS, text=True, errors="replace",
                             **streams, **how)
        return ran.stdout, ran.stderr, ran.returncode

    def words(self) -> None:
        for program, words, wanted in SLIPS:
            output, errors, status = self.call(program, words)
            lines = errors.splitlines()
            is_said = len(lines) == 3 and lines[1].startswith(f"{program}: ") and wanted in lines[1]
            is_whole = lines[:1] == ["usage"] and lines[-1].startswith(f"{program}: usage: {program} ")
            self.runs.compare(f"the slip {program} {words}: {errors!r}", (output, is_said, is_whole, status),
                              ("", True, True, 2))

    def files(self) -> None:
        for program, words, wanted in UNREAD:
            self.runs.compare(f"the unread file of {program} {words}", self.call(program, words),
                              ("", f"refused Read\n{program}: {wanted}\n", 1))
        for program, words, wanted in ALONE:
            self.runs.compare(f"the refusal of {program} {words}", self.call(program, words), ("", f"{wanted}\n", 1))

    def streams(self) -> None:
        """Checks the status and standard input, for each reader of standard error."""
        for words, status in ((("check", "missing"), 1), (("chek",), 2)):
            reading, writing = os.pipe()
            os.close(reading)
            ran = subprocess.run([self.top / "fr_bench", *words], cwd=self.top, stderr=writing, timeout=SECONDS)
            os.close(writing)
            self.runs.compare(f"{words} with a reader that has left", ran.returncode, status)
        trace, report = (EXAMPLES / "receive-buffer" / name for name in ("trace", "report"))
        ours, theirs = pty.openpty()
        for shell in ("sh", "bash"):
            with open(trace, "rb") as given:
                told = [shell, self.top / "tools/told", "fr_bench", self.programs["fr_bench"], "audit"]
                ran = subprocess.run(told, stdin=given, stdout=subprocess.PIPE, stderr=theirs, timeout=SECONDS)
            self.runs.compare(f"standard input by {shell} at a terminal", (ran.stdout, ran.returncode),
                              (report.read_bytes(), 0))
        os.close(theirs)
        os.close(ours)
        closing = ["sh", "-c", 'exec "$@" <&-', "sh", self.top / "tools/told", "fr_bench", self.programs["fr_bench"]]
        ran = subprocess.run([*closing, "audit"], capture_output=True, timeout=SECONDS)
        self.runs.compare("standard input that is closed", (ran.stderr, ran.returncode), (b"refused Read\n", 1))

    def shell(self, command: str, *words: str | Path) -> tuple[bytes, bytes, int]:
        """Returns the output, the standard error and the status of a shell command."""
        ran = subprocess.run(["sh", "-c", command, "sh", *words], cwd=self.top, capture_output=True, timeout=SECONDS,
                             stdin=subprocess.DEVNULL)
        return ran.stdout, ran.stderr, ran.returncode

    def terminals(self) -> None:
        """Checks the lines at a terminal that show why a line is no request, and those about input."""
        requests = self.top / "requests"
        for text, line in (
                ("now\ncommit 0 0 0 0 x0a0b\n", "line 2 has a cycle, as in a scenario; a request is commit NODE TASK "
                 "BUFFER HEX"),
                ("pop 0 0 1\n", "line 1 has a cycle, as in a scenario; a request is pop NODE TASK"),
                ("now\nmute brake AB 0 s1\n", "line 2 names a node, as in a scenario; a request has its number"),
                ("look brake\n", "line 1 names a node, as in a scenario; a request has its number"),
                ("read 1 0 force\n", "line 1 names a buffer, as in a scenario; a request has its number"),
                ("now\nnow\r\n", "line 2 ends with a carriage return; requests end with a line feed alone"),
                ("frscenario 3\n", "line 1 is of a scenario: ./fr_view answers FILE SCENARIO --cycles N runs one"),
                ("commit 0 0 0 x0a0b\ncycle\nmute 0 A 2 s1 # a fault\n", "")):
            requests.write_text(text)
            told = f"fr_world: {line}\r\n" if line else ""
            self.runs.compare(f"{text!r} at a terminal", self.seen(f"./fr_world {CLUSTER} --cycles 4 < requests"), told)
        got = self.shell(f"cat {CLUSTER} | ./fr_bench check")[1]
        self.runs.compare("a cluster file in a pipe", got.splitlines()[1:2], [
            b"fr_bench: missing: FILE; standard input isn't read: /dev/stdin as FILE names the pipe"])
        typed = ("fr_world: type a request a line: nodes and buffers are numbers, and no call has a cycle, as commit 0 "
                 "0 0 x0a0b\r\nfr_world: ./fr_world --help lists the requests\r\n")
        piped = "fr_world: a line with a name, a call with a cycle, or a carriage return at the end has the reply " \
            "refused BadLine\r\n"
        reading = "reading {} from the terminal, to its end (Ctrl-D); < FILE reads a file\r\n"
        for command, told in ((f"./fr_world {CLUSTER} --cycles 4 < /dev/tty > /dev/null", typed),
                              (f"echo now | ./fr_world {CLUSTER} --cycles 4 > /dev/tty", piped),
                              (f"echo now | ./fr_world {CLUSTER} --cycles 4 > /dev/null", ""),
                              ("./fr_bench midpoint < /dev/tty > /dev/null", f"fr_bench: {reading.format('NUMBERS')}")):
            got = self.seen(command)
            self.runs.compare(f"{command} at a terminal: {got!r}", told in got and bool(told) == bool(got), True)

    def seen(self, command: str) -> str:
        """Returns what a shell command writes to its terminal, where the end of the input is typed."""
        ours, theirs = pty.openpty()
        # Without an echo the terminal has only what is written to it.
        settings = termios.tcgetattr(theirs)
        settings[3] &= ~termios.ECHO
        termios.tcsetattr(theirs, termios.TCSANOW, settings)
        running = subprocess.Popen(["setsid", "--ctty", "--wait", "sh", "-c", f"{command} 2>/dev/tty"], cwd=self.top,
                                   stdin=theirs, stdout=subprocess.DEVNULL, stderr=subprocess.DEVNULL)
        os.close(theirs)
        os.write(ours, b"\x04")
        running.wait(SECONDS)
        text = b""
        with contextlib.suppress(OSError):
            while more := os.read(ours, 4096):
                text += more
        os.close(ours)
        return text.decode(errors="replace")

    def closed(self) -> None:
        """Checks that a closed standard stream fails, and that no file of the program gets its number."""
        world = f"printf 'cycle\\nnow\\n' | ./fr_world {CLUSTER} --endless --record=record"
        for streams, errors in ((">&-", b"refused Write\n"), (">&- 2>&-", b""), (">&- 2>&- 0<&-", b"")):
            (self.top / "record").unlink(missing_ok=True)
            got = self.shell(f"{world} {streams}")
            replies = [it for it in (b"frworld", b"open") if it in self.record()]
            self.runs.compare(f"a world with {streams}", (got, replies), ((b"", errors, 1), []))
        got = self.shell(f"{world} 2>&-")
        self.runs.compare("a world without standard error", (got, self.record()[:9]),
                          ((b"frworld 1\nopen 7 1 0 1 1\nopen 7 1 0 1 1\n", b"", 0), b"0 0 - 1 A"))
        for words, streams, wanted in (
                (f"fr_bench check {CLUSTER}", ">&-", (b"", b"refused Write\n", 1)),
                (f"fr_view windows {' '.join(RUN)}", ">&-", (b"", b"refused Write\n", 1)),
                ("fr_bench audit", "<&-", (b"", b"refused Read\n", 1)),
                ("fr_bench chek", "2>&-", (b"", b"", 2)),
                ("fr_bench --help", ">&-", (b"", b"fr_bench: the help can't be written\n", 1)),
                (f"fr_bench check {CLUSTER}", "<&- >&- 2>&-", (b"", b"", 1))):
            for when in ("a first", "a later"):
                if when == "a first":
                    (self.top / "out" / f"{words.split()[0]}.found").unlink(missing_ok=True)
                self.runs.compare(f"{when} call of {words} {streams}", self.shell(f"./{words} {streams}"), wanted)

    def record(self) -> bytes:
        """Returns the record that a world wrote, if there is one."""
        file = self.top / "record"
        return file.read_bytes() if file.exists() else b""

    def limited(self) -> None:
        """Checks that an output beyond the limit of file sizes ends as a refused write, and not by a signal."""
        windows = f"fr_view windows {' '.join(RUN[:2])} --cycles 64"
        told = f"trap '' XFSZ; sh tools/told fr_view {self.programs['fr_view']} {windows.partition(' ')[2]}"
        for command in (f"./{windows}", f"./{windows} --endless", told):
            got = self.shell(f"ulimit -f 1; {command} > windows")
            self.runs.compare(f"{command} in a small file", got, (b"", b"refused Write\n", 1))
        world = f"echo 'run 100' | ./fr_world {CLUSTER} --endless --record=record"
        self.runs.compare("a small record", self.shell(f"ulimit -f 1; {world}")[1:], (b"refused Record\n", 1))

    def helps(self) -> None:
        for program in self.programs:
            overview = self.call(program, ("--help",))[0]
            for command in commands_of(program):
                words = () if command == program else (command,)
                text, errors, status = self.call(program, (*words, "--help"))
                shown = [line for line in text.splitlines() if line.startswith(("usage: ", "example: "))]
                usage, example = (line.partition(": ")[2] for line in shown)
                self.runs.compare(f"the help of {program} {command}", (errors, status), ("", 0))
                self.runs.compare(f"the overview of {program} has {command}", usage in overview, True)
                given = re.findall(r"--[a-z-]+|\b[A-Z]{2,}\b", usage.partition(" > ")[0])
                described = [re.search(rf"^  (--[a-z]+ )?{word}\b", text, re.MULTILINE) is not None for word in given]
                self.runs.compare(f"the arguments of {program} {command}: {given}", all(described), True)
                ran = subprocess.run(["bash", "-c", f"cd '{self.top}' && {example.partition(' > ')[0]}"],
                                     capture_output=True, timeout=SECONDS)
                self.runs.compare(f"the example of {program} {command}",
                                  (ran.stdout != b"", ran.stderr, ran.returncode), (True, b"", 0))
                others = ((*words, "-h"), (*words, CLUSTER, "--help")) + ((("help", *words),) if words else ())
                for other in others:
                    self.runs.compare(f"help by {program} {other}", self.call(program, other), (text, "", 0))
            with open("/dev/full", "w") as full:
                ran = subprocess.run([self.top / program, "--help"], stdout=full, stderr=subprocess.PIPE, text=True)
            self.runs.compare(f"the help of {program} to a full device", (ran.stderr, ran.returncode),
                              (f"{program}: the help can't be written\n", 1))

    def versions(self) -> None:
        version = (TOP / "python/musmyrtle/VERSION").read_text()
        for program in self.programs:
            self.runs.compare(f"the version of {program}", self.call(program, ("--version",)),
                              (f"{program} {version}", "", 0))
        for words in (["musmyrtle"], ["musmyrtle", "lint"], ["musmyrtle", "faults"]):
            ran = subprocess.run([TOP / words[0], *words[1:], "--version"], capture_output=True, text=True,
                                 timeout=SECONDS)
            self.runs.compare(f"the version of {words}", (ran.stdout, ran.stderr, ran.returncode),
                              (f"{' '.join(words)} {version}", "", 0))

    def agreement(self) -> None:
        """Checks that words have a slip exactly if the program ends with status 2."""
        drawn = random.Random(1)
        for _ in range(150):
            program = drawn.choice(sorted(self.programs))
            words = list(drawn.choice(SHAPES[program]))
            for _ in range(drawn.randint(0, 2)):
                words.insert(drawn.randint(program not in ("fr_world", "fr_monitor"), len(words)), drawn.choice(POOL))
            if drawn.random() < 0.4:
                words.pop(drawn.randrange(len(words)))
            ran = subprocess.run([self.programs[program], *words], cwd=self.top, capture_output=True,
                                 stdin=subprocess.DEVNULL, timeout=SECONDS)
            read = subprocess.run(["sh", "-uc", READ, "sh", TOP / "tools/words.sh", program, *words], cwd=self.top,
                                  capture_output=True, timeout=SECONDS)
            self.runs.compare(f"whether {program} {words} has a slip", (read.returncode == 0, read.stderr),
                              (ran.returncode != 2, b""))


def commands_of(program: str) -> list[str]:
    text = (TOP / "tools/help" / program).read_text()
    return [name for name in re.findall(r"^== (.*)$", text, re.MULTILINE) if name != "after"]
