"""Traces given to `musmyrtle lint`: the line, the column and the words of the reason, each slip by hand."""
import os
from threading import Thread

from musmyrtle.program import usual_program
from tests.cases import EXAMPLES, Cases

VIEW = os.environ.get("FR_VIEW") or usual_program("fr_view") or ""
BUFFER = (EXAMPLES / "receive-buffer/trace").read_text()
WITHDRAWN = (EXAMPLES / "withdrawn-commits/trace").read_text()
DIVIDED = (EXAMPLES / "divided-slot/trace").read_text()
COMMITS = (EXAMPLES / "three-commits/trace").read_text()

SLIPS = (
    ("8:14", ("SEEN_A is", "Expected lower-case hexadecimal digits: `c`"), BUFFER, "200203c", "200203C"),
    ("8:28", ("two digits for each byte, an even number instead of 21",), BUFFER, "2217 noise", "22170 noise"),
    ("4:11", ("REP is `3`", "Expected `1`, `2`, `4`, `8`, `16`, `32` or `64`"), BUFFER, "AB 0 1", "AB 0 3"),
    ("4:9", ("BASE is 4", "below REP, which is 4"), BUFFER, "AB 0 1", "AB 4 4"),
    ("4:10", ("the line has 4 words, and `rx` has 5", "Expected `rx SLOT CH BASE REP`"), BUFFER, "AB 0 1", "AB 0"),
    ("4:13", ("the line has 6 words, and `rx` has 5",), BUFFER, "AB 0 1", "AB 0 1 0"),
    ("13:4", ("the line `end` has no line feed", "Expected a line feed at the end"), BUFFER, "end\n", "end"),
    ("13:1", ("the file ends without the line `end`",), BUFFER, "end\n", ""),
    ("1:10", ("the first line ends with a carriage return",), BUFFER, "frtrace 1\n", "frtrace 1\r\n"),
    ("1:1", ("the first line doesn't name the format", "Expected `frtrace 3`"), BUFFER, "frtrace 1", "frtrace 5"),
    ("1:1", ("version 4 aren't explained", "`fr_bench audit` reads version 4"), BUFFER, "frtrace 1", "frtrace 4"),
    ("6:1", ("no line begins with `reed`", "Is `read` meant?"), BUFFER, "read", "reed"),
    ("8:1", ("version 1 has no line `withdraw`", "`frtrace 2` as the first line"), WITHDRAWN, "frtrace 2", "frtrace 1"),
    ("4:13", ("the line has 7 words, and `own` has 5", "one of `frtrace 3`"), DIVIDED, "frtrace 3", "frtrace 2"),
    ("12:5", ("the line has 1 word, and `read` has 4",), BUFFER, "read 0 0 2:A\nend", "read\nend"),
    ("2:12", ("a space too many",), BUFFER, "4 1 20", "4  1 20"),
    ("2:12", ("`static_words` is 200", "a number from 0 to 127"), BUFFER, "4 1 20", "4 200 20"),
    ("7:9", ("CYCLE is `64`", "a number from 0 to 63"), BUFFER, "fetch 0 0", "fetch 0 64"),
    ("7:15", ("SLOT_B is 3", "the same slot twice"), BUFFER, "fetch 0 0 0 2 2", "fetch 0 0 0 2 3"),
    ("9:10", ("the line says `1:A`, and the answer is `2:A`", "Expected `read 0 0 2:A`"), BUFFER, "2:A", "1:A"),
    ("6:6", ("T is `8`", "a number from 0 to 7"), BUFFER, "read 0", "read 8"),
    ("6:1", ("the plan has no such task", "below TASKS"), BUFFER, "read 0", "read 3"),
    ("7:18", ("an even number of bytes instead of 3",), COMMITS, "x0001", "x000100"),
    ("7:12", ("Expected `x` before the hexadecimal digits",), COMMITS, "x0001", "0001"),
    ("4:11", ("STARTUP is 1", "Expected SYNC 1, or STARTUP 0"), COMMITS, "own 1 A 0 0", "own 1 A 0 1"),
    ("5:1", ("no line `read` may stand here", "`own`, `tx`, `rx`, `queue` or `begin`"), BUFFER, "begin\n", ""),
)


class Traces(Cases):
    def test_slips(self):
        for place, words, trace, *changes in SLIPS:
            with self.subTest(words=words):
                file = self.written("trace", self.changed(trace, tuple(changes)))
                status, output, error = self.run_with(file, "--program", VIEW)
                self.assertEqual((status, error), (1, ""))
                self.assertIn(f"{file}:{place}: refused ", output)
                for text in words:
                    self.assertIn(text, " ".join(output.split()))

    def test_a_lawful_trace(self):
        for example in (BUFFER, WITHDRAWN, DIVIDED, COMMITS):
            file = self.written("trace", example)
            self.assertEqual(self.run_with(file, "--program", VIEW), (0, "fr_view: accepted\n", ""))

    def test_the_program_beside(self):
        self.assertEqual(self.run_with(self.written("trace", BUFFER))[0], 0)

    def test_a_pipe(self):
        source, end = os.pipe()
        self.addCleanup(os.close, source)
        os.write(end, BUFFER.replace("2:A", "1:A").encode())
        os.close(end)
        status, output, _ = self.run_with(f"/dev/fd/{source}", "--program", VIEW)
        self.assertEqual((status, f"/dev/fd/{source}:9:10: refused WrongAnswer 9" in output), (1, True))

    def test_a_long_trace_in_a_pipe(self):
        """3,000 commits of 254 bytes are more than the 1 MiB of a cluster file; all have to come to the program."""
        head = "frtrace 3\nparams 3 4 127 20 5 0 10 90 0 5\nnode 1 0 0 16384 8\nown 1 A 0 0 0 1\ntx state 1 A 0 1 - 0\n"
        long = f"{head}begin\n" + f"commit 0 0 x{'00' * 254}\n" * 3000 + "end\n"
        pipe = self.folder / "pipe"
        os.mkfifo(pipe)
        writing = Thread(target=pipe.write_text, args=(long,), daemon=True)
        writing.start()
        self.assertEqual(self.run_with(str(pipe), "--program", VIEW), (0, "fr_view: accepted\n", ""))
        writing.join()

    def test_words_and_programs(self):
        file = self.written("trace", BUFFER)
        scenario = self.written("scenario", "frscenario 1\nend\n")
        for words, text in (((file, scenario, "--cycles", "4"), "is a trace, and takes no scenario"),
                            ((file, "--program", str(self.folder / "none")), "can't be run"),
                            ((file, "--program", "false"), "false why ended with status 1")):
            status, _, error = self.run_with(*words)
            self.assertEqual((status, text in error), (2, True), error)
