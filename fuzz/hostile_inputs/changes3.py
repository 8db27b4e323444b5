"""Changes of scenarios of version 3: of their ranges, places, names, gaps, comments and line ends."""
import re

from .changes import MOST, changed, lines_changed

ODD_CYCLES = [
    b"-", b"/", b"*/2", b"**", b"-3", b"3-", b"0-/2", b"0-3/", b"-/", b"0--3", b"0-1-2", b"0/2", b"3-2", b"1023-0",
    b"0-1024", b"1024", b"0-1023", b"0-1023/0", b"0-1023/1", b"0-1023/1023", b"0-1023/1024", b"0-1023/2/2", b"00-1",
    b"0-01", b"0-1/01", b"0-99999999999999999999", b"99999999999999999999", b"0-3/99999999999999999999", b"+0-3",
    b"0-3/-1", b"0 - 3", b"0-3 /2", b"0x1", b"*", b"0", b"1023"]
ODD_PLACES = [
    b"*", b"s*", b"m*", b"d*", b"s", b"m", b"d", b"s0", b"m0", b"d0", b"s8000", b"s8001", b"m8000", b"m8001", b"d8000",
    b"d8001", b"s1-", b"s-2", b"s2-1", b"s1-8000", b"s1-8001", b"s1-2-3", b"s*-2", b"m1-2", b"d4-5", b"s01", b"S1",
    b"sm1", b"s1/2", b"d4", b"d5", b"s99999999999999999999", b"x1", b"1"]
ODD_NAMES = [
    b"brake", b"pedal", b"lost", b"end", b"expect", b"#", b"-", b".", b"n" * 32, b"n" * 33, b"007", b"00", b"16",
    b"64", b"\xc3\xa9", b"A", b"AB", b"BA", b"ABA", b"two words", b"brake#", b"#brake"]
LINES = [
    b"lost 0 *", b"lost 0 0-1023", b"lost 1 0-1023/1023", b"mute 0 AB * *", b"mute 0 A * d4", b"mute 0 B * m*",
    b"babble 0 AB * s1-2 x00", b"babble 0 AB 0-1023/2 * x", b"corrupt AB * * 65535", b"corrupt AB 1-1023/2 m* 0",
    b"pop 0 0 *", b"pop 0 0 0-1023", b"pop 0 0 1023", b"withdraw 0 0 * 0", b"read 0 0 0-1/1 0", b"commit 0 0 * 0 x",
    b"end", b"end # end", b" end", b"frscenario 3", b"#", b"", b"\t", b"\x00", b"# \x00", b"pop 0 0\x000", b"\r",
    b"# \r"]
EXPECTATIONS = [
    b"expect 0 * 0 x", b"expect 0 * 0 x0000", b"expect 15 0-1023 63 x", b"expect 0 1023 0 x0000", b"expect-none 0 * 0",
    b"expect-none 15 * 63", b"expect-none 0 3-2 0", b"expect 0 * 0", b"expect-none 0 * 0 x", b"expect 0 * 0 x0",
    b"expect 16 * 0 x", b"expect 0 * 64 x", b"expect brake * 0 x", b"expect 0 * brake x",
    b"expect 0 * 0 x" + b"00" * 254, b"expect 0 * 0 x" + b"00" * 255, b"expect 0 * 0 x" + b"00" * 256,
    b"expect\t1  *\t0 x0000 # so",
    b"expect-nothing 0 * 0", b"expect_none 0 * 0"]
CYCLES = re.compile(rb"(?<=[ \t])(?:\*|[0-9]+(?:-[0-9]+(?:/[0-9]+)?)?)(?=[ \t\n])")
PLACES = re.compile(rb"(?<=[ \t])(?:\*|[smd](?:\*|[0-9]+(?:-[0-9]+)?))(?=[ \t\n])")
NAMES = re.compile(rb"(?<=[ \t])[-A-Za-z0-9_.]+(?=[ \t\n])")
BLANKS = re.compile(rb"[ \t]+")
MOST_LINES, LONGEST = 4096, 1200


def one_of(form, words):
    """Returns a change that puts one of the words in the place of a piece of this form."""
    def change(random, text, _):
        found = list(form.finditer(text))
        if not found:
            return text
        one = random.choice(found)
        return text[:one.start()] + random.choice(words) + text[one.end():]
    return change


def line_of(lines):
    """Returns a change that adds one of the lines."""
    def change(random, text, _):
        return lines_changed(random, text, lambda all_lines, at, _: all_lines.insert(at, random.choice(lines) + b"\n"))
    return change


def full(lines):
    """Returns a change that fills the text up to about the most lines with one of the lines."""
    def change(random, text, _):
        missing = MOST_LINES + random.randint(-2, 1) - text.count(b"\n")
        one = random.choice(lines) + b"\n"
        return lines_changed(random, text, lambda all_lines, at, _: all_lines.insert(at, one * missing))
    return change


def long_comment(random, text, _):
    """Returns the text with a comment that fills a line up to about the longest line."""
    def fill(lines, at, _):
        line = lines[at].rstrip(b"\n")
        filling = random.choice((b"#", b" ", b"\t", b"x", b"\xc3\xa9", b"\x00", b"\xff"))
        missing = LONGEST + random.randint(-2, 2) - len(line) - 1
        lines[at] = line + b"#" + filling * (missing // len(filling)) + b"\n"
    return lines_changed(random, text, fill)


def many_blanks(random, text, _):
    """Returns the text with one gap, or a gap at an end of a line, of many spaces and tabs."""
    def widen(lines, at, _):
        line = lines[at]
        ends = [0, max(0, len(line) - 1), *(it.start() for it in BLANKS.finditer(line))]
        begin, count = random.choice(ends), random.choice((2, 50, LONGEST - len(line), LONGEST - len(line) + 1, 2000))
        blanks = bytes(random.choice(b" \t") for _ in range(max(0, count)))
        lines[at] = line[:begin] + blanks + line[begin:]
    return lines_changed(random, text, widen)


def returns(random, text, _):
    """Returns the text with a carriage return at the end of each line, or of one."""
    if random.random() < 0.3:
        return text.replace(b"\n", b"\r\n")

    def end(lines, at, _):
        lines[at] = lines[at].replace(b"\n", b"\r\n")
    return lines_changed(random, text, end)


def zero_byte(random, text, _):
    at = random.randint(0, len(text))
    return text[:at] + b"\x00" + text[at:]


def other_version(random, text, _):
    words = b"frscenario 1", b"frscenario 2", b"frscenario 4", b"frscenario 3 ", b"frscenario\t3", b"frscenario 3#"
    return text.replace(b"frscenario 3", random.choice(words), 1)


CHANGES = (one_of(CYCLES, ODD_CYCLES), one_of(CYCLES, ODD_CYCLES), one_of(PLACES, ODD_PLACES), one_of(NAMES, ODD_NAMES),
           line_of(LINES), line_of(LINES), full(LINES), long_comment, many_blanks, many_blanks, returns, zero_byte,
           other_version)
WITH_EXPECTATIONS = (*CHANGES, line_of(EXPECTATIONS), line_of(EXPECTATIONS), full(EXPECTATIONS))


def changed_3(random, text, other, changes=WITH_EXPECTATIONS):
    """Returns the text with one or several of these changes, and sometimes with those of any text."""
    for _ in range(random.choice((1, 1, 1, 2, 4))):
        text = random.choice(changes)(random, text, other)[:MOST]
    return changed(random, text, other) if random.random() < 0.2 else text
