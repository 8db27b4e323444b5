"""Changes of a text: of its bytes, its words and its lines."""
import re

BORDERS = [str(it).encode() for it in (
    *range(-1, 10), 15, 16, 17, 31, 32, 33, 63, 64, 65, 126, 127, 128, 254, 255, 256, 257, 262, 263, 999, 1000, 1001,
    1023, 1024, 1025, 2046, 2047, 2048, 4095, 4096, 4097, 7999, 8000, 8001, 16383, 16384, 16385, 19999, 20000, 20001,
    65535, 65536, 65537, 2**31 - 1, 2**31, 2**32 - 1, 2**32, 9_999_999_999, 10**10, 2**63 - 1, 2**63, 2**64 - 1, 2**64,
    10**40)]
ODD_NUMBERS = [b"", b"-", b"+1", b"-0", b"00", b"01", b"007", b"1.0", b"1e3", b"0x10", b"1_000", b" 1", b"1 ", b"x",
               b"*", b"s1", b"m1"]
ODD_BYTES = [bytes([it]) for it in b"\0\t\n\v\r \"#',-.=A[\\]x{}\x7f"]
NOT_UTF8 = [b"\xff", b"\x80", b"\xc3", b"\xc3\x28", b"\xed\xa0\x80", b"\xf5\x80\x80\x80", b"\xc0\xaf"]
ODD_UTF8 = ["\ufeff".encode(), "\u00e9".encode()]
NUMBER = re.compile(rb"[0-9]+")
WORD = re.compile(rb"[^ \n]+")
FILE_LIMIT = 1_048_576
MOST = 4_000_000
"""The bytes that a change may turn a text into."""


def between(random, text, put):
    at = random.randint(0, len(text))
    return text[:at] + put + text[at:]


def instead(random, text, form, put):
    """Returns the text with one piece of this form replaced; PUT makes the new piece of the old one."""
    found = list(form.finditer(text))
    if not found:
        return text
    one = random.choice(found)
    return text[:one.start()] + put(one[0]) + text[one.end():]


def flipped_bit(random, text, _):
    if not text:
        return b"\x00"
    at = random.randrange(len(text))
    return text[:at] + bytes([text[at] ^ 1 << random.randrange(8)]) + text[at + 1:]


def other_byte(random, text, _):
    at = random.randint(0, len(text))
    return text[:at] + random.choice(ODD_BYTES) + text[at + 1:]


def further_byte(random, text, _):
    return between(random, text, random.choice((*ODD_BYTES, random.randbytes(1))))


def lost_bytes(random, text, _):
    at = random.randint(0, len(text))
    return text[:at] + text[at + random.choice((1, 1, 1, 2, 7)):]


def not_utf8(random, text, _):
    return between(random, text, random.choice((*NOT_UTF8, *ODD_UTF8)))


def cut(random, text, _):
    return text[: random.randint(0, len(text))] if random.random() < 0.7 else text[random.randint(0, len(text)):]


def lines_changed(random, text, change):
    lines = text.splitlines(keepends=True) or [b"\n"]
    change(lines, random.randrange(len(lines)), random.randrange(len(lines)))
    return b"".join(lines)


def lost_line(random, text, _):
    return lines_changed(random, text, lambda lines, at, _: lines.pop(at))


def doubled_line(random, text, _):
    return lines_changed(random, text, lambda lines, at, _: lines.insert(at, lines[at]))


def copied_line(random, text, _):
    return lines_changed(random, text, lambda lines, at, to: lines.insert(to, lines[at]))


def exchanged_lines(random, text, _):
    def exchange(lines, one, other):
        lines[one], lines[other] = lines[other], lines[one]
    return lines_changed(random, text, exchange)


def lost_lines(random, text, _):
    def lose(lines, one, other):
        del lines[min(one, other):max(one, other)]
    return lines_changed(random, text, lose)


def foreign_line(random, text, other):
    foreign = random.choice(other.splitlines(keepends=True) or [b"\n"])
    return lines_changed(random, text, lambda lines, at, _: lines.insert(at, foreign))


def repeated_line(random, text, _):
    times = random.choice((2, 16, 17, 63, 64, 65, 66, 300))
    def repeat(lines, at, _):
        lines.insert(at, lines[at] * min(times, MOST // len(lines[at])))
    return lines_changed(random, text, repeat)


def long_line(random, text, _):
    """Returns the text with one line filled up to about the longest line."""
    def fill(lines, at, _):
        line, filling = lines[at].rstrip(b"\n"), random.choice((b" ", b"x", b"0", b"#", b"\xff"))
        lines[at] = line + filling * (random.choice((1199, 1200, 1201, 1202, 5000)) - len(line)) + b"\n"
    return lines_changed(random, text, fill)


def long_end(random, text, _):
    """Returns the text filled up to about the largest file."""
    return text + random.choice((b"#", b"\n", b" ", b"x")) * (FILE_LIMIT + random.randint(-1, 1) - len(text))


def border_number(random, text, _):
    return instead(random, text, NUMBER, lambda _: random.choice(BORDERS))


def near_number(random, text, _):
    def near(old):
        return str(max(0, int(old[:30]) + random.choice((-2, -1, 1, 2)))).encode()
    return instead(random, text, NUMBER, near)


def odd_number(random, text, _):
    return instead(random, text, NUMBER, lambda _: random.choice(ODD_NUMBERS))


def huge_number(random, text, _):
    return instead(random, text, NUMBER, lambda old: (old[:10_000] or b"7") * random.choice((20, 100, 400)))


def lost_word(random, text, _):
    return instead(random, text, WORD, lambda _: b"")


def cut_word(random, text, _):
    return instead(random, text, WORD, lambda old: old[: random.randint(0, len(old) - 1)])


def doubled_word(random, text, _):
    return instead(random, text, WORD, lambda old: old + b" " + old)


def foreign_word(random, text, other):
    return instead(random, text, WORD, lambda _: random.choice(WORD.findall(other) or [b"-"]))


def spliced(random, text, other):
    """Returns the front of one text and the rest of another."""
    return text[: random.randint(0, len(text))] + other[random.randint(0, len(other)):]


CHANGES = (
    flipped_bit, flipped_bit, other_byte, further_byte, lost_bytes, not_utf8, cut, lost_line, doubled_line, copied_line,
    exchanged_lines, lost_lines, foreign_line, repeated_line, long_line, border_number, border_number, border_number,
    near_number, near_number, near_number, odd_number, huge_number, lost_word, cut_word, doubled_word, foreign_word,
    foreign_word, foreign_word, spliced)


def changed(random, text, other):
    """Returns the text with one or several changes. OTHER is a text of the same kind, from which lines and words come.
    """
    for _ in range(random.choice((1, 1, 1, 1, 2, 3, 8))):
        text = random.choice(CHANGES)(random, text, other)[:MOST]
    return long_end(random, text, other) if random.random() < 0.003 else text
