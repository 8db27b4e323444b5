"""Mutants of descriptions: texts changed, and elements left out, moved and doubled."""
import random
import re
from collections.abc import Iterator

TEXT = re.compile(r"(?<=>)[^<>\n]+(?=</)|(?<=ID-REF=\")[^\"]*(?=\")")
OTHERS = ("0", "-1", "1", "7", "8", "63", "64", "255", "256", "99999999999", "1.5", "1e9", "0x10", "true", "",
          "é&quot;\\", "CHANNEL-A", "MOST-SIGNIFICANT-BYTE-FIRST", "/", "/Network", "OUT", "&#x202e;]", "a" * 300)


def spans(text: str) -> Iterator[tuple[int, int]]:
    """Yields the begin and the end of each element, also of those with others in them."""
    open_at: list[tuple[str, int]] = []
    for it in re.finditer(r"<(/?)([A-Za-z:0-9-]+)(?: [^<>]*?)?(/?)>", text):
        if it[1]:
            name, begin = open_at.pop()
            if name != it[2]:
                raise AssertionError(name)
            yield begin, it.end()
        elif it[3]:
            yield it.start(), it.end()
        else:
            open_at.append((it[2], it.start()))


class Mutator:
    """Makes mutants of one text."""

    def __init__(self, text: str, seed: int) -> None:
        self.text, self.pick = text, random.Random(seed)

    def mutant(self) -> str:
        """Returns a text with one to three changes."""
        text = self.text
        for _ in range(self.pick.randint(1, 3)):
            text = self.pick.choice((self.other_text, self.other_text, self.missing, self.moved, self.doubled))(text)
        return text

    def span(self, text: str) -> tuple[int, int]:
        """Returns one element, mostly a small one."""
        found = [it for it in spans(text) if it[1] - it[0] < len(text) // 2]
        small = [it for it in found if it[1] - it[0] < 400]
        return self.pick.choice(small if small and self.pick.random() < 0.8 else found)

    def other_text(self, text: str) -> str:
        """Returns a text in which one text or reference is another one."""
        its = [it.span() for it in TEXT.finditer(text)]
        begin, end = self.pick.choice(its)
        like = text[slice(*self.pick.choice(its))]
        return text[:begin] + self.pick.choice((like, self.pick.choice(OTHERS))) + text[end:]

    def missing(self, text: str) -> str:
        """Returns a text without an element."""
        begin, end = self.span(text)
        return text[:begin] + text[end:]

    def doubled(self, text: str) -> str:
        """Returns a text in which an element stands twice."""
        begin, end = self.span(text)
        return text[:end] + text[begin:end] + text[end:]

    def moved(self, text: str) -> str:
        """Returns a text in which an element stands somewhere else."""
        begin, end = self.span(text)
        rest = text[:begin] + text[end:]
        at = self.pick.choice([it.start() for it in re.finditer(r"<[A-Za-z]", rest)][1:])
        return rest[:at] + text[begin:end] + rest[at:]
