"""Names of a description as cluster files can have them: of a form, not too long, and each once."""
import re
import zlib

from musmyrtle.descriptions.report import Report
from musmyrtle.visible import cut, visible

OTHER = re.compile(r"[^A-Za-z0-9_.-]")
CHECKSUM = ".{:04x}"


class NameBook:
    """The names that are taken, so that each name of a description gets one of its own."""

    def __init__(self, most: int, report: Report, digits: str = "") -> None:
        """Takes the length of the longest name, and what comes before one of digits alone, which would be a number."""
        self.most, self.report, self.digits = most, report, digits
        self.taken: set[str] = set()

    def name(self, word: str, after: str = "", is_noted: bool = True) -> str:
        """Returns a name that isn't taken yet, and notes it where it is another one than the description's."""
        found = self.formed(word, after)
        count = 2
        while found in self.taken:
            found = self.formed(word, f"{after}-{count}")
            count += 1
        self.taken.add(found)
        if is_noted and found != word + after:
            self.report.note("names that a cluster file can't have are others there",
                             f"{visible(cut(word))} is {found}")
        return found

    def formed(self, word: str, after: str) -> str:
        """Returns a name of the form. A longer one is cut, with a checksum of the whole in place of the rest."""
        clean = OTHER.sub("_", word) or "_"
        if self.digits and clean.isdigit():
            clean = self.digits + clean
        room = self.most - len(after)
        if len(clean) > room:
            checksum = CHECKSUM.format(zlib.crc32(word.encode(errors="replace")) & 0xFFFF)
            clean = clean[:room - len(checksum)] + checksum
        return clean + after
