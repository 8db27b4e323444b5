"""The elements of descriptions that an import may need, found by their paths or IDs. All others are dropped at once."""
from collections import Counter
from collections.abc import Mapping
from dataclasses import dataclass, field
from enum import Enum
from functools import lru_cache

from musmyrtle.descriptions.elements import Element, is_alike, path_of
from musmyrtle.descriptions.report import Refused
from musmyrtle.visible import cut

DEEPEST = 256
"""The elements within one another. Descriptions have some 40, and more for packages in packages."""
LONGEST_TEXT = 65536
MOST_ELEMENTS = 4_000_000
"""The elements that are kept. They take about a gigabyte, and describe some 50,000 signals."""
DOCUMENTATION = frozenset(("DESC", "LONG-NAME", "ADMIN-DATA", "INTRODUCTION", "ANNOTATIONS", "SDGS", "COMPANY-DATAS"))
"""Elements for people and tools, which describe nothing of the network."""
ID, ID_REF = "ID", "ID-REF"
TYPE = "type"
ATTRIBUTES = frozenset((ID, ID_REF, TYPE, "INTERVAL-TYPE", "BASE-DATA-TYPE", "ENCODING"))
"""The attributes that are read."""
NO_ATTRIBUTES: dict[str, str] = {}
MOST_KNOWN = 100_000


class Place(Enum):
    """The fate of an element: it is on the way to others, is kept with all below it, or is dropped."""

    ON_THE_WAY = 0
    KEPT = 1
    DROPPED = 2


@dataclass(frozen=True)
class Format:
    """A format of descriptions: its name, and which elements it keeps."""

    name: str
    has_ids: bool
    """True if references are IDs. Otherwise they are paths."""
    on_the_way: Mapping[str, frozenset[str]]
    """The tags on the way, with those of the elements around them."""
    kept: Mapping[str, frozenset[str]]
    """The tags that are kept, with those of the elements around them."""
    has_pdus: bool = False
    """True if all tags with the end -PDU are kept too."""

    def place_of(self, around: str, tag: str) -> Place:
        """Returns what becomes of an element, by its tag and that of the element around it."""
        if around in self.kept.get(tag, ()) or self.has_pdus and tag.endswith("-PDU") and around == "ELEMENTS":
            return Place.KEPT
        return Place.ON_THE_WAY if around in self.on_the_way.get(tag, ()) else Place.DROPPED


IN_ELEMENTS = frozenset(("ELEMENTS",))
AUTOSAR = Format("AUTOSAR", False, {
    "AR-PACKAGES": frozenset(("AUTOSAR", "AR-PACKAGE")), "AR-PACKAGE": frozenset(("AR-PACKAGES",)),
    "ELEMENTS": frozenset(("AR-PACKAGE",)), "SHORT-NAME": frozenset(("AR-PACKAGE",)),
}, dict.fromkeys(("FLEXRAY-CLUSTER", "FLEXRAY-FRAME", "ECU-INSTANCE", "I-SIGNAL", "I-SIGNAL-GROUP", "SYSTEM-SIGNAL",
                  "COMPU-METHOD", "UNIT", "DATA-CONSTR", "SW-BASE-TYPE"), IN_ELEMENTS), True)
FIBEX = Format("FIBEX", True, {
    **dict.fromkeys(("ELEMENTS", "PROCESSING-INFORMATION"), frozenset(("FIBEX",))),
    **dict.fromkeys(("CLUSTERS", "CHANNELS", "ECUS", "PDUS", "FRAMES", "SIGNALS"), IN_ELEMENTS),
    **dict.fromkeys(("UNIT-SPEC", "CODINGS"), frozenset(("PROCESSING-INFORMATION",))),
    "UNITS": frozenset(("UNIT-SPEC",)),
}, {it: frozenset((f"{it}S",)) for it in ("CLUSTER", "CHANNEL", "ECU", "PDU", "FRAME", "SIGNAL", "CODING", "UNIT")})
NAMESPACE = "http://autosar.org/schema/r4.0"


@lru_cache(maxsize=4096)
def local(tag: str) -> str:
    """Returns a tag or the name of an attribute without its namespace."""
    return tag.rpartition("}")[2]


def format_of(file: str, tag: str, attributes: Mapping[str, str]) -> Format:
    """Returns the format of a file by its root. Raises `Refused` for another format, or another version."""
    name = local(tag)
    if name == "AUTOSAR":
        if tag != f"{{{NAMESPACE}}}AUTOSAR":
            space = cut(tag.rpartition("}")[0].strip("{")) or "empty"
            raise Refused("Version", file, f"its namespace is {space}, and expected is {NAMESPACE}, of AUTOSAR 4")
        return AUTOSAR
    if name == "FIBEX":
        version = next((value for key, value in attributes.items() if local(key) == "VERSION"), "")
        if not version.startswith(("3.", "4.")):
            raise Refused("Version", file, f"it is FIBEX {cut(version) or 'without a version'}, and expected is 3 or 4")
        return FIBEX
    raise Refused("Format", file, f"its root is {cut(name)}, and expected is AUTOSAR or FIBEX")


@dataclass
class Description:
    """The kept elements of all files by their keys, which are paths in AUTOSAR and IDs in FIBEX."""

    format: Format | None = None
    kept: list[Element] = field(default_factory=list)
    by_key: dict[str, Element] = field(default_factory=dict)
    doubles: dict[str, list[Element]] = field(default_factory=dict)
    dropped: Counter[str] = field(default_factory=Counter)
    """The tags of elements that aren't kept, without those of documentation."""
    reached: dict[int, Element] = field(default_factory=dict)
    """The elements that were found by a reference, or from the cluster on, by their identities."""
    count: int = 0

    def of_kind(self, tag: str) -> list[Element]:
        """Returns the kept elements of a tag in the order of the files."""
        return [it for it in self.kept if it.tag == tag]

    def reach(self, element: Element) -> Element:
        """Returns an element, which counts as reached from now on."""
        self.reached[id(element)] = element
        element.is_read = True
        return element

    def at(self, key: str, reference: Element) -> Element:
        """Returns the element of a key that a reference has. Raises `Refused` where there is none, or several."""
        found = self.by_key.get(key)
        if found is None:
            raise Refused("BrokenReference", path_of(reference), f"no file has {cut(key, 200) or 'an empty name'}")
        for other in self.doubles.get(key, ()):
            if not is_alike(found, other):
                raise Refused("Several", path_of(reference), f"{cut(key, 200)} stands in several places, with "
                              "different content")
        return self.reach(found)

    def referred(self, reference: Element) -> Element:
        """Returns the element that a reference names. Raises `Refused`."""
        if self.format is FIBEX:
            return self.at(reference.attributes.get(ID_REF, ""), reference)
        return self.at(reference.text, reference)


class Collector:
    """Gets the elements of one file, and adds those that are kept to a description."""

    def __init__(self, file: str, description: Description) -> None:
        self.file, self.description = file, description
        self.stack: list[Element] = []
        self.depth = self.dropping = self.keeping = self.length = 0
        self.texts: list[str] = []
        self.known: dict[str, str] = {}

    # ---- what the parser calls

    def start(self, tag: str, attributes: dict[str, str]) -> None:
        """Opens an element."""
        self.depth += 1
        if self.depth > DEEPEST:
            raise Refused("TooDeep", self.file, f"more than {DEEPEST} elements are within one another")
        if self.dropping:
            self.dropping += 1
            return
        name = local(tag)
        if not self.stack:
            self.begin(format_of(self.file, tag, attributes), name)
            return
        place = self.place_of(name)
        if place is Place.DROPPED:
            self.dropping = 1
            if name not in DOCUMENTATION:
                self.description.dropped[name] += 1
            return
        self.open(name, {local(key): value for key, value in attributes.items() if local(key) in ATTRIBUTES}
                  if attributes else NO_ATTRIBUTES)
        self.keeping += place is Place.KEPT

    def end(self, _: str) -> None:
        """Closes an element."""
        self.depth -= 1
        if self.dropping:
            self.dropping -= 1
            return
        element = self.stack.pop()
        if not element.children and self.texts:
            text = "".join(self.texts).strip()
            # Most texts stand many times in a description.
            element.text = self.known.setdefault(text, text) if len(self.known) < MOST_KNOWN else text
        self.texts, self.length = [], 0
        if element.tag == "SHORT-NAME":
            self.name(self.stack[-1], element)
        if self.keeping:
            self.keeping -= 1
            if element.path is not None:
                self.know(element)

    def data(self, text: str) -> None:
        """Adds a part of the text of the element that is open."""
        if not self.dropping:
            self.length += len(text)
            if self.length > LONGEST_TEXT:
                raise Refused("TooLong", self.file, f"a text has more than {LONGEST_TEXT} characters")
            self.texts.append(text)

    def close(self) -> None:
        """The file is read."""

    # ---- the elements

    def begin(self, found: Format, name: str) -> None:
        """Begins a file of a format, which all files have."""
        known = self.description.format
        if known is not None and (known is not found or found is FIBEX):
            raise Refused("Format", self.file, "expected is one FIBEX file, or the AUTOSAR files of one description")
        self.description.format = found
        self.stack.append(Element(name, NO_ATTRIBUTES, None))

    def place_of(self, name: str) -> Place:
        """Returns what becomes of an element that begins."""
        if self.keeping:
            return Place.DROPPED if name in DOCUMENTATION else Place.KEPT
        return self.format.place_of(self.stack[-1].tag, name)

    @property
    def format(self) -> Format:
        """Returns the format of the file."""
        found = self.description.format
        assert found is not None
        return found

    def open(self, name: str, attributes: dict[str, str]) -> None:
        """Opens an element that is kept or on the way."""
        self.description.count += 1
        if self.description.count > MOST_ELEMENTS:
            raise Refused("TooLarge", self.file, f"more than {MOST_ELEMENTS} elements would be kept")
        parent = self.stack[-1]
        element = Element(name, attributes, parent)
        if self.format.has_ids and ID in attributes:
            element.path = f"{nearest_path(parent)}/{attributes[ID]}"
        if self.keeping:
            parent.add(element)
        elif self.format.place_of(parent.tag, name) is Place.KEPT:
            self.description.kept.append(element)
        self.stack.append(element)
        self.texts, self.length = [], 0

    def name(self, parent: Element, element: Element) -> None:
        """Names the element around a SHORT-NAME, by the first one that it has."""
        if any(it.tag == "SHORT-NAME" and it is not element for it in parent.children):
            # The second one stays unread, and is noted as such.
            return
        if not self.keeping and parent.path is not None:
            raise Refused("Several", f"{parent.path}/SHORT-NAME", "the package has several names")
        element.is_read = True
        parent.path = f"{nearest_path(parent.parent)}/{element.text}"

    def know(self, element: Element) -> None:
        """Adds an element under its key."""
        key = element.attributes.get(ID) if self.format.has_ids else element.path
        if key is None:
            return
        first = self.description.by_key.setdefault(key, element)
        if first is not element:
            self.description.doubles.setdefault(key, []).append(element)


def nearest_path(element: Element | None) -> str:
    """Returns the path of the nearest element that has one."""
    while element is not None and element.path is None:
        element = element.parent
    return "" if element is None else element.path or ""
