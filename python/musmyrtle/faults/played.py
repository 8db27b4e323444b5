"""Runs played in a session with `fr_world`, for facts that the outcome of a run doesn't have.

An outcome names the journal entry that brought a frame, and not its cycle. It counts the frames of a receive FIFO, and
doesn't say which they are. The minislots at which nodes send follow only from what is sent before them.
"""
from collections.abc import Callable, Collection, Iterable
from contextlib import closing
from dataclasses import dataclass, field
from functools import cached_property

from musmyrtle.cluster import CYCLES, Cluster
from musmyrtle.faults.fifos import Fifo, Senders, Unread, fifo_of, senders_of
from musmyrtle.faults.frames import data_frame
from musmyrtle.faults.runs import Folder
from musmyrtle.faults.traces import fetched
from musmyrtle.scenario import Scenario
from musmyrtle.scenario_lines import Line
from musmyrtle.world.refusals import Refused, SessionOver, refusal
from musmyrtle.world.replies import Window, record_of, window_of
from musmyrtle.world.session import Session

AT_ONCE = 50
"""The number of requests that are sent together."""
REQUEST_SECONDS = 120.0
"""The time limit of a request in seconds. It ends a session whose program hangs."""
FORGED_WORD = b"\xa5\x5a"
"""The payload of a forged frame in the dynamic segment, and each word of one in a static slot."""

Fifos = dict[int, Fifo | str]
"""The frames of each receive FIFO by node, or why they can't be read."""
Occasion = tuple[int, str]
"""A cycle of the run, and a channel."""


@dataclass(frozen=True)
class Begun:
    """A transmission that begins in the dynamic segment, in a cycle of the run."""

    cycle: int
    minislot: int
    channel: str
    fate: str


@dataclass
class Played:
    """The observations of a run."""

    starts: list[int] = field(default_factory=list)
    """The number of the first window of each cycle."""
    fifos: Fifos = field(default_factory=dict)
    begun: list[Begun] = field(default_factory=list)
    """The transmissions that began in the dynamic segment, if they were asked for."""
    slots: dict[Occasion, int] = field(default_factory=dict)
    """The slot that a channel opened in a cycle at the watched minislot, if there is one."""


class Player:
    """Plays a cluster and a scenario for some cycles, with further faults beside those of the scenario.

    PROGRAM is `fr_world` and VIEWER is `fr_view`. Each call plays one run. All raise `SessionOver` where the session
    ends early, and `Refused` where it refuses a request.
    """

    def __init__(self, program: str, viewer: str, folder: Folder, cluster: Cluster, scenario: Scenario) -> None:
        self.program, self.viewer, self.folder, self.cluster = program, viewer, folder, cluster
        self.scenario, self.cycles = scenario, folder.cycles
        self.calls: dict[int, list[Line]] = {}
        for cycle, line in scenario.calls(self.cycles):
            self.calls.setdefault(cycle, []).append(line)

    @cached_property
    def senders(self) -> Senders:
        """Returns who may send in the cluster. Raises `Unread` where `fr_view` doesn't print it."""
        return senders_of(self.viewer, str(self.folder.cluster), self.folder.children)

    def play(self, lines: Iterable[str] = (), watched: int | None = None) -> Played:
        """Returns the observations of the run with these fault lines, with the slots that were open at the minislot
        WATCHED."""
        with closing(self.opened(lines)) as session:
            play = Play(self, session)
            play.run()
            if watched is not None:
                play.watch(watched)
            play.read_fifos()
            return play.played

    def record(self) -> Played:
        """Returns the observations of the scenario's run, with the transmissions that began in the dynamic segment."""
        with closing(self.opened()) as session:
            play = Play(self, session)
            is_stepped = self.cluster.parameters.minislots > 0
            play.run(range(self.cycles) if is_stepped else (), lambda cycle, window: [], play.record)
            play.read_fifos()
            return play.played

    def lose(self, node: int, channels: str, cycles: Collection[int]) -> list[Begun]:
        """Returns the node's offers in the dynamic segment, all of which the run loses on these channels and cycles."""
        def due(cycle: int, window: Window) -> list[str]:
            return [f"mute {node} {channel}" for channel in channels]

        with closing(self.opened()) as session:
            Play(self, session).run(cycles, due)
            return [Begun(it.cycle, it.minislot, channel, "muted") for it in fetched(session.block(f"trace {node}"))
                    for channel in channels if it.cycle in cycles and it.offers[channel] != "-"]

    def forge(self, node: int, minislot: int, occasions: Collection[Occasion]) -> dict[Occasion, int]:
        """Returns the slots that are open at the minislot in a run in which the node babbles a frame of the open slot
        there.

        The node does so on each occasion on which a slot is open.
        """
        found: dict[Occasion, int] = {}
        channels = sorted({channel for _, channel in occasions})

        def due(cycle: int, window: Window) -> list[str] | None:
            if window.minislot < minislot:
                return []
            slots = {channel: slot_of(window, channel) for channel in channels if window.minislot == minislot}
            here = {channel: slot for channel, slot in slots.items() if slot and (cycle, channel) in occasions}
            found.update({(cycle, channel): slot for channel, slot in here.items()})
            return [forged_babble(node, channel, slot, cycle) for channel, slot in here.items()] or None

        with closing(self.opened()) as session:
            Play(self, session).run({cycle for cycle, _ in occasions}, due)
        return found

    def opened(self, lines: Iterable[str] = ()) -> Session:
        """Returns a session that keeps the fault lines. It asks by numbers alone, so no key `name` is read."""
        session = Session(self.program, self.folder.cluster, self.cycles, REQUEST_SECONDS)
        try:
            requests = [*(" ".join(it.words) for it in self.scenario.faults), *lines]
            for request, reply in zip(requests, session.send(requests)):
                if reply != "done":
                    raise refusal(reply, request)
        except BaseException:
            session.close()
            raise
        return session


def slot_of(window: Window, channel: str) -> int | None:
    return window.a if channel == "A" else window.b


def forged_babble(node: int, channel: str, slot: int, cycle: int) -> str:
    return f"babble {node} {channel} x{data_frame(slot, cycle % len(CYCLES), FORGED_WORD, channel).hex()}"


Due = Callable[[int, Window], list[str] | None]
"""The requests in a dynamic window of a cycle before it is done.

None stands for a cycle whose rest isn't done window by window.
"""
Seen = Callable[[int, Window], None]


class Play:
    """One run that is played."""

    def __init__(self, player: Player, session: Session) -> None:
        self.player, self.session, self.played = player, session, Played()

    def run(self, stepped: Collection[int] = (), due: Due | None = None, seen: Seen | None = None) -> None:
        """Does all cycles, those STEPPED with DUE and SEEN for each dynamic window."""
        window = self.moved(["now"])
        for cycle in range(self.player.cycles):
            if window is None:
                raise SessionOver(f"the run is over before cycle {cycle}")
            self.played.starts.append(window.number)
            self.call(cycle)
            window = self.step(cycle, due, seen) if due and cycle in stepped else self.moved(["cycle"])

    def call(self, cycle: int) -> None:
        """Does the lines of the tasks, as a scenario orders them."""
        for line in self.player.calls.get(cycle, ()):
            self.session.ask(" ".join([line.kind, *line.words[1:3], *line.words[4:]]))

    def step(self, cycle: int, due: Due, seen: Seen | None) -> Window | None:
        """Does the windows of the cycle, the dynamic ones one by one. Returns the first window of the next."""
        static_slots, window = self.player.cluster.parameters.static_slots, None
        for at in range(0, static_slots, AT_ONCE):
            window = self.moved(["window"] * min(AT_ONCE, static_slots - at))
        while window and not window.opens_cycle:
            requests = due(cycle, window)
            if requests is None:
                return self.moved(["cycle"])
            after = self.moved([*requests, "window"])
            if seen:
                seen(cycle, window)
            window = after
        return window

    def moved(self, requests: list[str]) -> Window | None:
        """Makes the requests. Returns the window that is open then, or nothing once the run is over."""
        replies = self.session.send(requests)
        for request, reply in zip(requests, replies):
            if reply.startswith("refused "):
                raise refusal(reply, request)
        kind, *words = replies[-1].split(" ")
        return None if kind == "over" else window_of(words)

    def record(self, cycle: int, window: Window) -> None:
        for it in record_of(self.session.block(f"record {window.number}")).sent:
            if window.slot(it.channel) is not None:
                self.played.begun.append(Begun(cycle, window.minislot, it.channel, it.fate))

    def watch(self, minislot: int) -> None:
        """Reads the slots that were open at the minislot. All nodes fetch the same windows."""
        for it in fetched(self.session.block("trace 0")):
            if it.minislot == minislot:
                open_slots = {channel: slot for channel, slot in it.slots.items() if slot != "-"}
                self.played.slots |= {(it.cycle, channel): int(slot) for channel, slot in open_slots.items()}

    def read_fifos(self) -> None:
        for node in self.player.cluster.nodes:
            if node.queue:
                self.played.fifos[node.number] = self.read_fifo(node.number)

    def read_fifo(self, node: int) -> Fifo | str:
        try:
            return fifo_of(self.player.viewer, self.session.block(f"trace {node}"), self.player.folder.children,
                           self.player.senders)
        except (Unread, Refused) as error:
            return str(error)
