"""Sessions: threads, signals, forks, time limits, and programs that go wrong."""
import asyncio
import copy
import gc
import multiprocessing
import os
import pickle
import random
import signal
import subprocess
import time
import unittest
from concurrent.futures import ProcessPoolExecutor, ThreadPoolExecutor
from pathlib import Path
from tempfile import TemporaryDirectory

from musmyrtle import Mute, SessionOver, TimedOut, World, WrongLength
from musmyrtle.world import refusals
from musmyrtle.world.refusals import Refused, refusal
from tests import fakes

TOP = Path(__file__).resolve().parents[2]
THREE_NODES = TOP / "examples/three-nodes/cluster.toml"
NODES = 8
SOON = 30
"""The seconds for what takes less than one on an idle machine, where a mistake waits for a minute or for ever."""
ROOMY = "[[node]]\nhost_entries = 16384\nslot_entries = 65536\n"


class Interrupt(Exception):
    """Raised by a signal handler."""


def ring(nodes: int) -> str:
    """A cluster in which each node sends in a static slot of its own and has a buffer that receives it."""
    slots = "".join(f"{ROOMY}own = [{{slot = {it}, channels = \"A\"}}]\nbuffer = [{{kind = \"state\", slot = {it}, "
                    f"channels = \"A\"}}, {{kind = \"receive\", slot = {it % nodes + 1}, channels = \"A\"}}]\n"
                    for it in range(1, nodes + 1))
    text = THREE_NODES.read_text().split("[[node]]")[0]
    text = text.replace("static_slots = 3", f"static_slots = {nodes}").replace("minislots = 4", "minislots = 0")
    return text.replace("cycle_mt = 90", f"cycle_mt = {20 * nodes + 10}") + slots


def is_running(process: int) -> bool:
    try:
        os.kill(process, 0)
    except ProcessLookupError:
        return False
    return True


class Sessions(unittest.TestCase):
    def setUp(self):
        folder = TemporaryDirectory()
        self.addCleanup(folder.cleanup)
        self.folder = Path(folder.name)

    def world(self, **given) -> World:
        world = World(THREE_NODES, 8, **given)
        self.addCleanup(world.close)
        return world

    def fake(self, text: str, **given) -> World:
        return self.world(program=fakes.fake(self.folder, text), **given)

    def process(self, world: World) -> int:
        return world._session._child.number

    def over(self, said: str, kind: type[SessionOver], call, *given) -> None:
        """Asserts that a call ends the session with these words, and that each later call gives the reason."""
        with self.assertRaisesRegex(SessionOver, said) as raised:
            call(*given)
        self.assertIs(type(raised.exception), kind)


class TestThreads(Sessions):
    def setUp(self):
        super().setUp()
        cluster = self.folder / "cluster.toml"
        cluster.write_text(ring(NODES))
        self.shared = World(cluster, 64)
        self.addCleanup(self.shared.close)
        for number in range(NODES):
            self.shared.node(number).commit(0, self.payload(number))
        self.shared.cycle()

    def payload(self, number: int) -> bytes:
        return bytes((0xa0 + number, number))

    def read(self, number: int) -> int:
        """Returns how many of some reads of a node have the payload of another one."""
        node = self.shared.node(number)
        wanted = self.payload((number + 1) % NODES)
        found = [node.read(1) for _ in range(300)]
        found += [node.report().buffers[1] for _ in range(20)]
        return sum(it.payload != wanted for it in found)

    def test_threads_get_their_own_replies(self):
        with ThreadPoolExecutor(NODES) as pool:
            self.assertEqual(list(pool.map(self.read, range(NODES))), [0] * NODES)

    def test_tasks_of_asyncio_get_their_own_replies(self):
        async def reads() -> list[int]:
            return await asyncio.gather(*(asyncio.to_thread(self.read, number) for number in range(NODES)))

        self.assertEqual(asyncio.run(reads()), [0] * NODES)

    def test_many_requests_stay_together(self):
        def send(number: int) -> set[str]:
            payload = f" x{self.payload((number + 1) % NODES).hex()}"
            replies = [self.shared.send([f"read {number} 0 1"] * 50) for _ in range(5)]
            return {reply for some in replies for reply in some if not reply.endswith(payload)}

        with ThreadPoolExecutor(NODES) as pool:
            self.assertEqual(list(pool.map(send, range(NODES))), [set()] * NODES)

    def test_no_request_comes_between_a_fault_and_its_window(self):
        def others() -> None:
            while (window := self.shared.window()) and window.number < 200:
                pass

        with ThreadPoolExecutor(2) as pool, self.shared.fault(Mute(0, "A"), when=lambda window: window.a == 1):
            found = [pool.submit(others) for _ in range(2)]
            while (window := self.shared.now()) and window.number < 200:
                self.shared.cycle()
            for it in found:
                it.result()
        record = [self.shared.record(number) for number in range(NODES, 200)]
        fates = {sent.fate for it in record if it.window.a == 1 for sent in it.sent}
        self.assertEqual(fates, {"muted"})

    def test_close_ends_a_request_of_another_thread(self):
        world = self.fake(fakes.NEVER_ANSWERS)
        with ThreadPoolExecutor(1) as pool:
            asked = pool.submit(world.now)
            while not world.transcript():
                time.sleep(0.001)
            begun = time.monotonic()
            world.close(0.05)
            self.over("the world is closed", SessionOver, asked.result)
        self.assertLess(time.monotonic() - begun, SOON)


class TestInterrupted(Sessions):
    def setUp(self):
        super().setUp()
        before = signal.signal(signal.SIGALRM, self.interrupt)
        self.addCleanup(signal.signal, signal.SIGALRM, before)
        self.addCleanup(signal.setitimer, signal.ITIMER_REAL, 0)

    def interrupt(self, *_: object) -> None:
        raise Interrupt

    def test_no_reply_belongs_to_an_earlier_request(self):
        """Signals come at random moments: a world goes on with the right replies, or reports that it is over.

        The interpreter drops what a handler raises within a callback of a weak reference, so signals come again.
        """
        moments, over = random.Random(4), 0
        for turn in range(60):
            with World(THREE_NODES, 8) as world:
                asked = 0
                try:
                    signal.setitimer(signal.ITIMER_REAL, moments.uniform(0.0001, 0.003), 2)
                    while True:
                        asked += 1
                        world.ask(f"commit 0 0 0 x{asked % 16:04x}" if asked < 40 else "now")
                except Interrupt:
                    signal.setitimer(signal.ITIMER_REAL, 0)
                try:
                    for request, front in (("now", "open "), ("mute 9 A", "refused Bus"), ("report 0", "lines 5\ntx"),
                                           ("read 1 0 1", "frame "), ("withdraw 1 0 0", "withdrawn ")):
                        self.assertEqual(world.send([request])[0][:len(front)], front, f"turn {turn}")
                except SessionOver as error:
                    over += 1
                    self.assertRegex(str(error), "no reply to `.*`: Interrupt came before it")
        self.assertGreater(over, 0)

    def test_a_request_that_is_broken_off_ends_the_session(self):
        world = self.fake(fakes.NEVER_ANSWERS)
        signal.setitimer(signal.ITIMER_REAL, 0.05)
        with self.assertRaises(Interrupt):
            world.cycle()
        self.over("no reply to `cycle`: Interrupt came before it", SessionOver, world.now)
        self.assertEqual(world.transcript(), "cycle\n")

    def test_a_handler_that_asks_in_the_middle_of_a_request(self):
        world = self.fake(fakes.SLOW)
        found = []

        def ask(*_: object) -> None:
            try:
                found.append(world.now())
            except SessionOver as error:
                found.append(type(error))

        signal.signal(signal.SIGALRM, ask)
        signal.setitimer(signal.ITIMER_REAL, 0.02)
        self.over("broken off", SessionOver, world.cycle)
        self.assertEqual(found, [SessionOver])

    def test_a_handler_that_closes_in_the_middle_of_a_request(self):
        world = self.fake(fakes.NEVER_ANSWERS)
        signal.signal(signal.SIGALRM, lambda *_: world.close(0.05))
        signal.setitimer(signal.ITIMER_REAL, 0.05)
        self.over("the world is closed", SessionOver, world.cycle)

    def test_an_exception_between_two_requests_breaks_nothing(self):
        world = self.world()
        with self.assertRaises(Interrupt), world.fault(Mute(0, "A"), when=self.interrupt):
            world.window()
        self.assertEqual(world.now().number, 0)


class TestReplies(Sessions):
    def test_a_block_is_one_reply(self):
        world = self.world()
        report = "lines 5\ntx 0 0 0 0 0 0\nrx 1 - -\nqueue 0 0\nA 0 0 0 0 0\nB 0 0 0 0 0"
        self.assertEqual(world.ask("report 0"), report)
        self.assertEqual(world.send(["report 0", "now", "report 0"]), [report, "open 0 0 0 1 1", report])
        self.assertEqual(world.block("report 0"), report.split("\n")[1:])
        self.assertEqual(world.ask("now"), "open 0 0 0 1 1")

    def test_a_request_of_one_line_of_reply_is_no_block(self):
        world = self.world()
        for line in ("now", "forget"):
            with self.assertRaisesRegex(ValueError, f"`{line}` is no query"):
                world.block(line)
        self.assertEqual(world.ask("now"), "open 0 0 0 1 1")

    def test_a_million_lines(self):
        world = self.world(timeout=60)
        replies = world.send(["now"] * 1_000_000)
        self.assertEqual((len(replies), set(replies)), (1_000_000, {"open 0 0 0 1 1"}))

    def test_no_lines(self):
        self.assertEqual(self.world().send([]), [])

    def test_a_text_that_cannot_be_encoded_is_not_sent(self):
        world = self.world()
        for asked in (["now", "now \udc80"], ["now\nnow"], ["now\n", "now"], ["now", "now\n"]):
            with self.assertRaises(ValueError):
                world.send(asked)
        with self.assertRaises(ValueError):
            world.ask("now \udc80")
        self.assertEqual(world.transcript(), "")
        self.assertEqual(world.ask("now"), "open 0 0 0 1 1")


class TestWrongPrograms(Sessions):
    def test_one_that_speaks_another_version(self):
        with self.assertRaisesRegex(SessionOver, "speaks 'frworld 2', not 'frworld 1'"):
            self.fake("print('frworld 2', flush=True)\n")

    def test_one_that_ends(self):
        for text, said in ((fakes.DIES_MIDWAY, "^refused Read$"),
                           (fakes.IS_KILLED, "^the program was ended by SIGKILL$"),
                           (fakes.ANSWERS_HALF_A_LINE, "^the program has ended$")):
            world = self.fake(text)
            for _ in range(2):
                self.over(said, SessionOver, world.now)

    def test_one_that_never_answers(self):
        for text, request in ((fakes.NEVER_ANSWERS, "cycle"), (fakes.HANGS_IN_A_LINE, "now"),
                              (fakes.HANGS_IN_A_BLOCK, "report 0")):
            world = self.fake(text)
            said = f"no reply to `{request}` within 0.05 s"
            begun = time.monotonic()
            self.over(said, TimedOut, world.ask, request, 0.05)
            self.assertLess(time.monotonic() - begun, SOON)
            self.over(said, SessionOver, world.now)
        self.assertTrue(issubclass(TimedOut, TimeoutError))

    def test_the_time_limit_of_a_world(self):
        begun = time.monotonic()
        with self.assertRaisesRegex(TimedOut, "no first line within 0.05 s"):
            self.fake(fakes.NEVER_GREETS, timeout=0.05)
        world = self.fake(fakes.SLOW, timeout=SOON)
        self.assertEqual([world.now() for _ in range(3)], [None] * 3)
        self.over("no reply to `now` within 0.12 s", TimedOut, lambda: world.send(["now"] * 4, timeout=0.12))
        self.assertLess(time.monotonic() - begun, SOON)

    def test_one_that_goes_on_without_a_line_feed(self):
        self.over("a line of more than 65536 bytes", SessionOver, self.fake(fakes.GOES_ON_WITHOUT_A_LINE_FEED).now)

    def test_one_that_counts_wrong(self):
        self.over("answers with `lines many`", SessionOver, self.fake(fakes.COUNTS_WRONG).block, "report 0")

    def test_one_that_floods_standard_error(self):
        world = self.fake(fakes.FLOODS_STANDARD_ERROR, timeout=SOON)
        self.assertEqual([world.now() for _ in range(3)], [None] * 3)

    def test_one_whose_child_holds_the_pipes(self):
        world = self.fake(fakes.LEAVES_A_CHILD_THAT_HOLDS_THE_PIPES)
        begun = time.monotonic()
        self.over("^the last words$", SessionOver, world.now)
        world.close()
        self.assertLess(time.monotonic() - begun, SOON)


class TestTheEnd(Sessions):
    def test_close_kills_one_that_does_not_end(self):
        world = self.fake(fakes.NEVER_ENDS)
        begun = time.monotonic()
        world.close(0.05)
        self.assertFalse(is_running(self.process(world)))
        self.assertLess(time.monotonic() - begun, SOON)

    def test_a_world_that_is_dropped_ends_its_program(self):
        world = World(THREE_NODES, 8)
        node, process = world.node(0), self.process(world)
        del world
        gc.collect()
        self.assertTrue(is_running(process))
        node.commit(0, b"\0\1")
        del node
        gc.collect()
        self.assertFalse(is_running(process))

    def test_a_closed_world_ends_its_program_once(self):
        world = self.world()
        process = self.process(world)
        for _ in range(2):
            world.close()
        self.assertFalse(is_running(process))
        self.over("the world is closed", SessionOver, world.now)

    def test_a_forked_process_neither_uses_nor_holds_a_world(self):
        world = self.world()
        process = self.process(world)
        found = multiprocessing.get_context("fork").Queue()

        def child() -> None:
            try:
                world.now()
            except SessionOver as error:
                found.put(str(error))
            time.sleep(60)

        forked = multiprocessing.get_context("fork").Process(target=child)
        forked.start()
        try:
            self.assertIn("forked", found.get(timeout=SOON))
            self.assertEqual(world.ask("now"), "open 0 0 0 1 1")
            begun = time.monotonic()
            world.close(2 * SOON)
            self.assertLess(time.monotonic() - begun, SOON)
            self.assertFalse(is_running(process))
        finally:
            forked.kill()
            forked.join()

    def test_a_process_forked_in_the_middle_of_a_request_does_not_wait_for_it(self):
        world = self.fake(fakes.SLOW)
        with ThreadPoolExecutor(1) as pool:
            asked = pool.submit(world.now)
            while not world.transcript():
                time.sleep(0.001)
            number = os.fork()
            if number == 0:
                try:
                    begun = time.monotonic()
                    with self.assertRaises(SessionOver):
                        world.now()
                    world.close(2 * SOON)
                    os._exit(7 if time.monotonic() - begun < SOON else 8)
                finally:
                    os._exit(1)
            self.assertEqual(os.waitstatus_to_exitcode(os.waitpid(number, 0)[1]), 7)
            self.assertIsNone(asked.result())
        self.assertIsNone(world.now())

    def test_the_end_of_python_ends_the_program(self):
        text = ("import musmyrtle, sys\nworld = musmyrtle.World(sys.argv[1], 8)\n"
                "print(world._session._child.number)\n")
        ran = subprocess.run(["python3", "-c", text, THREE_NODES], stdout=subprocess.PIPE, check=True, text=True,
                             env={**os.environ, "PYTHONPATH": str(TOP / "python")})
        self.assertFalse(is_running(int(ran.stdout)))


def commit_too_much(payload: bytes) -> int:
    with World(THREE_NODES, 8) as world:
        return world.node(0).commit(0, payload)


class TestRefusals(unittest.TestCase):
    def test_refusals_can_be_copied_and_pickled(self):
        for error in (refusal("refused Host WrongLength", "commit 0 0 0 x"), refusal("refused BadFault 3", "mute .."),
                      refusal("refused Bus Memory", "seal"), refusal("refused Slot New", "fetch 0"),
                      SessionOver("the program has ended"), TimedOut("no reply")):
            for other in (copy.copy(error), copy.deepcopy(error), pickle.loads(pickle.dumps(error))):
                self.assertEqual((type(other), str(other), other.args), (type(error), str(error), error.args))
                if isinstance(error, Refused):
                    self.assertEqual((other.names, other.line), (error.names, error.line))

    def test_a_process_pool_hands_a_refusal_on(self):
        with ProcessPoolExecutor(1, multiprocessing.get_context("fork")) as pool:
            with self.assertRaisesRegex(WrongLength, "^Host WrongLength: .*has to have 2: commit 0 0 0 x00000000$"):
                pool.submit(commit_too_much, bytes(4)).result()
            self.assertEqual(pool.submit(commit_too_much, bytes(2)).result(), 0)

    def test_each_refusal_of_the_protocol_has_its_name(self):
        """The names are those of docs/WORLD.md, and for a controller's calls of docs/formats/views.md."""
        groups = {
            "": "BadFault BadLine Memory NoHistory NoWindow NotKept UnknownNode WrongTurn",
            "Host": "UnknownTask UnknownBuffer NotTransmit WrongLength HostFull NotReceive NoQueue",
            "Slot": "NotObserved BadWindow WindowOrder SlotFull NotFetched WrongWindow",
            "Bus": "UnknownNode NotCollecting TooManyFaults NotAllPut NotSealed NotAllTaken Memory",
        }
        for group, names in groups.items():
            for name in names.split(" "):
                kind = type(refusal(" ".join(filter(None, ("refused", group, name))), "now"))
                self.assertTrue(issubclass(kind, getattr(refusals, name)), f"{group} {name}")
                self.assertIn(kind.__name__, (name, f"Bus{name}"))
                if group:
                    self.assertTrue(issubclass(kind, getattr(refusals, f"{group}Refused")))

    def test_a_refusal_of_a_later_version_has_its_kind(self):
        for reply, kind in (("refused Host New", "HostRefused"), ("refused Slot New", "SlotRefused"),
                            ("refused Bus New", "BusRefused"), ("refused New", "Refused"), ("refused Bus", "Refused")):
            self.assertEqual(type(refusal(reply, "now")).__name__, kind)


if __name__ == "__main__":
    unittest.main()
