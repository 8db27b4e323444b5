"""`faults --host`: the same costs as with a scenario that makes the same calls, and host programs that fail."""
import os
import signal
import subprocess
import sys
import time
from pathlib import Path
from unittest.mock import patch

from tests.shows import FIRST, NETWORK, SECOND, Shows

TOP = Path(__file__).resolve().parents[2]
SCENE = f"""frscenario 1
commit 0 0 0 0 x0001
commit 0 0 0 1 {FIRST}
commit 0 0 1 1 {SECOND}
commit 1 0 0 0 x1111
commit 1 0 0 2 x2222
pop 1 0 1
end
"""
HOSTS = f"""
import os, signal, threading, time
FIRST, SECOND = bytes.fromhex({FIRST[1:]!r}), bytes.fromhex({SECOND[1:]!r})

def calls(world):
    pedal, brake = world["pedal"], world["brake"]
    print("this doesn't come into the table")
    pedal["position"].commit(b"\\0\\1")
    pedal["log"].commit(FIRST)
    brake["force"].commit(b"\\x11\\x11")
    brake["state"].commit(b"\\x22\\x22")
    world.cycle()
    pedal["log"].commit(SECOND)
    brake.pop()

def steps(world):
    pedal, brake = world["pedal"], world["brake"]
    pedal["position"].commit(b"\\0\\1")
    pedal["log"].commit(FIRST)
    brake["force"].commit(b"\\x11\\x11")
    brake["state"].commit(b"\\x22\\x22")
    yield
    pedal["log"].commit(SECOND)
    brake.pop()

def asserts(world):
    world["pedal"]["position"].commit(b"\\0\\1")
    world.cycle()
    assert world["brake"]["position"].read(), "no position came"

def dies(world):
    world["pedal"]["position"].commit(b"\\0\\1")
    world.cycle()
    if not world["brake"]["position"].read():
        os.kill(os.getpid(), signal.SIGKILL)

def forks_and_dies(world):
    if not os.fork():
        os.close(2)
        end = time.monotonic() + 300
        while os.path.exists("hosts_of_test.py") and time.monotonic() < end:
            time.sleep(0.1)
        os._exit(0)
    dies(world)

def leaves_a_thread(world):
    threading.Thread(target=time.sleep, args=(300,)).start()
    calls(world)

def remembers(world):
    runs.append(world)
    world["pedal"]["position"].commit(bytes([0, len(runs)]))

runs = []

def random(world):
    world["pedal"]["position"].commit(os.urandom(2))

def slow(world):
    open(os.environ["BEGUN"], "w").close()
    time.sleep(300)

number = 1

async def waits(world):
    calls(world)

async def waits_and_yields(world):
    calls(world)
    yield
"""


class HostFaults(Shows):
    def setUp(self) -> None:
        super().setUp()
        self.written("hosts_of_test.py", HOSTS)
        self.cluster = self.written("cluster.toml", NETWORK)
        self.words = ["--cycles", "2"]

    def faults(self, *words: str) -> tuple[int, str, str]:
        """Returns the status of the command in the folder of the host program, its table, and its standard error."""
        command = [sys.executable, "-B", str(TOP / "musmyrtle"), "faults", *words, *self.words]
        ran = subprocess.run(command, cwd=self.folder, capture_output=True, text=True, timeout=120)
        return ran.returncode, ran.stdout, ran.stderr

    def host(self, name: str, *more: str) -> tuple[int, str, str]:
        return self.faults(self.cluster, "--host", f"hosts_of_test:{name}", *more)

    def test_the_same_table_as_with_a_scenario(self) -> None:
        """The kinds, the places in the dynamic segment and the frames of the FIFO are compared as well."""
        expected = self.faults(self.cluster, self.written("scenario", SCENE))
        self.assertEqual(expected[0], 0)
        self.assertGreater(expected[1].count("\n"), 20)
        for name in ("calls", "steps"):
            for cores in ("1", "3"):
                with self.subTest(name=name, cores=cores):
                    self.assertEqual(self.host(name, "--cores", cores), expected)

    def test_a_single_loss(self) -> None:
        """Without the position on A and B the receive buffer 1 of the brake stays empty."""
        status, output, _ = self.host("calls", "--kinds", "lost", "--nodes", "0", "--fail-on", "lost")
        self.assertEqual(status, 3)
        self.assertIn("lost\t0\tAB\t*\tall\t1\trx 1\tlost\t1\t0:A x0001\t-", output)

    def test_list_and_page(self) -> None:
        self.assertEqual(self.host("calls", "--list", "--kinds", "lost", "--nodes", "1")[:2], (
            0, "lost\t1\tAB\t*\tall\nlost\t1\tA\t*\tall\nlost\t1\tB\t*\tall\n"))
        page = self.folder / "faults.html"
        self.assertEqual(self.host("calls", "--kinds", "lost", "--html", str(page))[0], 0)
        self.assertIn("hosts_of_test:calls", page.read_text())

    def test_an_exception_is_an_answer(self) -> None:
        status, output, _ = self.host("asserts", "--kinds", "lost", "--nodes", "0", "--cores", "2")
        self.assertEqual(status, 4)
        refused = "the host program raised AssertionError: no position came"
        self.assertEqual(output.splitlines()[1], f"lost\t0\tAB\t*\tall\t-\t-\trefused\t1\t-\t{refused}")
        # On one channel alone the position still comes on the other one.
        self.assertFalse([line for line in output.splitlines() if "refused" in line and "\tAB\t" not in line])

    def test_a_process_that_dies(self) -> None:
        status, output, _ = self.host("dies", "--kinds", "lost,noise", "--nodes", "0", "--cores", "3")
        died = [line.split("\t") for line in output.splitlines() if "\tkilled\t" in line]
        self.assertEqual(status, 4)
        self.assertIn(["lost", "0", "AB", "*", "all", "-", "-", "killed", "1", "-",
                       "the process of the host program died"], died)
        self.assertFalse([words for words in died if words[2] != "AB"])

    def test_what_holds_no_run_up(self) -> None:
        """A process that a dead one forked still has its pipes, and a thread that is left goes on."""
        began = time.monotonic()
        words = "--kinds", "lost", "--nodes", "0", "--cores", "3"
        self.assertEqual(self.host("forks_and_dies", *words), self.host("dies", *words))
        self.assertEqual(self.host("leaves_a_thread", *words), self.host("calls", *words))
        self.assertLess(time.monotonic() - began, 120)

    def test_each_run_has_its_own_variables(self) -> None:
        status, output, _ = self.host("remembers", "--kinds", "noise", "--nodes", "1", "--cores", "1")
        self.assertEqual(status, 0)
        self.assertGreater(output.count("\n"), 1)
        self.assertNotIn("x0002", output)

    def test_host_programs_that_cannot_be_compared(self) -> None:
        for name, told, status in (
            ("random", "two runs without a fault differ, so none can be compared: is the host program random?", 4),
            ("none", "--host hosts_of_test:none: AttributeError: module 'hosts_of_test' has no attribute 'none'", 2),
            ("number", "--host hosts_of_test:number: number isn't a function", 2),
            *((it, f"--host hosts_of_test:{it}: {it} is `async`, so that a call of it runs nothing: expected a "
               "function without `async`", 2) for it in ("waits", "waits_and_yields")),
        ):
            with self.subTest(name):
                self.assertEqual(self.host(name), (status, "", f"musmyrtle faults: {told}\n"))
        found = self.faults(self.cluster, "--host", "no_such_module:f")
        self.assertEqual(found[0], 2)
        self.assertIn("ModuleNotFoundError: No module named 'no_such_module'", found[2])
        self.assertIn("it isn't MODULE:FUNCTION", self.faults(self.cluster, "--host", "name")[2])

    def test_words(self) -> None:
        scenario = self.written("scenario", SCENE)
        for words in ((self.cluster,), (self.cluster, scenario, "--host", "a:b")):
            status, output, told = self.faults(*words)
            self.assertEqual((status, output), (2, ""))
            self.assertIn("it takes either a SCENARIO, or a host program by --host MODULE:FUNCTION", told)
        self.assertIn("--host doesn't go with --parallel", self.host("calls", "--parallel")[2])

    def test_a_refused_cluster(self) -> None:
        cluster = self.written("wrong.toml", NETWORK.replace("idle = 0", "idle = 3"))
        status, output, told = self.faults(cluster, "--host", "hosts_of_test:calls")
        self.assertEqual((status, output), (1, ""))
        self.assertIn(f"{cluster}:16:1: refused Params OutOfRange idle: ", told)

    def test_the_job_log(self) -> None:
        log = str(self.folder / "log")
        first = self.host("calls", "--kinds", "lost", "--joblog", log)
        self.assertEqual(self.host("calls", "--kinds", "lost", "--joblog", log, "--resume"), first)
        # Another module, another log.
        self.written("hosts_of_test.py", f"{HOSTS}\n")
        self.assertEqual(self.host("calls", "--kinds", "lost", "--joblog", log, "--resume")[0], 2)

    def test_strange_modules(self) -> None:
        """Files with names of Python's own modules and of the package note that they run. None does, neither for the
        package nor for the host program, and a line names them. Another module of the folder does, as the program
        asks."""
        noted = self.folder / "noted"
        for name in ("json", "random", "heapq", "colorsys", "queue", "msvcrt", "musmyrtle"):
            self.written(f"{name}.py", f"open({str(noted)!r}, 'a').write(__name__)\n")
        (self.folder / "wave").mkdir()
        self.written("wave/__init__.py", f"open({str(noted)!r}, 'a').write(__name__)\n")
        self.written("helper.py", "payload = b'\\0\\1'\n")
        self.written("strange.py", "import helper, queue, random\nprint('no part of the table')\n"
                                   "import os\nos.system('echo nor this')\n"
                                   "def drive(world):\n    import colorsys, json, wave\n"
                                   "    assert random.random() < 1 and colorsys.rgb_to_hsv(0, 0, 0)\n"
                                   "    world['pedal']['position'].commit(helper.payload)\n")
        words = "--kinds", "lost", "--nodes", "0"
        status, output, told = self.faults(self.cluster, "--host", "strange:drive", *words)
        scene = "frscenario 3\ncommit pedal 0 0 position x0001\nend\n"
        expected = self.faults(self.cluster, self.written("scenario", scene), *words)
        self.assertEqual((status, output, noted.exists()), (0, expected[1], False))
        self.assertEqual(told.splitlines()[0], "musmyrtle faults: not imported from the current folder: colorsys.py, "
                         "heapq.py, json.py, msvcrt.py, musmyrtle.py and 3 more, named as modules of Python or of "
                         "musmyrtle")
        self.assertEqual("\n".join(told.splitlines()[1:]), expected[2].rstrip("\n"))

    def test_modules_that_python_imported_before(self) -> None:
        """With the current folder in PYTHONPATH Python has imported a module there before the command begins."""
        standard = str(Path(os.__file__).parent / "fnmatch.py")
        self.written("fnmatch.py", f"exec(open({standard!r}).read())\n")
        self.written("wave.py", "")
        front = "musmyrtle faults: "
        named = " from the current folder: {}.py, named as modules of Python or of musmyrtle"
        with patch.dict(os.environ, {"PYTHONPATH": "."}):
            told = self.host("calls", "--kinds", "lost", "--nodes", "1")[2].splitlines()
        self.assertEqual(told[:2], [f"{front}imported{named.format('fnmatch')}",
                                    f"{front}not imported{named.format('wave')}"])

    def test_modules_that_are_not_imported(self) -> None:
        """A module that ends Python would end the command with its status, without a run."""
        self.written("leaves.py", "import sys\nsys.exit(0)\n")
        self.written("random.py", "def drive(world):\n    pass\n")
        warned = "musmyrtle faults: not imported from the current folder: random.py, named as modules of Python or " \
            "of musmyrtle\nmusmyrtle faults: --host "
        for host, why in (("leaves:drive", "it ends Python when it is imported: SystemExit: 0"),
                          ("random:drive", "random is a module of Python or of musmyrtle, so random.py can't be "
                                           "imported: rename it"),
                          ("hosts_of_test:none", "AttributeError: module 'hosts_of_test' has no attribute 'none'")):
            self.assertEqual(self.faults(self.cluster, "--host", host), (2, "", f"{warned}{host}: {why}\n"))

    def test_a_signal_ends_all_processes(self) -> None:
        begun = self.folder / "begun"
        command = [sys.executable, "-B", str(TOP / "musmyrtle"), "faults", self.cluster, "--host", "hosts_of_test:slow"]
        with subprocess.Popen([*command, *self.words], cwd=self.folder, stdout=subprocess.PIPE, stderr=subprocess.PIPE,
                              text=True, process_group=0, env={**os.environ, "BEGUN": str(begun)}) as running:
            limit = time.monotonic() + 60
            while not begun.exists() and time.monotonic() < limit:
                time.sleep(0.05)
            running.send_signal(signal.SIGTERM)
            output, told = running.communicate(timeout=60)
            self.assertEqual((running.returncode, output, told), (143, "", "musmyrtle faults: broken off\n"))
        self.assertEqual(self.left(running.pid), [])

    def left(self, group: int) -> list[str]:
        """Returns the processes of a group that haven't ended within ten seconds."""
        limit, found = time.monotonic() + 10, ["unknown"]
        while found and time.monotonic() < limit:
            listed = subprocess.run(["ps", "-e", "-o", "pgid=,stat=,args="], capture_output=True, text=True).stdout
            words = [line.split(None, 2) for line in listed.splitlines()]
            found = [" ".join(it) for it in words if it[0] == str(group) and not it[1].startswith("Z")]
            time.sleep(0.05)
        return found
