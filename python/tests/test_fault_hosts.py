"""Tests of runs by other machines. Any answer other than that of the requested run is replaced by a run on this one.

`parallel` is a script here that runs the jobs on a copy of the folder, as on a machine. If the real one is
installed, it is tried too, with a script in the place of `ssh`.
"""
import os
import shlex
import shutil
import subprocess
import tempfile
import unittest
from pathlib import Path
from unittest.mock import patch

from musmyrtle.faults.campaign import Campaign, Means
from musmyrtle.faults.hosts import SSH_OPTIONS, Hosts, surroundings
from musmyrtle.faults.listing import Selection
from musmyrtle.faults.log import Log
from musmyrtle.faults.runs import Folder
from musmyrtle.world.world_program import usual_world
from tests.campaigns import PROGRAM, cluster_of, scenario_of
from tests.test_fault_costs import BY_HAND
from tests.two_nodes import SCENE, TWO_NODES

SOME = Selection(frozenset(["mute"]), frozenset([1]))
"""The loss of one frame, and of all frames, of node 1 of the two: it sends on channel A alone."""
PARALLEL = """#!/bin/sh
while [ $# -gt 1 ]; do
    case $1 in
    --workdir) folder=$2; shift ;;
    --nonall) exit 0 ;;
    esac
    shift
done
exec 2>/dev/null
cp -r "$folder" "$folder-there" && cd "$folder-there" || exit 1
HARM
while read -r first last; do
    set -- $(echo "$1" | sed "s/{1}/$first/; s/{2}/$last/") "$1"
    sh "$2" "$3" "$4" "$5" AFTER
    shift 5
done
rm -rf -- "$folder-there"
"""
FAILING = """#!/bin/sh
case $0 in
./*) HARM ;;
esac
exec PROGRAM "$@"
"""
"""A program that fails in the folder of a job."""
FAR = """#!/bin/sh
echo "$*" >>NOTED
while [ "$1" != far ]; do shift; done
shift
[ "$1" != -- ] || shift
exec sh -c "$*"
"""
"""A machine that shares all files with this one."""


def parallel(harm: str = "", after: str = "") -> str:
    """Returns the script with words of a shell before its jobs, and behind each of them."""
    return PARALLEL.replace("AFTER", after).replace("HARM", harm)


class Machines(unittest.TestCase):
    def setUp(self):
        folder = tempfile.TemporaryDirectory()
        self.addCleanup(folder.cleanup)
        self.folder = Path(folder.name)
        (self.folder / "bin").mkdir()
        (self.folder / "runs").mkdir()
        path = f"{self.folder / 'bin'}{os.pathsep}{os.environ['PATH']}"
        changed = patch.dict(os.environ, {"PATH": path, "HOME": str(self.folder)})
        changed.start()
        self.addCleanup(changed.stop)

    def script(self, name: str, text: str) -> str:
        file = self.folder / "bin" / name
        file.write_text(text)
        file.chmod(0o755)
        return str(file)

    def again(self) -> None:
        shutil.rmtree(self.folder / "runs")
        (self.folder / "runs").mkdir()

    def done(self, program: str = str(PROGRAM), hosts: Hosts = Hosts()) -> tuple[int, Campaign]:
        """Does some faults, whose costs must be those worked out by hand. Returns how many were done on this machine.
        """
        files = Folder(self.folder / "runs", TWO_NODES.encode(), SCENE.encode(), 2)
        means = Means(program, usual_world(), 2, hosts)
        campaign = Campaign(cluster_of(TWO_NODES), scenario_of(SCENE), files, means)
        faults = campaign.listing(SOME).faults()
        self.assertEqual([str(it) for it in faults], ["mute 1 A * s2", "mute 1 A * s*"])
        for fault, found in campaign.run(faults, Log(None, (), False), lambda done, of: None):
            got = [(it.node, it.thing, it.effect, it.amount, it.without, it.having) for it in found]
            self.assertEqual(got, BY_HAND[str(fault)], str(fault))
        return campaign.done_here, campaign


class TestMachines(Machines):
    def test_a_good_machine(self):
        self.script("parallel", parallel())
        here, campaign = self.done()
        self.assertEqual(here, 0)
        self.assertEqual(sorted(it.name for it in campaign.folder.path.iterdir()),
                         ["arguments", "cluster.toml", "scenario", "tools"])

    def test_machines_without_answers(self):
        """All runs are done on this machine then, with the same results."""
        no_space = "trap '' XFSZ; ulimit -f 0"
        for text in (parallel(": >lines"), parallel("rm program"), parallel(no_space), parallel(">cluster.toml"),
                     parallel(after="| sed 's/^out tx 0 2/out tx 0 1/'"), parallel(after="| grep -v '^out rx'"),
                     "#!/bin/sh\nexit 1\n", "#!/bin/sh\necho run 0 0\n", "#!/bin/sh\nkill -9 $$\n"):
            with self.subTest(text):
                self.again()
                self.script("parallel", text)
                self.assertEqual(self.done()[0], 2)

    def test_a_program_that_fails_there(self):
        """A run that fails there, or prints half an outcome or none, is done on this machine."""
        self.script("parallel", parallel())
        program = shlex.quote(str(PROGRAM))
        for harm in ("kill -9 $$", "exit 127", "echo 'refused Memory' >&2; exit 1", f'{program} "$@" | head -n 5; exit',
                     "exit 0"):
            with self.subTest(harm):
                self.again()
                text = FAILING.replace("HARM", harm).replace("PROGRAM", program)
                self.assertEqual(self.done(self.script("failing", text))[0], 2)

    def test_a_job_without_an_answer_fails(self):
        """`parallel` gives it to another machine then."""
        self.script("parallel", parallel(after='; echo $? >>"$folder/../statuses"'))
        text = FAILING.replace("HARM", "echo 'refused Memory' >&2; exit 1")
        self.done(self.script("failing", text.replace("PROGRAM", shlex.quote(str(PROGRAM)))))
        self.assertEqual((self.folder / "runs/statuses").read_text(), "1\n")
        self.again()
        self.done()
        self.assertEqual((self.folder / "runs/statuses").read_text(), "0\n")

    def test_the_options_of_ssh(self):
        """The command `ssh` has them wherever it stands, and in front of the words that it is given."""
        self.script("ssh", '#!/bin/sh\necho "$*"\n')
        told = subprocess.run(["ssh", "-p", "2222", "host", "true"], env=surroundings(self.folder / "runs"),
                              capture_output=True, text=True)
        self.assertEqual(told.stdout, f"{SSH_OPTIONS} -p 2222 host true\n")


def is_installed() -> bool:
    """Returns whether GNU parallel is installed, and not another program of that name, and rsync."""
    if not shutil.which("parallel") or not shutil.which("rsync"):
        return False
    version = subprocess.run(["parallel", "--version"], stdin=subprocess.DEVNULL, capture_output=True)
    return version.stdout.startswith(b"GNU parallel")


@unittest.skipUnless(is_installed(), "GNU parallel and rsync aren't installed")
class TestParallel(Machines):
    def test_this_machine(self):
        for words in ((), ("--sshlogin", ":"), ("--sshlogin", "2/:")):
            self.again()
            here, campaign = self.done(hosts=Hosts(words))
            self.assertEqual((here, campaign.folder.cluster.read_text()), (0, TWO_NODES))

    def test_a_machine_that_shares_the_temporary_folder(self):
        """It uses the existing files, and nothing that the campaign reads is overwritten or removed."""
        noted = self.folder / "noted"
        self.script("ssh", FAR.replace("NOTED", shlex.quote(str(noted))))
        for words in (("--sshlogin", "1/ssh -p 2222 far"), ("--sshlogin", "1/ssh -p 2222 far", "--sshlogin", "1/:")):
            self.again()
            here, campaign = self.done(hosts=Hosts(words))
            self.assertEqual((here, campaign.folder.cluster.read_text()), (0, TWO_NODES))
            self.assertFalse((campaign.folder.path / "sent").exists())
        self.assertEqual([it for it in noted.read_text().splitlines() if not it.startswith(SSH_OPTIONS)], [])

    def test_machines_that_fail_leave_their_jobs_to_another_one(self):
        """A job goes to a random machine, so that a job tried once is lost in most rounds."""
        self.script("ssh", "#!/bin/sh\nexit 1\n")
        failing = [word for port in (1, 2, 3) for word in ("--sshlogin", f"1/ssh -p {port} far")]
        for _ in range(2):
            self.again()
            here, _campaign = self.done(hosts=Hosts((*failing, "--sshlogin", "1/:")))
            self.assertEqual(here, 0)
