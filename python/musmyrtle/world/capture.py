"""A capture of all that was on the bus of a world, for Wireshark.

The program `fr_world` writes it. A second world, which keeps no history, is asked the requests of the session again.
"""
import subprocess
from pathlib import Path
from tempfile import TemporaryDirectory

from musmyrtle.streams import RESTORED
from musmyrtle.world.refusals import SessionOver
from musmyrtle.world.session import VERSION, Change, shown
from musmyrtle.world.world_program import not_started

NUMBERED = ("commit", "withdraw")
"""Requests whose reply has the number of an entry, which also counts the calls that aren't asked again."""
MOST_TOLD = 300


def captured(program: str, cluster: bytes, cycles: int, changes: list[Change]) -> bytes:
    """Returns the capture of the world of a cluster file in which these changes were made.

    PROGRAM is the `fr_world` to run, and CYCLES are those of the world, 1 to 1024. Raises `NotStarted` where the
    program can't be started, `OSError` where there is no room for temporary files, and `SessionOver` where the program
    fails or a reply isn't that of the session.
    """
    with TemporaryDirectory() as name:
        folder = Path(name)
        file, capture = folder / "cluster.toml", folder / "bus.pcap"
        file.write_bytes(cluster)
        command = [program, str(file), "--endless", "--cycles", str(cycles), f"--capture={capture}"]
        requests = "".join(f"{change.request}\n" for change in changes)
        try:
            ran = subprocess.run(command, input=requests.encode(), capture_output=True, restore_signals=RESTORED)
        except OSError as error:
            raise not_started(program, error) from None
        if ran.returncode:
            told = ran.stderr.decode(errors="replace").strip()[-MOST_TOLD:]
            raise SessionOver(f"{program} --capture ended with status {ran.returncode}: {told}")
        check(changes, ran.stdout.decode(errors="replace"))
        return capture.read_bytes()


def check(changes: list[Change], output: str) -> None:
    """Raises `SessionOver` where a reply of the second world isn't that of the session."""
    version, *replies = output.split("\n")[:-1] or [""]
    if version != VERSION or len(replies) != len(changes):
        raise SessionOver(f"the session can't be replayed: {len(replies)} replies to {len(changes)} requests")
    for change, reply in zip(changes, replies):
        if compared(change.request, reply) != compared(change.request, change.reply):
            raise SessionOver(f"the session can't be replayed: the reply to `{shown(change.request)}` was "
                              f"`{shown(change.reply)}`, and is `{shown(reply)}` now")


def compared(request: str, reply: str) -> str:
    """Returns the part of a reply that must be the same."""
    return reply.split(" ")[0] if request.split(" ")[0] in NUMBERED else reply
