"""Starts programs for fuzz/hostile, and stays small itself.

The system never reports a child's greatest resident size below that of the process that started it. So programs are
started from here. A line on standard input is the JSON object {"words": [..], "given": FILE, "output": FILE, "error":
FILE, "limit": SECONDS}, and the line that comes back {"status": N, "size": KIB, "seconds": S}. A status of null means
that the program didn't end in time.
"""
import json
import os
import signal
import sys
import time


class Late(Exception):
    pass


def ring(*_):
    raise Late


def start(case):
    make = os.O_WRONLY | os.O_CREAT | os.O_TRUNC
    streams = [(os.POSIX_SPAWN_OPEN, 0, case["given"], os.O_RDONLY, 0)]
    outputs = enumerate((case["output"], case["error"]), 1)
    streams += [(os.POSIX_SPAWN_OPEN, number, name, make, 0o600) for number, name in outputs]
    begun = time.monotonic()
    child = os.posix_spawn(case["words"][0], case["words"], os.environ, file_actions=streams)
    signal.alarm(case["limit"])
    try:
        _, ended, used = os.wait4(child, 0)
        status = os.waitstatus_to_exitcode(ended)
    except Late:
        os.kill(child, signal.SIGKILL)
        _, _, used = os.wait4(child, 0)
        status = None
    finally:
        signal.alarm(0)
    return {"status": status, "size": used.ru_maxrss, "seconds": time.monotonic() - begun}


def main():
    signal.signal(signal.SIGALRM, ring)
    for line in sys.stdin:
        print(json.dumps(start(json.loads(line))), flush=True)


if __name__ == "__main__":
    main()
