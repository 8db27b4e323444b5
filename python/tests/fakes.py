"""Programs that stand in for `fr_world` and go wrong in one way each."""
import os
import sys
from pathlib import Path

GREETING = "print('frworld 1', flush=True)\n"
BEGINNING = "import os, signal, subprocess, sys, time\n"

NEVER_ANSWERS = GREETING + "time.sleep(60)\n"
NEVER_GREETS = "time.sleep(60)\n"
NEVER_ENDS = """signal.signal(signal.SIGTERM, signal.SIG_IGN)
print('frworld 1', flush=True)
while True:
    time.sleep(60)
"""
DIES_MIDWAY = GREETING + """sys.stdin.readline()
sys.stderr.write('refused Read\\n')
sys.exit(1)
"""
IS_KILLED = GREETING + """sys.stdin.readline()
os.kill(os.getpid(), signal.SIGKILL)
"""
ANSWERS_HALF_A_LINE = GREETING + """sys.stdin.readline()
os.write(1, b'open 0 0')
"""
HANGS_IN_A_LINE = ANSWERS_HALF_A_LINE + "time.sleep(60)\n"
HANGS_IN_A_BLOCK = GREETING + """sys.stdin.readline()
os.write(1, b'lines 3\\na\\nb\\n')
time.sleep(60)
"""
GOES_ON_WITHOUT_A_LINE_FEED = GREETING + """sys.stdin.readline()
while True:
    os.write(1, b'x' * 65536)
"""
COUNTS_WRONG = GREETING + """sys.stdin.readline()
os.write(1, b'lines many\\n')
time.sleep(60)
"""
FLOODS_STANDARD_ERROR = GREETING + """for line in sys.stdin:
    os.write(2, b'e' * 300_000)
    print('over', flush=True)
"""
LEAVES_A_CHILD_THAT_HOLDS_THE_PIPES = GREETING + """subprocess.Popen(['sleep', '60'])
sys.stdin.readline()
sys.stderr.write('the last words\\n')
os._exit(3)
"""
SLOW = GREETING + """for line in sys.stdin:
    time.sleep(0.05)
    print('over', flush=True)
"""
ECHO = GREETING + """for line in sys.stdin:
    print(line, end='', flush=True)
"""


def fake(folder: Path, text: str) -> Path:
    """Writes a Python program and returns its file."""
    file = folder / "fr_world"
    file.write_text(f"#!{sys.executable} -IS\n{BEGINNING}{text}")
    os.chmod(file, 0o755)
    return file
