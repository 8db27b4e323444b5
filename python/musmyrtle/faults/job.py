"""The files that a machine gets for its runs, and the check of their answers.

A machine gets the program, the cluster file, the scenario, all lines of the faults in one file, a list of the runs, and
a script. A job is some of these runs, one after another. It compares the digest of all that it was given with the one
that it is called with, and before each run the digest of the run's scenario. An answer carries both digests, the number
of fault lines, and the digests of the run's output. An answer in which one of them is wrong isn't taken.
"""
import hashlib
import re
from collections.abc import Iterable, Iterator
from dataclasses import dataclass
from pathlib import Path

from musmyrtle.faults.answers import NO_REFUSALS, REFUSED, Answer
from musmyrtle.faults.listing import SingleFault
from musmyrtle.faults.runs import CLUSTER_FILE, SCENARIO_FILE, Folder, outcome_words
from musmyrtle.faults.whole_files import unusable, write_file
from musmyrtle.missed import MISSED

PROGRAM_FILE = "program"
SENT = (PROGRAM_FILE, CLUSTER_FILE, SCENARIO_FILE, "lines", "jobs", "script")
"""The files that a machine gets."""
RUNS_IN_A_JOB = 16
"""A login takes longer than a run, so a job has several."""
SCRIPT = """#!/bin/sh
# Does the runs of the lines $1 to $2 of `jobs`, and prints the answer of each that has one. $3 is the digest of all
# that was sent. A line of `jobs` has the number of a run, the first and the last of its lines in `lines`, and the
# digest of its scenario. The status is 1 where a run has no answer, so that another machine does the job.

fail() {
    echo "musmyrtle faults: ${PARALLEL_SSHHOST:-this machine}: $*" >&2
    failed=1
}

# One run, by the words of its line.
one() {
    { sed '$d' SCENARIO && sed -n "$2,$3p" lines && echo end; } >"$run" || fail "a scenario can't be written"
    made=$(sha256sum "$run") && made=${made%% *}
    added=$(($(wc -l <"$run") - before))
    [ "$made" = "$4" ] && [ "$added" = "$(($3 - $2 + 1))" ] || { fail "a scenario isn't whole"; return; }
    ./PROGRAM WORDS >"$run.out" 2>"$run.told" </dev/null
    status=$?
    if [ "$status" != 0 ]; then
        last=$(tail -n 1 "$run.told")
        case "$status $last" in
        NO_REFUSALS) fail "no answer: $last"; return ;;
        REFUSED\\ refused\\ [A-Z]* | MISSED\\ line\\ [0-9]*) ;;
        *) fail "no answer: status $status $last"; return ;;
        esac
    fi
    front="run $1 $status $given $made $added"
    set -- "$1" $(sha256sum "$run.out" "$run.told")
    echo "$front $2 $4" && sed 's/^/out /' "$run.out" && sed 's/^/told /' "$run.told" && echo "done $1" ||
        fail "an answer can't be told"
}

all() {
    given=$(sha256sum FILES | sha256sum) && given=${given%% *}
    [ "$given" = "$3" ] || { fail "what was sent isn't here whole"; exit 1; }
    before=$(($(wc -l <SCENARIO)))
    sed -n "$1,$2p" jobs | {
        while read -r number first last sum; do
            run=run-$$-$number
            one "$number" "$first" "$last" "$sum"
            rm -f -- "$run" "$run.out" "$run.told"
        done
        [ -z "$failed" ]
    }
}

LC_ALL=C
export LC_ALL
failed=
all "$@"
"""
SUM = r"([0-9a-f]{64})"
FRONT = re.compile(rf"run (\d{{1,9}}) (\d{{1,3}}) {SUM} {SUM} (\d{{1,9}}) {SUM} {SUM}\n".encode())


def digest_of(data: bytes) -> str:
    return hashlib.sha256(data).hexdigest()


def script(cycles: int) -> str:
    """Returns the script of a job for runs of so many cycles."""
    words = {
        "WORDS": " ".join(outcome_words(CLUSTER_FILE, '"$run"', cycles)),
        "NO_REFUSALS": " | ".join(f"{REFUSED}\\ refused\\ {name}*" for name in NO_REFUSALS),
        "FILES": " ".join(SENT), "PROGRAM": PROGRAM_FILE, "SCENARIO": SCENARIO_FILE, "REFUSED": str(REFUSED),
        "MISSED": str(MISSED),
    }
    return re.sub(rf"\b({'|'.join(words)})\b", lambda found: words[found[1]], SCRIPT)


@dataclass(frozen=True)
class Sent:
    """The files sent to a machine: their folder and digest, the arguments of the jobs, and for each run the number of
    its lines and the digest of its scenario."""

    folder: Path
    digest: str
    arguments: list[str]
    runs: list[tuple[int, str]]

    @property
    def command(self) -> str:
        """Returns the command of a job.

        `parallel` adds the first and the last line of `jobs` after its second word. The digest comes last, so that a
        truncated command has none.
        """
        return f"sh script {{1}} {{2}} {self.digest}"


def prepare(folder: Folder, program: str, faults: list[SingleFault]) -> Sent:
    """Writes the files to be sent, in a folder in that of the campaign. Raises `Unusable`."""
    sent, numbers, lines, runs = folder.path / "sent", list[str](), list[str](), list[tuple[int, str]]()
    for number, fault in enumerate(faults):
        digest = digest_of(folder.with_lines(fault.lines).encode())
        numbers.append(f"{number} {len(lines) + 1} {len(lines) + len(fault.lines)} {digest}")
        lines += fault.lines
        runs.append((len(fault.lines), digest))
    try:
        sent.mkdir()
        read = {name: (folder.path / name).read_bytes() for name in (CLUSTER_FILE, SCENARIO_FILE)}
        files = {PROGRAM_FILE: Path(program).read_bytes(), **read, "script": script(folder.cycles).encode(),
                 **{name: "".join(f"{it}\n" for it in texts).encode()
                    for name, texts in (("lines", lines), ("jobs", numbers))}}
    except OSError as error:
        raise unusable(error.filename, error) from None
    for name, data in files.items():
        write_file(sent / name, data)
    (sent / PROGRAM_FILE).chmod(0o755)
    # In the form of `sha256sum`.
    listed = "".join(f"{digest_of(files[name])}  {name}\n" for name in SENT)
    firsts = range(1, len(faults) + 1, RUNS_IN_A_JOB)
    arguments = [f"{first} {min(first + RUNS_IN_A_JOB - 1, len(faults))}" for first in firsts]
    return Sent(sent, digest_of(listed.encode()), arguments, runs)


def read_answers(lines: Iterable[bytes], sent: Sent) -> Iterator[tuple[int, Answer]]:
    """Yields the number of each run that is reported whole, with its answer, and each run once."""
    front: re.Match[bytes] | None = None
    output, told, seen = list[bytes](), list[bytes](), set[int]()
    for line in lines:
        found = FRONT.fullmatch(line)
        if found:
            front, output, told = found, [], []
        elif line.startswith(b"out "):
            output.append(line[4:])
        elif line.startswith(b"told "):
            told.append(line[5:])
        elif front and line == b"done %s\n" % front[1]:
            number, printed = int(front[1]), (b"".join(output), b"".join(told))
            if number not in seen and is_right(front, printed, sent):
                seen.add(number)
                yield number, Answer(int(front[2]), *(it.decode(errors="replace") for it in printed))
            front = None


def is_right(front: re.Match[bytes], printed: tuple[bytes, bytes], sent: Sent) -> bool:
    """Returns whether an answer is whole and belongs to the requested run."""
    number, _, given, made, added, *sums = (it.decode() for it in front.groups())
    if int(number) >= len(sent.runs):
        return False
    return given == sent.digest and (int(added), made) == sent.runs[int(number)] \
        and sums == [digest_of(it) for it in printed]
