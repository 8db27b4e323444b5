"""The words of the command `design`. Its work is imported where it is done, since all other commands would wait."""
import argparse
import re
from textwrap import fill

from musmyrtle.breaking import breaking_off
from musmyrtle.ending import status_of
from musmyrtle.lint.command import Parser, add_forms, allowed_name, shown_examples
from musmyrtle.show.options import WIDTH

COMMAND = "musmyrtle"
USUAL_SECONDS, MOST_SECONDS = 60, 86_400
PURPOSE = ("Makes a cluster file of a list of messages: slots, cycles and latest minislots by which each one meets\n"
           "its deadline. `fr_bench check`, `lint --strict` and `fr_view latency` judge the result of the search.")
EXAMPLES = ("design examples/networks/sae-class-c.toml", "design examples/networks/car.toml --json")
STATUSES = ("status: 0 if each deadline is met, 1 if the network file is refused, with all reasons, 2 if the words are "
            "no command, a program can't be run or fails, or the output can't be written, 3 if a deadline isn't met, "
            "with the best schedule and its bottleneck and no cluster file, 130, 143 or 129 if SIGINT, SIGTERM or "
            "SIGHUP broke it off")


def arguments() -> argparse.ArgumentParser:
    """Returns the parser of the words."""
    parser = Parser(prog=f"{COMMAND} design", description=PURPOSE, allow_abbrev=False,
                    epilog=f"{shown_examples(EXAMPLES)}\n{fill(STATUSES, WIDTH)}",
                    formatter_class=argparse.RawDescriptionHelpFormatter)
    add = parser.add_argument
    add("network", metavar="NETWORK", help="a network file: nodes, and messages with periods and deadlines")
    add("-o", "--output", metavar="FILE", help="the cluster file, which is written only if each deadline is met; "
        "without it the report alone is printed")
    add("--keep", metavar="CLUSTER", help="add the messages that this cluster file doesn't have, and leave each of its "
        "slots as it is")
    add("--reserve", metavar="SLOTS[,MINISLOTS]", type=reserve_of, default=(0, 0),
        help="keep so many static slots, and so many minislots of each cycle and channel, free for each node")
    add("--seconds", metavar="N", type=seconds_of, default=USUAL_SECONDS,
        help=f"end the search after N seconds, 1 to {MOST_SECONDS}, usually {USUAL_SECONDS}")
    add("--seed", metavar="N", type=number_of, default=1,
        help="the seed of the search, usually 1; the same words and seed give the same file")
    add("--allow", metavar="NAME", action="append", default=[], type=allowed_name,
        help="accept a warning of `lint`; it may be given several times")
    add_forms(parser)
    return parser


def number_of(word: str) -> int:
    """Returns a seed."""
    if not re.fullmatch(r"[0-9]{1,9}", word):
        raise argparse.ArgumentTypeError(f"{word!r} is no number below 1000000000")
    return int(word)


def seconds_of(word: str) -> int:
    """Returns a number of seconds."""
    if not re.fullmatch(r"[1-9][0-9]{0,4}", word) or int(word) > MOST_SECONDS:
        raise argparse.ArgumentTypeError(f"{word!r} is no number from 1 to {MOST_SECONDS}")
    return int(word)


def reserve_of(word: str) -> tuple[int, int]:
    """Returns the static slots and minislots that each node keeps free."""
    found = re.fullmatch(r"([0-9]{1,3})(?:,([0-9]{1,4}))?", word)
    if not found:
        raise argparse.ArgumentTypeError(f"{word!r} is no number of slots, and no two numbers as 1,10 of slots and "
                                         "minislots")
    return int(found[1]), int(found[2] or 0)


def main(words: list[str]) -> int:
    """Does the command, and returns its status."""
    def work() -> int:
        from musmyrtle.design.command import done
        with breaking_off():
            return done(arguments().parse_args(words))
    return status_of(COMMAND, work)
