"""The data of the page of an endless run, whose outputs are read as they come, and of which no history is kept.

`fr_view` prints the windows, the record, the commits with the reasons, the answers, what each node received, and the
reports.
"""
from musmyrtle.findings import counted
from musmyrtle.lint.command import USAGE
from musmyrtle.output import Stop
from musmyrtle.show.causes import Causes
from musmyrtle.show.commit_log import commits_in
from musmyrtle.show.engines import ENDLESS, Inputs
from musmyrtle.show.facts import Facts, transmission_of
from musmyrtle.show.idle_cycle import idle_cycle_of
from musmyrtle.show.page_calls import Answers, add_commits
from musmyrtle.show.page_columns import Columns
from musmyrtle.show.page_data import header_of, outcomes_of, received_of
from musmyrtle.show.page_record import Record
from musmyrtle.show.page_windows import add_windows

MOST_WINDOWS, MOST_TIME = 4_000_000, 2**32 - 1
"""The most static slots and minislots of a run with a page, and its most macroticks."""
NO_SEEN = ("This run is too long to show what each node received in each window. The overview has the errors that "
           "nodes counted in each cycle.")
NOT_JUDGED = "The expectations of the scenario aren't judged in an endless run."


def packed_endless(inputs: Inputs) -> bytes:
    """Returns the packed data of an endless run. Raises `Stop` where the run is refused, or too long for a page."""
    check_windows(inputs)
    inputs.is_endless = True
    facts, columns = Facts(inputs), Columns()
    check_time(facts)
    facts.commits = commits_in(inputs.lines_of_run("commits", ENDLESS))
    facts.causes = causes_of(facts)
    record = record_of(facts)
    add_windows(facts.windows, columns)
    record.fill(columns)
    add_commits(facts, columns)
    answers = Answers(facts)
    for line in inputs.lines_of_run("origins", ENDLESS):
        answers.add(line)
    answers.fill(columns)
    received = received_of(facts, inputs.lines_of_run("received", ENDLESS))
    received.fill(columns)
    missing = [] if received.is_shown else [NO_SEEN]
    missing += [NOT_JUDGED] if facts.scenario.expectations else []
    reports = outcomes_of(list(inputs.lines_of_run("outcome", ENDLESS)))
    idle = dict.fromkeys(it.number for it in facts.scenario.faults if it.number not in facts.causes.lines)
    return columns.packed(header_of(facts, reports, list(idle), tuple(missing)))


def check_windows(inputs: Inputs) -> None:
    """Raises `Stop` where the cluster file is refused, or where a page has no room for the windows of the run.

    They are counted as if nothing were sent, so that a run that is too long isn't read first.
    """
    most = MOST_WINDOWS // idle_cycle_of(inputs).windows
    if inputs.cycles > most:
        raise Stop(USAGE, f"a page has room for {counted(most, 'cycle')} of this cluster, which are at most "
                          f"{MOST_WINDOWS:,} static slots and minislots")


def check_time(facts: Facts) -> None:
    """Raises `Stop` where a page has no room for the macroticks of the run."""
    end = facts.windows.begin_of_cycle(facts.inputs.cycles)
    if end > MOST_TIME:
        raise Stop(USAGE, f"a page has room for fewer than 2^32 macroticks, and this run takes {end:,}")


def record_of(facts: Facts) -> Record:
    """Returns the record."""
    record = Record(facts.causes)
    for line in facts.inputs.lines_of_run("record", ENDLESS):
        record.add(transmission_of(line))
    return record


def causes_of(facts: Facts) -> Causes:
    """Returns the facts for which commits weren't sent or weren't received, with the turns of unsent commits alone."""
    wanted = {(it.node, it.buffer) for it in facts.commits if not it.sent}
    return Causes(facts.inputs.lines_of_run("reasons", ENDLESS), wanted)
