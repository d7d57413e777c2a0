"""Many policies at random beside a server, and how many of them reach each clause of `server_run`."""
import time
from collections import Counter
from typing import Counter as Counts
from typing import List, Mapping

from common.allowed import end_after
from common.report import Report
from common.subject import Subject
from servers.beside import POLICIES, Batch, batches, compare, computed, is_served, lines_of
from servers.finding import programs
from servers.reached import marked, reached
from servers.served import Dictionaries, dictionaries

# Other ones than those that are drawn each time.
MANY = range(len(POLICIES), len(POLICIES) + 20_000)
# Each clause is to be reached by so many of them.
LEAST = 100


def reached_in(batch: Batch, known: Dictionaries, command: List[str], names: List[str]) -> Counts[str]:
    """How many of these policies reach each clause."""
    _, written = computed(command, lines_of(batch, known), known)
    return Counter(name for met in reached(names, written) for name in met)


def tell(report: Report, counts: Mapping[str, int], names: List[str], policies: int) -> None:
    for name in names:
        report.say(f"{counts.get(name, 0):7} of {policies} reach {name}")
    if policies == len(MANY):
        seldom = [f"{name} is reached by {counts.get(name, 0)}" for name in names if counts.get(name, 0) < LEAST]
        report.check(f"each clause is reached by {LEAST} of {len(MANY)} policies", seldom)


def check(subject: Subject, report: Report) -> None:
    """It ends before all are compared where TRIAL_SECONDS says so."""
    if not is_served(report):
        return
    end, known, policies = end_after(float("inf")), dictionaries(), 0
    names, variant = marked(subject)
    counts: Counts[str] = Counter()
    with programs(subject, report, [variant]) as commands:
        for batch in batches(MANY, known):
            compare(subject, report, batch, known)
            if commands:
                counts += reached_in(batch, known, commands[variant.name], names)
            policies += len(batch.cases)
            if time.monotonic() > end:
                break
        if commands:
            tell(report, counts, names, policies)
