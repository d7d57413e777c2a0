"""The program with each allocation refused in turn: it ends with want of memory and nothing written, or as ever."""
import itertools
from pathlib import Path
from typing import List, NamedTuple, Optional

from common.cases import Case, cases_below
from common.documents import faults, line_of
from common.program import Ended
from common.report import Report
from common.subject import Subject, new_folder, on_all
from allocations.refusing import ALL_LATER, Refusals

WORKERS = 2


class Sweep(NamedTuple):
    """What the runs of one case came to."""

    refused: int
    exact: int
    faults: List[str]


def judged(ended: Ended, wanted: bytes, fault: bytes) -> Optional[bool]:
    """Whether a run was refused, or has the exact output; neither is nothing."""
    if (ended.status, ended.output, ended.errors) == (4, b"", fault):
        return True
    return False if (ended.status, ended.output, ended.errors) == (0, wanted, b"") else None


def sweep(subject: Subject, case: Case, fault: bytes, first: int, all_later: bool) -> Sweep:
    """Refuses every second allocation from the first on, each alone or with all later ones, until none is refused."""
    counts, wrong = {True: 0, False: 0}, []
    with new_folder() as folder:
        case.place(folder)
        refusals = Refusals(subject, folder)
        for allocation in itertools.count(first, WORKERS):
            last = ALL_LATER if all_later else allocation
            run = refusals.run([subject.program, *case.words], folder, allocation, last, case.stdin)
            is_refused = judged(run.ended, case.output, fault)
            if run.refused == 0:
                wrong += [] if is_refused is False else [f"nothing refused: {run.ended}"]
                return Sweep(counts[True], counts[False], wrong)
            if is_refused is None:
                wrong.append(f"allocation {allocation} refused: {run.ended}")
            else:
                counts[is_refused] += 1


def check_case(subject: Subject, report: Report, case: Case, fault: bytes) -> int:
    """Sweeps over a case, and gives the number of refusals."""
    works = [(first, all_later) for all_later in (False, True) for first in range(1, WORKERS + 1)]
    sweeps = on_all(lambda work: sweep(subject, case, fault, *work), works)
    wrong = [fault for it in sweeps for fault in it.faults]
    refused, exact = sum(it.refused for it in sweeps), sum(it.exact for it in sweeps)
    if not refused:
        wrong.append("no run was refused")
    report.check(f"allocations of {case.name}: {refused} runs refused, {exact} done without that allocation", wrong)
    return refused + exact


def check(subject: Subject, report: Report) -> None:
    """Each worked case, its command line included."""
    fault = line_of(faults(subject.root)["E09"])
    cases = cases_below(Path(__file__).parent.parent / "cases")
    runs = sum(check_case(subject, report, case, fault) for case in cases)
    report.say(f"{runs} allocations of the program were refused")
