"""Help and warnings where no terminal is: each file of `cases/` has policies, and all that is said of each. They are
written as all worked cases are (`common/worked.py`)."""
from pathlib import Path

from common.report import Report
from common.subject import Subject
from common.worked import Cases, check_cases

CASES = Cases("help", Path(__file__).parent / "cases")


def check(subject: Subject, report: Report) -> None:
    check_cases(CASES, subject, report)
