"""The cases of `radpolicy-walk`: each file of `cases/` has a request, a policy, commands, and what is shown after each.
They are written as all worked cases are (`common/worked.py`)."""
from pathlib import Path

from common.report import Report
from common.subject import Subject
from common.worked import Cases, check_cases

CASES = Cases("walk", Path(__file__).parent / "cases")


def check(subject: Subject, report: Report) -> None:
    check_cases(CASES, subject, report)
