"""The cases of `radpolicy-replay`: each file of `cases/` has records, policies, commands, and what these print. They
are written as all worked cases are (`common/worked.py`)."""
from pathlib import Path

from common.report import Report
from common.subject import Subject
from common.worked import Cases, check_cases

CASES = Cases("replay", Path(__file__).parent / "cases")


def check(subject: Subject, report: Report) -> None:
    check_cases(CASES, subject, report)
