"""The cases of `radpolicy-import`: each file in the folders of `cases/` has a small configuration, commands, and what
these write.

    << main
    authorize {
    	reject
    }

    $ radpolicy-import --dict dictionary main
    >> policy
    reject  # main:2
    >> report
    1 of 1 statements kept, 0 module calls are comments

They are written as all worked cases are (`common/worked.py`), but that `policy` is the standard output and `report` the
standard error, and of a file that the program writes its own line is no part."""
from pathlib import Path
from typing import Dict

from common.program import Ended
from common.report import Report
from common.subject import Subject
from common.worked import Cases, check_cases
from outputs.writers import of_import

IMPORT = of_import("-o")


def named(ended: Ended, files: Dict[str, bytes]) -> Dict[str, bytes]:
    written = {name: IMPORT.without_mark(octets) for name, octets in files.items()}
    return {**written, "policy": ended.output, "report": ended.errors}


CASES = Cases("import", Path(__file__).parent / "cases", named, {"status": b"0\n"})


def check(subject: Subject, report: Report) -> None:
    check_cases(CASES, subject, report)
