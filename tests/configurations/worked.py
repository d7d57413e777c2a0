"""The items that `drive configuration` reads in files of a server's configuration, and why files are refused: each file
of `cases/` has such files. They are written as all worked cases are (`common/worked.py`); a text of an item is shown by
its quotes and its octets as Python writes them: `Bare 'a'`."""
import re
from pathlib import Path
from typing import Dict

from common.program import Ended
from common.report import Report
from common.subject import Subject
from common.worked import Cases, as_printed, check_cases

TEXT = re.compile(rb"Text \{ quote: (\w+), octets: \[([\d, ]*)\] \}")


def in_short(text: "re.Match[bytes]") -> bytes:
    octets = bytes(map(int, filter(None, text[2].split(b", "))))
    return text[1] + b" " + repr(octets)[1:].encode()


def named(ended: Ended, files: Dict[str, bytes]) -> Dict[str, bytes]:
    found = as_printed(ended, files)
    return {**found, "output": TEXT.sub(in_short, found["output"])}


CASES = Cases("configuration", Path(__file__).parent / "cases", named)


def check(subject: Subject, report: Report) -> None:
    check_cases(CASES, subject, report)
