"""The records that `drive traffic` reads in what servers and tools print: each file of `cases/` has texts, the format
that each is taken for, and its records. They are written as all worked cases are (`common/worked.py`). A text that is
cut off at the end of any line has no more records than the whole. Texts at the limits of a record, and one past
them."""
from pathlib import Path
from typing import List

from common.program import run
from common.report import Report
from common.subject import Subject, on_all
from common.worked import Cases, calls_of, check_cases

CASES = Cases("traffic", Path(__file__).parent / "cases")
MAX_LINES = 4_096
MAX_OCTETS = 1_048_576
MAX_OPEN = 256


def read(subject: Subject, text: bytes) -> List[bytes]:
    """The lines that the program prints of a text."""
    ended = run(subject.drive("traffic"), CASES.folder, text)
    return ended.output.splitlines() if ended.status == 0 else [b"status %d" % ended.status]


def records_in(lines: List[bytes]) -> int:
    return sum(line[:1].isdigit() for line in lines)


def faults_of_cuts(subject: Subject, text: bytes) -> List[str]:
    """Where a text that is cut off at the end of a line has more records than the whole."""
    ends = [end for end, octet in enumerate(text) if octet == 10]
    whole = records_in(read(subject, text))
    found = on_all(lambda end: records_in(read(subject, text[:end])), ends)
    return [
        f"{count} records, not {whole}, of the first {end} octets" for end, count in zip(ends, found) if count > whole
    ]


def check_cuts(subject: Subject, report: Report) -> None:
    texts = [call.given["text"] for path in CASES.paths() for call in calls_of(CASES, path)]
    wrong = [fault for text in texts for fault in faults_of_cuts(subject, text)]
    report.check(f"traffic: {len(texts)} texts cut off at each line", wrong)


def log(open_requests: int) -> bytes:
    """A log in which so many requests wait for their replies when that to the second comes."""
    asked = b"".join(
        b"(%d) Received Access-Request Id 1 from 1.2.3.4:5 to x\n(0)   NAS-Port = 1\n" % number
        for number in range(open_requests)
    )
    return asked + b"(1) Sent Access-Reject Id 1 from x\n(1) Finished request\n"


def check_limits(subject: Subject, report: Report) -> None:
    """Lines and octets of one record, and requests that are open at once."""
    next_one = [b"> b=2"]
    for name, lines, wanted in [
        ("as many lines as a record has", MAX_LINES, [b"1 () - AccessRequest -", *[b"> a=1"] * MAX_LINES]),
        ("a line more", MAX_LINES + 1, [b"1 () - AccessRequest - too long"]),
    ]:
        found = read(subject, b"a=1\n" * lines + b"\nb=2\n")
        last = [b"%d () - AccessRequest -" % (lines + 2), *next_one]
        wrong = [] if found == [b"Records", *wanted, *last] else [f"{found[:3]} .. {found[-3:]}"]
        report.check(f"traffic: {name}", wrong)
    for name, octets, end in [("as many octets", MAX_OCTETS - 1, b"-"), ("an octet more", MAX_OCTETS, b"- too long")]:
        found = read(subject, b"a=1\n\nb=" + b"a" * (octets - 2))
        heads = [line for line in found if line[:1].isdigit()]
        wrong = [] if heads == [b"1 () - AccessRequest -", b"3 () - AccessRequest " + end] else [f"{heads}"]
        report.check(f"traffic: {name}", wrong)
    for name, count, first in [("as many open requests", MAX_OPEN, b"3 (1)"), ("one more", MAX_OPEN + 1, b"1 (0)")]:
        found = [line for line in read(subject, log(count)) if line[:1].isdigit()]
        wrong = [] if len(found) == count and found[0].startswith(first + b" 1.2.3.4 ") else [f"{found[:2]}"]
        report.check(f"traffic: {name}", wrong)


def check(subject: Subject, report: Report) -> None:
    check_cases(CASES, subject, report)
    check_cuts(subject, report)
    check_limits(subject, report)
