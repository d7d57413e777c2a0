"""What `drive rows` answers to the questions of each folder, line by line: to a line of `questions` the line of `wanted`
with its number. The head of crates/drive/src/rows.rt says what the questions are."""
from itertools import zip_longest
from pathlib import Path
from typing import List

from common.program import run
from common.report import Report
from common.subject import Subject, on_all

ROWS = Path(__file__).parent
# Lines that are no questions, or ask of what is not there.
WRONG = [
    *(b"nosuch", b"Quote a", b"* a b", b"id", b"id 1.2.3.4", b"id 4294967296", b"id 256.1", b"profile narrow"),
    *(b"match a", b"octets 1 0", b"fits 1 a", b"compare User-Name a", b"put ", b"form Nosuch a", b"over x\nrun"),
]


def lines_of(octets: bytes) -> List[str]:
    return octets.decode("ascii", "backslashreplace").split("\n")


def wrong_in(subject: Subject, folder: Path) -> List[str]:
    """The lines of a folder that are answered otherwise than they have to be."""
    questions = (folder / "questions").read_bytes()
    ended = run(subject.drive("rows"), folder, questions)
    found, wanted = lines_of(ended.output), lines_of((folder / "wanted").read_bytes())
    wrong = [] if (ended.status, ended.errors) == (0, b"") else [f"status {ended.status}, {ended.errors!r}"]
    return wrong + [
        f"line {number}: {question}: {answer!r}, not {text!r}"
        for number, (question, answer, text) in enumerate(zip_longest(lines_of(questions), found, wanted), 1)
        if answer != text
    ]


def faults_of_wrong(subject: Subject, line: bytes) -> List[str]:
    """A line that is no question and is not refused."""
    ended = run(subject.drive("rows"), ROWS, line + b"\n")
    refused = (ended.status, ended.errors) == (1, b"Error: Kind(InvalidInput)\n")
    return [] if refused else [f"{line!r}: {ended}"]


def check(subject: Subject, report: Report) -> None:
    """Each folder, and that there are some."""
    folders = sorted(path.parent for path in ROWS.glob("*/questions"))
    for folder, wrong in zip(folders, on_all(lambda folder: wrong_in(subject, folder), folders)):
        report.check(f"rows: {folder.name}", wrong)
    wrong = [fault for line in WRONG for fault in faults_of_wrong(subject, line)]
    report.check("rows: lines that are no questions", wrong)
    report.check("rows: folders", [] if folders else ["none"])
