"""What each program of `drive` prints of the runs here, to the octet, but for `lookups`, whose run the gate makes, and
`rows`, whose questions are those of tests/rows; and words that name none. As the gate runs a program, so is this one
run as both compilers make it."""
from pathlib import Path
from typing import List

from common.program import Ended, run
from common.report import Report
from common.subject import Subject

RUNS = Path(__file__).parent
REFUSED = Ended(1, b"", b"Error: Kind(InvalidInput)\n", 0.0, 0)
# Words of which the first names no program, and words that a program takes none of.
WRONG: List[List[str]] = [
    *([], [""], ["store"], ["Stores", "slots"], ["stores"], ["stores", "pairs"], ["stores", "slots", "list"]),
    *(["walks", "slots"], ["lookups", ""], ["runs", *["x"] * 7], ["packets", "2", "x", "", ""], ["rows", "x"]),
]


def builds(subject: Subject) -> List[Path]:
    """The program, and what Rattle's own compiler makes of it where the gate has left that beside it."""
    program = subject.driver("drive")
    other = program.with_name("drive.by-rattle")
    is_made = other.is_file() and other.stat().st_mtime >= program.stat().st_mtime
    return [program, other] if is_made else [program]


def faults_of(ended: Ended, wanted: Ended) -> List[str]:
    """A run that ended otherwise than it has to."""
    is_wanted = (ended.status, ended.output, ended.errors) == (wanted.status, wanted.output, wanted.errors)
    return [] if is_wanted else [repr(ended)]


def check_run(report: Report, program: Path, folder: Path) -> None:
    """The run of a folder: its words, one on a line, in which `\\n` is a line feed, its input, what it has to print,
    and the files that it reads."""
    words = [word.replace("\\n", "\n") for word in (folder / "words").read_text().splitlines()]
    given = folder / "input"
    ended = run([program, *words], folder, given.read_bytes() if given.is_file() else b"")
    wanted = Ended(0, (folder / "output").read_bytes(), b"", 0.0, 0)
    report.check(f"{program.name}: {folder.name}", faults_of(ended, wanted))


def check_build(report: Report, program: Path) -> None:
    for words in sorted(RUNS.glob("*/words")):
        check_run(report, program, words.parent)
    faults = [fault for words in WRONG for fault in faults_of(run([program, *words], RUNS), REFUSED)]
    report.check(f"{program.name}: words that are wrong", faults)


def check(subject: Subject, report: Report) -> None:
    """Each build."""
    programs = builds(subject)
    for program in programs:
        check_build(report, program)
    if len(programs) == 1:
        report.say("drives: as LLVM makes them alone, since the gate did not make the other")
