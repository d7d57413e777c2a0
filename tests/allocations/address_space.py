"""The program with whole sets of dictionaries in an address space of too little, of more, and of enough."""
import os
import resource
from dataclasses import replace
from pathlib import Path
from typing import Callable, Optional, Sequence

from common.cases import Case, from_folder
from common.documents import faults, line_of
from common.program import Ended, Word, run
from common.report import Report
from common.subject import Subject, new_folder, on_all

SERVER = Path("/usr/share/freeradius")
MOST = 1 << 28
STEP = 1 << 12
LIMITS = 16
PAST_ENOUGH = 2
# How the loader ends where there is no room for a program.
NOT_LOADED = 127


def run_within(command: Sequence[Word], case: Case, octets: int) -> Ended:
    """A run in an address space of so many octets."""

    def limit() -> None:
        resource.setrlimit(resource.RLIMIT_AS, (octets, octets))

    with new_folder() as folder:
        case.place(folder)
        return run(command, folder, case.stdin, before=limit)


def least(is_enough: Callable[[int], bool], floor: int) -> int:
    """The least limit above a floor that is enough, to a page: what a small run takes beyond its start may be less than
    a sixteenth of that."""
    low, high = floor, MOST
    while high - low > STEP:
        middle = (low + high) // 2
        low, high = (low, middle) if is_enough(middle) else (middle, high)
    return high


def how_it_ended(ended: Ended, case: Case, fault: bytes) -> Optional[str]:
    """Whether a run was refused, has the exact output, or is none of the program; else nothing."""
    if (ended.status, ended.output, ended.errors) == (4, b"", fault):
        return "refused"
    if ended.status == NOT_LOADED and not ended.output and not ended.errors.startswith(b"radpolicy: "):
        return "not loaded"
    return "done" if (ended.status, ended.output, ended.errors) == (0, case.output, b"") else None


def check_case(subject: Subject, report: Report, case: Case) -> None:
    """Limits from the least in which the program begins without words to what is enough for the case."""
    fault = line_of(faults(subject.root)["E09"])
    command = [subject.program, *case.words]
    begins = least(lambda octets: run_within([subject.program], case, octets).status in (2, 4), 0)
    enough = least(lambda octets: how_it_ended(run_within(command, case, octets), case, fault) == "done", begins)
    limits = [begins + (enough - begins) * at // LIMITS for at in range(LIMITS + PAST_ENOUGH)]
    ends = on_all(lambda octets: (octets, run_within(command, case, octets)), limits)
    ways = [how_it_ended(ended, case, fault) for _, ended in ends]
    wrong = [f"{octets} octets: {ended}" for (octets, ended), way in zip(ends, ways) if way is None]
    wrong += [] if "refused" in ways and ways[-1] == "done" else [f"the runs ended so: {ways}"]
    name = f"{case.name} in {begins >> 10} to {enough >> 10} KiB: {ways.count('refused')} of {len(ways)} runs refused"
    report.check(name, wrong)


def server_case(subject: Subject, example: Case) -> Case:
    """The example's request and policy by the dictionaries of a FreeRADIUS server, with what is printed then."""
    paths = sorted(SERVER.glob("dictionary*"))
    names = [os.fsencode(path.name) for path in paths]
    words = tuple(word for word in example.words if not word.startswith(b"dictionary"))
    files = {**example.files, **{path.name: path.read_bytes() for path in paths}}
    case = replace(example, name="reply by a server's dictionaries", words=(*words, *names), files=files)
    return replace(case, output=run_within([subject.program, *case.words], case, MOST).output)


def check(subject: Subject, report: Report) -> None:
    example = from_folder(subject.root / "examples/reply")
    check_case(subject, report, example)
    if SERVER.is_dir():
        check_case(subject, report, server_case(subject, example))
    else:
        report.say(f"no dictionaries of a server in {SERVER}, so none were read")
