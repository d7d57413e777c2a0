"""Runs the rows of crafted input. Each ends as it should within 2 s of a processor and an address space of 512 MiB."""
import resource
from typing import List

from common.documents import faults, line_of
from common.program import Ended, run
from common.report import Report
from common.subject import Subject, new_folder
from hostile.sizes import Row, rows

SECONDS = 2.0
# A busy machine slows single runs down, so one that took too long is made again.
TRIES = 3
OCTETS = 512 << 20


def limit() -> None:
    """Want of memory past the limit, which is then a wrong end."""
    resource.setrlimit(resource.RLIMIT_AS, (OCTETS, OCTETS))


def end_of(subject: Subject, row: Row) -> Ended:
    """How a row's run ends."""
    with new_folder() as folder:
        for name, octets in row.files.items():
            (folder / name).write_bytes(octets)
        for _ in range(TRIES):
            ended = run([subject.program, *row.words.split()], folder, before=limit)
            if ended.seconds <= SECONDS:
                break
    return ended


def wrong(subject: Subject, row: Row) -> List[str]:
    """What is wrong of a row's run."""
    ended = end_of(subject, row)
    found = []
    if row.fault:
        number, _, place = row.fault.partition(" ")
        fault = faults(subject.root)[number]
        if (ended.status, ended.output, ended.errors) != (fault.status, b"", line_of(fault, place.encode())):
            found.append(f"wanted {row.fault}, got {ended.status} {ended.errors!r} {ended.output[:80]!r}")
    elif ended.status or ended.errors or not ended.output.endswith(row.end):
        found.append(f"wanted {row.end[-80:]!r}, got {ended.status} {ended.errors!r} {ended.output[-80:]!r}")
    if ended.seconds > SECONDS or ended.timed_out:
        found.append(f"{ended.seconds:.1f} s")
    return found


def check(subject: Subject, report: Report) -> None:
    for row in rows():
        if row.off:
            report.say(f"{row.name}: not run, since {row.off}")
        else:
            report.check(row.name, wrong(subject, row))


def check_off(subject: Subject, report: Report) -> None:
    """The rows that are off alone, to see which of them can be switched on."""
    for row in rows():
        if row.off:
            report.check(row.name, wrong(subject, row))
