"""Outputs that fail: the program has its status, no signal ends it, and what was taken is a front of the report."""
import fcntl
import os
import resource
import signal
from contextlib import contextmanager
from dataclasses import replace
from pathlib import Path
from typing import BinaryIO, Callable, Iterator, Optional, Tuple

from common.cases import Case, from_folder
from common.documents import faults, line_of
from common.program import Ended, in_memory, run, written
from common.report import Report
from common.subject import Subject, new_folder, on_all

CASES = Path(__file__).parent.parent / "cases"
PIPE = 4096
# F_SETPIPE_SZ of Linux, which Python names from 3.10 on.
SET_PIPE_SIZE = 1031


def run_case(
    subject: Subject,
    case: Case,
    before: Optional[Callable[[], None]] = None,
    output: Optional[int] = None,
    errors: Optional[int] = None,
) -> Ended:
    """A run of a case with its streams as given."""
    with new_folder() as folder:
        case.place(folder)
        return run([subject.program, *case.words], folder, case.stdin, None, before, output, errors)


@contextmanager
def pipe() -> Iterator[Tuple[BinaryIO, BinaryIO]]:
    """The ends of a pipe, to read and to write. Each may be closed before."""
    reader, writer = os.pipe()
    with open(reader, "rb", buffering=0) as read_end, open(writer, "wb", buffering=0) as write_end:
        yield read_end, write_end


def cut_off(subject: Subject, case: Case, octets: int) -> Tuple[Ended, bytes, bytes]:
    """A run whose files may have so many octets; what it wrote, and what it said to a pipe, which has no such limit."""

    def limit() -> None:
        signal.signal(signal.SIGXFSZ, signal.SIG_IGN)
        resource.setrlimit(resource.RLIMIT_FSIZE, (octets, octets))

    file = in_memory(b"")
    with pipe() as (reader, writer):
        ended = run_case(subject, case, limit, file, writer.fileno())
        writer.close()
        said = reader.read(PIPE)
    taken = written(file)
    os.close(file)
    return ended, taken, said


def check_limits(subject: Subject, report: Report, case: Case, fault: bytes) -> None:
    """A file that takes the first octets of the report, for every number of them."""

    def look(octets: int) -> Optional[str]:
        ended, taken, said = cut_off(subject, case, octets)
        wanted = (3, fault) if octets < len(case.output) else (0, b"")
        is_front = taken == case.output[:octets]
        return None if is_front and (ended.status, said) == wanted else f"after {octets} octets: {ended} {said!r}"

    found = on_all(look, range(len(case.output) + 1))
    report.check(f"a file for {len(found)} numbers of octets of {case.name}", [it for it in found if it])


def check_leaving_reader(subject: Subject, report: Report, fault: bytes) -> None:
    """A pipe whose reader takes some octets and goes, while more of the report is to come than a pipe holds."""
    pairs = b"Class = 0x" + b"61" * 253 + b"\n"
    request = from_folder(CASES / "condition-and-expansion").with_file("policy", b"").with_file("request", pairs * 400)
    whole = run_case(subject, request)
    wrong = [] if whole.status == 0 else [f"{whole}"]
    for octets in (0, 1, 7, 4095, 4096, 4097, 65536, 100000):
        with pipe() as (reader, writer), new_folder() as folder:
            fcntl.fcntl(writer, SET_PIPE_SIZE, PIPE)
            child = os.fork()
            if child == 0:
                writer.close()
                (folder / "taken").write_bytes(take(reader, octets))
                os._exit(0)
            reader.close()
            ended = run_case(subject, request, output=writer.fileno())
            os.waitpid(child, 0)
            taken = (folder / "taken").read_bytes()
        if (ended.status, ended.errors, taken) != (3, fault, whole.output[:octets]):
            wrong.append(f"after {octets}: {ended.status} {ended.errors!r}, {len(taken)} octets")
    report.check("a pipe whose reader goes", wrong)


def take(reader: BinaryIO, octets: int) -> bytes:
    """So many octets of a pipe, a few at a time."""
    taken = b""
    while len(taken) < octets:
        taken += reader.read(octets - len(taken))
    return taken


def check_streams(subject: Subject, report: Report, fault: bytes) -> None:
    """Streams that are closed, full, or a pipe that nobody reads."""
    case = from_folder(CASES / "nested-transactions")
    unread = line_of(faults(subject.root)["E04"], b"-")
    refused = replace(case, words=(b"run",))
    full = os.open("/dev/full", os.O_WRONLY)
    with pipe() as (reader, writer):
        reader.close()
        ends = {
            "closed output": (run_case(subject, case, lambda: os.close(1)), (3, b"", fault)),
            "full output": (run_case(subject, case, output=full), (3, b"", fault)),
            "output that nobody reads": (run_case(subject, case, output=writer.fileno()), (3, b"", fault)),
            "closed input": (run_case(subject, case, lambda: os.close(0)), (3, b"", unread)),
            "closed errors": (run_case(subject, case, lambda: os.close(2)), (0, case.output, b"")),
            "closed errors of a refusal": (run_case(subject, refused, lambda: os.close(2)), (2, b"", b"")),
            "full errors of a refusal": (run_case(subject, refused, errors=full), (2, b"", b"")),
            "errors that nobody reads": (run_case(subject, refused, errors=writer.fileno()), (2, b"", b"")),
            "all closed": (run_case(subject, case, lambda: os.closerange(0, 3)), (3, b"", b"")),
        }
    os.close(full)
    for name, (ended, wanted) in ends.items():
        found = (ended.status, ended.output, ended.errors)
        report.check(name, [] if found == wanted else [f"wanted {wanted}, got {found}"])


def check(subject: Subject, report: Report) -> None:
    fault = line_of(faults(subject.root)["E07"])
    for name in ("reply-to-a-packet", "walk-there-and-back"):
        check_limits(subject, report, from_folder(CASES / name), fault)
    check_leaving_reader(subject, report, fault)
    check_streams(subject, report, fault)
