"""Calls of the system that fail, or during which a signal comes: what was there is there, or the whole new file is."""
import errno
import os
import re
import signal
import subprocess
from pathlib import Path
from typing import List, Tuple

from common.report import Report
from common.subject import Subject, new_folder
from outputs.failing import Failures
from outputs.writers import INPUTS, SITE, WRITERS, Writer, names_in, octets_of, place, said

ERRORS = (errno.ENOSPC, errno.EIO)
SIGNALS = (signal.SIGINT, signal.SIGTERM, signal.SIGHUP)
# The name of a new file beside its place, which a signal may leave there.
BESIDE = re.compile(r"\.radpolicy-[0-9a-f]{16}")
MOST_CALLS = 100
FULL = 256 << 10


def state_faults(writer: Writer, folder: Path, before: bytes) -> List[str]:
    """What is wrong with the file: it is as it was, or whole."""
    octets = octets_of(folder / "f")
    return [] if octets == before or writer.without_mark(octets) else [f"f: {octets[:100]!r}"]


def open_faults(folder: Path) -> List[str]:
    """Whether others may read a file, or one beside it, that its owner alone could read."""
    found = [path for path in folder.iterdir() if path.name == "f" or BESIDE.fullmatch(path.name)]
    return [f"{path.name}: others may read it" for path in found if path.stat().st_mode & 0o077]


def stopped_faults(subject: Subject, writer: Writer, is_there: bool, what: int) -> Tuple[int, List[str]]:
    """Stops each call in turn. Gives how many there were."""
    wrong: List[str] = []
    for call in range(1, MOST_CALLS):
        with new_folder() as folder, new_folder() as other:
            place(folder, INPUTS)
            if is_there:
                writer.write(subject, folder, "f")
                (folder / "f").chmod(0o600)
                place(folder, {"site": SITE.replace(b"Hello", b"Good evening")})
            before = octets_of(folder / "f")
            run = Failures(subject, other).run(writer.command(subject, "f"), folder, call, what)
            if not run.is_reached:
                return call - 1, wrong
            left = [name for name in names_in(folder) if name != "f"]
            # A file that can't be removed stays, and so does one of a program that ends at once.
            may_stay = what > 0 or len(left) == 1 and octets_of(folder / "f") != before
            left = [name for name in left if not (may_stay and BESIDE.fullmatch(name))]
            faults = state_faults(writer, folder, before) + left
            faults += open_faults(folder) if is_there else []
            faults += [] if what > 0 or run.ended.status in (0, 2, 3) else [said(run.ended)]
            wrong += [f"call {call}: {fault}" for fault in faults]
    return MOST_CALLS, [*wrong, "too many calls"]


def check_stopped(subject: Subject, report: Report) -> None:
    for writer in WRITERS:
        for is_there in (False, True):
            kind = "an old file" if is_there else "a new file"
            for name, what in [*((errno.errorcode[it], -it) for it in ERRORS), *((it.name, int(it)) for it in SIGNALS)]:
                count, wrong = stopped_faults(subject, writer, is_there, what)
                wrong += [] if count >= 4 else [f"{count} calls"]
                report.check(f"{writer.name}, {kind}, {name} at each of {count} calls", wrong)


def check_full(subject: Subject, report: Report) -> None:
    """A disk that is full, where one may be made."""
    with new_folder() as folder:
        if subprocess.run(["mount", "-t", "tmpfs", "-o", f"size={FULL}", "tmpfs", folder], stderr=subprocess.PIPE).returncode:
            report.say("left out: a full disk, which can't be made here")
            return
        try:
            place(folder, INPUTS)
            for writer in WRITERS:
                report.check(f"{writer.name}, a full disk", full_faults(subject, writer, folder))
        finally:
            subprocess.run(["umount", folder], check=True)


def full_faults(subject: Subject, writer: Writer, folder: Path) -> List[str]:
    writer.write(subject, folder, "f")
    before = octets_of(folder / "f")
    fill(folder / "filling")
    ended = writer.write(subject, folder, "f")
    (folder / "filling").unlink(missing_ok=True)
    wrong = [] if ended.status == 3 and b"E07 f: " in ended.errors else [said(ended)]
    wrong += [] if octets_of(folder / "f") == before else ["not as it was"]
    found = names_in(folder)
    (folder / "f").unlink(missing_ok=True)
    return wrong + ([] if found == ["f"] else [f"in the folder: {found}"])


def fill(path: Path) -> None:
    """Takes all room that is left."""
    with open(path, "wb", buffering=0) as file:
        try:
            while True:
                file.write(b"x" * 4096)
        except OSError:
            return


def check(subject: Subject, report: Report) -> None:
    check_full(subject, report)
    check_stopped(subject, report)
