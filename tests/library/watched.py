"""Wrong calls of the library for C, changed packets and threads, under tools that watch them: valgrind's memcheck and
helgrind, and the compiler's sanitizers. What is not installed is left out, and a line says so."""
import re
import shutil
import subprocess
from pathlib import Path
from typing import List, Tuple

from common.report import Report
from common.subject import Subject, new_folder
from library.building import missing, program

MEMCHECK = ["valgrind", "--quiet", "--error-exitcode=9", "--leak-check=full", "--show-leak-kinds=all",
            "--errors-for-leak-kinds=all"]
HELGRIND = ["valgrind", "--quiet", "--tool=helgrind", "--error-exitcode=9"]
SANITIZERS = ["-fsanitize=address,undefined", "-fno-sanitize-recover=all"]
UNLIMITED = ["sh", "-c", 'ulimit -S -v "$(ulimit -H -v)"; exec "$@"', "sh"]  # sanitizers map more than tests/run allows
SECONDS, MINUTE = 3, 60
CHANGED, EDITED = 10000, 20000


def has_valgrind(report: Report, what: str) -> bool:
    """Says what is not watched where there is no valgrind."""
    if shutil.which("valgrind") is None:
        report.say(f"{what}: not watched, there is no valgrind")
        return False
    return True


def check_output(report: Report, what: str, words: List, packet: bytes, output: bytes) -> None:
    """The output of a program that meets no fault, and nothing of a tool that watches it."""
    ended = subprocess.run(words, input=packet, capture_output=True, check=False)
    holds = ended.returncode == 0 and re.fullmatch(output, ended.stdout) and not ended.stderr
    report.check(what, [] if holds else [f"status {ended.returncode}: {ended.stdout!r} {ended.stderr[-2000:]!r}"])


def case_of_a_packet(subject: Subject) -> Tuple[List, bytes]:
    """The secret, the policy and the dictionary of a case, and its packet."""
    folder = subject.root / "tests" / "cases" / "reply-to-a-packet"
    secret = (folder / "secret").read_text().split("\n")[0]
    words = [secret, folder / "policy", subject.root / "tests" / "cases" / "dictionary"]
    return words, bytes.fromhex((folder / "packet").read_text())


def check_calls(subject: Subject, report: Report, folder: Path, words: List, packet: bytes) -> None:
    """Rooms of every length, closed handles and changed packets."""
    what = "wrong calls of the library, rooms of every length and changed packets"
    made = program(subject, folder, "tests/library/wrong_calls.c")
    watched = MEMCHECK if has_valgrind(report, "the library's use of memory") else []
    check_output(report, what, [*watched, made, *words, str(CHANGED)], packet, rb"0 faults\n")
    made = program(subject, folder, "tests/library/wrong_calls.c", *SANITIZERS)
    check_output(report, f"{what}, by the compiler's sanitizers", [*UNLIMITED, made, *words, str(CHANGED)], packet,
                 rb"0 faults\n")


def check_no_memory(subject: Subject, report: Report, folder: Path, words: List, packet: bytes) -> None:
    """Each allocation of each call fails in turn."""
    made = program(subject, folder, "tests/library/no_memory.c", "-Wl,--wrap=malloc,--wrap=realloc")
    watched = MEMCHECK if has_valgrind(report, "what the library gives back") else []
    check_output(report, "calls of the library whose allocations fail", [*watched, made, *words], packet, rb"0 faults\n")


def check_threads(subject: Subject, report: Report, folder: Path, words: List, packet: bytes,
                  seconds: int = SECONDS) -> None:
    """Eight threads on one policy, each by handles of its own, which they close in the order in which they come to it."""
    what, output = f"eight threads on one policy for {seconds} s", rb"[1-9]\d* runs, 0 faults\n"
    made = program(subject, folder, "tests/library/threads.c", "-pthread")
    check_output(report, what, [made, str(seconds), *words], packet, output)
    if has_valgrind(report, "the library's threads"):
        check_output(report, f"{what}, by helgrind", [*HELGRIND, made, str(seconds), *words], packet, output)
        check_output(report, f"{what}, by memcheck", [*MEMCHECK, made, str(seconds), *words], packet, output)


def check_dictionaries(subject: Subject, report: Report, folder: Path, words: List, packet: bytes,
                       seconds: int = SECONDS) -> None:
    """Policies by one dictionary, which are closed with it in each order, in eight threads too."""
    what, output = f"policies by one dictionary, in eight threads for {seconds} s", rb"[1-9]\d* runs, 0 faults\n"
    made = program(subject, folder, "tests/library/dictionaries.c", "-pthread")
    watched = [("by helgrind", HELGRIND), ("by memcheck", MEMCHECK)]
    for tool, before in watched if has_valgrind(report, "the library's dictionaries") else []:
        check_output(report, f"{what}, {tool}", [*before, made, str(seconds), *words], packet, output)
    made = program(subject, folder, "tests/library/dictionaries.c", "-pthread", *SANITIZERS)
    check_output(report, f"{what}, by the compiler's sanitizers", [*UNLIMITED, made, str(seconds), *words], packet, output)


def check_stores(subject: Subject, report: Report, folder: Path) -> None:
    """Edits, moves and rollbacks of a store, beside a plain model of its lists."""
    what = f"{EDITED} turns of a store in C, beside a plain model"
    made = program(subject, folder, "tests/library/stores.c")
    check_output(report, what, [made, str(EDITED)], b"", rb"0 faults\n")
    if has_valgrind(report, "the library's stores"):
        check_output(report, f"{what}, by memcheck", [*MEMCHECK, made, str(EDITED // 10)], b"", rb"0 faults\n")
    made = program(subject, folder, "tests/library/stores.c", *SANITIZERS)
    check_output(report, f"{what}, by the compiler's sanitizers", [*UNLIMITED, made, str(EDITED)], b"", rb"0 faults\n")


def check_minute(subject: Subject, report: Report) -> None:
    """The threads for a minute."""
    absent = missing(subject)
    if absent:
        report.say(f"the library for C: not tried, {absent}")
        return
    with new_folder() as folder:
        check_threads(subject, report, folder, *case_of_a_packet(subject), MINUTE)
