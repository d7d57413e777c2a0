"""Configurations that are crafted, broken or very large: each is read, or refused with a place, in bounded time and
memory."""
import re
from pathlib import Path
from typing import Dict, List

from common.program import Ended, run
from common.report import Report
from common.subject import Subject, new_folder, on_all

SECONDS = 2.0
KILOBYTES = 512 << 10
READ = re.compile(rb"\d+ files, \d+ items")
REFUSED = re.compile(rb":(\d+): fault: ")
# The last line is no longer than this, but for the path.
LAST = 8_192
LARGE = 100_000_000
WHOLE = b"""a = "b c"
d e {
	$INCLUDE part/
	if ("%{x}" =~ /a\\/(b)/) {
		f := ${a}$ENV{g} # h
	}
	i j \\
		k
}
$-INCLUDE missing
"""


def written(folder: Path, files: Dict[str, bytes]) -> Path:
    """A folder with these files, of which `main` is the first to read."""
    for name, octets in files.items():
        path = folder / name
        path.parent.mkdir(parents=True, exist_ok=True)
        path.write_bytes(octets)
    return folder / "main"


def read(subject: Subject, path: Path) -> Ended:
    return run([*subject.drive("configuration"), path], path.parent)


def faults_of(ended: Ended) -> List[str]:
    """What is wrong with a run, whatever was read."""
    found = []
    last = ended.output[-LAST:].rstrip(b"\n").rpartition(b"\n")[2]
    refusal = REFUSED.search(last)
    if ended.status or ended.errors or not (READ.fullmatch(last) or refusal):
        found.append(f"{ended.status}, {ended.errors!r}, {ended.output[-200:]!r}")
    if refusal and int(refusal.group(1)) < 1:
        found.append(f"no line: {last!r}")
    if ended.seconds > SECONDS or ended.kilobytes > KILOBYTES:
        found.append(f"{ended.seconds:.1f} s, {ended.kilobytes} kB")
    return found


def circle(count: int) -> Dict[str, bytes]:
    """Files each of which includes the next one, and the last one the first."""
    return {"main": b"$INCLUDE 1\n", **{str(n): b"\n$INCLUDE %d\n" % ((n + 1) % count) for n in range(1, count)}}


def cases() -> Dict[str, Dict[str, bytes]]:
    """Files by what they try."""
    many = {f"part/{n}": b"a = %d\n" % n for n in range(1_000)}
    return {
        "a folder of 1,000 files": {"main": b"$INCLUDE part/\n", **many},
        "a folder of 5,000 files": {"main": b"$INCLUDE part/\n", **{f"part/{n}": b"a\n" for n in range(5_000)}},
        "a folder that includes itself": {"main": b"$INCLUDE part/\n", "part/a": b"$INCLUDE ./\n"},
        "a file that includes itself": {"main": b"$INCLUDE main\n"},
        "two that include themselves twice": {"main": b"$INCLUDE main\n$INCLUDE main\n"},
        "a circle of ten files": circle(10),
        "sections 10,000 deep": {"main": b"a {\n" * 10_000 + b"}\n" * 10_000},
        "sections that stay open": {"main": b"a {\n" * 1_000_000},
        "braces alone": {"main": b"}" * 4_000_000},
        "a line of 100 MB": {"main": b"a = " + b"b" * LARGE},
        "a line of 4 MB": {"main": b"a = " + b"b" * 4_000_000},
        "words of 4 MB": {"main": b"a\n" * 2_000_000},
        "1,000,000 pairs": {"main": b"a=b\n" * 1_000_000},
        "a pair with 1,000 references": {"main": b"a = b\nc = " + b"${a}" * 1_000 + b"\n"},
        "references that double": {
            "main": b"a0 = b\n" + b"".join(b"a%d = ${a%d}${a%d}\n" % (n, n - 1, n - 1) for n in range(1, 15))
        },
        "references in a circle": {"main": b"a = ${b}\nb = ${a}\n$INCLUDE ${a}\n"},
        "no UTF-8, and NUL": {"main": b"a\x00 = \xff\xfe\n$INCLUDE \xff\x00\n", "part": b""},
        "blank": {"main": b"\n" * 4_000_000},
        "a comment of 4 MB": {"main": b"#" * 4_000_000},
        "joined lines": {"main": b"a = \\\n" * 600_000},
    }


def check_cuts(subject: Subject, report: Report) -> None:
    """A configuration that is cut off at each octet."""
    def fault(length: int) -> List[str]:
        with new_folder() as folder:
            return faults_of(read(subject, written(folder, {"main": WHOLE[:length], "part/a": b"l = m\n"})))

    found = on_all(fault, range(len(WHOLE) + 1))
    report.check("a configuration cut off at each octet", [each for faults in found for each in faults])


def check(subject: Subject, report: Report) -> None:
    for name, files in cases().items():
        with new_folder() as folder:
            report.check(f"configuration: {name}", faults_of(read(subject, written(folder, files))))
    check_cuts(subject, report)
