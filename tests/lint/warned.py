"""What policies are warned of, one by one: in each folder of `rows/` are a `dictionary`, policies, and in the line of
`wanted` with the number of a policy's line the lines and the names of its warnings. Comments and blank lines are the
same in both, and a policy is written behind a word as a text is between double quotes."""
import re
from itertools import zip_longest
from pathlib import Path
from typing import Dict, List

from common.program import run
from common.report import Report
from common.subject import Subject, new_folder, on_all

ROWS = Path(__file__).parent / "rows"
POLICY = re.compile(r"policy (?P<text>.+)")
ESCAPED = re.compile(rb"\\([0-7]{3}|.)")
SIGNS = {b"n": b"\n", b"r": b"\r", b"t": b"\t"}
FOUND = re.compile(r"^(?P<policy>\d+):(?P<line>\d+):(?: warning: .* \[(?P<name>[a-z-]+)\]|.*)$", re.MULTILINE)


def octets_of(sign: bytes) -> bytes:
    return bytes([int(sign, 8)]) if len(sign) == 3 else SIGNS.get(sign, sign)


def policies_of(lines: List[str]) -> Dict[int, bytes]:
    """The policies by the numbers of their lines."""
    found = {number: POLICY.fullmatch(line) for number, line in enumerate(lines, 1)}
    return {
        number: ESCAPED.sub(lambda sign: octets_of(sign[1]), match["text"].encode())
        for number, match in found.items() if match
    }


def warnings_of(subject: Subject, folder: Path, policies: Dict[int, bytes]) -> Dict[int, List[str]]:
    """The warnings of each, all of one run. A fault has no name."""
    warned: Dict[int, List[str]] = {number: [] for number in policies}
    with new_folder() as place:
        for number, policy in policies.items():
            (place / str(number)).write_bytes(policy)
        words = [word for number in policies for word in ("--policy", str(number))]
        ended = run([subject.driver("radpolicy_lint"), "--format", "gcc", *words, folder / "dictionary"], place)
    for match in FOUND.finditer(ended.output.decode()):
        warned[int(match["policy"])].append(f"{match['line']} {match['name']}")
    return warned


def wrong_in(subject: Subject, folder: Path) -> List[str]:
    """The lines of a folder whose policies are warned of otherwise than they have to be."""
    lines = (folder / "policies").read_text("ascii").split("\n")
    wanted = (folder / "wanted").read_text("ascii").split("\n")
    warned = warnings_of(subject, folder, policies_of(lines))
    told = [", ".join(warned[number]) or "none" if number in warned else line for number, line in enumerate(lines, 1)]
    return [
        f"line {number}: {line}: {found!r}, not {text!r}"
        for number, (line, found, text) in enumerate(zip_longest(lines, told, wanted), 1)
        if found != text
    ]


def check(subject: Subject, report: Report) -> None:
    """Each folder, and that there are some."""
    folders = sorted(path.parent for path in ROWS.glob("*/policies"))
    for folder, wrong in zip(folders, on_all(lambda folder: wrong_in(subject, folder), folders)):
        report.check(f"lint: rows: {folder.name}", wrong)
    report.check("lint: folders of rows", [] if folders else ["none"])
