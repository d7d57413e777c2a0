"""What a FreeRADIUS server answered is what a policy answers that does the same, by each text that the server and its
tools print. The files of `served` were made on loopback; `traffic.servers` makes such texts anew."""
from pathlib import Path
from typing import Dict, List, Sequence

from common.program import Ended, run
from common.report import Report
from common.subject import Subject, new_folder, on_all
from replays.records import SECRET, without_rate

FOLDER = Path(__file__).with_name("served")
POLICY = FOLDER / "policy"
UNANSWERED = b"".join(b"%d unanswered\n" % number for number in range(1, 6))
# What is told of each file; those of requests alone have no replies.
TOLD: Dict[str, bytes] = {
    "log": b"0 Access-Accept\n1 Access-Reject\n2 Access-Challenge\n3 unanswered\n4 Accounting-Response\n",
    "radclient": b"8 Access-Accept\n189 Access-Reject\n25 Access-Challenge\n148 unanswered\n97 Accounting-Response\n",
    "radsniff": b"1 Access-Accept\n2 Access-Reject\n3 Access-Challenge\n9 Accounting-Response\n7 unanswered\n",
    "detail": UNANSWERED,
    "records": UNANSWERED,
}
OTHER = b"""0 Access-Accept -> Access-Accept
  reply
  - Session-Timeout = 600
  + Session-Timeout = 601
"""
WRONG = b"""(0) Received Access-Request Id 8 from 127.0.0.1:50572 to 127.0.0.1:44873 length 49
(0)   User-Name = "bob"
(0)   No-Such-Attribute = 1
(0) Finished request
(1) Received CoA-Request Id 8 from 127.0.0.1:50572 to 127.0.0.1:44873 length 49
(2) Received Access-Request Id 9 from 127.0.0.1:50572 to 127.0.0.1:44873 length 49
(2)   User-Name = "bob"
(2) Sent Access-Accept Id 9 from 127.0.0.1:44873 to 127.0.0.1:50572 length 32
(2)   Session-Timeout := soon
(2) Finished request
"""

# A request that makes no packet, and one whose reply makes none.
NO_PACKETS = [b"0 E32 unknown attribute line 2", b"2 127.0.0.1 01000019" + b"00" * 16 + b"0105626f62"]


def text_of(form: str) -> bytes:
    return (FOLDER / ("requests" if form == "records" else form)).read_bytes()


def replay(subject: Subject, folder: Path, text: bytes, options: Sequence[str], policy: Path = POLICY) -> Ended:
    dictionaries = sorted((subject.root / "dictionaries").glob("dictionary*"))
    if not (folder / "secret").exists():
        (folder / "secret").write_bytes(SECRET + b"\n")
    words = ["--policy", policy, "-S", "secret", "--against", "captured", "--all", *options]
    return without_rate(run([subject.driver("radpolicy_replay"), *words, *dictionaries], folder, text))


def to_hex(subject: Subject, folder: Path, text: bytes, options: Sequence[str] = ()) -> Ended:
    """The records of a text as lines of packets."""
    dictionaries = sorted((subject.root / "dictionaries").glob("dictionary*"))
    words = ["--to-hex", "-S", "secret", *options, *dictionaries]
    return run([subject.driver("radpolicy_replay"), *words], folder, text)


def check_formats(subject: Subject, report: Report, folder: Path) -> None:
    """Each file, in the format that it is told to have and in the one that is named."""
    for form, told in TOLD.items():
        for options in ([], ["--format", form]):
            ended = replay(subject, folder, text_of(form), options)
            is_right = (ended.status, ended.output) == (0, told)
            name = f"replay: what a server answered, {' '.join(options) or form}"
            report.check(name, [] if is_right else [f"{ended}, not {told!r}"])


def check_difference(subject: Subject, report: Report, folder: Path) -> None:
    """Another policy differs from what the server answered, and says where."""
    other = folder / "other"
    other.write_bytes(POLICY.read_bytes().replace(b"600", b"601"))
    ended = replay(subject, folder, text_of("log"), [], other)
    is_right = ended.status == 1 and ended.output.startswith(OTHER) and b" 1 different," in ended.errors
    report.check("replay: another answer than a server's is told", [] if is_right else [f"{ended}"])


def check_refusals(subject: Subject, report: Report, folder: Path) -> None:
    """A record that makes no packet is a line, and never the end; where there is no other, nothing was compared."""
    ended = replay(subject, folder, WRONG, ["--format", "log"])
    lines = [b"0 E32 unknown attribute line 2", b"2 captured E30 not a value line 1"]
    is_right = ended.status == 1 and all(line in ended.output.splitlines() for line in lines)
    report.check("replay: records of lines that make no packet", [] if is_right else [f"{ended}"])


def check_lines(subject: Subject, report: Report, folder: Path) -> None:
    """Each file as lines of packets, which are answered as the file is; but challenges have no packets."""
    for form, told in TOLD.items():
        lines = to_hex(subject, folder, text_of(form))
        ended = replay(subject, folder, lines.output, ["--format", "hex"])
        wanted = told.replace(b"Access-Challenge", b"unanswered")
        is_right = (ended.output, lines.status, lines.errors) == (wanted, 0, b"5 read, 0 refused\n")
        report.check(f"replay: {form} as lines of packets", [] if is_right else [f"{lines}, {ended}"])
        again = to_hex(subject, folder, lines.output)
        is_right = (again.output, again.status, again.errors) == (lines.output, 0, b"")
        report.check(f"replay: lines of packets of {form} stay as they are", [] if is_right else [f"{again}"])
    wrong = to_hex(subject, folder, WRONG, ["--format", "log"])
    is_right = wrong.status == 0 and wrong.output.splitlines() == NO_PACKETS and wrong.errors == b"2 read, 1 refused\n"
    report.check("replay: records that have no packets", [] if is_right else [f"{wrong}"])
    both = to_hex(subject, folder, text_of("log"), ["--policy", str(POLICY)])
    report.check("replay: --to-hex and a policy", [] if both.status == 2 else [f"{both}"])


def heads(output: bytes) -> List[bytes]:
    """The first line of each record."""
    return [line for line in output.splitlines() if not line.startswith(b"  ")]


def check_cuts(subject: Subject, report: Report, folder: Path) -> None:
    """A log that ends early: what was told before its last records is what is told of the whole."""
    text = text_of("log")
    whole = heads(replay(subject, folder, text, ["--format", "log"]).output)

    def fault(end: int) -> List[str]:
        ended = replay(subject, folder, text[:end], ["--format", "log"])
        said = heads(ended.output)
        is_right = ended.status in (0, 1) and said[:-1] == whole[: max(len(said) - 1, 0)]
        return [] if is_right else [f"after {end} octets: {ended}"]

    found = on_all(fault, range(0, len(text), 97))
    report.check("replay: a log that ends early", [each for faults in found for each in faults])
    requests = text_of("records")
    every = replay(subject, folder, requests, ["--format", "records"]).output.splitlines()

    def fault_of_requests(end: int) -> List[str]:
        """Of records at blank lines, those that are whole are told; the last is told of what there is of it."""
        said = replay(subject, folder, requests[:end], ["--format", "records"]).output.splitlines()
        ended = requests[:end].count(b"\n\n")
        is_right = ended <= len(said) <= ended + 1 and said[:ended] == every[:ended]
        return [] if is_right else [f"after {end} octets: {said}"]

    found = on_all(fault_of_requests, range(len(requests)))
    report.check("replay: requests that end after each octet", [each for faults in found for each in faults])


def check_ends(subject: Subject, report: Report, folder: Path) -> None:
    """CR before each LF, NUL octets, and a line of 2 MB."""
    text = text_of("log")
    ended = replay(subject, folder, text.replace(b"\n", b"\r\n"), [])
    report.check("replay: a log with CR and LF", [] if ended.output == TOLD["log"] else [f"{ended}"])
    ended = replay(subject, folder, b"\0\0\n" + b"x" * 2_000_000 + b"\n" + text, ["--format", "log"])
    report.check("replay: a log with NULs and a long line", [] if ended.output == TOLD["log"] else [f"{ended}"])
    lines = b"(9)   Reply-Message = 1\n" * 5_000
    long = b"(9) Received Access-Request Id 1 from 127.0.0.1:1 to x\n" + lines + b"(9) Finished request\n"
    ended = replay(subject, folder, long + text, ["--format", "log"])
    is_right = ended.output == b"9 record too long\n" + TOLD["log"]
    report.check("replay: a record that is too long", [] if is_right else [f"{ended}"])


def check(subject: Subject, report: Report) -> None:
    with new_folder() as folder:
        for part in (check_formats, check_difference, check_refusals, check_lines, check_cuts, check_ends):
            part(subject, report, folder)
