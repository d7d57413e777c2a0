"""Calls that take no memory, made with every allocation refused."""
from pathlib import Path
from typing import List

from common.cases import from_folder
from common.documents import faults, line_of
from common.report import Report
from common.subject import Subject, new_folder
from allocations.refusing import ALL_LATER, Refusals

CASES = Path(__file__).parent.parent / "cases"
DICTIONARY_END = """ATTRIBUTE Skipped 300.1 integer
VENDOR Wide 10 format=4,0
ATTRIBUTE Tunnel-Type 64 integer has_tag
ATTRIBUTE Framed-IPv6-Prefix 97 ipv6prefix
"""
ATTRIBUTES = "\x01\x06nemo\x19\x03a\x12\x02\x05"
REQUEST = "User-Name = nemo, User-Password = secret, NAS-Port = 3, Test-Long = 0x01, Cisco-AVPair = x, Attr-4 = 0x01"
NAMES = "User-Name user-password NAS-PORT Cisco-AVPair Test-Ext Attr-1 Attr-26.10.5 Attr-241.7 Nosuch".split()
ANSWERS = """begin
Counts { attributes: 20, values: 4, vendors: 2 } [Note { file: 0, line: 26 }]
Some(Format { t: 1, l: 1 }) Some(Format { t: 4, l: 0 })
fits true
fits true
fits true
fits true
fits true
fits true
1 [110, 101, 109, 111] 0
25 [97] 6
18 [] 9
bad 11
reply true
NotValue 11
NotValue 8
NotWritable 0
NotWritable 0
Ok(Int(3))
Ok(Addr([192, 168, 1, 3]))
Err(NotValue)
Err(NotValue)
Err(NotWritable)
Int(3)
Err(NotValue)
Err(NotValue)
Err(NotValue)
Some(Date(60))
None
"""


def check_look_ups(subject: Subject, report: Report) -> None:
    """From the last allocation on every one is refused. It came before the line `begin`, so nothing after it asked."""
    text = (CASES / "dictionary").read_text() + DICTIONARY_END
    command = [*subject.drive("lookups"), text, ATTRIBUTES, REQUEST, *NAMES]
    with new_folder() as folder:
        refusals = Refusals(subject, folder)
        free = refusals.run(command, folder, 0)
        last = refusals.run(command, folder, free.asked, ALL_LATER)
        after = refusals.run(command, folder, free.asked + 1, ALL_LATER)
    wrong: List[str] = []
    told = free.ended.output.decode()
    if not told.startswith(ANSWERS) or len(told.splitlines()) < len(ANSWERS.splitlines()) + len(NAMES):
        wrong.append(f"status {free.ended.status}, {free.ended.errors!r}, told {told}")
    if last.ended.output:
        wrong.append(f"the last of {free.asked} allocations came after this: {last.ended.output.decode()}")
    if (after.ended.output, after.asked) != (free.ended.output, free.asked):
        wrong.append(f"asked {after.asked} times in place of {free.asked}")
    report.check(f"look-ups and packets with every allocation after {free.asked} refused", wrong)


def check_fault(subject: Subject, report: Report) -> None:
    """With every allocation refused the program still prints its fault and has its status."""
    case = from_folder(CASES / "reply-to-a-packet")
    with new_folder() as folder:
        case.place(folder)
        ended = Refusals(subject, folder).run([subject.program, *case.words], folder, 1, ALL_LATER).ended
    wanted = (4, b"", line_of(faults(subject.root)["E09"]))
    found = (ended.status, ended.output, ended.errors)
    report.check("the program with every allocation refused", [] if found == wanted else [f"{found}"])


def check(subject: Subject, report: Report) -> None:
    check_look_ups(subject, report)
    check_fault(subject, report)
