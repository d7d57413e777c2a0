"""Whether a run ended as the documents say: its status, its streams, its time and its memory."""
import os
import re
from typing import Dict, List, Optional

from common.cases import Case
from common.documents import Fault, told
from common.program import Ended

SECONDS = 2.0
KILOBYTES = 512 * 1024
OF_FILE = {f"E{number}" for number in range(10, 20)}
OF_REQUEST = {"E30", "E31", "E32", "E33", "E34", "E35", "E36"}
OF_POLICY = {"E30", "E31", "E32", "E33", "E50", "E51", "E53", "E54", "E55", "E56", "E57", "E58", "E59", "E60", "E61"}
PAIR = rb"  [A-Za-z0-9._/-]+ = .*\n"
# Below a policy's line `# profile: wider` names have tags, from 0 to 31.
LISTED = rb"  [A-Za-z0-9._/-]+(?::(?:[12]?\d|3[01]))? = .*\n"
LISTS = rb"request\n(?:%b)*reply\n(?:%b)*control\n(?:%b)*" % (LISTED, LISTED, LISTED)
PACKET = rb"packet (?:[0-9a-f]{2}){20,4096}\n"
CODE = rb"(?:ok|noop|updated|fail|reject)"
LABEL = rb"(?:start|line \d+(?: failed P[1-4])?|if \d+ (?:true|false)|(?:word|enter|commit|rollback) \d+)"
REPORTS = {
    "run": rb"%bresult %b(?: stopped)?\n(?:%b|packet none\n)?" % (LISTS, CODE, PACKET),
    "step": rb"(?:%b|\d+ %b %b(?: stays)?\n)*" % (LISTS, LABEL, CODE),
    "encode": PACKET,
    "decode": rb"code [14]\nidentifier \d+\nauthenticator [0-9a-f]{32}\nrequest\n(?:%b)*" % PAIR,
    "check": rb"files \d+\nattributes \d+\nvalues \d+\nvendors \d+\nnotes \d+\n(?:note .+:\d+\n)*(?:size \d+\n)?",
}


def place_fault(case: Case, number: str, place: Optional[bytes]) -> Optional[str]:
    """What is wrong of the place of a fault's line: a file and a line of it, the offset, the path, or none."""
    if number == "E04":
        return None if place is not None else "no path"
    if number == "E43":
        return None if place and re.fullmatch(rb"offset \d+", place) else f"{place!r} is no offset"
    texts = {b"request": OF_REQUEST, b"policy": OF_POLICY, b"script": {"E06"}}
    files = [text for text, numbers in texts.items() if number in numbers]
    if number in OF_FILE:
        files = [os.fsencode(name) for name in case.files]
    if not files:
        return None if place is None else f"{number} has a place"
    name, _, line = (place or b"").rpartition(b":")
    return None if name in files and line.isdigit() and int(line) > 0 else f"{place!r} is no place of {number}"


def refusal_fault(case: Case, ended: Ended, table: Dict[str, Fault]) -> List[str]:
    """What is wrong of a refusal: one line of a known fault with its text, its status and its place, and no output."""
    line = told(ended.errors)
    if line is None or line.number not in table:
        return [f"no line of a fault: {ended.errors!r}"]
    fault, wrong = table[line.number], []
    if (line.text, ended.status) != (fault.text, fault.status):
        wrong.append(f"{ended.errors!r} with status {ended.status}")
    if ended.output:
        wrong.append(f"output beside {ended.errors!r}: {ended.output[:80]!r}")
    if fault.status == 4:
        wrong.append("want of memory, though there is enough")
    found = place_fault(case, line.number, line.place)
    return wrong + ([found] if found else [])


def report_fault(case: Case, ended: Ended) -> List[str]:
    """What is wrong of a report: its form, or a word beside it."""
    wrong = [f"a word beside the report: {ended.errors!r}"] if ended.errors else []
    if {b"-h", b"--help"} & set(case.words):
        return wrong
    forms = [form for command, form in REPORTS.items() if command.encode() in case.words]
    if not any(re.fullmatch(form, ended.output) for form in forms):
        wrong.append(f"no report: {ended.output[:200]!r}")
    return wrong


def wrong(case: Case, ended: Ended, table: Dict[str, Fault]) -> List[str]:
    """All that is wrong of a run."""
    if ended.timed_out:
        return ["no end"]
    if ended.status < 0:
        return [f"signal {-ended.status}"]
    found = report_fault(case, ended) if ended.status == 0 else refusal_fault(case, ended, table)
    if ended.seconds > SECONDS:
        found.append(f"{ended.seconds:.1f} s")
    if ended.kilobytes > KILOBYTES:
        found.append(f"{ended.kilobytes} KiB")
    return found
