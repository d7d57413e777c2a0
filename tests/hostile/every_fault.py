"""Each fault of the documents once: its number, its place, its text and its exit status."""
from typing import Iterator

from common.documents import faults
from common.report import Report
from common.subject import Subject
from hostile.limits import wrong
from hostile.sizes import DECODE, ENCODE, MAX_LINES, MAX_PAIRS, MAX_SIZE, RUN, STEP, Row

TYPES = b"""ATTRIBUTE User-Name 1 string
ATTRIBUTE NAS-Port 5 integer
ATTRIBUTE Class 25 octets
ATTRIBUTE Long 245.1 octets
"""
FILES = {"dictionary": TYPES, "request": b"", "policy": b"", "script": b"", "packet": b"", "secret": b"s\n"}
CHECK = "check dictionary"
POLICY = "check --policy policy dictionary"
ZEROS = b"00" * 16
SIGNATURE = b"5012" + ZEROS
# Those that other parts bring about: an output that fails, and memory that is refused.
ELSEWHERE = {"E07", "E09"}

OF_WORDS = {
    "E01": Row("no policy", "run dictionary", {}),
    "E02": Row("two files of one name", "check dictionary ./dictionary", {}),
    "E03": Row("a secret without octets", DECODE, {"secret": b"\nsecret\n"}),
    "E04 missing": Row("a file that is not there", "check missing", {}),
    "E06 script:2": Row("an unknown word of a script", STEP, {"script": b"forward\nforwards\n"}),
}
OF_DICTIONARIES = {
    "E10 dictionary:1": b"ATRIBUTE A 1 string\n",
    "E11 dictionary:1": b"ATTRIBUTE A 4294967296 string\n",
    "E12 dictionary:2": b"ATTRIBUTE A 1 string\nATTRIBUTE A 2 string\n",
    "E13 dictionary:1": b"BEGIN-VENDOR V\n",
    "E14 dictionary:1": b"END-VENDOR V\n",
    "E15 dictionary:1": b"$INCLUDE other\n",
    "E16 dictionary:1": b"$INCLUDE dictionary\n",
    f"E17 dictionary:{MAX_LINES + 1}": b"#\n" * (MAX_LINES + 1),
    "E18 dictionary:1": b"VALUE A n 1\n",
    "E19 dictionary:3": b"ATTRIBUTE A 200 integer\nVALUE A n 1\nVALUE A n 2\n",
}
OF_REQUESTS = {
    "E30 request:1": b"NAS-Port = soon\n",
    "E31 request:2": b"Class = 0x01\nClass = 0x" + b"61" * 254 + b"\n",
    "E32 request:1": b"Nosuch = 1\n",
    "E33 request:1": b"Attr-26 = 0x01\n",
    "E34 request:3": b"Class = 0x01\n\nClass = 0x01\n",
    f"E35 request:{MAX_PAIRS + 1}": b"Class = 0x01\n" * (MAX_PAIRS + 1),
    "E36 request:1": b"Class := 0x01\n",
}
OF_PACKETS = {
    "E05": b"0g",
    "E40": b"01000014",
    "E41": b"01000013" + ZEROS,
    "E42": b"01000015" + ZEROS,
    "E43 offset 20": b"01000015" + ZEROS + b"01",
    "E44": b"02000014" + ZEROS,
    "E45": b"04000014" + ZEROS,
    "E47": b"01000026" + ZEROS + SIGNATURE,
}
OF_POLICIES = {
    "E50 policy:1": b"update { Class =~ x }\n",
    "E51 policy:2": b"ok\nupdate { Class 0x01 }\n",
    "E53 policy:1": b"if " + b"(" * 65,
    f"E54 policy:{MAX_SIZE + 1}": b"ok\n" * (MAX_SIZE + 1),
    "E55 policy:1": b"update { NAS-Port := &User-Name }\n",
    "E56 policy:2": b"# profile: wider\nif (&User-Name =~ //) { ok }\n",
    "E57 policy:2": b"# profile: wider\nif (&User-Name =~ /\xe9/) { ok }\n",
    "E58 policy:2": b"# profile: wider\nif (&User-Name =~ /%{Class}/) { ok }\n",
    "E59 policy:2": b"# profile: wider\nif (&User-Name =~ /(?=a)/) { ok }\n",
    "E60 policy:2": b"# profile: wider\nif (&User-Name =~ /a{20000}{200}/) { ok }\n",
    "E61 policy:2": b"# profile: wider\nif (\"a%{Class}\" =~ /x/) { ok }\n",
}
TOO_LONG = b"Long = 0x" + b"61" * 4012 + b"\nClass = 0x01\n"


def row_of(fault: str, words: str, **files: bytes) -> Row:
    """A command on these files, and on those of all rows, that is refused."""
    return Row(f"a run that ends with {fault}", words, {**FILES, **files}, fault)


def rows() -> Iterator[Row]:
    """All of them."""
    yield from (row_of(fault, row.words, **row.files) for fault, row in OF_WORDS.items())
    yield from (row_of(fault, CHECK, dictionary=text) for fault, text in OF_DICTIONARIES.items())
    yield from (row_of(fault, RUN, request=text) for fault, text in OF_REQUESTS.items())
    yield from (row_of(fault, DECODE, packet=text) for fault, text in OF_PACKETS.items())
    yield from (row_of(fault, POLICY, policy=text) for fault, text in OF_POLICIES.items())
    yield row_of("E46", ENCODE, request=TOO_LONG)


def check(subject: Subject, report: Report) -> None:
    """Each row, and that none of the documents' faults is missing."""
    missed = set(faults(subject.root)) - ELSEWHERE
    for row in rows():
        missed.discard(row.fault[:3])
        report.check(row.name, wrong(subject, row))
    report.check("every fault of the documents", [f"no run ends with {number}" for number in sorted(missed)])
