"""How often a packet that is decoded asks for memory: once for each value, and a few times more."""
from pathlib import Path
from typing import List, Tuple

from common.report import Report
from common.subject import Subject, new_folder
from allocations.refusing import Refusals

DICTIONARY = Path(__file__).parent.parent / "cases" / "dictionary"
MAX_MORE = 10


def attribute(number: int, octets: bytes) -> bytes:
    return bytes([number, 2 + len(octets)]) + octets


def packet(attributes: bytes) -> bytes:
    return b"\x01\x00" + (20 + len(attributes)).to_bytes(2, "big") + bytes(16) + attributes


# A value of 4,012 octets in 16 fragments.
LONG = b"".join(attribute(245, b"\x01\x80" + bytes(251)) for _ in range(15)) + attribute(245, b"\x01\x00" + bytes(247))
# What a packet has, its attributes, and how many values they hold.
PACKETS: List[Tuple[str, bytes, int]] = [
    ("a value in 16 fragments", LONG, 1),
    ("679 attributes of 6 octets", attribute(25, b"abcd") * 679, 679),
    ("320 vendor attributes in four", (attribute(26, bytes([0, 0, 0, 9]) + attribute(1, b"a") * 80)) * 4, 320),
    ("a password of 128 octets", attribute(2, bytes(range(128))), 1),
]


def allocations_of(subject: Subject, octets: bytes, count: int) -> int:
    """How often a program asks for memory that decodes the packet so many times."""
    with new_folder() as folder:
        (folder / "packet").write_bytes(octets)
        command = [*subject.drive("packets"), str(count), "decode", "packet", str(DICTIONARY)]
        run = Refusals(subject, folder).run(command, folder, 0)
    if run.ended.status:
        raise RuntimeError(f"drive packets ended with {run.ended.status}: {run.ended.errors!r}")
    return run.asked


def check(subject: Subject, report: Report) -> None:
    """Each packet, by the difference of one more decode."""
    for name, attributes, values in PACKETS:
        octets = packet(attributes)
        allocations = allocations_of(subject, octets, 2) - allocations_of(subject, octets, 1)
        wrong = [] if allocations <= values + MAX_MORE else [f"more than {MAX_MORE} above its {values} values"]
        report.check(f"a decode of {name} asks for memory {allocations} times", wrong)
