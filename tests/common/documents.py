"""What docs/FORMATS.md says of faults: their numbers, texts and exit statuses."""
import re
from pathlib import Path
from typing import Dict, NamedTuple, Optional

ROW = re.compile(r"^\| (E\d\d) \| ([^|(]+?)(?: \([^|]*\))? \| (\d) \|", re.M)
LINE = re.compile(rb"radpolicy: (E\d\d)(?: (.*))?: ([^:\n]+)\n", re.S)


class Fault(NamedTuple):
    """A fault of the table in the document."""

    number: str
    text: bytes
    status: int


class Told(NamedTuple):
    """A fault's line as the program printed it."""

    number: str
    place: Optional[bytes]
    text: bytes


def faults(root: Path) -> Dict[str, Fault]:
    """The table of faults, by number."""
    rows = ROW.findall((root / "docs/FORMATS.md").read_text())
    table = {number: Fault(number, text.encode(), int(status)) for number, text, status in rows}
    if len(table) < 30:
        raise ValueError("docs/FORMATS.md has no table of faults")
    return table


def told(errors: bytes) -> Optional[Told]:
    """The fault that a line tells, nothing where it is no such line."""
    found = LINE.fullmatch(errors)
    return Told(found[1].decode(), found[2], found[3]) if found else None


def line_of(fault: Fault, place: bytes = b"") -> bytes:
    """The line of a fault."""
    where = b" " + place if place else b""
    return b"radpolicy: " + fault.number.encode() + where + b": " + fault.text + b"\n"
