"""Packets that are cut short, and packets with one octet changed: each is read or refused."""
from pathlib import Path
from typing import List, Optional

from common.cases import from_folder
from common.documents import faults, told
from common.program import Ended, run
from common.report import Report
from common.subject import Subject, new_folder, on_all

CASES = Path(__file__).parent.parent / "cases"
HEAD = 20
MOST = 4096
MESSAGE_AUTHENTICATOR = 80


def is_whole(octets: bytes) -> Optional[int]:
    """The offset of the first attribute that is not whole, nothing where all are."""
    at = HEAD
    while at < len(octets):
        if at + 2 > len(octets) or octets[at + 1] < 2 or at + octets[at + 1] > len(octets):
            return at
        at += octets[at + 1]
    return None


def types(octets: bytes) -> List[int]:
    """The types of a packet's whole attributes."""
    at, found = HEAD, []
    while at < len(octets):
        found.append(octets[at])
        at += octets[at + 1]
    return found


def refusal(octets: bytes) -> Optional[str]:
    """The refusal of a packet by its head and its attributes' types and lengths, where no digest in it is right."""
    length = int.from_bytes(octets[2:4], "big")
    if len(octets) < HEAD:
        return "E40"
    if not HEAD <= length <= MOST:
        return "E41"
    if len(octets) < length:
        return "E42"
    bad = is_whole(octets[:length])
    if bad is not None:
        return f"E43 offset {bad}"
    unsigned = "E47" if MESSAGE_AUTHENTICATOR in types(octets[:length]) else None
    return {1: unsigned, 4: "E45"}.get(octets[0], "E44")


def found(subject: Subject, folder: Path, octets: bytes) -> Ended:
    command = [subject.program, "decode", "-S", "secret", "dictionary"]
    return run(command, folder, octets.hex().encode())


def check_all(subject: Subject, report: Report, name: str, packets: List[bytes], folder: Path) -> None:
    """Each packet is read, or refused as its octets say."""
    table = faults(subject.root)

    def look(octets: bytes) -> Optional[str]:
        ended, wanted = found(subject, folder, octets), refusal(octets)
        if wanted is None:
            is_right = (ended.status, ended.errors) == (0, b"") and ended.output.startswith(b"code 1\n")
        else:
            line = told(ended.errors)
            place = f" {line.place.decode()}" if line and line.place else ""
            fault = table[wanted[:3]]
            is_right = (
                (ended.status, ended.output) == (fault.status, b"")
                and line is not None
                and (line.number + place, line.text) == (wanted, fault.text)
            )
        return None if is_right else f"{octets.hex()}: wanted {wanted}, got {ended}"

    report.check(f"{name}: {len(packets)} packets", [it for it in on_all(look, packets) if it])


def check(subject: Subject, report: Report) -> None:
    case = from_folder(CASES / "decode-a-request")
    packet = bytes.fromhex(case.files["packet"].decode())
    fronts = [packet[:length] for length in range(len(packet))]
    changed = [
        packet[:at] + bytes([octet]) + packet[at + 1 :] for at in range(len(packet)) for octet in range(256)
    ]
    with new_folder() as folder:
        case.place(folder)
        check_all(subject, report, "fronts of a packet", fronts, folder)
        check_all(subject, report, "a packet with one octet changed", changed, folder)
