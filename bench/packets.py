"""Packets decoded and encoded by a process that does nothing else, beside FreeRADIUS's library."""
import hashlib
import hmac
from pathlib import Path
from typing import Callable, Dict, List, Optional, Tuple

from dictionaries import Set
from timing import Command, Word, in_turn, used

ROUNDS = 3
SECONDS = 0.3
SECRET = "xyzzy5461"
# The Access-Request of RFC 2865, section 7.1.
PAP = bytes.fromhex(
    "010000380f403f9473978057bd83d5cb98f4227a01066e656d6f02120dbe708d93d413ce3196e43f782a0aee"
    "0406c0a80110050600000003"
)
CISCO = (9).to_bytes(4, "big")


def attribute(number: int, octets: bytes) -> bytes:
    return bytes([number, 2 + len(octets)]) + octets


def cisco_pair(text: bytes) -> bytes:
    return attribute(26, CISCO + attribute(1, text))


def request(attributes: List[bytes]) -> bytes:
    octets = b"".join(attributes)
    return b"\x01\x00" + (20 + len(octets)).to_bytes(2, "big") + PAP[4:20] + octets


def signed(attributes: List[bytes]) -> bytes:
    """The request with a Message-Authenticator at its end (RFC 3579, section 3.2)."""
    blank = request([*attributes, attribute(80, bytes(16))])
    return blank[:-16] + hmac.new(SECRET.encode(), blank, hashlib.md5).digest()


PACKETS: Dict[str, bytes] = {
    "a login of 56 octets": PAP,
    "four vendor attributes": request(
        [attribute(1, b"bob"), *(cisco_pair(b"shell:priv-lvl=%d" % level) for level in range(4))]
    ),
    "ten values of 253 octets": request([attribute(25, bytes([at]) * 253) for at in range(10)]),
    "300 attributes": request([attribute(25, at.to_bytes(2, "big")) for at in range(300)]),
    "a signed login": signed([attribute(1, b"bob"), attribute(4, bytes([192, 168, 1, 16])), attribute(25, b"a class")]),
}

# The words of a command that does a work so many times.
Worker = Callable[[str, int], List[Word]]


def count_for(worker: Worker, work: str) -> int:
    """As many times as take long enough to measure."""
    start, count = used(Command(worker(work, 0))).whole, 1000
    while used(Command(worker(work, count))).whole - start < SECONDS:
        count *= 4
    return count


def seconds_of(worker: Worker, work: str, count: int) -> float:
    """The seconds of one work, without the process's start."""
    start, whole = used(Command(worker(work, 0))), used(Command(worker(work, count)))
    return (whole.whole - start.whole) / count


def workers(drive: Path, peer: Optional[Path], dictionaries: Set, packet: Path) -> Dict[str, Worker]:
    found: Dict[str, Worker] = {
        "ours": lambda work, count: [drive, "packets", str(count), work, packet, *dictionaries.files]
    }
    if peer:
        found["libfreeradius"] = lambda work, count: [peer, work, dictionaries.folder, SECRET, packet, str(count)]
    return found


def show_packets(drive: Path, dictionaries: Set, folder: Path, peer: Optional[Path]) -> None:
    """Decodes and encodes a second. An encode is what decoding and encoding takes more than decoding."""
    print(f"Packets by {dictionaries.name}, a second")
    for name, octets in PACKETS.items():
        packet = folder / "packet"
        packet.write_bytes(octets)
        works: Dict[Tuple[str, str], Callable[[], float]] = {}
        for who, worker in workers(drive, peer, dictionaries, packet).items():
            for work in ("decode", "both"):
                count = count_for(worker, work)
                works[who, work] = lambda worker=worker, work=work, count=count: seconds_of(worker, work, count)
        taken = in_turn(works, ROUNDS)
        decode, both = taken["ours", "decode"], taken["ours", "both"]
        line = f"  {name:26}{1 / decode:12,.0f} decodes {1 / (both - decode):12,.0f} encodes"
        if peer:
            ratios = [taken["libfreeradius", work] / taken["ours", work] for work in ("decode", "both")]
            line += "   {:.2f} and, both together, {:.2f} times libfreeradius".format(*ratios)
        print(line, flush=True)
