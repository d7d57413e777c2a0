"""The commands of docs/REPLAY.md that make records of a capture, where tshark is installed."""
import re
import shutil
import subprocess
from pathlib import Path
from random import Random
from typing import List, Tuple

from common.report import Report
from common.subject import Subject, new_folder
from replays.captured import reply
from replays.records import Place, request

COUNT = 40
SOURCE, SERVER = bytes([192, 0, 2, 1]), bytes([192, 0, 2, 9])
PORT = 1812
CODE = re.compile(r"^    (.*)$", re.M)


def frame(source: bytes, target: bytes, ports: Tuple[int, int], payload: bytes) -> bytes:
    """A UDP packet in one of IPv4 (RFC 768, RFC 791), without checksums."""
    words = (*ports, 8 + len(payload), 0)
    datagram = b"".join(word.to_bytes(2, "big") for word in words) + payload
    head = b"\x45\0" + (20 + len(datagram)).to_bytes(2, "big") + b"\0\0\0\0\x40\x11\0\0"
    return head + source + target + datagram


def capture(frames: List[bytes]) -> bytes:
    """A file of frames, a hundredth of a second from each to the next (libpcap's format, of raw IP packets)."""
    file = b"\xd4\xc3\xb2\xa1\x02\0\x04\0" + bytes(8) + (1 << 16).to_bytes(4, "little") + (101).to_bytes(4, "little")
    for number, octets in enumerate(frames):
        seconds, rest = divmod(number, 100)
        for word in (1_700_000_000 + seconds, rest * 10_000, len(octets), len(octets)):
            file += word.to_bytes(4, "little")
        file += octets
    return file


def traffic(place: Place) -> Tuple[List[bytes], List[Tuple[int, bytes, bytes]]]:
    """The frames of requests and replies; and each request with the number of its frame and its reply, if it has one.
    Some requests are sent twice, some are not answered and some challenged."""
    rng = Random("wire")
    asked = [request(rng) for _ in range(COUNT)]
    asked = [packet for packet in asked if packet[0] == 1]
    text = b"".join(b"%d %s\n" % (at, packet.hex().encode()) for at, packet in enumerate(asked))
    answers = [line.split()[-1] for line in place.replay(text, ["--show-secrets"]).output.splitlines()]
    frames: List[bytes] = []
    wanted = []
    for at, (packet, answer) in enumerate(zip(asked, answers)):
        ports, kind = (30_000 + at, PORT), at % 4
        frames.append(frame(SOURCE, SERVER, ports, packet))
        number, sent = len(frames), b""
        if kind == 1:
            frames.append(frame(SOURCE, SERVER, ports, packet))
        if kind != 2:
            sent = reply(packet, 11, packet[1], b"") if kind == 3 else bytes.fromhex(answer.decode())
            frames.append(frame(SERVER, SOURCE, ports[::-1], sent))
        wanted.append((number, packet, sent))
    return frames, wanted


def wire_commands(root: Path) -> List[str]:
    """The commands of the section: of requests, and of requests with their replies."""
    section = (root / "docs/REPLAY.md").read_text().partition("## From the wire\n")[2].partition("\n## ")[0]
    blocks = re.findall(r"(?:^    .*\n)+", section, re.M)
    return ["\n".join(CODE.findall(block)) for block in blocks]


def records_by(folder: Path, command: str) -> List[List[str]]:
    subprocess.run(["sh", "-c", command], cwd=folder, stderr=subprocess.DEVNULL, check=True)
    return [line.split() for line in (folder / "records").read_text().splitlines()]


def check_installed(place: Place, report: Report) -> None:
    frames, wanted = traffic(place)
    (place.folder / "radius.pcap").write_bytes(capture(frames))
    alone, joined = wire_commands(place.subject.root)
    found = records_by(place.folder, alone)
    asked = [[str(number), "192.0.2.1", packet.hex()] for number, packet, _ in wanted]
    report.check("replay: requests of a capture", [] if found == asked else [f"{found}, not {asked}"])
    found = records_by(place.folder, joined)
    both = [[*words, sent.hex()] if sent else words for words, (_, _, sent) in zip(asked, wanted)]
    report.check("replay: requests and replies of a capture", [] if found == both else [f"{found}, not {both}"])
    ended = place.replay((place.folder / "records").read_bytes(), ["--against", "captured", "--show-secrets"])
    unanswered = sum(not sent for _, _, sent in wanted)
    challenged = sum(sent[:1] == b"\x0b" for _, _, sent in wanted)
    same = len(wanted) - unanswered - challenged
    counts = b"%d read, %d same, 0 different, %d unanswered, %d challenged, 0 refused\n"
    counts %= (len(wanted), same, unanswered, challenged)
    is_right = (ended.errors, ended.status) == (counts, 0)
    report.check("replay: a capture", [] if is_right else [f"{ended}, not {counts!r}"])


def check(subject: Subject, report: Report) -> None:
    if not shutil.which("tshark"):
        report.say("replay: captures are left out, there is no tshark")
        return
    with new_folder() as folder:
        check_installed(Place(subject, folder), report)
