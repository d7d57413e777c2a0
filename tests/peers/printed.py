"""One request as FreeRADIUS's client, sniffer and server print it: each print is read back as the packet that was sent."""
import os
import re
import shutil
import socket
import struct
import subprocess
import time
from pathlib import Path
from typing import List, NamedTuple, Tuple

from common.program import run
from common.report import Report
from common.subject import Subject, new_folder
from peers.client import CLIENT, SECRET, dictionaries_of
from peers.wider import SECONDS, SERVER, free_port, server

SNIFFER = "radsniff"
REQUEST = """User-Name = "bob"
User-Password = "hello"
Tunnel-Type:0 = VLAN
Tunnel-Medium-Type:0 = IEEE-802
Tunnel-Private-Group-Id:0 = "20"
Tunnel-Type:1 = VLAN
Tunnel-Private-Group-Id:1 = "30"
Tunnel-Private-Group-Id:2 = "forty"
NAS-IPv6-Address = 2001:db8::1
Framed-IPv6-Prefix = 2001:db8:1::/64
Attr-97 = 0x002020010db8
Framed-Interface-Id = 1:2:3:4
Event-Timestamp = "Nov  4 2026 10:00:00 UTC"
Chargeable-User-Identity = "c"
Cisco-AVPair = "a=\\"b\\""
Message-Authenticator = 0x00
Proxy-State = 0x0102
"""
DICTIONARY = "ATTRIBUTE Chargeable-User-Identity 89 octets\n"
PREFIX = 97
MESSAGE_AUTHENTICATOR = 80


class Print(NamedTuple):
    """Lines of attributes, and who printed them."""

    name: str
    lines: List[str]


def attributes_of(octets: bytes) -> List[Tuple[int, bytes]]:
    """The attributes of a packet in order of their numbers; prefixes whole, and a digest without its value."""
    found, at = [], 20
    while at < len(octets):
        kind, length = octets[at], octets[at + 1]
        value = octets[at + 2 : at + length]
        if kind == PREFIX:
            value = value.ljust(18, b"\0")
        found.append((kind, b"" if kind == MESSAGE_AUTHENTICATOR else value))
        at += length
    return sorted(found)


def sent_by_client() -> Tuple[bytes, Print]:
    """The packet that the client sends, and what it prints of it."""
    with socket.socket(socket.AF_INET, socket.SOCK_DGRAM) as here:
        here.bind(("127.0.0.1", 0))
        here.settimeout(SECONDS)
        command = [CLIENT, "-r", "1", "-t", "1", "-x", f"127.0.0.1:{here.getsockname()[1]}", "auth", SECRET]
        pipes = {"stdin": subprocess.PIPE, "stdout": subprocess.PIPE, "stderr": subprocess.STDOUT}
        with subprocess.Popen(command, text=True, env={"PATH": os.environ["PATH"], "TZ": "UTC"}, **pipes) as client:
            client.stdin.write(REQUEST)
            client.stdin.close()
            octets = here.recvfrom(4096)[0]
            said = client.stdout.read()
    lines = [line[1:] for line in said.splitlines() if line.startswith("\t")]
    # What it was given in clear, which it does not send.
    return octets, Print("radclient -x", [line for line in lines if not line.startswith("Cleartext-Password")])


def capture_of(octets: bytes) -> bytes:
    """A capture file with one UDP packet from 10.0.0.1 to port 1812 of 10.0.0.2, over Ethernet."""
    datagram = struct.pack(">HHHH", 40000, 1812, 8 + len(octets), 0) + octets
    addresses = bytes([10, 0, 0, 1, 10, 0, 0, 2])
    head = struct.pack(">BBHHHBBH", 0x45, 0, 20 + len(datagram), 1, 0, 64, 17, 0) + addresses
    frame = bytes(12) + b"\x08\x00" + head + datagram
    file = struct.pack("<IHHiIII", 0xA1B2C3D4, 2, 4, 0, 0, 65535, 1)
    return file + struct.pack("<IIII", 1_780_000_000, 0, len(frame), len(frame)) + frame


def sniffed(folder: Path, octets: bytes) -> Print:
    (folder / "capture").write_bytes(capture_of(octets))
    command = [SNIFFER, "-x", "-I", "capture", "-s", SECRET]
    said = subprocess.run(command, cwd=folder, capture_output=True, timeout=SECONDS, env={"PATH": os.environ["PATH"], "TZ": "UTC"}, check=False)
    lines = [line[1:] for line in said.stdout.decode().splitlines() if line.startswith("\t")]
    return Print("radsniff -x", [line for line in lines if not line.startswith("Authenticator-Field")])


def received(folder: Path, octets: bytes, zone: str) -> Print:
    """What a server in this time zone prints of the packet."""
    port = free_port()
    with server(folder, port, "", zone) as is_ready:
        if is_ready:
            with socket.socket(socket.AF_INET, socket.SOCK_DGRAM) as here:
                here.settimeout(SECONDS)
                here.sendto(octets, ("127.0.0.1", port))
                here.recvfrom(4096)
            time.sleep(0.2)
    said = (folder / "log").read_text(errors="replace")
    part = said.partition("(0) Received Access-Request")[2].partition("(0) # Executing")[0]
    return Print(f"a server in {zone}", [line[6:] for line in part.splitlines()[1:] if line.startswith("(0)   ")])


def encoded(subject: Subject, folder: Path, octets: bytes, lines: List[str]) -> Tuple[bytes, str]:
    """The packet of the lines, with the head of what was sent; and what is said of them on standard error."""
    (folder / "lines").write_text("# profile: wider\n" + "".join(line + "\n" for line in lines))
    words = ["encode", "-f", "lines", "-S", "secret", "-i", str(octets[1]), "--authenticator", octets[4:20].hex()]
    ended = run([subject.program, *words, *dictionaries_of(subject, folder)], folder, b"")
    found = re.search(r"packet ([0-9a-f]+)", ended.output.decode())
    return bytes.fromhex(found[1]) if found else b"", ended.errors.decode().strip()


def walked(subject: Subject, folder: Path, lines: List[str], zone: List[str]) -> bytes:
    """The request list that the debugger shows of the lines, with its options for a zone."""
    (folder / "walked").write_text("# profile: wider\n" + "".join(line + "\n" for line in lines))
    (folder / "empty").write_text("")
    (folder / "script").write_text("show request\n")
    words = ["-f", "walked", *zone, "--policy", "empty", "--script", "script", "--show-secrets"]
    return run([subject.driver("radpolicy_walk"), *words, *dictionaries_of(subject, folder)], folder, b"").output


def check(subject: Subject, report: Report) -> None:
    missing = [name for name in (CLIENT, SERVER, SNIFFER) if shutil.which(name) is None]
    if missing:
        report.say(f"what FreeRADIUS prints: not tried, there is no {missing[0]}")
        return
    with new_folder() as folder:
        (folder / "secret").write_text(SECRET + "\n")
        (folder / "dictionary.local").write_text(DICTIONARY)
        octets, by_client = sent_by_client()
        wanted = attributes_of(octets)
        by_server = received(folder, octets, "UTC")
        for printed in (by_client, sniffed(folder, octets), by_server):
            packet, said = encoded(subject, folder, octets, printed.lines)
            wrong = [] if packet and attributes_of(packet) == wanted else [f"{printed.lines} is {packet.hex()} {said}"]
            report.check(f"the request as {printed.name} prints it", wrong)
        # A zone's name says no offset.
        elsewhere = received(folder, octets, "Europe/Berlin")
        dates = [at for at, line in enumerate(elsewhere.lines, 2) if line.startswith("Event-Timestamp")]
        said = encoded(subject, folder, octets, elsewhere.lines)[1]
        place = f"radpolicy: E30 request:{dates[0] if dates else 0}: not a value"
        report.check("the date of another zone is refused", [] if said == place else [f"{elsewhere.lines}: {said}"])
        here, there = walked(subject, folder, by_server.lines, []), walked(subject, folder, elsewhere.lines, ["--zone", "+01:00"])
        is_same = here == there and b'Event-Timestamp = "Nov  4 2026 10:00:00 UTC"' in here
        report.check("with the zone's offset it is the same request", [] if is_same else [f"{here!r}, {there!r}"])
