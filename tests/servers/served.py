"""Policies at random in a FreeRADIUS server on loopback, and what it makes of their requests."""
import hashlib
import os
import re
import socket
import struct
import time
from pathlib import Path
from typing import Dict, List, NamedTuple, Sequence, Tuple

from library.serving import SECONDS
from servers.drawing import NAMES, Drawing
from servers.trees import (
    ADDRESS, NUMBER, OCTETS, STRING, Literal, Statement, policies_in_words, statements_in_words,
)

DICTIONARIES = Path("/usr/share/freeradius")
SEED = 20_261_130
REQUESTS = 10
SECRET = b"testing123"
# Of these the server tells where a policy was left, and which of the requests it was.
CASE, PLACE = "NAS-Identifier", "NAS-Port-Id"
NUMBERS = {
    "User-Name": 1, "NAS-IP-Address": 4, "NAS-Port": 5, "Service-Type": 6, "Framed-IP-Address": 8, "Filter-Id": 11,
    "Callback-Number": 19, "Class": 25, "Session-Timeout": 27, "Calling-Station-Id": 31, CASE: 32, PLACE: 87,
}
KINDS = {
    **dict.fromkeys(("User-Name", "Filter-Id", "Callback-Number", "Calling-Station-Id", CASE, PLACE), STRING),
    **dict.fromkeys(("NAS-Port", "Service-Type", "Session-Timeout"), NUMBER), "Class": OCTETS,
    **dict.fromkeys(("NAS-IP-Address", "Framed-IP-Address"), ADDRESS),
}
CODES = ("reject", "fail", "ok", "handled", "invalid", "userlock", "notfound", "noop", "updated")
ACCEPTED = ("ok", "notfound", "noop", "updated")
ACCESS = ("authorize", "post-auth")
SECTIONS = ("authorize", "authorize", "authorize", "post-auth", "preacct", "accounting")
CONFIGURATION = """prefix = /usr
logdir = {folder}
run_dir = {folder}
libdir = /usr/lib/freeradius
max_requests = 65536
cleanup_delay = 0
hostname_lookups = no
security {{
	max_attributes = 200
	reject_delay = 0
	status_server = no
}}
thread pool {{
	start_servers = 1
	max_servers = 1
	min_spare_servers = 1
	max_spare_servers = 1
	max_queue_size = 65536
}}
client here {{
	ipaddr = 127.0.0.1
	secret = {secret}
}}
modules {{
	$INCLUDE {folder}/modules
	expr {{
	}}
}}
policy {{
{policies}
	tell {{
{telling}
	}}
}}
{servers}
server asked {{
	listen {{
		type = auth
		ipaddr = 127.0.0.1
		port = {port}
	}}
	listen {{
		type = acct
		ipaddr = 127.0.0.1
		port = {accounting_port}
	}}
{sections}
}}
"""
SECTION = """{section} {{
	switch &{case} {{
{cases}
	}}
	{last}
}}
"""
ACCEPT = """update control {
	&Auth-Type := Accept
}
"""
ALWAYS = """always {code} {{
	rcode = {code}
}}
"""
TELLING = """linelog tell_{code} {{
	filename = {folder}/told.{code}
	format = "%{{{case}}} %{{{place}}} {code}|%{{pairs:request:}}|%{{pairs:reply:}}|%{{pairs:control:}}"
}}
"""
# The code of the policy is the one that the case begins the telling with, and ends with.
TOLD = """if ({code}) {{
	update request {{
		&Module-Failure-Message !* ANY
	}}
	tell_{code}
}}
"""
CALLED = """case "{name}" {{
	tell_before
	group {{
		server[{name}]
{priorities}
	}}
	tell
}}
"""
PAIR = re.compile(r'([\w-]+) = ("(?:[^"\\]|\\.)*"|[^,]*)(?:, |$)')


class Left(NamedTuple):
    """What a policy left, each pair as it is printed."""

    code: str
    request: List[str]
    reply: List[str]
    control: List[str]


class Told(NamedTuple):
    """What there was before a policy, and what it left."""

    before: Left
    after: Left


# The names and values of a request.
Sent = Sequence[Tuple[str, Literal]]


class Case(NamedTuple):
    """A policy, the section that it is run in, and its requests."""

    name: str
    section: str
    policy: List[Statement]
    requests: List[Sent]


class Asked(NamedTuple):
    """A request of a policy, and its place among those."""

    case: Case
    place: int
    sent: Sent


def drawn(number: int) -> Case:
    name = f"p{number}"
    drawing = Drawing(f"{SEED} {number}", name)
    section = SECTIONS[number % len(SECTIONS)]
    return Case(name, section, drawing.policy(), [drawing.request() for _ in range(REQUESTS)])


# ---- the server's dictionaries

def lines_of(path: Path) -> List[List[str]]:
    """The words of a dictionary file's lines, each include followed by its file's."""
    lines = []
    for line in path.read_text(errors="replace").splitlines():
        words = line.split("#")[0].split()
        if words[:1] == ["$INCLUDE"]:
            lines += lines_of(path.parent / words[1])
        elif words:
            lines.append(words)
    return lines


class Dictionaries(NamedTuple):
    """What the server's dictionaries say of the attributes of the policies, in their order."""

    lines: List[List[str]]

    @property
    def order(self) -> List[str]:
        return [words[1] for words in self.lines if words[0] == "ATTRIBUTE"]

    @property
    def services(self) -> Dict[int, str]:
        return {int(words[3], 0): words[2] for words in self.lines if words[:2] == ["VALUE", "Service-Type"]}


def dictionaries() -> Dictionaries:
    kept = ("ATTRIBUTE", "VALUE")
    names = (*(name for names in NAMES.values() for name in names), CASE, PLACE)
    lines = lines_of(DICTIONARIES / "dictionary")
    return Dictionaries([words for words in lines if words[0] in kept and words[1] in names])


# ---- the server

def configure(folder: Path, cases: Sequence[Case], ports: Sequence[int]) -> None:
    told_codes = (*CODES, "before")
    modules = "".join(ALWAYS.format(code=code) for code in CODES)
    modules += "".join(TELLING.format(code=code, folder=folder, case=CASE, place=PLACE) for code in told_codes)
    (folder / "modules").write_text(modules)
    for code in told_codes:
        # The server makes no file in memory.
        (folder / f"told.{code}").touch()
    telling = "els".join(TOLD.format(code=code) for code in CODES)
    priorities = "\n".join(f"\t\t{code} = 50" for code in CODES)
    servers = "".join(
        f"server {case.name} {{\n{case.section} {{\n{statements_in_words(case.policy)}}}\n}}\n" for case in cases)
    sections = ""
    for section in dict.fromkeys(SECTIONS):
        called = [CALLED.format(name=case.name, priorities=priorities) for case in cases if case.section == section]
        last = ACCEPT if section == "authorize" else ""
        sections += SECTION.format(section=section, case=CASE, cases="".join([*called, "case {\n}\n"]), last=last)
    policies = "".join(policies_in_words(case.policy) for case in cases)
    (folder / "radiusd.conf").write_text(CONFIGURATION.format(
        folder=folder, secret=SECRET.decode(), telling=telling, servers=servers, port=ports[0],
        accounting_port=ports[1], sections=sections, policies=policies))


def octets_of(literal: Literal) -> bytes:
    if literal.kind == STRING:
        return literal.text.encode()
    if literal.kind == OCTETS:
        return bytes.fromhex(literal.text[2:])
    if literal.kind == NUMBER:
        return struct.pack("!I", int(literal.text))
    return socket.inet_aton(literal.text)


def packet(identifier: int, section: str, sent: Sequence[Tuple[str, Literal]]) -> bytes:
    attributes = b""
    for name, literal in sent:
        octets = octets_of(literal)
        attributes += bytes([NUMBERS[name], len(octets) + 2]) + octets
    if section in ACCESS:
        return struct.pack("!BBH", 1, identifier, 20 + len(attributes)) + os.urandom(16) + attributes
    head = struct.pack("!BBH", 4, identifier, 20 + len(attributes))
    return head + hashlib.md5(head + bytes(16) + attributes + SECRET).digest() + attributes


def in_words(services: Dict[int, str], name: str, octets: bytes) -> str:
    """An attribute of a reply as the program prints it."""
    kind = KINDS[name]
    if kind == STRING:
        return f'{name} = "{octets.decode()}"'
    if kind == OCTETS:
        return f"{name} = 0x{octets.hex()}"
    if kind == ADDRESS:
        return f"{name} = {socket.inet_ntoa(octets)}"
    number = int.from_bytes(octets, "big")
    return f"{name} = {services.get(number, number) if name == 'Service-Type' else number}"


def reply_in_words(services: Dict[int, str], reply: bytes) -> List[str]:
    if not reply:
        return ["nothing"]
    names = {number: name for name, number in NUMBERS.items()}
    words, at = ["accepted" if reply[0] == 2 else "rejected"], 20
    while at < len(reply):
        number, length = reply[at], reply[at + 1]
        # What an Access-Accept has before all else is no attribute of the list.
        if number in names:
            words.append(in_words(services, names[number], reply[at + 2:at + length]))
        at += length
    return words


def full(asked: Asked) -> Sent:
    """A request with what tells it from others."""
    return [*asked.sent, (CASE, Literal(asked.case.name, STRING)), (PLACE, Literal(str(asked.place), STRING))]


def replies(ports: Sequence[int], folder: Path, asked: Sequence[Asked], wanted: int) -> Dict[int, bytes]:
    """The replies to requests with the identifiers 0, 1, .., once the server has told so many lines in all."""
    found: Dict[int, bytes] = {}
    with socket.socket(socket.AF_INET, socket.SOCK_DGRAM) as client:
        client.bind(("127.0.0.1", 0))
        client.settimeout(0.2)
        for identifier, it in enumerate(asked):
            port = ports[0] if it.case.section in ACCESS else ports[1]
            client.sendto(packet(identifier, it.case.section, full(it)), ("127.0.0.1", port))
        end = time.monotonic() + SECONDS
        answered = sum(it.case.section == "authorize" for it in asked)
        while time.monotonic() < end and (told_lines(folder) < wanted or len(found) < answered):
            try:
                reply, _ = client.recvfrom(4096)
            except socket.timeout:
                continue
            if asked[reply[1]].case.section == "authorize":
                found[reply[1]] = reply
    return found


def told_lines(folder: Path) -> int:
    return sum(file.read_bytes().count(b"\n") for file in folder.glob("told.*"))


def told(folder: Path, names: Sequence[str]) -> Dict[Tuple[str, str], Told]:
    """By the name of the case and the place of the request, the pairs with these names."""
    found: Dict[Tuple[str, str], Dict[bool, Left]] = {}
    for line in "".join(file.read_text() for file in folder.glob("told.*")).splitlines():
        head, *lists = line.split("|")
        case, place, code = head.split(" ")
        pairs = [[f"{name} = {value}" for name, value in PAIR.findall(text) if name in names] for text in lists]
        found.setdefault((case, place), {})[code == "before"] = Left(code, *pairs)
    return {key: Told(both[True], both[False]) for key, both in found.items() if len(both) == 2}
