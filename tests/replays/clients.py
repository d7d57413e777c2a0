"""Records of several clients by `radpolicy-replay --clients`: each as by the secret of its client alone."""
import ipaddress
import os
import re
from pathlib import Path
from random import Random
from typing import Dict, List, NamedTuple, Optional, Sequence

from common.program import run
from common.report import Report
from common.subject import Subject, new_folder
from fuzz.vocabulary import DICTIONARY
from replays.records import SECRET, Place, records

RECORDS = 300


class Client(NamedTuple):
    """A client, as a file has it."""

    prefix: str
    secret: bytes


CLIENTS = [
    Client("192.0.2.0/24", SECRET),
    Client("192.0.2.128/25", b"another"),
    Client("192.0.2.200", b"one-alone"),
    Client("192.0.2.0/24", b"too-late"),
    Client("2001:db8::/32", SECRET),
    Client("2001:db8:0:8000::/49", b"half"),
]
SOURCES = ["192.0.2.1", "192.0.2.127", "192.0.2.128", "192.0.2.200", "192.0.3.1"]
SOURCES += ["2001:db8::1", "2001:db8:0:8000::1", "2001:db8:0:7fff::1", "2001:db9::", "::ffff:192.0.2.1"]
LINES = "".join(f"{client.prefix} {client.secret.decode()}\n" for client in CLIENTS)
SECTIONS = "".join(
    f"client c{at} {{\n\tip{'v6' if ':' in client.prefix else ''}addr = {client.prefix}\n"
    f"\tsecret = {client.secret.decode()}\n\tshortname = nas\n}}\n"
    for at, client in enumerate(CLIENTS)
)


def client_of(source: str) -> Optional[Client]:
    """The client of an address, by Python's own networks."""
    address = ipaddress.ip_address(source)
    networks = [(ipaddress.ip_network(client.prefix), client) for client in CLIENTS]
    held = [(network.prefixlen, client) for network, client in networks if address in network]
    return max(held, key=lambda each: each[0])[1] if held else None


def with_sources(text: bytes) -> Dict[bytes, str]:
    """A source for each name of a record, none for some."""
    names = [line.split()[0] for line in text.splitlines() if line.strip()]
    return {name: Random(repr(name)).choice([*SOURCES, ""]) for name in names}


def sourced(text: bytes, sources: Dict[bytes, str]) -> bytes:
    """The same records, each with its own source alone."""
    lines = []
    for line in filter(bytes.strip, text.splitlines()):
        name, *words = line.split()
        others = [word for word in words if not re.fullmatch(rb"192\.0\.2\.1|src=2001:db8::1", word)]
        source = sources[name].encode()
        lines.append(b" ".join([name, *([b"src=" + source] if source else []), *others]) + b"\n")
    return b"".join(lines)


def said_by(place: Place, text: bytes, words: Sequence[str]) -> Dict[bytes, bytes]:
    program = place.subject.driver("radpolicy_replay")
    command = [str(program), "--policy", place.policy, *words, "--show-secrets", str(DICTIONARY)]
    ended = run(command, place.folder, text)
    return {line.split()[0]: line for line in ended.output.splitlines()}


def wanted_lines(place: Place, text: bytes, sources: Dict[bytes, str]) -> Dict[bytes, bytes]:
    """What each record's line has to be, by the secret of its client."""
    by_secret = {}
    for secret in {client.secret for client in CLIENTS}:
        (place.folder / "one").write_bytes(secret + b"\n")
        by_secret[secret] = said_by(place, text, ["-S", "one"])
    wanted = {}
    for name, source in sources.items():
        client = client_of(source) if source else None
        line = by_secret[client.secret if client else SECRET][name]
        is_read = not re.search(rb" E05 | E46 packet too long", line)
        wanted[name] = line if client or not is_read else name + b" no client"
    return wanted


def check_clients(place: Place, report: Report) -> None:
    text = records(RECORDS)
    sources = with_sources(text)
    text = sourced(text, sources)
    wanted = wanted_lines(place, text, sources)
    for name, octets in (("lines", LINES), ("sections", SECTIONS)):
        (place.folder / name).write_text(octets)
        said = said_by(place, text, ["--clients", name])
        wrong = [f"{said.get(each)!r}, not {line!r}" for each, line in wanted.items() if said.get(each) != line]
        report.check(f"replay: clients of {name}", wrong)


def check_refused(place: Place, report: Report) -> None:
    (place.folder / "wrong").write_text("192.0.2.1 testing123\n192.0.2.300 very-secret\n")
    program = place.subject.driver("radpolicy_replay")
    command: List[str] = [str(program), "--policy", place.policy, "--clients", "wrong", str(DICTIONARY)]
    ended = run(command, place.folder, b"")
    told = b"radpolicy-replay: E02 wrong:2: not an address: names of hosts are not looked up: "
    is_right = ended.status == 2 and ended.errors.startswith(told) and b"secret" not in ended.errors
    report.check("replay: a client that is not read", [] if is_right else [f"{ended}"])
    both = run([*command[:-1], "-S", "secret", command[-1]], place.folder, b"")
    report.check("replay: clients and a secret", [] if both.status == 2 and b"E01" in both.errors else [f"{both}"])


def check_pipes(place: Place, report: Report) -> None:
    """Clients from a pipe are read; a pipe that they include is not waited for."""
    program = str(place.subject.driver("radpolicy_replay"))
    (place.folder / "including").write_text('$INCLUDE "pipe"\n')
    os.mkfifo(place.folder / "pipe")
    words = [program, "--policy", place.policy, "--clients", "including", str(DICTIONARY)]
    ended = run(["timeout", "10", *words], place.folder, b"")
    is_right = ended.status == 2 and b"E02 including:1: " in ended.errors and b"neither a file nor a folder" in ended.errors
    report.check("replay: clients that include a pipe", [] if is_right else [f"{ended}"])
    words[words.index("including")] = "/dev/fd/3"
    piped = ["sh", "-c", 'cat sections | { exec 3<&0 </dev/null; timeout 10 "$@"; }', "sh", *words]
    ended = run(piped, place.folder, b"")
    report.check("replay: clients from a pipe", [] if ended.status == 0 else [f"{ended}"])
    words[words.index("--clients")] = "-S"
    piped[2] = piped[2].replace("sections", "secret")
    ended = run([*piped[:4], *words], place.folder, b"")
    report.check("replay: a secret from a pipe", [] if ended.status == 0 else [f"{ended}"])


# Files of clients of which a line can't be read: no help shows the secret.
FAULTY = [
    "192.0.2.300 {s}\n", "192.0.2.1 {s} more\n", "192.0.2.1/33 {s}\n", "192.0.2.1={s}\n", "{s} 192.0.2.1\n",
    "192.0.2.1:{s}\n", 'client a {{\nsecret = "{s}\n}}\n', "client a {{\nsecret = {s}\n}}\n",
    "client a {{\nipaddr = no.address\nsecret = {s}\n}}\n",
]


def check_faulty(place: Place, report: Report) -> None:
    wrong, secret = [], "hunter2x9Qw"
    for text in FAULTY:
        (place.folder / "faulty").write_text(text.format(s=secret))
        program = place.subject.driver("radpolicy_replay")
        words = [str(program), "--policy", place.policy, "--clients", "faulty", str(DICTIONARY)]
        ended = run(words, place.folder, b"", {"RADPOLICY_HELP": "always"})
        wrong += [] if ended.status == 2 and b"E02 faulty:" in ended.errors else [f"{text!r}: {ended}"]
        wrong += [f"{text!r}: {ended}"] if secret.encode() in ended.errors else []
    report.check("replay: no secret of a client that is not read is shown", wrong)


def check(subject: Subject, report: Report) -> None:
    with new_folder() as folder:
        place = Place(subject, Path(folder))
        for part in (check_clients, check_refused, check_pipes, check_faulty):
            part(place, report)
