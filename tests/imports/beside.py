"""Sections of a FreeRADIUS server, each in a virtual server of its own on loopback, beside what `radpolicy-import`
makes of them: the kind of the packet and the lists at the end, which the server shows where it makes the reply."""
import ipaddress
import os
import re
import shutil
import subprocess
from datetime import datetime, timezone
from pathlib import Path
from typing import Dict, List, NamedTuple, Optional, Set

from common.program import run
from common.subject import Subject, new_folder, on_all
from imports.debian import DICTIONARIES, INSTALLED, dictionary_words
from imports.served import free_ports
from library.serving import CLIENT, SECRET, SERVER, server

SECONDS = 60
LISTS = ("request", "reply", "control")
CONFIGURATION = """prefix = /usr
logdir = {folder}
run_dir = {folder}
libdir = /usr/lib/freeradius
max_requests = 1024
security {{
	max_attributes = 200
	reject_delay = 0
	status_server = no
}}
client here {{
	ipaddr = 127.0.0.1
	secret = {secret}
	Operator-Name = 1example.com
	add_cui = yes
	gss_acceptor_host_name = host
}}
modules {{
{modules}}}
policy {{
	$INCLUDE {raddb}/policy.d/
	shown {{
		"%{{debug_attr:request:}}%{{debug_attr:control:}}%{{debug_attr:reply:}}"
	}}
{policies}}}
{servers}"""
SITE = """server {name} {{
	listen {{
		type = auth
		ipaddr = 127.0.0.1
		port = {port}
	}}
	authorize {{
		update control {{
			Auth-Type := Accept
		}}
		{authorize}
	}}
	post-auth {{
		{post_auth}
		shown
		Post-Auth-Type REJECT {{
			shown
		}}
	}}
}}
"""
# What `post-auth` finds.
ACCEPTED = "control:Auth-Type = Accept\n"
NUMBERED = re.compile(r"^\((\d+)\) (.*)$", re.M)
RECEIVED = re.compile(r"Received Access-Request .* to 127\.0\.0\.1:(\d+) ")
SENT = re.compile(r"Sent (\S+) ")
HEADING = re.compile(r" +Attributes matching \"(request|reply|control):\"$")
PAIR_OF_SERVER = re.compile(r" +&(request|reply|control):(\S+) \S+ (.*)$")
PAIR = re.compile(r"  (\S+) = (.*)$")
REJECTED = re.compile(r"^result (reject|fail)\b", re.M)
ATTRIBUTE = re.compile(r"^ATTRIBUTE\s+(\S+)", re.M)
# What the client makes, and what tells a server of a rejected user which part of the section to run.
OF_SERVER = ("Message-Authenticator", "Post-Auth-Type")
# What a server adds to a request for which a condition compares what is absent.
FAILED = "Module-Failure-Message = Failed retrieving values required to evaluate condition"
ESCAPED = re.compile(rb"\\(n|r|t|[0-7]{3}|.)", re.S)
SIGNS = {b"n": b"\n", b"r": b"\r", b"t": b"\t"}
# What a server shows as a blank, and what it shows as a question mark: octets that are no UTF-8 come to the latter too.
BLANKS = re.compile(r"[\n\r]")
UNSHOWN = re.compile(r"[\x01-\x08\x0b-\x1f\x7f\udc80-\udcff]")
# A date, which only a policy of the wider profile shows so.
DATE = "%b %d %Y %H:%M:%S UTC"
# What a server shows of an attribute with tags that was given none.
NO_TAG = ":-128"
# The lines of a report that are about a section's own text.
TELLS = re.compile(r"^(?:\S*/)?parts/|: set by no line of the policy: |^\d+ of the kept depends? on a value")
# An attribute that the report tells to give a value, one that a line of a policy has, and where that line comes from.
GIVEN = re.compile(r": set by no line of the policy: &control:(\S+) ")
CONTROL = re.compile(r"control:([A-Za-z0-9-]+)")
ORIGIN = re.compile(r"  # .*?parts/[^:]+:(\d+)")


class Part(NamedTuple):
    """The text of a section, initial lists, and requests, each of one pair or more."""

    section: str
    text: str
    initial: str
    requests: List[List[str]]


class Answer(NamedTuple):
    """The kind of the packet, and the pairs of the lists at the end."""

    kind: str
    lists: Dict[str, List[str]]


class Answers(NamedTuple):
    """Of one part: those of a server, and those of the policy that is made of it, with what the report tells of it."""

    theirs: List[Answer]
    ours: List[Answer]
    told: List[str]
    report: str
    # The lines of the section of which the policy asks for a value that the report tells to give.
    asking: Set[int]


def raddb() -> Path:
    return Path(os.environ.get("RADDB", INSTALLED))


def absent() -> Optional[str]:
    """What is not installed."""
    if all(map(shutil.which, (SERVER, CLIENT))) and os.access(raddb() / "policy.d" / "filter", os.R_OK):
        return None
    return f"there is no {SERVER}, {CLIENT} or {raddb()}"


def configure(folder: Path, parts: Dict[str, Part], modules: List[str], policies: str = "") -> Dict[str, int]:
    """Writes the configuration of a server with the parts. Gives the port of each."""
    ports = dict(zip(parts, free_ports(len(parts))))
    (folder / "parts").mkdir()
    servers = ""
    for name, part in parts.items():
        (folder / "parts" / name).write_text(part.text)
        (folder / f"{name}.initial").write_text(part.initial + (ACCEPTED if part.section == "post-auth" else ""))
        called = {"authorize": "", "post_auth": "", part.section.replace("-", "_"): f"$INCLUDE {folder}/parts/{name}"}
        servers += SITE.format(name=name, port=ports[name], **called)
    included = "".join(f"\t$INCLUDE {raddb()}/mods-available/{name}\n" for name in modules)
    (folder / "radiusd.conf").write_text(CONFIGURATION.format(
        folder=folder, secret=SECRET, raddb=raddb(), modules=included, policies=policies, servers=servers))
    return ports


def is_taken(part: Part, modules: List[str], policies: str) -> bool:
    """Whether a server starts with a part."""
    with new_folder() as folder:
        configure(folder, {"part": part}, modules, policies)
        ended = subprocess.run([SERVER, "-C", "-l", "stdout", "-d", str(folder)], stdout=subprocess.DEVNULL,
                               stderr=subprocess.DEVNULL, timeout=SECONDS, check=False)
        return ended.returncode == 0


def ask(parts: Dict[str, Part], ports: Dict[str, int], at: int) -> None:
    """Sends one request of each part. What is answered is in the server's log."""
    asked = [(name, part.requests[at]) for name, part in parts.items() if at < len(part.requests)]
    packets = ["".join(f"{pair}\n" for pair in [*pairs, f"Packet-Dst-Port = {ports[name]}"]) for name, pairs in asked]
    subprocess.run([CLIENT, "-r", "1", "-t", "2", "-p", "40", "127.0.0.1", "auth", SECRET], input="\n".join(packets),
                   text=True, stdout=subprocess.DEVNULL, stderr=subprocess.DEVNULL, timeout=SECONDS, check=False,
                   env={"PATH": "/usr/bin:/bin", "TZ": "UTC"})


def signed(one: "re.Match[bytes]") -> bytes:
    """What an escape stands for."""
    return SIGNS.get(one[1], bytes([int(one[1], 8)]) if one[1].isdigit() else one[1])


def in_one_form(value: str) -> str:
    """An address of IPv6, a prefix or a date, in one form; any other value as it is."""
    try:
        return str(ipaddress.ip_interface(value)) if ":" in value else value
    except ValueError:
        pass
    try:
        return str(int(datetime.strptime(value, DATE).replace(tzinfo=timezone.utc).timestamp()))
    except ValueError:
        return value


def as_shown(name: str, value: str) -> str:
    """A pair as a server shows it: without escapes, up to an octet NUL, with signs in place of what is not shown."""
    found = value[1:-1] if value.startswith('"') else value
    plain = ESCAPED.sub(signed, found.encode()).partition(b"\0")[0].decode(errors="surrogateescape")
    shown = UNSHOWN.sub("?", BLANKS.sub(" ", plain))
    return f"{name.replace(NO_TAG, ':0')} = {in_one_form(shown)}"


def without(lists: Dict[str, List[str]], names: List[str]) -> Dict[str, List[str]]:
    """The lists without the attributes of these names, and without what a server adds."""
    return {
        name: [pair for pair in pairs if pair != FAILED and pair.partition(" = ")[0] not in names]
        for name, pairs in lists.items()
    }


def answer_of(lines: List[str]) -> Answer:
    """What the lines of a server's log say of one request."""
    kind, shown, lists = "", "", {name: [] for name in LISTS}
    for line in lines:
        heading, pair, sent = HEADING.match(line), PAIR_OF_SERVER.match(line), SENT.match(line)
        if heading:
            shown = heading[1]
            lists[shown] = []
        elif pair and pair[1] == shown:
            lists[shown].append(as_shown(pair[2], pair[3]))
        else:
            shown = ""
        kind = sent[1] if sent else kind
    # The request's, which a server puts into the list and we into the packet.
    lists["reply"] = [pair for pair in lists["reply"] if not pair.startswith("Proxy-State = ")]
    return Answer(kind, without(lists, [*OF_SERVER]))


def of_server(log: str, ports: Dict[str, int]) -> Dict[str, List[Answer]]:
    """The answers to the requests of each part, by the server's log."""
    names = {port: name for name, port in ports.items()}
    lines: Dict[str, List[str]] = {}
    for number, line in NUMBERED.findall(log):
        lines.setdefault(number, []).append(line)
    found: Dict[str, List[Answer]] = {name: [] for name in ports}
    for said in lines.values():
        received = RECEIVED.match(said[0])
        if received:
            found[names[int(received[1])]].append(answer_of(said))
    return found


def of_policy(subject: Subject, folder: Path, name: str, dictionaries: List[str], request: List[str]) -> Answer:
    others = folder / f"{name}.dictionary"
    with new_folder() as here:
        (here / "request").write_text("\n".join(["# profile: wider", *request, ""]))
        words = ["run", "-f", "request", "--policy", folder / f"{name}.policy"]
        ended = run([subject.program, *words, others, *dictionaries], here)
    said, shown, lists = ended.output.decode(), "", {name: [] for name in LISTS}
    for line in said.splitlines():
        pair = PAIR.match(line)
        if pair:
            lists[shown].append(as_shown(pair[1], pair[2]))
        shown = line if line in LISTS else shown
    kind = "Access-Reject" if REJECTED.search(said) else "Access-Accept"
    made = [*OF_SERVER, *ATTRIBUTE.findall(others.read_text())]
    return Answer(ended.errors.decode() or kind, without(lists, made))


def imported(subject: Subject, folder: Path, dictionaries: List[str], name: str, section: str) -> str:
    """The report of the import of a part's section."""
    words = ["--server", name, "--section", section, "--write-dictionary", folder / f"{name}.dictionary",
             "--stub-functions", "--initial", folder / f"{name}.initial", "-o", folder / f"{name}.policy"]
    return run([subject.driver("radpolicy_import"), *words, *dictionaries, folder], folder).errors.decode()


def asking_lines(policy: str, told: List[str]) -> Set[int]:
    """The lines of a section from which those lines of a policy come that have an attribute that one gives a value."""
    given = {found[1] for line in told for found in [GIVEN.search(line)] if found}
    lines = [(origin, set(CONTROL.findall(line))) for line in policy.splitlines() for origin in [ORIGIN.search(line)]]
    return {int(origin[1]) for origin, asked in lines if origin and given & asked}


def answers(subject: Subject, folder: Path, parts: Dict[str, Part], ports: Dict[str, int]) -> Dict[str, Answers]:
    """The answers to the requests of each part; none where a server does not start."""
    with server(folder, "UTC") as is_ready:
        for at in range(max(len(part.requests) for part in parts.values()) if is_ready else 0):
            ask(parts, ports, at)
    if not is_ready:
        return {}
    theirs = of_server((folder / "log").read_text(errors="replace"), ports)
    words = dictionary_words(Path(os.environ.get("DICTIONARIES", DICTIONARIES)))
    dictionaries = [word.split("=", 1)[1] for word in words]

    def answered(name: str) -> Answers:
        part = parts[name]
        said = imported(subject, folder, words, name, part.section)
        policy = folder / f"{name}.policy"
        if not policy.exists():
            return Answers(theirs[name], [Answer(said, {}) for _ in part.requests], [], said, set())
        ours = [of_policy(subject, folder, name, dictionaries, request) for request in part.requests]
        told = [line for line in said.splitlines() if TELLS.search(line)]
        return Answers(theirs[name], ours, told, said, asking_lines(policy.read_text(), told))

    return dict(zip(parts, on_all(answered, parts)))
