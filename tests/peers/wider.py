"""Policies whose first line is `# profile: wider` beside a FreeRADIUS server: what both send, as radclient prints it."""
import shutil
import socket
import subprocess
import time
from contextlib import contextmanager
from pathlib import Path
from typing import Iterator, List, NamedTuple

from common.program import run
from common.report import Report
from common.subject import Subject, new_folder
from peers.client import CLIENT, SECRET, dictionaries_of, reply_to

SERVER = "freeradius"
SECONDS = 30
REQUEST = """# profile: wider
User-Name = {name}
User-Password = "hello"
Tunnel-Type:1 = VLAN
Tunnel-Medium-Type:1 = IEEE-802
Tunnel-Private-Group-Id:1 = "20"
Tunnel-Type:2 = GRE
Tunnel-Medium-Type:2 = IPv4
Tunnel-Private-Group-Id:2 = "30"
NAS-IPv6-Address = 2001:db8::1
Framed-IPv6-Prefix = 2001:db8:1::/64
Framed-Interface-Id = 1:2:3:4
Event-Timestamp = "Nov 24 2026 10:00:00 UTC"
"""
TRUTHS = """&Tunnel-Type == VLAN|&Tunnel-Type == 13|&Tunnel-Type > 12|&Tunnel-Type == GRE|&Tunnel-Private-Group-Id == "20"
&Tunnel-Type:1 == VLAN|&Tunnel-Private-Group-Id:2 == "30"|&Tunnel-Medium-Type:2|&Tunnel-Medium-Type:3|&Tunnel-Type:0
&NAS-IPv6-Address == 2001:0db8:0:0::0001|&NAS-IPv6-Address == "2001:db8::1"|&NAS-IPv6-Address < 2001:db8::2
&NAS-IPv6-Address < 2001:db8::/32|&NAS-IPv6-Address != 2001:db8::1|&NAS-IPv6-Address != 2001:db8::2
&Framed-IPv6-Prefix <= 2001:db8::/32|&Framed-IPv6-Prefix < 2001:db8::/32|&Framed-IPv6-Prefix == 2001:db8:1::/64
&Framed-IPv6-Prefix != 2001:db9::/32|&Framed-Interface-Id == 1:2:3:4|&Event-Timestamp == "Nov 24 2026 10:00:00 UTC"
&Event-Timestamp < "Nov 24 2026 10:00:01 UTC\""""
TEXTS = "Tunnel-Type|Tunnel-Type:2|Tunnel-Private-Group-Id:2|NAS-IPv6-Address|Framed-IPv6-Prefix|Framed-Interface-Id"
GROUPS = 'Tunnel-Private-Group-Id := "20"', 'Tunnel-Private-Group-Id:2 += "40"', 'Tunnel-Private-Group-Id:3 += "%{User-Name}"'
MEDIA = "Tunnel-Medium-Type:1 := IEEE-802", "Tunnel-Medium-Type:2 := IEEE-802", "Tunnel-Medium-Type:3 := IPv4"
# Each update's lines are those of one request.
UPDATES = [
    ["Tunnel-Type:1 := VLAN", "Tunnel-Medium-Type := IEEE-802", "Tunnel-Preference:4 := 500"],
    [*GROUPS],
    ["Tunnel-Type:1 := VLAN", "Tunnel-Type:2 := GRE"],
    [*MEDIA, "Tunnel-Medium-Type:1 -= IEEE-802"],
    [*MEDIA, "Tunnel-Medium-Type -= IEEE-802"],
    [*MEDIA, "Tunnel-Medium-Type:2 !* ANY"],
    [*MEDIA, "Tunnel-Medium-Type !* ANY"],
    [*MEDIA, "Tunnel-Medium-Type = IPv6"],
    [*MEDIA, "Tunnel-Medium-Type:4 = IPv6"],
    ["Tunnel-Type:2 := &request:Attr-64", "Attr-65 := &request:Tunnel-Medium-Type:1"],
    ["Tunnel-Type:01 := VLAN", 'Event-Timestamp := "Nov 04 2026 10:00:00 UTC"'],
    ["Tunnel-Type:5 := &request:Tunnel-Type", "Tunnel-Private-Group-Id := &request:Tunnel-Private-Group-Id:2"],
    ["Framed-IPv6-Prefix := 2001:db8:1:2:3::1/64", "Framed-Interface-Id := 1:2:3:4", "PMIP6-Home-IPv4-HoA := 10.0.0.0/8"],
    ["Framed-IPv6-Prefix := ::/0008", "PMIP6-Home-IPv4-HoA := 10.0.0.0/0008"],
    ["Login-IPv6-Host := 2001:db8:0:0:1::", 'Event-Timestamp := "Nov  4 2026 10:00:00 UTC"'],
    ["NAS-IPv6-Address := &request:NAS-IPv6-Address", 'Login-IPv6-Host := "%{request:NAS-IPv6-Address}"'],
]
# What the repository's dictionaries lack.
DICTIONARY = """ATTRIBUTE MIP6-Feature-Vector 124 integer64
ATTRIBUTE PMIP6-Home-IPv4-HoA 155 ipv4prefix
ATTRIBUTE Module-Failure-Message 1076 string
VALUE Tunnel-Type GRE 10
VALUE Tunnel-Medium-Type IPv4 1
VALUE Tunnel-Medium-Type IPv6 2
"""
CONFIGURATION = """prefix = /usr
logdir = {folder}
run_dir = {folder}
libdir = /usr/lib/freeradius
max_requests = 1024
security {{
	max_attributes = 200
	reject_delay = 0
	status_server = no
}}
client here {{
	ipaddr = 127.0.0.1
	secret = {secret}
}}
modules {{
}}
server default {{
	listen {{
		type = auth
		ipaddr = 127.0.0.1
		port = {port}
	}}
	authorize {{
		update control {{
			Auth-Type := Accept
		}}
{policy}
	}}
}}
"""


class Case(NamedTuple):
    """What a policy does for one user."""

    name: str
    lines: str


def cases() -> List[Case]:
    truths = TRUTHS.replace("\n", "|").split("|")
    asked = "".join(f'if ({truth}) {{\nupdate reply {{\nReply-Message += "{at}"\n}}\n}}\n' for at, truth in enumerate(truths))
    texts = "".join(f'Reply-Message += "%{{{name}}}"\n' for name in TEXTS.split("|"))
    updates = ["".join(f"{line}\n" for line in lines) for lines in UPDATES]
    made = [asked] + [f"update reply {{\n{lines}}}\n" for lines in (texts, *updates)]
    return [Case(f"case-{at}", lines) for at, lines in enumerate(made)]


def policy_of(given: List[Case]) -> str:
    return "# profile: wider\n" + "".join(f'if (&User-Name == "{case.name}") {{\n{case.lines}}}\n' for case in given)


def free_port() -> int:
    with socket.socket(socket.AF_INET, socket.SOCK_DGRAM) as found:
        found.bind(("127.0.0.1", 0))
        return found.getsockname()[1]


def configure(folder: Path, port: int, policy: str) -> None:
    """Writes the configuration of a server with the policy in `authorize`."""
    text = CONFIGURATION.format(folder=folder, port=port, secret=SECRET, policy=policy)
    (folder / "radiusd.conf").write_text(text)


@contextmanager
def server(folder: Path, port: int, policy: str, zone: str = "UTC") -> Iterator[bool]:
    """A server in this time zone, with the policy in `authorize`; whether it is ready."""
    configure(folder, port, policy)
    log = folder / "log"
    command = [SERVER, "-fxx", "-l", "stdout", "-d", str(folder)]
    environment = {"PATH": "/usr/sbin:/usr/bin:/sbin:/bin", "TZ": zone}
    with log.open("wb") as said, subprocess.Popen(command, stdout=said, stderr=said, env=environment) as running:
        try:
            end = time.monotonic() + SECONDS
            while b"Ready to process requests" not in log.read_bytes():
                if running.poll() is not None or time.monotonic() > end:
                    break
                time.sleep(0.1)
            yield b"Ready to process requests" in log.read_bytes()
        finally:
            running.kill()


def printed_by_client(text: str) -> List[str]:
    """The attributes of the reply, as the client prints them."""
    after = text.partition("Received Access-Accept")[2].splitlines()[1:]
    lines = [line.strip() for line in after if line.startswith("\t")]
    return [line for line in lines if not line.startswith("Message-Authenticator")]


def asked(port: int) -> "subprocess.Popen[str]":
    command = [CLIENT, "-r", "1", "-t", str(SECONDS), "-x", f"127.0.0.1:{port}", "auth", SECRET]
    pipes = {"stdin": subprocess.PIPE, "stdout": subprocess.PIPE, "stderr": subprocess.STDOUT}
    return subprocess.Popen(command, text=True, env={"PATH": "/usr/bin:/bin", "TZ": "UTC"}, **pipes)


def of_server(port: int, request: str) -> List[str]:
    with asked(port) as client:
        return printed_by_client(client.communicate(request, timeout=SECONDS)[0])


def of_program(subject: Subject, folder: Path, request: str) -> List[str]:
    """The same, of the packet that the program sends in the server's place."""
    with socket.socket(socket.AF_INET, socket.SOCK_DGRAM) as here:
        here.bind(("127.0.0.1", 0))
        here.settimeout(SECONDS)
        with asked(here.getsockname()[1]) as client:
            client.stdin.write(request)
            client.stdin.close()
            octets, sender = here.recvfrom(4096)
            here.sendto(reply_to(subject, folder, octets), sender)
            return printed_by_client(client.stdout.read())


def printed_by_program(subject: Subject, folder: Path, request: str) -> List[str]:
    """The reply list, as `run` prints it of the request's lines."""
    (folder / "request").write_text(request)
    words = ["run", "-f", "request", "--policy", "policy"]
    ended = run([subject.program, *words, *dictionaries_of(subject, folder)], folder, b"")
    if ended.status != 0:
        return [ended.errors.decode()]
    said = ("\n" + ended.output.decode().partition("\nreply\n")[2]).partition("\ncontrol\n")[0]
    return [line.strip() for line in said.splitlines()[1:]]


def check(subject: Subject, report: Report) -> None:
    if shutil.which(CLIENT) is None or shutil.which(SERVER) is None:
        report.say(f"the wider profile beside a server: not tried, there is no {SERVER} or no {CLIENT}")
        return
    given = cases()
    with new_folder() as folder:
        (folder / "secret").write_text(SECRET + "\n")
        (folder / "policy").write_text(policy_of(given))
        (folder / "dictionary.local").write_text(DICTIONARY)
        port = free_port()
        with server(folder, port, policy_of(given)) as is_ready:
            report.check("the server takes the policy", [] if is_ready else [(folder / "log").read_text()[-2000:]])
            for case in given if is_ready else []:
                request = REQUEST.format(name=case.name)
                wanted = of_server(port, request)
                sent = of_program(subject, folder, request)
                printed = printed_by_program(subject, folder, request)
                wrong = [f"it sends {sent}, a server {wanted}"] if sent != wanted else []
                wrong += [f"it prints {printed}, radclient {wanted}"] if printed != wanted else []
                report.check(f"the wider profile beside a server: {case.name}", wrong)
