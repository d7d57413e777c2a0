"""What a FreeRADIUS server and its tools print on loopback is read as the requests and the replies that were sent."""
import re
import shutil
import socket
import subprocess
import tempfile
import time
from contextlib import contextmanager
from pathlib import Path
from typing import Iterator, List

from common.program import run
from common.report import Report
from common.subject import Subject
from replays.served import replay
from replays.wire import records_by, wire_commands

SERVER, CLIENT, SNIFFER, CAPTURER = "freeradius", "radclient", "radsniff", "tshark"
SECRET = "testing123"
SECONDS = 60
STARTS = 15.0
CONFIGURATION = """
prefix = /usr
logdir = {folder}
run_dir = {folder}
libdir = /usr/lib/freeradius
security {{
    reject_delay = 0
}}
client here {{
    ipaddr = 127.0.0.0/8
    secret = {secret}
}}
modules {{
    always handled {{
        rcode = handled
    }}
    always reject {{
        rcode = reject
    }}
    detail {{
        filename = {folder}/radacct/detail
        permissions = 0600
        header = "%t"
        log_packet_header = yes
    }}
}}
server default {{
    listen {{
        type = auth
        ipaddr = 127.0.0.1
        port = {auth}
    }}
    listen {{
        type = acct
        ipaddr = 127.0.0.1
        port = {acct}
    }}
    authorize {{
        detail
        update control {{
            Auth-Type := Accept
        }}
        if (&User-Name == "eve") {{
            reject
        }}
        if (&User-Name == "carol") {{
            update control {{
                Response-Packet-Type := Access-Challenge
            }}
            handled
        }}
        if (&User-Name == "silent") {{
            update control {{
                Response-Packet-Type := Do-Not-Respond
            }}
            handled
        }}
        update reply {{
            Session-Timeout := 600
            Tunnel-Type:1 := VLAN
        }}
    }}
    accounting {{
        detail
    }}
}}
"""
ACCESS = """User-Name = "bob"
NAS-IPv6-Address = 2001:db8::1
Tunnel-Type:1 = VLAN

User-Name = "eve"
NAS-Port = 2

User-Name = "carol"
NAS-Port = 3
"""
SILENT = """User-Name = "silent"
NAS-Port = 4
"""
ACCOUNTING = """User-Name = "bob"
Acct-Status-Type = Start
Acct-Session-Id = "01"
"""
# Each request's user, its type, and that of its reply.
SENT = [
    ("bob", "AccessRequest", "AccessAccept"),
    ("eve", "AccessRequest", "AccessReject"),
    ("carol", "AccessRequest", "AccessChallenge"),
    ("silent", "AccessRequest", "-"),
    ("bob", "AccountingRequest", "AccountingResponse"),
]
HEAD = re.compile(r"\d+ \(\d*\) (\S+) (\w+) (\S+)( too long)?")


def ports() -> List[int]:
    """Two ports that nothing listens on."""
    with socket.socket(socket.AF_INET, socket.SOCK_DGRAM) as one, socket.socket(socket.AF_INET, socket.SOCK_DGRAM) as two:
        one.bind(("127.0.0.1", 0))
        two.bind(("127.0.0.1", 0))
        return [one.getsockname()[1], two.getsockname()[1]]


def has_said(path: Path, word: bytes) -> bool:
    end = time.monotonic() + STARTS
    while time.monotonic() < end:
        if path.exists() and word in path.read_bytes():
            return True
        time.sleep(0.05)
    return False


@contextmanager
def running(command: List[str], path: Path, word: bytes) -> Iterator[bool]:
    """A program whose output goes to a file, and whether it has said that it is ready."""
    with path.open("wb") as output:
        with subprocess.Popen(command, stdin=subprocess.DEVNULL, stdout=output, stderr=subprocess.STDOUT) as process:
            try:
                yield has_said(path, word)
            finally:
                process.terminate()


def ask(port: int, kind: str, requests: str, *words: str) -> str:
    """What the client says."""
    command = [CLIENT, "-x", *words, f"127.0.0.1:{port}", kind, SECRET]
    ended = subprocess.run(
        command, input=requests, stdout=subprocess.PIPE, stderr=subprocess.DEVNULL, text=True, timeout=SECONDS, check=False
    )
    return ended.stdout


def told(subject: Subject, text: bytes) -> "tuple[str, list]":
    """The format that a text is told to have, and each record's user, type and reply, with the source that is named."""
    lines = run(subject.drive("traffic"), subject.root, text).output.decode().splitlines()
    found: list = []
    for line in lines[1:]:
        head = HEAD.fullmatch(line)
        if head:
            found.append([None, head.group(2), head.group(3), head.group(1)])
        elif line.startswith("> User-Name = "):
            found[-1][0] = line.split('"')[1]
    return (lines[0] if lines else ""), found


def compare(subject: Subject, report: Report, name: str, wanted: str, text: bytes, sent: list) -> None:
    form, found = told(subject, text)
    records = sorted(tuple(record[:3]) for record in found)
    is_wanted = form == wanted and records == sorted(sent)
    report.check(f"traffic: {name}", [] if is_wanted else [f"{form}: {found}, not {sent}"])


def is_sniffed(path: Path) -> bool:
    """Whether the sniffer has told of the last request."""
    return has_said(path, b"Accounting-Response")


def check_walk(subject: Subject, report: Report, folder: Path, log: Path) -> None:
    """The debugger walks over a request of the log."""
    (folder / "policy").write_text('if (&User-Name == "eve") { reject }\n')
    dictionaries = sorted((subject.root / "dictionaries").glob("dictionary*"))
    words = ["-f", log, "--record", "(1)", "--policy", "policy"]
    ended = run([subject.driver("radpolicy_walk"), *words, *dictionaries], folder, b"end\nshow request\n")
    wanted = b'request\n  User-Name = "eve"\n  NAS-Port = 2\n'
    is_wanted = ended.status == 0 and wanted in ended.output and b" reject\n" in ended.output
    report.check("traffic: a walk over a request of a log", [] if is_wanted else [repr(ended)])


def check_replay(subject: Subject, report: Report, folder: Path, name: str, text: bytes) -> None:
    """What the server answered is what a policy answers that does the same."""
    ended = replay(subject, folder, text, [])
    counts = b"5 read, 3 same, 0 different, 1 unanswered, 1 challenged, 0 refused\n"
    is_right = (ended.status, ended.errors) == (0, counts)
    report.check(f"traffic: {name}, replayed", [] if is_right else [repr(ended)])


@contextmanager
def capturing(folder: Path, auth: int, acct: int) -> Iterator[bool]:
    """Captures packets, where that is installed and allowed; and whether it does."""
    if shutil.which(CAPTURER) is None:
        yield False
        return
    wanted = f"udp port {auth} or udp port {acct}"
    command = [CAPTURER, "-q", "-i", "lo", "-f", wanted, "-w", str(folder / "radius.pcap")]
    with running(command, folder / "capturer", b"Capturing on") as captures:
        yield captures


def check_packets(subject: Subject, report: Report, folder: Path, auth: int, acct: int) -> None:
    """The lines of packets that the command of docs/REPLAY.md makes of what was on the wire."""
    ports_too = f"-r radius.pcap -d udp.port=={auth},radius -d udp.port=={acct},radius"
    command = wire_commands(subject.root)[1].replace("-r radius.pcap", ports_too)
    records_by(folder, command)
    check_replay(subject, report, folder, "what is on the wire", (folder / "records").read_bytes())


def check_installed(subject: Subject, report: Report, folder: Path) -> None:
    auth, acct = ports()
    text = CONFIGURATION.format(folder=folder, secret=SECRET, auth=auth, acct=acct)
    (folder / "radiusd.conf").write_text(text)
    log, sniffed, detail = folder / "log", folder / "sniffed", folder / "radacct/detail"
    sniffer = ["stdbuf", "-oL", SNIFFER, "-x", "-i", "lo", "-s", SECRET, "-f", f"udp port {auth} or udp port {acct}"]
    with running([SERVER, "-X", "-d", str(folder)], log, b"Ready to process requests") as serves:
        if not serves:
            report.say("traffic: left out, the server does not start")
            return
        with running(sniffer, sniffed, b"Sniffing on") as sniffs, capturing(folder, auth, acct) as captures:
            time.sleep(0.5)
            said = ask(auth, "auth", ACCESS, "-p", "3") + ask(auth, "auth", SILENT, "-r", "2", "-t", "1")
            said += ask(acct, "acct", ACCOUNTING)
            sniffs = sniffs and is_sniffed(sniffed)
            time.sleep(0.5)
    compare(subject, report, "what a server prints", "DebugLog", log.read_bytes(), SENT)
    check_replay(subject, report, folder, "what a server prints", log.read_bytes())
    check_walk(subject, report, folder, log)
    compare(subject, report, "what radclient prints", "Radclient", said.encode(), SENT)
    check_replay(subject, report, folder, "what radclient prints", said.encode())
    unanswered = [(user, kind, "-") for user, kind, _ in SENT]
    compare(subject, report, "a detail file", "Detail", detail.read_bytes() if detail.exists() else b"", unanswered)
    asked = "\n".join((ACCESS, SILENT, ACCOUNTING)).encode()
    compare(subject, report, "a file of requests", "Records", asked, unanswered)
    if captures:
        check_packets(subject, report, folder, auth, acct)
    else:
        report.say("traffic: lines of packets are left out, no packets may be captured")
    if sniffs:
        compare(subject, report, "what radsniff prints", "Radsniff", sniffed.read_bytes(), SENT)
        check_replay(subject, report, folder, "what radsniff prints", sniffed.read_bytes())
    else:
        report.say("traffic: radsniff is left out, it may not listen")


def check(subject: Subject, report: Report) -> None:
    """Each format is made anew. Traffic goes to loopback alone."""
    absent = [name for name in (SERVER, CLIENT, SNIFFER) if shutil.which(name) is None]
    if absent:
        report.say(f"traffic: left out, there is no {', '.join(absent)}")
        return
    # Not in memory, where the server may not open its files.
    with tempfile.TemporaryDirectory(prefix="radpolicy-") as folder:
        check_installed(subject, report, Path(folder))
