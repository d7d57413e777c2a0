"""FreeRADIUS's own client, whose request is answered with the packet of `run --hex`."""
import shutil
import socket
import subprocess
from pathlib import Path
from typing import List, Optional, Tuple

from common.program import run
from common.report import Report
from common.subject import Subject, new_folder

CLIENT = "radclient"
SECRET = "testing123"
POLICY = """update reply { Reply-Message := "hello" Session-Timeout := 60 }
if (&User-Name == "eve") { reject }
"""
SIGNED = "User-Name = {}, User-Password = hello, Message-Authenticator = 0x00\n"
STARTED = "User-Name = bob, Acct-Status-Type = Start\n"
# In a signed reply the Response Authenticator is at 4 to 19, and the Message-Authenticator's value at 22 to 37.
TURNED = (4, 19, 22, 37, 38)
REFUSED = "Reply verification failed"
VERDICTS = ("Received ", REFUSED, "No reply")
SECONDS = 60


def dictionaries_of(subject: Subject, folder: Path) -> List[Path]:
    """The dictionaries of the repository, and the folder's own."""
    return [*sorted((subject.root / "dictionaries").glob("dictionary*")), *folder.glob("dictionary.local")]


def reply_to(subject: Subject, folder: Path, octets: bytes) -> bytes:
    """The packet that the program sends in reply; no octets where it sends none."""
    words = ["run", "--hex", "-S", "secret", "--policy", "policy"]
    ended = run([subject.program, *words, *dictionaries_of(subject, folder)], folder, octets.hex().encode())
    packets = [line.split()[1] for line in ended.output.decode().splitlines() if line.startswith("packet ")]
    return bytes.fromhex(packets[0]) if packets and packets[0] != "none" else b""


def answer(subject: Subject, folder: Path, server: socket.socket, turned: Optional[int]) -> None:
    """Answers one request, with one octet of the reply turned where that is wanted."""
    octets, client = server.recvfrom(4096)
    reply = bytearray(reply_to(subject, folder, octets))
    if turned is not None:
        reply[turned] ^= 1
    server.sendto(reply, client)


def said(subject: Subject, folder: Path, kind: str, lines: str, turned: Optional[int]) -> str:
    """What the client says, up to the line that judges the reply."""
    heard: List[str] = []
    with socket.socket(socket.AF_INET, socket.SOCK_DGRAM) as server:
        server.bind(("127.0.0.1", 0))
        server.settimeout(SECONDS)
        at = f"127.0.0.1:{server.getsockname()[1]}"
        command = [CLIENT, "-r", "1", "-t", str(SECONDS), "-x", at, kind, SECRET]
        pipes = {"stdin": subprocess.PIPE, "stdout": subprocess.PIPE, "stderr": subprocess.STDOUT}
        with subprocess.Popen(command, text=True, **pipes) as client:
            client.stdin.write(lines)
            client.stdin.close()
            try:
                answer(subject, folder, server, turned)
                for line in client.stdout:
                    heard.append(line)
                    if any(verdict in line for verdict in VERDICTS):
                        break
            finally:
                client.kill()
    return "".join(heard)


def check(subject: Subject, report: Report) -> None:
    """Signed replies are accepted, and refused with one octet turned; an Accounting-Response is accepted."""
    if shutil.which(CLIENT) is None:
        report.say(f"FreeRADIUS's client: not tried, there is no {CLIENT}")
        return
    bob = SIGNED.format("bob")
    wanted: List[Tuple[str, str, str, str, Optional[int]]] = [
        ("a signed accept", "auth", bob, "Received Access-Accept", None),
        ("a signed reject", "auth", SIGNED.format("eve"), "Received Access-Reject", None),
        ("an accounting response", "acct", STARTED, "Received Accounting-Response", None),
        *((f"a signed accept, its octet {at} turned", "auth", bob, REFUSED, at) for at in TURNED),
    ]
    with new_folder() as folder:
        (folder / "secret").write_text(SECRET + "\n")
        (folder / "policy").write_text(POLICY)
        for name, kind, lines, word, turned in wanted:
            heard = said(subject, folder, kind, lines, turned)
            # What it says of a reply that it refuses begins with the refusal, and then names the reply as received.
            is_wanted = word in heard and (word == REFUSED or REFUSED not in heard)
            report.check(f"FreeRADIUS's client: {name}", [] if is_wanted else [f"it says {heard!r}"])
