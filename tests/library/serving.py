"""A FreeRADIUS server on loopback with the module of examples/freeradius, and a client that asks it."""
import shutil
import subprocess
import time
from contextlib import contextmanager
from pathlib import Path
from typing import Iterator, List, Optional, Tuple

from common.subject import Subject
from library.building import missing

SERVER, CLIENT = "freeradius", "radclient"
MODULE = Path("/usr/lib/freeradius/rlm_python3.so")
DICTIONARIES = Path("/usr/share/freeradius")
SECRET = "testing123"
SECONDS = 60
HEAD = """prefix = /usr
confdir = {folder}
modconfdir = {folder}/mods-config
logdir = {folder}
run_dir = {folder}
libdir = /usr/lib/freeradius
max_requests = 4096
security {{
	max_attributes = 200
	reject_delay = 0
	status_server = no
}}
client here {{
	ipaddr = 127.0.0.1
	secret = {secret}
}}
thread pool {{
	start_servers = 4
	max_servers = 4
	min_spare_servers = 1
	max_spare_servers = 4
}}
"""


def copy_module(subject: Subject, folder: Path) -> str:
    """Copies the module to its place, and gives the text that configures it."""
    example = subject.root / "examples" / "freeradius"
    for name in ("mods-available", "mods-config/python3", "radpolicy"):
        (folder / name).mkdir(parents=True, exist_ok=True)
    shutil.copy(example / "radpolicy_module.py", folder / "mods-config" / "python3")
    return (example / "mods-available" / "radpolicy").read_text()


@contextmanager
def server(folder: Path, zone: str) -> Iterator[bool]:
    """A server with threads; whether it is ready."""
    log = folder / "log"
    environment = {"PATH": "/usr/sbin:/usr/bin:/sbin:/bin", "TZ": zone, "LD_LIBRARY_PATH": str(folder),
                   "PYTHONDONTWRITEBYTECODE": "1"}
    command = [SERVER, "-fxx", "-l", "stdout", "-d", str(folder)]
    with log.open("wb") as said, subprocess.Popen(command, stdout=said, stderr=said, env=environment) as running:
        try:
            end = time.monotonic() + SECONDS
            while b"Ready to process requests" not in log.read_bytes():
                if running.poll() is not None or time.monotonic() > end:
                    break
                time.sleep(0.1)
            yield b"Ready to process requests" in log.read_bytes()
        finally:
            running.terminate()
            try:
                running.wait(SECONDS)
            finally:
                running.kill()


def answered(port: int, lines: str, kind: str = "auth", seconds: int = SECONDS) -> str:
    """What the client prints of the reply."""
    command = [CLIENT, "-r", "1", "-t", str(seconds), "-x", f"127.0.0.1:{port}", kind, SECRET]
    ended = subprocess.run(command, input=lines, text=True, capture_output=True, check=False,
                           env={"PATH": "/usr/bin:/bin", "TZ": "UTC"}, errors="replace")
    return ended.stdout.partition("Received ")[2]


def sent(said: str) -> Tuple[str, List[str]]:
    """The kind of the packet, and its attributes."""
    return said.split(" ")[0], [line.strip() for line in said.splitlines()[1:] if line.startswith("\t")]


def unavailable(subject: Subject) -> Optional[str]:
    """What is absent, in a few words."""
    for name in (SERVER, CLIENT):
        if shutil.which(name) is None:
            return f"there is no {name}"
    absent = [str(path) for path in (MODULE, DICTIONARIES / "dictionary") if not path.exists()]
    return missing(subject) or (f"there is no {absent[0]}" if absent else None)
