"""A policy inside a FreeRADIUS server: by the module of examples/freeradius, and in the server's own unlang."""
import shutil
import socket
import subprocess
import time
from pathlib import Path
from typing import Optional

from timing import in_turn

MODULE = Path("/usr/lib/freeradius/rlm_python3.so")
PACKAGES = "freeradius freeradius-python3 freeradius-utils"
SECRET = "testing123"
COUNT, AT_ONCE, ROUNDS = 20_000, 128, 5
# A server reads it too, where each line is a statement.
POLICY = """# profile: wider
update reply {
	Tunnel-Type := VLAN
	Tunnel-Medium-Type := IEEE-802
	Tunnel-Private-Group-Id := "99"
}
if (&User-Name == "phone") {
	update reply {
		Tunnel-Private-Group-Id := "20"
		Session-Timeout := 3600
		Reply-Message := "Hello, %{User-Name}"
	}
}
"""
REQUEST = """User-Name = "phone"
User-Password = "hello"
NAS-IP-Address = 10.0.0.1
NAS-Port = 3
NAS-Port-Type = Ethernet
Calling-Station-Id = "02-00-00-00-00-01"
Called-Station-Id = "02-00-00-00-00-02"
NAS-IPv6-Address = 2001:db8::1

"""
CONFIGURATION = """prefix = /usr
confdir = {folder}
modconfdir = {folder}/mods-config
logdir = {folder}
run_dir = {folder}
libdir = /usr/lib/freeradius
max_requests = 16384
client here {{
	ipaddr = 127.0.0.1
	secret = {secret}
}}
thread pool {{
	start_servers = 4
	max_servers = 4
	min_spare_servers = 1
	max_spare_servers = 4
}}
modules {{
	$INCLUDE {folder}/mods-available/radpolicy
}}
server default {{
	listen {{
		type = auth
		ipaddr = 127.0.0.1
		port = {port}
	}}
	authorize {{
		update control {{
			Auth-Type := Accept
		}}
{called}
	}}
}}
"""


def missing(root: Path) -> Optional[str]:
    """What is absent, in a few words."""
    if not MODULE.exists() or not shutil.which("freeradius") or not shutil.which("radclient"):
        return f"of these packages not all are installed: {PACKAGES}"
    made = subprocess.run([root / "scripts" / "make-library", root / "out" / "library"], stderr=subprocess.DEVNULL)
    return None if made.returncode == 0 else "there is no library"


def free_port() -> int:
    with socket.socket(socket.AF_INET, socket.SOCK_DGRAM) as found:
        found.bind(("127.0.0.1", 0))
        return found.getsockname()[1]


def configure(root: Path, folder: Path, port: int, called: str) -> None:
    example = root / "examples" / "freeradius"
    for name in ("mods-available", "mods-config/python3", "radpolicy"):
        (folder / name).mkdir(parents=True, exist_ok=True)
    shutil.copy(example / "radpolicy_module.py", folder / "mods-config" / "python3")
    settings = (example / "mods-available" / "radpolicy").read_text().replace("shadow = yes", "shadow = no")
    (folder / "mods-available" / "radpolicy").write_text(settings.replace("post-auth", "authorize"))
    (folder / "radpolicy" / "authorize").write_text(POLICY)
    (folder / "radiusd.conf").write_text(CONFIGURATION.format(folder=folder, port=port, secret=SECRET, called=called))


def seconds_a_request(root: Path, folder: Path, called: str) -> float:
    """Starts a server, warms it up, and sends requests, many at once."""
    port = free_port()
    configure(root, folder, port, called)
    environment = {"PATH": "/usr/sbin:/usr/bin:/sbin:/bin", "LD_LIBRARY_PATH": str(root / "out" / "library"),
                   "PYTHONDONTWRITEBYTECODE": "1"}
    with (folder / "log").open("wb") as said, subprocess.Popen(
            ["freeradius", "-f", "-l", "stdout", "-d", folder], stdout=said, stderr=said, env=environment) as server:
        try:
            while b"Ready to process requests" not in (folder / "log").read_bytes() and server.poll() is None:
                time.sleep(0.1)
            command = ["radclient", "-q", "-p", str(AT_ONCE), f"127.0.0.1:{port}", "auth", SECRET]
            for count in (COUNT // 10, COUNT):
                begin = time.monotonic()
                subprocess.run(command, input=REQUEST * count, text=True, check=True)
                taken = time.monotonic() - begin
        finally:
            server.terminate()
    return taken / COUNT


def show_served(root: Path, folder: Path) -> None:
    """Requests a second, by the clock: the two take turns."""
    absent = missing(root)
    if absent:
        print(f"A policy inside a server: left out, {absent}")
        return
    taken = in_turn({"module": lambda: seconds_a_request(root, folder, "\t\tradpolicy"),
                     "unlang": lambda: seconds_a_request(root, folder, POLICY)}, ROUNDS)
    print(f"Requests a second to a server with the module: {1 / taken['module']:,.0f}, "
          f"{taken['unlang'] / taken['module']:.2f} times those with the same policy in its own unlang", flush=True)
