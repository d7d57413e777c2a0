"""What one more condition of a policy costs to read and to run, and what it costs a FreeRADIUS server."""
import os
import shutil
import subprocess
import time
from pathlib import Path
from typing import Callable, Dict, Iterator, Tuple

from dictionaries import Set
from programs import placed
from served import CONFIGURATION, SECRET, free_port
from timing import Command, in_turn, used

FEW, MANY, REQUESTS, ROUNDS = 1_000, 10_000, 200, 5
REQUEST = 'User-Name = "user-x"\nUser-Password = "hello"\nNAS-Port = 7\n'
CONDITIONS: Dict[str, Callable[[int], str]] = {
    "an attribute and a value": lambda at: f'&User-Name == "user-{at}"',
    "two texts": lambda at: f'"%{{User-Name}}-%{{NAS-Port}}" == "user-{at}-7"',
    "a regular expression, the same in all": lambda at: "&User-Name =~ /^user-[0-9]+$/",
    "a regular expression of its own": lambda at: f"&User-Name =~ /^user-{at}$/",
    "the same, with a capture": lambda at: f'(&User-Name =~ /^(user)-{at}$/) && "%{{1}}"',
}


def policy_of(condition: Callable[[int], str], count: int) -> str:
    """So many conditions, none of which holds, each with an update line."""
    told = '{\n\tupdate reply {\n\t\tReply-Message := "x"\n\t}\n}\n'
    return "# profile: wider\n" + "".join(f"if ({condition(at)}) {told}" for at in range(count))


def ours(program: Path, dictionaries: Set, folder: Path, condition: Callable[[int], str]) -> Tuple[float, float]:
    """Seconds to read one more condition, and to run it."""
    commands = {"read": ["check"], "both": ["run", "-f", placed(folder, "request", REQUEST)]}

    def seconds(name: str, count: int) -> float:
        policy = placed(folder, "policy", policy_of(condition, count))
        return used(Command([program, *commands[name], "--policy", policy, *dictionaries.files])).user

    keys = [(name, count) for name in commands for count in (FEW, MANY)]
    taken = in_turn({key: lambda key=key: seconds(*key) for key in keys}, ROUNDS)
    read, both = ((taken[name, MANY] - taken[name, FEW]) / (MANY - FEW) for name in commands)
    return read, both - read


def seconds_of(process: int) -> float:
    """Seconds of a processor that a process has taken."""
    fields = Path(f"/proc/{process}/stat").read_text().rpartition(")")[2].split()
    return (int(fields[11]) + int(fields[12])) / os.sysconf("SC_CLK_TCK")


def answered(folder: Path, port: int) -> float:
    """Seconds that a server takes for a request."""
    command = ["radclient", "-q", "-t", "60", f"127.0.0.1:{port}", "auth", SECRET]
    served, log = ["freeradius", "-f", "-l", "stdout", "-d", folder], folder / "log"
    with log.open("wb") as said, subprocess.Popen(served, stdout=said) as server:
        try:
            while b"Ready to process requests" not in log.read_bytes() and server.poll() is None:
                time.sleep(0.1)
            before = seconds_of(server.pid)
            subprocess.run(command, input=(REQUEST + "\n") * REQUESTS, text=True, check=True)
            return (seconds_of(server.pid) - before) / REQUESTS
        finally:
            server.kill()


def of_server(folder: Path, condition: Callable[[int], str]) -> Tuple[float, float]:
    """The same of a server, which reads its policy when it starts."""
    (folder / "mods-available").mkdir(exist_ok=True)
    placed(folder, "mods-available/radpolicy", "")
    starts: Dict[int, float] = {}
    runs: Dict[int, float] = {}
    for count in FEW, MANY:
        port = free_port()
        text = CONFIGURATION.format(folder=folder, port=port, secret=SECRET, called=policy_of(condition, count))
        placed(folder, "radiusd.conf", text)
        start = Command(["freeradius", "-C", "-l", "stdout", "-d", folder])
        starts[count] = in_turn({"start": lambda: used(start).user}, ROUNDS)["start"]
        runs[count] = answered(folder, port)
    return tuple((taken[MANY] - taken[FEW]) / (MANY - FEW) for taken in (starts, runs))


def lines(program: Path, dictionaries: Set, folder: Path) -> Iterator[str]:
    has_server = shutil.which("freeradius") and shutil.which("radclient")
    for name, condition in CONDITIONS.items():
        read, run = ours(program, dictionaries, folder, condition)
        line = f"  {name:40}{1e6 * read:8.2f} us to read{1e6 * run:8.2f} us to run"
        if has_server:
            start, request = of_server(folder, condition)
            line += f"; a server{1e6 * start:8.2f} and{1e6 * request:8.2f}"
        yield line


def show_conditions(program: Path, dictionaries: Set, folder: Path) -> None:
    print(f"One more condition, with an update line, of {MANY:,}")
    for line in lines(program, dictionaries, folder):
        print(line, flush=True)
