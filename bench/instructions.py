"""Instructions, counted by valgrind where it is installed: no other load changes them, so they can be compared from day
to day."""
import re
import shutil
import subprocess
from pathlib import Path
from typing import Callable, Dict, List, Optional, Tuple

from dictionaries import Set
from packets import PACKETS, workers
from programs import POLICIES, POLICY, REQUEST, placed
from timing import Command, Refused

FEW, MANY = 100, 600
# The functions of a profile that are shown.
ROWS = 10
# A function in what callgrind_annotate prints: its instructions, their part of all, its file and its name.
ROW = re.compile(r"^\s*[\d,]+ \(\s*([\d.]+)%\)\s+[^:\s]*:(\S+)", re.MULTILINE)


class Counted:
    """How many instructions a command takes, and the functions that take most, each with its part of all."""

    def __init__(self, command: Command, folder: Path) -> None:
        file = folder / "callgrind"
        words = ["valgrind", "--tool=callgrind", f"--callgrind-out-file={file}", *command.words]
        ended = subprocess.run(words, input=command.stdin, stdout=subprocess.DEVNULL, stderr=subprocess.PIPE)
        report = ended.stderr.decode(errors="replace")
        counted = re.search(r"Collected : (\d+)", report)
        if ended.returncode != command.status or not counted:
            raise Refused(report.strip() or f"status {ended.returncode}")
        annotated = subprocess.run(["callgrind_annotate", file], stdout=subprocess.PIPE, stderr=subprocess.DEVNULL)
        self.instructions = int(counted[1])
        self.profile: List[Tuple[float, str]] = [
            (float(part), name) for part, name in ROW.findall(annotated.stdout.decode(errors="replace"))[:ROWS]
        ]

    def show_profile(self) -> None:
        for part, name in self.profile:
            print(f"      {part:5.1f}% {name}")


def show_start(program: Path, dictionaries: Set, folder: Path, client: Optional[str]) -> None:
    """A whole run, which is its start above all, beside a start of radclient."""
    policy = placed(folder, "policy", POLICY)
    start = Counted(Command([program, "run", "--policy", policy, *dictionaries.files], REQUEST), folder)
    line = f"  {'a run by ' + dictionaries.name:44}{start.instructions:14,d}"
    if client:
        words = [client, "-x", "-D", dictionaries.folder, "127.0.0.1:9", "auth", "s"]
        other = Counted(Command(words, b"Nosuch-Name = 1\n", 1), folder)
        line += f", {start.instructions / other.instructions:.2f} times radclient's start"
    print(line)
    start.show_profile()


def show_one_more(name: str, command: Callable[[int], Command], folder: Path) -> None:
    """What one more of something costs: the difference of two runs by how many they have."""
    few, many = Counted(command(FEW), folder), Counted(command(MANY), folder)
    print(f"  {name:44}{(many.instructions - few.instructions) / (MANY - FEW):14,.0f}")
    many.show_profile()


def show_more(program: Path, dictionaries: Set, folder: Path) -> None:
    """One more line of a policy, read and run, and one more pair of a request, read and printed."""

    def run_of(policy: str, request: bytes) -> Command:
        return Command([program, "run", "--policy", placed(folder, "policy", policy), *dictionaries.files], request)

    for name, lines in POLICIES.items():
        show_one_more(f"{name} more", lambda count, lines=lines: run_of(lines(count), REQUEST), folder)
    show_one_more("a pair more, read and printed", lambda count: run_of("", b"Class = 0x0102\n" * count), folder)


def show_packets(drive: Path, dictionaries: Set, folder: Path, peer: Optional[Path]) -> None:
    """A decode, and a decode with an encode, of each packet."""
    for name, octets in PACKETS.items():
        packet = folder / "packet"
        packet.write_bytes(octets)
        taken: Dict[Tuple[str, str], float] = {}
        for who, worker in workers(drive, peer, dictionaries, packet).items():
            for work in ("decode", "both"):
                few, many = (Counted(Command(worker(work, count)), folder) for count in (FEW, MANY))
                taken[who, work] = (many.instructions - few.instructions) / (MANY - FEW)
        decode, both = taken["ours", "decode"], taken["ours", "both"]
        line = f"  {name:26}{decode:12,.0f} a decode {both - decode:12,.0f} an encode"
        if peer:
            ratios = [taken["libfreeradius", work] / taken["ours", work] for work in ("decode", "both")]
            line += "   libfreeradius's are {:.2f} and, both together, {:.2f} times as many".format(*ratios)
        print(line, flush=True)


def show_instructions(
    program: Path, drive: Path, found: List[Set], folder: Path, client: Optional[str], peer: Optional[Path]
) -> None:
    """Of a start by each set, and of the rest by the small one, which is the last."""
    if not shutil.which("valgrind"):
        print("Instructions: left out, since valgrind is not installed")
        return
    print("Instructions, and the functions that take most of them")
    for dictionaries in found:
        show_start(program, dictionaries, folder, client)
    show_more(program, found[-1], folder)
    show_packets(drive, found[-1], folder, peer)
