"""Records answered by `radpolicy-replay`: in one process, beside the decoding and encoding alone of FreeRADIUS's
library, and over four processors by GNU parallel and by dask."""
import shutil
import socket
import subprocess
import time
from contextlib import ExitStack, contextmanager
from pathlib import Path
from typing import Dict, Iterator, List, Optional, Sequence

from dictionaries import Set
from packets import PAP, ROUNDS, SECRET
from runs import FILTERING, POLICY
from timing import Command, Word, in_turn, used

COUNT, PROCESSORS, SPREAD_ROUNDS = 1_000_000, 4, 3
FEW = COUNT // 20
# Debian's Python has Debian's packages.
PYTHON = "/usr/bin/python3"


def words_of(program: Path, dictionaries: Set, folder: Path, policy: str = "policy") -> List[Word]:
    return [program, "--policy", folder / policy, "-S", folder / "secret", *dictionaries.files]


def record(number: int) -> bytes:
    """A login of its own Identifier and authenticator."""
    return b"%d %s\n" % (number, (PAP[:1] + bytes([number % 256]) + PAP[2:]).hex().encode())


def write_files(folder: Path) -> None:
    (folder / "secret").write_bytes(SECRET.encode() + b"\n")
    (folder / "policy").write_bytes(POLICY.encode())
    (folder / "filtering").write_bytes(FILTERING.encode())
    (folder / "packet").write_bytes(PAP)
    (folder / "records").write_bytes(b"".join(map(record, range(COUNT))))


def seconds_each(words: Sequence[Word], more: Sequence[Word], text: bytes, count: int) -> float:
    """Seconds of a processor for each of so many, without the start."""
    start, whole = used(Command(words)), used(Command(more, text))
    return (whole.whole - start.whole) / count


def show_alone(program: Path, dictionaries: Set, folder: Path, peer: Optional[Path]) -> None:
    """One process, and the library beside it."""
    words = words_of(program, dictionaries, folder)
    filtering = words_of(program, dictionaries, folder, "filtering")
    text = b"".join(map(record, range(FEW)))
    works = {
        "ours": lambda: seconds_each(words, words, text, FEW),
        "filtering": lambda: seconds_each(filtering, filtering, text, FEW),
    }
    if peer:
        library = [peer, "both", dictionaries.folder, SECRET, folder / "packet"]
        works["libfreeradius"] = lambda: seconds_each([*library, "0"], [*library, str(FEW)], b"", FEW)
    taken = in_turn(works, ROUNDS)
    line = f"Records replayed by {dictionaries.name}: {1 / taken['ours']:,.0f} a second"
    if peer:
        line += f", {taken['libfreeradius'] / taken['ours']:.2f} times libfreeradius's decode and encode alone"
    line += f"; {1 / taken['filtering']:,.0f} with filter_username in front"
    print(line, flush=True)


def clocked(words: Sequence[Word], folder: Path, source: Path) -> float:
    """Seconds of the clock that a command takes for records."""
    begin = time.monotonic()
    with open(source, "rb") as text:
        subprocess.run(words, cwd=folder, stdin=text, stdout=subprocess.DEVNULL, stderr=subprocess.DEVNULL, check=True)
    return time.monotonic() - begin


def free_port() -> int:
    with socket.socket() as found:
        found.bind(("127.0.0.1", 0))
        return found.getsockname()[1]


@contextmanager
def cluster(folder: Path) -> Iterator[str]:
    """A scheduler and a worker for each processor, which have started; and the scheduler's address."""
    address = f"tcp://127.0.0.1:{free_port()}"
    place, port = ["--local-directory", folder / "work"], address.rpartition(":")[2]
    scheduler: List[Word] = ["dask-scheduler", "--host", "127.0.0.1", "--port", port, "--no-dashboard"]
    worker: List[Word] = ["dask-worker", address, "--nthreads", "1", "--no-dashboard", *place]
    waits = f"from distributed import Client; Client({address!r}).wait_for_workers({PROCESSORS})"
    quiet = {"stdout": subprocess.DEVNULL, "stderr": subprocess.DEVNULL}
    with ExitStack() as started:
        for command in [scheduler, *[worker] * PROCESSORS]:
            process = started.enter_context(subprocess.Popen(command, **quiet))
            started.callback(process.kill)
        subprocess.run([PYTHON, "-c", waits], check=True, **quiet)
        yield address


def show_spread(root: Path, program: Path, dictionaries: Set, folder: Path) -> None:
    """How many times as fast four processes are as one, by the clock: they take turns."""
    words, source = words_of(program, dictionaries, folder), folder / "records"
    has_dask = subprocess.run([PYTHON, "-c", "import distributed"], stderr=subprocess.DEVNULL).returncode == 0
    if not shutil.which("parallel") or not has_dask:
        print("Records replayed over four processors: left out, there is no GNU parallel or no dask")
        return
    parallel = ["parallel", "--no-notice", "--pipe", "--keep-order", "--block", "8M", f"-j{PROCESSORS}", *words]
    with cluster(folder) as address:
        spread = [PYTHON, root / "examples/replay/spread.py", address, source, "--", *words]
        commands: Dict[str, Sequence[Word]] = {"one": words, "parallel": parallel, "dask": spread}
        works = {who: lambda command=command: clocked(command, folder, source) for who, command in commands.items()}
        taken = in_turn(works, SPREAD_ROUNDS)
    print(
        f"{COUNT:,} records in one process in {taken['one']:.1f} s; over {PROCESSORS} processors "
        f"{taken['one'] / taken['parallel']:.2f} times as fast by GNU parallel, "
        f"{taken['one'] / taken['dask']:.2f} times by dask",
        flush=True,
    )


def show_replays(root: Path, program: Path, dictionaries: Set, folder: Path, peer: Optional[Path]) -> None:
    write_files(folder)
    show_alone(program, dictionaries, folder, peer)
    show_spread(root, program, dictionaries, folder)
