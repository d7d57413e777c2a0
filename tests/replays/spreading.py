"""Records over all processors by GNU parallel, and over a cluster by dask, where they are installed."""
import json
import shutil
import socket
import subprocess
from contextlib import contextmanager
from pathlib import Path
from typing import Dict, Iterator, List, Sequence

from common.program import Ended
from common.report import Report
from common.sessions import end_session
from common.subject import Subject, new_folder
from replays.records import Place, records

# More than a block of the script's.
RECORDS, TIMES = 20_000, 3
# Debian's Python has Debian's packages.
PYTHON = "/usr/bin/python3"
# Of the input, where a worker dies.
PARTS = 24
SECONDS = 120
# Counts and lines of policies are added up of JSON too.
JSON = ["--json", "--against", "old"]
OLD = b"update reply {\n    Session-Timeout := 300\n}\n"


def has_dask() -> bool:
    command = [PYTHON, "-c", "import distributed"]
    try:
        return subprocess.run(command, stderr=subprocess.DEVNULL).returncode == 0 and bool(shutil.which("dask-worker"))
    except OSError:
        return False


def faults(said: "subprocess.CompletedProcess[bytes]", whole: Ended) -> List[str]:
    is_right = said.returncode == 0 and said.stdout == whole.output
    return [] if is_right else [f"{said.returncode}, {len(said.stdout)} octets of {len(whole.output)}: {said.stderr!r}"]


def check_parallel(place: Place, whole: Ended, report: Report) -> None:
    if not shutil.which("parallel"):
        report.say("replay: not tried by GNU parallel, which is not installed")
        return
    command = ["parallel", "--no-notice", "--pipe", "--keep-order", "--block", "200k", *place.command()]
    with open(place.folder / "records", "rb") as text:
        said = subprocess.run(command, cwd=place.folder, stdin=text, capture_output=True, timeout=SECONDS)
    report.check("replay: by GNU parallel", faults(said, whole))


def free_port() -> int:
    with socket.socket() as server:
        server.bind(("127.0.0.1", 0))
        return server.getsockname()[1]


@contextmanager
def started(*command: object) -> Iterator["subprocess.Popen[bytes]"]:
    """Ended with the processes that it begins."""
    quiet = {"stdout": subprocess.DEVNULL, "stderr": subprocess.DEVNULL}
    with subprocess.Popen(list(map(str, command)), start_new_session=True, **quiet) as process:
        try:
            yield process
        finally:
            process.kill()
            end_session(process.pid)


def wrong_errors(errors: bytes, wanted: bytes) -> List[str]:
    """What is wrong unless the wanted lines are there, once. Dask itself may say more, before them that a worker is
    gone, or after them, where a processor is busy, that something took too long."""
    is_right = (b"\n" + errors).count(b"\n" + wanted) == 1
    return [] if is_right else [f"{errors!r}, not {wanted!r}"]


def counts_in(errors: bytes) -> List[Dict[str, object]]:
    """The counts in what a replay says as JSON, but for its differences: of these a block has its own first 1,000."""
    lines = [line for line in errors.splitlines() if line.startswith(b"{")]
    return [{name: value for name, value in json.loads(line).items() if name != "differences"} for line in lines]


def wrong_counts(errors: bytes, wanted: bytes) -> List[str]:
    """What is wrong unless the counts are the wanted ones, once."""
    found, counts = counts_in(errors), counts_in(wanted)
    return [] if len(found) == 1 and found == counts else [f"{found}, not {counts}"]


def spread(place: Place, scheduler: str, files: Sequence[str], command: Sequence[object]) -> "subprocess.Popen[bytes]":
    script = place.subject.root / "examples/replay/spread.py"
    words = [PYTHON, script, scheduler, *files, "--", *command]
    pipes = {"stdout": subprocess.PIPE, "stderr": subprocess.PIPE}
    return subprocess.Popen(list(map(str, words)), cwd=place.folder, bufsize=0, **pipes)


def check_death(place: Place, scheduler: str, worker: "subprocess.Popen[bytes]", whole: Ended, report: Report) -> None:
    """A worker is killed when the first answers have come, while it has parts of its own: each takes half a second."""
    lines = (place.folder / "records").read_bytes().splitlines(keepends=True)
    size = -(-len(lines) // PARTS)
    for number in range(PARTS):
        (place.folder / f"part{number}").write_bytes(b"".join(lines[number * size : (number + 1) * size]))
    slowly = ["sh", "-c", 'sleep 0.5; exec "$@"', "sh", *place.command()]
    with spread(place, scheduler, [f"part{number}" for number in range(PARTS)], slowly) as process:
        first = process.stdout.read(1)
        worker.kill()
        out, errors = process.communicate(timeout=SECONDS)
    said = subprocess.CompletedProcess([], process.returncode, first + out, errors)
    wrong = faults(said, whole) + wrong_errors(errors, whole.errors)
    report.check("replay: by dask, where a worker dies", wrong)


def check_dask(place: Place, whole: Ended, report: Report) -> None:
    if not has_dask():
        report.say("replay: not tried by dask, which is not installed")
        return
    port = free_port()
    scheduler = f"tcp://127.0.0.1:{port}"
    worker = ["dask-worker", scheduler, "--nthreads", 1, "--no-dashboard", "--local-directory", place.folder / "work"]
    with started("dask-scheduler", "--host", "127.0.0.1", "--port", port, "--no-dashboard"):
        with started(*worker), started(*worker), started(*worker) as last:
            with spread(place, scheduler, ["records"], place.command()) as process:
                out, errors = process.communicate(timeout=SECONDS)
            said = subprocess.CompletedProcess([], process.returncode, out, errors)
            report.check("replay: by dask", faults(said, whole) + wrong_errors(errors, whole.errors))
            with spread(place, scheduler, ["records"], place.command(JSON)) as process:
                _, errors = process.communicate(timeout=SECONDS)
            wanted = place.replay((place.folder / "records").read_bytes(), JSON).errors
            report.check("replay: by dask, as JSON", wrong_counts(errors, wanted))
            check_death(place, scheduler, last, whole, report)


def check(subject: Subject, report: Report) -> None:
    with new_folder() as folder:
        place = Place(subject, folder)
        (folder / "records").write_bytes(records(RECORDS) * TIMES)
        (folder / "old").write_bytes(OLD)
        whole = place.replay((folder / "records").read_bytes())
        check_parallel(place, whole, report)
        check_dask(place, whole, report)
