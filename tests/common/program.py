"""Runs a program once, with what it is given in files of memory, and tells how it ended."""
import os
import resource
import select
import signal
import subprocess
from dataclasses import dataclass
from pathlib import Path
from typing import Callable, Mapping, Optional, Sequence, Union

Word = Union[str, bytes, Path]
# Past so much of a processor's time a run is ended. By the clock it may take as long as a loaded machine needs; only
# one that waits for something that does not come is ended by it.
PROCESSOR_SECONDS = 20
LAST_STOP = 300.0


@dataclass(frozen=True)
class Ended:
    """How a run ended, and the time of a processor and the memory that it took. A negative status is the number of the
    signal that ended it."""

    status: int
    output: bytes
    errors: bytes
    seconds: float
    kilobytes: int
    timed_out: bool = False


def forget_wishes() -> None:
    """Has the programs write no help, whatever the caller wishes."""
    for name in ("RADPOLICY_HELP", "NO_COLOR"):
        os.environ.pop(name, None)


def in_memory(octets: bytes) -> int:
    """A descriptor of a file in memory with these octets, at its start."""
    file = os.memfd_create("tests")
    with open(file, "wb", closefd=False) as writer:
        writer.write(octets)
    os.lseek(file, 0, os.SEEK_SET)
    return file


def written(file: int) -> bytes:
    """What was written to a file in memory."""
    os.lseek(file, 0, os.SEEK_SET)
    with open(file, "rb", closefd=False) as reader:
        return reader.read()


def limit_processor(process: "subprocess.Popen[bytes]") -> None:
    """Has the system end a process that has run so long, unless it has ended."""
    try:
        resource.prlimit(process.pid, resource.RLIMIT_CPU, (PROCESSOR_SECONDS, PROCESSOR_SECONDS + 1))
    except ProcessLookupError:
        pass


def wait(process: "subprocess.Popen[bytes]") -> tuple:
    """Waits for the end. Gives the status, what was used, and whether it was ended for its time."""
    ended = os.pidfd_open(process.pid)
    try:
        poll = select.poll()
        poll.register(ended, select.POLLIN)
        is_stopped = not poll.poll(LAST_STOP * 1000)
        if is_stopped:
            os.kill(process.pid, signal.SIGKILL)
        _, status, used = os.wait4(process.pid, 0)
    finally:
        os.close(ended)
    process.returncode = os.waitstatus_to_exitcode(status)
    return process.returncode, used, is_stopped or process.returncode == -signal.SIGXCPU


def run(
    command: Sequence[Word],
    folder: Path,
    stdin: bytes = b"",
    environment: Optional[Mapping[str, str]] = None,
    before: Optional[Callable[[], None]] = None,
    output: Optional[int] = None,
    errors: Optional[int] = None,
) -> Ended:
    """Runs a command in a folder. `before` is called in the new process. `output` and `errors` stand in place of the
    files in memory that else take what it writes."""
    files = [in_memory(stdin), in_memory(b""), in_memory(b"")]
    try:
        process = subprocess.Popen(
            list(command),
            cwd=folder,
            env=environment,
            stdin=files[0],
            stdout=files[1] if output is None else output,
            stderr=files[2] if errors is None else errors,
            preexec_fn=before,
        )
        limit_processor(process)
        status, used, timed_out = wait(process)
        return Ended(
            status,
            written(files[1]),
            written(files[2]),
            used.ru_utime + used.ru_stime,
            used.ru_maxrss,
            timed_out,
        )
    finally:
        for file in files:
            os.close(file)
