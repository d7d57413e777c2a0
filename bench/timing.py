"""Runs commands and takes the time of a processor that they use. The clock would count what else the machine does."""
import resource
import shutil
import statistics
import subprocess
import tempfile
from dataclasses import dataclass
from pathlib import Path
from typing import Callable, Dict, List, Optional, Sequence, TypeVar, Union

Word = Union[str, Path]
Key = TypeVar("Key")


@dataclass(frozen=True)
class Command:
    """A command, what it reads, and the status that it ends with."""

    words: Sequence[Word]
    stdin: bytes = b""
    status: int = 0


@dataclass(frozen=True)
class Used:
    """Seconds of a processor: in the program itself, and with the system's work for it."""

    user: float
    whole: float


class Refused(Exception):
    """A command that ended with another status."""


def used(command: Command) -> Used:
    """Runs a command."""
    before = resource.getrusage(resource.RUSAGE_CHILDREN)
    ended = subprocess.run(command.words, input=command.stdin, stdout=subprocess.DEVNULL, stderr=subprocess.PIPE)
    after = resource.getrusage(resource.RUSAGE_CHILDREN)
    if ended.returncode != command.status:
        raise Refused(ended.stderr.decode(errors="replace").strip() or f"status {ended.returncode}")
    user = after.ru_utime - before.ru_utime
    return Used(user, user + after.ru_stime - before.ru_stime)


def peak(command: Command) -> Optional[int]:
    """How many octets a command has at most, where GNU time is installed: that is small itself, while a child of this
    program would be taken to have what this one has."""
    time = shutil.which("time")
    if not time:
        return None
    with tempfile.NamedTemporaryFile("r") as told:
        words = [time, "--quiet", "--format=%M", f"--output={told.name}", *command.words]
        nothing = subprocess.DEVNULL
        ended = subprocess.run(words, input=command.stdin, stdout=nothing, stderr=nothing)
        if ended.returncode != command.status:
            raise Refused(f"status {ended.returncode}")
        return 1024 * int(told.read())


def in_turn(works: Dict[Key, Callable[[], float]], rounds: int) -> Dict[Key, float]:
    """Does the works in turn, some rounds, so that what else slows the machine slows all of them; the median of each."""
    taken: Dict[Key, List[float]] = {key: [] for key in works}
    for _ in range(rounds):
        for key, work in works.items():
            taken[key].append(work())
    return {key: statistics.median(seconds) for key, seconds in taken.items()}
