"""What is tested: the repository, its built programs, and the processors to run them on."""
import os
import shutil
import tempfile
from concurrent.futures import ThreadPoolExecutor
from contextlib import contextmanager
from dataclasses import dataclass
from pathlib import Path
from typing import Callable, Iterable, Iterator, List, TypeVar

Given = TypeVar("Given")
Made = TypeVar("Made")


@dataclass(frozen=True)
class Subject:
    """The root of the repository and the program."""

    root: Path
    program: Path

    def driver(self, name: str) -> Path:
        """A program by the name of its crate."""
        return self.root / "crates" / name / "out" / name

    def drive(self, name: str) -> List[str]:
        """The command of a program of `drive`, which only tests and the benchmark run, by its name there."""
        return [str(self.driver("drive")), name]

    @property
    def kit(self) -> Path:
        """The folder of the Rattle kit: that of the command that `RT` names, or else where it is installed."""
        rt = shutil.which(os.environ.get("RT", "rt")) or "/opt/rattle/bin/rt"
        return Path(rt).resolve().parent.parent


@contextmanager
def new_folder() -> Iterator[Path]:
    """A folder that is there for a while, in memory where there is such a place."""
    where = "/dev/shm" if os.access("/dev/shm", os.W_OK) else None
    with tempfile.TemporaryDirectory(prefix="radpolicy-", dir=where) as folder:
        yield Path(folder)


def on_all(work: Callable[[Given], Made], given: Iterable[Given]) -> List[Made]:
    """The work on each of the given, on all processors that may be used, in their order."""
    with ThreadPoolExecutor(len(os.sched_getaffinity(0))) as pool:
        return list(pool.map(work, given))
