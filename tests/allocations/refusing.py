"""Runs programs with allocations of their memory refused."""
import mmap
import os
import struct
from pathlib import Path
from typing import NamedTuple, Optional, Sequence

from common.preloaded import library
from common.program import Ended, Word, run
from common.subject import Subject

NUMBERS = struct.Struct("6q")
ALL_LATER = 2**62
SOURCE = Path(__file__).with_name("refuse_allocations.c")


class Refused(NamedTuple):
    """How a run ended, how often it asked for memory, how often it was refused, and how many pieces of memory it held
    when it last asked."""

    ended: Ended
    asked: int
    refused: int
    held: int


class Refusals:
    """Refuses allocations of the programs that it runs, one program at a time."""

    def __init__(self, subject: Subject, folder: Path) -> None:
        self._file = folder / f"allocations-{os.urandom(4).hex()}"
        self._file.write_bytes(bytes(NUMBERS.size))
        with open(self._file, "r+b") as file:
            self._page = mmap.mmap(file.fileno(), NUMBERS.size)
        self._environment = {"LD_PRELOAD": str(library(subject, SOURCE)), "ALLOCATIONS": str(self._file)}

    def run(
        self, command: Sequence[Word], folder: Path, first: int, last: Optional[int] = None, stdin: bytes = b""
    ) -> Refused:
        """Runs a command with its allocations from the first to the last refused, or the first alone."""
        NUMBERS.pack_into(self._page, 0, first, first if last is None else last, 0, 0, 0, 0)
        ended = run(command, folder, stdin, self._environment)
        _, _, asked, refused, _, held = NUMBERS.unpack_from(self._page)
        return Refused(ended, asked, refused, held)
