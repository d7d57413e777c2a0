"""Runs programs of which one call that changes files fails, or brings a signal."""
import mmap
import os
import struct
from pathlib import Path
from typing import NamedTuple, Sequence

from common.preloaded import library
from common.program import Ended, Word, run
from common.subject import Subject

NUMBERS = struct.Struct("3q")
SOURCE = Path(__file__).with_name("fail_calls.c")


class Stopped(NamedTuple):
    """How a run ended, and whether it came to the call."""

    ended: Ended
    is_reached: bool


class Failures:
    """Stops calls of the programs that it runs, one program at a time."""

    def __init__(self, subject: Subject, folder: Path) -> None:
        self._file = folder / "calls"
        self._file.write_bytes(bytes(NUMBERS.size))
        with open(self._file, "r+b") as file:
            self._page = mmap.mmap(file.fileno(), NUMBERS.size)
        self._environment = {"LD_PRELOAD": str(library(subject, SOURCE)), "CALLS": str(self._file)}

    def run(self, command: Sequence[Word], folder: Path, call: int, what: int) -> Stopped:
        """Runs a command whose call of this number, from 1 on, is not made: `what` is a signal, or below 0 an error."""
        NUMBERS.pack_into(self._page, 0, call, what, 0)
        ended = run(command, folder, b"", self._environment)
        _, _, made = NUMBERS.unpack_from(self._page)
        return Stopped(ended, made >= call)
