"""Checks of a changed copy of a crate, over the libraries that were proved."""
import os
import re
import shutil
import signal
import subprocess
import tempfile
import threading
import time
from dataclasses import dataclass
from pathlib import Path

from wrong_bodies.edits import PARTS
from wrong_bodies.libraries import CRATES, STATIC, USES, below, library_of

STALE = re.compile(r"module .Rattle-\w+-.*Run the lower steps again")
# A line with a place. Before the place may stand that it is a note, and of whose words.
PLACED = re.compile(
    r"(note: )?(what antt said of (?:it|[^:]*`search`[^:]*): )?(?:\./)?(\S+?):(\d+):\d+:( error:)? (.*)"
)


class Stopped(Exception):
    """All checks are to end."""


class Running:
    """The checks that run, so that all can be ended."""

    def __init__(self):
        self._lock = threading.Lock()
        self._is_stopped = False
        self._checks = set()

    def run(self, words, folder):
        """Runs a command, and returns its status and what it said."""
        with self._lock:
            if self._is_stopped:
                raise Stopped
            how = {"stdin": subprocess.DEVNULL, "stdout": subprocess.PIPE, "stderr": subprocess.STDOUT}
            check = subprocess.Popen(words, cwd=folder, errors="replace", start_new_session=True, **how)
            self._checks.add(check)
        said = check.communicate()[0]
        with self._lock:
            self._checks.remove(check)
            if self._is_stopped:
                raise Stopped
        return check.returncode, said

    def stop(self):
        with self._lock:
            self._is_stopped = True
            for check in self._checks:
                os.killpg(check.pid, signal.SIGKILL)


RUNNING = Running()


@dataclass(frozen=True)
class Told:
    """A line of the prover's that has a place."""

    file: str
    line: int
    is_note: bool
    # Whether it is what a search of the prover's own came to, which broke off.
    is_of_search: bool
    words: str

    def is_refusal(self):
        """Tells whether something is refused there, and not only said."""
        return not self.is_note or self.is_of_search or self.words.startswith("it is not proved that")


@dataclass(frozen=True)
class Said:
    """What a check ended with, and what it said."""

    status: int
    lines: list

    def told(self):
        """Gives the lines with a place: a refusal's place, and what is refused there."""
        for line in self.lines:
            found = PLACED.match(line)
            if found and (found[1] or ": error" in line):
                is_of_search = bool(found[2] and found[5])
                yield Told(found[3], int(found[4]), bool(found[1]), is_of_search, found[6])

    def verdict(self, crate, path):
        """Returns what was said of a function, or nothing."""
        head = f"fn {crate}::{path}: "
        return next((it[len(head):] for it in self.lines if it.startswith(head)), "")

    def has_ended(self):
        """Tells whether the check came to its end, whatever it found."""
        return self.status in (0, 1) and self.lines[-1].startswith(("only=", "logic="))

    def is_stale(self):
        """Tells whether what was kept of a library could not be used."""
        return any(STALE.search(it) for it in self.lines)

    def has_error(self):
        """Tells whether the front end refused a text, with an error that has a name."""
        return any(re.search(r"\berror\[[\w-]+\]", it) for it in self.lines)

    def first_words(self):
        return next((it for it in self.lines if it.startswith(("error", "rattle:"))), self.lines[-1])[:160]


def check_words(kit, crate):
    """Returns the words of a check of a crate, as `rt ci` has them, over the libraries that were proved."""
    libraries = ["-L", f"dependency={kit}/rlibs"]
    for name in ["std", *USES[crate]]:
        folder = library_of(name) if name in USES else kit / "rlibs"
        libraries += ["--extern", f"{name}={folder}/{name}.rlib"]
    for name in below(crate):
        libraries += ["-L", f"dependency={library_of(name)}"]
    root = "src/main.rt" if (CRATES / crate / "src/main.rt").is_file() else "src/lib.rt"
    return [
        "--crate-name", crate, root, *libraries, "--jobs", "1", "--links", f"{crate}=",
        "--antt-project", kit / "rattle/logic/antt-project.json", "--logic-built", kit / "logic_built",
        *(["--crate-type", "staticlib"] if crate in STATIC else []),
    ]  # fmt: skip


class Prover:
    """Checks copies of one crate. What one check proves serves the next, in a folder that goes when this does."""

    def __init__(self, kit, crate):
        self.crate = crate
        self.seconds = 0
        self.checks = 0
        self._folder = tempfile.TemporaryDirectory(prefix="wrong-bodies-")
        self._words = [kit / "bin/rattle", "check", *check_words(kit, crate)]

    def __enter__(self):
        return self

    def __exit__(self, *_):
        self._folder.cleanup()

    def check(self, texts, only=(), is_anew=False):
        """Checks the crate with these texts in place of its own: the whole of it, or some functions."""
        began = time.monotonic()
        with tempfile.TemporaryDirectory(prefix="wrong-bodies-") as copy:
            for part in PARTS:
                if (CRATES / self.crate / part).is_dir():
                    shutil.copytree(CRATES / self.crate / part, f"{copy}/{part}")
            for file, text in texts.items():
                Path(copy, file).write_text(text, encoding="utf-8")
            words = [*self._words, *(word for path in only for word in ("--only", path))]
            words += [] if is_anew else ["--incremental", f"{self._folder.name}/kept"]
            status, said = RUNNING.run(words, copy)
            if status < 0:
                # It was killed, most likely for memory, which others have given back meanwhile.
                status, said = RUNNING.run(words, copy)
        self.checks += 1
        self.seconds += time.monotonic() - began
        return Said(status, said.rstrip("\n").split("\n"))
