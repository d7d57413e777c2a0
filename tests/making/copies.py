"""Copies of the repository, in which `make` builds with no proof."""
import os
import resource
import shutil
import signal
import subprocess
import tempfile
from contextlib import contextmanager
from pathlib import Path
from typing import Iterator, List, Mapping, Optional, Sequence

from common.program import Word
from common.subject import Subject

Finished = subprocess.CompletedProcess
STAND_IN = Path(__file__).with_name("kit")
# Without the kit.
SYSTEM_PATH = "/usr/local/sbin:/usr/local/bin:/usr/sbin:/usr/bin:/sbin:/bin"
LEFT_OUT = shutil.ignore_patterns("out", "found", ".git", "__pycache__")
SECONDS = 600


@contextmanager
def new_copy(subject: Subject) -> Iterator["Copy"]:
    """A copy of what is not built."""
    with tempfile.TemporaryDirectory(prefix="radpolicy-") as name:
        folder = Path(name)
        folder.chmod(0o755)
        shutil.copytree(subject.root, folder / "copy", ignore=LEFT_OUT)
        shutil.copytree(STAND_IN, folder / "kit")
        (folder / "kit/c").symlink_to(subject.kit / "c")
        yield Copy(subject, folder / "copy")


class Copy:
    """A copy in a folder of its own, in which other things may be put."""

    def __init__(self, subject: Subject, root: Path) -> None:
        self.subject = subject
        self.root = root
        self._calls = root.parent / "calls"
        self._stand_in = root.parent / "kit/bin/rt"

    def run(self, command: Sequence[Word], rt: Optional[Path] = None, umask: int = 0o022, **more: str) -> Finished:
        """Runs a command at the top as a person does, with more in the environment. What it says is in `stdout`."""
        self._calls.write_text("")

        def begin() -> None:
            os.umask(umask)
            # The tests may run where an interrupt is ignored, as behind a shell's `&`; a person's `make` does not.
            signal.signal(signal.SIGINT, signal.SIG_DFL)
            hard = resource.getrlimit(resource.RLIMIT_AS)[1]
            resource.setrlimit(resource.RLIMIT_AS, (hard, hard))

        return subprocess.run(
            command,
            cwd=self.root,
            env={"PATH": SYSTEM_PATH, "RT": str(rt or self._stand_in), "AT_ONCE": "1", **self._built(), **more},
            stdin=subprocess.DEVNULL,
            stdout=subprocess.PIPE,
            stderr=subprocess.STDOUT,
            text=True,
            timeout=SECONDS,
            start_new_session=True,
            preexec_fn=begin,
        )

    def make(self, *words: str, umask: int = 0o022, **more: str) -> Finished:
        return self.run(["make", "--no-print-directory", *words], umask=umask, **more)

    def _built(self) -> Mapping[str, str]:
        subject = self.subject
        crates, program = str(subject.root / "crates"), str(subject.program)
        return {"RT_BUILT": crates, "RT_PROGRAM": program, "RT_CALLS": str(self._calls)}

    def calls(self) -> List[str]:
        """What the last `make` asked of the stand-in for the kit."""
        return self._calls.read_text().splitlines()

    def crates(self, program: str) -> List[str]:
        """The crates that a program stands on, lowest first, and itself."""
        listed = subprocess.run([self.root / "scripts/crates", program], stdout=subprocess.PIPE, text=True, check=True)
        return listed.stdout.split()
