"""Libraries that are preloaded into programs, made by the kit's own clang."""
import subprocess
import tempfile
import threading
from pathlib import Path

from common.subject import Subject

MAKING = threading.Lock()


def make_library(subject: Subject, source: Path, made: Path) -> None:
    """Makes the library of a source. Another run of the tests may do so too: what is there is always a whole one."""
    made.parent.mkdir(exist_ok=True)
    clang = subject.kit / "toolchain/bin/clang"
    flags = ["--no-default-config", "-O2", "-shared", "-fPIC", "-nostdlib", "-fuse-ld=lld"]
    with tempfile.TemporaryDirectory(dir=made.parent) as folder:
        new = Path(folder) / made.name
        subprocess.run([clang, *flags, "-o", new, source], check=True)
        new.replace(made)


def library(subject: Subject, source: Path) -> Path:
    """The library of a source, which is made where it is not there yet. Several threads may ask for it."""
    made = source.parent / "out" / source.with_suffix(".so").name
    with MAKING:
        if not made.is_file() or made.stat().st_mtime <= source.stat().st_mtime:
            make_library(subject, source, made)
    return made
