"""Builds what C programs use: the shared library, the responder of examples/c, and the driver of wrong calls."""
import shutil
import subprocess
from pathlib import Path
from typing import Optional

from common.subject import Subject

ARCHIVE = "crates/radpolicy_c/out/libradpolicy_c.a"
WARNINGS = ["-std=c11", "-D_DEFAULT_SOURCE", "-O1", "-g", "-Wall", "-Wextra", "-Werror"]


def missing(subject: Subject) -> Optional[str]:
    """What is absent, in a few words."""
    if shutil.which("cc") is None:
        return "there is no cc"
    if not (subject.root / ARCHIVE).is_file():
        return f"there is no {ARCHIVE}"
    return None


def archives(subject: Subject) -> list:
    """The library, and the kit's few lines of C that reach the C library's heap."""
    return [subject.root / ARCHIVE, subject.kit / "c" / "liblibc_c.a"]


def shared_library(subject: Subject, folder: Path) -> Path:
    """The library as Python loads it: what its header declares and nothing else can be seen."""
    made = folder / "libradpolicy.so"
    versions = subject.root / "c" / "radpolicy.map"
    command = ["cc", "-shared", "-Wl,-z,defs", f"-Wl,--version-script={versions}", "-o", made]
    subprocess.run([*command, "-Wl,--whole-archive", archives(subject)[0], "-Wl,--no-whole-archive",
                    archives(subject)[1]], check=True)
    return made


def program(subject: Subject, folder: Path, source: str, *options: str) -> Path:
    """A program in C over the archive, made with these options."""
    made = folder / Path(source).stem
    words = ["cc", *WARNINGS, *options, f"-I{subject.root / 'c'}", "-o", made, subject.root / source]
    subprocess.run([*words, *archives(subject)], check=True)
    return made
