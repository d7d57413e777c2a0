"""The options by which programs write files, each with a call of it."""
import hashlib
from dataclasses import dataclass
from pathlib import Path
from typing import Dict, List, Sequence, Tuple

from common.program import Ended, Word, run
from common.subject import Subject

DICTIONARY = b"ATTRIBUTE User-Name 1 string\nATTRIBUTE Reply-Message 18 string\nATTRIBUTE Framed-Pool 88 string\n"
SITE = b"""authorize {
	if (&outer.request:User-Name == "bob") {
		reject
	}
	if (&reply:Framed-Pool == "a") {
		update reply {
			Reply-Message := "Hello"
		}
	}
}
"""
UPDATE = b'update reply { Reply-Message := "Hello" }\n'
REQUEST = b'User-Name = "bob"\n'
INPUTS = {"dictionary": DICTIONARY, "site": SITE, "policy": UPDATE, "request": REQUEST}
IMPORT = ("radpolicy_import", ("--dict", "dictionary", "site"))
PAGE = ("radpolicy_page", ("-f", "request", "--policy", "policy", "dictionary"))


@dataclass(frozen=True)
class Writer:
    """An option that names a file, and how its comments begin and end."""

    program: str
    words: Tuple[str, ...]
    option: str
    comment: Tuple[bytes, bytes] = (b"# ", b"\n")

    @property
    def name(self) -> str:
        return f"{self.program.replace('_', '-')} {self.option}"

    def command(self, subject: Subject, path: Word, *more: Word) -> List[Word]:
        return [subject.driver(self.program), self.option, path, *more, *self.words]

    def write(self, subject: Subject, folder: Path, path: Word, *more: Word) -> Ended:
        """A call with this path for its output."""
        return run(self.command(subject, path, *more), folder)

    def without_mark(self, octets: bytes) -> bytes:
        """A file without the program's line, if it has one with the digest of all other lines; else nothing."""
        begin, end = self.comment
        begin += b"Written by " + self.program.replace("_", "-").encode() + b"; SHA-256 of the other lines: "
        lines = octets.splitlines(keepends=True)
        for place, line in enumerate(lines[:2]):
            rest = b"".join(lines[:place] + lines[place + 1 :])
            if line == begin + hashlib.sha256(rest).hexdigest().encode() + end:
                return rest
        return b""


def of_import(option: str) -> Writer:
    return Writer(*IMPORT, option)


OF_PAGE = Writer(*PAGE, "-o", (b"<!-- ", b" -->\n"))
POLICY = of_import("-o")
WRITERS = [
    POLICY,
    *map(of_import, ("--map", "--write-dictionary", "--dictionary", "--initial-template")),
    OF_PAGE,
]


def place(folder: Path, files: Dict[str, bytes]) -> None:
    for name, octets in files.items():
        (folder / name).write_bytes(octets)


def octets_of(path: Path) -> bytes:
    """What a file holds; nothing where none is."""
    return path.read_bytes() if path.is_file() else b""


def names_in(folder: Path) -> List[str]:
    """The names in a folder that are no inputs."""
    return sorted({path.name for path in folder.iterdir()} - set(INPUTS))


def said(ended: Ended) -> str:
    return f"status {ended.status}, {ended.errors[-200:]!r}"


def refused(ended: Ended, status: int, words: Sequence[bytes]) -> List[str]:
    """What is wrong with a refusal of this status that has these words."""
    return [] if ended.status == status and all(word in ended.errors for word in words) else [said(ended)]
