"""Commands with their files: the worked cases of `tests/cases` and the examples, as folders or in memory."""
import glob
import os
from dataclasses import dataclass, replace
from pathlib import Path
from typing import Dict, Iterator, List, Tuple


@dataclass(frozen=True)
class Case:
    """The words after the program's name, the files that lie where it runs, and standard input."""

    name: str
    words: Tuple[bytes, ...]
    files: Dict[str, bytes]
    stdin: bytes = b""
    output: bytes = b""

    def place(self, folder: Path) -> None:
        """Writes the files."""
        for name, octets in self.files.items():
            (folder / name).write_bytes(octets)

    def with_file(self, name: str, octets: bytes) -> "Case":
        return replace(self, files={**self.files, name: octets})


def from_folder(folder: Path) -> Case:
    """The case of a folder with the files `command` and `output`. Each word of the command that a shell takes for paths
    of files becomes their last parts, and the files become the case's own, so that the case stands alone."""
    words: List[str] = []
    files: Dict[str, bytes] = {}
    for word in (folder / "command").read_text().split():
        paths = [Path(path) for path in sorted(glob.glob(str(folder / word))) if os.path.isfile(path)]
        files.update((path.name, path.read_bytes()) for path in paths)
        words += [path.name for path in paths] or [word]
    return Case(folder.name, tuple(map(os.fsencode, words)), files, output=(folder / "output").read_bytes())


def cases_below(folder: Path) -> Iterator[Case]:
    """The cases of the folders in a folder, by name."""
    for command in sorted(folder.glob("*/command")):
        yield from_folder(command.parent)
