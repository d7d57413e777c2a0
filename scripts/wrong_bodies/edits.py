"""Wrong bodies: edits of a crate's sources, each of which the prover has to refuse."""
import os
from dataclasses import dataclass
from pathlib import Path

TOP = Path(__file__).resolve().parent.parent.parent
PARTS = ("src", "specs", "proofs")


class Unfit(Exception):
    """Why an edit does not change the sources that it names."""


@dataclass(frozen=True)
class Change:
    """A text of one line that stands in a file once, and what takes its place."""

    file: str
    old: str
    new: str


@dataclass(frozen=True)
class Edit:
    crate: str
    name: str
    changes: tuple

    def __str__(self):
        return f"{self.crate}/{self.name}"


def changes_in(lines):
    """Gives the changes that an edit's lines tell of, by the rules of `rt must-fail`."""
    path = old = None
    for line in lines:
        if line.startswith("file: "):
            path = line[len("file: "):].strip()
        elif line.startswith("old: "):
            old = line[len("old: "):]
        elif line.startswith("new:"):
            new = line[len("new:"):]
            yield Change(path, old, new[1:] if new.startswith(" ") else new)
            old = None


def read_edit(crate, file):
    lines = file.read_text(encoding="utf-8", errors="replace").split("\n")
    return Edit(crate, file.stem, tuple(changes_in(lines)))


def edits_of(crate, of_gate=False):
    """Returns the crate's edits: all, or those that the gate tries."""
    folder = TOP / "crates" / crate
    files = [*folder.glob("wrong-bodies/gate/*.edit"), *([] if of_gate else folder.glob("wrong-bodies/*.edit"))]
    return [read_edit(crate, file) for file in sorted(files, key=lambda it: it.stem)]


def source_of(crate, file):
    """Returns the text of a source, given by its path in the crate."""
    if not file or os.path.normpath(file) != file or file.split("/")[0] not in PARTS:
        raise Unfit(f"{file} is no file below src, specs or proofs")
    try:
        return (TOP / "crates" / crate / file).read_text(encoding="utf-8")
    except (OSError, UnicodeDecodeError) as error:
        raise Unfit(f"{file} cannot be read") from error


def places(edit, texts):
    """Makes the changes in the texts of the files, which it reads where they are not given, and gives of each as it is
    made the file, the line and the text. No change alters the number of lines."""
    before = {}
    for change in edit.changes:
        text = texts[change.file] if change.file in texts else source_of(edit.crate, change.file)
        if not change.old or text.count(change.old) != 1:
            raise Unfit(f"its text is in {change.file} {text.count(change.old or ' ')} times: {change.old}")
        before.setdefault(change.file, text)
        texts[change.file] = text.replace(change.old, change.new)
        yield change.file, text[:text.index(change.old)].count("\n") + 1, texts[change.file]
    if all(texts[file] == text for file, text in before.items()):
        raise Unfit("it changes nothing")
