"""Which clauses of `server_run` a policy reaches: an interpreter that writes the number of each as it comes to it."""
from pathlib import Path
from typing import Dict, List, NamedTuple, Set

from common.subject import Subject
from servers.served import REQUESTS
from servers.variants import INTERPRETER, Variant, of_wrong_bodies

FILE = Path(__file__).with_name("clauses.edit")
LIB = "src/lib.rt"
WRITING = """
pub(crate) fn met(clause: u8) {
    let _ = libc::write(2, &[clause]);
}
"""
# This one begins a run.
RUN = "server_run"


class Marked(NamedTuple):
    """The names of the clauses, by their numbers, and the interpreter."""

    names: List[str]
    variant: Variant


def marked(subject: Subject) -> Marked:
    """The interpreter with a mark in each clause. A row of the file may change what one before it wrote."""
    edits = of_wrong_bodies(subject, "edits")
    texts: Dict[str, str] = {}
    names: List[str] = []
    for row in FILE.read_text().split("clause: ")[1:]:
        name, *lines = row.replace("@", str(len(names))).splitlines()
        list(edits.places(edits.Edit(INTERPRETER, name, tuple(edits.changes_in(lines))), texts))
        names.append(name)
    texts[LIB] = edits.source_of(INTERPRETER, LIB) + WRITING
    return Marked(names, Variant("marked", texts))


def reached(names: List[str], written: bytes) -> List[Set[str]]:
    """The clauses that each policy reaches, from what was written in their runs."""
    runs = written.split(bytes([names.index(RUN)]))[1:]
    met = [{names[number] for number in set(run)} | {RUN} for run in runs]
    return [set().union(*met[first:first + REQUESTS]) for first in range(0, len(met), REQUESTS)]
