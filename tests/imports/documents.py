"""Conditions and update lines of a FreeRADIUS server's own documents, each in a section of its own, run by the server
on loopback and by what `radpolicy-import` makes of the section: to three requests each the lists at the end are the
same, or the report tells of the line.

The rows are in `document_rows`, with a blank line between them; each line of a row is a word and what it says:

    from policy.d/eap                              the document
    line if (&reply:Reply-Message) {               a condition, or a line of an update, as it stands there
    run if (&reply:Filter-Id) {                    what is run in its place, if it could not run by itself,
    why the name                                   and what is changed in it
    in reply                                       of a line of an update: the list of the update, if it names one
    section post-auth                              where it is, if not in `authorize`
    before ok                                      a line of what is before it there
    given control:Import-Client-1 = "yes"          a line of the initial lists: what an expansion gives
    told $ also matches                            a part of what the report says of it
    otherwise it is given by each request          of such a row: why the lists are not the same
    always there is no outer request               why a condition is true of all three requests, or of none
    request User-Name = "bob", NAS-Port = 1        one of its requests"""
import gzip
import re
from pathlib import Path
from typing import Dict, Iterator, List, NamedTuple

from common.report import Report
from common.subject import Subject, new_folder
from imports.beside import Answers, Part, absent, answers, configure, raddb

ROWS = Path(__file__).parent / "document_rows"
MANUAL = Path("/usr/share/man/man5/unlang.5.gz")
REQUESTS = 3
MODULES = ["always", "expr"]
# What shows that a condition is true.
HOLDS = "Reply-Message = it holds"
CONDITION = "if {text} {{\nupdate reply {{\nReply-Message := \"it holds\"\n}}\n}}\n"
UPDATE = "update {text} {{\n{line}\n}}\n"
# The ends of pairs in a line of them.
ENDS = re.compile(r", (?=[A-Z][A-Za-z0-9:-]* = )")


class Row(NamedTuple):
    """A line of a document, and what is tried of it."""

    document: str
    line: str
    run: str
    why: str
    update: str
    section: str
    before: str
    given: str
    told: List[str]
    otherwise: str
    always: str
    requests: List[str]

    @property
    def is_condition(self) -> bool:
        return self.line.startswith(("(", "if", "elsif"))

    @property
    def text(self) -> str:
        """What is tried, as a part of a section."""
        if not self.is_condition:
            return self.before + UPDATE.format(text=self.update, line=self.run)
        condition = re.sub(r"^(els)?if ?|\s*\{$", "", self.run)
        return self.before + CONDITION.format(text=condition)


def rows() -> Iterator[Row]:
    for part in ROWS.read_text().strip().split("\n\n"):
        said: Dict[str, List[str]] = {}
        for line in part.splitlines():
            word, _, text = line.partition(" ")
            said.setdefault(word, []).append(text)
        one = {word: texts[0] for word, texts in said.items()}
        yield Row(
            one["from"], one["line"], one.get("run", one["line"]), one.get("why", ""), one.get("in", ""),
            one.get("section", "authorize"), "".join(f"{line}\n" for line in said.get("before", [])),
            "".join(f"{line}\n" for line in said.get("given", [])), said.get("told", []), one.get("otherwise", ""),
            one.get("always", ""), said["request"])


def bare(text: str) -> str:
    """A text without its line ends, its comment signs and all blanks but one between words."""
    lines = (re.sub(r"^[\s#]+", "", line) for line in text.splitlines())
    return " ".join(" ".join(lines).replace("\\ ", " ").split())


def text_of(document: str) -> str:
    if document != "unlang(5)":
        return bare((raddb() / document).read_text(errors="replace"))
    with gzip.open(MANUAL, "rt", errors="replace") as file:
        return bare(file.read().replace("\\e", "\\").replace("\\-", "-"))


def faults_of_rows(given: List[Row]) -> List[str]:
    """Rows that are not what their documents say, or that try too little."""
    texts = {document: text_of(document) for document in {row.document for row in given}}
    wrong = [f"{row.document} has no {row.line}" for row in given if row.line not in texts[row.document]]
    wrong += [f"{row.line}: {len(row.requests)} requests" for row in given if len(set(row.requests)) != REQUESTS]
    wrong += [f"{row.line}: why not as it stands?" for row in given if (row.run != row.line) != bool(row.why)]
    return wrong


def faults_of(row: Row, found: Answers) -> List[str]:
    """What is wrong with what is said, or answered, of a row."""
    told = "\n".join(found.told)
    wrong = [f"{part} is not told of: {found.report}" for part in row.told if part not in told]
    wrong += [f"it is told of: {found.report}"] if found.told and not row.told else []
    if len(found.theirs) != REQUESTS:
        return [*wrong, f"{len(found.theirs)} answers of the server"]
    if row.is_condition:
        truths = [HOLDS in answer.lists["reply"] for answer in found.theirs]
        wrong += [f"of the three requests it is {truths}"] if (len(set(truths)) == 1) != bool(row.always) else []
    differing = [
        f"{request}: {ours}, by a server {theirs}"
        for request, theirs, ours in zip(row.requests, found.theirs, found.ours) if theirs != ours]
    if row.otherwise:
        return [*wrong, *([] if found.told and differing else ["it is not otherwise, or not told of"])]
    return wrong + differing


def check(subject: Subject, report: Report) -> None:
    lacking = absent() or (None if MANUAL.exists() else f"there is no {MANUAL}")
    if lacking:
        report.say(f"lines of a server's documents: left out, {lacking}")
        return
    given = {f"row-{at}": row for at, row in enumerate(rows())}
    report.check("the rows are of the documents", faults_of_rows(list(given.values())))
    parts = {
        name: Part(row.section, row.text, row.given, [ENDS.split(request) for request in row.requests])
        for name, row in given.items()}
    with new_folder() as folder:
        ports = configure(folder, parts, MODULES)
        found = answers(subject, folder, parts, ports)
        report.check("a server takes the lines", [] if found else [(folder / "log").read_text()[-2000:]])
    for name, row in given.items() if found else ():
        report.check(f"{row.document}, {row.line}", faults_of(row, found[name]))
