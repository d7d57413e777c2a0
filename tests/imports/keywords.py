"""The keyword tests of FreeRADIUS's own source, each as a section of a server on loopback and as what
`radpolicy-import` makes of it: their lists are the same, or the report tells of the line at which they part. KEYWORDS
names their folder, `src/tests/keywords`; Debian's packages do not have it, `apt-get source freeradius` does."""
import os
import re
from pathlib import Path
from typing import Dict, List, NamedTuple, Set

from common.report import Report
from common.subject import Subject, new_folder, on_all
from imports.beside import Answers, Part, absent, answers, configure, is_taken

MODULES = ["always", "expr", "unpack"]
# What the tests call.
POLICIES = "\tvirtual_policy {\n\t\tok\n\t}\n\twith.dots {\n\t\tok\n\t}\n"
# Of a file that is no test.
OTHERS = (".attrs", ".md", ".mk", ".conf")
DEFAULT = "default-input.attrs"
PAIR = re.compile(r"^([A-Za-z0-9-]+) *(?::=|\+=|=)(?!=) *(.*)$", re.M)
# What nearly each of them sets, so that its user is accepted.
OF_USERS = "[obeyed-control]"
# A line of a report, with the line of the test.
TOLD = re.compile(r"^(?:\S*/)?parts/[^:]+:(\d+): ")
# It tells that what follows is run, where a server may leave the section.
LEAVES = ": what is done after a module's code: "
COMMENT = re.compile(r"(?:^|\s)#[^\"']*$")
OTHERWISE = re.compile(r"\}?\s*(?:else|elsif)\b")


class Cut(NamedTuple):
    """A test up to a line, with its blocks closed, and the lines whose conditions lead there: those that open the blocks
    and the branches before them."""

    line: int
    text: str
    heads: Set[int]


def request_of(folder: Path, name: str) -> List[str]:
    """The pairs of a test's request; below them is the reply that it wants."""
    path = folder / f"{name}.attrs"
    text = (path if path.exists() else folder / DEFAULT).read_text()
    return [f"{attribute} = {value}" for attribute, value in PAIR.findall(text.replace("'", '"'))]


def tests_of(folder: Path) -> Dict[str, Part]:
    """The tests by their names, but for those that want the server to refuse them."""
    found = {}
    for path in sorted(folder.iterdir()):
        text = path.read_text(errors="replace")
        if path.suffix not in OTHERS and "# ERROR" not in text:
            found[path.name] = Part("authorize", text, "", [request_of(folder, path.name)])
    return found


def cuts_of(text: str) -> List[Cut]:
    """A test up to each line with which a statement ends or a block begins."""
    found = [Cut(0, "", set())]
    lines, open_blocks, closed = text.splitlines(), [], set()
    for number, line in enumerate(lines, 1):
        said = COMMENT.sub("", line).strip()
        if not said or said.endswith("\\"):
            continue
        if said.startswith("}") and open_blocks:
            closed = open_blocks.pop()
        if said.endswith("{"):
            open_blocks.append({number} | (closed if OTHERWISE.match(said) else set()))
        heads = {head for block in open_blocks for head in block}
        found.append(Cut(number, "\n".join([*lines[:number], *("}" for _ in open_blocks), ""]), heads))
    return found


def part_of(test: Part, cut: Cut) -> Part:
    return test._replace(text=cut.text)


def middle(test: Part, cuts: List[Cut]) -> int:
    """The place of a cut that a server takes, as near as can be to the middle; 0 where there is none but the ends."""
    places = sorted(range(1, len(cuts) - 1), key=lambda place: abs(2 * place - len(cuts)))
    return next((place for place in places if is_taken(part_of(test, cuts[place]), MODULES, POLICIES)), 0)


def partings(subject: Subject, tests: Dict[str, Part]) -> Dict[str, List[Cut]]:
    """Of each test the last cut that ends alike, and the next, which does not."""
    cuts = {name: cuts_of(test.text) for name, test in tests.items()}
    while True:
        places = {name: middle(test, cuts[name]) for name, test in tests.items()}
        parts = {name: part_of(tests[name], cuts[name][place]) for name, place in places.items() if place}
        if not parts:
            return {name: [found[0], found[-1]] for name, found in cuts.items()}
        with new_folder() as folder:
            found = answers(subject, folder, parts, configure(folder, parts, MODULES, POLICIES))
        for name in parts:
            one, place = found[name], places[name]
            cuts[name] = cuts[name][place:] if one.theirs == one.ours else cuts[name][:place + 1]


def faults_of(found: Answers) -> List[str]:
    """What is wrong with a test of which the report tells nothing."""
    return [] if found.theirs == found.ours else [f"{found.ours}, by a server {found.theirs}"]


def told_lines(found: Answers) -> Set[int]:
    """The lines of a test of which the report tells something that is not told of nearly all tests."""
    return {int(said[1]) for line in found.told if OF_USERS not in line for said in [TOLD.match(line)] if said}


def leaving_lines(found: Answers) -> Set[int]:
    return {int(said[1]) for line in found.told if LEAVES in line for said in [TOLD.match(line)] if said}


def faults_of_told(found: Answers, before: Cut, parting: Cut) -> List[str]:
    """What is wrong with a test that ends otherwise, by where it parts."""
    places = set(range(before.line + 1, parting.line + 1)) | parting.heads
    if (told_lines(found) | found.asking) & places or min(leaving_lines(found), default=parting.line) < parting.line:
        return []
    return [f"nothing is told of line {parting.line}: {found.ours}, by a server {found.theirs}, {found.report}"]


def check(subject: Subject, report: Report) -> None:
    place = Path(os.environ.get("KEYWORDS", "src/tests/keywords"))
    if absent() or not (place / DEFAULT).exists():
        report.say(f"FreeRADIUS's keyword tests: left out, {absent() or f'there is no {place}'}")
        return
    given = tests_of(place)
    taken = on_all(lambda part: is_taken(part, MODULES, POLICIES), given.values())
    parts = {name: part for (name, part), is_one in zip(given.items(), taken) if is_one}
    with new_folder() as folder:
        ports = configure(folder, parts, MODULES, POLICIES)
        found = answers(subject, folder, parts, ports)
        report.check("a server takes the keyword tests", [] if found else [(folder / "log").read_text()[-2000:]])
    told = {name for name, one in found.items() if not all(OF_USERS in line for line in one.told)}
    otherwise = {name: parts[name] for name in told if found[name].theirs != found[name].ours}
    report.say(f"    {len(found) - len(told)} of {len(found)} that a server takes are kept without a word, of {len(given)}")
    report.say(f"    of the others {len(otherwise)} end otherwise, as their reports tell")
    parted = partings(subject, otherwise)
    for name, one in found.items():
        faults = faults_of_told(one, *parted[name]) if name in parted else faults_of(one)
        report.check(f"the keyword test {name}", faults)
