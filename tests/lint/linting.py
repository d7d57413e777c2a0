"""What `radpolicy-lint` prints: each folder here has files, a command, and in `wanted` the output and after it the
status; and of each policy of the folders of `help/` its first fault is the one that `radpolicy check` has."""
import json
import re
import subprocess
from pathlib import Path
from typing import Dict, List, Sequence, Tuple

from common.report import Report
from common.subject import Subject, new_folder, on_all
from help.helping import environment, words_of
from lint import answering, warned, written

HERE = Path(__file__).parent
DEADLINE = 120
# A row of SERVER.md's table of what is answered: names between backticks, and the name of the warning.
ANSWERED = re.compile(r"^\| (?P<names>`[^|]*?) \(\[`(?P<warning>[a-z-]+)`\]\(FORMATS\.md#warnings\)\) \| ", re.M)
TABLE = re.compile(r"^pub const (?P<name>\w+_(?:ATTRIBUTES|ENDINGS)): \[&str; \d+\] = \[(?P<names>[^\]]*)\];", re.M)
WARNINGS = {
    "SERVER_ATTRIBUTES": "virtual-attribute", "PACKET_ATTRIBUTES": "virtual-attribute",
    "MODULE_ATTRIBUTES": "module-comparison", "MODULE_ENDINGS": "module-comparison"}
FAULT = re.compile(rb"radpolicy: (E\d+) policy:(\d+): (.*)\n")


def ended(program: Path, folder: Path, words: Sequence[str]) -> Tuple[int, bytes, bytes]:
    """Status, output and errors of a program."""
    run = subprocess.run(
        [program, *words], cwd=folder, stdin=subprocess.DEVNULL, capture_output=True, env=environment("never"),
        timeout=DEADLINE, check=False)
    return run.returncode, run.stdout, run.stderr


def faults_of(program: Path, folder: Path) -> List[str]:
    """What is wrong with what is printed in a folder."""
    *lines, status = (folder / "wanted").read_text().splitlines(keepends=True)
    found, wanted = ended(program, folder, words_of(folder)), (int(status), "".join(lines).encode(), b"")
    wrong = [] if found == wanted else [f"{found!r}, not {wanted!r}"]
    if "json" in words_of(folder):
        wrong += [f"no object: {line!r}" for line in found[1].splitlines() if not isinstance(json.loads(line), dict)]
    return wrong


def first_fault_differs(subject: Subject, folder: Path) -> List[str]:
    """What is wrong with the first fault of a policy, beside what `check` says of it."""
    dictionaries = sorted(map(str, (subject.root / "dictionaries").glob("dictionary*")))
    words = ["--policy", "policy", *dictionaries]
    status, _, errors = ended(subject.program, folder, ["check", *words])
    own, output, _ = ended(subject.driver("radpolicy_lint"), folder, words)
    fault = FAULT.fullmatch(errors)
    if not fault:
        return [] if (status, own) == (0, 0) and b": error: " not in output else [f"{status}, {own}, {output!r}"]
    number, line, text = fault.groups()
    first = output.splitlines()[0]
    wanted = re.compile(rb"policy:" + line + rb":(\d+:)? error: " + re.escape(text) + rb" \[" + number + rb"\]")
    return [] if own == status and wanted.fullmatch(first) else [f"{own}, {first!r} for {errors!r}"]


def check_paths(subject: Subject, report: Report) -> None:
    """The path of a file gets to no terminal as it is."""
    with new_folder() as folder:
        name = "p\x9b2J\x1b[2J"
        (folder / name).write_bytes(b"rejected\n")
        dictionaries = sorted(map(str, (subject.root / "dictionaries").glob("dictionary*")))
        outputs = [ended(subject.driver("radpolicy_lint"), folder, ["--format", form, "--policy", name, *dictionaries])[1]
                   for form in ("text", "gcc", "json")]
    wrong = [f"{it!r}" for it in outputs if b"302" not in it or b"\x9b" in it or b"\x1b" in it or b"u001b" in it]
    report.check("lint: paths with control characters", wrong)


def told_answers(subject: Subject) -> Dict[str, str]:
    """The attributes that a server answers, by the section of SERVER.md, and the warnings that it names."""
    _, begun = (subject.root / "docs/SERVER.md").read_text().split("\n### Attributes that a server answers\n")
    section, *_ = begun.split("\n### ")
    rows = ANSWERED.finditer(section)
    return {name: row["warning"] for row in rows for name in re.findall("`([^`]+)`", row["names"])}


def known_answers(subject: Subject) -> Dict[str, str]:
    """The same by the tables of the source."""
    source = (subject.root / "crates/policy_warnings/src/server_attributes.rt").read_text()
    tables = {table["name"]: re.findall('"([^"]+)"', table["names"]) for table in TABLE.finditer(source)}
    return {name: WARNINGS[table] for table, names in tables.items() for name in names}


def warned_of(subject: Subject, folder: Path, name: str) -> List[str]:
    """The names of the warnings of a policy that compares an attribute with a text."""
    (folder / "dictionary").write_text(f"ATTRIBUTE {name} 3000 string\n")
    (folder / "policy").write_text(f'if (&{name} == "x") {{\n\tok\n}}\n')
    words = ["--format", "gcc", "--policy", "policy", "dictionary"]
    _, output, _ = ended(subject.driver("radpolicy_lint"), folder, words)
    return re.findall(r"^policy:1: warning: .* \[(.*)\]$", output.decode(), re.MULTILINE)


def check_answers(subject: Subject, report: Report) -> None:
    """The table of SERVER.md has what the source has, and each row has its warning."""
    told, known = told_answers(subject), known_answers(subject)
    wrong = [f"{name}: {warning}" for name, warning in sorted(told.items() ^ known.items())]
    with new_folder() as folder:
        for name, warning in told.items():
            own = f"second{name}" if name.startswith("-") else name
            for spelled in (own, own.upper()):
                found = warned_of(subject, folder, spelled)
                wrong += [] if found == [warning] else [f"{spelled}: {found}"]
        for name in ("Grouping", "SQL-Groups", "Packet", "User-Name"):
            wrong += [f"{name}: {found}" for found in warned_of(subject, folder, name)]
    report.check(f"lint: {len(told)} names that a server answers", wrong)


def check(subject: Subject, report: Report) -> None:
    check_paths(subject, report)
    check_answers(subject, report)
    warned.check(subject, report)
    answering.check(subject, report)
    written.check(subject, report)
    program = subject.driver("radpolicy_lint")
    folders = sorted(path.parent for path in HERE.glob("*/wanted"))
    for folder, wrong in zip(folders, on_all(lambda folder: faults_of(program, folder), folders)):
        report.check(f"lint: {folder.name}", wrong)
    policies = sorted(path.parent for path in (HERE.parent / "help").glob("**/policy"))
    found = on_all(lambda folder: first_fault_differs(subject, folder), policies)
    wrong = [f"{folder.name}: {it}" for folder, faults in zip(policies, found) for it in faults]
    report.check(f"lint: the first fault of {len(policies)} policies", wrong)
