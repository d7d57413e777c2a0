"""The fuzzer's jobs: the worked cases, the examples and generated cases, changed. Each has a number."""
import functools
import json
from collections import Counter
from pathlib import Path
from random import Random
from typing import Dict, List, NamedTuple, Tuple

from common.cases import Case, cases_below
from common.documents import Fault, faults, told
from common.program import Ended, run
from common.report import Report
from common.subject import Subject, new_folder, on_all
from fuzz import generate
from fuzz.judge import wrong
from fuzz.mutations import changed
from fuzz.packets import list_octets, packet
from fuzz.vocabulary import DICTIONARY, values

SEED = 1000
SECRET = b"testing"
FOUND = Path(__file__).parent.parent / "found"


class Outcome(NamedTuple):
    """A job's case, how it ended and what is wrong of that."""

    number: int
    case: Case
    ended: Ended
    wrong: List[str]


@functools.lru_cache(None)
def given_cases(root: Path) -> Tuple[Case, ...]:
    """The worked cases and the examples."""
    return (*cases_below(root / "tests/cases"), *cases_below(root / "examples"))


def generated_case(rng: Random) -> Case:
    """A case of any command by the fuzzer's dictionary."""
    pairs = values(rng, rng.choice([0, 2, 5, 10]))
    files = {
        "dictionary": DICTIONARY.read_bytes(),
        "lines": generate.request(rng, pairs),
        "packet": packet(1, 7, bytes(16), list_octets(SECRET, bytes(16), pairs)).hex().encode(),
        "policy": "\n".join(generate.policy(rng)).encode("latin-1"),
        "script": generate.script(rng, 12),
        "secret": SECRET + b"\n",
    }
    commands = [
        "run -f lines --policy policy",
        "run -f lines --policy policy --acct -S secret -i 7",
        "run --hex -f packet --policy policy -S secret",
        "step -f lines --policy policy --script script",
        f"encode -f lines -S secret --authenticator {'00' * 16}",
        "decode -f packet -S secret",
        "check --policy policy",
    ]
    words = f"{rng.choice(commands)} dictionary".split()
    used = {name: octets for name, octets in files.items() if name in words}
    return Case("generated", tuple(word.encode() for word in words), used)


def job(root: Path, seed: int, number: int) -> Case:
    """The case of a number; the same whenever it is made."""
    rng = Random(f"job {seed} {number}")
    case = generated_case(rng) if rng.random() < 0.5 else rng.choice(given_cases(root))
    return changed(rng, case)


def tried(subject: Subject, case: Case) -> Ended:
    with new_folder() as folder:
        case.place(folder)
        return run([subject.program, *case.words], folder, case.stdin)


def outcome(subject: Subject, table: Dict[str, Fault], seed: int, number: int) -> Outcome:
    case = job(subject.root, seed, number)
    ended = tried(subject, case)
    return Outcome(number, case, ended, wrong(case, ended, table))


def kept(seed: int, found: Outcome) -> Path:
    """The folder in which a case is kept: its words, its files and what is wrong of it."""
    folder = FOUND / f"{seed}-{found.number}"
    (folder / "files").mkdir(parents=True, exist_ok=True)
    found.case.place(folder / "files")
    words = [word.decode("latin-1") for word in found.case.words]
    told_of = {"words": words, "wrong": found.wrong, "status": found.ended.status}
    (folder / "case.json").write_text(json.dumps(told_of, indent=1) + "\n")
    return folder


def case_kept(folder: Path) -> Case:
    """The case that is kept in a folder."""
    words = json.loads((folder / "case.json").read_text())["words"]
    files = {path.name: path.read_bytes() for path in (folder / "files").iterdir()}
    return Case(folder.name, tuple(word.encode("latin-1") for word in words), files)


def counted(outcomes: List[Outcome]) -> Counter:
    """How many jobs came to each status, or to each fault."""
    counts: Counter = Counter()
    for it in outcomes:
        line = told(it.ended.errors)
        counts[line.number if line else f"status {it.ended.status}"] += 1
    return counts


def many(subject: Subject, seed: int, numbers: range) -> List[Outcome]:
    """Runs jobs, and keeps those that something is wrong of."""
    table = faults(subject.root)
    outcomes = on_all(lambda number: outcome(subject, table, seed, number), numbers)
    for found in outcomes:
        if found.wrong:
            print(f"{kept(seed, found)}: {found.wrong}", flush=True)
    return outcomes


def check(subject: Subject, report: Report) -> None:
    """The jobs that every test run has."""
    outcomes = many(subject, 0, range(SEED))
    counts = counted(outcomes)
    report.check(
        f"{SEED} changed cases: {', '.join(f'{number} of {what}' for what, number in sorted(counts.items()))}",
        [f"job {it.number}: {it.wrong}" for it in outcomes if it.wrong],
    )
