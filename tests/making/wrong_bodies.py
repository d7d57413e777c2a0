"""`make wrong-bodies`: how the wrong bodies of a crate are tried together, and judged, by a stand-in for the prover."""
import json
import os
import shutil
import subprocess
import time
from pathlib import Path
from typing import List, Mapping, Tuple

from common.report import Report
from common.subject import Subject, new_folder

STAND_IN = Path(__file__).with_name("prover")
# What each wrong body changes: the file, the text and the new one; and what is said of it.
Edits = Mapping[str, Tuple[str, str, str, str]]
LIB, INNER = "src/lib.rt", "src/inner.rt"
SOURCES = {
    LIB: """mod inner;

pub const MOST: u8 = 9;

pub struct Number(u8);

pub fn low() -> u8
    ensures { result ≡ 1 }
{
    // low:
    one()
}

pub fn middle() -> u8 {
    // middle: low
    two()
}

pub fn high() -> u8 {
    // high: middle
    three()
}

impl Number {
    pub fn value(&self) -> u8 {
        // Number::value:
        self.0
    }
}

impl<'a> From<Digits<'a>> for Number {
    fn from(digits: Digits<'a>) -> Number {
        // NumberFromDigits::from:
        digits.number()
    }
}
""",
    INNER: """#[cycle(turns)]
pub fn even(n: u8) -> bool {
    // inner::even:
    n == 0 || odd(n - 1)
}

#[cycle(turns)]
pub fn odd(n: u8) -> bool {
    // inner::odd:
    n == 1 || even(n - 1)
}

#[tactic(
    auto,
)]
pub fn first() -> u8 {
    // inner::first:
    ZERO
}

impl Number {
    pub fn next(&self) -> u8 {
        // Number::next:
        self.value() + 1
    }
}

pub struct Two<T>(T, T);

impl Two<Number> {
    pub fn last(&self) -> Number {
        // inner::Two+Number::last:
        self.1
    }
}
""",
}


def refused(place: str, name: str) -> str:
    return f"refused at src/{place}: it is not proved that what {name} ensures holds"


ALONE_AT = "refused, over the whole crate, at src/lib.rt:16: it is not proved that what middle ensures holds"
BY_A_NAME = "refused, only because a proof file names what the edit took away, at proofs/Number/value/Answers.antt:7"
NOT_REFUSED = "NOT REFUSED: the crate is still proved"
BY_A_LIMIT = "refused, over the whole crate, only by a limit of the prover's: rattle: no verdict: antt ran out of stack"
BAD = "BAD EDIT: it did not reach the prover"
NOT_TRIED = "NOT TRIED: its check ended with status 3: rattle: no verdict"
TOGETHER = {
    "of_a_function": (LIB, "one()", "other", refused("lib.rt:11", "low")),
    "of_a_method": (LIB, "self.0", "other", refused("lib.rt:27", "Number::value")),
    "of_an_impl": (LIB, "digits.number()", "other", refused("lib.rt:34", "NumberFromDigits::from")),
    "of_a_module": (INNER, "n == 0", "other", refused("inner.rt:4", "inner::even")),
    "of_a_type_elsewhere": (INNER, "self.value() + 1", "other", refused("inner.rt:24", "Number::next")),
    "of_a_type_of_numbers": (INNER, "self.1", "other", refused("inner.rt:33", "inner::Two+Number::last")),
    "without_an_end": (INNER, "ZERO", "unsearched", "refused at src/inner.rt:13: no proof"),
}
IN_TURN = {
    "called": (LIB, "one()", "other", refused("lib.rt:11", "low")),
    "called_too": (LIB, "one()", "0 + other", refused("lib.rt:11", "low")),
    "calling": (LIB, "two()", "other", refused("lib.rt:16", "middle")),
    "first_of_a_cycle": (INNER, "n == 0", "other", refused("inner.rt:4", "inner::even")),
    "next_of_a_cycle": (INNER, "n == 1", "other", refused("inner.rt:10", "inner::odd")),
}
ALONE = {
    "refused_at_its_caller": (LIB, "one()", "unsuited", ALONE_AT),
    "refused_by_a_name": (LIB, "self.0", "renamed", BY_A_NAME),
    "of_no_function": (LIB, "u8 = 9", "u8 = 8", NOT_REFUSED),
    "of_a_contract": (LIB, "result ≡ 1", "result ≡ 2", NOT_REFUSED),
    "right": (LIB, "three()", "3", NOT_REFUSED),
    "of_no_text": (LIB, "four()", "4", "BAD EDIT: its text is in src/lib.rt 0 times: four()"),
    "of_the_same_text": (LIB, "one()", "one()", "BAD EDIT: it changes nothing"),
    "unreadable": (INNER, "n == 0", "unreadable", f"{BAD}: error[syntax]: src/inner.rt:4"),
    "without_a_verdict": (INNER, "n == 1", "unended", NOT_TRIED),
    "past_a_limit": (INNER, "n == 1", "unlimited", BY_A_LIMIT),
}
IN_GATE = {"of_the_gate": (LIB, "two()", "other", refused("lib.rt:16", "middle"))}


class Tree:
    """A repository of two crates, of which the one below is built."""

    def __init__(self, subject: Subject, root: Path) -> None:
        self._root = root
        self._wanted = root / "wanted"
        shutil.copytree(STAND_IN, root / "kit")
        (root / "kit/KIT-ID").write_text("kit-1 logic 0\n")
        (root / "scripts").mkdir()
        for name in ("kit_code", "proof_store", "wrong_bodies"):
            shutil.copytree(subject.root / "scripts" / name, root / "scripts" / name)
        for name in ("try-wrong-bodies", "at-once"):
            shutil.copy(subject.root / "scripts" / name, root / "scripts" / name)
        self._write("crates.txt", "lower:\ntried: lower\n")
        self._write("crates/lower/src/lib.rt", "")
        for file, text in SOURCES.items():
            self._write(f"crates/tried/{file}", text)
        self.build("lower")

    def _write(self, file: str, text: str) -> None:
        (self._root / file).parent.mkdir(parents=True, exist_ok=True)
        (self._root / file).write_text(text)

    def build(self, crate: str, text: str = "") -> None:
        self._write(f"crates/{crate}/out/rlib/{crate}.rlib/format", text)

    def change(self, crate: str, after: float = 60) -> None:
        """Makes a source of the crate newer than all that is built."""
        later = time.time() + after
        os.utime(self._root / "crates" / crate / LIB, (later, later))

    def tell_proved(self, crate: str, after: float = 90) -> None:
        """Tells, later than that, that the library is one of the crate's present source."""
        proved = self._root / "crates" / crate / "out/rlib/proved"
        proved.touch()
        os.utime(proved, (time.time() + after, time.time() + after))

    def give(self, edits: Edits, folder: str = "wrong-bodies") -> None:
        """Gives the upper crate more wrong bodies."""
        for name, (file, old, new, _) in edits.items():
            self._write(f"crates/tried/{folder}/{name}.edit", f"file: {file}\nold: {old}\nnew: {new}\n")

    def take_edits(self) -> None:
        shutil.rmtree(self._root / "crates/tried/wrong-bodies")

    def add_to(self, crate: str, text: str) -> None:
        """Adds a text to a source of the crate."""
        self._write(f"crates/{crate}/{LIB}", (self._root / "crates" / crate / LIB).read_text() + text)

    def age(self, record: str, seconds: float) -> None:
        """Makes a record of the store older."""
        file = self._root / "cache/radpolicy/kit-1" / record / "record"
        kept = json.loads(file.read_text())
        kept["proved_at"] -= seconds
        file.write_text(json.dumps(kept))

    def run(self, *words: str, anew: bool = True) -> "subprocess.CompletedProcess[str]":
        self._wanted.write_text("")
        script = self._root / "scripts/try-wrong-bodies"
        environment = {**os.environ, "RT": str(self._root / "kit/bin/rt"), "WANTED": str(self._wanted)}
        environment.update({"XDG_CACHE_HOME": str(self._root / "cache"), "FROM_NOTHING": "1" if anew else ""})
        how = {"stdout": subprocess.PIPE, "stderr": subprocess.STDOUT, "text": True}
        return subprocess.run([script, *words], env=environment, stdin=subprocess.DEVNULL, **how)

    def checks(self) -> List[str]:
        """The functions that each check of the last run was to look at."""
        return self._wanted.read_text().splitlines()


def faults(tree: Tree, wanted: Mapping[str, str], passed: int, *words: str, anew: bool = True) -> List[str]:
    """What is wrong where the wrong bodies are tried, and this is wanted to be said of each."""
    ran = tree.run(*words, anew=anew)
    said, failed = ran.stdout.splitlines(), len(wanted) - passed
    begun = [f"tried/{name}: {text}" for name, text in wanted.items()]
    wrong = [f"{it!r} is not said" for it in begun if not any(line.startswith(it) for line in said)]
    wrong += [] if ran.returncode == (failed > 0) else [f"its status is {ran.returncode}"]
    wrong += [] if said[-1:] == [f"wrong bodies: {passed} passed, {failed} failed"] else [f"it ends with {said[-1:]}"]
    return wrong + ([f"it says {line}" for line in said] if wrong else [])


def faults_of_checks(tree: Tree, *wanted: str) -> List[str]:
    return [] if tree.checks() == list(wanted) else [f"it checks {tree.checks()}"]


def said_of(edits: Edits) -> Mapping[str, str]:
    return {name: said for name, (_, _, _, said) in edits.items()}


def check_judged(tree: Tree, report: Report) -> None:
    """What fits into one copy in one check; the others in turn; and alone what that does not tell of."""
    methods = "Number::next Number::value NumberFromDigits::from inner::Two+Number::last"
    all_of_them = f"{methods} inner::even inner::first low"
    tree.give(TOGETHER)
    wrong = faults(tree, said_of(TOGETHER), 7) + faults_of_checks(tree, all_of_them, all_of_them)
    report.check("wrong bodies: of a crate that is not built, and as it is", wrong)
    tree.build("tried")
    report.check("wrong bodies: in one check", faults(tree, said_of(TOGETHER), 7) + faults_of_checks(tree, all_of_them))
    tree.take_edits()
    tree.give(IN_TURN)
    turns = ["inner::even low middle", "inner::odd low middle", "middle", "inner::even inner::odd low middle"]
    report.check("wrong bodies: in turn", faults(tree, said_of(IN_TURN), 5) + faults_of_checks(tree, *turns))
    tree.take_edits()
    tree.give(ALONE)
    wrong = faults(tree, said_of(ALONE), 3)
    # All but the two that change no text and the one that is refused by a name; once more what is still proved, and what
    # has no verdict; the crate as it is.
    wrong += [] if tree.checks().count("all") == len(ALONE) + 2 else [f"it checks {tree.checks()}"]
    report.check("wrong bodies: alone", wrong)
    tree.take_edits()


def check_chosen(tree: Tree, report: Report) -> None:
    """Those of the gate, those of a crate, and none where a library is lacking or older than a source."""
    tree.give(TOGETHER)
    tree.give(IN_GATE, "wrong-bodies/gate")
    report.check("wrong bodies: of the gate", faults(tree, said_of(IN_GATE), 1, "--gate"))
    both = {**said_of(TOGETHER), **said_of(IN_GATE)}
    report.check("wrong bodies: of a crate", faults(tree, both, len(both), "tried"))
    for crate in ("lower", "upper"):
        ran = tree.run(crate)
        wrong = [] if ran.returncode == 1 and "wrong bodies:" not in ran.stdout else [f"it says {ran.stdout!r}"]
        report.check(f"wrong bodies: none of {crate}", wrong)
    tree.change("lower")
    tree.tell_proved("lower")
    report.check("wrong bodies: over a library that was taken for the source", faults(tree, both, len(both), "tried"))
    tree.change("lower", 120)
    older = {name: "NOT TRIED: the library lower is older than a source" for name in both}
    report.check("wrong bodies: over an old library", faults(tree, older, 0) + faults_of_checks(tree))


def check_kept(tree: Tree, report: Report) -> None:
    """What was refused is not tried again until the crate, a library below it, an edit or the day is another."""
    tree.give(TOGETHER)
    tree.build("tried")
    all_of_them = "Number::next Number::value NumberFromDigits::from inner::Two+Number::last inner::even inner::first low"

    def checked(what: str, *checks: str) -> None:
        wrong = faults(tree, said_of(TOGETHER), 7, anew=False) + faults_of_checks(tree, *checks)
        report.check(f"wrong bodies: {what}", wrong)

    checked("tried at first", all_of_them)
    checked("kept then")
    tree.add_to("tried", "\n")
    tree.build("tried")
    checked("of another source", all_of_them)
    tree.build("lower", "other")
    checked("over another library", all_of_them)
    tree.age("tried.wrong-bodies", 24 * 60 * 60)
    checked("of yesterday", all_of_them)
    tree.give(IN_GATE)
    wrong = faults(tree, {**said_of(TOGETHER), **said_of(IN_GATE)}, 8, anew=False)
    report.check("wrong bodies: with one more", wrong + ([] if tree.checks() else ["nothing is checked"]))
    tree.take_edits()
    tree.give({"right": ALONE["right"]})
    for _ in range(2):
        wrong = faults(tree, said_of({"right": ALONE["right"]}), 0, anew=False)
        wrong += [] if tree.checks() else ["nothing is checked"]
    report.check("wrong bodies: what is not refused is not kept", wrong)
    tree.take_edits()


def check(subject: Subject, report: Report) -> None:
    with new_folder() as folder:
        tree = Tree(subject, folder)
        check_judged(tree, report)
        check_kept(tree, report)
        check_chosen(tree, report)
