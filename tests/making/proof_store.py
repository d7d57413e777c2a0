"""`scripts/prove-all`: what is proved anew and what is taken from the store, by a stand-in for the kit."""
import json
import os
import shutil
import subprocess
import sys
from pathlib import Path
from typing import Callable, Dict, List

from common.report import Report
from common.subject import Subject, new_folder

STAND_IN = Path(__file__).with_name("prover_of_all")
ALL = [f"{crate}.{kind}" for crate in ("lower", "upper", "archive", "program") for kind in ("proof", "tests")]
CHAIN = ["lower.proof", "upper.proof", "program.proof"]
DAY = 24 * 60 * 60


class Tree:
    """A repository of two libraries, one over the other, a static one and a program, with a kit and a store of its own."""

    def __init__(self, subject: Subject, folder: Path) -> None:
        self.folder, self._subject = folder / "tree", subject
        self.kit, self.cache = folder / "kit", folder / "cache"
        shutil.copytree(STAND_IN, self.kit)
        (self.kit / "KIT-ID").write_text("kit-1 logic 0\n")
        for name in ("kit_code", "proof_store", "wrong_bodies"):
            shutil.copytree(subject.root / "scripts" / name, self.folder / "scripts" / name)
        shutil.copy(subject.root / "scripts/prove-all", self.folder / "scripts/prove-all")
        self.write("HANDLES", "none")
        self.write("crates.txt", "lower:\nupper: lower\narchive staticlib: upper\nprogram: upper\n")
        self.write("crates/lower/src/lib.rt", "one")
        self.write("crates/upper/src/lib.rt", "two")
        self.write("crates/archive/src/lib.rt", "four")
        self.write("crates/program/src/main.rt", "three\n")

    @property
    def store(self) -> Path:
        return self.cache / "radpolicy/kit-1"

    def write(self, file: str, text: str) -> None:
        (self.folder / file).parent.mkdir(parents=True, exist_ok=True)
        (self.folder / file).write_text(text)

    def move(self) -> None:
        """Takes the repository to another place, without what was made in it."""
        new = self.folder.with_name("moved")
        shutil.copytree(self.folder, new, ignore=shutil.ignore_patterns("out"))
        shutil.rmtree(self.folder)
        self.folder = new

    def change_record(self, name: str, change: Callable[[dict], None]) -> None:
        file = self.store / name / "record"
        record = json.loads(file.read_text())
        change(record)
        file.write_text(json.dumps(record))

    def run(self, **more: str) -> "subprocess.CompletedProcess[str]":
        proved = self.kit / "proved"
        proved.write_text("")
        environment = {**os.environ, "RT": str(self.kit / "bin/rt"), "PROVED": str(proved)}
        environment.update({"XDG_CACHE_HOME": str(self.cache), "FROM_NOTHING": "", **more})
        how = {"stdin": subprocess.DEVNULL, "stdout": subprocess.PIPE, "stderr": subprocess.STDOUT, "text": True}
        return subprocess.run([self.folder / "scripts/prove-all"], env=environment, **how)

    def lacking(self, crate: str) -> List[str]:
        """Why wrong bodies can't be tried over a library."""
        asked = f"from wrong_bodies.libraries import library_of; library_of({crate!r})"
        environment = {**os.environ, "PYTHONPATH": str(self.folder / "scripts"), "PYTHONDONTWRITEBYTECODE": "1"}
        ran = subprocess.run([sys.executable, "-c", asked], env=environment, stderr=subprocess.PIPE, text=True)
        return ran.stderr.splitlines()[-1:]

    def proved(self) -> List[str]:
        return [line.split()[0] for line in (self.kit / "proved").read_text().splitlines()]

    def jobs(self) -> Dict[str, str]:
        """The jobs that each proof had."""
        return {line.split()[0]: line.split()[-1] for line in (self.kit / "proved").read_text().splitlines()}


def faults(tree: Tree, anew: List[str], said: str = "", failed: int = 0, **more: str) -> List[str]:
    """What is wrong where all is to be proved, these are to be proved anew, and this is to be said."""
    ran = tree.run(**more)
    lines = ran.stdout.splitlines()
    wrong = [] if tree.proved() == anew else [f"it proves {tree.proved()} anew"]
    wrong += [] if ran.returncode == (failed > 0) else [f"its status is {ran.returncode}"]
    wrong += [] if lines[-1:] == [f"{len(ALL) - failed} passed, {failed} failed"] else [f"it ends with {lines[-1:]}"]
    wrong += [] if said in ran.stdout else [f"{said!r} is not said"]
    if not failed:
        counts = f"proofs: {len(anew)} proved anew: {' '.join(sorted(anew)) or 'none'}"
        wrong += [] if counts in lines or more.get("HOME") == "" else [f"{counts!r} is not said"]
        for made, own in (("program/out/program", "three"), ("archive/out/libarchive.a", "four")):
            text = (tree.folder / "crates" / made).read_text()
            wrong += [] if own in text and "two" in text else [f"{made} is {text!r}"]
    return wrong + ([f"it says {line}" for line in lines] if wrong else [])


def check_kept(tree: Tree, report: Report) -> None:
    report.check("proofs: all is proved anew at first", faults(tree, ALL))
    report.check("proofs: and kept then", faults(tree, [], "kept: it was proved 0 minutes ago"))
    tree.move()
    report.check("proofs: at another place too", faults(tree, []))
    tree.write("crates/lower/src/lib.rt", "one# the same library")
    report.check("proofs: a library that stays the same", faults(tree, ALL[:2]))
    tree.write("crates/lower/src/lib.rt", "other")
    report.check("proofs: a library that changes", faults(tree, ALL))
    tree.write("crates/program/src/main.rt", "three and more\n")
    report.check("proofs: a program that changes", faults(tree, ALL[6:]))
    tree.write("crates.txt", "lower:\nupper word: lower\narchive staticlib: upper\nprogram: upper\n")
    report.check("proofs: another word of crates.txt", faults(tree, ALL[2:4]))
    tree.write("HANDLES", "Threads")
    report.check("proofs: other handles", faults(tree, ALL))


def check_jobs(tree: Tree, report: Report) -> None:
    """Crates for which others wait have more jobs than the one that the kit gives each."""
    for processors, jobs in (("1", "1"), ("2", "1"), ("4", "2"), ("8", "3")):
        wrong = faults(tree, ALL, FROM_NOTHING="1", PROCESSORS=processors)
        wanted = {name: jobs if name in CHAIN else "1" for name in ALL}
        wrong += [] if tree.jobs() == wanted else [f"the jobs are {tree.jobs()}"]
        report.check(f"proofs: jobs on {processors} processors", wrong)


def check_keeping_kit(tree: Tree, report: Report) -> None:
    """A kit that keeps proofs itself: the store has the archives of what it kept, its libraries are taken for what they
    are though they are older than a new clone, and it proves anew where that is asked."""
    shutil.rmtree(tree.folder / "crates/archive/out")
    report.check("proofs: an archive of what the kit kept", faults(tree, [], "4 kept by the kit", KEEPS="1"))
    wrong = [f"{crate} {why}" for crate in ("lower", "upper") for why in tree.lacking(crate)]
    report.check("proofs: libraries that the kit kept", wrong)
    ran = tree.run(KEEPS="1", FROM_NOTHING="1")
    is_right = "rt ci --anew" in ran.stdout.splitlines()
    report.check("proofs: from nothing by a kit that keeps", [] if is_right else [f"it says {ran.stdout}"])


def check_damaged(tree: Tree, report: Report) -> None:
    """Records that are not as they were made, and one that is another's."""
    library = tree.store / "lower.proof/made/rlib/lower.rlib/format"
    library.write_text("another")
    not_as_made = "the record of lower.proof is not as it was made: it is proved anew"
    report.check("proofs: another library in the store", faults(tree, ALL[:1], not_as_made))
    library.unlink()
    report.check("proofs: a library is lacking", faults(tree, ALL[:1], not_as_made))
    (tree.store / "upper.tests/record").write_text('{"inputs": ')
    report.check("proofs: a record that is cut off", faults(tree, ["upper.tests"]))
    shutil.rmtree(tree.store / "upper.proof")
    shutil.copytree(tree.store / "lower.proof", tree.store / "upper.proof")
    report.check("proofs: the record of another crate", faults(tree, ["upper.proof"]))
    (tree.kit / "KIT-ID").write_text("kit-1 logic 1\n")
    report.check("proofs: another kit of the same name", faults(tree, ALL))


def check_again(tree: Tree, report: Report) -> None:
    """What is older than a day, or of the future, is proved anew, and so is all where that is asked for."""
    tree.change_record("upper.tests", lambda record: record.update(proved_at=record["proved_at"] - DAY))
    tree.change_record("lower.tests", lambda record: record.update(proved_at=record["proved_at"] + DAY))
    report.check("proofs: old records", faults(tree, ["lower.tests", "upper.tests"]))
    report.check("proofs: from nothing", faults(tree, ALL, FROM_NOTHING="1"))
    thrown = "came to something else than the store had of the same: the store is thrown away"
    report.check("proofs: another verdict on the same", faults(tree, ALL, thrown, FROM_NOTHING="1", MORE="1"))
    tree.write("crates/upper/src/lib.rt", "two wrong")
    report.check("proofs: what is refused", faults(tree, ALL[2:4], failed=4))
    report.check("proofs: is not kept", faults(tree, ALL[2:4], failed=4))
    tree.write("crates/upper/src/lib.rt", "two")


def check_stores(tree: Tree, report: Report) -> None:
    """Stores of other kits and records of other crates are removed, and without a store all is proved."""
    (tree.cache / "radpolicy/kit-0/lower.proof").mkdir(parents=True)
    (tree.store / "lost.proof").mkdir()
    wrong = faults(tree, [])
    wrong += [f"{it} is there" for it in ("kit-0", "kit-1/lost.proof") if (tree.cache / "radpolicy" / it).exists()]
    report.check("proofs: stores of other kits", wrong)
    report.check("proofs: no place for a store", faults(tree, ALL, XDG_CACHE_HOME="", HOME=""))


def check(subject: Subject, report: Report) -> None:
    with new_folder() as folder:
        tree = Tree(subject, folder)
        check_kept(tree, report)
        check_jobs(tree, report)
        check_keeping_kit(tree, report)
        check_damaged(tree, report)
        check_again(tree, report)
        check_stores(tree, report)
