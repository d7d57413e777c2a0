"""What was proved, kept in a folder outside the repository: of each crate, and of its tests, what the kit said and made;
and what came of its wrong bodies."""
import fcntl
import hashlib
import json
import os
import shutil
import time
from contextlib import contextmanager
from dataclasses import asdict, dataclass
from pathlib import Path

FORMAT = "1"
# What records there are of a crate, by the ends of their names.
KINDS = ("proof", "tests", "wrong-bodies", "wrong-bodies-of-the-gate")
DAY = 24 * 60 * 60
# So many octets at most are kept when a run has ended.
MOST = 10 << 30


def sum_of(path):
    """Returns the SHA-256 of a file, in hexadecimal."""
    found = hashlib.sha256()
    with open(path, "rb") as file:
        while part := file.read(1 << 20):
            found.update(part)
    return found.hexdigest()


def sums_below(folder):
    """Returns the sum of each file below a folder, by its path there."""
    files = sorted(it for it in Path(folder).rglob("*") if it.is_file())
    return {str(it.relative_to(folder)): sum_of(it) for it in files}


def copied(file, to):
    """Copies a file with its mode, and not with its time: what is taken is newer than the sources of a new clone."""
    to.parent.mkdir(parents=True, exist_ok=True)
    shutil.copy(file, to)


@dataclass(frozen=True)
class Record:
    """What a crate or its tests came to: the sum of all that the proof went by, what the kit said, and the sums of the
    files that it made, by their paths in the crate's `out`."""

    inputs: str
    proved_at: float
    said: str
    made: dict

    def age(self):
        return time.time() - self.proved_at

    def is_young(self):
        return 0 <= self.age() < DAY

    def verdicts(self):
        return [line for line in self.said.splitlines() if line.startswith("logic=")]

    def statements(self):
        return {file: found for file, found in self.made.items() if file.startswith("rlib/")}

    def agrees_with(self, other):
        """Tells whether two proofs of the same came to the same: verdict, number of functions, and statements."""
        return self.verdicts() == other.verdicts() and self.statements() == other.statements()


class Store:
    """Records by their names, each in a folder of its own with the files that were made."""

    def __init__(self, folder):
        self._folder = folder

    def find(self, name):
        try:
            return Record(**json.loads((self._folder / name / "record").read_text()))
        except (OSError, ValueError, TypeError):
            return None

    def take(self, name, record, out):
        """Puts the files of a record into a crate's `out`. Tells whether each is there and as it was made."""
        try:
            for file in record.made:
                copied(self._folder / name / "made" / file, out / file)
            return all(sum_of(out / file) == found for file, found in record.made.items())
        except OSError:
            return False

    def keep(self, name, record, out):
        """Puts a record, and the files of it, in place of what was kept under its name."""
        new = self._folder / f"{name}.new"
        shutil.rmtree(new, ignore_errors=True)
        new.mkdir(parents=True)
        for file in record.made:
            copied(out / file, new / "made" / file)
        (new / "record").write_text(json.dumps(asdict(record)))
        self.remove(name)
        new.rename(self._folder / name)

    def remove(self, name):
        shutil.rmtree(self._folder / name, ignore_errors=True)

    def throw_away(self):
        shutil.rmtree(self._folder, ignore_errors=True)

    def tidy(self, names, most=MOST):
        """Removes what is of none of these names, and then the oldest records until the others fit."""
        for folder in self._folders():
            if folder.name not in names or self.find(folder.name) is None:
                self.remove(folder.name)
        sizes = {it: sum(file.stat().st_size for file in it.rglob("*") if file.is_file()) for it in self._folders()}
        for folder in sorted(sizes, key=lambda it: self.find(it.name).proved_at):
            if sum(sizes.values()) <= most:
                break
            self.remove(folder.name)
            del sizes[folder]

    def _folders(self):
        return [it for it in self._folder.iterdir() if it.is_dir()] if self._folder.is_dir() else []


def is_from_nothing():
    """Tells whether it is asked for that nothing is taken from a store."""
    return os.environ.get("FROM_NOTHING") == "1"


def sums_of_kit(kit):
    """Returns the sums of what a kit proves with."""
    return [(it.name, sum_of(it)) for it in sorted([kit / "KIT-ID", *(kit / "bin").iterdir()]) if it.is_file()]


@contextmanager
def store_of(kit):
    """Gives the store of a kit, if there can be one and no other run has it; stores of other kits are removed."""
    root, lock = root_of_stores(), None
    try:
        if root:
            root.mkdir(parents=True, exist_ok=True)
            lock = open(root / "lock", "w")
            fcntl.flock(lock, fcntl.LOCK_EX | fcntl.LOCK_NB)
    except OSError as why:
        print(f"There is no store, since {why}: nothing is taken from one.", flush=True)
        root = None
    if not root:
        yield None
        return
    own = (kit / "KIT-ID").read_text().split()[0]
    for other in root.iterdir():
        if other.name not in (own, "lock"):
            shutil.rmtree(other, ignore_errors=True)
    with lock:
        yield Store(root / own)


def root_of_stores():
    """Returns the folder with the stores of all kits, or nothing where no folder is told to keep things in."""
    kept = os.environ.get("XDG_CACHE_HOME") or os.environ.get("HOME") and f"{os.environ['HOME']}/.cache"
    return Path(kept) / "radpolicy" if kept and os.path.isabs(kept) else None
