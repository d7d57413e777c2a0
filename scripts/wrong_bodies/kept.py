"""Wrong bodies over the store of proofs: what was refused within a day, in the same crate over the same libraries, is not
tried again."""
import functools
import hashlib
import json
import time
from pathlib import Path

from proof_store.records import FORMAT, Record, is_from_nothing, sum_of, sums_below, sums_of_kit
from wrong_bodies.edits import PARTS, TOP
from wrong_bodies.judging import Outcome
from wrong_bodies.libraries import CRATES, STATIC, USES, below, library_of

SCRIPTS = [TOP / "scripts/try-wrong-bodies", *sorted(Path(__file__).parent.glob("*.py"))]


@functools.lru_cache(maxsize=None)
def sums_of_library(crate):
    return sorted(sums_below(library_of(crate)).items())


class Kept:
    """What came of the wrong bodies of crates: all of them, or those of the gate. Without a store nothing is kept."""

    def __init__(self, kit, store, of_gate):
        self._store = store
        self._kind = "wrong-bodies-of-the-gate" if of_gate else "wrong-bodies"
        self._tried_by = [FORMAT, sums_of_kit(kit), [sum_of(it) for it in SCRIPTS]] if store else []

    def inputs(self, crate, edits):
        """Returns the sum of all that what comes of the edits goes by: kit, scripts, the crate and the libraries below."""
        words = [*self._tried_by, crate, USES[crate], crate in STATIC, edits]
        for part in PARTS:
            words.append((part, sorted(sums_below(CRATES / crate / part).items())))
        words += [(it, sums_of_library(it)) for it in below(crate)]
        return hashlib.sha256(repr(words).encode()).hexdigest()

    def find(self, crate, edits):
        """Returns what came of these edits, and how long ago in minutes, if all were refused within a day; else nothing."""
        record = self._store and not is_from_nothing() and self._store.find(f"{crate}.{self._kind}")
        if not record or not record.is_young() or record.inputs != self.inputs(crate, edits):
            return None
        outcomes = [Outcome(edit, True, words) for edit, words in zip(edits, json.loads(record.said))]
        return outcomes, record.age() / 60

    def keep(self, crate, edits, outcomes):
        """Keeps what came of the edits if each was refused."""
        if self._store and all(it.passed for it in outcomes):
            said = json.dumps([it.words for it in outcomes])
            record = Record(self.inputs(crate, edits), time.time(), said, {})
            self._store.keep(f"{crate}.{self._kind}", record, CRATES / crate / "out")
