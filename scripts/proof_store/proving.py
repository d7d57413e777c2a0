"""`rt ci` over a store: what the kit would prove again as it was is taken from there."""
import hashlib
import subprocess
import tempfile
import threading
import time
from pathlib import Path

from proof_store.records import FORMAT, Record, sum_of, sums_below, sums_of_kit


def archive_of(crate):
    return f"out/lib{crate.name}.a"


class Proving:
    """Stands in the kit's code where a crate, or its tests, are proved from nothing, and lets the kit do it wherever no
    record says what came of the same."""

    def __init__(self, kit, rt, store, from_nothing):
        self._rt, self._store, self._from_nothing = rt, store, from_nothing
        self._kit, self._sums_of_kit = kit, sums_of_kit(kit)
        self._prove_by_kit = rt.Crate.ci
        self._libraries, self._lock = {}, threading.Lock()
        # Of each name, how it came to be proved.
        self.told = {}

    def install(self):
        self._rt.Crate.ci = lambda crate, flags, tests: self.prove(crate, flags, tests)

    def prove(self, crate, flags, tests):
        """Returns what the kit's own `ci` of the crate does: 0 where it is proved, and what is made of it is made."""
        name, out = f"{crate.name}.{'tests' if tests else 'proof'}", Path(crate.folder) / "out"
        inputs = self._inputs(crate, tests)
        record = self._store.find(name)
        record = record if record and record.inputs == inputs else None
        if record and record.is_young() and not self._from_nothing:
            if self._store.take(name, record, out):
                return self._tell_kept(name, record, crate)
            self._say(crate, f"the record of {name} is not as it was made: it is proved anew")
            record = None
        begun = crate.out.seek(0, 2)
        prove = self._prove_static if crate.is_static and not tests else self._prove_by_kit
        status = prove(crate, flags, tests)
        if not status:
            crate.out.flush()
            crate.out.seek(begun)
            proved = Record(inputs, time.time(), crate.out.read(), self._made(crate, tests, out))
            self._keep(name, record, proved, crate)
        return status

    def _prove_static(self, crate, flags, tests):
        """Proves a static library as the kit does, and makes its archive of what that leaves, as the kit makes programs."""
        with tempfile.TemporaryDirectory(prefix="radpolicy-proved-") as room:
            words, checked = crate.words(flags, keeps=False), f"{room}/checked"
            status = crate.prove(["check", *words, "-o", checked])
            return status or self._make_archive(crate, words, checked)

    def _make_archive(self, crate, words, checked):
        for flag in ("--logic-built", "--jobs"):
            at = words.index(flag)
            words = [*words[:at], *words[at + 2 :]]
        words = [*words, "--crate-checked", checked, "--toolchain", self._kit / "toolchain", "-o", archive_of(crate)]
        ran = subprocess.run([self._kit / "bin/rattle", "build", *words], cwd=crate.folder, stdin=subprocess.DEVNULL,
                             stdout=subprocess.PIPE, stderr=subprocess.STDOUT, text=True, errors="replace")
        if ran.returncode:
            self._say(crate, f"no archive is made of what is proved: {ran.stdout[-900:]}")
        return ran.returncode

    def take_archives(self, crates):
        """Takes the archives of static libraries from the store where the kit itself had kept their proofs, which are
        without them."""
        for crate in crates:
            name, out = f"{crate.name}.proof", Path(crate.folder) / "out"
            if crate.is_static and not (out.parent / archive_of(crate)).is_file():
                record = self._store.find(name)
                if record and record.inputs == self._inputs(crate, False):
                    self._store.take(name, record, out)

    def _keep(self, name, before, proved, crate):
        if before and not before.agrees_with(proved):
            self._say(crate, f"{name} came to something else than the store had of the same: the store is thrown away")
            self._store.throw_away()
        with self._lock:
            self.told[name] = "proved anew"
        try:
            self._store.keep(name, proved, Path(crate.folder) / "out")
        except OSError as why:
            self._say(crate, f"{name} is not kept: {why}")

    def _tell_kept(self, name, record, crate):
        crate.out.write(record.said)
        self._say(crate, f"kept: it was proved {record.age() / 60:.0f} minutes ago, of the same and over the same")
        with self._lock:
            self.told[name] = "kept"
        return 0

    def _say(self, crate, text):
        self._rt.say(text, crate.out)

    def _made(self, crate, tests, out):
        """Returns the sums of what later steps of the gate use of a proved crate."""
        if crate.is_static and not tests:
            return {f"lib{crate.name}.a": sum_of(out.parent / archive_of(crate))}
        if crate.is_program or tests:
            ends = [""] if tests else self._rt.BACKENDS.values()
            files = [f"{crate.name}{'_tests' if tests else ''}{it}" for it in ends]
            return {it: sum_of(out / it) for it in files if (out / it).is_file()}
        return {f"rlib/{file}": found for file, found in sums_below(out / "rlib").items()}

    def _inputs(self, crate, tests):
        """Returns the sum of all that a proof goes by: kit, handles, the crate's line of crates.txt and its files, and the
        libraries below it."""
        words = [FORMAT, self._sums_of_kit, self._rt.Crate.allowed, crate.name, tests, sorted(crate.said.items()), crate.of_kit]
        words += [crate.is_program, crate.is_static]
        for file in self._rt.rtlib.files_of(crate.folder):
            words.append((str(Path(file).relative_to(crate.folder)), sum_of(file)))
        words += [(it.name, self._library(it)) for it in crate.below()]
        return hashlib.sha256(repr(words).encode()).hexdigest()

    def _library(self, crate):
        """Returns the sums of the files of a library, which was proved in this run."""
        with self._lock:
            known = self._libraries.get(crate.name)
        found = known or sorted(sums_below(crate.rlib).items())
        with self._lock:
            self._libraries[crate.name] = found
        return found
