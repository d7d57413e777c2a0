"""The crates, and the libraries that were proved of them."""
import functools

from wrong_bodies.edits import PARTS, TOP

CRATES = TOP / "crates"


class Lacking(Exception):
    """Why there is nothing to check a crate over."""


def read_crates():
    """Returns the crates of crates.txt with the libraries that each uses, and those that are static libraries."""
    uses, static = {}, set()
    for line in (TOP / "crates.txt").read_text().splitlines():
        head, _, below = line.partition(":")
        if head and not head.startswith("#"):
            name, *words = head.split()
            uses[name] = below.split()
            static |= {name} if "staticlib" in words else set()
    return uses, static


USES, STATIC = read_crates()


def below(crate):
    """Returns the repository's libraries below a crate, each after those that it uses."""
    found = []
    for library in USES[crate]:
        if library in USES:
            found += [it for it in [*below(library), library] if it not in found]
    return found


@functools.lru_cache(maxsize=None)
def changed_at(crate):
    """Returns when a source of a crate, or of those below it, was last changed."""
    files = [it for name in [crate, *below(crate)] for part in PARTS for it in (CRATES / name / part).rglob("*")]
    return max(it.stat().st_mtime for it in [TOP / "crates.txt", *files])


def proved_at(crate, folder):
    """Returns when the library in a folder was proved, or nothing where none is there. One that the kit had kept has the
    time of its first proof, and beside it scripts/prove-all tells when it was taken for a proof of the present sources."""
    told = [it for it in (folder / "proved", folder / f"{crate}.rlib/format") if it.is_file()]
    return max((it.stat().st_mtime for it in told), default=None)


def library_of(crate):
    """Returns the folder with a library of the crate's present sources, which the gate or scripts/build made."""
    why = "is not built"
    for folder in (CRATES / crate / "out/rlib", CRATES / crate / "out/rlib/statements"):
        proved = proved_at(crate, folder)
        if proved is not None:
            if proved >= changed_at(crate):
                return folder
            why = "is older than a source"
    raise Lacking(f"the library {crate} {why}: scripts/build {crate} makes it, and so does the gate")


def is_proved(crate):
    """Tells whether a crate was itself proved as it is now."""
    try:
        return crate not in STATIC and bool(library_of(crate))
    except Lacking:
        return False
