"""Programs of several interpreters: copies of `server_unlang`, each with an edit of its own, and of `drive_server`,
which reads policies and requests for it. They are compiled before any proof."""
import importlib
import os
import re
import resource
import shutil
import subprocess
import sys
from pathlib import Path
from typing import Any, Dict, List, NamedTuple, Sequence

from common.subject import Subject

INTERPRETER, DRIVER, PROGRAM = "server_unlang", "drive_server", "drive_servers"
SCRIPTS = ("at-once", "build-unproved", "kit_code", "wrong_bodies")
MAIN = """//! Runs one of the interpreters, by its number, which is the first word.
#![tactic(auto)]

use std::{{env, io}};

fn main(rt: HostRuntime) -> io::Result<()> {{
    let words: Vec<String> = env::args(&rt)?.collect(rt.alloc())?;
    let [_, number, ..] = words.as_slice() else {{
        return Err(io::ErrorKind::InvalidInput.into());
    }};
    match number.as_str() {{
{arms}
        _ => Err(io::ErrorKind::InvalidInput.into()),
    }}
}}
"""


class Variant(NamedTuple):
    """An interpreter by the name of its edit, and the texts of the files that the edit changes."""

    name: str
    texts: Dict[str, str]


def of_wrong_bodies(subject: Subject, name: str) -> Any:
    """A module of the scripts that try wrong bodies."""
    sys.path.insert(0, str(subject.root / "scripts"))
    try:
        return importlib.import_module(f"wrong_bodies.{name}")
    finally:
        sys.path.pop(0)


def variants_of(subject: Subject, folder: Path) -> List[Variant]:
    """The interpreters of the crate's wrong bodies and of a folder's."""
    edits = of_wrong_bodies(subject, "edits")
    read = [*edits.edits_of(INTERPRETER), *(edits.read_edit(INTERPRETER, file) for file in folder.glob("*.edit"))]
    variants = []
    for edit in sorted(read, key=lambda it: str(it.name)):
        texts: Dict[str, str] = {}
        list(edits.places(edit, texts))
        variants.append(Variant(edit.name, texts))
    return variants


def copied(source: Path, place: Path, renamed: Dict[str, str], texts: Dict[str, str]) -> None:
    """A crate's sources in another place, with other names of crates, and these texts in place of its own."""
    for file in source.glob("src/**/*.rt"):
        path = str(file.relative_to(source))
        text = texts.get(path) or file.read_text()
        for name, other in renamed.items():
            text = re.sub(rf"\b{name}\b", other, text)
        (place / path).parent.mkdir(parents=True, exist_ok=True)
        (place / path).write_text(text)


def as_library(place: Path) -> None:
    """Makes a library of a copy of the driver, which passes over one word more."""
    main, inputs = place / "src/main.rt", place / "src/inputs.rt"
    text = main.read_text().replace("\nfn main(rt: HostRuntime)", "\npub fn drive(rt: HostRuntime)")
    (place / "src/lib.rt").write_text(text)
    main.unlink()
    inputs.write_text(inputs.read_text().replace("[_, paths @ ..]", "[_, _, paths @ ..]"))


def write_sources(subject: Subject, folder: Path, variants: Sequence[Variant]) -> None:
    """Writes a repository of the crates below the driver as they are, and for each variant of a copy of the interpreter
    and the driver, which may write beside what they print."""
    libraries = of_wrong_bodies(subject, "libraries")
    uses: Dict[str, Sequence[str]] = {it: libraries.USES[it] for it in libraries.below(DRIVER) if it != INTERPRETER}
    for name in uses:
        copied(subject.root / "crates" / name, folder / "crates" / name, {}, {})
    for number, variant in enumerate(variants):
        names = {name: f"{name}_{number}" for name in (INTERPRETER, DRIVER)}
        for name, other in names.items():
            texts = variant.texts if name == INTERPRETER else {}
            copied(subject.root / "crates" / name, folder / "crates" / other, names, texts)
            uses[other] = [*(names.get(it, it) for it in libraries.USES[name]), "libc"]
        as_library(folder / "crates" / names[DRIVER])
    uses[PROGRAM] = [f"{DRIVER}_{number}" for number, _ in enumerate(variants)]
    (folder / "crates.txt").write_text("".join(f"{name}: {' '.join(words)}\n" for name, words in uses.items()))
    arms = "\n".join(f'        "{number}" => {name}::drive(rt),' for number, name in enumerate(uses[PROGRAM]))
    (folder / f"crates/{PROGRAM}/src").mkdir(parents=True)
    (folder / f"crates/{PROGRAM}/src/main.rt").write_text(MAIN.format(arms=arms))


def without_limit() -> None:
    """Lets a compiler take what the trials may not."""
    most = resource.getrlimit(resource.RLIMIT_AS)[1]
    resource.setrlimit(resource.RLIMIT_AS, (most, most))


def compiled(subject: Subject, folder: Path, variants: Sequence[Variant]) -> str:
    """Compiles the program of these variants in a folder, to out/unproved there. Gives what was said if that fails."""
    write_sources(subject, folder, variants)
    (folder / "scripts").mkdir()
    for name in SCRIPTS:
        source = subject.root / "scripts" / name
        (shutil.copytree if source.is_dir() else shutil.copy)(source, folder / "scripts" / name)
    ended = subprocess.run([folder / "scripts/build-unproved", PROGRAM], cwd=folder, stdin=subprocess.DEVNULL,
                           stdout=subprocess.PIPE, stderr=subprocess.STDOUT, text=True, errors="replace",
                           env={**os.environ, "RT": str(subject.kit / "bin/rt")}, preexec_fn=without_limit)
    return ended.stdout if ended.returncode else ""
