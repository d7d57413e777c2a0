"""Outputs that are one file, or an input: refused before anything is written, by force too."""
import os
from pathlib import Path
from typing import Dict, List, Optional, Sequence, Tuple

from common.program import run
from common.report import Report
from common.subject import Subject, new_folder
from outputs.writers import IMPORT, INPUTS, PAGE, names_in, octets_of, place, refused

MORE = {**INPUTS, "main": b"$INCLUDE part\n" + INPUTS["site"], "part": b"a = b\n", "module": b"ok\n"}
INITIAL = {"initial": b"reply:Framed-Pool = 'a'\n", "pairs": b"Framed-Pool = 'a'\n", "shared": b"the shared secret\n"}


def make_links(folder: Path) -> None:
    """Other names of files that are there and that aren't."""
    (folder / "d").mkdir()
    (folder / "link").symlink_to("f")
    (folder / "d/link").symlink_to("../policy")
    os.link(folder / "site", folder / "d/radiusd.conf")
    os.link(folder / "policy", folder / "hard")


FOLDER = (IMPORT[0], ("--dict", "dictionary", "d"))
# A page whose request is on standard input.
PAGE_OF_INPUT = (PAGE[0], PAGE[1][2:])
# The words, the path that is refused, and the file that standard output is.
SHARED: Dict[str, Tuple[Tuple[str, Sequence[str]], List[str], bytes, Optional[str]]] = {
    "two new files of one name": (IMPORT, ["--map", "f", "-o", "f"], b"f", None),
    "two spellings of a new file": (IMPORT, ["--map", "f", "-o", "d/../f"], b"d/../f", None),
    "a link to another output": (IMPORT, ["--map", "link", "-o", "f"], b"f", None),
    "the dictionary and the policy": (IMPORT, ["--write-dictionary", "f", "-o", "f"], b"f", None),
    "the template and the map": (IMPORT, ["--map", "f", "--initial-template", "./f", "-o", "g"], b"./f", None),
    "standard output's file": (IMPORT, ["--map", "f"], b"/dev/stdout", "f"),
    "standard output's file by name": (IMPORT, ["--map", "/dev/stdout", "-o", "f"], b"f", "f"),
    "the configuration": (IMPORT, ["-o", "site"], b"site", None),
    "the main file of a folder": (FOLDER, ["-o", "d/radiusd.conf"], b"d/radiusd.conf", None),
    "what the configuration includes": (IMPORT, ["main", "-o", "part"], b"part", None),
    "a dictionary": (IMPORT, ["--map", "dictionary"], b"dictionary", None),
    "the policy of a module": (IMPORT, ["--module", "m=module", "-o", "module"], b"module", None),
    "the initial lists": (IMPORT, ["--initial", "initial", "--initial-template", "initial"], b"initial", None),
    "the policy of a page": (PAGE, ["-o", "policy"], b"policy", None),
    "the request of a page": (PAGE, ["-o", "./request"], b"./request", None),
    "the shared secret of a page": (PAGE, ["-S", "shared", "--authenticator", 16 * "0f", "-o", "shared"], b"shared", None),
    "the reply list of a page": (PAGE, ["--reply", "pairs", "-o", "pairs"], b"pairs", None),
    "the control list of a page": (PAGE, ["--control", "pairs", "-o", "./pairs"], b"./pairs", None),
    "a dictionary of a page": (PAGE, ["-o", "dictionary"], b"dictionary", None),
    "standard input of a page": (PAGE_OF_INPUT, ["-o", "request"], b"request", None),
    "a link to what is read": (PAGE, ["-o", "d/link"], b"d/link", None),
    "a hard link to what is read": (PAGE, ["-o", "hard"], b"hard", None),
}


def shared_faults(subject: Subject, row: Tuple, *more: str) -> List[str]:
    (program, words), options, path, output = row
    with new_folder() as folder:
        files = {**MORE, **INITIAL}
        place(folder, files)
        make_links(folder)
        before = names_in(folder)
        command = [subject.driver(program), *options, *more, *words]
        redirected = f"< request {f'> {output}' if output else ''}"
        command = ["sh", "-c", f'exec "$@" {redirected}', "sh", *command]
        wrong = refused(run(command, folder), 2, [b"E02 " + path + b": "])
        wrong += [name for name, octets in files.items() if octets_of(folder / name) != octets]
        found = [name for name in names_in(folder) if name != output]
        return wrong + ([] if found == before else [f"in the folder: {found}"])


def check(subject: Subject, report: Report) -> None:
    for name, row in SHARED.items():
        report.check(f"output that is another: {name}", shared_faults(subject, row) + shared_faults(subject, row, "--force"))
