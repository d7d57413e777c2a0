"""The configuration that Debian's packages freeradius-config and freeradius-common install is read whole."""
import os
from pathlib import Path

from common.program import run
from common.report import Report
from common.subject import Subject, new_folder

INSTALLED = "/etc/freeradius/3.0"
SECONDS = 2.0
KILOBYTES = 512 << 10


def files_of(output: bytes) -> int:
    """How many files were read, by the last line."""
    words = output.splitlines()[-1].split()
    return int(words[0]) if words[1:2] == [b"files,"] else 0


# What `radiusd.conf` says before it includes other files, and where it includes those of each folder.
BEFORE = "confdir = {0}\nmodconfdir = {0}/mods-config\ncertdir = {0}/certs\ncadir = {0}/certs\n"
PLACES = {
    "sites-available": "{}",
    # `sqlcounter` asks what `sql` says.
    "mods-available": "modules {{\nsql {{\ndialect = sqlite\n}}\n{}}}\n",
    "policy.d": "policy {{\n{}}}\n",
}


def faults_of_part(subject: Subject, part: Path) -> "list[str]":
    """The same of a file that the server reads as a part of its configuration."""
    included = PLACES[part.parent.name].format(f"$INCLUDE {part}\n")
    with new_folder() as folder:
        main = folder / "main"
        main.write_text(BEFORE.format(part.parent.parent) + included)
        return faults_of(subject, main)


def faults_of(subject: Subject, path: Path) -> "list[str]":
    """What is wrong with the reading of one file and what it includes."""
    ended = run([*subject.drive("configuration"), path], path.parent)
    found = []
    if ended.status or not files_of(ended.output):
        found.append(f"{path}: {ended.status}, {ended.output[-200:]!r}")
    if ended.seconds > SECONDS or ended.kilobytes > KILOBYTES:
        found.append(f"{path}: {ended.seconds:.1f} s, {ended.kilobytes} kB")
    return found


def check(subject: Subject, report: Report) -> None:
    """`RADDB` names another folder than the one that is installed."""
    folder = Path(os.environ.get("RADDB", INSTALLED))
    if not os.access(folder / "radiusd.conf", os.R_OK):
        report.say(f"configurations of Debian: left out, {folder}/radiusd.conf is not there")
        return
    parts = [path for kind in PLACES for path in sorted((folder / kind).iterdir()) if path.stem != "README"]
    report.check("configuration of Debian", faults_of(subject, folder / "radiusd.conf"))
    report.check(f"{len(parts)} files of Debian", [fault for part in parts for fault in faults_of_part(subject, part)])
