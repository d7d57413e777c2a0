"""What `radpolicy-import` keeps of the configuration that Debian's package freeradius-config installs, and that what it
writes is a policy."""
import os
import re
from pathlib import Path
from typing import List, Tuple

from common.program import run
from common.report import Report
from common.subject import Subject, new_folder, on_all

INSTALLED = "/etc/freeradius/3.0"
DICTIONARIES = "/usr/share/freeradius"
SECONDS = 20.0
KILOBYTES = 512 << 10
SERVERS = ("default", "inner-tunnel")
SECTIONS = (
    "authorize", "authenticate", "preacct", "accounting", "session", "post-auth", "post-auth/REJECT", "pre-proxy",
    "post-proxy",
)
COUNTS = re.compile(rb"^(\d+) of (\d+) statements kept, (\d+) module calls? (?:are comments|is a comment)$", re.M)
NAMED = re.compile(r"^([a-z0-9_.\-]+)\s*\{", re.M | re.I)
PROFILE = b"# profile: wider"
# The line by which the program knows its files.
OWN = b"# Written by radpolicy-import; "
ORIGIN = re.compile(rb"  # [^ ]+:[1-9][0-9]*(?: \(.*\))?$")


def words_of_servers() -> List[Tuple[str, List[str]]]:
    """Each section of the sites: what it is called, and the words for it."""
    return [
        (f"{server} {section}", ["--server", server, "--section", section])
        for server in SERVERS
        for section in SECTIONS
    ]


def words_of_policies(folder: Path) -> List[Tuple[str, List[str]]]:
    """Each named policy of `policy.d`."""
    found = []
    for path in sorted((folder / "policy.d").iterdir()):
        for name in NAMED.findall(path.read_text()):
            found.append((f"{path.name} {name}", ["--policy", name]))
    return found


def dictionary_words(folder: Path) -> List[str]:
    """The dictionary files, the main one first."""
    main = folder / "dictionary"
    return [f"--dict={path}" for path in [main, *sorted(folder.glob("dictionary.*"))]]


def faults_of(
    subject: Subject, raddb: Path, dictionaries: Path, words: List[str], with_others: bool
) -> Tuple[List[str], Tuple[int, int]]:
    """What is wrong with one import, and how many statements it kept and read."""
    with new_folder() as folder:
        policy, others = folder / "policy", folder / "dictionary.others"
        if with_others:
            words = [*words, "--write-dictionary", str(others)]
        command = [subject.driver("radpolicy_import"), *words, "-o", policy, *dictionary_words(dictionaries), raddb]
        ended = run(command, folder)
        if ended.status == 2 and b"E02" in ended.errors:
            return [], (0, 0)
        counts = COUNTS.search(ended.errors)
        if ended.status or not counts:
            return [f"{words}: {ended.status}, {ended.errors[-200:]!r}"], (0, 0)
        faults = []
        if ended.seconds > SECONDS or ended.kilobytes > KILOBYTES:
            faults.append(f"{words}: {ended.seconds:.1f} s, {ended.kilobytes} kB")
        lines = [line for line in policy.read_bytes().splitlines() if line != PROFILE and not line.startswith(OWN)]
        faults += [f"{words}: {line!r}" for line in lines if not ORIGIN.search(line)]
        names = [path.split("=", 1)[1] for path in dictionary_words(dictionaries)]
        if with_others:
            names = [str(others), *names]
        checked = run([subject.program, "check", "--policy", policy, *names], folder)
        if checked.status:
            faults.append(f"{words}: {checked.errors!r}")
        return faults, (int(counts[1]), int(counts[2]))


def check(subject: Subject, report: Report) -> None:
    """`RADDB` and `DICTIONARIES` name other folders than those that are installed."""
    raddb = Path(os.environ.get("RADDB", INSTALLED))
    dictionaries = Path(os.environ.get("DICTIONARIES", DICTIONARIES))
    if not os.access(raddb / "radiusd.conf", os.R_OK) or not (dictionaries / "dictionary").exists():
        report.say(f"imports of Debian: left out, {raddb}/radiusd.conf or {dictionaries} is not there")
        return
    for title, asked in (("sections", words_of_servers()), ("policies", words_of_policies(raddb))):
        for with_others in (False, True):
            told = f"{title} of Debian" + (" with other lists" if with_others else "")
            found = on_all(lambda one: faults_of(subject, raddb, dictionaries, one[1], with_others), asked)
            report.check(f"{told} imported", [fault for faults, _ in found for fault in faults])
            for (name, _), (_, (kept, read)) in zip(asked, found):
                if read:
                    report.say(f"    {name}: {kept} of {read}")
            kept, read = (sum(counts[part] for _, counts in found) for part in (0, 1))
            report.say(f"{told}: {kept} of {read} statements kept")
