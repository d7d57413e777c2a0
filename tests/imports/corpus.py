"""Policies as operators have them: those of Debian's packages freeradius-config and freeradius, one by one, and how much
of each `radpolicy-import` keeps: by itself, with attributes in place of other lists and of what expansions ask, and with
attributes in place of functions too. `OTHER_IMPORTER` names a program whose figures are told beside: its words are those
of `radpolicy-import` for the section, and the folder or the file, and its report begins as ours."""
import gzip
import json
import os
import re
from collections import Counter
from dataclasses import dataclass
from pathlib import Path
from typing import Iterator, List, NamedTuple, Sequence, Tuple

from common.program import run
from common.report import Report
from common.subject import Subject, new_folder, on_all
from imports.debian import DICTIONARIES, INSTALLED, dictionary_words

DOCUMENTS = ("usr/share/doc/freeradius", "usr/share/man/man5/unlang.5.gz")
SECTIONS = (
    "authorize", "authenticate", "preacct", "accounting", "session", "post-auth", "pre-proxy", "post-proxy",
    "recv-coa", "send-coa",
)
NAMED = re.compile(r"^([A-Za-z0-9_.\-]+)\s*\{", re.M)
HEAD = re.compile(r"^\s*(if\s*\(|update\b[^{}()]*\{\s*$|switch\s|foreach\s|group\s*\{)")
HEADS_OF_SECTIONS = re.compile(r"^\s*(server\s+\S+|%s)\s*\{" % "|".join(SECTIONS))
COMMENT = re.compile(r"^\s*# ?(.*)$")
QUOTED = re.compile(r"\"(?:[^\"\\]|\\.)*\"|'(?:[^'\\]|\\.)*'")
# A site by itself may call the policies.
SITE = "policy {{\n\t$INCLUDE {raddb}/policy.d/\n}}\n$INCLUDE {path}\n"
PART = "authorize {{\n{text}}}\n"
PASSES = {
    "policies of Debian's packages": (),
    "policies of Debian's packages with other lists": ("--write-dictionary",),
    "policies of Debian's packages with other lists and functions": ("--write-dictionary", "--stub-functions"),
}
COUNTS = re.compile(r"^(\d+) of (\d+) statements kept", re.M)
REASON = re.compile(r"^[^ :]+:\d+: (.*?)(?: \((\d+) statements\))?$", re.M)
# What a document writes in place of statements.
PLACEHOLDER = re.compile(r"^\s*\.\.\.|\[ statements|\(condition|<[a-z\- ]+>|if \(\.\.\.\)", re.M)


@dataclass(frozen=True)
class Case:
    """A policy: where it is from, what it is called, the words for it, and the text of a configuration with it; without
    one it is of the server's own."""

    source: str
    name: str
    words: Tuple[str, ...]
    text: str = ""


def braces(line: str) -> int:
    """How many blocks a line opens."""
    bare = QUOTED.sub("", line.split(" #")[0])
    return bare.count("{") - bare.count("}")


def blocks(lines: Sequence[str]) -> Iterator[str]:
    """The statements with blocks that begin on a line of their own and end before the lines do."""
    at = 0
    while at < len(lines):
        if not HEAD.match(lines[at]):
            at += 1
            continue
        open_blocks, end = 0, at
        while end < len(lines):
            open_blocks += braces(lines[end])
            end += 1
            follows = end < len(lines) and re.match(r"\s*(else|elsif)\b", lines[end])
            if open_blocks <= 0 and not follows:
                break
        text = "\n".join(lines[at:end]) + "\n"
        if open_blocks == 0 and "{" in text and not PLACEHOLDER.search(text):
            yield text
        at = end


def commented(path: Path) -> Iterator[str]:
    """The examples in the comments of a file."""
    run: List[str] = []
    for line in [*path.read_text(errors="replace").splitlines(), ""]:
        found = COMMENT.match(line)
        if found:
            run.append(found[1])
            continue
        yield from blocks(run)
        run = []


def listings(path: Path) -> Iterator[str]:
    """The listings of a document: between lines of hyphens, below `::`, or between `.DS` and `.DE`."""
    opened = gzip.open if path.suffix == ".gz" else open
    with opened(path, "rt", errors="replace") as file:  # type: ignore[operator]
        text = file.read()
    if ".DS" in text:
        for listing in re.findall(r"^\.DS\n(.*?)^\.DE", text, re.M | re.S):
            yield re.sub(r"^\.br\n", "", listing, flags=re.M).replace("\\-", "-").replace("\\e", "\\")
        return
    yield from re.findall(r"^----+\n(.*?)^----+\n", text, re.M | re.S)
    yield from re.findall(r"::\n\n((?:[ \t]+.*\n|\n)+)", text)


def of_policies(raddb: Path) -> Iterator[Case]:
    for path in sorted((raddb / "policy.d").iterdir()):
        for name in NAMED.findall(path.read_text(errors="replace")):
            if name not in ("if", "elsif", "else"):
                yield Case("policy.d", f"{path.name} {name}", ("--policy", name))


def sections_of(path: Path) -> Iterator[Tuple[str, str]]:
    """The servers of a site and their sections."""
    server = ""
    for line in path.read_text(errors="replace").splitlines():
        found = re.match(r"^server\s+(\S+)\s*\{", line)
        if found:
            server = found[1]
        found = re.match(r"^\t?(%s)\s*\{" % "|".join(SECTIONS), line)
        if found:
            yield server, found[1]


def of_sites(raddb: Path) -> Iterator[Case]:
    for path in sorted((raddb / "sites-available").iterdir()):
        for server, section in sections_of(path):
            words = ["--section", section] + (["--server", server] if server else [])
            yield Case("sites-available", f"{path.name} {server} {section}", tuple(words), SITE.format(raddb=raddb, path=path))


def of_comments(raddb: Path) -> Iterator[Case]:
    for folder in ("sites-available", "policy.d", "mods-available"):
        for path in sorted((raddb / folder).iterdir()):
            if path.is_file():
                for count, text in enumerate(commented(path), 1):
                    yield Case("comments", f"{path.name} {count}", (), PART.format(text=text))


def of_documents(root: Path) -> Iterator[Case]:
    for place in DOCUMENTS:
        for path in sorted((root / place).rglob("*")) if (root / place).is_dir() else [root / place]:
            if not path.is_file() or not re.search(r"\.(adoc|rst|5)(\.gz)?$", path.name):
                continue
            count = 0
            for listing in listings(path):
                for text in blocks(listing.splitlines()):
                    count += 1
                    yield Case("documents", f"{path.name} {count}", (), PART.format(text=text))


def cases(raddb: Path, root: Path = Path("/")) -> List[Case]:
    """Each once."""
    found = [*of_policies(raddb), *of_sites(raddb), *of_comments(raddb), *of_documents(root)]
    return list({(case.text, case.words): case for case in reversed(found)}.values())[::-1]


class Kept(NamedTuple):
    """What an import kept: how many statements of how many, how many of them have a value that is given, why the others
    are left out, and what is wrong with it."""

    kept: int
    read: int
    given: int
    reasons: List[Tuple[str, int]]
    faults: List[str]

    @property
    def is_whole(self) -> bool:
        return self.kept == self.read and not self.faults


def source_of(case: Case, raddb: Path, folder: Path) -> Path:
    """What the policy is read from: a file in a folder, or the server's."""
    if not case.text:
        return raddb
    source = folder / "main"
    source.write_text(case.text)
    return source


def kept_of(subject: Subject, raddb: Path, dictionaries: Path, case: Case, options: Sequence[str]) -> Kept:
    named = dictionary_words(dictionaries)
    with_others = "--write-dictionary" in options
    with new_folder() as folder:
        source = source_of(case, raddb, folder)
        words = ["--json", *case.words, "-o", folder / "policy", *named]
        for option in options:
            words += [option, folder / "others"] if option == "--write-dictionary" else [option]
        ended = run([subject.driver("radpolicy_import"), *words, source], folder)
        if ended.status:
            return Kept(0, 0, 0, [], [f"{case.name}: {ended.errors[-200:]!r}"])
        told = [json.loads(line) for line in ended.errors.splitlines() if line.startswith(b"{")]
        files = ([str(folder / "others")] if with_others else []) + [word.split("=", 1)[1] for word in named]
        checked = run([subject.program, "check", "--policy", "policy", *files], folder)
    faults = [f"{case.name}: {checked.errors!r}"] if checked.status else []
    reasons = [(one["reason"], one["statements"]) for one in told if "reason" in one]
    return Kept(told[0]["kept"], told[0]["read"], told[0]["given"], reasons, faults)


def kept_by_other(importer: str, raddb: Path, case: Case) -> Kept:
    """The same of another importer."""
    with new_folder() as folder:
        ended = run([importer, *case.words, source_of(case, raddb, folder)], folder)
    said = ended.errors.decode(errors="replace")
    counts = COUNTS.search(said)
    if not counts:
        return Kept(0, 0, 0, [], [f"{case.name}: {said[-200:]!r}"])
    reasons = [(reason, int(count or 1)) for reason, count in REASON.findall(said)]
    return Kept(int(counts[1]), int(counts[2]), 0, reasons, [])


def share(part: int, whole: int) -> str:
    return f"{part} of {whole} ({100 * part // max(whole, 1)}%)"


def figures(title: str, found: Sequence[Kept]) -> str:
    kept, read = sum(one.kept for one in found), sum(one.read for one in found)
    hanging = sum(count - 1 for one in found for _, count in one.reasons if count)
    given = sum(one.given for one in found)
    whole = sum(one.is_whole for one in found)
    alone = sum(one.is_whole and not one.given for one in found)
    return (
        f"    {title}: {share(kept, read)} statements, {share(kept + hanging, read)} with those that only hang on one"
        f" that is left out, {given} with a value that is given; {share(whole, len(found))} policies whole, {alone} of them"
        " with no value that is given"
    )


def tell(report: Report, told: str, given: Sequence[Case], found: Sequence[Kept]) -> None:
    """The figures by source, and what refuses most."""
    report.say(f"{told}:")
    for source in dict.fromkeys(case.source for case in given):
        report.say(figures(source, [one for case, one in zip(given, found) if case.source == source]))
    report.say(figures("all", found))
    counts: Counter = Counter()
    for one in found:
        for reason, statements in one.reasons:
            counts[reason] += statements
    for reason, statements in counts.most_common(12):
        report.say(f"    left out, {reason}: {statements}")


def check(subject: Subject, report: Report) -> None:
    """What it writes of each is a policy; how much it keeps is said."""
    raddb = Path(os.environ.get("RADDB", INSTALLED))
    dictionaries = Path(os.environ.get("DICTIONARIES", DICTIONARIES))
    if not os.access(raddb / "radiusd.conf", os.R_OK) or not (dictionaries / "dictionary").exists():
        report.say(f"policies of Debian's packages: left out, {raddb}/radiusd.conf or {dictionaries} is not there")
        return
    given = cases(raddb)
    for told, options in PASSES.items():
        found = on_all(lambda case: kept_of(subject, raddb, dictionaries, case, options), given)
        report.check(f"{told} imported", [fault for one in found for fault in one.faults])
        tell(report, told, given, found)
    other = os.environ.get("OTHER_IMPORTER")
    if other:
        found = on_all(lambda case: kept_by_other(other, raddb, case), given)
        tell(report, f"the same by {other}", given, found)
