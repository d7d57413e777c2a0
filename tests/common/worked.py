"""Worked cases: files, commands that are given these, and what they write. A file of a folder of cases has some.

    << policy
    reject

    << request
    NAS-Port = 3

    $ radpolicy run --policy policy dictionary < request
    >> output
    request
      NAS-Port = 3
    reply
    control
    result reject stopped

Behind `<< NAME` is a file that is there for the commands below it, until another of its name is given; behind `<<-
NAME` one without a line feed at its end. Behind a `$` is a command: its words as a shell has them, in front of them
`NAME=VALUE` for its environment, and at their end `< FILE` for its standard input, which else is empty. Behind `>>
NAME` is what has to be in a file that it writes, or in `output`, `errors` or `status`, to the octet. A text ends at the
next of these lines; blank ones at its end are no part of it. Words before the first are for the reader. Where a case
gives no file `dictionary`, it is the one in its folder, or else the one in the folder of all cases of its kind, or that
in `common/`."""
import os
import re
import shlex
from dataclasses import dataclass, field
from pathlib import Path
from typing import Callable, Dict, List, Tuple

from common.program import Ended, Word, run
from common.report import Report
from common.subject import Subject, new_folder, on_all

DICTIONARY = "dictionary"
SIGN = re.compile(rb"^(<<-?|>>|\$) (.+)\n", re.MULTILINE)
SETTING = re.compile(r"(\w+)=(.*)", re.DOTALL)
# What a command writes, by the names that cases have for it: of how it ended, and of the files where it ran.
Naming = Callable[[Ended, Dict[str, bytes]], Dict[str, bytes]]


def as_printed(ended: Ended, files: Dict[str, bytes]) -> Dict[str, bytes]:
    return {**files, "output": ended.output, "errors": ended.errors}


@dataclass(frozen=True)
class Cases:
    """A folder of cases, what a report calls them, and what a command has to write where a case does not say it."""

    name: str
    folder: Path
    naming: Naming = as_printed
    otherwise: Dict[str, bytes] = field(default_factory=lambda: {"status": b"0\n", "errors": b""})

    def paths(self) -> List[Path]:
        return sorted(path for path in self.folder.rglob("*") if path.is_file() and path.name != DICTIONARY)


@dataclass(frozen=True)
class Call:
    """A command, the files that it is given, and what it has to write."""

    command: str
    given: Dict[str, bytes]
    wanted: Dict[str, bytes]


def texts_of(case: bytes) -> List[Tuple[bytes, str, bytes]]:
    """Each sign of a case, with what is beside it and the text behind it."""
    signs = list(SIGN.finditer(case))
    ends = [sign.start() for sign in signs[1:]] + [len(case)]
    texts = [case[sign.end():end].rstrip(b"\n") for sign, end in zip(signs, ends)]
    return [
        (sign[1], sign[2].decode(), text + b"\n" if text and sign[1] != b"<<-" else text)
        for sign, text in zip(signs, texts)
    ]


def calls_of(cases: Cases, path: Path) -> List[Call]:
    """The calls of a case, in their order."""
    near = [folder / DICTIONARY for folder in (path.parent, cases.folder) if (folder / DICTIONARY).exists()]
    given = {DICTIONARY: (near or [Path(__file__).parent / DICTIONARY])[0].read_bytes()}
    calls: List[Call] = []
    for sign, word, text in texts_of(path.read_bytes()):
        if sign in (b"<<", b"<<-"):
            given = {**given, word: text}
        elif sign == b"$" and not text:
            calls.append(Call(word, given, {}))
        elif sign == b">>" and calls and word not in calls[-1].wanted:
            calls[-1].wanted[word] = text
        else:
            raise ValueError(f"{path}: out of place, or with a text that is: {word}")
    return calls


def program_of(subject: Subject, name: str) -> Path:
    if name == "radpolicy":
        return subject.program
    if name != "drive" and not name.startswith("radpolicy-"):
        raise ValueError(f"{name}: no program of the repository")
    return subject.driver(name.replace("-", "_"))


def run_in(subject: Subject, folder: Path, call: Call) -> Ended:
    """Runs a call's command in a folder."""
    words, environment, stdin = shlex.split(call.command), dict(os.environ), b""
    while setting := SETTING.fullmatch(words[0]):
        environment[setting[1]] = setting[2]
        del words[0]
    if "<" in words[-2:-1]:
        stdin = call.given[words[-1]]
        del words[-2:]
    command: List[Word] = [program_of(subject, words[0]), *words[1:]]
    return run(command, folder, stdin, environment)


def found_by(cases: Cases, subject: Subject, call: Call) -> Dict[str, bytes]:
    """What a call writes, by the names that a case has for it."""
    with new_folder() as folder:
        for name, octets in call.given.items():
            (folder / name).parent.mkdir(parents=True, exist_ok=True)
            (folder / name).write_bytes(octets)
        ended = run_in(subject, folder, call)
        files = {str(path.relative_to(folder)): path.read_bytes() for path in folder.rglob("*") if path.is_file()}
    return {**cases.naming(ended, files), "status": b"%d\n" % ended.status}


def wrong_in(cases: Cases, subject: Subject, path: Path) -> List[str]:
    """What is wrong with what the calls of a case write."""
    calls = calls_of(cases, path)
    wrong = [] if calls else ["no command"]
    for call in calls:
        found = found_by(cases, subject, call)
        wrong += [] if call.wanted else [f"{call.command}: nothing is wanted"]
        wrong += [
            f"{call.command}: {name} is {found.get(name)!r}, not {text!r}"
            for name, text in {**cases.otherwise, **call.wanted}.items()
            if found.get(name) != text
        ]
    return wrong


def check_cases(cases: Cases, subject: Subject, report: Report) -> None:
    """Each case by itself, on all processors."""
    paths = cases.paths()
    for path, wrong in zip(paths, on_all(lambda path: wrong_in(cases, subject, path), paths)):
        report.check(f"{cases.name}: {path.relative_to(cases.folder)}", wrong)
