"""Policies at random as `server_unlang` defines what a server does, beside one: after each the three lists and the code
are the same, and so are the packet and the attributes of the reply."""
import shutil
from pathlib import Path
from typing import Dict, Iterator, List, NamedTuple, Sequence, Tuple

from common.program import Word, run
from common.report import Report
from common.subject import Subject, new_folder
from imports.served import free_ports
from library.serving import SERVER, server
from servers.served import (
    ACCEPTED, DICTIONARIES, NUMBERS, REQUESTS, Asked, Case, Dictionaries, Left, Told, configure, dictionaries, drawn,
    replies, reply_in_words, told,
)
from servers.trees import digits, policies_in_words, statements_in_words, statements_lines

POLICIES = range(300)
# So many are loaded at a time.
LOADED = 100


class Unserved(Exception):
    """Why a server told nothing of what it does."""


class Batch(NamedTuple):
    """Policies with the requests that a server had, and what it told of each and answered, if it did."""

    cases: Sequence[Case]
    asked: Sequence[Asked]
    told: Sequence[Told]
    answers: Sequence[bytes]

    def part(self, first: int, count: int) -> "Batch":
        """So many of the policies."""
        runs = slice(first * REQUESTS, (first + count) * REQUESTS)
        return Batch(self.cases[first:first + count], self.asked[runs], self.told[runs], self.answers[runs])


# ---- the server

def asked_of(cases: Sequence[Case], folder: Path, ports: Sequence[int], known: Dictionaries) -> Batch:
    asked = [Asked(case, place, sent) for case in cases for place, sent in enumerate(case.requests)]
    answers: List[bytes] = []
    for first in range(0, len(asked), 200):
        some = asked[first:first + 200]
        got = replies(ports, folder, some, 2 * (first + len(some)))
        answers += [got.get(at, b"") for at in range(len(some))]
    theirs = told(folder, known.order)
    silent = [it.case.name for it in asked if (it.case.name, str(it.place)) not in theirs]
    if silent:
        raise Unserved(f"the server tells nothing of {silent[0]}, and of {len(silent) - 1} others")
    return Batch(cases, asked, [theirs[it.case.name, str(it.place)] for it in asked], answers)


def served(cases: Sequence[Case], known: Dictionaries) -> Batch:
    with new_folder() as folder:
        ports = free_ports(2)
        configure(folder, cases, ports)
        with server(folder, "UTC") as is_ready:
            if not is_ready:
                raise Unserved((folder / "log").read_text(errors="replace")[-2000:])
            return asked_of(cases, folder, ports, known)


def batches(numbers: range, known: Dictionaries) -> Iterator[Batch]:
    """The policies of these numbers, which are their seeds."""
    for first in range(0, len(numbers), LOADED):
        yield served([drawn(number) for number in numbers[first:first + LOADED]], known)


# ---- the definition

def given_lines(before: Left) -> List[str]:
    """The lists with which a policy begins, as lines for the program."""
    lines = ["request"]
    for name in ("request", "reply", "control"):
        for pair in getattr(before, name):
            attribute, text = pair.split(" = ", 1)
            lines.append(f"pair {name} {attribute} {digits(text.strip(chr(34)))}")
    return [*lines, "run"]


def lines_of(batch: Batch, known: Dictionaries) -> bytes:
    """The policies and what they began with, as lines for the program."""
    lines = ["order " + " ".join(known.order)]
    for it, told_of in zip(batch.asked, batch.told):
        if it.place == 0:
            lines += [f"policy {it.case.section}", *statements_lines(it.case.policy)]
        lines += given_lines(told_of.before)
    return "\n".join(lines).encode()


def computed(command: Sequence[Word], lines: bytes, known: Dictionaries) -> Tuple[List[Left], bytes]:
    """What a program makes of each, and what it wrote beside."""
    with new_folder() as folder:
        (folder / "attributes").write_text("".join(" ".join(words) + "\n" for words in known.lines))
        ended = run([*command, "attributes"], folder, lines)
    if ended.status:
        raise ValueError(f"{command[0]} ends with {ended.status}: {ended.errors.decode(errors='replace')}")
    return [left_of(answer) for answer in ended.output.decode().split("end\n")[:-1]], ended.errors


def left_of(answer: str) -> Left:
    head, *lines = answer.splitlines()
    pairs: Dict[str, List[str]] = {"request": [], "reply": [], "control": []}
    for line in lines:
        name, _, pair = line.partition(" ")
        pairs[name].append(pair)
    return Left(head.split(" ", 1)[1], **pairs)


# ---- both

def reply_wanted(left: Left) -> List[str]:
    """What is sent of a reply list: no attribute that is the server's own, and none without octets."""
    sent = [pair for pair in left.reply if pair.split(" ")[0] in NUMBERS]
    sent = [pair for pair in sent if pair.split(" = ")[1] not in ('""', "0x")]
    return ["accepted" if left.code.split(" ")[0] in ACCEPTED else "rejected", *sent]


def different(batch: Batch, ours: Sequence[Left], known: Dictionaries) -> Iterator[Tuple[int, str]]:
    """The places of the requests after which something differs, with what does."""
    if len(ours) != len(batch.asked):
        raise ValueError(f"the program tells of {len(ours)} requests, not of {len(batch.asked)}")
    for at, (it, told_of, left) in enumerate(zip(batch.asked, batch.told, ours)):
        wanted = reply_wanted(left)
        answered = it.case.section == "authorize"
        heard = reply_in_words(known.services, batch.answers[at]) if answered else wanted
        if told_of.after != left._replace(code=left.code.split(" ")[0]) or heard != wanted:
            yield at, f"the server: {told_of.after} {heard}\nthe program: {left}"


def in_words(it: Asked, difference: str) -> str:
    shown = ", ".join(f"{name} = {literal.text}" for name, literal in it.sent)
    return (f"{it.case.name} in {it.case.section}\n{policies_in_words(it.case.policy)}\n"
            f"{statements_in_words(it.case.policy)}{shown}\n{difference}")


def is_served(report: Report) -> bool:
    """Whether there is a server; if not a line says so."""
    if shutil.which(SERVER) is None or not DICTIONARIES.is_dir():
        report.say(f"what a server does, beside one: left out, there is no {SERVER} or no {DICTIONARIES}")
        return False
    return True


def compare(subject: Subject, report: Report, batch: Batch, known: Dictionaries) -> None:
    ours, _ = computed([subject.driver("drive_server")], lines_of(batch, known), known)
    faults = [in_words(batch.asked[at], words) for at, words in different(batch, ours, known)]
    report.check(f"policies {batch.cases[0].name} to {batch.cases[-1].name} beside a server", faults)


def check(subject: Subject, report: Report) -> None:
    if is_served(report):
        known = dictionaries()
        for batch in batches(POLICIES, known):
            compare(subject, report, batch, known)
