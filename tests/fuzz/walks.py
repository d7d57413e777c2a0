"""Walks at random: the lists at every position against the run that is cut off there, and against each other whatever
moves led there."""
import re
from dataclasses import dataclass
from pathlib import Path
from random import Random
from typing import Dict, List, NamedTuple, Optional

from common.program import run
from common.report import Report
from common.subject import Subject, new_folder, on_all
from fuzz import generate
from fuzz.vocabulary import DICTIONARY, values

WALKS = 60
RANDOM_MOVES = 40
MOVE = re.compile(r"^(\d+ .*?)( stays)?\n", re.M)


class Stand(NamedTuple):
    """What a walk told of a position: its number, its label and code, and the three lists."""

    position: int
    label: str
    lists: str

    def is_a(self, word: str) -> bool:
        return self.label.startswith(word)

    @property
    def line(self) -> int:
        """The line of the policy's text in the label."""
        return int(self.label.split(" ")[1])


@dataclass(frozen=True)
class Walk:
    """A policy on a request, in a folder."""

    subject: Subject
    folder: Path
    policy: List[str]

    def told(self, words: List[str], files: Dict[str, bytes]) -> str:
        """What the program prints on these files."""
        for name, octets in files.items():
            (self.folder / name).write_bytes(octets)
        ended = run([self.subject.program, *words, "-f", "request", "--policy", "policy", DICTIONARY], self.folder)
        if ended.status:
            raise ValueError(f"{ended.status} {ended.errors!r}")
        return ended.output.decode()

    def stands(self, moves: List[str]) -> List[Stand]:
        """Where the walk stands after each of the moves."""
        script = "".join(f"{move} show\n" for move in moves)
        output = self.told(["step", "--script", "script"], {"policy": text_of(self.policy), "script": script.encode()})
        parts = MOVE.split(output)[1:]
        heads = [head.split(" ", 1) for head in parts[::3]]
        return [Stand(int(head[0]), head[1], lists) for head, lists in zip(heads, parts[2::3])]

    def cut_off(self, line: int) -> str:
        """The lists after the policy up to a line, with what is open there closed."""
        lines = self.policy[:line]
        still_open = sum(it.endswith("{") for it in lines) - sum(it.strip() == "}" for it in lines)
        output = self.told(["run"], {"policy": text_of(lines + ["}"] * still_open)})
        return output[: output.index("result ")]


def text_of(policy: List[str]) -> bytes:
    return "\n".join(policy).encode("latin-1") + b"\n"


def wanted_lists(walk: Walk, trace: List[Stand], at: int) -> str:
    """The lists at a position: those of the run cut off after an update line; those at the entry of what a failed line
    or a rollback undoes; else those before."""
    stand = trace[at]
    if stand.is_a("line") and " failed " not in stand.label:
        return walk.cut_off(stand.line)
    if stand.is_a("line"):
        begin = max(number for number in range(stand.line) if walk.policy[number].strip().startswith("update ")) + 1
        inside = [it for it in trace[1:at] if it.is_a("line") and it.line > begin]
        return trace[inside[0].position - 1 if inside else at - 1].lists
    if stand.is_a("rollback"):
        return next(it for it in trace if it.label.startswith(f"enter {stand.line} ")).lists
    return trace[at - 1].lists


def trace_fault(walk: Walk, rng: Random) -> Optional[str]:
    """What is wrong of a walk step by step, or of where random moves lead."""
    trace = walk.stands(["start"] + ["forward"] * len(walk.policy))
    trace = trace[: trace[-1].position + 1]
    for at in range(1, len(trace)):
        wanted = wanted_lists(walk, trace, at)
        if trace[at].lists != wanted:
            return f"{trace[at]}: wanted {wanted}"
    moves = [rng.choice(["forward", "forward", "back", "back", "start", "end"]) for _ in range(RANDOM_MOVES)]
    for stand in walk.stands(moves):
        if stand != trace[stand.position]:
            return f"{stand}: before it was {trace[stand.position]}"
    return None


def walk_fault(subject: Subject, number: int) -> Optional[str]:
    """What is wrong of the walk of a number, which is the same whenever it is made."""
    rng = Random(f"walk {number}")
    request = generate.request(rng, values(rng, rng.choice([0, 2, 6])))
    with new_folder() as folder:
        (folder / "request").write_bytes(request)
        try:
            fault = trace_fault(Walk(subject, folder, generate.policy(rng)), rng)
        except ValueError as refused:
            fault = str(refused)
    return f"walk {number}, {fault}" if fault else None


def check(subject: Subject, report: Report) -> None:
    found = on_all(lambda number: walk_fault(subject, number), range(WALKS))
    report.check(f"{WALKS} walks, each position against the run cut off there", [it for it in found if it])
