"""Walks whose update lines are refused in turn: only they may be, nothing changes, and the walk goes on."""
from pathlib import Path
from typing import List, NamedTuple, Optional, Set

from common.cases import from_folder
from common.program import Word
from common.report import Report
from common.subject import Subject, new_folder, on_all
from allocations.refusing import Refusals
from allocations.stores import STORES, runs
from allocations.walk_model import Answered, Stand, Walk, answers

CASES = Path(__file__).parent.parent / "cases"
# For each policy the lines whose step adds octets to a list, which takes memory in every store.
ADDING = {
    "nested-transactions": {1, 3, 5, 10},
    "walk-over-rollbacks": {1, 5, 8, 11},
    "walk-over-a-condition": {2},
    "walk-over-captures": {3, 7, 12},
}
SCRIPTS = {
    "to the end twice": ["end", *["back"] * 5, "end", *["back"] * 20, *["forward"] * 20],
    "step by step": [*["forward", "back", "forward", "forward", "back"] * 14, "end", "start", "forward"],
    "back in between": ["forward"] * 7 + ["back"] * 3 + ["end", "back", "back", "start", "back", "end", "forward"],
}


class Walked(NamedTuple):
    """What is wrong of a walk, the positions whose step was refused, and what it told."""

    fault: Optional[str]
    refused: List[int]
    told: List[Answered]


class Swept(NamedTuple):
    """What is wrong of the walks of a script, the labels of the steps that were refused, and how many were held up."""

    wrong: List[str]
    labels: Set[str]
    held_up: int


def command_of(subject: Subject, store: str, case: str, moves: List[str]) -> List[Word]:
    given = from_folder(CASES / case).files
    texts = [given.get(name, b"") for name in ("dictionary", "request", "policy")]
    return [*subject.drive("walks"), store, *texts, *moves]


def trace_of(subject: Subject, store: str, case: str) -> List[Stand]:
    """The positions of a walk that nothing refuses, step by step to the end."""
    with new_folder() as folder:
        command = command_of(subject, store, case, ["forward"] * 40)
        told = answers(Refusals(subject, folder).run(command, folder, 0).ended.output.decode())[1]
    return [it.stand for it in told if it.answer != "stays"]


def follow(trace: List[Stand], moves: List[str], output: str) -> Walked:
    """Holds what a walk told to its trace."""
    refused, told = answers(output)
    if refused not in (None, "refused 0 0") or len(told) != len(moves) + 1:
        return Walked(f"{refused}, {len(told)} answers for {len(moves)} moves", [], told)
    walk = Walk(trace)
    fault = walk.stands(told[0].stand)
    for word, answered in zip(moves, told[1:]):
        fault = fault or walk.answered(word, answered)
    return Walked(fault, walk.refused, told)


def is_held_up_inside(moves: List[str], walked: Walked) -> bool:
    """The walk to the end was refused at position 4, inside two transactions; five steps back, four of them made; and
    then the end is reached."""
    heads = [it.stand.head for it in walked.told]
    replies = walked.told[1].stand.lists[1].count("Pair")
    steps = [it.answer for it in walked.told[2:7]]
    return (
        moves[:7] == ["end", *["back"] * 5, "end"]
        and (heads[1], replies) == ("at 4 Enter(4) Ok false", 2)
        and steps == ["done"] * 4 + ["stays"]
        and heads[7].startswith("at 14 Line(14) Reject")
    )


def swept(subject: Subject, store: str, case: str, moves: List[str], all_later: bool) -> Swept:
    """Each allocation of a script refused in turn."""
    trace, wrong, labels, held_up = trace_of(subject, store, case), [], set(), 0
    command = command_of(subject, store, case, moves)
    with new_folder() as folder:
        for allocation, run in runs(Refusals(subject, folder), command, folder, all_later):
            ended = run.ended
            if ended.status == 1 and b"at 0" not in ended.output:
                continue  # the program's own preparation was refused
            walked = follow(trace, moves, ended.output.decode())
            if ended.status or walked.fault:
                wrong.append(f"allocation {allocation}: status {ended.status}, {walked.fault}")
            labels |= {trace[at].label for at in walked.refused}
            held_up += not walked.fault and walked.refused == [5] and is_held_up_inside(moves, walked)
    return Swept(wrong, labels, held_up)


def check_case(subject: Subject, report: Report, store: str, case: str) -> None:
    """Each script over a policy, each allocation alone and with all later ones. Each line that adds is refused in
    one."""
    works = [(name, all_later) for name in SCRIPTS for all_later in (False, True)]
    found = on_all(lambda work: swept(subject, store, case, SCRIPTS[work[0]], work[1]), works)
    for (name, all_later), it in zip(works, found):
        how = "with all later ones" if all_later else "alone"
        report.check(f"allocations of a walk over {case} on {store}, {name}, {how}", it.wrong)
    if case == "nested-transactions":
        held_up = sum(it.held_up for it in found)
        report.check(f"a walk on {store} held up inside two transactions", [] if held_up else ["none was"])
    labels = set().union(*(it.labels for it in found))
    missed = {f"Line({line})" for line in ADDING[case]} - labels
    report.check(
        f"steps of {case} on {store} that were refused: {sorted(labels)}", [f"not {label}" for label in sorted(missed)]
    )


def check(subject: Subject, report: Report) -> None:
    """Each policy on every store, and that the stores show one trace."""
    for case in ADDING:
        for store in STORES:
            check_case(subject, report, store, case)
        first, *others = [trace_of(subject, store, case) for store in STORES]
        report.check(
            f"the walk over {case} on each store", [f"{it} and not {first}" for it in others if it != first]
        )
