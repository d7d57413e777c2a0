"""Stores with each allocation of their calls refused in turn: a refusal changes nothing, and the store is used on."""
import itertools
from pathlib import Path
from typing import Counter, Iterator, List, NamedTuple, Optional, Sequence, Tuple

from common.program import Word
from common.report import Report
from common.subject import Subject, new_folder, on_all
from allocations.refusing import ALL_LATER, Refusals, Refused
from allocations.store_model import FIRST, NAMES, Store, told

STORES = ("snapshots", "slots")
OUT_OF_MEMORY = b"Error: Kind(OutOfMemory)\n"

# Every operator, with an effect and without; edits from the middle; rollbacks until there is no room, and their undo.
EDITS = [
    *("reply += 25 9", "undo", "reply += 25 8", "redo", "list reply", "reply := 25 5", "reply = 7 1", "reply = 7 2"),
    *("reply -= 25 5", "undo", "undo", "reply == 25 2", "reply ^= 25 6", "control := 4 4"),
    *("request !* 1 0", "list request"),
    # The same over the instances with a tag, and over each beside its tag.
    *("reply += 25 70 1", "reply += 25 70 2", "reply := 25 71 2", "reply = 25 72 3", "reply = 25 73 3", "list reply"),
    *("reply -= 25 70 1", "undo", "reply -= 25 70 each", "reply += 25 74 3", "reply == 25 72 3", "undo", "list reply"),
    *("reply == 25 72 each", "undo", "reply !* 25 0 3", "reply := 25 75 each", "list reply"),
]
ROLLBACKS = [
    *("rollback 1", "rollback 0", "undo", "rollback 2", *["rollback 0"] * 8, "undo", "undo", "rollback 9", "redo"),
]
LISTS = [f"list {name}" for name in NAMES]
TO_BOTH_ENDS = [*["undo"] * 20, *LISTS, *["redo", "list reply"] * 20, *LISTS]
SETTLED = ["undo", "settle", "list reply", "reserve 3", "reserve 60", "control += 1 1", "list control"]
# The last call that takes memory, and then those that take none: there is room for the rollbacks.
WITHOUT_MEMORY = [
    *("reserve 12", "reply += 25 9", "reply := 25 3", "list reply"),
    *("undo", "undo", "undo", "redo", "rollback 1", "rollback 0", "rollback 3", "undo", "redo", "redo"),
    *("reserve 3", "list control", "settle", "rollback 0", "undo", "settle"),
]
LAST_WITH_MEMORY = 3
SCRIPTS = {
    "edits": EDITS + TO_BOTH_ENDS,
    "rollbacks": EDITS[:4] + ROLLBACKS + TO_BOTH_ENDS,
    "settled": EDITS[:6] + SETTLED + TO_BOTH_ENDS,
}
# An edit before a state that was undone, which is still there where that edit is refused.
BEFORE_LATER = ["reply += 25 9", "undo", "reply += 25 8", "redo", "list reply"]
REFUSED_EDIT = 2
# An append to as many pairs as leave room for one, after a call that takes memory.
TO_MANY = ["reply !* 18 0", "reply !* 25 0", *["reply += 25 1"] * 4095, "list request", "reply += 25 2"]
MAX_ALLOCATIONS = 10
# An append and its undo, how many appends are made, and the calls that make a list full.
UNDONE = ["control += 25 2", "undo"]
APPENDS = 1000
FULL = ["reply += 25 1"] * 4092
KINDS = {"new", "list", "reserve", "rollback", *(f"edit {it}" for it in ("=", ":=", "+=", "^=", "-=", "==", "!*"))}


class Followed(NamedTuple):
    """The first thing that is wrong of a run, and the calls that were refused, by their places in the script."""

    fault: Optional[str]
    refused: List[int]


def new_answered(lines: List[str]) -> Tuple[Optional[str], List[int]]:
    """Takes the line of a refused `new` away: it hands back the lists."""
    if not lines or not lines[0].startswith("refused"):
        return None, []
    back = lines.pop(0)
    wanted = f"refused {' '.join(told(FIRST[name]) for name in NAMES)}"
    return None if back == wanted else f"new handed back {back}", [-1]


def follow(script: List[str], output: str) -> Followed:
    """Holds what a run printed to what a store is."""
    lines = output.splitlines()
    fault, refused = new_answered(lines)
    store = Store()
    fault = fault or (store.stands("new", lines.pop(0), 0) if lines else "nothing was told")
    if len(lines) != 2 * len(script):
        return Followed(fault or f"{len(lines)} lines for {len(script)} calls", refused)
    for at, (call, answer, state) in enumerate(zip(script, lines[::2], lines[1::2])):
        place_before = store.place
        fault = fault or store.answered(call, answer) or store.stands(call, state, place_before)
        if fault:
            return Followed(f"{call}, answered {answer}: {fault}", refused)
        refused += [at] if answer == "refused" else []
    return Followed(None, refused)


def kind_of(script: List[str], at: int) -> str:
    """What a call that was refused is called."""
    if at < 0:
        return "new"
    words = script[at].split(" ")
    return f"edit {words[1]}" if words[0] in NAMES else words[0]


def runs(refusals: Refusals, command: Sequence[Word], folder: Path, all_later: bool) -> Iterator[Tuple[int, Refused]]:
    """The runs with the first, the second and each later allocation refused, until none is; that one too."""
    for allocation in itertools.count(1):
        run = refusals.run(command, folder, allocation, ALL_LATER if all_later else allocation)
        yield allocation, run
        if not run.refused:
            return


def swept(subject: Subject, store: str, script: List[str], all_later: bool) -> Tuple[List[str], Counter[str]]:
    """Each allocation of a script refused in turn: what is wrong, and how often each kind of call was refused."""
    wrong, kinds = [], Counter[str]()
    command = [*subject.drive("stores"), store, *script]
    with new_folder() as folder:
        for allocation, run in runs(Refusals(subject, folder), command, folder, all_later):
            ended = run.ended
            if ended.status == 1 and ended.errors == OUT_OF_MEMORY and (not ended.output or all_later):
                continue
            found = follow(script, ended.output.decode())
            kinds.update(kind_of(script, at) for at in found.refused)
            if found.fault or ended.status:
                wrong.append(f"allocation {allocation} of {run.asked}: status {ended.status}, {found.fault}")
            elif not all_later and len(found.refused) > run.refused:
                wrong.append(f"allocation {allocation}: {len(found.refused)} calls were refused")
    return wrong, kinds


def check_without_memory(subject: Subject, report: Report, store: str) -> None:
    """From the last allocation on every one is refused. It was that of the last call that takes memory, so the calls
    after it asked for none."""
    command = [*subject.drive("stores"), store, *WITHOUT_MEMORY]
    with new_folder() as folder:
        refusals = Refusals(subject, folder)
        asked = refusals.run(command, folder, 0).asked
        run = refusals.run(command, folder, asked, ALL_LATER)
    found = follow(WITHOUT_MEMORY, run.ended.output.decode())
    wrong = [found.fault] if found.fault else []
    if found.refused != [LAST_WITH_MEMORY] or run.asked != asked:
        wrong.append(f"asked {asked} and then {run.asked} times, refused at the calls {found.refused}")
    report.check(f"calls of {store} that take no memory, with every allocation refused", wrong)


def check_later_state(subject: Subject, report: Report, store: str) -> None:
    """Wherever the edit asks for memory and is refused, the place and the states are those before: the state that was
    undone is there, and `redo` goes to it."""
    command = [*subject.drive("stores"), store, *BEFORE_LATER]
    held = 0
    with new_folder() as folder:
        for _, run in runs(Refusals(subject, folder), command, folder, False):
            found = follow(BEFORE_LATER, run.ended.output.decode())
            held += found == Followed(None, [REFUSED_EDIT])
    name = f"an edit of {store} before a later state, refused in {held} runs"
    report.check(name, [] if held else ["it was refused in none, or the later state was lost"])


def check_append_to_many(subject: Subject, report: Report) -> None:
    """An append to 4,095 pairs in slots is made with every allocation after its tenth refused. With all from the
    eleventh last on refused the call before it is refused already, so the append asks for ten at most."""
    command = [*subject.drive("stores"), "slots", *TO_MANY]
    with new_folder() as folder:
        refusals = Refusals(subject, folder)
        whole = refusals.run(command, folder, 0)
        few = refusals.run(command, folder, whole.asked - MAX_ALLOCATIONS, ALL_LATER)
    answer, state = whole.ended.output.decode().splitlines()[-2:]
    wrong = [] if answer == "done" and " pairs 1 4096 0 " in state else [f"it answered {answer}, {state}"]
    listed = few.ended.output.decode().splitlines()[-4]
    wrong += [] if listed == "refused" else [f"it asks for more than {MAX_ALLOCATIONS} allocations"]
    report.check("an append to 4,095 pairs in slots, with every allocation after its tenth refused", wrong)


def held_after(subject: Subject, report: Report, store: str, calls: List[str], filling: int) -> int:
    """How many pieces of memory are held at the end of these calls and of others that change nothing."""
    script = [*calls, *["redo"] * filling]
    with new_folder() as folder:
        whole = Refusals(subject, folder).run([*subject.drive("stores"), store, *script], folder, 0)
    found = follow(script, whole.ended.output.decode())
    report.check(f"{len(calls)} calls of {store}", [found.fault] if found.fault else [])
    return whole.held


def check_pairs_held(subject: Subject, report: Report) -> None:
    """What slots hold, by how many pieces of memory there are: one for a pair, one for the record of a step, and one
    for the places at an end of a list. Appends to an empty list that are undone leave one of each at the most, and
    appends beside a full list a pair and a record for every append. As many words are given each time, so that these
    take the same."""
    undone = [held_after(subject, report, "slots", UNDONE * count, 2 * (APPENDS - count)) for count in (0, APPENDS)]
    wrong = [] if undone[1] <= undone[0] + 3 else [f"there were {undone[0]} pieces of memory, and then {undone[1]}"]
    report.check(f"{APPENDS} appends in slots, each of them undone, leave one pair at the most", wrong)
    full = [held_after(subject, report, "slots", FULL + UNDONE[:1] * count, APPENDS - count) for count in (0, APPENDS)]
    wrong = [] if full[1] <= full[0] + 2 * APPENDS else [f"there were {full[0]} pieces of memory, and then {full[1]}"]
    report.check(f"{APPENDS} appends beside 4,096 pairs in slots hold no more than {APPENDS} pairs", wrong)


def check_sweeps(subject: Subject, report: Report, store: str) -> None:
    """Each script, each allocation alone and with all later ones; every kind of call was refused in one of them."""
    works = [(name, all_later) for name in SCRIPTS for all_later in (False, True)]
    found = on_all(lambda work: swept(subject, store, SCRIPTS[work[0]], work[1]), works)
    kinds = Counter[str]()
    for (name, all_later), (wrong, refused) in zip(works, found):
        kinds += refused
        how = "with all later ones" if all_later else "alone"
        report.check(f"allocations of {store}, {name}, {how}: {sum(refused.values())} calls refused", wrong)
    missed = sorted(KINDS - set(kinds))
    report.check(f"calls of {store} that were refused: {dict(kinds)}", [f"none of {it}" for it in missed])


def check(subject: Subject, report: Report) -> None:
    """Every store."""
    for store in STORES:
        check_sweeps(subject, report, store)
        check_without_memory(subject, report, store)
        check_later_state(subject, report, store)
    check_append_to_many(subject, report)
    check_pairs_held(subject, report)
