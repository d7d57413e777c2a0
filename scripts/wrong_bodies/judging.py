"""What a check says of wrong bodies, by the rules of `rt must-fail`."""
import re
from dataclasses import dataclass

# What the prover says where a proof file names what an edit took away, and of what cites such a proof.
NAMES = re.compile(r".*(has no field|is not in scope|has no `|was not admitted|record `[^`]*` \(nearest: )")
UNREAD = re.compile(r"is not in scope|has no field|is no name|operand is missing|expected the end|cannot continue")
# What the prover says of a limit of its own, which it meets wherever it checks the same; the machine's memory is none.
LIMITS = re.compile(
    r"antt ran out of (stack|the (steps|memory) that the check of one declaration may (take|use))"
    r"|(outgrew the memory limit|stopped at the step limit) \("
)
BY_NAMES = ", only because a proof file names what the edit took away,"
SHOWN = 120


@dataclass(frozen=True)
class Outcome:
    """What came of an edit. One that is not settled may come to something else where the check is made anew."""

    edit: object
    passed: bool
    words: str
    is_settled: bool = True

    def __str__(self):
        return f"{self.edit}: {self.words}"


def refused(edit, told, over=""):
    return Outcome(edit, True, f"refused{over} at {told.file}:{told.line}: {told.words[:SHOWN]}")


def bad(edit, why):
    return Outcome(edit, False, f"BAD EDIT: {why}")


def is_stale_proof(told):
    return NAMES.match(told.words) and (told.is_of_search or told.file.startswith("proofs/"))


def unread_line(said, texts):
    """Returns a line that says that a text could not be read, where an edit that makes a statement false reads well."""
    for line in said.lines:
        at = re.match(r"(?:\./)?(\S+?):\d+:\d+: error: (?:(`[^`]*`): )?(.*)", line)
        if at and (at[1] in texts or at[1].startswith(("src/", "specs/"))):
            if not at[2] or UNREAD.search(re.sub(r"`[^`]*`", "", at[3])):
                return line
    return None


def unjudged(said, texts):
    """Returns why a check says nothing of its functions, if it did not come to its end or could not read a text."""
    if said.has_ended() and not said.is_stale():
        return unread_line(said, texts)
    return f"status {said.status}: {said.first_words()}"


def refusals_of(said, functions):
    """Returns what is refused of these functions by their own meaning. What is said of a search that broke off does not
    count where a proof was not read, on which it may rest."""
    told = [it for it in said.told() if it.is_refusal()]
    is_all_read = not any(is_stale_proof(it) for it in told)
    told = [it for it in told if is_all_read or not (is_stale_proof(it) or it.is_of_search)]
    return [it for it in told if any(function.has(it.file, it.line) for function in functions)]


def refusals_by_names(said, functions):
    """Returns what is refused of these functions only since a file of their proofs names what an edit took away."""
    told = [it for it in said.told() if is_stale_proof(it) and not it.is_of_search and not it.is_note]
    return [it for it in told if any(function.has(it.file, it.line) for function in functions)]


def judged_whole(edit, said, texts):
    """Judges an edit by a check of the whole crate."""
    unread = unread_line(said, texts)
    if unread and said.status == 1:
        return bad(edit, f"the prover cannot read the edited text, so no contract was tried: {unread[:SHOWN]}")
    if said.is_stale():
        return Outcome(edit, False, "NOT TRIED: what was kept of a library could not be used", False)
    if said.status == 1 and said.lines[-1].startswith("logic=not-proved"):
        return refused_somewhere(edit, said)
    if said.status == 0:
        return Outcome(edit, False, "NOT REFUSED: the crate is still proved", False)
    limit = next((it for it in said.lines if LIMITS.search(it)), None)
    if said.status == 3 and limit:
        return Outcome(edit, True, f"refused, over the whole crate, only by a limit of the prover's: {limit[:SHOWN]}")
    if said.status == 1 and said.has_error():
        return bad(edit, f"it did not reach the prover: {said.first_words()}")
    return Outcome(edit, False, f"NOT TRIED: its check ended with status {said.status}: {said.first_words()}", False)


def refused_somewhere(edit, said):
    """Tells where a crate that is not proved is refused: first by its meaning."""
    told = [*said.told()]
    by_meaning = [it for it in told if not (is_stale_proof(it) or it.is_of_search)]
    by_names = [it for it in told if is_stale_proof(it) and not it.is_of_search]
    if by_meaning:
        return refused(edit, by_meaning[0], ", over the whole crate,")
    if by_names:
        return refused(edit, by_names[0], BY_NAMES)
    if told:
        return refused(edit, told[0], ", over the whole crate,")
    return Outcome(edit, True, f"refused, over the whole crate: {said.lines[-1][:SHOWN]}")
