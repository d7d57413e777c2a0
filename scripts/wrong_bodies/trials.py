"""Tries the wrong bodies of a crate: many in one check of the functions that they change, and where that does not tell,
each by itself."""
from dataclasses import dataclass

from wrong_bodies.edits import Unfit, places
from wrong_bodies.functions import function_at, is_import
from wrong_bodies.judging import BY_NAMES, SHOWN, Outcome, bad, judged_whole, refusals_by_names, refusals_of
from wrong_bodies.judging import refused, unjudged

CALLS = "it calls `"


@dataclass(frozen=True)
class Wrong:
    """An edit with the functions whose bodies it changes, none where it also changes what is not in one."""

    edit: object
    functions: tuple

    def units(self):
        return {it.proved_with() for it in self.functions}


def read_wrong(edit):
    """Finds the functions that an edit changes."""
    found = [(function_at(edit.crate, *place), is_import(*place[1:])) for place in places(edit, {})]
    if not all(function or imports for function, imports in found):
        return Wrong(edit, ())
    return Wrong(edit, tuple(dict.fromkeys(function for function, _ in found if function)))


def together(wrongs):
    """Returns those that one copy of the crate can have, and its texts: no two change one function or one text."""
    chosen, texts, units = [], {}, set()
    for wrong in wrongs:
        more = dict(texts)
        try:
            list(places(wrong.edit, more))
        except Unfit:
            continue
        if not units & wrong.units():
            chosen, texts, units = [*chosen, wrong], more, units | wrong.units()
    return chosen, texts


class Trials:
    """The trials of one crate's edits."""

    def __init__(self, prover, edits):
        self.prover = prover
        self.edits = edits
        self.outcomes = {}
        # Those that are to be tried by themselves, over the whole crate.
        self.alone = []
        # The functions that were checked without the others.
        self.only = set()
        # Why checks of several told nothing, and why edits had to be tried by themselves.
        self.notes = []

    def run(self, is_proved):
        """Tries all, and returns what came of each. `is_proved` tells whether the crate was proved as it is."""
        groups = [self.read()]
        while groups:
            groups += self.try_together(groups.pop())
        for edit in self.alone:
            self.outcomes[edit] = self.try_alone(edit)
        if self.prover.checks > 1 or self.prover.checks and not is_proved:
            self.check_unchanged()
        return [self.outcomes[it] for it in self.edits]

    def read(self):
        """Returns the edits that change functions alone, and leaves the others to be tried by themselves."""
        wrongs = []
        for edit in self.edits:
            try:
                wrong = read_wrong(edit)
                if wrong.functions:
                    wrongs.append(wrong)
                else:
                    self.alone.append(edit)
            except Unfit as why:
                self.outcomes[edit] = bad(edit, why)
        return wrongs

    def try_together(self, wrongs):
        """Tries as many as fit into one copy of the crate, and returns the groups of those still to be tried."""
        chosen, texts = together(wrongs)
        later = [it for it in wrongs if it not in chosen]
        only = {it.path for wrong in chosen for it in wrong.functions}
        said = self.prover.check(texts, sorted(only)) if chosen else None
        why = chosen and unjudged(said, texts)
        if why:
            # One of them spoils the copy.
            self.notes.append(f"a check of {', '.join(it.edit.name for it in chosen)} tells nothing: {why}")
            half = len(chosen) // 2
            self.alone += [chosen[0].edit] if not half else []
            return [it for it in (chosen[:half], chosen[half:] if half else [], later) if it]
        self.only |= only
        waiting = self.judge(chosen, said)
        if len(waiting) == len(chosen):
            self.alone += [it.edit for it in waiting]
            waiting = []
        return [later + waiting] if later + waiting else []

    def judge(self, wrongs, said):
        """Judges edits by what was said of their functions, and returns those that wait for the proof of another."""
        waiting = []
        for wrong in wrongs:
            verdicts = {it: said.verdict(self.prover.crate, it.path) for it in wrong.functions}
            unproved = [it for it, words in verdicts.items() if words.startswith(("not proved", "no proof"))]
            own, by_names = refusals_of(said, unproved), refusals_by_names(said, unproved)
            if own:
                self.outcomes[wrong.edit] = refused(wrong.edit, own[0])
            elif any(CALLS in verdicts[it] for it in unproved):
                waiting.append(wrong)
            elif by_names:
                self.outcomes[wrong.edit] = refused(wrong.edit, by_names[0], BY_NAMES)
            else:
                self.notes.append(f"{wrong.edit.name} is not refused at its function: {[*verdicts.values()]}"[:SHOWN])
                self.alone.append(wrong.edit)
        return waiting

    def try_alone(self, edit):
        """Tries one edit over the whole crate, where any function may be the one that the prover refuses; and once more
        from nothing, if that does not settle it."""
        texts = {}
        list(places(edit, texts))
        outcome = judged_whole(edit, self.prover.check(texts), texts)
        if outcome.is_settled:
            return outcome
        return judged_whole(edit, self.prover.check(texts, is_anew=True), texts)

    def check_unchanged(self):
        """Takes back what was refused if the prover refuses the same functions with no edit."""
        said = self.prover.check({}, [] if self.alone else sorted(self.only))
        if said.status:
            why = f"NOT TRIED: with no edit the crate is not proved: {said.first_words()}"
            self.outcomes = {it: Outcome(it, False, why) for it in self.edits}
