"""What a walk is: a trace of positions that is fixed, and a place in it; and what each move answers."""
import re
from typing import List, NamedTuple, Optional, Tuple

AT = re.compile(r"at (\d+) ((\w+)(?:\(.*\))?) (\w+) (true|false)")
NOT_TOLD = "not told"


class Stand(NamedTuple):
    """Where a walk stands: the position, the label, the code and the stop; and the three lists as they are told."""

    head: str
    lists: Tuple[str, ...]

    @property
    def label(self) -> str:
        return AT.fullmatch(self.head)[2]

    @property
    def is_line(self) -> bool:
        return self.label.startswith(("Line", "Failed"))


class Answered(NamedTuple):
    """What a move answered, and where the walk then stood. The start has no answer."""

    answer: str
    stand: Stand


def answers(output: str) -> Tuple[Optional[str], List[Answered]]:
    """The line of a refused beginning, if there is one, and the answers, the first of them that of the start."""
    lines = output.splitlines()[1:]
    refused = lines.pop(0) if lines and lines[0].startswith("refused") else None
    lines.insert(0, "begin")
    return refused, [
        Answered(lines[at], Stand(lines[at + 1], tuple(lines[at + 2 : at + 5]))) for at in range(0, len(lines), 5)
    ]


class Walk:
    """A walk over a trace, of which so many steps were made so far."""

    def __init__(self, trace: List[Stand]) -> None:
        self.trace = trace
        self.position = 0
        self.made = 0
        self.refused: List[int] = []

    def moves(self, word: str) -> Tuple[int, str]:
        """The position after a move that is not refused, and its answer."""
        last = len(self.trace) - 1
        if word == "forward" and self.position < last:
            return self.position + 1, f"to {self.trace[self.position + 1].label}"
        if word == "back" and self.position > 0:
            return self.position - 1, "done"
        return {"start": (0, "done"), "end": (last, "done")}.get(word, (self.position, "stays"))

    def may_be_refused(self, at: int) -> bool:
        """Only the step of an update line that was not made before may be refused."""
        return self.made <= at < len(self.trace) - 1 and self.trace[at + 1].is_line

    def answered(self, word: str, told: Answered) -> Optional[str]:
        """Makes a move as it was answered; tells what is wrong."""
        to, wanted = self.moves(word)
        if told.answer == "refused" and word in ("forward", "end"):
            to = int(AT.fullmatch(told.stand.head)[1])
            if to < self.position or (word == "forward" and to != self.position) or not self.may_be_refused(to):
                return f"{word} may not be refused at {to}"
            self.refused.append(to + 1)
        elif told.answer != wanted:
            return f"{word} answered {told.answer} and not {wanted}"
        self.position, self.made = to, max(self.made, to)
        return self.stands(told.stand)

    def stands(self, stand: Stand) -> Optional[str]:
        """Whether it stands where it should; lists may not have been told for want of memory."""
        wanted = self.trace[self.position]
        is_same = stand.head == wanted.head and all(
            told in (NOT_TOLD, list_) for told, list_ in zip(stand.lists, wanted.lists)
        )
        return None if is_same else f"stands at {stand} and not at {wanted}"
