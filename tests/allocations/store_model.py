"""What a store is: states, a place among them, and a room; and what each call makes of it."""
import re
from dataclasses import dataclass, field
from typing import Dict, List, NamedTuple, Optional, Tuple

NAMES = ("request", "reply", "control")


class Pair(NamedTuple):
    """An attribute by its number, and its octets."""

    number: int
    octets: Tuple[int, ...]

    def __str__(self) -> str:
        octets = ", ".join(map(str, self.octets))
        return f"Pair {{ id: Plain({self.number}), value: Bytes(Octets {{ bytes: [{octets}] }}) }}"

    @property
    def tag(self) -> int:
        """The tag of a text: its first octet, where that may be one, and else 0."""
        return self.octets[0] if self.octets[0] < 32 else 0

    @property
    def text(self) -> Tuple[int, ...]:
        """What is beside the tag."""
        return self.octets[1:] if self.octets[0] < 32 else self.octets


Lists = Dict[str, Tuple[Pair, ...]]

# The lists that the program begins with.
FIRST: Lists = {
    "request": (Pair(1, (7,)),),
    "reply": (Pair(25, (1,)), Pair(18, (97,)), Pair(25, (2,)), Pair(25, (1,))),
    "control": (),
}


def told(pairs: Tuple[Pair, ...]) -> str:
    """A list as the program prints it."""
    return f"[{', '.join(map(str, pairs))}]"


def edited(sign: str, pair: Pair, pairs: Tuple[Pair, ...], selection: Optional[str]) -> Tuple[Pair, ...]:
    """What an operator makes of a list, over all instances, `each` beside its tag, or those with a tag."""
    tags = range(32) if selection is None or selection == "each" else [int(selection)]
    meant = {other for other in pairs if other.number == pair.number and other.tag in tags}
    equal = {other for other in meant if (other == pair if selection is None else other.text == pair.text)}
    places = [at for at, other in enumerate(pairs) if other in meant]
    if sign == "^=":
        return (pair, *pairs)
    if sign == "+=" or not places and sign in ("=", ":="):
        return (*pairs, pair)
    if sign == ":=":
        return tuple(
            pair if at == places[0] else other for at, other in enumerate(pairs) if at not in places[1:]
        )
    if sign == "-=":
        return tuple(other for other in pairs if other not in equal)
    if sign == "==":
        return tuple(other for other in pairs if other in equal or other not in meant)
    if sign == "!*":
        return tuple(other for other in pairs if other not in meant)
    return pairs


STATE = re.compile(r"place (\d+) steps (\d+) room (\d+) pairs (\d+) (\d+) (\d+) first (.*)")


@dataclass
class Store:
    """A store as the document has it. Each method takes what the program answered, and tells what is wrong."""

    states: List[Lists] = field(default_factory=lambda: [dict(FIRST)])
    place: int = 0
    room: int = 0

    @property
    def present(self) -> Lists:
        return self.states[self.place]

    def add(self, state: Lists) -> None:
        self.states[self.place + 1 :] = [state]
        self.place += 1

    def answered(self, call: str, answer: str) -> Optional[str]:
        """Makes the call where the answer says that it was made. An answer that may not be is told."""
        name, *words = call.split(" ")
        if name in NAMES:
            return self.edit_answered(name, *words, answer=answer)
        return getattr(self, f"{name}_answered")(*words, answer=answer)

    def edit_answered(
        self, name: str, sign: str, number: str, octet: str, selection: Optional[str] = None, *, answer: str
    ) -> Optional[str]:
        if answer == "done":
            tag = () if selection is None or selection == "each" else (int(selection),)
            pair = Pair(int(number), (*tag, int(octet)))
            self.add({**self.present, name: edited(sign, pair, self.present[name], selection)})
        return None if answer in ("done", "refused") else "an edit with memory and room is made"

    def move_answered(self, by: int, answer: str) -> Optional[str]:
        moves = 0 <= self.place + by < len(self.states)
        self.place += by if moves else 0
        return None if answer == ("done" if moves else "stays") else "undo and redo stay at the ends alone"

    def undo_answered(self, answer: str) -> Optional[str]:
        return self.move_answered(-1, answer)

    def redo_answered(self, answer: str) -> Optional[str]:
        return self.move_answered(1, answer)

    def settle_answered(self, answer: str) -> Optional[str]:
        self.states, self.place = [self.present], 0
        return None if answer == "done" else "settle is made"

    def list_answered(self, name: str, answer: str) -> Optional[str]:
        return None if answer in (told(self.present[name]), "refused") else f"the list is {told(self.present[name])}"

    def reserve_answered(self, count: str, answer: str) -> Optional[str]:
        if answer == "refused" and int(count) <= self.room:
            return "reserve has the room already"
        return None if answer in ("done", "refused") else "reserve is made or refused"

    def rollback_answered(self, to: str, answer: str) -> Optional[str]:
        if int(to) > self.place:
            return None if answer == "beyond" else "there is no such state before"
        if answer == "done":
            self.add(self.states[int(to)])
            return None
        return None if answer == "refused" and self.room == 0 else "a rollback with room is made"

    def stands(self, call: str, line: str, place_before: int) -> Optional[str]:
        """Whether a state that was told is the store's, and keeps the room that it had; the room is taken from it."""
        found = STATE.fullmatch(line)
        if not found:
            return f"no state: {line}"
        place, steps, room, *counts = map(int, found.groups()[:6])
        firsts = [pair for pair in self.present["reply"] if pair.number == 25]
        first = f"Some({firsts[0]})" if firsts else "None"
        wanted = (self.place, len(self.states) - 1, [len(self.present[it]) for it in NAMES], first)
        more = room - self.room if call == "settle" else place + room - place_before - self.room
        self.room = room
        if (place, steps, counts, found[7]) != wanted:
            return f"wanted {wanted}, got {line}"
        if steps > place + room:
            return f"no room for the later states: {line}"
        is_kept = more == 0 if call in ("undo", "redo") else more >= 0
        return None if is_kept else f"the room changed by {more}: {line}"
