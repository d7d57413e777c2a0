"""The functions of a tree's sources: how many parameters each has, how long its body is, and whether it has a contract.
Sources have the layout of `rt fmt`."""
import re
from dataclasses import dataclass

from wrong_bodies.functions import begin_of, end_of

HEAD = re.compile(r'( *)(?:pub(?:\([^)]*\))? )?(?:(?:const|unsafe|async|default|extern "C") )*fn (\w+)')
OPENS, CLOSES = "([{<", ")]}>"


@dataclass(frozen=True)
class Function:
    """A function, by its crate, its file and the line of its head, counted from one."""

    crate: str
    file: str
    name: str
    line: int
    parameters: int
    body: int
    clauses: tuple

    def has_contract(self):
        return any(it.lstrip().startswith("ensures") for it in self.clauses)


def parameters_of(head):
    """Returns how many parameters a function's head has, which ends behind them somewhere."""
    text = re.sub(r"->|=>", "", head)
    depth = angles = count = 0
    begun = False
    for letter in text[text.index("fn ") :]:
        if not begun:
            angles += (letter == "<") - (letter == ">")
            begun = letter == "(" and not angles
            waiting = begun
            continue
        if letter in CLOSES:
            if not depth:
                break
            depth -= 1
        depth += letter in OPENS
        if letter == "," and not depth:
            waiting = True
        elif waiting and not letter.isspace():
            count, waiting = count + 1, False
    return count


def function_from(crate, file, lines, at, indent):
    """Returns the function whose head is on a line, where it has a body."""
    begins, last = begin_of(lines, at, indent), end_of(lines, at, indent)
    if begins > last or any(it.endswith((";", "{}")) for it in lines[at:begins]):
        return None
    found = HEAD.match(lines[at])
    head = " ".join(it.strip() for it in lines[at:begins])
    return Function(crate, file, found[2], at + 1, parameters_of(head), last - begins - 1, tuple(lines[at + 1 : begins - 1]))


def functions_in(crate, file, text):
    """Gives the functions of a file, without those that are inside others."""
    lines = text.split("\n")
    at = 0
    while at < len(lines):
        found = HEAD.match(lines[at])
        function = found and function_from(crate, file, lines, at, found[1])
        if function:
            yield function
            at += max(function.body, 0)
        at += 1
