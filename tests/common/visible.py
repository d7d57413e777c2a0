"""Control characters in words and files of a call, none of which is to get to a terminal."""
import os
from pathlib import Path
from typing import List

from common.program import run

RAW = "a\x1b]0;b\x07\u009bc"
SHOWN = rb"a\033]0;b\007\302\233c"


def raw_faults(said: bytes) -> List[str]:
    """What is wrong with what is said of a word or a file of that name: it has the name as it may be shown, in a JSON
    string too, and no control character."""
    raw = [sign for sign in said.decode(errors="replace") if sign != "\n" and (sign < " " or "\x7f" <= sign < "\xa0")]
    return [] if SHOWN in said.replace(b"\\\\", b"\\") and not raw else [f"{said!r}"]


def write_names(folder: Path) -> None:
    """Files whose names and contents have control characters: a policy, lists and a dictionary that can't be read."""
    (folder / "broken").mkdir()
    for path in (folder / RAW, folder / "broken" / RAW):
        path.write_text(f"nosuch {RAW}\n")


# Calls of a program that runs a policy over a request, less its name, each of which tells of such a name.
CALLS: List[List[str]] = [
    ["-f", "request", "--policy", RAW, "dictionary"],
    ["-f", "request", "--policy", f"{RAW}-not-there", "dictionary"],
    ["-f", RAW, "--policy", "policy", "dictionary"],
    ["-f", f"{RAW}-not-there", "--policy", "policy", "dictionary"],
    ["-f", "request", "--policy", "policy", "--hex", "-S", f"{RAW}-not-there", "dictionary"],
    ["-f", "request", "--policy", "policy", "--reply", RAW, "dictionary"],
    ["-f", "request", "--policy", "policy", "--control", f"{RAW}-not-there", "dictionary"],
    ["-f", "request", "--policy", "policy", "--hide", RAW, "dictionary"],
    ["-f", "request", "--policy", "policy", f"{RAW}-not-there"],
    ["-f", "request", "--policy", "policy", f"broken/{RAW}"],
]


def call_faults(program: Path, folder: Path) -> List[str]:
    """What is wrong with what a program says of such calls, with its help; its folder has the other files."""
    write_names(folder)
    wrong = []
    for words in CALLS:
        ended = run([program, *words], folder, environment={**os.environ, "RADPOLICY_HELP": "always"})
        wrong += [f"{words}: {fault}" for fault in raw_faults(ended.errors)]
        wrong += [] if ended.status in (2, 3) and not ended.output else [f"{words}: {ended}"]
    return wrong
