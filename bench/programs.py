"""The program as it is called: what dictionaries cost it, and what the lines of a policy do."""
from pathlib import Path
from typing import Callable, Dict, Optional

from dictionaries import Set
from timing import Command, Refused, in_turn, peak, used

ROUNDS = 9
FEW, MANY = 1_000, 11_000
COMMENTS = 200_000
REQUEST = b"User-Name = bob\nNAS-Port = 7\n"
POLICY = 'update reply {\n\tService-Type := Login-User\n\tReply-Message := "hi %{User-Name}"\n}\n'


def update_lines(count: int, sign: str) -> str:
    """A section of so many lines, which add a pair and take it away again in turn."""
    return "update reply {\n" + f"Class {sign} 0x0102\nClass -= 0x0102\n" * (count // 2) + "}\n"


POLICIES: Dict[str, Callable[[int], str]] = {
    "an update line": lambda count: update_lines(count, "+="),
    "an update line, every second one with ^=": lambda count: update_lines(count, "^="),
    "an if": lambda count: "if (&NAS-Port >= 7 && !&Class) { noop }\n" * count,
}


def placed(folder: Path, name: str, text: str) -> Path:
    path = folder / name
    path.write_text(text)
    return path


def held(command: Command) -> str:
    """The memory that a command has at most."""
    octets = peak(command)
    return "" if octets is None else f"{octets / 1e6:10.1f} MB at most"


def show_comments(program: Path, folder: Path) -> None:
    """A dictionary of as many lines as are read, all of them comments."""
    comments = placed(folder, "dictionary.comments", "# a comment\n" * COMMENTS)
    command = Command([program, "check", comments])
    taken = in_turn({"check": lambda: used(command).whole}, ROUNDS)
    print(f"A check of {COMMENTS:,} lines of comments{1e3 * taken['check']:10.2f} ms{held(command)}")


def show_load(program: Path, dictionaries: Set, folder: Path, client: Optional[str], peer: Optional[Path]) -> None:
    """Whole calls of the program by a set, beside a start of radclient, which reads the server's set and fails on its
    input, and beside the library."""
    policy = placed(folder, "policy", POLICY)
    commands = {
        "check": Command([program, "check", *dictionaries.files]),
        "run": Command([program, "run", "--policy", policy, *dictionaries.files], REQUEST),
    }
    if client:
        start = [client, "-x", "-D", dictionaries.folder, "127.0.0.1:9", "auth", "s"]
        commands["radclient's start"] = Command(start, b"Nosuch-Name = 1\n", 1)
    if peer:
        commands["libfreeradius's load"] = Command([peer, "load", dictionaries.folder])
    works = {name: lambda command=command: used(command).whole for name, command in commands.items()}
    taken = in_turn(works, ROUNDS)
    print(f"{dictionaries.name}, {len(dictionaries.files)} files")
    for name, seconds in taken.items():
        print(f"  {name:24}{1e3 * seconds:10.2f} ms{held(commands[name])}")
    for name in commands:
        if name not in ("check", "run"):
            print(f"  a run is {taken['run'] / taken[name]:.2f} times {name}")


def show_line(program: Path, dictionaries: Set, folder: Path, name: str) -> None:
    """What one more line costs to read and to run: the difference of two policies by their lines."""

    def seconds(count: int) -> float:
        policy = placed(folder, f"policy-{count}", POLICIES[name](count))
        return used(Command([program, "run", "--policy", policy, *dictionaries.files], REQUEST)).user

    try:
        taken = in_turn({count: lambda count=count: seconds(count) for count in (FEW, MANY)}, ROUNDS)
        print(f"  {name:44}{1e6 * (taken[MANY] - taken[FEW]) / (MANY - FEW):8.3f} us")
    except Refused as refused:
        print(f"  {name}: not measured, since the program answers {refused}")


def show_lines(program: Path, dictionaries: Set, folder: Path) -> None:
    print("One more line of a policy, read and run")
    for name in POLICIES:
        show_line(program, dictionaries, folder, name)
