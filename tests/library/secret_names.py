"""The module for a FreeRADIUS server hides the values that `radpolicy-walk` hides: of the names of the installed
dictionaries and of made ones, and of made texts."""
import importlib
import re
import sys
import types
from pathlib import Path
from random import Random
from typing import Any, Dict, Iterable, Iterator, List

from common.program import run
from common.report import Report
from common.subject import Subject, new_folder

DICTIONARIES = Path("/usr/share/freeradius")
SEED = 20_261_129
MADE = 1000
AT_ONCE = 1000
FIRST = 256  # numbers above those that are sent
WORDS = """password passwd passphrase Pass pwd PW secret Secrets key Keys PSK Dpsk pmk msk otp Token credentials cpw Ki
    KC1 challenge response digest CHAP CHAP2 Sim id Name Length Index usage Public private realm expiry Retry rekey user
    type bypass bootp monkey keypress secretary 2 1 HA1 Yubikey Counter tunnel a""".split()
SEPARATORS = ["-", "-", "_", ".", "", "2"]


def made_names(rng: Random) -> Iterator[str]:
    for _ in range(MADE):
        words = [rng.choice(WORDS) for _ in range(rng.randint(1, 4))]
        yield "".join(word + rng.choice(SEPARATORS) for word in words[:-1]) + words[-1]


def made_texts(rng: Random) -> Iterator[str]:
    for name in made_names(rng):
        before = rng.choice(["", "", "shell:", "ipsec:psk:", "a b", "x="])
        yield before + name + rng.choice(["=x", "= x", " =x", "=", "", ":x=y", "-x=psk"])


def installed_names() -> Iterator[str]:
    for path in sorted(DICTIONARIES.glob("dictionary*")):
        yield from re.findall(r"^ATTRIBUTE\s+([A-Za-z0-9_./-]+)\s", path.read_text(errors="replace"), re.M)


def module_of(root: Path) -> Any:
    """The module, as if a server had loaded it."""
    codes = ("OK", "NOOP", "UPDATED", "FAIL", "REJECT")
    server = types.ModuleType("radiusd")
    for code in codes:
        setattr(server, f"RLM_MODULE_{code}", code)
    sys.modules["radiusd"] = server
    sys.path.insert(0, str(root / "examples/freeradius"))
    try:
        return importlib.import_module("radpolicy_module")
    finally:
        sys.path.pop(0)


def walked(program: Path, dictionary: str, lines: List[str]) -> List[str]:
    """The lines of a request as a walk shows them."""
    with new_folder() as folder:
        request = "".join(f"{line}\n" for line in lines)
        files = {"dictionary": dictionary, "policy": "ok\n", "script": "quit\n", "request": request}
        for name, text in files.items():
            (folder / name).write_text(text)
        words = "--policy policy -f request --script script dictionary".split()
        ended = run([program, *words], folder)
    assert ended.status == 0, ended.errors.decode()
    shown = ended.output.decode().split("\nrequest\n")[1].split("\nreply\n")[0]
    return [line.strip() for line in shown.splitlines()]


def differences(module: Any, program: Path, dictionary: str, lines: List[str]) -> Iterator[str]:
    own = module.Dictionary([dictionary.encode()], ())
    for at in range(0, len(lines), AT_ONCE):
        part = lines[at:at + AT_ONCE]
        for line, shown in zip(part, walked(program, dictionary, part)):
            if own.shown(line) != shown:
                yield f"{line} is shown as {shown}, and by the module as {own.shown(line)}"


def spelled(names: Iterable[str]) -> Dict[str, str]:
    """Each name once, whatever the case of its letters."""
    return {name.lower(): name for name in names if not name.lower().startswith("attr-")}


def check(subject: Subject, report: Report) -> None:
    rng = Random(SEED)
    module, program = module_of(subject.root), subject.driver("radpolicy_walk")
    for title, found in (("made names", made_names(rng)), ("installed names", installed_names())):
        names = list(spelled(found).values())
        dictionary = "".join(f"ATTRIBUTE {name} {FIRST + at} string\n" for at, name in enumerate(names))
        lines = [f'{name} = "x"' for name in names]
        report.check(f"{len(names)} {title} hide in the module what they hide in a walk",
                     list(differences(module, program, dictionary, lines)))
    lines = [f'Filter-Id = "{text}"' for text in made_texts(rng)]
    report.check(f"{len(lines)} texts are hidden by the module where a walk hides them",
                 list(differences(module, program, "ATTRIBUTE Filter-Id 11 string\n", lines)))
