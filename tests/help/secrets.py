"""Help, warnings, stops and `radpolicy-lint` over policies and request lines with secrets in them, that are whole, cut off
or have a token changed: nothing of a secret is on standard error, or in what the linter prints. What is hidden has its
place at `(hidden)`."""
import re
import subprocess
import time
from pathlib import Path
from random import Random
from typing import Dict, Iterator, List, Sequence

from common.allowed import end_after
from common.report import Report
from common.secrets import Policy, dictionary, each_spelling, leaks, new_policy, request_lines
from common.subject import Subject, new_folder, on_all
from common.visible import RAW, raw_faults, write_names
from help.faulty_copies import policy_with_faults
from help.helping import environment
from help.secret_rows import DIGITS, ROWS, SECRET, Row, files_of

SEED = 65
POLICIES = 2000
SECONDS = 60.0
CHANGES = 40
SHARED = b"the shared secret of the client\n"
FORMATS = ["text", "gcc", "json"]
TOKEN = re.compile(r"\"(?:[^\"\\\n]|\\.)*\"|'(?:[^'\\\n]|\\.)*'|[-\w.:@]+|[=!<>+^:*~]+|\S")
# What a token may be changed into.
SIGNS = ["", "~", ",", "{", "}", "(", ")", "&", "=", ":=", "==", "=~ /", "x", "\"", "'", "%{", "[0]", "\n", "|| "]


def told(program: Path, folder: Path, words: Sequence[str]) -> "subprocess.CompletedProcess[bytes]":
    """A call that has help."""
    return subprocess.run(
        [str(program), *words], cwd=folder, stdin=subprocess.DEVNULL, stdout=subprocess.PIPE, stderr=subprocess.PIPE,
        env=environment("always"))


def ended(program: Path, folder: Path, words: Sequence[str]) -> "subprocess.CompletedProcess[bytes]":
    return told(program, folder, [*words, "dictionary"])


def shown(subject: Subject, folder: Path, words: Sequence[str]) -> bytes:
    """What a command of radpolicy shows on standard error."""
    return ended(subject.program, folder, words).stderr


def linted(subject: Subject, folder: Path, words: Sequence[str]) -> bytes:
    """What the linter shows."""
    found = ended(subject.driver("radpolicy_lint"), folder, words)
    return found.stdout + found.stderr


def all_shown(subject: Subject, folder: Path, kind: str) -> bytes:
    """What is shown of a folder's policy and request by the linter and by the commands that read them."""
    texts = [linted(subject, folder, ["--format", kind, "--policy", "policy", "-f", "request"])]
    texts.append(shown(subject, folder, ["check", "--policy", "policy"]))
    texts.append(shown(subject, folder, ["run", "-f", "request", "--policy", "policy"]))
    texts.append(shown(subject, folder, ["encode", "-f", "request", "-S", "shared"]))
    return b"".join(texts)


# ---- texts that are changed

def cut(rng: Random, text: str) -> str:
    return text[: rng.randrange(len(text))]


def with_token(rng: Random, text: str) -> str:
    """A text with one of its tokens changed."""
    found = rng.choice(list(TOKEN.finditer(text)))
    token = found.group()
    new = rng.choice([token[:-1], token[1:], token + token, f"{token} {token}", *SIGNS])
    return text[: found.start()] + new + text[found.end() :]


def broken(rng: Random, text: str) -> str:
    return rng.choice([cut, with_token, with_token])(rng, text)


def each_broken(text: str) -> Iterator[str]:
    """A text that is cut off before each of its tokens and in it, and without each of them, or with a part of it."""
    for found in TOKEN.finditer(text):
        start, end = found.span()
        for kept in (text[:start], text[: end - 1], text[:end]):
            yield kept
        for new in ("", "~", found.group()[:-1], found.group()[1:]):
            yield text[:start] + new + text[end:]


# ---- random policies

def filled(root: Path, name: str) -> Path:
    """A folder with a dictionary and a shared secret."""
    folder = root / name
    folder.mkdir()
    folder.joinpath("dictionary").write_text(dictionary())
    folder.joinpath("shared").write_bytes(SHARED)
    return folder


def faults_of(subject: Subject, folder: Path, policy: str, request: bytes, secrets: Sequence[bytes], kind: str) -> List[str]:
    folder.joinpath("policy").write_text(policy)
    folder.joinpath("request").write_bytes(request)
    output = all_shown(subject, folder, kind)
    return [f"{fault} of {policy!r} and {request!r}: {output.decode(errors='replace')}" for fault in leaks(output, secrets)]


def one_at_random(subject: Subject, folder: Path, number: int) -> List[str]:
    """What is wrong with what is shown of a random policy and request, one of which, both or none can be read."""
    rng = Random(f"{SEED} {number}")
    has_faults = number % 5 == 4
    policy, request = policy_with_faults(rng) if has_faults else new_policy(rng), request_lines(rng)
    text, lines = policy.text, request.octets
    if number % 4 and not has_faults:
        text = broken(rng, text)
    if number % 3 == 0:
        lines = broken(rng, lines.decode("latin-1")).encode("latin-1")
    secrets = [it.encode() for it in policy.secrets] + list(request.secrets)
    return [f"{it} ({number})" for it in faults_of(subject, folder, text, lines, secrets, rng.choice(FORMATS))]


def at_random(subject: Subject, root: Path, worker: int, until: float) -> List[List[str]]:
    folder, found = filled(root, f"random-{worker}"), []
    for number in range(worker, POLICIES, 4):
        if time.monotonic() > until:
            break
        found.append(one_at_random(subject, folder, number))
    return found


def of_spelling(subject: Subject, root: Path, number: int, template: str, policy: Policy) -> List[str]:
    """What is wrong with what `check` shows of a policy that is changed at tokens of the statement that has the secret."""
    folder, wrong = filled(root, f"spelling-{number}"), []
    lines = policy.text.splitlines(keepends=True)
    head, rest = "".join(lines[:3]), "".join(lines[3:])
    secrets = [it.encode() for it in policy.secrets]
    changed = sorted({head + it for it in each_broken(rest)})
    for text in Random(f"{SEED} {number}").sample(changed, min(CHANGES, len(changed))):
        folder.joinpath("policy").write_text(text)
        output = shown(subject, folder, ["check", "--policy", "policy"])
        wrong += [f"{template}: {fault} of {text!r}: {output.decode(errors='replace')}" for fault in leaks(output, secrets)]
    return wrong[:3]


def check_spellings(subject: Subject, report: Report, root: Path) -> None:
    given = list(enumerate(each_spelling(Random(SEED))))
    found = on_all(lambda it: of_spelling(subject, root, it[0], *it[1]), given)
    report.check(f"help for {len(given)} spellings of a secret, changed", [it for wrong in found for it in wrong])


# ---- rows, options and words

def place(folder: Path, files: Dict[str, str]) -> None:
    folder.mkdir()
    for name, text in files.items():
        folder.joinpath(name).write_text(text)


def row_differs(subject: Subject, root: Path, number: int, row: Row) -> List[str]:
    """What is wrong with what is shown of a row."""
    folder = root / f"row-{number}"
    place(folder, files_of(row))
    run = told(subject.program, folder, row.words.split())
    wrong = [] if run.stderr.startswith(row.wanted.encode()) else [f"{run.stderr.decode()}\nfor\n{row.wanted}"]
    wrong += [f"the secret is in {run.stderr!r}"] if SECRET.encode() in run.stderr or DIGITS.encode() in run.stderr else []
    return wrong


def check_rows(subject: Subject, report: Report, root: Path) -> None:
    for number, row in enumerate(ROWS):
        report.check(f"help hides: {row.name}", row_differs(subject, root, number, row))


# Policies of which the linter finds a further fault on the line of a value that is hidden.
LATER = [
    "update control {{\n\tCleartext-Password := p$a}}{s}\n}}\n",
    "update control {{ Cleartext-Password := a$b}}{s} }}\n",
    "if (&User-Password == $a){{{s}}}{s}\n",
]


def check_later_faults(subject: Subject, report: Report, root: Path) -> None:
    """What follows a secret value on its line is hidden in later faults too."""
    folder, wrong = filled(root, "later"), []
    for template in LATER:
        folder.joinpath("policy").write_text(template.format(s=SECRET))
        for kind in FORMATS:
            found = linted(subject, folder, ["--format", kind, "--policy", "policy"])
            wrong += [f"{kind}, {template!r}: {fault} of {found.decode()}" for fault in leaks(found, [SECRET.encode()])]
            wrong += [] if found.count(b"policy") > 1 else [f"{kind}, {template!r}: one fault alone: {found.decode()}"]
    report.check("lint hides in later faults", wrong)


def check_hide(subject: Subject, report: Report, root: Path) -> None:
    """What `--hide` names is hidden with its copies, and a name of no attribute is refused."""
    folder = filled(root, "hide")
    folder.joinpath("policy").write_text(
        'update reply { Reply-Message := &User-Name }\nif (&reply:Reply-Message == "not for all" x) { ok }\n')
    plain = linted(subject, folder, ["--policy", "policy"])
    found = linted(subject, folder, ["--policy", "policy", "--hide", "user-name", "--hide", "Class"])
    wrong = [] if b"not for all" in plain and b"not for all" not in found else [f"{plain!r}, {found!r}"]
    refused = ended(subject.driver("radpolicy_lint"), folder, ["--policy", "policy", "--hide", "User-\033Nam"])
    first = refused.stderr.split(b"\n")[0]
    if (refused.returncode, refused.stdout) != (2, b"") or not first.startswith(b"radpolicy-lint: E02 User-\\033Nam: "):
        wrong.append(f"{refused!r}")
    report.check("lint with --hide", wrong)


def check_words(subject: Subject, report: Report, root: Path) -> None:
    """Names of files have no control characters but in the first line of radpolicy."""
    folder, name = filled(root, "words"), "a\033[2J\u009b1m"
    folder.joinpath(name).write_text("x\n")
    wrong = []
    for words in ([f"{name}none"], ["--policy", name, "dictionary"], [name], ["--policy", f"{name}none", "dictionary"]):
        run = told(subject.driver("radpolicy_lint"), folder, words)
        shown_text = run.stdout + run.stderr
        if b"\033" in shown_text or "\u009b".encode() in shown_text or b"a\\033[2J\\302\\2331m" not in shown_text:
            wrong.append(f"{words}: {shown_text!r}")
    report.check("lint: words of the command line", wrong)


# Words of radpolicy, whose help tells of such a name.
TOLD = [
    ["check", RAW],
    ["check", f"broken/{RAW}"],
    ["check", "--policy", RAW, "dictionary"],
    ["run", "-f", RAW, "--policy", "ok", "dictionary"],
    ["step", "-f", "request", "--policy", "ok", "--script", RAW, "dictionary"],
    ["decode", "-f", RAW, "-S", "shared", "dictionary"],
    ["check", f"--{RAW}", "dictionary"],
    [RAW],
]


def check_own_words(subject: Subject, report: Report, root: Path) -> None:
    """The help of radpolicy, which follows its first line, has no control characters of words and files."""
    folder, wrong = filled(root, "own-words"), []
    write_names(folder)
    for name, text in (("ok", "ok\n"), ("request", 'User-Name = "shown"\n')):
        folder.joinpath(name).write_text(text)
    for words in TOLD:
        run = told(subject.program, folder, words)
        wrong += [f"{words}: {fault}" for fault in raw_faults(run.stderr.partition(b"\n")[2])]
    report.check("help: words of the command line, and files", wrong)


def check(subject: Subject, report: Report) -> None:
    with new_folder() as root:
        check_rows(subject, report, root)
        check_later_faults(subject, report, root)
        check_hide(subject, report, root)
        check_words(subject, report, root)
        check_own_words(subject, report, root)
        check_spellings(subject, report, root)
        until = end_after(SECONDS)
        found = [it for part in on_all(lambda worker: at_random(subject, root, worker, until), range(4)) for it in part]
        report.check(f"help and lint of {len(found)} random policies", [fault for faults in found for fault in faults])
