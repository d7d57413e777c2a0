"""Walks through policies with secrets in them, in each form of condition and update line and at random: nothing that a
walk shows has a part of a secret, in whatever spelling, and it shows what is none."""
import time
from pathlib import Path
from random import Random
from typing import List, Sequence, Tuple

from common.allowed import end_after
from common.program import Ended, run
from common.report import Report
from common.secrets import Policy, Request, dictionary, each_attribute, each_spelling, leaks, new_policy, packet
from common.secrets import request_lines
from common.subject import Subject, new_folder, on_all
from common.visible import call_faults

SEED = 65
POLICIES = 2000
SECONDS = 30.0
WORKERS = 4
SHARED = b"the shared secret of the client\n"
ATTRIBUTES = ["Tmp-String-0", "Tmp-String-1", "Tmp-Octets-0", "Reply-Message", "User-Name", "User-Password"]
# All that is shown of places and of the policy's lines; a line that is no text on the way.
COMMANDS = b"\n".join(
    [b"list", b"trace", b"break 2", b"breaks", b"no\xff\xfetext"]
    + [b"forward\nwhy\nlist\nshow"] * 12
    + [b"end", b"why", b"list", b"set request User-Password = \"set anew by hand\"", b"end", b"trace"]
    + [f"{command} {name}".encode() for command in ("history", "print") for name in ATTRIBUTES]
    + [b"start", b"until fail", b"why", b"quit\n"])


def walk(subject: Subject, folder: Path, words: Sequence[str]) -> Ended:
    return run([subject.driver("radpolicy_walk"), *words, "--script", "script", "dictionary"], folder)


def place(folder: Path, policy: Policy, request: bytes) -> List[str]:
    """Writes a policy and a request, and gives the words for them."""
    folder.joinpath("policy").write_text(policy.text)
    folder.joinpath("request").write_bytes(request)
    return ["-f", "request", "--policy", "policy"]


def faults_of(subject: Subject, folder: Path, policy: Policy, words: Sequence[str], request: Request) -> List[str]:
    """What is wrong with a walk through a policy, over a request with more secrets."""
    ended = walk(subject, folder, words)
    if ended.status != 2:
        return [f"{ended.errors.decode()} of {policy.text}"]
    hidden = [it.encode() for it in policy.secrets] + request.secrets + [b"set anew by hand"]
    found = leaks(ended.output + ended.errors, hidden)
    found += [] if b"shown" in ended.output else ["what is no secret is hidden"]
    found += [] if b"the line is not UTF-8" in ended.errors else ["a line that is no text is not refused"]
    found += [] if ended.output.count(b"[0 of ") > 2 else ["the walk did not go on"]
    return [f"{fault}, of {policy.text}" for fault in found]


def of_lines(subject: Subject, folder: Path, policy: Policy, rng: Random) -> List[str]:
    request = request_lines(rng)
    return faults_of(subject, folder, policy, place(folder, policy, request.octets), request)


def of_packet(subject: Subject, folder: Path, policy: Policy, rng: Random) -> List[str]:
    request = packet(rng)
    words = place(folder, policy, request.octets.hex().encode())
    return faults_of(subject, folder, policy, [*words, "--hex", "-S", "shared"], request)


def filled(root: Path, name: str) -> Path:
    """A folder with a dictionary, a shared secret and the commands."""
    folder = root / name
    folder.mkdir()
    folder.joinpath("dictionary").write_text(dictionary())
    folder.joinpath("shared").write_bytes(SHARED)
    folder.joinpath("script").write_bytes(COMMANDS)
    return folder


def at_random(subject: Subject, root: Path, worker: int, until: float) -> List[List[str]]:
    """What is wrong with walks through random policies, over lines and over packets, as many as there is time for."""
    folder, found = filled(root, f"random-{worker}"), []
    for number in range(worker, POLICIES, WORKERS):
        if time.monotonic() > until:
            break
        rng = Random(f"{SEED} {number}")
        made = of_packet if number % 3 == 0 else of_lines
        found.append([f"{fault} ({number})" for fault in made(subject, folder, new_policy(rng), rng)])
    return found


def check_spellings(subject: Subject, report: Report, root: Path) -> None:
    rng, folder, wrong, hidden = Random(SEED), filled(root, "spellings"), [], 0
    for template, policy in each_spelling(rng):
        wrong += [f"{template}: {fault}" for fault in of_lines(subject, folder, policy, rng)]
        ended = walk(subject, folder, ["-f", "request", "--policy", "policy", "--show-secrets"])
        hidden += bool(leaks(ended.output, [it.encode() for it in policy.secrets]))
    report.check("walks of each spelling of a secret", wrong)
    report.check("walks with --show-secrets", [] if hidden > 80 else [f"only {hidden} have the secret"])


def check_each(subject: Subject, report: Report, root: Path) -> None:
    rng, folder, wrong = Random(SEED), filled(root, "each"), []
    policy = Policy('if (&User-Name == "shown") { ok }\n', shown=1)
    for request in each_attribute(rng):
        words = place(folder, policy, request.octets)
        wrong += faults_of(subject, folder, policy, words, request)
    report.check("walks of each secret attribute", wrong)


def check_hide(subject: Subject, report: Report, root: Path) -> None:
    """An attribute that is named is hidden with its copies, and a name of none is refused."""
    folder, policy = filled(root, "hide"), Policy()
    policy.text = 'if (&User-Name == "not for all") { update reply { Filter-Id := &User-Name } }\n'
    words = place(folder, policy, b'User-Name = "not for all"\nNAS-Identifier = "shown"\n')
    ended = walk(subject, folder, [*words, "--hide", "user-name", "--hide", "Class"])
    wrong = leaks(ended.output, [b"not for all"])
    wanted = [b"Filter-Id = (hidden)", b'NAS-Identifier = "shown"', b"&User-Name == (hidden)"]
    wrong += [f"{it!r} is not shown" for it in wanted if it not in ended.output]
    refused = walk(subject, folder, [*words, "--hide", "User-\033Nam"])
    first = refused.errors.split(b"\n")[0]
    wrong += [] if refused.status == 2 and first.startswith(b"radpolicy-walk: E02 User-\\033Nam: ") else [f"{first!r}"]
    report.check("walks with --hide", wrong)


def check_escapes(subject: Subject, report: Report, root: Path) -> None:
    """No word of a command gets to a terminal as it is."""
    folder, policy = filled(root, "escapes"), Policy("ok\n")
    words = place(folder, policy, b'User-Name = "shown"\n')
    folder.joinpath("script").write_bytes("\033[2J\nforward \x9b1m\nprint \x9b\033x\nshow \x07\n".encode() + b"\xff\n")
    ended = walk(subject, folder, words)
    wrong = [f"{octet:#x} is in {ended.errors!r}" for octet in b"\033\x07\xff" if octet in ended.errors]
    wrong += [f"a control character is in {ended.errors!r}"] if "\x9b".encode() in ended.errors else []
    wrong += [] if len(ended.errors.splitlines()) == 5 and ended.status == 2 else [f"{ended.errors!r}, {ended.status}"]
    report.check("commands with control characters", wrong)


def check_words(subject: Subject, report: Report, root: Path) -> None:
    """No control character of a word or a file is shown."""
    folder = filled(root, "words")
    place(folder, Policy("ok\n"), b'User-Name = "shown"\n')
    report.check("walks: words with control characters", call_faults(subject.driver("radpolicy_walk"), folder))


# A condition or a line, and whether `why` tells of Class below it.
NAMES: List[Tuple[str, bool]] = [
    ('if (&User-Password == "x Class y") { ok }', False),
    ("if (&User-Password == 'Class') { ok }", False),
    ("if (&User-Password == Class) { ok }", False),
    ("if (&User-Password =~ /Class/) { ok }", False),
    ("update control { User-Password := Class }", False),
    ('if (&User-Password == "x%{Class}y") { ok }', True),
    ('if ("%{Class}%{User-Password}" == "x") { ok }', True),
    ("if (&Class == 0x01) { ok }", True),
]


def check_names(subject: Subject, report: Report, root: Path) -> None:
    """Names that stand in what is hidden are not told; those of the attributes that a condition reads are."""
    folder, wrong = filled(root, "names"), []
    folder.joinpath("script").write_bytes(b"forward\nwhy\n")
    for line, is_told in NAMES:
        ended = walk(subject, folder, place(folder, Policy(f"# profile: wider\n{line}\n"), b'User-Name = "shown"\n'))
        is_right = ended.status == 0 and (b"Class" in ended.output.rpartition(b" line 2 ")[2]) == is_told
        wrong += [] if is_right else [f"{line}: {ended}"]
    report.check("names in hidden texts", wrong)


def check_complaints(subject: Subject, report: Report, root: Path) -> None:
    """A line that is no command is told without what is behind a `=`."""
    folder = filled(root, "complaints")
    fronts = [b"set ", b"", b"print ", b"forward ", b"set reply ", b"set request ", b"history "]
    lines = [front + b"User-Password=hunter2x" for front in fronts]
    folder.joinpath("script").write_bytes(b"\n".join([*lines, *(it + b" = x" for it in lines), b""]))
    ended = walk(subject, folder, place(folder, Policy("ok\n"), b'User-Name = "shown"\n'))
    wrong = [] if b'no list "User-Password"' in ended.errors else [f"{ended.errors!r}"]
    wrong += [f"{it!r}" for it in (ended.errors, ended.output) if b"hunter2x" in it]
    report.check("complaints of commands with secrets", wrong)


def check(subject: Subject, report: Report) -> None:
    if not subject.driver("radpolicy_walk").is_file():
        report.check("walks-secrets", ["radpolicy_walk is not built"])
        return
    with new_folder() as root:
        check_spellings(subject, report, root)
        check_each(subject, report, root)
        check_hide(subject, report, root)
        check_escapes(subject, report, root)
        check_words(subject, report, root)
        check_names(subject, report, root)
        check_complaints(subject, report, root)
        until = end_after(SECONDS)
        work = on_all(lambda worker: at_random(subject, root, worker, until), range(WORKERS))
        found = [faults for part in work for faults in part]
        report.check(f"walks of {len(found)} random policies", [fault for faults in found for fault in faults])
