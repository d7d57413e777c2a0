"""Pages of policies with secrets in them, in each form of condition and update line and at random: no page has a part
of a secret, in whatever spelling, and each shows what is none."""
import json
import re
import subprocess
import time
from pathlib import Path
from random import Random
from typing import List, Sequence

from common.allowed import end_after
from common.program import run
from common.report import Report
from common.secrets import Policy, dictionary, each_attribute, each_spelling, leaks, new_policy, new_secret
from common.secrets import packet, request_lines
from common.subject import Subject, new_folder, on_all
from common.visible import RAW, call_faults, raw_faults

SEED = 65
POLICIES = 2000
SECONDS = 30.0
SHARED = b"the shared secret of the client\n"


def page_of(subject: Subject, folder: Path, words: Sequence[str]) -> "subprocess.CompletedProcess[bytes]":
    command = [str(subject.driver("radpolicy_page")), *words, "dictionary"]
    return subprocess.run(command, cwd=folder, stdout=subprocess.PIPE, stderr=subprocess.PIPE)


def run_of(page: bytes) -> bytes:
    """A page without its style and its script: the lists at the end, and the data of the run."""
    return re.sub(rb"<(style|script)>.*?</\1>", b"", page, flags=re.S)


def shown_of(page: bytes) -> int:
    """How often the policy's text in a page has the word that is no secret."""
    data = re.search(rb'\{"hidden":[^<]*\}', page)
    return len(re.findall(r"\bshown\b", json.loads(data.group())["policy"])) if data else 0


def faults_of(subject: Subject, folder: Path, policy: Policy, words: Sequence[str], more: Sequence[bytes]) -> List[str]:
    """What is wrong with the page of a policy and a request with more secrets."""
    ended = page_of(subject, folder, words)
    if ended.returncode != 0:
        return [f"{ended.stderr.decode()} of {policy.text}"]
    found = leaks(run_of(ended.stdout), [it.encode() for it in policy.secrets] + list(more))
    found += [] if shown_of(ended.stdout) >= policy.shown else ["what is no secret is hidden"]
    return [f"{fault}, of {policy.text}" for fault in found]


def place(folder: Path, policy: Policy, request: bytes) -> List[str]:
    """Writes a policy and a request, and gives the words for them."""
    folder.joinpath("policy").write_text(policy.text)
    folder.joinpath("request").write_bytes(request)
    return ["-f", "request", "--policy", "policy"]


def of_lines(subject: Subject, folder: Path, policy: Policy, rng: Random) -> List[str]:
    request = request_lines(rng)
    return faults_of(subject, folder, policy, place(folder, policy, request.octets), request.secrets)


def of_packet(subject: Subject, folder: Path, policy: Policy, rng: Random) -> List[str]:
    request = packet(rng)
    words = place(folder, policy, request.octets.hex().encode())
    return faults_of(subject, folder, policy, [*words, "--hex", "-S", "shared"], request.secrets)


def filled(root: Path, name: str) -> Path:
    """A folder with a dictionary and a shared secret."""
    folder = root / name
    folder.mkdir()
    folder.joinpath("dictionary").write_text(dictionary())
    folder.joinpath("shared").write_bytes(SHARED)
    return folder


def at_random(subject: Subject, root: Path, worker: int, until: float) -> List[List[str]]:
    """What is wrong with the pages of random policies, over lines and over packets, as many as there is time for."""
    folder, found = filled(root, f"random-{worker}"), []
    for number in range(worker, POLICIES, 4):
        if time.monotonic() > until:
            break
        rng = Random(f"{SEED} {number}")
        made = of_packet if number % 3 == 0 else of_lines
        found.append([f"{fault} ({number})" for fault in made(subject, folder, new_policy(rng), rng)])
    return found


def check_spellings(subject: Subject, report: Report, root: Path) -> None:
    rng, folder, wrong, hidden = Random(SEED), filled(root, "spellings"), [], 0
    for template, policy in each_spelling(rng):
        wrong += [f"{template}: {fault}" for fault in of_lines(subject, folder, policy, rng)]
        ended = page_of(subject, folder, ["-f", "request", "--policy", "policy", "--show-secrets"])
        hidden += bool(leaks(run_of(ended.stdout), [it.encode() for it in policy.secrets]))
    report.check("pages of each spelling of a secret", wrong)
    report.check("pages with --show-secrets", [] if hidden > 80 else [f"only {hidden} have the secret"])


def check_each(subject: Subject, report: Report, root: Path) -> None:
    rng, folder, wrong = Random(SEED), filled(root, "each"), []
    policy = Policy('if (&User-Name == "shown") { ok }\n', shown=1)
    for request in each_attribute(rng):
        words = place(folder, policy, request.octets)
        wrong += faults_of(subject, folder, policy, words, request.secrets)
    report.check("pages of each secret attribute", wrong)


def check_hide(subject: Subject, report: Report, root: Path) -> None:
    """An attribute that is named is hidden with its copies, and a name of none is refused."""
    folder, policy = filled(root, "hide"), Policy()
    policy.text = 'if (&User-Name == "not for all") { update reply { Filter-Id := &User-Name } }\n'
    words = place(folder, policy, b'User-Name = "not for all"\nNAS-Identifier = "shown"\n')
    page = run_of(page_of(subject, folder, [*words, "--hide", "user-name", "--hide", "Class"]).stdout)
    wrong = leaks(page, [b"not for all"])
    copies, others = page.count(b"Filter-Id = (hidden)"), page.count(b'NAS-Identifier = \\"shown')
    wrong += [] if copies == 2 and others == 1 else [f"it has {copies} copies, and {others} that are none"]
    refused = page_of(subject, folder, [*words, "--hide", "User-\033Nam"])
    first = refused.stderr.split(b"\n")[0]
    wrong += [] if refused.returncode == 2 and first.startswith(b"radpolicy-page: E02 User-\\033Nam: ") else [f"{first!r}"]
    report.check("pages with --hide", wrong)


# Statements over a request with `psk=` and a secret in an attribute that is none by itself.
KEYS = [
    "if (&Filter-Id =~ /^psk={v}$/) {{ ok }}",
    'if (&Filter-Id =~ /^psk=(.*)$/) {{ update reply {{ Reply-Message := "%{{1}}" }} }}',
    'if ("%{{Filter-Id}}" =~ /psk=(.+)/) {{ if ("%{{1}}" == "{v}") {{ ok }} }}',
    'update reply {{ Reply-Message := "got=%{{Filter-Id}}" }}',
    'update reply {{ Class := "ssid=guest,psk={v}" }}',
    # The same keys spelled otherwise: by escapes of either quote, and in hexadecimal digits, bare and quoted.
    'update reply {{ Class := "ssid=guest,p\\163k\\075{v}" }}',
    "if (&Filter-Id == 'psk=\\'{v}') {{ ok }}",
    "update reply {{ Class := 0x{hex} }}",
    'if (&Filter-Id == "0x{hex}") {{ ok }}',
    "update reply {{ Class := '0x{hex}' }}",
]


def check_keys(subject: Subject, report: Report, root: Path) -> None:
    """What stands behind a secret key is hidden, and so is what a pattern with such a key captures."""
    rng, folder, wrong = Random(SEED), filled(root, "keys"), []
    for template in KEYS:
        secret = new_secret(rng)
        statement = template.format(v=secret, hex=f"psk={secret}".encode().hex())
        policy = Policy(f"# profile: wider\n{statement}\n")
        words = place(folder, policy, f'Filter-Id = "psk={secret}"\n'.encode())
        wrong += faults_of(subject, folder, policy, words, [secret.encode()])
    report.check("pages of texts with secret keys", wrong)


def check_proxy_states(subject: Subject, report: Report, root: Path) -> None:
    """A Proxy-State with a secret key, which a reply has of its request whatever its policy does, and one without."""
    rng, folder = Random(SEED), filled(root, "proxies")
    folder.joinpath("dictionary").write_text(dictionary() + "ATTRIBUTE Proxy-State 33 octets\n")
    secret, wrong = new_secret(rng).encode(), []
    for value, is_hidden in ((b"psk=" + secret, True), (b"shown", False)):
        attribute = bytes([33, 2 + len(value)]) + value
        packet_octets = bytes([1, 1, 0, 20 + len(attribute), *bytes(16), *attribute])
        words = place(folder, Policy("ok\n"), packet_octets.hex().encode())
        page = run_of(page_of(subject, folder, [*words, "--hex", "-S", "shared"]).stdout)
        wrong += leaks(page, [secret]) if is_hidden else []
        wrong += [] if is_hidden == (attribute.hex().encode() not in page) else [f"{value!r}: {page!r}"]
    report.check("pages of Proxy-States with secret keys", wrong)


def check_words(subject: Subject, report: Report, root: Path) -> None:
    """No control character of a word or a file is shown."""
    folder = filled(root, "words")
    place(folder, Policy("ok\n"), b'User-Name = "shown"\n')
    program = subject.driver("radpolicy_page")
    wrong = call_faults(program, folder)
    for path in (f"{RAW}-not-there/page", RAW):
        ended = run([program, "-f", "request", "--policy", "policy", "-o", path, "dictionary"], folder)
        wrong += [f"-o {path}: {fault}" for fault in raw_faults(ended.errors)]
    report.check("pages: words with control characters", wrong)


def check(subject: Subject, report: Report) -> None:
    if not subject.driver("radpolicy_page").is_file():
        report.check("pages-secrets", ["radpolicy_page is not built"])
        return
    with new_folder() as root:
        check_spellings(subject, report, root)
        check_each(subject, report, root)
        check_hide(subject, report, root)
        check_keys(subject, report, root)
        check_proxy_states(subject, report, root)
        check_words(subject, report, root)
        until = end_after(SECONDS)
        found = [it for part in on_all(lambda worker: at_random(subject, root, worker, until), range(4)) for it in part]
        report.check(f"pages of {len(found)} random policies", [fault for faults in found for fault in faults])
