"""What `radpolicy-replay` hides: secret values of requests, replies and policies, and the words of lines that it takes
for records."""
import struct
import time
from dataclasses import dataclass, field
from pathlib import Path
from random import Random
from typing import List, Sequence, Tuple

from common.allowed import end_after
from common import secrets
from common.program import Ended, run
from common.report import Report
from common.subject import Subject, new_folder, on_all
from common.visible import RAW, raw_faults
from fuzz.vocabulary import DICTIONARY
from replays.records import Place, records

# A packet without attributes, in digits.
PACKET = b"01070014" + b"00112233445566778899aabbccddeeff"
CASES = 250
RECORDS = 8
SECONDS = 60.0

# ---- policies, requests and replies at random

# Where a value of a secret attribute is copied to, so that it is in the reply.
COPIES = ['Reply-Message := "%{{{s}}}"', 'Filter-Id += "a %{{{s}}}"', "Filter-Id := &{s}", 'Class += "%{{{s}}}"']
OCTETS_COPIES = ["Class := &{s}", 'Reply-Message := "%{{{s}}}"']
# Of lines of packets, and of records of attribute lines.
HEX = ["--format", "hex", "--no-secret"]
TEXTS = ["--format", "records", "-S", "secret"]
CAPTURED = ["--against", "captured", "--all", "--show-replies"]
FORMS: List[List[str]] = [
    HEX,
    [*HEX, "--tap"],
    [*HEX, "--against", "old", "--all"],
    [*HEX, "--against", "old", "--all", "--tap"],
    [*HEX, "--against", "old", "--json"],
    [*HEX, *CAPTURED],
    [*HEX, *CAPTURED, "--tap"],
    [*HEX, *CAPTURED, "--json"],
    TEXTS,
    [*TEXTS, "--json"],
    [*TEXTS, "--against", "old"],
    [*TEXTS, "--against", "old", "--tap"],
    [*TEXTS, "--against", "old", "--all", "--json"],
]


@dataclass
class Case:
    """Two policies, the same requests as lines of packets and as attribute lines, and the secrets in all of them; and
    the names of the attributes that have them."""

    new: str = ""
    old: str = ""
    lines: bytes = b""
    texts: bytes = b""
    hidden: List[bytes] = field(default_factory=list)
    names: List[str] = field(default_factory=list)


def is_sent(attribute: secrets.Attribute) -> bool:
    """Whether it has a place of its own in a packet, and its value there is what it is."""
    return attribute.is_sent and attribute.name not in ("User-Password", "CHAP-Password", "Tunnel-Password")


def policy_of(rng: Random, case: Case, attributes: Sequence[secrets.Attribute]) -> str:
    """A policy that copies each of the attributes into the reply, beside statements with secrets in them."""
    policy = secrets.Policy()
    copies = ""
    for attribute in attributes:
        template = rng.choice(COPIES if secrets.is_text(attribute) else OCTETS_COPIES)
        copies += f"update reply {{ {template.format(s=attribute.name)} }}\n"
    # By the first of these, what the others compare and set beside temporary attributes is secret.
    copied = rng.choice([it for it in secrets.attributes() if secrets.is_text(it)])
    body = secrets.flow_of(rng, policy, copied) + secrets.statements(rng, policy, 2)
    case.hidden += [secret.encode() for secret in policy.secrets]
    return secrets.WIDER + (copies + body if rng.random() < 0.5 else body + copies)


def new_secret(rng: Random, case: Case) -> bytes:
    case.hidden.append(secrets.octets_of(rng))
    return case.hidden[-1]


def record(rng: Random, case: Case, attributes: Sequence[secrets.Attribute], number: int) -> bytes:
    """A line with a request and a reply that have these attributes, and some that are not split."""
    request, reply = secrets.attribute_octets(1, b"shown"), secrets.attribute_octets(27, b"\0\0\2\x58")
    for attribute in attributes:
        request += secrets.sent(attribute, new_secret(rng, case))
        reply += secrets.sent(attribute, new_secret(rng, case))
    request += secrets.unsplit(rng, new_secret(rng, case))
    reply += secrets.unsplit(rng, new_secret(rng, case))
    head = bytes([1, number]) + struct.pack(">H", 20 + len(request)) + bytes(rng.randrange(256) for _ in range(16))
    answer = bytes([2, number]) + struct.pack(">H", 20 + len(reply)) + bytes(16)
    return b"r%d %s %s\n" % (number, (head + request).hex().encode(), (answer + reply).hex().encode())


def text_record(rng: Random, case: Case, attributes: Sequence[secrets.Attribute]) -> bytes:
    """Attribute lines of a request with these attributes."""
    lines = b'User-Name = "shown"\n'
    for attribute in attributes:
        secret = new_secret(rng, case)
        value = secrets.quoted(secret) if secrets.is_text(attribute) else b"0x" + secret.hex().encode()
        lines += attribute.name.encode() + b" = " + value + b"\n"
    return lines + b"\n"


def new_case(number: int) -> Case:
    rng, case = Random(f"replay {number}"), Case()
    those = [it for it in secrets.attributes() if is_sent(it)]
    attributes = [those[(3 * number + at) % len(those)] for at in range(3)]
    case.new, case.old = (policy_of(rng, case, attributes) for _ in range(2))
    case.lines = b"".join(record(rng, case, attributes, at) for at in range(RECORDS))
    case.texts = b"".join(text_record(rng, case, attributes) for _ in range(RECORDS))
    case.names = [attribute.name for attribute in attributes]
    return case


class Drawn:
    """The folder of a case, and the program that answers its records."""

    def __init__(self, subject: Subject, folder: Path, case: Case) -> None:
        self.program, self.folder, self.case = subject.driver("radpolicy_replay"), folder, case
        for name, text in (("new", case.new), ("old", case.old), ("dictionary", secrets.dictionary())):
            (folder / name).write_text(text)
        (folder / "secret").write_bytes(b"testing123\n")

    def replay(self, options: Sequence[str]) -> Ended:
        stdin = self.case.lines if "hex" in options else self.case.texts
        shown = [word for name in self.case.names for word in ("--show", name)]
        return run([self.program, "--policy", "new", *shown, *options, "dictionary"], self.folder, stdin)


def is_answered(ended: Ended) -> bool:
    """Whether each record was."""
    return ended.status in (0, 1) and (b" 0 refused" in ended.errors or b'"refused":0' in ended.errors)


def earlier(drawn: Drawn, number: int) -> Tuple[str, Ended]:
    """What is said of an earlier output of a case, in one of the forms, that hid nothing: its first line is one of those
    with a secret."""
    rng = Random(f"earlier {number}")
    options = rng.choice(FORMS)
    output = drawn.replay([*options, "--show-secrets"]).output.splitlines(keepends=True)
    lines = rng.sample(output, len(output))
    first = next((it for it in lines if secrets.leaks(it, drawn.case.hidden)), b"none\n")
    (drawn.folder / "earlier").write_bytes(first)
    words = [*options, "--expect", "earlier"]
    return " ".join(words), drawn.replay(words)


def faults_of(subject: Subject, number: int) -> List[str]:
    """What a case's outputs have of its secrets."""
    with new_folder() as folder:
        drawn = Drawn(subject, folder, new_case(number))
        ended = {" ".join(options): drawn.replay(options) for options in FORMS}
        words, told = earlier(drawn, number)
        ended[words] = told
    said = {form: each.output + b"\n" + each.errors for form, each in ended.items()}
    found = [f"case {number}, {form}: {each}" for form, each in ended.items() if not is_answered(each)]
    found += [] if b"earlier:1: expected " in told.errors else [f"case {number}, {words}: nothing is said of it"]
    if secrets.leaks(b"\n".join(said.values()), drawn.case.hidden):
        for form, text in said.items():
            found += [f"case {number}, {form}: {leak}" for leak in secrets.leaks(text, drawn.case.hidden)]
    return found


def check_random(subject: Subject, report: Report) -> None:
    """2,000 requests, and as many as attribute lines, of 250 pairs of policies, in each form; as many as there is time."""
    until = end_after(SECONDS)
    numbers = range(CASES)
    tried = on_all(lambda number: faults_of(subject, number) if time.monotonic() < until else None, numbers)
    faults = [fault for found in tried if found is not None for fault in found]
    count = RECORDS * sum(found is not None for found in tried)
    report.check(f"replay: no secret of {count} requests and their policies is shown", faults)


def check_shown(subject: Subject, report: Report) -> None:
    """The same cases have secrets in what --show-secrets prints, and some in lines of policies on standard error, so that
    they could be found."""
    def found(number: int) -> Tuple[bool, bool]:
        with new_folder() as folder:
            drawn = Drawn(subject, folder, new_case(number))
            ended = [drawn.replay([*options, "--show-secrets"]) for options in FORMS]
            output, errors = (b"\n".join(part) for part in ([it.output for it in ended], [it.errors for it in ended]))
            return bool(secrets.leaks(output, drawn.case.hidden)), bool(secrets.leaks(errors, drawn.case.hidden))

    outputs, errors = zip(*map(found, range(8)))
    wrong = [] if all(outputs) and any(errors) else [f"{outputs}, {errors}"]
    report.check("replay: --show-secrets shows them", wrong)


# ---- copies, lines of policies and --hide

COPY = b'update reply { Reply-Message := "%{Hidden-Text}" }\n'
LITERAL = b'update control { Hidden-Text := "hunter2" }\n'
OTHER = b"update reply { Reply-Message := hello }\n"
REQUEST = b'Hidden-Text = "hunter2"\nNAS-Port = 3\n'
ALL = ["--all"]
# Two policies, options, and what the output or standard error has.
ROWS: List[Tuple[str, bytes, bytes, List[str], bytes]] = [
    ("a copied secret is in no reply", COPY, b"ok\n", [], b"1 ok (secret)\n"),
    ("nor in one as JSON", COPY, b"ok\n", ["--json"], b'"reply":"(secret)"'),
    ("nor in a test", COPY, b"ok\n", ["--tap"], b"# 1 ok (secret)\n"),
    ("what --show prints is hidden", OTHER, b"ok\n", ["--show", "Hidden-Text"], b"1 [Hidden-Text = (hidden)] ok "),
    ("and as JSON", OTHER, b"ok\n", ["--show", "Hidden-Text", "--json"], b'"request":["Hidden-Text = (hidden)"]'),
    ("it is no difference's", COPY, b"ok\n", ["--against", "old"], b"  + Reply-Message = (hidden)\n"),
    ("nor one as JSON", COPY, b"ok\n", ["--against", "old", "--json"], b'["+ Reply-Message = (hidden)"]'),
    ("the old policy's copy is hidden", b"ok\n", COPY, ["--against", "old"], b"  - Reply-Message = (hidden)\n"),
    ("and what the new one has there", OTHER, COPY, ["--against", "old"], b"  + Reply-Message = (hidden)\n"),
    ("what no policy copies is shown", OTHER, b"ok\n", ["--against", "old"], b'  + Reply-Message = "hello"\n'),
    ("a policy's line is shown without it", LITERAL, b"ok\n", ["--against", "old"],
     b"  1 by new:1: update control { Hidden-Text := (hidden) }\n"),
    ("and the old policy's", b"ok\n", LITERAL, ["--against", "old"],
     b"  1 by old:1: update control { Hidden-Text := (hidden) }\n"),
    ("and one as JSON", LITERAL, b"ok\n", ["--against", "old", "--json"],
     b'"text":"update control { Hidden-Text := (hidden) }"'),
    ("--hide hides an attribute", OTHER, b"ok\n", ["--against", "old", "--hide", "reply-message"],
     b"  + Reply-Message = (hidden)\n"),
    ("and replies with it", OTHER, b"ok\n", ["--hide", "Class", "--hide", "Reply-Message"], b"1 ok (secret)\n"),
    ("and what is made of it", b'update reply { Reply-Message := "%{NAS-Port}" }\n', b"ok\n", ["--hide", "NAS-Port"],
     b"1 ok (secret)\n"),
    ("and what a line gives to it", OTHER, b"ok\n", ["--against", "old", "--hide", "Reply-Message"],
     b"  1 by new:1: update reply { Reply-Message := (hidden) }\n"),
    ("a name to hide that is unknown", OTHER, b"ok\n", ["--hide", "Reply-Mesage"],
     b"radpolicy-replay: E02 Reply-Mesage: option value: no attribute has the name Reply-Mesage: write Reply-Message\n"),
    ("a faulty old policy", b"ok\n", b"ok\nupdate reply {\n\tNosuch := 1\n}\n", ["--against", "old"],
     b"radpolicy-replay: old:3:2: E32 no attribute has the name Nosuch: give the dictionary file that has its ATTRIBUTE"
     b" line too, and write $INCLUDE and its name into dictionary\n"),
]


def check_rows(subject: Subject, report: Report) -> None:
    for name, new, old, options, wanted in ROWS:
        with new_folder() as folder:
            place = Place(subject, folder, "new", new)
            (folder / "old").write_bytes(old)
            (folder / "dictionary").write_bytes(DICTIONARY.read_bytes() + b"ATTRIBUTE Hidden-Text 191 string secret\n")
            command = [*place.command(["--format", "records", *options])[:-1], "dictionary"]
            ended = run(command, folder, REQUEST)
            said = ended.output + ended.errors
            is_right = wanted in said and b"hunter2" not in said
            is_right &= ended.status != 2 or said == wanted
            report.check(f"replay: {name}", [] if is_right else [f"{ended}, without {wanted!r}"])


def check_proxy_states(subject: Subject, report: Report) -> None:
    """A reply with those of its request, where they are hidden, and one without any."""
    text, policy = b"NAS-Port = 3\nProxy-State = 0x01\n\nNAS-Port = 3\n", b"if (&NAS-Port == 3) { %s }\n"
    wrong = []
    with new_folder() as folder:
        for word, result in ((b"ok", b"ok"), (b"fail", b"fail stopped")):
            place = Place(subject, folder, "policy", policy % word)
            for options, is_shown in (([], True), (["--hide", "Proxy-State"], False), (["--hide", "Class"], True)):
                lines = place.replay(text, ["--format", "records", *options]).output.splitlines()
                wanted = [b"210301" in lines[0] if is_shown else lines[0] == b"1 %s (secret)" % result, b"(secret)" not in lines[1]]
                wrong += [] if len(lines) == 2 and all(wanted) else [f"{result!r} {options}: {lines}"]
        key = b"Proxy-State = 0x" + b"psk=hunter2x9Qw".hex().encode() + b"\nNAS-Port = 3\n"
        for options in ([], ["--json"], ["--against", "captured", "--all", "--show-replies"]):
            ended = Place(subject, folder, "policy", b"ok\n").replay(key, ["--format", "records", *options])
            wrong += [f"{options}: {leak}" for leak in secrets.leaks(ended.output + ended.errors, [b"hunter2x9Qw"])]
            wrong += [] if b"(secret)" in ended.output or options[:1] == ["--against"] else [f"{options}: {ended}"]
    report.check("replay: a request's Proxy-States in a reply are hidden", wrong)


# ---- earlier outputs

# Of an earlier output its first line, a policy, options, and what is said of the line and of the one that is there now.
EARLIER: List[Tuple[str, bytes, bytes, List[str], bytes]] = [
    ("a reply", b"1 ok 0200001a0000000000000000000000000000000068756e74657232", COPY, [], b"expected (hidden) / now 1 ok (secret)"),
    ("a difference", b'1 ok -> ok\n  reply\n  - Reply-Message = "hunter2"', b"ok\n", ["--against", "old"],
     b"earlier:3: expected (hidden) / now   - Reply-Message = (hidden)"),
    ("a line of a record as JSON", b'{"record":"1","reply":"hunter2"}', COPY, ["--json"],
     b'expected (hidden) / now {"record":"1","verdict":"answered","result":"ok","stopped":false,"reply":"(secret)"}'),
    ("a secret attribute's line that is there no more", b'  - Hidden-Text = "hunter2"', b"ok\n", [],
     b"expected   - Hidden-Text = (hidden) / now 1 ok 02"),
    ("one below a test", b'#   - Hidden-Text = "hunter2"', b"ok\n", ["--tap"],
     b"expected #   - Hidden-Text = (hidden) / now TAP version 13"),
    ("a copy's line that is there no more", b'  - Reply-Message = "hunter2"', COPY, ["--against", "old"],
     b"expected   - Reply-Message = (hidden) / now (no line)"),
    ("another line", b"1 ok hello", b"ok\n", [], b"expected 1 ok hello / now 1 ok 02"),
    ("a line that is shown", b'1 ok "hunter2"', COPY, ["--show-secrets"], b'expected 1 ok "hunter2" / now 1 ok 02'),
]


def check_earlier(subject: Subject, report: Report) -> None:
    """What is said of an output that a version made which hid less."""
    wrong = []
    for name, line, policy, options, wanted in EARLIER:
        with new_folder() as folder:
            place = Place(subject, folder, "new", policy)
            (folder / "old").write_bytes(COPY)
            (folder / "earlier").write_bytes(line + b"\n")
            (folder / "dictionary").write_bytes(DICTIONARY.read_bytes() + b"ATTRIBUTE Hidden-Text 191 string secret\n")
            words = ["--format", "records", "--expect", "earlier", *options]
            ended = run([*place.command(words)[:-1], "dictionary"], folder, REQUEST)
            is_right = ended.status == 1 and wanted in ended.errors
            is_right &= "--show-secrets" in options or b"hunter2" not in ended.output + ended.errors
            wrong += [] if is_right else [f"{name}: {ended}, without {wanted!r}"]
    report.check("replay: no secret of an earlier output is shown", wrong)


# ---- names of records

# A line, and the words before what is said of it.
NAMES: List[Tuple[bytes, bytes]] = [
    (b'(0) User-Password = "hunter2"', b"1 E05 "),
    (b"no packet", b"1 E05 "),
    (b"hunter2 192.0.2.1", b"1 E05 "),
    (b"da39a3ee5e6b4b0d3255bfef95601890afd8070 hunter2", b"1 E05 "),
    (b"(0) sha1: " + PACKET, b"(0) ok "),
    (b"id " + PACKET, b"id ok "),
    (b"192.0.2.1 id hunter2 " + PACKET, b"id ok "),
    (b"id hunter2 192.0.2.1 " + PACKET, b"id ok "),
    (b'id User-Password="hunter2" src=2001:db8::1 ' + PACKET, b"id ok "),
    (b"id [hunter2] " + PACKET + b" hunter2", b"id ok "),
    (b"id /hunter2/ 'hunter2' " + PACKET, b"id ok "),
    (b"src=192.0.2.1 " + PACKET + b" hunter2", b"1 ok "),
    (b'User-Password="hunter2" ' + PACKET, b"1 ok "),
    (b"Cleartext-Password:=hunter2 " + PACKET, b"1 ok "),
    (b"192.0.2.1 'hunter2' id " + PACKET, b"1 ok "),
    (b"[hunter2] " + PACKET, b"1 ok "),
    (b"/hunter2/ " + PACKET, b"1 ok "),
    (b"a\x1b]0;b\xc2\x9bc " + PACKET, b"a\\033]0;b\\302\\233c ok "),
]


def check_names(subject: Subject, report: Report) -> None:
    with new_folder() as folder:
        place = Place(subject, folder)
        (folder / "policy").write_bytes(b"ok\n")
        wrong = []
        for line, wanted in NAMES:
            for options in ([], ["--json"], ["--tap"], ["--against", "policy", "--all"]):
                ended = place.replay(line + b"\n", ["--format", "hex", *options])
                is_right = options or ended.output.startswith(wanted)
                wrong += [] if is_right and b"hunter2" not in ended.output + ended.errors else [f"{line!r}: {ended}"]
        report.check("replay: a line's words are not printed, but for its name", wrong)


# ---- logs that are taken for lines of packets

LOG = b"""(0) Received Access-Request Id 8 from 127.0.0.1:50572 to 127.0.0.1:44873 length 49
(0)   User-Password = "hunter2"
(0) Login OK
"""
HASH = b"(0) sha1: da39a3ee5e6b4b0d3255bfef95601890afd80709\n"
SAID = b"--format log"


def check_logs(subject: Subject, report: Report) -> None:
    with new_folder() as folder:
        place = Place(subject, folder)
        texts: List[Tuple[bytes, List[str]]] = [
            (HASH + LOG, []),
            (HASH + LOG, ["--json"]),
            (LOG, ["--format", "hex"]),
            (LOG.replace(b"\n", b"\r\n") * 3000, ["--format", "hex"]),
            (b"x\n" * 40_000 + LOG.split(b"\n", 1)[1], []),
            (HASH + b"Wed Nov 25 10:00:00 2026 : Debug: " + LOG, []),
        ]
        wrong = []
        for text, options in texts:
            ended = place.replay(text, options)
            is_right = ended.errors.count(SAID) == 1 and b"hunter2" not in ended.output + ended.errors
            wrong += [] if is_right else [f"{text[:60]!r} {options}: {ended.status} {ended.errors!r}"]
        command = [word for word in place.command(["--to-hex"]) if word not in ("--policy", "policy")]
        ended = run(command, folder, HASH + LOG)
        wrong += [] if (ended.output, ended.errors.count(SAID)) == (HASH + LOG, 1) else [f"{ended}"]
        report.check("replay: a log that is taken for lines of packets", wrong)
        long_packet = b"(1) 01010" + PACKET * 10 + b"\n"
        others = [(records(300), []), (b"(1) " + PACKET + b"\n" + long_packet, []), (LOG, []), (b"", [])]
        wrong = []
        for text, options in others:
            ended = place.replay(text, options)
            wrong += [] if SAID not in ended.errors else [f"{text[:60]!r} {options}: {ended.errors!r}"]
        report.check("replay: what is none", wrong)


# ---- names that a line of packets would be misread by

RADCLIENT = b"""Sent Access-Request Id %s from 0.0.0.0:44875 to 127.0.0.1:1812 length 43
	NAS-Port = 3
Received Access-Accept Id %s from 127.0.0.1:1812 to 127.0.0.1:44875 length 20
"""
RADSNIFF = b"""2026-11-26 10:00:00.000000 (%s) Access-Request Id 8 eth0:127.0.0.1:44875 -> 127.0.0.1:1812 +0.000
	NAS-Port = 3
"""
LOGGED = b"""(%s) Received Access-Request Id 8 from 127.0.0.1:44875 to 127.0.0.1:1812 length 43
(%s)   NAS-Port = 3
"""
NUMBERS = [b"8", b"0" * 39, b"0" * 40, b"12345678" * 8]
IDENTIFIERS = [*NUMBERS, b"id", PACKET, b"192.0.2.9", b"2001:db8::9", b"::", b"src=192.0.2.9", b'psk="hunter2"', b"[bob/hunter2]"]
# What has one of these names no record.
OF_LOGS = set(b"='\"[/")


def check_misread(subject: Subject, report: Report) -> None:
    with new_folder() as folder:
        place = Place(subject, folder)
        wrong = []
        forms = (("radclient", RADCLIENT, IDENTIFIERS), ("radsniff", RADSNIFF, NUMBERS), ("log", LOGGED, NUMBERS))
        for form, text, identifiers in forms:
            for identifier in identifiers:
                given = text.replace(b"%s", identifier)
                command = place.command(["--to-hex", "--format", form])
                lines = run([word for word in command if word not in ("--policy", "policy")], folder, given)
                told = place.replay(given, ["--format", form])
                again = place.replay(lines.output, ["--format", "hex"])
                names = [ended.output.split(b" ")[0] for ended in (told, again)]
                is_right = told.output.split(b" ")[1:] == again.output.split(b" ")[1:] and told.output.count(b"\n") == 1
                wanted = b"1" if OF_LOGS & {*identifier} else identifier
                is_right &= names[0] == wanted and names[1] in (wanted, b"1")
                is_right &= b"192.0.2.9" not in lines.output
                wrong += [] if is_right else [f"{form} {identifier!r}: {lines}, {told}, {again}"]
        report.check("replay: what --to-hex makes of an identifier", wrong)


# ---- control characters

def check_visible(subject: Subject, report: Report) -> None:
    """No control character of a word, a path or a file gets to standard error."""
    with new_folder() as folder:
        place = Place(subject, folder, text=b"ok\n")
        (folder / RAW).write_bytes(b'update reply { Reply-Message := "x" } # \x1b]0;\xc2\x9b\n')
        (folder / "bad").write_bytes(b"nosuch\n")
        (folder / "clients").write_text(f'$INCLUDE "{RAW}-not-there"\nclient a {{ ipaddr = 192.0.2.1 secret = x }}\n')
        (folder / "broken").mkdir()
        (folder / "broken" / RAW).write_bytes(b"nosuch\n")
        program, secret = str(subject.driver("radpolicy_replay")), ["-S", "secret"]
        by, dictionary, answered = ["--policy", "policy"], str(DICTIONARY), b"id " + PACKET + b"\n"
        rows: List[List[str]] = [
            [*by, *secret, "--against", RAW, dictionary],
            [*by, *secret, "--against", RAW, "--json", dictionary],
            [*by, *secret, "--against", "policy", "--ignore", RAW, dictionary],
            [*by, *secret, "--hide", RAW, dictionary],
            [*by, *secret, "--expect", RAW, dictionary],
            [*by, "--clients", "clients", dictionary],
            [*by, "--clients", RAW + "-not-there", dictionary],
            [*by, "-S", RAW + "-not-there", dictionary],
            ["--policy", RAW + "-not-there", *secret, dictionary],
            [*by, *secret, RAW + "-not-there"],
            [*by, *secret, f"broken/{RAW}"],
            ["--to-hex", *secret, f"broken/{RAW}"],
        ]
        wrong = []
        for words in rows:
            ended = run([program, *words], folder, answered)
            wrong += [f"{words}: {fault}" for fault in raw_faults(ended.errors)]
        report.check("replay: no control character is shown", wrong)


def check(subject: Subject, report: Report) -> None:
    for part in (check_rows, check_proxy_states, check_earlier, check_names, check_logs, check_misread, check_visible, check_shown, check_random):
        part(subject, report)
