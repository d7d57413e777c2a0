"""What `radpolicy-replay --against captured` says of replies: those of the program itself, changed as one knows."""
import re
from random import Random
from typing import Dict, List, Tuple

from common.report import Report
from common.subject import Subject, new_folder
from fuzz import packets
from replays.comparing import blocks
from replays.records import SECRET, Place, records

RECORDS = 400
NAMES = {2: b"Access-Accept", 3: b"Access-Reject", 5: b"Accounting-Response"}
CLASS, PROXY_STATE = packets.plain_attribute(25, b"\x01"), packets.plain_attribute(33, b"\xaa")
COUNTS = re.compile(
    rb"(\d+) read, (\d+) same, (\d+) different, (\d+) unanswered, (\d+) challenged, (\d+) refused\n(?:  \d+ (?:by|records:) .*\n)*"
)
HIDDEN = b"update reply { Class := 0x01 }\nupdate reply { Hidden-Octets := 0x0102 }\n"
KINDS = ["same", "proxied", "other", "alone", "challenge", "digest", "identifier"]


def reply(request: bytes, code: int, identifier: int, attributes: bytes) -> bytes:
    """A reply to a request (RFC 2865, section 3)."""
    head = bytes([code, identifier]) + (20 + len(attributes)).to_bytes(2, "big")
    return head + packets.digest(head, request[4:20], attributes, SECRET) + attributes


def captured(kind: str, request: bytes, sent: bytes) -> Tuple[bytes, bytes]:
    """The word of a captured reply of a kind, made of the one that is sent, and what is to be said of it."""
    name, attributes = NAMES[sent[0]], sent[20:]
    unsigned = b"\x50\x12" not in attributes
    if kind == "alone":
        return b"", b"unanswered\n"
    if kind == "digest":
        return (sent[:19] + bytes([sent[19] ^ 1]) + attributes).hex().encode(), b"captured E45 wrong authenticator\n"
    if kind == "same" or not unsigned:
        return sent.hex().encode(), name + b"\n"
    if kind == "proxied":
        return reply(request, sent[0], sent[1], attributes + PROXY_STATE).hex().encode(), name + b"\n"
    if kind == "other":
        words = b"%s -> %s\n  reply\n  - Class = 0x01\n" % (name, name)
        return reply(request, sent[0], sent[1], attributes + CLASS).hex().encode(), words
    if kind == "challenge" and sent[0] != 5:
        return reply(request, 11, sent[1], b"").hex().encode(), b"Access-Challenge\n"
    other = sent[1] ^ 1 if kind == "identifier" else sent[1]
    code = sent[0] if kind == "identifier" else 2
    return reply(request, code, other, attributes).hex().encode(), b"captured reply to another request\n"


def joined(text: bytes, answers: Dict[bytes, bytes]) -> Tuple[bytes, Dict[bytes, bytes]]:
    """Records with captured replies, and what is to be said of each."""
    lines, wanted = [], {}
    for at, line in enumerate(filter(bytes.strip, text.splitlines())):
        words, rng = line.split(), Random(f"captured {at}")
        name, answer = words[0], answers[words[0]].split()
        packet = next((word for word in words if len(word) >= 40), b"")
        if re.fullmatch(rb"[0-9a-f]{40,}", answer[-1]):
            word, said = captured(rng.choice(KINDS), bytes.fromhex(packet.decode()), bytes.fromhex(answer[-1].decode()))
        elif answer[-1] == b"none":
            request = bytes.fromhex(packet.decode())
            word, said = reply(request, 5, request[1], b"").hex().encode(), b"Accounting-Response -> none\n"
        else:
            word, said = b"", b" ".join(answer[1:]) + b"\n"
        lines.append(line.rstrip() + b" " + word + b"\n")
        wanted[name] = name + b" " + said
    return b"".join(lines), wanted


def counts(wanted: Dict[bytes, bytes]) -> List[int]:
    """The counts of a summary, by what is to be said of each record."""
    said = list(wanted.values())
    different = sum(b" -> " in each.split(b"\n")[0] for each in said)
    unanswered = sum(each.endswith(b" unanswered\n") for each in said)
    challenged = sum(each.endswith(b" Access-Challenge\n") for each in said)
    refused = sum(bool(re.search(rb" E\d\d | captured ", each.split(b"\n")[0])) for each in said)
    same = len(said) - different - unanswered - challenged - refused
    return [len(said), same, different, unanswered, challenged, refused]


def captured_records(place: Place) -> Tuple[bytes, Dict[bytes, bytes]]:
    """Records with captured replies, by what the program answers, and what is to be said of each."""
    text = records(RECORDS)
    answers = {line.split()[0]: line for line in place.replay(text, ["--show-secrets"]).output.splitlines()}
    return joined(text, answers)


def check_captured(place: Place, report: Report) -> None:
    lines, wanted = captured_records(place)
    ended = place.replay(lines, ["--against", "captured", "--all", "--show-secrets"])
    said = blocks(ended.output)
    wrong = [f"{said.get(name)!r}, not {words!r}" for name, words in wanted.items() if said.get(name) != words]
    report.check("replay: each captured reply as it was made", wrong)
    found = [int(count) for count in COUNTS.fullmatch(ended.errors).groups()]
    wrong = [] if (found, ended.status) == (counts(wanted), 1) else [f"{found}, not {counts(wanted)}: {ended.status}"]
    report.check(f"replay: {found[2]} of {found[0]} captured replies differ", wrong)
    quiet = place.replay(lines, ["--against", "captured", "--show-secrets"])
    kept = b"".join(block for block in said.values() if b" -> " in block.split(b"\n")[0])
    report.check("replay: other replies alone are told", [] if quiet.output == kept else [f"{quiet.output!r}"])


def check_lists(place: Place, report: Report) -> None:
    """The list of a captured reply, of which a value is hidden."""
    line = records(1)
    digits = place.replay(line, ["--show-secrets"]).output.split()[-1]
    text = line.rstrip() + b" " + digits + b"\n"
    words = ["--against", "captured", "--all", "--show-replies"]
    for options, shown in (([], b"(hidden)"), (["--show-secrets"], b"0x0102")):
        ended = place.replay(text, [*words, *options])
        wanted = b"frame0 Access-Accept\n  captured\n    Class = 0x01\n    Hidden-Octets = %s\n" % shown
        report.check(f"replay: a captured list {' '.join(options)}", [] if ended.output == wanted else [f"{ended}"])
    lone = place.replay(text, place.options("--show-replies"))
    report.check("replay: lists of no captured replies", [] if lone.status == 2 else [f"{lone}"])


def check(subject: Subject, report: Report) -> None:
    with new_folder() as folder:
        check_captured(Place(subject, folder), report)
        check_lists(Place(subject, folder, "hidden", HIDDEN), report)
