"""What `radpolicy-replay --no-secret` says of records at random: what it says by their secret, but for the digests."""
import re
from random import Random
from typing import Dict, Tuple

from common.program import Ended, run
from common.report import Report
from common.subject import Subject, new_folder
from fuzz import packets
from fuzz.vocabulary import DICTIONARY
from replays.captured import NAMES, captured_records
from replays.comparing import blocks
from replays.records import Place, records, without_rate

RECORDS = 400
COUNTS = re.compile(rb"(?:\d+ [a-z]+(?:, |\n))+(?:  \d+ by .*\n)*no secret: .*\n")
PACKET = re.compile(rb"[0-9a-fA-F]{40,}")
# Copies what is hidden to where it is seen.
HIDDEN = b"update control { Hidden-Octets := &Hidden-Octets }\n"


def command(place: Place, *options: str, policy: str = "policy") -> Ended:
    program = place.subject.driver("radpolicy_replay")
    words = [str(program), "--policy", policy, *options, str(DICTIONARY)]
    return without_rate(run(words, place.folder, (place.folder / "records").read_bytes()))


def with_other_digests(text: bytes) -> bytes:
    """The same records, each packet with another authenticator."""
    return re.sub(PACKET, lambda word: word[0][:8] + b"%02x" % (int(word[0][8:10], 16) ^ 1) + word[0][10:], text)


def check_answers(place: Place, report: Report) -> None:
    text = records(RECORDS)
    whole = place.replay(text)
    wanted = re.sub(rb"[0-9a-f]{40,}\n|\(secret\)\n", b"none\n", whole.output)
    (place.folder / "records").write_bytes(with_other_digests(text))
    said = command(place, "--no-secret")
    wrong = [f"{a!r}, not {b!r}" for a, b in zip(said.output.splitlines(), wanted.splitlines()) if a != b]
    report.check("replay: the same without a secret", wrong + ([] if said.status == 0 else [f"{said.status}"]))
    report.check("replay: it is said that there is no secret", [] if COUNTS.fullmatch(said.errors) else [f"{said}"])
    wrong = [] if b'"no_secret":true,' in command(place, "--no-secret", "--json").errors else ["not as JSON"]
    report.check("replay: the same as JSON", wrong)


def hidden_record(at: int) -> Tuple[bytes, bytes]:
    """A request with hidden octets at random, and what is told of it."""
    rng = Random(f"hidden {at}")
    octets = bytes(rng.randrange(256) for _ in range(16 * rng.choice([1, 2, 8])))
    packet = packets.packet(1, at % 256, bytes(16), packets.plain_attribute(190, octets))
    told = b"h%d ok -> ok\n  control\n  + Hidden-Octets = 0x%s\n" % (at, octets.hex().encode())
    return b"h%d %s\n" % (at, packet.hex().encode()), told


def check_hidden(place: Place, report: Report) -> None:
    (place.folder / "hidden").write_bytes(HIDDEN)
    made = [hidden_record(at) for at in range(100)]
    (place.folder / "records").write_bytes(b"".join(line for line, _ in made))
    said = command(place, "--no-secret", "--against", "nothing", "--show-secrets", policy="hidden")
    wrong = [] if said.output == b"".join(told for _, told in made) else [f"{said}"]
    report.check("replay: hidden values are octets", wrong)
    hidden = command(place, "--no-secret", "--against", "nothing", policy="hidden")
    report.check("replay: which are shown only if asked for", [] if b"0x" not in hidden.output else [f"{hidden}"])


def unchecked(lines: bytes, wanted: Dict[bytes, bytes]) -> Dict[bytes, bytes]:
    """What is to be said of captured replies whose digests are not checked."""
    for line in lines.splitlines():
        words = line.split()
        if wanted[words[0]].endswith(b" captured E45 wrong authenticator\n"):
            wanted[words[0]] = words[0] + b" " + NAMES[int(words[-1][:2], 16)] + b"\n"
    return wanted


def check_captured(place: Place, report: Report) -> None:
    lines, wanted = captured_records(place)
    wanted = unchecked(lines, wanted)
    (place.folder / "records").write_bytes(lines)
    said = blocks(command(place, "--no-secret", "--against", "captured", "--all", "--show-secrets").output)
    wrong = [f"{said.get(name)!r}, not {words!r}" for name, words in wanted.items() if said.get(name) != words]
    report.check("replay: captured replies without a secret", wrong)


def check_words(place: Place, report: Report) -> None:
    (place.folder / "records").write_bytes(b"")
    for words in (["-S", "secret"], ["--clients", "secret"]):
        said = command(place, "--no-secret", *words)
        is_right = said.status == 2 and b"E01" in said.errors
        report.check(f"replay: no secret and {words[0]}", [] if is_right else [f"{said}"])


def check_known(place: Place, report: Report) -> None:
    """Packets that --to-hex makes without a secret are answered by the program's own."""
    lines = b'User-Name = "bob"\nUser-Password = "hello"\n'
    program = place.subject.driver("radpolicy_replay")
    made = run([program, "--to-hex", "--no-secret", "--format", "records", str(DICTIONARY)], place.folder, lines)
    (place.folder / "known").write_bytes(b"radpolicy\n")
    (place.folder / "asking").write_bytes(b'if (&User-Password == "hello") { reject }\n')
    words = ["--policy", "asking", "-S", "known", str(DICTIONARY)]
    said = run([program, *words], place.folder, made.output)
    is_right = (made.status, said.status) == (0, 0) and said.output.startswith(b"1 reject stopped 03")
    report.check("replay: packets of --to-hex --no-secret", [] if is_right else [f"{made}, {said}"])


def check(subject: Subject, report: Report) -> None:
    with new_folder() as folder:
        place = Place(subject, folder)
        (folder / "nothing").write_bytes(b"ok\n")
        for part in (check_answers, check_hidden, check_captured, check_words, check_known):
            part(place, report)
