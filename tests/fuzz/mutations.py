"""Changes of cases: of octets, of lines, of tokens by what they are, of packets by their parts, and of words."""
import functools
import re
from dataclasses import replace
from random import Random
from typing import Callable, Dict, List, Sequence, Tuple

from common.cases import Case
from fuzz import generate
from fuzz.packets import ZEROS, digest

TOKEN = re.compile(
    rb'"(?:[^"\\\n]|\\.)*"|\'[^\'\n]*\'|0x[0-9A-Fa-f]+|[A-Za-z_][A-Za-z0-9_./:-]*'
    rb"|\d+(?:\.\d+)*|[ \t]+|\n|[^\sA-Za-z0-9]{1,2}"
)
NUMBERS = b"""0 1 -1 127 128 255 256 65535 65536 4294967295 4294967296 18446744073709551615 18446744073709551616
0x 0xff 00000000001 9999999999999999999999999999999999999999 241.1 26.9.1""".split()
SIGNS = b"""= := += -= == != ^= !* < <= > >= =~ { } ( ) ! && || & , # % %{ " ' \\ $ :""".split()
WORDS = b"""update if elsif else transaction ok noop updated fail reject request reply control ANY
ATTRIBUTE VALUE VENDOR BEGIN-VENDOR END-VENDOR BEGIN-TLV END-TLV $INCLUDE $INCLUDE- format=2,1 has_tag encrypt=1
string octets integer ipaddr ether signed Attr-26.9.1 Attr-241.1 Attr-26 Attr-2 Attr-1000 Class User-Name
User-Password NAS-Port forward back start end show""".split()
WORDS += [b"n" * 128, b"n" * 129]
OPTIONS = b"""-f --policy --script -S -i --hex --acct --authenticator --help -h -- - run step encode decode check nosuch
. 300 255 -i=-5 00000000000000000000000000000000 \xff -x""".split()
OPTIONS += [b""]
KINDS: List[Sequence[bytes]] = [NUMBERS, SIGNS, WORDS]

Change = Callable[[Random, bytes], bytes]


def between(rng: Random, octets: bytes) -> slice:
    """A part of the octets, mostly short."""
    at = rng.randint(0, len(octets))
    return slice(at, min(len(octets), at + rng.choice([0, 1, 1, 2, 4, 16, 200])))


def change_octet(rng: Random, octets: bytes) -> bytes:
    part = between(rng, octets)
    drawn = [0, 9, 10, 13, 32, 34, 35, 127, 255, rng.randrange(256)]
    new = bytes(rng.choice(drawn) for _ in range(rng.choice([1, 1, 3])))
    return octets[: part.start] + new + octets[part.start + rng.randint(0, len(new)) :]


def flip_bit(rng: Random, octets: bytes) -> bytes:
    if not octets:
        return octets
    at = rng.randrange(len(octets))
    return octets[:at] + bytes([octets[at] ^ 1 << rng.randrange(8)]) + octets[at + 1 :]


def drop_part(rng: Random, octets: bytes) -> bytes:
    part = between(rng, octets)
    return octets[: part.start] + octets[part.stop :]


def repeat_part(rng: Random, octets: bytes) -> bytes:
    part = between(rng, octets)
    return octets[: part.stop] + octets[part] * rng.choice([1, 2, 9, 300]) + octets[part.stop :]


def cut_off(rng: Random, octets: bytes) -> bytes:
    return octets[: rng.randint(0, len(octets))]


def change_lines(rng: Random, octets: bytes) -> bytes:
    """Lines swapped, repeated, dropped or joined."""
    lines = octets.split(b"\n")
    one, other = rng.randrange(len(lines)), rng.randrange(len(lines))
    drawn = rng.randrange(4)
    if drawn == 0:
        lines[one], lines[other] = lines[other], lines[one]
    elif drawn == 1:
        lines.insert(other, lines[one])
    elif drawn == 2:
        del lines[one]
    else:
        lines[one] += b" " + lines[other]
    return b"\n".join(lines)


# How often lines are repeated: as often as passes limits of depth and number.
REPEATED = [2, 17, 70, 600]


def repeat_lines(rng: Random, octets: bytes) -> bytes:
    """A few lines many times."""
    lines = octets.split(b"\n")
    at = rng.randrange(len(lines))
    some = lines[at : at + rng.choice([1, 1, 1, 2, 4])]
    return b"\n".join(lines[:at] + some * rng.choice(REPEATED) + lines[at:])


def change_token(rng: Random, octets: bytes, names: Sequence[bytes]) -> bytes:
    """A token becomes another of its kind, one of any kind, a name of the case, or one that stands elsewhere in the
    text."""
    tokens = TOKEN.findall(octets)
    solid = [at for at, token in enumerate(tokens) if token.strip()]
    if not solid:
        return octets + rng.choice(rng.choice(KINDS))
    at = rng.choice(solid)
    kind = NUMBERS if tokens[at][:1].isdigit() else names if tokens[at][:1].isalpha() else SIGNS
    new = rng.choice([rng.choice(kind), rng.choice(kind), rng.choice(rng.choice(KINDS)), tokens[rng.choice(solid)]])
    tokens[at] = rng.choice([new] * 6 + [new + b" " + tokens[at], tokens[at] + b" " + new, b""])
    return b"".join(tokens)


OCTETS: List[Change] = [change_octet, flip_bit, drop_part, repeat_part, cut_off]


def change_text(rng: Random, octets: bytes, names: Sequence[bytes]) -> bytes:
    """Mostly a token, else lines, and now and then octets."""
    drawn = rng.random()
    if drawn < 0.55:
        return change_token(rng, octets, names)
    if drawn < 0.65:
        return repeat_lines(rng, octets)
    return change_lines(rng, octets) if drawn < 0.85 else rng.choice(OCTETS)(rng, octets)


@functools.lru_cache(256)
def names_in(octets: bytes) -> Tuple[bytes, ...]:
    """The names in a text, once each and in order."""
    return tuple(sorted({token for token in TOKEN.findall(octets) if token[:1].isalpha()}))


def names_of(case: Case) -> List[bytes]:
    """What the case's files are called, and the names in its dictionaries."""
    texts = [case.files[name] for name, role in roles(case).items() if role == "dictionary"]
    return [*WORDS, *(name.encode() for name in case.files), *(name for octets in texts for name in names_in(octets))]


def attributes_of(octets: bytes) -> List[bytes]:
    """The attributes after a packet's head, the last one perhaps not whole."""
    parts, at = [], 20
    while at < len(octets):
        length = max(2, octets[at + 1]) if at + 1 < len(octets) else 1
        parts.append(octets[at : at + length])
        at += length
    return parts


def new_attribute(rng: Random) -> bytes:
    """An attribute of a type that has a form of its own, or of any."""
    drawn = [0, 1, 2, 5, 9, 0x80, 0xFF, rng.randrange(256)]
    body = bytes(rng.choice(drawn) for _ in range(rng.choice([0, 1, 2, 3, 4, 9, 16, 60])))
    number = rng.choice([1, 2, 26, 26, 33, 80, 241, 243, 245, 246, rng.randrange(256)])
    if number == 26 and rng.random() < 0.7:
        vendor = rng.choice([9, 60, 61])
        body = vendor.to_bytes(4, "big") + bytes([rng.choice([1, 2, 3]), 2 + len(body)]) + body
    return bytes([number, 2 + len(body)]) + body


def change_packet(rng: Random, text: bytes) -> bytes:
    """An attribute of a packet in digits dropped, added, repeated or changed, and mostly the Length made right; an
    Accounting-Request's authenticator cannot be, since the secret is not known here."""
    digits = b"".join(text.split())
    if len(digits) % 2 or not re.fullmatch(rb"[0-9A-Fa-f]{40,}", digits):
        return change_octet(rng, text)
    octets = bytes.fromhex(digits.decode())
    parts = attributes_of(octets)
    at = rng.randint(0, len(parts))
    drawn = rng.randrange(5)
    if drawn == 0 and parts:
        del parts[at - 1]
    elif drawn == 1 and parts:
        parts[at - 1] = flip_bit(rng, parts[at - 1])
    elif drawn == 2 and parts:
        parts.insert(at, rng.choice(parts))
    else:
        parts[at:at] = [new_attribute(rng) for _ in range(rng.choice([1, 2, 30]))]
    head = flip_bit(rng, octets[:20]) if rng.random() < 0.15 else octets[:20]
    whole = head + b"".join(parts)
    if rng.random() < 0.9:
        whole = whole[:2] + (len(whole) & 0xFFFF).to_bytes(2, "big") + whole[4:]
    return whole.hex().encode()


def roles(case: Case) -> Dict[str, str]:
    """What each file is: by the option before its name, or a dictionary."""
    options = {b"-f": "request", b"--policy": "policy", b"--script": "script", b"-S": "secret"}
    found = {}
    is_hex = b"--hex" in case.words or b"decode" in case.words
    for before, word in zip((b"", *case.words), case.words):
        name = word.decode("latin-1")
        if name in case.files:
            role = options.get(before, "dictionary")
            found[name] = "packet" if role == "request" and is_hex else role
    return found


def sign_accounting(case: Case, packet: bytes) -> bytes:
    """The packet in digits with the authenticator of an Accounting-Request, by the case's secret."""
    secret = next((case.files[name] for name, role in roles(case).items() if role == "secret"), b"s").split(b"\n")[0]
    octets = bytes.fromhex(packet.decode())
    octets = b"\x04" + octets[1:4] + digest(b"\x04" + octets[1:4], ZEROS, octets[20:], secret) + octets[20:]
    return octets.hex().encode()


# How often a file is changed, by what it is.
WEIGHTS = {"policy": 6, "request": 6, "packet": 6, "script": 3, "dictionary": 3, "secret": 1}


def change_file(rng: Random, case: Case, name: str, role: str) -> Case:
    octets = case.files[name]
    if role == "packet" and rng.random() < 0.8:
        octets = change_packet(rng, octets)
        if rng.random() < 0.2 and re.fullmatch(rb"(?:[0-9a-f]{2}){20,}", octets):
            octets = sign_accounting(case, octets)
    elif role == "policy" and rng.random() < 0.2:
        octets += b"\n" + "\n".join(generate.policy(rng)).encode("latin-1")
    else:
        octets = change_text(rng, octets, names_of(case))
    return case.with_file(name, octets)


def change_words(rng: Random, case: Case) -> Case:
    """A word dropped, repeated, moved, put in, or changed."""
    words = list(case.words)
    at = rng.randrange(len(words) + 1)
    drawn = rng.randrange(5)
    if drawn == 0 and words:
        del words[at - 1]
    elif drawn == 1 and words:
        words.insert(at, rng.choice(words))
    elif drawn == 2 and words:
        words.insert(at, words.pop(rng.randrange(len(words))))
    elif drawn == 3 and words:
        words[at - 1] = flip_bit(rng, words[at - 1]).replace(b"\0", b"0")
    else:
        words.insert(at, rng.choice(OPTIONS))
    return replace(case, words=tuple(words))


def changed(rng: Random, case: Case) -> Case:
    """The case with one to four changes, mostly of its files."""
    files = roles(case)
    for _ in range(rng.choice([1, 1, 1, 2, 2, 4])):
        if rng.random() < 0.12 or not files:
            case = change_words(rng, case)
        else:
            role = rng.choice([it for it in sorted(set(files.values())) for _ in range(WEIGHTS[it])])
            case = change_file(rng, case, rng.choice([it for it in files if files[it] == role]), role)
    return case
