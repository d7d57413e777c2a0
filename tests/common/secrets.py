"""Policies, requests and packets with secrets in them, drawn at random, and where an output has a part of one.

A secret has at least RUN octets, and no output may have RUN of them one after the other: as text, in hexadecimal digits,
in base64, or escaped. Beside the secrets a policy has words that are none, and that what is shown of it must have."""
import base64
import html
import re
import struct
from dataclasses import dataclass, field
from functools import lru_cache
from pathlib import Path
from random import Random
from typing import Dict, Iterable, Iterator, List, NamedTuple, Optional, Tuple

from common.named_secrets import NAMES

RUN = 8
PART = 30
INSTALLED = Path("/usr/share/freeradius")
WIDER = "# profile: wider\n"
MARKS = {"encrypt=1", "encrypt=2", "encrypt=3", "secret"}
# Flags that make a type octets.
OCTETS_FLAGS = {"has_tag", "encrypt=2", "encrypt=3"}
ENDINGS = ("msk", "passphrase", "passwd", "password", "pmk", "psk", "secret")
# Octets of secrets that a policy spells: none that quotes, patterns, words or expansions spell otherwise.
PLAIN = "ABCDEFGHJKLMNPQRSTUVWXYZabcdefghijkmnopqrstuvwxyz23456789"
SHOWN = "shown"
NUMBER = re.compile("[0-9]+|0x[0-9a-f]+")
TWO_PARTS = re.compile("format=([0-9]),([0-9])")


class Vendor(NamedTuple):
    """A vendor of a dictionary, and how many octets its numbers and its lengths have."""

    number: int
    number_octets: int = 1
    length_octets: int = 1


class Attribute(NamedTuple):
    """An attribute of a dictionary: its name, its vendor if it has one, its own number, and its type."""

    name: str
    vendor: Optional[Vendor]
    number: int
    kind: str

    @property
    def is_sent(self) -> bool:
        """Whether packets have room for its number."""
        return self.number < 256 ** (self.vendor.number_octets if self.vendor else 1)


# ---- dictionaries

# Attributes that are no secret.
OTHERS = """ATTRIBUTE User-Name 1 string
ATTRIBUTE NAS-Identifier 32 string
ATTRIBUTE Filter-Id 11 string
ATTRIBUTE Class 25 octets
ATTRIBUTE Reply-Message 18 string
ATTRIBUTE Tmp-String-0 1820 string
ATTRIBUTE Tmp-String-1 1821 string
ATTRIBUTE Tmp-Octets-0 1830 octets
ATTRIBUTE Extended-Attribute-1 241 extended
ATTRIBUTE Extended-Attribute-5 245 long-extended
ATTRIBUTE Shown-Text 241.9 string
ATTRIBUTE Unread-Parts 238 tlv
"""
# An attribute of a type that is not read, and one that no dictionary has.
UNREAD, UNKNOWN = 238, 239
# Those that are secret where no dictionaries are installed.
OWN = """ATTRIBUTE User-Password 2 string encrypt=1
ATTRIBUTE CHAP-Password 3 octets
ATTRIBUTE Tunnel-Password 69 string has_tag,encrypt=2
ATTRIBUTE Cleartext-Password 1100 string
ATTRIBUTE Extended-Secret 241.7 string secret
VENDOR Example 32473
BEGIN-VENDOR Example
ATTRIBUTE Acme-Psk 1 string secret
ATTRIBUTE Acme-Password 2 octets
END-VENDOR Example
"""


def is_secret(name: str, flags: str) -> bool:
    """Whether a line of a dictionary is of an attribute that every program hides: it is marked, or its name tells."""
    return not MARKS.isdisjoint(flags.split(",")) or name.lower().endswith(ENDINGS) or name in NAMES


def secret_lines(text: str) -> Iterator[str]:
    """The lines of secret attributes of one file, each in its vendor's block."""
    vendor = ""
    for line in text.splitlines():
        words = line.split("#")[0].split()
        if words[:1] == ["BEGIN-VENDOR"]:
            vendor = words[1] if len(words) == 2 else "-"
        elif words[:1] == ["END-VENDOR"]:
            vendor = ""
        elif words[:1] == ["VENDOR"] and (len(words) == 3 or TWO_PARTS.fullmatch(words[3])):
            yield " ".join(words)
        elif words[:1] == ["ATTRIBUTE"] and 4 <= len(words) <= 5 and vendor != "-":
            flags = words[4] if len(words) == 5 else ""
            is_text_or_octets = words[3].split("[")[0] in ("string", "octets")
            if NUMBER.fullmatch(words[2]) and is_text_or_octets and is_secret(words[1], flags):
                block = (f"BEGIN-VENDOR {vendor}\n", f"\nEND-VENDOR {vendor}") if vendor else ("", "")
                yield f"{block[0]}{' '.join(words)}{block[1]}"


@lru_cache(maxsize=None)
def dictionary() -> str:
    """One small dictionary with all secret strings and octets of those that are installed, and a few that are none."""
    found: List[str] = []
    for path in sorted(INSTALLED.glob("dictionary*")):
        found += secret_lines(path.read_text(errors="replace"))
    vendors = {line.split()[1] for line in found if line.startswith("VENDOR ")}
    text, seen = OTHERS + OWN, set(re.findall(r"^ATTRIBUTE (\S+)", OTHERS + OWN, re.M))
    for line in found:
        name = re.search(r"ATTRIBUTE (\S+)", line)
        if name is None:
            text += line + "\n"
        elif name.group(1) not in seen and block_is_known(line, vendors):
            seen.add(name.group(1))
            text += line + "\n"
    return text


def block_is_known(line: str, vendors: Iterable[str]) -> bool:
    vendor = re.match(r"BEGIN-VENDOR (\S+)", line)
    return vendor is None or vendor.group(1) in vendors


@lru_cache(maxsize=None)
def attributes() -> Tuple[Attribute, ...]:
    """The secret attributes of the dictionary that are sent in an attribute of their own or of a vendor."""
    vendors: Dict[str, Vendor] = {}
    found, vendor = [], None
    for words in (line.split() for line in dictionary().splitlines()):
        if words[0] == "VENDOR":
            octets = TWO_PARTS.fullmatch("".join(words[3:]))
            vendors[words[1]] = Vendor(int(words[2], 0), *map(int, octets.groups() if octets else (1, 1)))
        elif words[0] == "BEGIN-VENDOR":
            vendor = vendors[words[1]]
        elif words[0] == "END-VENDOR":
            vendor = None
        elif is_secret(words[1], "".join(words[4:])) and NUMBER.fullmatch(words[2]):
            kind = words[3].split("[")[0] if OCTETS_FLAGS.isdisjoint("".join(words[4:]).split(",")) else "octets"
            found.append(Attribute(words[1], vendor, int(words[2], 0), kind))
    return tuple(found)


# ---- secrets and their spellings

def new_secret(rng: Random) -> str:
    """A secret that a policy spells in whatever way."""
    return "".join(rng.choice(PLAIN) for _ in range(rng.randint(RUN, RUN + 6)))


def octets_of(rng: Random) -> bytes:
    """A secret of any octets, of a packet or of request lines."""
    return bytes(rng.randrange(1, 256) for _ in range(rng.randint(RUN, 14)))


# Conditions by which a secret attribute {s} is compared with a secret {v}; {x} is the secret in hexadecimal digits.
CONDITIONS = [
    '&{s} == "{v}"', '{s} == "{v}"', "&{s} == '{v}'", "&{s} == {v}", '&{s}=="{v}"', '& {s} == "{v}"',
    '&{s} != "{v}"', '&{s} < "{v}"', '&{s} <= "{v}"', '&{s} > "{v}"', '&{s} >= "{v}"',
    '&request:{s} == "{v}"', 'control:{s} == "{v}"', '&reply:{s} != {v}', '!(&{s} == "{v}")', '!&{s} == "{v}"',
    '&User-Name && &{s} == "{v}"', '&{s} == "{v}" && &User-Name == "shown"', '(&User-Name || (&{s} == {v}))',
    '&User-Name == "shown" || !&{s} == \'{v}\' || &User-Name == "shown"',
    '&{s}\n== # a comment "\n"{v}"', '&{s} ==\n{v}', '"{v}"\n==\n"%{{{s}}}"',
    "&{s} =~ /{v}/", "&{s} !~ /{v}/i", "{s} =~/^{v}$/im", "&{s} =~ /a\\/{v}/", "&control:{s} =~ /[{v}]+{v}/m",
    '&{s} =~ /"#{v}/', '&User-Name =~ /^shown/ && &{s} =~ /{v}/',
    '"%{{{s}}}" == "{v}"', '"%{{{s}}}" != \'{v}\'', '"%{{{s}}}" == {v}', '"%{{request:{s}}}" >= "{v}"',
    '"%{{{s}}}" =~ /{v}/', '"%{{control:{s}}}" !~ /{v}/im', '"a%{{{s}}}" == "a{v}"', '"%{{{s}}}b" < \'{v}b\'',
    '"%{{User-Name}}%{{{s}}}" == "shown{v}"', '"%%%{{{s}}}" == "{v}"', '"\\"%{{{s}}}" == "\\"{v}"',
    '\'{v}\' == "%{{{s}}}"', '"{v}" == "%{{{s}}}"', '"{v}%{{User-Name}}" == "%{{{s}}}"',
    '\'{v}\' != {s}', '\'{v}\' == "%{{{s}}}-%{{User-Name}}"', '"{v}" == "%{{reply:{s}}}"',
    '&User-Name == "{v}%{{{s}}}"', '&User-Name != "%{{{s}}}{v}"', '&{s} == "{v}%{{User-Name}}"',
    '&{s} =~ /(.*)/ && "%{{1}}" == "{v}"', '&{s} =~ /(.)(.*)/ && "%{{2}}" =~ /{v}/', '"%{{0}}" == \'{v}\'',
    '&{s} =~ /./ && "{v}" == "%{{0}}"', '"%{{{s}}}" =~ /(.*)/ && "a%{{1}}" != "a{v}"', '\'{v}\' == "%{{9}}b"',
    '&Tmp-String-0 == "{v}"', '"%{{Tmp-String-0}}" == "{v}"', "&Tmp-String-0 =~ /{v}/",
    '&User-Name == "psk={v}"', "'shell:psk={v}' != \"%{{User-Name}}\"", '&User-Name == "\\160sk\\075{v}"',
]
OCTETS = [
    "&{s} == 0x{x}", "{s} != 0x{x}", '&{s} == "0x{x}"', "&{s} == '0x{x}'", '"%{{{s}}}" == "0x{x}"',
    '"0x{x}" == "%{{{s}}}"', '"%{{{s}}}" =~ /{x}/', "&{s} =~ /{x}/", '&Class == "0x{x}%{{{s}}}"', "&Class == 0x{k}",
    '"%{{Class}}" == "0x{k}"', '"%{{Class}}" =~ /^0x{k}/',
]
# Update lines that give a secret attribute, or another one together with it, a secret.
UPDATES = [
    '{s} := "{v}"', "{s} = '{v}'", "{s} += {v}", '&{s} := "{v}"', '& {s} ^= "{v}"', '{s}:="{v}"', '{s} -= "{v}"',
    '{s} == "{v}"', '{s} !* "{v}"', "{s} !* {v}", 'control:{s} := "{v}"', '&request:{s} += \'{v}\'', '{s} :=\n\t"{v}"',
    '{s}\n:= # a comment\n{v}', '{s} := "{v}%{{User-Name}}"', '{s} := "%{{User-Name}}{v}"', '{s} := "\\"{v}"',
    'Tmp-String-1 := "{v}%{{{s}}}"', 'Tmp-String-1 := "%{{control:{s}}}{v}"', 'Tmp-String-1 := "{v}%{{1}}"',
    'User-Name := "psk={v}"', 'User-Name := "a:\\160\\163\\153={v}"', "Filter-Id += 'shell:tunnel-password = {v}%{{User-Name}}'",
    'Tmp-String-0 := "{v}"', '{s} := "{v}" User-Name := "shown"', 'User-Name := "shown" {s} := {v} User-Name := shown',
]
OCTETS_UPDATES = ["{s} := 0x{x}", '{s} += "0x{x}"', "{s} !* 0x{x}", "control:{s} -= '0x{x}'",
                  'Tmp-Octets-0 := "0x{x}%{{{s}}}"', "Tmp-Octets-0 := 0x{k}", 'Class += "0x{k}"']
# What a policy has beside them, so that there are copies and captures of each secret attribute.
COPIES = ["Tmp-String-0 := &{s}", 'Tmp-String-0 := "%{{{s}}}"', 'Tmp-String-0 += "a %{{{s}}}"']
OCTETS_COPIES = ["Tmp-Octets-0 := &{s}", 'Tmp-String-0 := "%{{{s}}}"']


def filled(rng: Random, template: str, attribute: Attribute) -> Tuple[str, str]:
    """A template with the attribute's name, and a new secret, if the template has one: as it is, in hexadecimal digits, or
    with a key before it in such digits."""
    secret = new_secret(rng)
    digits, keyed = secret.encode().hex(), f"psk={secret}".encode().hex()
    has_secret = any(it in template for it in ("{v}", "{x}", "{k}"))
    return template.format(s=attribute.name, v=secret, x=digits, k=keyed), secret if has_secret else ""


@dataclass
class Policy:
    """A policy, the secrets in it, and how often it has to show the word that is none."""

    text: str = ""
    secrets: List[str] = field(default_factory=list)
    shown: int = 0

    def fill(self, rng: Random, template: str, attribute: Attribute) -> str:
        """A template with the attribute's name and a new secret."""
        text, secret = filled(rng, template, attribute)
        self.secrets += [secret] if secret else []
        self.shown += len(re.findall(r"\bshown\b(?!\{)", template.replace("shown{v}", "")))
        return text


def is_text(attribute: Attribute) -> bool:
    return attribute.kind == "string"


def condition_of(rng: Random, policy: Policy, attribute: Attribute, template: str) -> str:
    return f"if ({policy.fill(rng, template, attribute)}) {{ ok }}\n"


def update_of(rng: Random, policy: Policy, attribute: Attribute, template: str) -> str:
    name = rng.choice(["", "control ", "reply ", "request "])
    return f"update {name}{{ {policy.fill(rng, template, attribute)} }}\n"


def flow_of(rng: Random, policy: Policy, attribute: Attribute) -> str:
    """A copy of a secret attribute, and a capture of it."""
    copies = COPIES if is_text(attribute) else OCTETS_COPIES
    copied = update_of(rng, policy, attribute, rng.choice(copies))
    return copied + f'if ("%{{{attribute.name}}}" =~ /(.)(.*)/) {{ update control {{ Tmp-String-0 := "%{{1}}" }} }}\n'


def templates_of(attribute: Attribute) -> Tuple[List[str], List[str]]:
    """The conditions and the update lines of attributes of its type."""
    return (CONDITIONS, UPDATES) if is_text(attribute) else (OCTETS, OCTETS_UPDATES)


def statement(rng: Random, policy: Policy, depth: int) -> str:
    """A statement with a secret in it, or one that has statements in it."""
    attribute = rng.choice(attributes())
    conditions, updates = templates_of(attribute)
    drawn = rng.random()
    if depth and drawn < 0.15:
        return f"transaction {{\n{statements(rng, policy, depth - 1)}}}\n"
    if depth and drawn < 0.3:
        head = policy.fill(rng, rng.choice(conditions), attribute)
        policy.shown += 1
        body, other = statements(rng, policy, depth - 1), statements(rng, policy, depth - 1)
        return f'if ({head}) {{\n{body}}} elsif (&User-Name == "shown") {{\n{other}}} else {{ noop }}\n'
    if drawn < 0.65:
        return condition_of(rng, policy, attribute, rng.choice(conditions))
    return update_of(rng, policy, attribute, rng.choice(updates))


def statements(rng: Random, policy: Policy, depth: int) -> str:
    return "".join(statement(rng, policy, depth) for _ in range(rng.randint(1, 3)))


def new_policy(rng: Random) -> Policy:
    """A policy of the wider profile: copies and captures of a secret attribute, and statements with secrets in them."""
    policy = Policy()
    attribute = rng.choice([it for it in attributes() if is_text(it)])
    body = flow_of(rng, policy, attribute) + statements(rng, policy, 2)
    policy.shown += 2
    policy.text = f'{WIDER}{body}if (&User-Name == "shown") {{ update reply {{ Reply-Message := "shown" }} }}\n'
    return policy


def each_spelling(rng: Random) -> Iterator[Tuple[str, Policy]]:
    """A policy of each form of condition and update line, with its form."""
    text = next(it for it in attributes() if it.name == "User-Password")
    octets = next(it for it in attributes() if it.kind == "octets" and it.vendor is None)
    for attribute, (conditions, updates) in ((it, templates_of(it)) for it in (text, octets)):
        for template in conditions + updates:
            policy = Policy()
            made = condition_of if template in conditions else update_of
            body = flow_of(rng, policy, attribute) + made(rng, policy, attribute, template)
            policy.text = WIDER + body + 'if (&User-Name == "shown") { ok }\n'
            policy.shown += 1
            yield template, policy


# ---- requests and packets

@dataclass
class Request:
    """Request lines, or the octets of a packet, and the secrets in them."""

    octets: bytes
    secrets: List[bytes] = field(default_factory=list)


def quoted(octets: bytes) -> bytes:
    """Octets between double quotes, each of them escaped."""
    return b'"' + b"".join(b"\\%03o" % octet for octet in octets) + b'"'


def lines_of(rng: Random, those: Iterable[Attribute]) -> Request:
    """Lines with these attributes, and a text with a secret key in one that is no secret."""
    request = Request(b'User-Name = "shown"\n')
    for attribute in those:
        secret = octets_of(rng)
        request.secrets.append(secret)
        value = quoted(secret) if is_text(attribute) else b"0x" + secret.hex().encode()
        request.octets += attribute.name.encode() + b" = " + value + b"\n"
    request.secrets.append(octets_of(rng))
    request.octets += b'NAS-Identifier = "tunnel-password=' + quoted(request.secrets[-1])[1:] + b"\n"
    return request


def request_lines(rng: Random, count: int = 4) -> Request:
    """Lines with so many secret attributes."""
    return lines_of(rng, rng.sample(attributes(), min(count, len(attributes()))))


def each_attribute(rng: Random) -> Iterator[Request]:
    """Lines that have each secret attribute once, PART of them at a time."""
    for first in range(0, len(attributes()), PART):
        yield lines_of(rng, attributes()[first : first + PART])


def attribute_octets(kind: int, value: bytes) -> bytes:
    return bytes([kind, len(value) + 2]) + value


def sent(attribute: Attribute, value: bytes) -> bytes:
    """An attribute as it has to be in a packet, in its vendor's where it has one."""
    vendor = attribute.vendor
    if vendor is None:
        return attribute_octets(attribute.number, value)
    length = vendor.number_octets + vendor.length_octets + len(value)
    head = attribute.number.to_bytes(vendor.number_octets, "big")
    head += length.to_bytes(vendor.length_octets, "big") if vendor.length_octets else b""
    return attribute_octets(26, struct.pack(">I", vendor.number) + head + value)


def split_one(rng: Random, secret: bytes) -> bytes:
    """A vendor's attribute of the dictionary with a secret, as it has to be."""
    return sent(rng.choice([it for it in attributes() if it.vendor is not None and it.is_sent]), secret)


def unsplit(rng: Random, secret: bytes) -> bytes:
    """An attribute with a secret that can't be split into its parts, or that nobody describes."""
    vendor = rng.choice([it.vendor.number for it in attributes() if it.vendor is not None] + [24757, 40000])
    known = struct.pack(">I", vendor)
    return rng.choice([
        lambda: attribute_octets(26, known + bytes([1, len(secret) + 3]) + secret),
        lambda: attribute_octets(26, known + attribute_octets(1, secret) + b"\x00"),
        lambda: attribute_octets(26, known + secret),
        lambda: attribute_octets(26, secret),
        lambda: attribute_octets(241, b"\x1a" + known + b"\x01" + secret),
        lambda: attribute_octets(241, b"\x07" + secret),
        lambda: attribute_octets(245, b"\x07\x80" + secret),
        lambda: attribute_octets(245, b"\x1a\x80" + known + b"\x01" + secret),
        lambda: attribute_octets(246, b"\x07\x00" + secret) + attribute_octets(246, b"\x07\x80" + secret),
        lambda: attribute_octets(UNREAD, secret),
        lambda: attribute_octets(UNKNOWN, secret),
    ])()


def keyed(rng: Random, secret: bytes) -> bytes:
    """A text `key=value` in an attribute that is no secret."""
    key = rng.choice([b"psk=", b"shell:tunnel-password=", b"Pre-Shared-Key = ", b"a:b:secret="])
    return attribute_octets(18, key + secret)


def packet(rng: Random) -> Request:
    """An Access-Request with vendors' attributes that are split and such as aren't, and texts with secret keys."""
    body, secrets = attribute_octets(1, b"shown"), []
    for _ in range(rng.randint(2, 5)):
        secrets.append(octets_of(rng))
        body += rng.choice([split_one, unsplit, unsplit, keyed])(rng, secrets[-1])
    head = bytes([1, rng.randrange(256)]) + struct.pack(">H", 20 + len(body))
    return Request(head + bytes(rng.randrange(256) for _ in range(16)) + body, secrets)


# ---- what an output has of them

def from_octal(octets: bytes) -> bytes:
    r"""Octets with `\ooo` read as octets, and `\\` and `\"` as what they escape."""
    def read(found: "re.Match[bytes]") -> bytes:
        return bytes([int(found.group(1), 8)]) if found.group(1) else found.group(2)

    return re.sub(rb'\\(?:([0-3][0-7]{2})|([\\"]))', read, octets)


def from_json(octets: bytes) -> bytes:
    """Octets with the escapes of JSON strings read."""
    short = {b"n": b"\n", b"r": b"\r", b"t": b"\t", b"b": b"\b", b"f": b"\f"}

    def read(found: "re.Match[bytes]") -> bytes:
        if found.group(1):
            code = int(found.group(1), 16)
            return bytes([code]) if code < 256 else chr(code).encode("utf-8", "surrogatepass")
        return short.get(found.group(2), found.group(2))

    return re.sub(rb'\\(?:u([0-9a-fA-F]{4})|([nrtbf"\\/]))', read, octets)


def from_html(octets: bytes) -> bytes:
    """Octets with the names and numbers of characters in HTML read."""
    return html.unescape(octets.decode("latin-1")).encode("latin-1", "ignore")


def readings(output: bytes) -> List[bytes]:
    """An output as it is, and as it is read with the escapes of JSON, of HTML and of texts."""
    plain = [output, from_json(output), from_html(output)]
    plain.append(from_json(plain[2]))
    return plain + [from_octal(it) for it in plain]


def coded(run: bytes) -> Iterator[bytes]:
    """A run of octets in base64, at each of three offsets, without the digits that other octets have a part in."""
    for place in range(3):
        digits = base64.b64encode(b"\0" * place + run)
        yield digits[(8 * place + 5) // 6 : 8 * (place + len(run)) // 6]


def leaks(output: bytes, secrets: Iterable[bytes]) -> List[str]:
    """Where an output has RUN octets of a secret, in whatever spelling."""
    texts, digits = readings(output), output.lower()
    found = []
    for secret in secrets:
        for place in range(len(secret) - RUN + 1):
            run = secret[place : place + RUN]
            where = ["text"] if any(run in it for it in texts) else []
            where += ["hexadecimal digits"] if run.hex().encode() in digits else []
            where += ["base64"] if any(it in output for it in coded(run)) else []
            found += [f"{run!r} of {secret!r} is in the output as {it}" for it in where]
    return found
