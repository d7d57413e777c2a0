"""The attributes of the fuzzer's own dictionary, and values of them: octets, and texts that stand for them."""
import functools
from dataclasses import dataclass, field
from pathlib import Path
from random import Random
from typing import Dict, List, NamedTuple, Optional, Tuple

DICTIONARY = Path(__file__).with_name("dictionary")
INTERNAL = 256
NUMBERS = {"byte": 1, "short": 2, "integer": 4, "date": 4, "integer64": 8}
BARE = b"ABCDEFGHIJKLMNOPQRSTUVWXYZabcdefghijklmnopqrstuvwxyz0123456789-_./:@%$"


@dataclass(frozen=True)
class Attribute:
    """An attribute of the dictionary. Its place is a number; a vendor, its number and format; or an extended type."""

    name: str
    number: str
    kind: str
    hidden: bool
    vendor: Optional[Tuple[int, int, int]]
    values: Dict[int, str] = field(default_factory=dict, compare=False, hash=False)

    @property
    def is_internal(self) -> bool:
        return self.vendor is None and "." not in self.number and int(self.number) >= INTERNAL

    @property
    def most(self) -> int:
        """The most octets of a value that the generator makes."""
        if self.hidden:
            return 128
        if self.vendor:
            return 249 - self.vendor[1] - self.vendor[2]
        if self.number.startswith(("245", "246")) or self.is_internal:
            return 600
        return 252 if "." in self.number else 253


class Valued(NamedTuple):
    """An attribute, the octets of a value, and a text that stands for them."""

    attribute: Attribute
    octets: bytes
    text: bytes


@functools.lru_cache(None)
def attributes() -> Tuple[Attribute, ...]:
    """Those of the dictionary, in its order."""
    found: Dict[str, Attribute] = {}
    vendors: Dict[str, Tuple[int, int, int]] = {}
    block: Optional[str] = None
    for keyword, name, *words in (line.split() for line in DICTIONARY.read_text().splitlines()):
        if keyword == "ATTRIBUTE":
            vendor = vendors[block] if block else None
            found[name] = Attribute(name, words[0], words[1], "encrypt=1" in words, vendor)
        elif keyword == "VALUE":
            found[name].values[int(words[1])] = words[0]
        elif keyword == "VENDOR":
            t, l = words[1].partition("=")[2].split(",") if len(words) > 1 else (1, 1)
            vendors[name] = (int(words[0]), int(t), int(l))
        else:
            block = name if keyword == "BEGIN-VENDOR" else None
    return tuple(found.values())


def some_octets(rng: Random, most: int) -> bytes:
    """Octets, mostly few, now and then as many as there may be."""
    count = rng.choice([0, 1, 2, 3, 5, 8, 15, 16, 17, most]) if rng.random() < 0.9 else rng.randint(0, most)
    drawn = BARE if rng.random() < 0.7 else bytes(range(256))
    return bytes(rng.choice(drawn) for _ in range(min(count, most)))


def quoted(rng: Random, octets: bytes) -> bytes:
    """Octets between double quotes, each as itself or escaped."""
    special = {10: b"\\n", 13: b"\\r", 9: b"\\t", 34: b'\\"', 92: b"\\\\"}
    text = b""
    for octet in octets:
        plain = bytes([octet]) if 32 <= octet < 127 and octet not in special else b"\\%03o" % octet
        text += special.get(octet, plain) if rng.random() < 0.95 else b"\\%03o" % octet
    return b'"' + text + b'"'


def hexadecimal(octets: bytes) -> bytes:
    return b"0x" + octets.hex().encode()


def text_value(rng: Random, attribute: Attribute) -> Tuple[bytes, bytes]:
    """A string or octets: what is hidden does not end in NUL."""
    octets = some_octets(rng, attribute.most)
    octets = octets.rstrip(b"\0") if attribute.hidden else octets
    if attribute.kind == "octets":
        return octets, hexadecimal(octets)
    is_bare = octets and all(octet in BARE for octet in octets)
    return octets, octets if is_bare and rng.random() < 0.5 else quoted(rng, octets)


def number_value(rng: Random, attribute: Attribute) -> Tuple[bytes, bytes]:
    """A number of so many octets, as decimal or hexadecimal digits or by its name."""
    count = NUMBERS[attribute.kind]
    number = rng.choice([0, 1, 2, 255, 256**count - 1, rng.randrange(256**count)]) % 256**count
    texts = [b"%d" % number, b"0x%x" % number, attribute.values.get(number, str(number)).encode()]
    return number.to_bytes(count, "big"), rng.choice(texts)


def other_value(rng: Random, attribute: Attribute) -> Tuple[bytes, bytes]:
    """A signed number, an address or a station."""
    octets = bytes(rng.choice([0, 1, 127, 128, 255, rng.randrange(256)]) for _ in range(6))
    if attribute.kind == "signed":
        return octets[:4], b"%d" % int.from_bytes(octets[:4], "big", signed=True)
    if attribute.kind == "ipaddr":
        return octets[:4], b".".join(b"%d" % octet for octet in octets[:4])
    return octets, b":".join(b"%02x" % octet for octet in octets)


def value(rng: Random, attribute: Attribute) -> Valued:
    """A value of the attribute's type."""
    makers = {"string": text_value, "octets": text_value, **dict.fromkeys(NUMBERS, number_value)}
    return Valued(attribute, *makers.get(attribute.kind, other_value)(rng, attribute))


def values(rng: Random, count: int) -> List[Valued]:
    """Values of attributes drawn from all."""
    return [value(rng, rng.choice(attributes())) for _ in range(count)]
