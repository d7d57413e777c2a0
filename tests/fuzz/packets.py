"""Packets as the RFCs have them, written here once more with Python's own digests, beside what the program makes."""
import hashlib
from typing import Iterable

from fuzz.vocabulary import Attribute, Valued

ZEROS = bytes(16)
PIECE = 251
MORE = 0x80


def digest(*parts: bytes) -> bytes:
    return hashlib.md5(b"".join(parts)).digest()


def hidden(secret: bytes, authenticator: bytes, password: bytes) -> bytes:
    """A password in blocks of 16 octets, each hidden by the one before (RFC 2865, section 5.2)."""
    padded = password + bytes(-len(password) % 16 or (0 if password else 16))
    written, before = b"", authenticator
    for at in range(0, len(padded), 16):
        mask = digest(secret, before)
        before = bytes(plain ^ other for plain, other in zip(padded[at : at + 16], mask))
        written += before
    return written


def plain_attribute(number: int, octets: bytes) -> bytes:
    return bytes([number, 2 + len(octets)]) + octets


def vendor_attribute(attribute: Attribute, octets: bytes) -> bytes:
    """One vendor attribute in an attribute of its own (RFC 2865, section 5.26)."""
    vendor, t, l = attribute.vendor
    head = int(attribute.number).to_bytes(t, "big")
    if l:
        head += (t + l + len(octets)).to_bytes(l, "big")
    return plain_attribute(26, vendor.to_bytes(4, "big") + head + octets)


def extended_attribute(attribute: Attribute, octets: bytes) -> bytes:
    """An extended attribute, the long ones in pieces (RFC 6929, sections 2.1 and 2.2)."""
    number, extended = map(int, attribute.number.split("."))
    if number < 245:
        return plain_attribute(number, bytes([extended]) + octets)
    return b"".join(
        plain_attribute(number, bytes([extended, MORE if at + PIECE < len(octets) else 0]) + octets[at : at + PIECE])
        for at in range(0, len(octets), PIECE)
    )


def is_sent(valued: Valued) -> bool:
    return not valued.attribute.is_internal and (bool(valued.octets) or valued.attribute.hidden)


def attribute_octets(secret: bytes, authenticator: bytes, valued: Valued) -> bytes:
    """The octets of a pair in a packet, none where it is not sent."""
    attribute, octets = valued.attribute, valued.octets
    if not is_sent(valued):
        return b""
    if attribute.hidden:
        octets = hidden(secret, authenticator, octets)
    if attribute.vendor:
        return vendor_attribute(attribute, octets)
    if "." in attribute.number:
        return extended_attribute(attribute, octets)
    return plain_attribute(int(attribute.number), octets)


def list_octets(secret: bytes, authenticator: bytes, pairs: Iterable[Valued]) -> bytes:
    return b"".join(attribute_octets(secret, authenticator, valued) for valued in pairs)


def packet(code: int, identifier: int, authenticator: bytes, octets: bytes) -> bytes:
    return bytes([code, identifier]) + (20 + len(octets)).to_bytes(2, "big") + authenticator + octets


def accounting_request(secret: bytes, identifier: int, pairs: Iterable[Valued]) -> bytes:
    """An Accounting-Request, whose authenticator is a digest over the rest (RFC 2866, section 3)."""
    octets = list_octets(secret, ZEROS, pairs)
    return packet(4, identifier, digest(packet(4, identifier, ZEROS, octets), secret), octets)


def is_reply(reply: bytes, authenticator: bytes, secret: bytes) -> bool:
    """Whether the Response Authenticator is right (RFC 2865, section 3)."""
    return reply[4:20] == digest(reply[:4], authenticator, reply[20:], secret)
