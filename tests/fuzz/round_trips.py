"""Round trips at random: lines to a packet and to lines again, with Python's own packets beside them; and replies."""
import re
from pathlib import Path
from random import Random
from typing import List, NamedTuple, Optional

from common.program import Ended, run
from common.report import Report
from common.subject import Subject, new_folder, on_all
from fuzz import generate, packets
from fuzz.vocabulary import DICTIONARY, Valued, values

TRIPS = 250
MAX_OCTETS = 4096
TOO_LONG = b"radpolicy: E46: packet too long\n"


class Trip(NamedTuple):
    """A request of lines, how it is sent, and the policy that answers it."""

    pairs: List[Valued]
    lines: bytes
    policy: bytes
    secret: bytes
    authenticator: bytes
    identifier: int
    is_accounting: bool


def trip_of(number: int) -> Trip:
    """The trip of a number; the same whenever it is made."""
    rng = Random(f"trip {number}")
    pairs = values(rng, rng.choice([0, 1, 3, 8, 20, 40]))
    policy = "\n".join(generate.policy(rng)).encode("latin-1")
    secret = bytes(rng.randrange(33, 256) for _ in range(rng.choice([1, 9, 64, 65, 200])))
    authenticator = bytes(rng.randrange(256) for _ in range(16))
    return Trip(
        pairs, generate.request(rng, pairs), policy, secret, authenticator, rng.randrange(256), rng.random() < 0.4
    )


class Place:
    """A folder with the files of a trip, in which the program runs."""

    def __init__(self, subject: Subject, folder: Path, trip: Trip) -> None:
        self.subject, self.folder, self.trip = subject, folder, trip
        files = {"lines": trip.lines, "policy": trip.policy, "secret": trip.secret + b"\n"}
        for name, octets in files.items():
            (folder / name).write_bytes(octets)
        self.sending = ["--acct"] if trip.is_accounting else ["--authenticator", trip.authenticator.hex()]
        self.sending += ["-i", str(trip.identifier), "-S", "secret"]

    def run(self, *words: str) -> Ended:
        return run([self.subject.program, *words, DICTIONARY], self.folder)


def list_of(output: bytes, name: bytes) -> List[bytes]:
    """The lines of a list in a report."""
    lines = output.split(b"\n")
    after = lines[lines.index(name) + 1 :]
    return after[: next(at for at, line in enumerate(after) if not line.startswith(b"  "))]


def sent_packet(trip: Trip) -> bytes:
    """The packet of the trip's request."""
    if trip.is_accounting:
        return packets.accounting_request(trip.secret, trip.identifier, trip.pairs)
    octets = packets.list_octets(trip.secret, trip.authenticator, trip.pairs)
    return packets.packet(1, trip.identifier, trip.authenticator, octets)


def encoded_fault(place: Place, wanted: bytes) -> Optional[str]:
    """Lines become exactly that packet, and too many octets are refused."""
    ended = place.run("encode", "-f", "lines", *place.sending)
    if len(wanted) > MAX_OCTETS:
        is_right = (ended.status, ended.output, ended.errors) == (2, b"", TOO_LONG)
    else:
        is_right = (ended.status, ended.output) == (0, b"packet " + wanted.hex().encode() + b"\n")
    return None if is_right else f"encode gave {ended}, and not {wanted.hex()}"


def decoded_fault(place: Place, wanted: bytes) -> Optional[str]:
    """The packet becomes the lines that were sent, as a run prints them."""
    (place.folder / "packet").write_bytes(wanted.hex().encode())
    (place.folder / "empty").write_bytes(b"")
    decoded = place.run("decode", "-f", "packet", "-S", "secret")
    printed = place.run("run", "-f", "lines", "--policy", "empty")
    if decoded.status or printed.status:
        return f"decode {decoded}, run {printed}"
    shown = list_of(printed.output, b"request")
    sent = [line for line, valued in zip(shown, place.trip.pairs) if packets.is_sent(valued)]
    head = [b"code %d" % wanted[0], b"identifier %d" % wanted[1], b"authenticator " + wanted[4:20].hex().encode()]
    is_right = decoded.output.split(b"\n")[:-1] == [*head, b"request", *sent]
    return None if is_right else f"decode gave {decoded.output!r} and not {sent}"


def replied_fault(place: Place, request: bytes) -> Optional[str]:
    """The reply has the request's identifier, its Response Authenticator is right by Python's digest, and it ends with
    the request's Proxy-States. It is the same by the packet and by its lines."""
    trip = place.trip
    by_lines = place.run("run", "-f", "lines", "--policy", "policy", *place.sending)
    by_packet = place.run("run", "--hex", "-f", "packet", "-S", "secret", "--policy", "policy")
    if b"E46" in by_lines.errors and b"E46" in by_packet.errors:
        return None
    if by_lines.status or by_packet.status:
        return f"by lines {by_lines}, by packet {by_packet}"
    unsent = [valued for valued in trip.pairs if not packets.is_sent(valued)]
    if not unsent and by_lines.output != by_packet.output:
        return f"by lines {by_lines.output!r}, by packet {by_packet.output!r}"
    last = by_packet.output.split(b"\n")[-2].split(b" ")[1]
    if last == b"none":
        is_refused = re.search(rb"result (?:reject|fail)", by_packet.output)
        return None if trip.is_accounting and is_refused else f"no reply: {by_packet.output!r}"
    reply = bytes.fromhex(last.decode())
    proxies = [valued for valued in trip.pairs if valued.attribute.name == "Proxy-State"]
    is_right = (
        reply[1] == trip.identifier
        and int.from_bytes(reply[2:4], "big") == len(reply)
        and packets.is_reply(reply, request[4:20], trip.secret)
        and reply.endswith(packets.list_octets(b"", b"", proxies))
    )
    return None if is_right else f"the reply {reply.hex()} to {request.hex()}"


def trip_fault(subject: Subject, number: int) -> Optional[str]:
    """What is wrong of a trip."""
    trip = trip_of(number)
    request = sent_packet(trip)
    with new_folder() as folder:
        place = Place(subject, folder, trip)
        fault = encoded_fault(place, request)
        if not fault and len(request) <= MAX_OCTETS:
            fault = decoded_fault(place, request) or replied_fault(place, request)
    return f"trip {number}: {fault}" if fault else None


def check(subject: Subject, report: Report) -> None:
    found = on_all(lambda number: trip_fault(subject, number), range(TRIPS))
    report.check(f"{TRIPS} requests there and back, with their replies", [it for it in found if it])
