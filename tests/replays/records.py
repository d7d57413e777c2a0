"""Records of traffic at random, and the program that answers them."""
import re
from dataclasses import replace
from pathlib import Path
from random import Random
from typing import Callable, List, Optional, Sequence

from common.program import Ended, run
from common.subject import Subject
from fuzz import packets
from fuzz.vocabulary import DICTIONARY, values

SECRET = b"testing123"
POLICY = b"""if (&NAS-Port < 3) {
    reject
}
update reply {
    Session-Timeout := 600
    Reply-Message := "Hello, %{User-Name}"
}
"""
# Packets that are refused.
BROKEN = (b"00" * 20, b"0101" + b"0" * 37, b"05" + b"07" * 19, b"01" * 5000)


# How fast a run was that took a second or more.
RATE = re.compile(rb'^\d+ records a second\n|"records_per_second":\d+,', re.M)


def without_rate(ended: Ended) -> Ended:
    """The same of a run, however long it took."""
    return replace(ended, errors=RATE.sub(b"", ended.errors))


def request(rng: Random) -> bytes:
    """A request with pairs at random."""
    pairs, identifier = values(rng, rng.choice([0, 1, 3, 8])), rng.randrange(256)
    if rng.random() < 0.3:
        return packets.accounting_request(SECRET, identifier, pairs)
    authenticator = bytes(rng.randrange(256) for _ in range(16))
    return packets.packet(1, identifier, authenticator, packets.list_octets(SECRET, authenticator, pairs))


def record(number: int) -> bytes:
    """The record of a number, with its line end; the same whenever it is made."""
    rng = Random(f"record {number}")
    digits = rng.choice(BROKEN) if rng.random() < 0.1 else request(rng).hex().encode()
    source = rng.choice([b"", b"192.0.2.1 ", b"src=2001:db8::1 "])
    return b"frame%d %s%s%s" % (number, source, digits, rng.choice([b"\n", b"\r\n", b" \n\n"]))


def records(count: int) -> bytes:
    return b"".join(map(record, range(count)))


class Place:
    """A folder with the files that the program needs, and a policy in it."""

    def __init__(self, subject: Subject, folder: Path, policy: str = "policy", text: bytes = POLICY) -> None:
        self.subject, self.folder, self.policy = subject, folder, policy
        (folder / policy).write_bytes(text)
        (folder / "secret").write_bytes(SECRET + b"\n")

    def command(self, options: Sequence[str] = ()) -> List[str]:
        program = self.subject.driver("radpolicy_replay")
        return [str(program), "--policy", self.policy, "-S", "secret", *options, str(DICTIONARY)]

    def options(self, *others: str) -> List[str]:
        """The words by which another policy is compared with this one."""
        return ["--against", self.policy, *others]

    def replay(
        self, octets: bytes, options: Sequence[str] = (), before: Optional[Callable[[], None]] = None
    ) -> Ended:
        return without_rate(run(self.command(options), self.folder, octets, before=before))

    def run_one(self, digits: bytes) -> Ended:
        """One packet by `radpolicy run`."""
        words: Sequence[str] = ["run", "--hex", "-S", "secret", "--policy", self.policy, str(DICTIONARY)]
        return run([self.subject.program, *words], self.folder, digits)
