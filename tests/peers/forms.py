"""Texts of IPv6 addresses and of dates, read and printed as Python and the C library print them."""
import ipaddress
import random
import socket
import subprocess
import time
from typing import Iterator, Tuple

from common.report import Report
from common.subject import Subject

COUNT = 100_000
GREATEST = 4_294_967_295
SEED = 20_261_125
MONTHS = "Jan Feb Mar Apr May Jun Jul Aug Sep Oct Nov Dec".split()
# The first and the last second, midnights, and both ends of a leap day.
DATES = (0, 1, 86399, 86400, 951_782_400, 951_868_799, 951_868_800, GREATEST - 1, GREATEST)


def some_address(source: random.Random) -> bytes:
    """16 octets with runs of zeros; none that holds an IPv4 address, which the printers do not print alike."""
    while True:
        groups = [source.choice((0, 0, source.getrandbits(4), source.getrandbits(16))) for _ in range(8)]
        if groups[:5] != [0] * 5:
            return b"".join(group.to_bytes(2, "big") for group in groups)


def date_text(seconds: int) -> str:
    day = time.gmtime(seconds)
    clock = f"{day.tm_hour:02}:{day.tm_min:02}:{day.tm_sec:02}"
    return f"{MONTHS[day.tm_mon - 1]} {day.tm_mday:2} {day.tm_year:04} {clock} UTC"


def addresses(source: random.Random) -> Iterator[Tuple[str, str]]:
    """Lines for the program, each with what it has to print."""
    for _ in range(COUNT):
        octets = some_address(source)
        address = ipaddress.IPv6Address(octets)
        shown = socket.inet_ntop(socket.AF_INET6, octets)
        if shown != str(address):
            raise ValueError(f"Python prints {address}, and the C library {shown}")
        yield "a " + source.choice((shown, address.exploded, address.exploded.upper())), shown


def dates(source: random.Random) -> Iterator[Tuple[str, str]]:
    for seconds in (*DATES, *(source.randrange(GREATEST + 1) for _ in range(COUNT))):
        text = date_text(seconds)
        internet = time.strftime("%Y-%m-%dT%H:%M:%SZ", time.gmtime(seconds))
        yield "d " + source.choice((str(seconds), text, text.replace("  ", " "), internet)), text


def check(subject: Subject, report: Report) -> None:
    source = random.Random(SEED)
    for name, lines in (("IPv6 addresses", list(addresses(source))), ("dates", list(dates(source)))):
        asked = "".join(line + "\n" for line, _ in lines).encode()
        run = subprocess.run(subject.drive("forms"), input=asked, stdout=subprocess.PIPE, check=True)
        answers = run.stdout.decode().splitlines()
        wrong = [f"{line}: {answer}, not {wanted}" for (line, wanted), answer in zip(lines, answers) if answer != wanted]
        if len(answers) != len(lines):
            wrong.append(f"{len(answers)} answers to {len(lines)} lines")
        report.check(f"{len(lines)} {name} as Python and the C library print them", wrong)
