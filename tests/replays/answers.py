"""What `radpolicy-replay` says of records: what `radpolicy run` says of each, whatever is before and after it."""
import io
import os
import re
import resource
import subprocess
from typing import List

from common.program import Ended, in_memory, run
from common.report import Report
from common.subject import Subject, new_folder, on_all
from replays.records import Place, records

RECORDS = 1_100
CUT = 3
NAMELESS = 40
MANY = 200_000
# More than pipes and buffers hold.
MIDDLE = 4_000
MEMORY = 20 << 20
LONG_LINE = 100_000_000
REFUSED = re.compile(rb" E\d\d ")


def limit_memory() -> None:
    """Gives a program an address space that holds no long line and no list of records."""
    resource.setrlimit(resource.RLIMIT_AS, (MEMORY, MEMORY))


def line_by_run(ended: Ended, name: bytes) -> bytes:
    """The line that a record has to have, by what `run` says of its packet."""
    if ended.status:
        code, _, words = ended.errors.removeprefix(b"radpolicy: ").rstrip(b"\n").partition(b": ")
        return b"%s %s %s\n" % (name, code.split()[0], words)
    lines = ended.output.split(b"\n")
    result = next(line for line in lines if line.startswith(b"result "))
    return b"%s %s %s\n" % (name, result.removeprefix(b"result "), lines[-2].removeprefix(b"packet "))


def faults_of_lines(place: Place, text: bytes, ended: Ended) -> List[str]:
    """Each record's line beside `run` of its packet, where it has one and the reply is shown."""
    lines = [line for line in text.splitlines() if line.strip()]
    said = ended.output.splitlines(keepends=True)
    if len(said) != len(lines):
        return [f"{len(said)} lines for {len(lines)} records: {ended.errors!r}"]
    refused = sum(bool(REFUSED.search(line)) for line in said)
    wanted = b"%d read, %d refused\n" % (len(lines), refused)
    wrong = [] if (ended.status, ended.errors) == (0, wanted) else [f"{ended.status}: {ended.errors!r}, not {wanted!r}"]

    def fault(at: int) -> List[str]:
        packets = [word for word in lines[at].split() if len(word) >= 40]
        if not packets or b"(secret)" in said[at]:
            return []
        line = line_by_run(place.run_one(packets[0]), lines[at].split()[0])
        return [] if said[at] == line else [f"{said[at]!r}, not {line!r}"]

    return wrong + [each for found in on_all(fault, range(len(lines))) for each in found]


def check_answers(place: Place, report: Report) -> None:
    text = records(RECORDS)
    whole = place.replay(text)
    report.check("replay: each record as by run", faults_of_lines(place, text, whole))
    backwards = b"".join(reversed(text.splitlines(keepends=True)))
    said = place.replay(backwards).output.splitlines()
    wrong = [] if said == whole.output.splitlines()[::-1] else ["another order gives other lines"]
    report.check("replay: a line is that of its record", wrong)


def check_nameless(place: Place, report: Report) -> None:
    """Lines without a packet are called by their numbers, and the others are answered as without them."""
    text = [line for line in records(NAMELESS).splitlines(keepends=True) if line.strip()]
    said = place.replay(b"".join(text)).output.splitlines()
    mixed = place.replay(b"".join(b"frame no packet\n" + line for line in text)).output.splitlines()
    wrong = [] if mixed[1::2] == said else ["the others are answered otherwise"]
    wrong += [f"{line!r}" for at, line in enumerate(mixed[::2]) if not line.startswith(b"%d E05 " % (2 * at + 1))]
    report.check("replay: lines without a packet", wrong)


def check_cuts(place: Place, report: Report) -> None:
    """Input that ends after each octet."""
    text = records(CUT)
    whole = place.replay(text).output.splitlines(keepends=True)

    def fault(end: int) -> List[str]:
        ended = place.replay(text[:end])
        lines = sum(bool(line.strip()) for line in text[:end].splitlines())
        said = ended.output.splitlines(keepends=True)
        is_right = ended.status == 0 and len(said) == lines and said[:-1] == whole[: max(lines - 1, 0)]
        return [] if is_right else [f"after {end} octets: {ended}"]

    report.check("replay: cut at each octet", [each for found in on_all(fault, range(len(text))) for each in found])


def check_hostile(place: Place, report: Report) -> None:
    """A line of 100 MB, octets that are no text, and many records, in the memory of one."""
    text = records(2)
    ended = place.replay(b"frame " + b"a" * LONG_LINE + b"\n" + text, before=limit_memory)
    is_right = ended.output == b"1 E46 packet too long\n" + place.replay(text).output
    report.check("replay: a line of 100 MB", [] if is_right else [f"{ended}"])
    for word, name in ((b"\0\xff\x1b]2;x", b"\\000\\377\\033]2;x"), (b"\0\xff\x1b[31m", b"1")):
        ended = place.replay(word + b" " + text)
        wrong = [] if ended.output == name + place.replay(text).output[len(b"frame0") :] else [f"{ended.output!r}"]
        report.check(f"replay: octets that are no text, of a record called {name.decode()}", wrong)
    many = place.replay(text * (MANY // 2), before=limit_memory)
    wrong = [] if many.status == 0 and many.output.count(b"\n") == MANY else [f"{many.status}: {many.errors!r}"]
    report.check(f"replay: {MANY} records in {many.seconds:.2f} s", wrong)


def check_streams(place: Place, report: Report) -> None:
    """As a coprocess; and with a reader that goes away."""
    text = records(2).splitlines(keepends=True)
    pipes = {"stdin": subprocess.PIPE, "stdout": subprocess.PIPE, "stderr": subprocess.DEVNULL}
    with subprocess.Popen(place.command(), cwd=place.folder, **pipes) as process:
        said = []
        for line in filter(bytes.strip, text):
            process.stdin.write(line)
            process.stdin.flush()
            said.append(process.stdout.readline())
        process.stdin.close()
    wrong = [] if b"".join(said) == place.replay(b"".join(text)).output else [f"{said}"]
    report.check("replay: a record at a time", wrong)
    reader, writer = os.pipe()
    os.close(reader)
    ended = run(place.command(), place.folder, b"".join(text), output=writer)
    os.close(writer)
    wrong = [] if (ended.status, ended.errors) == (3, b"radpolicy-replay: E07: write fault\n") else [f"{ended}"]
    report.check("replay: a reader that went away", wrong)


def check_closed(place: Place, report: Report) -> None:
    """A reader that goes away in the middle has a front of the output."""
    text = records(MIDDLE)
    whole = place.replay(text).output
    command, pipes = place.command(), {"stdout": subprocess.PIPE, "stderr": subprocess.PIPE}
    with subprocess.Popen(command, cwd=place.folder, stdin=in_memory(text), **pipes) as process:
        front = process.stdout.read(len(whole) // 2)
        process.stdout.close()
        errors = process.stderr.read()
    is_right = (process.returncode, errors) == (3, b"radpolicy-replay: E07: write fault\n") and whole.startswith(front)
    is_right = is_right and len(front) == len(whole) // 2
    wrong = [] if is_right else [f"{process.returncode}: {errors!r}, {len(front)} octets"]
    report.check("replay: a reader that goes away in the middle", wrong)


def said_to_terminal(place: Place, text: bytes, is_output_too: bool) -> bytes:
    """What a replay says to a terminal."""
    terminal, stream = os.openpty()
    try:
        words = place.options() if is_output_too else ()
        run(place.command(words), place.folder, text, output=stream if is_output_too else None, errors=stream)
        os.set_blocking(terminal, False)
        with io.open(terminal, "rb", buffering=0, closefd=False) as said:
            return b"".join(iter(lambda: said.read(1 << 16) or b"", b""))
    finally:
        os.close(terminal)
        os.close(stream)


def check_counter(place: Place, report: Report) -> None:
    """The counter, which is taken away before the summary is printed."""
    text = records(2) * (MANY // 2)
    said = said_to_terminal(place, text, False)
    *counted, summary = said.split(b"\r\x1b[K")
    found = [int(count) for count in re.findall(rb"\r(\d+) records, \d+ a second\x1b\[K", said)]
    lines = b"%d read, 0 refused\r\n" % MANY
    is_right = len(counted) == 1 and found == sorted(found) and 0 < found[-1] < MANY and summary.startswith(lines)
    report.check("replay: a counter on a terminal", [] if is_right else [f"{said!r}"])
    said = said_to_terminal(place, text, True)
    is_right = b"\x1b" not in said and said.startswith(b"%d read, %d same, 0 different" % (MANY, MANY))
    report.check("replay: no counter among what is printed", [] if is_right else [f"{said!r}"])
    # a run of a second or more says how fast it was; one of less does not
    rates = re.findall(rb"\n(\d+) records a second", said)
    report.check("replay: the rate", [] if all(0 < int(rate) <= MANY for rate in rates) else [f"{said!r}"])


def check(subject: Subject, report: Report) -> None:
    with new_folder() as folder:
        place = Place(subject, folder)
        for part in (check_answers, check_nameless, check_cuts, check_hostile, check_streams, check_closed, check_counter):
            part(place, report)
