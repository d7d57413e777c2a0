"""What `radpolicy-replay --expect` says of an earlier output: whether this one is the same octets, and where not."""
import os
from typing import List

from common.report import Report
from common.subject import Subject, new_folder
from replays.records import Place, records

RECORDS = 300
# How much of a line is shown, and more than that.
SHOWN = 1024
LONG = 100_000


def line_of(front: bytes, rest: bytes) -> bytes:
    """The line of a text that begins and goes on so, as it is shown."""
    if not front and not rest:
        return b"(no line)"
    return (front + rest.split(b"\n", 1)[0])[:SHOWN]


def other_line(earlier: bytes, now: bytes) -> bytes:
    """What is to be said of two texts that differ."""
    common = os.path.commonprefix([earlier, now])
    front = common.rsplit(b"\n", 1)[-1]
    before, after = (line_of(front, text[len(common) :]) for text in (earlier, now))
    how = b", but for its end" if before == after else b""
    return b"earlier:%d: expected %s / now %s%s\n" % (common.count(b"\n") + 1, before, after, how)


def faults(place: Place, text: bytes, whole: bytes, earlier: bytes) -> List[str]:
    """What is wrong with what is said of an earlier output."""
    (place.folder / "earlier").write_bytes(earlier)
    ended = place.replay(text, ["--expect", "earlier"])
    if ended.output != whole:
        return ["another output"]
    said = b"".join(ended.errors.splitlines(keepends=True)[1:])
    wanted = (1, other_line(earlier, whole)) if earlier != whole else (0, b"")
    return [] if (ended.status, said) == wanted else [f"{ended.status}: {said!r}, not {wanted!r}"]


def check(subject: Subject, report: Report) -> None:
    with new_folder() as folder:
        place, text = Place(subject, folder), records(RECORDS)
        whole = place.replay(text).output
        half = whole.index(b"\n", len(whole) // 2) + 1
        earlier = {
            "the same": whole,
            "nothing": b"",
            "one line more": whole + b"another\n",
            "a line that ended early": whole[: half - 3] + whole[half - 1 :],
            "a line less": whole[:half],
            "no last line end": whole[:-1],
            "another octet": whole[: half - 9] + b"!" + whole[half - 8 :],
            "a long line": whole[:half] + b"!" * LONG + whole[half:],
        }
        for name, octets in earlier.items():
            report.check(f"replay: expected is {name}", faults(place, text, whole, octets))
        ended = place.replay(text, ["--expect", "missing"])
        told = b"radpolicy-replay: E04 missing: file not readable: there is no such file, "
        is_right = (ended.status, ended.output) == (3, b"") and ended.errors.startswith(told)
        report.check("replay: what is expected is missing", [] if is_right else [f"{ended}"])
