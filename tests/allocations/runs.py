"""Runs of a prepared policy: how often one asks for memory, that it gives all back, and each allocation refused."""
import re
from pathlib import Path
from typing import List, NamedTuple

from common.report import Report
from common.subject import Subject, new_folder, on_all
from allocations.address_space import SERVER
from allocations.refusing import Refusals, Refused

ROOT = Path(__file__).parent.parent.parent
POLICY = b"""if (&reply:Class == 0x01 && &control:Session-Timeout > 6) {
	update reply { Session-Timeout := 60 }
}
transaction {
	update reply { Class !* ANY Reply-Message := "Hello, %{User-Name}" }
	reject
}
update control { Session-Timeout += 5 }
"""
# An Access-Request of the User-Name `bob` and a Proxy-State.
PACKET = b"\x01\x07\x00\x1d" + bytes(16) + b"\x01\x05bob" + b"\x21\x04zz"
FILES = {"packet": PACKET, "secret": b"s\n", "policy": POLICY, "reply": b"Class = 0x01", "control": b"Session-Timeout = 7"}
REPORT = b"""request
  User-Name = "bob"
  Proxy-State = 0x7a7a
reply
  Class = 0x01
  Session-Timeout = 60
control
  Session-Timeout = 7
  Session-Timeout = 5
result reject
"""
# Its first run makes what searches for the expressions, whose caches are filled in the next ones too. Numbers and
# octets are searched as they are printed. Texts are compared, with captures among them, and groups are searched.
SEARCHING = b"""# profile: wider
if (&User-Name =~ /^b(o*)/) {
	update reply { Reply-Message := "%{1}" }
}
if (&control:Session-Timeout =~ /^(.)$/ && "%{1}") {
	update reply { Filter-Id := "%{1}" }
}
if (&Proxy-State =~ /^0x(7a)+$/) {
	update reply { Callback-Id := "%{0}" }
}
if ("%{User-Name}-%{control:Session-Timeout}" == "bob-7" && "%{0}" > "0x7a") {
	update reply { Callback-Number := "%{0}-%{1}" }
}
if ("%{User-Name}" =~ /^(.)(.)/ && "%{1}" =~ /(b)/ && &User-Name == "%{1}ob") {
	update reply { Framed-Pool := "%{0}%{2}" }
}
if (&User-Name =~ / / || &User-Name !~ /b$/) { reject }
"""
SEARCHED = b"""request
  User-Name = "bob"
  Proxy-State = 0x7a7a
reply
  Class = 0x01
  Reply-Message = "o"
  Filter-Id = "7"
  Callback-Id = "0x7a7a"
  Callback-Number = "0x7a7a-7a"
  Framed-Pool = "b"
control
  Session-Timeout = 7
result ok
"""
SEARCHING_FIRST = 3
# It looks at what its comparison captures; the other does the same without.
CAPTURING = b"""# profile: wider
if (&User-Name =~ /^b(o*)/ && "%{1}") {
	update reply { Reply-Message := "o" }
}
"""
MATCHING = CAPTURING.replace(b' && "%{1}"', b"")
# It compares texts; the other only an attribute.
COMPARING = b"""# profile: wider
if ("%{User-Name}-%{Proxy-State}" == "bob-0x7a7a" && &User-Name != "%{reply:Class}b") {
	update reply { Reply-Message := "o" }
}
"""
EQUAL = b"""# profile: wider
if (&User-Name == "bob") {
	update reply { Reply-Message := "o" }
}
"""


class Driven(NamedTuple):
    """A policy and the report of its runs, and a set of dictionaries; both by name. After the first runs each asks for
    memory as often as the one before."""

    name: str
    files: List[Path]
    policy: bytes
    report: bytes
    first: int = 1


def sets(name: str, policy: bytes, report: bytes, first: int) -> List[Driven]:
    """The policy by the set of the repository, and by that of an installed server."""
    small = sorted((ROOT / "dictionaries").glob("dictionary*"))
    found = [Driven(f"{name} by the small set", small, policy, report, first)]
    if SERVER.is_dir():
        found.append(Driven(f"{name} by a server's set", sorted(SERVER.glob("dictionary*")), policy, report, first))
    return found


def drive(subject: Subject, driven: Driven, count: int, refused: int = 0) -> Refused:
    """Runs the policy so often, and refuses one allocation."""
    with new_folder() as folder:
        for name, octets in {**FILES, "policy": driven.policy}.items():
            (folder / name).write_bytes(octets)
        command = [*subject.drive("runs"), str(count), *FILES, *driven.files]
        return Refusals(subject, folder).run(command, folder, refused)


def check_counts(subject: Subject, report: Report, driven: Driven) -> int:
    """The first runs, one more, and many: what one more asks for, and that nothing is left behind."""
    first, next_one, many = (drive(subject, driven, count) for count in (driven.first, driven.first + 1, 500))
    allocations = next_one.asked - first.asked
    is_reported = next_one.ended.output.endswith(driven.report + packet_line(next_one))
    wrong = [] if is_reported else [f"another report: {next_one.ended}"]
    if many.asked - first.asked != (500 - driven.first) * allocations:
        wrong.append(f"500 runs ask for memory {many.asked} times, {driven.first} {first.asked}")
    if many.held != first.held:
        wrong.append(f"after 500 runs {many.held} pieces are held, after {driven.first} {first.held}")
    report.check(f"{driven.name} asks for memory {allocations} times, and gives all back", wrong)
    return allocations


def packet_line(run: Refused) -> bytes:
    """The last line, which shows the reply packet; its authenticator is checked by other tests."""
    line = run.ended.output.splitlines(keepends=True)[-1]
    return line if re.match(rb"packet 0[23]07", line) else b"packet"


def refused_once(subject: Subject, driven: Driven, count: int, allocation: int, whole: Refused) -> List[str]:
    """Refuses an allocation of several runs: the run that asked is told, and the others are as ever; or none is."""
    run = drive(subject, driven, count, allocation)
    report = whole.ended.output.splitlines(keepends=True)[1:]
    wanted = [[b"run %d refused: 9\n" % at, b"1 of %d refused\n" % count, *report] for at in range(count - 1)]
    wanted += [[b"run %d refused: 9\n" % (count - 1), b"1 of %d refused\n" % count]]
    wanted += [[b"0 of %d refused\n" % count, *report]]
    if run.refused != 1 or run.ended.status or run.ended.errors:
        return [f"allocation {allocation}: {run.ended}"]
    is_wanted = run.ended.output.splitlines(keepends=True) in wanted
    return [] if is_wanted else [f"allocation {allocation}: {run.ended.output!r}"]


def check_policy(subject: Subject, report: Report, by_set: List[Driven]) -> None:
    """Each set; the counts are the same, since a run reads nothing of the dictionary again."""
    counts = {driven.name: check_counts(subject, report, driven) for driven in by_set}
    small = by_set[0]
    same = len(set(counts.values())) == 1
    report.check(f"{small.name}: a run asks as often with each set", [] if same else [f"{counts}"])
    runs = small.first + 1
    before, first, whole = (drive(subject, small, count) for count in (0, small.first, runs))
    allocations = range(before.asked + 1, first.asked + 1)
    wrong = on_all(lambda allocation: refused_once(subject, small, runs, allocation, whole), allocations)
    faults = [fault for of_one in wrong for fault in of_one]
    report.check(f"{small.name}: {len(allocations)} allocations of its {runs} first runs, each refused", faults)


def check_later(subject: Subject, report: Report, what: str, policy: bytes, other: bytes) -> None:
    """The runs after the first ask for memory as often as those of another policy; what searches may ask in some."""
    dictionaries = sorted((ROOT / "dictionaries").glob("dictionary*"))
    both = [Driven("", dictionaries, text, b"") for text in (policy, other)]
    first, others = [[drive(subject, driven, count).asked for driven in both] for count in (1, 100)]
    own, beside = (later - one for later, one in zip(others, first))
    wrong = [] if own == beside else [f"99 runs ask for memory {own} times, without {beside}"]
    report.check(f"runs after the first ask for no memory {what}", wrong)


def check(subject: Subject, report: Report) -> None:
    """A policy without regular expressions, and one with them."""
    check_policy(subject, report, sets("a run", POLICY, REPORT, 1))
    check_policy(subject, report, sets("a run that searches", SEARCHING, SEARCHED, SEARCHING_FIRST))
    check_later(subject, report, "to keep what is captured", CAPTURING, MATCHING)
    check_later(subject, report, "to compare texts", COMPARING, EQUAL)
    if not SERVER.is_dir():
        report.say(f"only with the small set, since {SERVER} is not there")
