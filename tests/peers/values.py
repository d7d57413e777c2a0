"""Values of the wider profile: how request lines are read; and the rows of SERVER.md on what a FreeRADIUS server does
otherwise, of what both send and what one of them refuses."""
from typing import Dict, List, NamedTuple

from common.program import run
from common.report import Report
from common.subject import Subject, new_folder, on_all
from peers.client import SECRET, dictionaries_of
from peers.patterns import fault_of, is_installed, is_taken_by_server, written
from peers.wider import DICTIONARY, Case, free_port, of_program, of_server, policy_of, server

# The prefix is in six octets, and the number with a tag has a first octet that is none.
REQUEST = """User-Name = {name}
Tunnel-Type:1 = VLAN
Attr-97 = 0x002020010db8
Attr-83 = 0x2800000d
Class = 0x6162
"""


def put(*lines: str) -> str:
    return "".join(f"update reply {{\n{line}\n}}\n" for line in lines)


def told_if(condition: str) -> str:
    """Tells whether it holds."""
    return f'if ({condition}) {{\n{put(HOLDS)}}}\n'


HOLDS = 'Reply-Message := "it holds"'
TOLD = 'Reply-Message = "it holds"'


class Row(NamedTuple):
    """A policy, and what radclient prints of the reply of a server and of the one here."""

    policy: str
    of_server: List[str]
    of_program: List[str]


DIFFERENT = [
    Row(put("Tunnel-Type := 0x0d"), ["Tunnel-Type:0 = VLAN"], ["Attr-64 = 0x0d"]),
    Row(put("Tunnel-Type += 0x0d"), ["Tunnel-Type:0 = VLAN"], ["Attr-64 = 0x0d"]),
    Row(told_if("&Tunnel-Type == 0x0d"), [TOLD], []),
    Row(told_if("&Tunnel-Type == 0x0100000d"), [], [TOLD]),
    Row(put("Login-IPv6-Host := ::10.1.2.3", 'Filter-Id := "%{reply:Login-IPv6-Host}"'),
        ["Login-IPv6-Host = ::10.1.2.3", 'Filter-Id = "::10.1.2.3"'],
        ["Login-IPv6-Host = ::10.1.2.3", 'Filter-Id = "::a01:203"']),
    Row(put("Login-IPv6-Host := ::10.1.2.3") + told_if(r"&reply:Login-IPv6-Host =~ /10\.1\.2\.3/"),
        ["Login-IPv6-Host = ::10.1.2.3", TOLD], ["Login-IPv6-Host = ::10.1.2.3"]),
    Row(put('Tunnel-Private-Group-Id:1 := ""'), [], [r'Tunnel-Private-Group-Id:0 = "\001"']),
    Row("update request {\nFramed-IPv6-Prefix -= 2001:db8::/32\n}\n" + told_if("&Framed-IPv6-Prefix"), [], [TOLD]),
    Row("update request {\nFramed-IPv6-Prefix == 2001:db8::/32\n}\n" + told_if("&Framed-IPv6-Prefix"), [TOLD], []),
    Row(put("Tunnel-Private-Group-Id:2 := &request:Class"),
        ['Tunnel-Private-Group-Id:2 = "0x6162"'], ['Tunnel-Private-Group-Id:0 = "ab"']),
    Row(put("Tunnel-Preference:2 := &request:Tunnel-Preference"),
        ["Tunnel-Preference:2 = 13"], ["Tunnel-Preference:0 = 671088653"]),
    Row(told_if("&Tunnel-Preference:0"), [TOLD], []),
    Row("update request {\nTunnel-Preference:0 !* ANY\n}\n" + told_if("&Tunnel-Preference"), [], [TOLD]),
    Row(put("PMIP6-Home-IPv4-HoA := 0x00080a000000"),
        ["PMIP6-Home-IPv4-HoA = 10.0.0.0/32"], ["PMIP6-Home-IPv4-HoA = 10.0.0.0/8"]),
    Row(told_if("&Framed-IPv6-Prefix == 0x002020010db8"), [], [TOLD]),
    Row(put(r'Filter-Id := "a\nb"', 'Class := "x%{reply:Filter-Id}"'),
        [r'Filter-Id = "a\nb"', "Class = 0x78615c6e62"], [r'Filter-Id = "a\nb"', "Class = 0x78610a62"]),
    Row(put(r'Reply-Message := "a\\%{Class}"'),
        [r'Reply-Message = "a\\%{Class}"'], [r'Reply-Message = "a\\0x6162"']),
    Row('update request {\nFilter-Id := "bob"\n}\n' + told_if("&Filter-Id == 0x626f62"), [TOLD], []),
    Row(told_if('&Filter-Id == "bob"') + told_if("&Module-Failure-Message"), [TOLD], []),
    Row('update request {\nFilter-Id := "a\\000b"\n}\n' + told_if("&Filter-Id =~ /^(.*)b/") + put('Filter-Id := "<%{1}>"'),
        [TOLD, 'Filter-Id = "<a>"'], [TOLD, r'Filter-Id = "<a\000>"']),
    Row(put("MIP6-Feature-Vector := 0x10"), ["MIP6-Feature-Vector = 0"], ["MIP6-Feature-Vector = 16"]),
    Row("update request {\nMIP6-Feature-Vector := 16\n}\n" + told_if("&MIP6-Feature-Vector == 0x10"), [], [TOLD]),
]
# A prefix in fewer octets is the whole one in a condition, though not in an update; a number without a tag is removed
# whole.
ALIKE = [
    Row(told_if("&Framed-IPv6-Prefix == 2001:db8::/32"), [TOLD], [TOLD]),
    Row("update request {\nTunnel-Preference -= 0x2800000d\n}\n" + told_if("&Tunnel-Preference"), [], []),
    Row("update request {\nTunnel-Preference -= 0x0000000d\n}\n" + told_if("&Tunnel-Preference"), [TOLD], [TOLD]),
]
# Request lines, and how `run` prints them; and first lines, and whether they choose the profile.
READ = {
    "Tunnel-Type:01 = VLAN": "Tunnel-Type:1 = VLAN",
    'Event-Timestamp = "Nov 04 2026 10:00:00 UTC"': 'Event-Timestamp = "Nov  4 2026 10:00:00 UTC"',
    'Event-Timestamp = "Nov 4 2026 10:00:00 UTC"': 'Event-Timestamp = "Nov  4 2026 10:00:00 UTC"',
    "Event-Timestamp = 0x10": 'Event-Timestamp = "Jan  1 1970 00:00:16 UTC"',
    "Framed-IPv6-Prefix = 0x00202001": "Framed-IPv6-Prefix = 2001::/32",
    "PMIP6-Home-IPv4-HoA = 0x00080a": "PMIP6-Home-IPv4-HoA = 0x00080a",
    "PMIP6-Home-IPv4-HoA = 0x00080a010203": "PMIP6-Home-IPv4-HoA = 10.0.0.0/8",
}
FIRST_LINES = {"#profile: wider": True, "# VLANs\n\n#profile: wider": True, " #\tProfile:  WIDER\t": True,
               "#profile:\twider": True, "#profile:wider": False, "# profile : wider": False}
# What a server takes, and the fault with which it is refused here.
TAKEN: Dict[str, str] = {
    put("Framed-IPv6-Prefix := 2001:db8::"): "E30",
    put("PMIP6-Home-IPv4-HoA := 10.0.0.1"): "E30",
    told_if("&PMIP6-Home-IPv4-HoA == 10.0.0.1"): "E30",
    put('Event-Timestamp := "Nov 24 2026"'): "E30",
    put('Event-Timestamp := "Nov 24 2026 10:00:00"'): "E30",
}
# What is taken here alone.
TAKEN_HERE = [
    put('Event-Timestamp := "2026-11-24T10:00:00Z"'),
    put("Event-Timestamp := 0x6b056020"),
    put("Login-IPv6-Host := 0x20010db8000000000000000000000001"),
    put("Framed-IPv6-Prefix := 0x002020010db8"),
    put("Framed-Interface-Id := 0x0001000200030004"),
]


def check_sent(subject: Subject, report: Report) -> None:
    """What both send is what the rows say."""
    rows = [*DIFFERENT, *ALIKE]
    given = [Case(f"row-{at}", row.policy) for at, row in enumerate(rows)]
    with new_folder() as folder:
        (folder / "secret").write_text(SECRET + "\n")
        (folder / "policy").write_text(policy_of(given))
        (folder / "dictionary.local").write_text(DICTIONARY)
        port = free_port()
        with server(folder, port, policy_of(given)) as is_ready:
            report.check("the server takes the values", [] if is_ready else [(folder / "log").read_text()[-2000:]])
            for case, row in zip(given, rows if is_ready else []):
                request = REQUEST.format(name=case.name)
                theirs, ours = of_server(port, request), of_program(subject, folder, request)
                wrong = [f"a server sends {theirs}, not {row.of_server}"] if theirs != row.of_server else []
                wrong += [f"here it is {ours}, not {row.of_program}"] if ours != row.of_program else []
                report.check(f"values beside a server: {case.lines!r}", wrong)


def check_taken(subject: Subject, report: Report) -> None:
    """What one of the two refuses, here by its fault."""
    wanted = [(policy, fault, True) for policy, fault in TAKEN.items()] + [(policy, "", False) for policy in TAKEN_HERE]
    found = on_all(lambda one: (is_taken_by_server(one[0]), fault_of(subject, one[0])), wanted)
    for (policy, fault, is_taken), (is_taken_there, fault_here) in zip(wanted, found):
        wrong = [] if fault_here == fault else [f"here it is {fault_here or 'taken'}"]
        wrong += [f"a server {'takes' if is_taken_there else 'refuses'} it"] if is_taken_there != is_taken else []
        report.check(f"{f'refused as {fault}' if fault else 'taken here alone'}: {policy!r}", wrong)


def request_printed(subject: Subject, lines: str) -> str:
    """The request as `run` prints it, or the fault."""
    with new_folder() as folder:
        (folder / "request").write_text(lines)
        (folder / "policy").write_text(written(""))
        (folder / "dictionary.local").write_text(DICTIONARY)
        words = ["run", "-f", "request", "--policy", "policy", *dictionaries_of(subject, folder)]
        ended = run([subject.program, *words], folder)
        said = ended.errors.decode() or ended.output.decode().partition("\nreply\n")[0]
        return said.partition("\n  ")[2] or said


def check_read(subject: Subject, report: Report) -> None:
    """What FORMATS.md says of request lines in the wider profile."""
    for line, wanted in READ.items():
        found = request_printed(subject, written(line))
        report.check(f"a request line: {line}", [] if found == wanted else [f"it is printed {found}"])
    for first, is_wider in FIRST_LINES.items():
        found = request_printed(subject, f"{first}\nTunnel-Type:1 = VLAN\n")
        is_read = found == "Tunnel-Type:1 = VLAN" if is_wider else "E32 request:2" in found
        report.check(f"the line of the wider profile: {first!r}", [] if is_read else [found])


def check(subject: Subject, report: Report) -> None:
    check_read(subject, report)
    if is_installed(report, "values"):
        check_sent(subject, report)
        check_taken(subject, report)
