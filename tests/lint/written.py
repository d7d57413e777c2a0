"""Values and patterns that a FreeRADIUS server takes otherwise, beside what `radpolicy-lint` warns of: where it warns,
the server and the program send different replies, and where it doesn't, the same."""
import re
from pathlib import Path
from typing import List, NamedTuple

from common.program import run
from common.report import Report
from common.subject import Subject, new_folder, on_all
from peers.client import SECRET, dictionaries_of
from peers.patterns import is_installed
from peers.values import put, told_if
from peers.wider import DICTIONARY, Case, free_port, of_program, of_server, policy_of, server

# The prefix is in six octets, the first text two letters of two octets each, and the second has its last octet twice.
REQUEST = """User-Name = {name}
Tunnel-Type:1 = VLAN
Attr-97 = 0x002020010db8
MIP6-Feature-Vector = 16
Filter-Id = "\\303\\251\\303\\251"
Callback-Id = "\\303\\251\\251"
NAS-Identifier = "north\\nseven\\n"
"""
HEXADECIMAL, EMPTY, SHORT = "hexadecimal-number", "empty-tagged", "short-prefix"
OCTET, LINE = "repeated-octet", "line-start"
NAMES = HEXADECIMAL, EMPTY, SHORT, OCTET, LINE


class Row(NamedTuple):
    """Statements, and what is warned of them."""

    statements: str
    warnings: List[str]


def without(line: str, name: str) -> str:
    """What is left of an attribute of the request after the line."""
    return f"update request {{\n{line}\n}}\n{told_if(f'&{name}')}"


def conditions(text: str, *warnings: str) -> List[Row]:
    return [Row(told_if(line), list(warnings)) for line in text.strip().splitlines()]


ROWS = [
    Row(put("Tunnel-Type := 0x0d"), [HEXADECIMAL]),
    Row(put('Tunnel-Type = "0x0d"'), [HEXADECIMAL]),
    Row(put("Tunnel-Type += '0x00000d'"), [HEXADECIMAL]),
    Row(put("Tunnel-Type ^= 0x000000000d"), [HEXADECIMAL]),
    Row(put("Tunnel-Type := 0x0100000d") + told_if("&reply:Tunnel-Type == VLAN"), [HEXADECIMAL]),
    Row(put("Attr-64 := 0x0100000d"), [HEXADECIMAL]),
    Row(put("Tunnel-Type := 0x0000000d"), []),
    Row(put("Attr-64 := 0x0000000d"), []),
    Row(put("Tunnel-Type := 13"), []),
    Row(without("Tunnel-Type -= 0x0d", "Tunnel-Type"), [HEXADECIMAL]),
    Row(without("Tunnel-Type -= 0x0000000d", "Tunnel-Type"), []),
    Row(put("MIP6-Feature-Vector := 0x10"), [HEXADECIMAL]),
    Row(put('MIP6-Feature-Vector := "0x10"'), [HEXADECIMAL]),
    Row(put("MIP6-Feature-Vector := 0x00"), []),
    Row(put("Attr-124 := 0x0000000000000010"), []),
    Row(without("MIP6-Feature-Vector -= 0x10", "MIP6-Feature-Vector"), [HEXADECIMAL]),
    Row(without("Attr-124 -= 0x0000000000000010", "MIP6-Feature-Vector"), []),
    *conditions("""
&Tunnel-Type == 0x0d
&Tunnel-Type == 0x0100000d
&Tunnel-Type > "0x02"
"%{Tunnel-Type}" == 0x0d
&Attr-64 == 0x0d
&MIP6-Feature-Vector == 0x10
&MIP6-Feature-Vector > 0x10
"%{MIP6-Feature-Vector}" == "0x10"
&Attr-124 == 0x0000000000000010
""", HEXADECIMAL),
    *conditions("""
&Tunnel-Type == 0x0000000d
&Tunnel-Type != 0x0000000d
&Attr-64 == 0x0000000d
&MIP6-Feature-Vector == 0x00
&MIP6-Feature-Vector == 16
"""),
    Row(put('Tunnel-Private-Group-Id:1 := ""'), [EMPTY]),
    Row(put("Tunnel-Private-Group-Id:31 += ''"), [EMPTY]),
    Row(put('Tunnel-Private-Group-Id:0 := ""'), []),
    Row(put('Tunnel-Private-Group-Id := ""'), []),
    Row(without("Framed-IPv6-Prefix -= 2001:db8::/32", "Framed-IPv6-Prefix"), [SHORT]),
    Row(without('Framed-IPv6-Prefix -= "2001:db8::/32"', "Framed-IPv6-Prefix"), [SHORT]),
    Row(without("Attr-97 -= 0x002020010db8000000000000000000000000", "Framed-IPv6-Prefix"), [SHORT]),
    *conditions("&Framed-IPv6-Prefix == 2001:db8::/32"),
    *conditions("""
&Filter-Id =~ /^é+$/
&Filter-Id !~ /^é{2}$/
&Callback-Id =~ /^é+$/
&Callback-Id =~ /^é*$/
""", OCTET),
    *conditions(r"""
&Filter-Id =~ /^(?:é)+$/
&Callback-Id =~ /^\xc3\xa9+$/
&Filter-Id =~ /^éé$/
"""),
    *conditions(r"""
&NAS-Identifier =~ /\n^\z/m
&NAS-Identifier =~ /(?m)\n^\z/
&NAS-Identifier =~ /\n(?im:^)\z/
""", LINE),
    *conditions(r"""
&NAS-Identifier =~ /\n^\z/
&NAS-Identifier =~ /seven$/m
&NAS-Identifier =~ /\n[^a]/m
"""),
]


def warnings_of(subject: Subject, statements: str) -> List[str]:
    with new_folder() as folder:
        (folder / "policy").write_text("# profile: wider\n" + statements)
        (folder / "dictionary.local").write_text(DICTIONARY)
        words = ["--format", "gcc", "--policy", "policy", *map(str, dictionaries_of(subject, folder))]
        said = run([subject.driver("radpolicy_lint"), *words], folder, b"").output.decode()
    if "error" in said:
        return [said]
    return [name for name in re.findall(r": warning: .* \[(.*)\]$", said, re.MULTILINE) if name in NAMES]


def parted(subject: Subject, folder: Path, port: int, name: str) -> List[List[str]]:
    """What the server sends for a user, and what the program does, if that differs."""
    request = REQUEST.format(name=name)
    both = [of_server(port, request), of_program(subject, folder, request)]
    return both if both[0] != both[1] else []


def check(subject: Subject, report: Report) -> None:
    if not is_installed(report, "written values"):
        return
    given = [Case(f"row-{at}", row.statements) for at, row in enumerate(ROWS)]
    warned = on_all(lambda row: warnings_of(subject, row.statements), ROWS)
    with new_folder() as folder:
        (folder / "secret").write_text(SECRET + "\n")
        (folder / "policy").write_text(policy_of(given))
        (folder / "dictionary.local").write_text(DICTIONARY)
        port = free_port()
        with server(folder, port, policy_of(given)) as is_ready:
            report.check("lint: the server takes the values", [] if is_ready else [(folder / "log").read_text()[-2000:]])
            for case, row, found in zip(given, ROWS if is_ready else [], warned):
                both = parted(subject, folder, port, case.name)
                wrong = [f"it is warned of as {found}"] if found != row.warnings else []
                wrong += [f"the two send {both or 'the same'}"] if bool(both) != bool(row.warnings) else []
                report.check(f"lint: beside a server: {row.statements!r}", wrong)
