"""What `radpolicy-import` makes of statements as a server takes them, and what it tells of those that are kept."""
import re
from pathlib import Path
from typing import Dict, List, Sequence, Tuple

from common.program import run
from common.report import Report
from common.subject import Subject, new_folder
from configurations.hostile import written
from imports.written import OPTIONS

OWN_NAMES = b"""ATTRIBUTE User-Name 1 string
ATTRIBUTE NAS-Port 5 integer
ATTRIBUTE Service-Type 6 integer
ATTRIBUTE Filter-Id 11 string
ATTRIBUTE Class 25 octets
ATTRIBUTE Session-Timeout 27 integer
ATTRIBUTE Acct-Terminate-Cause 49 integer
ATTRIBUTE Event-Timestamp 55 date
ATTRIBUTE Tunnel-Type 64 integer has_tag
ATTRIBUTE Tunnel-Private-Group-Id 81 string has_tag
ATTRIBUTE Framed-IPv6-Prefix 97 ipv6prefix
ATTRIBUTE Login-IPv6-Host 98 ipv6addr
ATTRIBUTE MIP6-Feature-Vector 124 integer64
ATTRIBUTE Prefix 1003 string
ATTRIBUTE Group 1005 string
ATTRIBUTE Virtual-Server 1066 string
VALUE Acct-Terminate-Cause Session-Timeout 5
VALUE Tunnel-Type VLAN 13
"""


def asked(condition: str) -> str:
    return f"if ({condition}) {{\nreject\n}}\n"


def replied(line: str, own: str = "reply") -> str:
    return f"update {own} {{\n{line}\n}}\n"


def chosen(case: str, name: str = "User-Name") -> str:
    return f"switch &{name} {{\ncase {case} {{\nreject\n}}\n}}\n"


OK_RETURNS = "ok {\nok = return\n}\n"
# Statements, and a line that the policy has of each.
MEANT: Dict[str, str] = {
    asked("&reply:User-Name == request:User-Name"): "if (&reply:User-Name == &User-Name) {",
    asked("&User-Name != Reply:FILTER-ID"): "if (&User-Name != &reply:Filter-Id) {",
    asked("&NAS-Port < Attr-6"): "if (&NAS-Port < &Service-Type) {",
    asked("&User-Name == Filter-Id[0]"): "if (&User-Name == &Filter-Id) {",
    asked("&Acct-Terminate-Cause == Session-Timeout"): "if (&Acct-Terminate-Cause == &Session-Timeout) {",
    asked("&Acct-Terminate-Cause == 'Session-Timeout'"): "if (&Acct-Terminate-Cause == Session-Timeout) {",
    asked("&User-Name == outer.request:User-Name"): "if (&User-Name == &control:Outer-Request-User-Name) {",
    chosen("Filter-Id"): "if (&User-Name == &Filter-Id) {",
    chosen("config:Filter-Id"): "if (&User-Name == &control:Filter-Id) {",
    chosen("filter"): 'if (&User-Name == "filter") {',
    replied("Filter-Id := User-Name"): "Filter-Id := &User-Name",
    replied("Filter-Id += Attr-1"): "Filter-Id += &User-Name",
    replied("Filter-Id := NAS-Port"): 'Filter-Id := "%{NAS-Port}"',
    replied("Filter-Id := session-state:Filter-Id"): "Filter-Id := &control:Session-State-Filter-Id",
    replied("Acct-Terminate-Cause := Session-Timeout"): "Acct-Terminate-Cause := &Session-Timeout",
    replied("Filter-Id := 'User-Name'"): 'Filter-Id := "User-Name"',
    replied("Filter-Id := User-Name:1"): "Filter-Id := User-Name:1",
    replied("Filter-Id := User-Names"): "Filter-Id := User-Names",
    replied("Tunnel-Type := 0x0d"): "Tunnel-Type := 13",
    replied('Tunnel-Type:1 += "0xD"'): "Tunnel-Type:1 += 13",
    replied("MIP6-Feature-Vector := 0x10"): "MIP6-Feature-Vector := 0",
    replied("MIP6-Feature-Vector += '0x1f'"): 'MIP6-Feature-Vector += "0"',
    asked("&MIP6-Feature-Vector == 0x10"): "if (&MIP6-Feature-Vector == 0) {",
    asked('"%{MIP6-Feature-Vector}" < "0x10"'): "if (&MIP6-Feature-Vector < 0) {",
    chosen("0x10", "MIP6-Feature-Vector"): "if (&MIP6-Feature-Vector == 0) {",
    replied("Class := 0X6162"): "Class := 0x6162",
    replied('Class := "0X6%{NAS-Port}"'): 'Class := "0x6%{NAS-Port}"',
    asked("&Class != '0X6162'"): "if (&Class != 0x6162) {",
    replied("Filter-Id := 0X6162"): "Filter-Id := 0X6162",
    asked("&User-Name =~ /^é+x/"): "if (&User-Name =~ /^\\xc3\\xa9+x/) {",
    asked("&User-Name =~ /é|(é)+|aé{2}b|ü?/"): "if (&User-Name =~ /é|(é)+|a\\xc3\\xa9{2}b|\\xc3\\xbc?/) {",
    asked('&User-Name =~ /(.)/ && "%{1}" =~ /^é*/'): 'if (&User-Name =~ /(.)/ && "%{1}" =~ /^\\xc3\\xa9*/) {',
    replied(r'Filter-Id := "\045{User-Name}"'): 'Filter-Id := "%%{User-Name}"',
    replied('Filter-Id := "%{Config:Filter-Id}"'): 'Filter-Id := "%{control:Filter-Id}"',
    replied("Filter-Id := &config:Filter-Id"): "Filter-Id := &control:Filter-Id",
    replied('Class := "c%{%{User-Name}:-none}"'): 'Class := "c%{User-Name}"',
    replied('Class := "%{%{User-Name}:-none}"') + "ok\n": 'Class := "none"',
    "if (&User-Name) {\nok {\nok = reject\n}\n}\nok\n": "reject",
    "noop\n" + OK_RETURNS: "ok",
}
# Statements that are left out, and why.
LEFT: Dict[str, str] = {
    asked("&User-Name == Tunnel-Private-Group-Id:1"): "a tag",
    asked("&User-Name == Filter-Id[1]"): "an instance by its number",
    asked("&User-Name == NAS-Port"): "attributes of different types",
    asked("&User-Name == current.User-Name"): "an attribute that no dictionary has",
    asked("&User-Name == Attr-999999"): "an attribute that no dictionary has",
    asked("&Tunnel-Type == 0x0d"): "a value whose text is octets here",
    chosen("NAS-Port"): "attributes of different types",
    replied("Filter-Id := Tunnel-Private-Group-Id:1"): "a tag",
    replied("Filter-Id := Filter-Id[*]"): "an instance by its number",
    replied("Session-Timeout := User-Name"): "types differ",
    replied("Class := User-Name"): "types differ",
    replied(r'Filter-Id := "a\\%{User-Name}"'): "an expansion that policies do not have",
    replied(r'Class := "a\134%{User-Name}"'): "an expansion that policies do not have",
    asked(r'"a\%{User-Name}" == "b"'): "an expansion that policies do not have",
    replied('Filter-Id := "%{config:prefix}"'): "an expansion that policies do not have",
    replied('Filter-Id := "%{%{config:Filter-Id}:-none}"'): "an expansion that policies do not have",
    asked('"%{config:Filter-Id}" == "x"'): "an expansion that policies do not have",
    asked('"%{config:Filter-Id}" =~ /x/'): "a regular expression for a text with an expansion",
    replied(r'Filter-Id := "%{NAS-Port}\045{User-Name}"'): "an expansion that policies do not have",
    replied(r'Filter-Id := "100%% \445n"'): "an expansion that policies do not have",
    asked(r'"\045{User-Name}" == "bob"'): "an expansion that policies do not have",
    OK_RETURNS + "noop\n": "what is done after a module's code",
    "ok {\nok = 1\n}\n": "what is done after a module's code",
}
# Statements that are kept, and what a server does otherwise.
TOLD: Dict[str, str] = {
    asked(r"&User-Name =~ /([a-z]*\.?)*/"): "what is repeated may be empty",
    asked(r"&User-Name =~ /(a*|b)+/"): "what is repeated may be empty",
    asked(r"&User-Name =~ /((?i)a?)*/"): "what is repeated may be empty",
    asked(r"&User-Name =~ /(x|\b|y){2,}/"): "what is repeated may be empty",
    asked(r"&User-Name =~ /a{1, 2}/"): "braces with a blank in them are text",
    asked(r"&User-Name =~ /[[:<:]]b/"): "are the edges of a word",
    asked(r"&User-Name =~ /b[[:>:]]/"): "are the edges of a word",
    asked(r"&User-Name =~ /[--a]/"): "-- and ~~ are signs by themselves",
    asked(r"&User-Name =~ /[+--]/"): "-- and ~~ are signs by themselves",
    asked('"%{Filter-Id}-" == "-"'): "[text-numbers]",
    replied('Tunnel-Private-Group-Id:1 := ""'): "[empty-tagged]",
    replied("Framed-IPv6-Prefix -= 2001:db8::/32", "request"): "[short-prefix]",
    replied('Class := "%{User-Name}"'): "[escaped-octets]",
    replied('Filter-Id := "%{Login-IPv6-Host}"', "control") * 2: "[dotted-address]",
    asked(r"!(&Login-IPv6-Host =~ /^::10\.1/)"): "[dotted-address]",
    asked('&User-Name && "a%{Framed-IPv6-Prefix}" == "a%{User-Name}"'): "[dotted-address]",
    replied("MIP6-Feature-Vector := 0x10"): "[hexadecimal-number]",
    asked("!(&NAS-Port == 1) || &User-Name =~ /x/ && &MIP6-Feature-Vector == 0x10"): "[hexadecimal-number]",
    chosen("0x10", "MIP6-Feature-Vector"): "[hexadecimal-number]",
    asked("&User-Name =~ /^b/m"): "[line-start]",
    asked("&User-Name =~ /(?m)^b/"): "[line-start]",
    asked("&User-Name =~ /(?-i:a)(?im:(b)^c)/"): "[line-start]",
    asked("&User-Name =~ /a((?m)b|^c)/"): "[line-start]",
    replied('Filter-Id := "%{Event-Timestamp}"', "control") * 2 + replied("Tunnel-Type := VLAN"): "[date-zone]",
    asked("!(&Event-Timestamp =~ /2026/)"): "[date-zone]",
    asked('&User-Name && "a%{Event-Timestamp}" == "a%{User-Name}"'): "[date-zone]",
}
# Those of which nothing is told.
UNTOLD = [
    asked(r"&User-Name =~ /(a+\.?)*(?P<x>b[*]?)+([c|]?)?(d|e){2}/"),
    asked("&User-Name =~ /a{1,2}[{1, 2}]/"),
    asked("&User-Name =~ /[[:alpha:]]<:/"),
    replied('Tunnel-Private-Group-Id:1 := ""', "control"),
    replied('Class := "x%{NAS-Port}"'),
    replied('Filter-Id := "x%{User-Name}"', "control"),
    replied('Tunnel-Private-Group-Id:1 := "a"'),
    replied("Framed-IPv6-Prefix := 2001:db8::/32"),
    replied("Login-IPv6-Host := ::10.1.2.3"),
    replied("MIP6-Feature-Vector := 16"),
    replied("NAS-Port := 0x10"),
    asked('&MIP6-Feature-Vector == 16 && &User-Name == "0x10"'),
    asked("&User-Name =~ /é+/ && &User-Name =~ /(é)+é/"),
    asked("&User-Name =~ /(?m:a)^b/"),
    asked("&User-Name =~ /((?m)a)(?<m>b)(?P<n>^c)/"),
    asked("&User-Name =~ /(?m)(?-m)^b/"),
    asked(r"&User-Name =~ /(?m)[^b]\^/"),
    replied('Filter-Id := "%{Event-Timestamp}"'),
]
# Statements that keep their text by `--plain`, and what is told of them then.
TOLD_PLAIN: Dict[str, str] = {
    asked("&User-Name =~ /^é+/"): "[repeated-octet]",
    asked("&User-Name =~ /aé?b|(é){2}/"): "[repeated-octet]",
    asked("&User-Name =~ /(é)+é|[+]é/"): "",
    replied("MIP6-Feature-Vector := 0x10"): "[hexadecimal-number]",
    asked("&MIP6-Feature-Vector == 0x10"): "[hexadecimal-number]",
    replied("Tunnel-Type := 0x0d"): "[hexadecimal-number]",
    replied("Tunnel-Type := 0x0000000d"): "",
}
# Statements that are kept, and the warnings of policies that the report has of them.
WARNED_OF: Dict[str, str] = {
    asked('&Group == "staff"'): "module-comparison",
    asked('"%{Prefix}" != "x"'): "module-comparison",
    "switch &Group {\ncase staff {\nreject\n}\n}\n": "module-comparison",
    asked('&Virtual-Server == "default"'): "virtual-attribute",
    asked("&User-Name == Virtual-Server"): "virtual-attribute",
    replied('Filter-Id := "%{Virtual-Server}"', "control"): "virtual-attribute",
    asked("&User-Name && &User-Name == &Group"): "",
}
# A statement that is refused whole sets no tag for the lines behind it.
TAGGED = """if (&User-Name) {
	update reply {
		Tunnel-Type:2 := VLAN
	}
	%s
}
update reply {
	Tunnel-Type:1 := VLAN
}
"""


def import_of(subject: Subject, folder: Path, statements: str, words: Sequence[str] = ()) -> Tuple[List[str], str]:
    """The lines of the policy that statements become, without what is before them, and the report."""
    written(folder, {"names": OWN_NAMES, "site": f"authorize {{\n{statements}}}\n".encode()})
    command = [subject.driver("radpolicy_import"), "--dict", "names", *OPTIONS, *words, "site"]
    ended = run(command, folder)
    policy = (folder / "policy").read_text() if ended.status == 0 else ""
    return [line.strip() for line in policy.splitlines()], ended.errors.decode()


def check_meant(subject: Subject, report: Report) -> None:
    """Statements as a server takes them: what the policy has of each, or why it has none, or what is told of it."""
    for statement, wanted in MEANT.items():
        with new_folder() as folder:
            lines, said = import_of(subject, folder, statement)
            is_right = wanted in lines and "left out" not in "".join(lines)
            report.check(f"imported as it is meant: {statement!r}", [] if is_right else [f"{lines}, {said}"])
    for statement, wanted in LEFT.items():
        with new_folder() as folder:
            lines, said = import_of(subject, folder, statement)
            is_right = f": {wanted}" in said and any(line.startswith(f"# left out, {wanted}: ") for line in lines)
            report.check(f"left out: {statement!r}", [] if is_right else [f"{lines}, {said}"])


def check_told(subject: Subject, report: Report) -> None:
    rows = [(statement, wanted, ()) for statement, wanted in TOLD.items()]
    rows += [(statement, "", ()) for statement in UNTOLD]
    rows += [(statement, wanted, ("--plain",)) for statement, wanted in TOLD_PLAIN.items()]
    for statement, wanted, words in rows:
        with new_folder() as folder:
            lines, said = import_of(subject, folder, statement, words)
            told = [line for line in said.splitlines() if ": kept, but " in line and "before a line feed" not in line]
            # (it is not told once more as what policies are warned of)
            is_right = (len(told) == 1 and wanted in told[0] and said.count(wanted) == 1) if wanted else not told
            is_kept = lines and "left out" not in "".join(lines)
            title = " ".join([f"told of {statement!r}" if wanted else f"nothing told of {statement!r}", *words])
            report.check(title, [] if is_right and is_kept else [f"{lines}, {said}"])


def check_warned_of(subject: Subject, report: Report) -> None:
    for statement, wanted in WARNED_OF.items():
        with new_folder() as folder:
            lines, said = import_of(subject, folder, statement)
            told = re.findall(r": kept, with .*\[([a-z-]+)\]: ", said)
            is_right = told == ([wanted] if wanted else []) and lines and "left out" not in "".join(lines)
            report.check(f"{wanted or 'nothing'} told of {statement!r}", [] if is_right else [f"{lines}, {said}"])


def check_taken_back(subject: Subject, report: Report) -> None:
    """What a statement sets that is refused as a whole does not count for later lines."""
    deep = "if (&User-Name) {\n" * 61 + "if (!(&NAS-Port == 1)) {\nok\n}\n" + "}\n" * 61
    with new_folder() as folder:
        lines, said = import_of(subject, folder, TAGGED % deep, ["--papers"])
        is_right = "Tunnel-Type := 0x0100000d" in lines and "Tunnel-Type := 0x0200000d" not in lines
        report.check("a line behind a statement that is left out", [] if is_right else [f"{lines}, {said}"])
    with new_folder() as folder:
        lines, said = import_of(subject, folder, TAGGED % "ok", ["--papers"])
        is_right = "Tunnel-Type := 0x0200000d" in lines and "Tunnel-Type := 0x0100000d" not in lines
        report.check("a line behind a statement that is kept", [] if is_right else [f"{lines}, {said}"])


def check(subject: Subject, report: Report) -> None:
    check_meant(subject, report)
    check_told(subject, report)
    check_warned_of(subject, report)
    check_taken_back(subject, report)
