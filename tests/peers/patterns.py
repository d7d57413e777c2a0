"""Regular expressions beside a FreeRADIUS server: of which requests conditions hold, and which are refused."""
import shutil
import subprocess
from pathlib import Path
from typing import Dict, Iterable, List, NamedTuple, Set, Tuple

from common.documents import told
from common.program import run
from common.report import Report
from common.subject import Subject, new_folder, on_all
from peers.client import CLIENT, SECRET, dictionaries_of
from peers.wider import DICTIONARY, SECONDS, SERVER, configure, free_port, of_program, of_server, server

# The names of requests, and their lines.
REQUESTS = {
    "plain": 'User-Name = "bob", Filter-Id = "gold", Filter-Id = "silver", Called-Station-Id = "02-00-00-00-00-01:a b"',
    "realm": 'User-Name = "Bob@Example.org", Filter-Id = "silver", NAS-Identifier = "north-7"',
    "dots": 'User-Name = "bob@example..org.", Filter-Id = "a/b", NAS-Identifier = "7"',
    "two realms": 'User-Name = "bob@one@two", Filter-Id = "", Calling-Station-Id = "0200.0000.0001"',
    "blanks": 'User-Name = "bob smith \\"the\\" one", Filter-Id = "a b", NAS-Identifier = "north/7"',
    "backslash": 'User-Name = "EXAMPLE\\\\bob", Filter-Id = "gold\\\\", NAS-Identifier = "100%{1}"',
    "two lines": 'User-Name = "bob\\neve", Filter-Id = "\\tgold", NAS-Identifier = "north\\r\\nseven"',
    "line at its end": 'User-Name = "bob\\n", Filter-Id = "silver\\n", NAS-Identifier = "bob@\\n"',
    "no text": 'User-Name = "b\\351b", Filter-Id = "\\377\\001", NAS-Identifier = "\\303\\251"',
    "signs": 'User-Name = "a+b<c>[d]&&e~~f#g\'h", Filter-Id = "{2,3}", NAS-Identifier = "$1.50|^"',
    "long": f'User-Name = "{"ab" * 126}", Filter-Id = "{"a" * 253}"',
    "absent": 'NAS-Port = 7, NAS-IP-Address = 192.168.1.16, Service-Type = Framed-User, Class = 0x0a1b'
    ', Framed-IPv6-Prefix = 2001:db8::/32, NAS-IPv6-Address = 2001:db8::1, Framed-Interface-Id = 1:2:3:4'
    ', Tunnel-Type:1 = VLAN',
}
# What the two agree on, of each of the requests.
SAME = r"""
&User-Name =~ /bob/
User-Name =~ /bob/
&request:User-Name =~ /bob/
&User-Name !~ /bob/
&User-Name=~/bob/
&User-Name =~ /BOB/
&User-Name =~ /BOB/i
&User-Name =~ /^bob/
&User-Name =~ /^eve/
&User-Name =~ /^eve/m
&User-Name =~ /bob$/m
&User-Name =~ /^BOB$/im
&User-Name =~ /^BOB$/mi
&User-Name =~ /\Abob\z/
&User-Name =~ / /
&User-Name =~ /@[^@]*@/
&User-Name =~ /\.\./
&User-Name =~ /@\./
&User-Name =~ /@|\\/
&User-Name =~ /^[^@\\]+\\[^@\\]+/
&User-Name =~ /[A-Z]/
&User-Name =~ /[[:upper:]]/
&User-Name =~ /[[:^alpha:]]/
&User-Name =~ /[^[:alnum:]]/
&User-Name =~ /\w+@\w+\.\w+/
&User-Name =~ /\W/
&User-Name =~ /\s/
&User-Name =~ /\S\s\S/
&User-Name =~ /\d/
&User-Name =~ /^\D+$/m
&User-Name =~ /\bbob\b/
&User-Name =~ /b\Bo/
&User-Name =~ /b.b/
&User-Name =~ /b[^b]b/
&User-Name =~ /bob.eve/
&User-Name =~ /(?s)bob.eve/
&User-Name =~ /bob\neve/
&User-Name =~ /(?i)BOB/
&User-Name =~ /(?i:B)ob/
&Service-Type =~ /(?i)u/
&Service-Type =~ /\(?user/i
&User-Name =~ /(?m)^eve/
&User-Name =~ /\xe9/
&User-Name =~ /[\x80-\xff]/
&User-Name =~ /^(ab){2,}$/m
&User-Name =~ /^(ab){126}\z/
&User-Name =~ /(?:ab){127}/
&User-Name =~ /o{1,2}/
&User-Name =~ /bo??b/
&User-Name =~ /^.*?@/
&User-Name =~ /(bob|eve)/
&User-Name =~ /^(bob|)/
&User-Name =~ /(?P<name>bob)@/
&User-Name =~ /(?<name>bob)@/
&User-Name =~ /a\+b<c>\[d\]&&e~~f/
&User-Name =~ /#g'h/
&User-Name =~ /"the"/
&User-Name =~ /[.@]/
&User-Name =~ /[]d]/
&User-Name =~ /[a-]+/
&User-Name =~ /x*/
&Filter-Id =~ /gold/
&Filter-Id =~ /silver/
&Filter-Id !~ /silver/
&Filter-Id =~ /\//
&Filter-Id =~ /^a[\/ ]b/
&Filter-Id =~ /\\/
&Filter-Id =~ /\t/
&Filter-Id =~ /\{2,3\}/
&Filter-Id =~ /^\xff\x01$/m
&NAS-Identifier =~ /^[a-z]+-[0-9]$/m
&NAS-Identifier =~ /\$1\.50\|\^/
&NAS-Identifier =~ /100\%/
&NAS-Identifier =~ /\r\n/
&Called-Station-Id =~ /^([0-9a-f]{2})[-:]?([0-9a-f]{2})[-:.]?(.{2}).*:(.+)/i
&Calling-Station-Id =~ /^([0-9a-f]{4})\.([0-9a-f]{4})\.([0-9a-f]{4})\z/i
&reply:Filter-Id =~ /gold/
&control:Filter-Id =~ /^given/
&control:Filter-Id !~ /^given/
(&User-Name =~ /@/) && (&User-Name !~ /@(.+)\.(.+)/)
(&User-Name =~ /gold/) || (&User-Name =~ /@/)
(&User-Name =~ /@/) && (&User-Name !~ /@(.+)\.(.+)$/)
&Filter-Id && (&Filter-Id =~ /gold/)
&Filter-Id && !(&Filter-Id =~ /gold/)
&User-Name && (!(&User-Name =~ /bob/) || (&User-Name =~ /eve/))
&NAS-Port =~ /7/
&NAS-Port =~ /^7$/
&NAS-Port !~ /8/
&NAS-IP-Address =~ /^192/
&NAS-IP-Address !~ /^10\./
&Service-Type =~ /^Framed-User$/
&Service-Type =~ /2/
&Class =~ /^0x0a1b$/
&Class !~ /A/
&Framed-IPv6-Prefix =~ /^2001:db8::\/32$/
&NAS-IPv6-Address =~ /::1$/
&Framed-Interface-Id =~ /^1:2:3:4$/
&Tunnel-Type =~ /^VLAN$/
&Tunnel-Type:1 =~ /VLAN/
&Tunnel-Type:2 =~ /VLAN/
"%{User-Name}" =~ /bob/
"%{Calling-Station-Id}" !~ /02/
!("%{Calling-Station-Id}" =~ /02/)
"""


class Difference(NamedTuple):
    """A condition that holds of some requests here or on a server, and not on the other: a row of SERVER.md."""

    condition: str
    requests: Set[str]


NO_CALLER = set(REQUESTS) - {"two realms"}
BOBS = {"plain", "dots", "two realms", "blanks", "backslash", "two lines", "line at its end"}
DIFFERENT = [
    Difference(r"&User-Name =~ /^bob$/", {"line at its end"}),
    Difference(r"&Filter-Id !~ /r$/", {"line at its end"}),
    Difference(r"&Filter-Id =~ /^$/m", {"line at its end"}),
    Difference(r"&Filter-Id =~ /(?m)^$/", {"line at its end"}),
    Difference(r"&User-Name =~ /\<bob\>/", BOBS),
    Difference(r"&User-Name =~ /\b{start}bob/", BOBS),
    Difference(r"&Filter-Id =~ /[[d]]/", {"plain", "backslash", "two lines"}),
    Difference(r"&User-Name =~ /[b&&c]ob/", BOBS),
    Difference(r"&NAS-Identifier =~ /[n~~n]orth/", {"realm", "blanks", "two lines"}),
    Difference(r"&NAS-Identifier =~ /\x{e9}/", {"no text"}),
    Difference(r"&NAS-Identifier =~ /^é?north/", {"realm", "blanks", "two lines"}),
    Difference(r"&User-Name =~ /\v/", {"two lines", "line at its end"}),
    Difference(r"&User-Name =~ /(ab)++ab/", {"long"}),
    Difference(r"&User-Name =~ /b{1, 2}/", set(REQUESTS) - {"absent"}),
    Difference(r"&User-Name =~ /[[:<:]]bob/", BOBS),
    Difference(r"&User-Name =~ /bob[[:>:]]/", BOBS),
    Difference(r"&NAS-Identifier =~ /^[--a]/", {"dots", "backslash"}),
    Difference(r"&NAS-Identifier =~ /[+--]/", {"realm"}),
    Difference(r"&Called-Station-Id =~ /(?x):a[ _]b/", {"plain"}),
    Difference(r"&NAS-Identifier =~ /100%%/", {"backslash"}),
    Difference(r"!(&Calling-Station-Id =~ /2/)", NO_CALLER),
    Difference(r"(&Calling-Station-Id =~ /2/) || (&NAS-Port == 7)", {"absent"}),
]
# What a server takes, and the fault with which it is refused here.
TAKEN = {
    r"&User-Name =~ /bob(?=@)/": "E59",
    r"&User-Name =~ /(?<!b)o/": "E59",
    r"&User-Name =~ /(b)o\1/": "E59",
    r"&User-Name =~ /(?>b)o/": "E59",
    r"&User-Name =~ /\Qb.b\E/": "E59",
    r"&User-Name =~ /bob\Z/": "E59",
    r"&User-Name =~ /\h/": "E59",
    r"&User-Name =~ /\142/": "E59",
    r"&User-Name =~ /b{/": "E59",
    r"&User-Name =~ /[\w-.]/": "E59",
    r"&User-Name =~ /[[d]/": "E59",
    r"&User-Name =~ /b(?R)?o/": "E59",
    r"&User-Name =~ /[(?u)]/": "E59",
    r"&User-Name =~ /%{NAS-Port}/": "E58",
    r"&User-Name[*] =~ /bob/": "E50",
    r"&User-Name =~ /bob/ii": "E50",
    r'"%{User-Name}x" =~ /bobx/': "E61",
}
# What is taken here alone.
TAKEN_HERE = [r"&NAS-Identifier =~ /100%/", r"&User-Name =~ /[a--b]/"]
# What both refuse.
REFUSED = {
    r"&User-Name =~ //": "E56",
    r"&User-Name =~ /(bob/": "E59",
    r"&User-Name =~ /*bob/": "E59",
    r"&User-Name =~ /[bob/": "E59",
    r"&User-Name =~ /b{3,2}/": "E59",
    r"&User-Name =~ /[z-a]/": "E59",
    r"&User-Name =~ /(?u)^.$/": "E59",
    r"&User-Name =~ /b(?-u:o)b/": "E59",
    r"&User-Name =~ /b(?iu:o)b/": "E59",
    r"&User-Name =~ /bob/g": "E50",
    r"&User-Name =~ /bob/s": "E50",
    r"&User-Name =~ /bob/x": "E50",
    r"&User-Name =~ /bob/u": "E50",
    r"&User-Name =~ /bob": "E50",
    r'&User-Name =~ "bob"': "E50",
    r"&User-Name =~ bob": "E50",
    r"&User-Name !~ bob": "E50",
    r"&Nosuch-Name =~ /bob/": "E32",
}
# What a condition tells where it holds: the number of it.
TOLD = 'Reply-Message += "{at}"'
BEFORE = """update control {
Filter-Id := "given"
}
"""


def same() -> List[str]:
    return SAME.strip().splitlines()


def policy_of(conditions: Iterable[str]) -> str:
    """A policy that tells the number of each condition that holds."""
    said = [f"if ({text}) {{\nupdate reply {{\n{TOLD.format(at=at)}\n}}\n}}\n" for at, text in enumerate(conditions)]
    return BEFORE + "".join(said)


def written(policy: str) -> str:
    return "# profile: wider\n" + policy


def numbers(lines: Iterable[str]) -> Set[int]:
    """The conditions that were told."""
    return {int(line.split('"')[1]) for line in lines}


class Conditions(NamedTuple):
    """Requests by their names, conditions that hold of the same ones on both, and such that do not."""

    of: str
    requests: Dict[str, str]
    alike: List[str]
    different: List[Difference]


def check_held(subject: Subject, report: Report, folder: Path, asked: Conditions) -> None:
    """Each condition holds of the same requests on both, but for the differences, which are exactly those."""
    conditions = [*asked.alike, *(different.condition for different in asked.different)]
    (folder / "secret").write_text(SECRET + "\n")
    (folder / "policy").write_text(written(policy_of(conditions)))
    wanted = {different.condition: different.requests for different in asked.different}
    checked = run([subject.program, "check", "--policy", "policy", *dictionaries_of(subject, folder)], folder)
    report.check("the program takes the conditions", [checked.errors.decode()] if checked.status else [])
    port = free_port()
    with server(folder, port, policy_of(conditions)) as is_ready:
        report.check("a server takes the conditions", [] if is_ready else [(folder / "log").read_text()[-2000:]])
        if checked.status or not is_ready:
            return
        theirs: Dict[str, Set[int]] = {}
        ours: Dict[str, Set[int]] = {}
        for name, lines in asked.requests.items():
            theirs[name] = numbers(of_server(port, lines))
            ours[name] = numbers(of_program(subject, folder, lines))
    for at, condition in enumerate(conditions):
        found = {name for name in asked.requests if (at in theirs[name]) != (at in ours[name])}
        wrong = [f"a server's answer is another of {found}"] if found != wanted.get(condition, set()) else []
        report.check(f"{asked.of} beside a server: {condition}", wrong)


def is_taken_by_server(policy: str) -> bool:
    """Whether a server starts with the policy."""
    with new_folder() as folder:
        configure(folder, free_port(), policy)
        command = [SERVER, "-C", "-l", "stdout", "-d", str(folder)]
        ended = subprocess.run(command, stdout=subprocess.DEVNULL, stderr=subprocess.DEVNULL, timeout=SECONDS)
        return ended.returncode == 0


def fault_of(subject: Subject, policy: str) -> str:
    """The number of the fault with which the policy is refused; none where it is taken."""
    with new_folder() as folder:
        (folder / "policy").write_text(written(policy))
        (folder / "dictionary.local").write_text(DICTIONARY)
        words = ["check", "--policy", "policy", *dictionaries_of(subject, folder)]
        found = told(run([subject.program, *words], folder).errors)
        return found.number if found else ""


def check_refused(subject: Subject, report: Report, taken: Dict[str, str], refused: Dict[str, str], here: List[str]) -> None:
    """What is refused here, by its fault, and what of it by a server too."""
    asked: List[Tuple[str, str, bool]] = [(text, fault, True) for text, fault in taken.items()]
    asked += [(text, fault, False) for text, fault in refused.items()]
    asked += [(text, "", False) for text in here]
    policies = [policy_of([condition]) for condition, _, _ in asked]
    answers = on_all(lambda policy: (is_taken_by_server(policy), fault_of(subject, policy)), policies)
    for (condition, fault, is_taken), (is_taken_there, found) in zip(asked, answers):
        wrong = [f"here it is {f'refused as {found}' if found else 'taken'}"] if found != fault else []
        wrong += [f"a server {'takes' if is_taken_there else 'refuses'} it"] if is_taken_there != is_taken else []
        report.check(f"{f'refused as {fault}' if fault else 'taken here alone'}: {condition}", wrong)


def is_installed(report: Report, of: str) -> bool:
    """Whether there is a server to compare with."""
    if shutil.which(CLIENT) is None or shutil.which(SERVER) is None:
        report.say(f"{of} beside a server: not tried, there is no {SERVER} or no {CLIENT}")
        return False
    return True


def check(subject: Subject, report: Report) -> None:
    asked = Conditions("regular expressions", REQUESTS, same(), DIFFERENT)
    if not is_installed(report, asked.of):
        return
    with new_folder() as folder:
        check_held(subject, report, folder, asked)
    check_refused(subject, report, TAKEN, REFUSED, TAKEN_HERE)
