"""What regular expressions capture, beside a FreeRADIUS server: the groups after each condition, in the same run."""
import shutil
from typing import Dict, List

from common.report import Report
from common.subject import Subject, new_folder, on_all
from peers.client import CLIENT, SECRET
from peers.patterns import BEFORE, REQUESTS, fault_of, is_taken_by_server, same, written
from peers.wider import SERVER, free_port, of_program, of_server, server

# What evaluates several comparisons, or looks at what was captured before.
OTHERS = r"""
&User-Name =~ /^(b)?(B)?(o)/
&User-Name =~ /(b(o(b)))/
&User-Name !~ /(b)(o)/
&User-Name =~ /(a)(b)(a)(b)(a)(b)(a)(b)(a)/
(&User-Name =~ /(b)/) || (&User-Name =~ /(o)/)
(&User-Name =~ /(b)/) && (&Filter-Id =~ /(l)/)
(&User-Name =~ /(b)/) && (&Filter-Id !~ /(l)/)
!(&User-Name && (&User-Name !~ /(o)/))
(&User-Name =~ /(o)/) && "%{1}"
(&User-Name =~ /(q)?o/) && "%{1}"
"%{1}" || "%{2}"
!"%{1}"
"%{9}"
&NAS-Port
&User-Name && !(&User-Name =~ /(b)(ob)/)
&User-Name =~ /((a)|(b))+/
&User-Name =~ /(x)?(b)ob(@)?/
&User-Name =~ /^(([^@]*)@)?([^@]*)/
&User-Name =~ /(a*)*(b)/
&User-Name =~ /(?:b)(o)(?:b)(.?)/
&User-Name =~ /(b)(o)(b)(.)(.)(.)(.)(.)(.)(.)/
(&User-Name =~ /@(.*)/) || "%{1}"
&NAS-Port || "%{1}"
&Calling-Station-Id =~ /(.)/
&User-Name =~ /nosuch(.)/
"%{User-Name}" =~ /(b)(o)/
"%{Calling-Station-Id}" =~ /(x)?/
"%{Calling-Station-Id}" !~ /(x)?$/m
"%{Calling-Station-Id}" =~ /(.)/
("%{User-Name}" =~ /(b)(o)/) && ("%{1}" =~ /(.)/)
("%{User-Name}" =~ /(b)(o)/) && (("%{2}" =~ /(x)/) || ("%{1}" == ""))
("%{User-Name}" =~ /(b(.))(.)/) && ("%{1}" !~ /(.)(.)/)
("%{User-Name}" =~ /(b)(o)/) && ("%{1}%{2}" == "bo")
(&User-Name =~ /(b)/) && (&User-Name == "%{1}ob")
(&NAS-Port =~ /(.)/) && ("%{1}" == "07")
"%{0}" =~ /(.*)/
"%{1}" == "b"
&User-Name == "%{1}"
"%{1}" < "%{0}"
"""
# What captures otherwise here than on a server, and of which requests: rows of SERVER.md.
NO_CALLER = set(REQUESTS) - {"two realms", "absent", "long"}
BEGIN_WITH_B = {"plain", "dots", "two realms", "blanks", "two lines", "line at its end", "no text"}
DIFFERENT = {
    # An absent attribute ends the condition on a server, and here what comes after it captures.
    '((&Calling-Station-Id == "x") || (&User-Name =~ /b(.)/)) && &Calling-Station-Id': NO_CALLER,
    # What is repeated may be empty.
    r"&User-Name =~ /^([a-z]*\.?)*/": BEGIN_WITH_B | {"signs"},
    r"&User-Name =~ /(b*|o)*/": BEGIN_WITH_B,
}


def put(text: str) -> str:
    return f'update reply {{\nReply-Message += "{text}"\n}}\n'


def told_if(condition: str, text: str) -> str:
    return f"if ({condition}) {{\n{put(text)}}}\n"


def asked(condition: str) -> str:
    return told_if(condition, "asked")


# What a server takes, and the fault with which it is refused here.
TAKEN = {
    asked('"%{1}x"'): "E51",
    asked('"%{10}"'): "E32",
    put("%{10}"): "E32",
    put("%{32}"): "E32",
}
REFUSED = {put("%{33}"): "E32", asked("%{1}"): "E50"}
# A request's own value fills a message, and no group fits beside it.
TOO_LONG = "long"
GROUPS = " ".join(f"<%{{{group}}}>" for group in (0, 1, 2, 3, 9))
AT_ONCE = 9


def part_of(at: int, condition: str) -> str:
    """Tells whether a condition holds, what is captured after it, and whether the first group is there."""
    return told_if(condition, f"{at} holds") + put(f"{at} {GROUPS}") + told_if('"%{1}"', f"{at} has a group")


def policy_of(conditions: List[str]) -> str:
    return BEFORE + "".join(part_of(at, condition) for at, condition in enumerate(conditions))


def answers(subject: Subject, conditions: List[str]) -> Dict[str, List[List[str]]]:
    """Of each request what a server says and what the program says; nothing where the server does not start."""
    with new_folder() as folder:
        (folder / "secret").write_text(SECRET + "\n")
        (folder / "policy").write_text(written(policy_of(conditions)))
        port = free_port()
        with server(folder, port, policy_of(conditions)) as is_ready:
            if not is_ready:
                return {}
            sent = {name: lines for name, lines in REQUESTS.items() if name != TOO_LONG}
            return {name: [of_server(port, lines), of_program(subject, folder, lines)] for name, lines in sent.items()}


def check_same(subject: Subject, report: Report) -> None:
    conditions = [*same(), *OTHERS.strip().splitlines()]
    for at in range(0, len(conditions), AT_ONCE):
        several = conditions[at:at + AT_ONCE]
        said = answers(subject, several)
        wrong = [f"{name}: a server says {theirs}, not {ours}" for name, (theirs, ours) in said.items() if theirs != ours]
        report.check(f"captured as on a server: {several[0]}", wrong if said else ["the server does not start"])


def check_different(subject: Subject, report: Report) -> None:
    for condition, wanted in DIFFERENT.items():
        said = answers(subject, [condition])
        found = {name for name, (theirs, ours) in said.items() if theirs != ours}
        wrong = [] if said and found == wanted else [f"the two differ in {sorted(found)}, not in {sorted(wanted)}"]
        report.check(f"captured otherwise than on a server: {condition}", wrong)


def check_refused(subject: Subject, report: Report) -> None:
    policies = [(policy, fault, policy in TAKEN) for policy, fault in {**TAKEN, **REFUSED}.items()]
    found = on_all(lambda one: (is_taken_by_server(one[0]), fault_of(subject, one[0])), policies)
    for (policy, fault, is_taken), (is_taken_there, fault_here) in zip(policies, found):
        wrong = [] if fault_here == fault else [f"here it is {fault_here or 'taken'}"]
        wrong += [f"a server {'takes' if is_taken_there else 'refuses'} it"] if is_taken_there != is_taken else []
        report.check(f"refused as {fault}: {policy!r}", wrong)


def check(subject: Subject, report: Report) -> None:
    if shutil.which(CLIENT) is None or shutil.which(SERVER) is None:
        report.say(f"what is captured beside a server: not tried, there is no {SERVER} or no {CLIENT}")
        return
    check_same(subject, report)
    check_different(subject, report)
    check_refused(subject, report)
