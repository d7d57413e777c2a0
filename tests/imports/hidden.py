"""What `radpolicy-import` hides of a server's text: in the report, plain and as JSON, in the map, in templates and in the
comments of the policy; that the statements of the policy keep it; and what of a text may do something to a terminal."""
import json
import re
import time
from pathlib import Path
from random import Random
from typing import Dict, List, NamedTuple, Sequence, Tuple

from common.allowed import end_after
from common.program import Ended, run
from common.report import Report
from common.secrets import CONDITIONS, OCTETS, OCTETS_UPDATES, UPDATES, Attribute, attributes, dictionary, is_text, leaks
from common.secrets import filled
from common.subject import Subject, new_folder, on_all
from configurations.hostile import written
from imports.written import OPTIONS

COUNT = 2_000
SECONDS = 60.0
# Each leaves what it is joined to out, or may do so.
UNREAD = [" && &User-Name =~ /(?=x)/", ' && &No-Such == "x"', " && &outer.request:User-Name", ' && "%{{sql:SELECT 1}}" == "1"']
# Statements that a policy doesn't have, or not as they are, with a secret {v} beside a secret attribute {s}.
STATEMENTS = [
    'update {{ Tmp-String-1 := "%{{tolower:%{{{s}}}{v}}}" }}',
    'update reply {{ Reply-Message := "%{{sql:SELECT 1 WHERE \'%{{{s}}}\' = \'{v}\'}}" }}',
    'update control {{ No-Such := "%{{{s}}}{v}" }}',
    'update session-state {{ {s} := "{v}" }}',
    'update control {{ {s} := my {v} }}',
    'update {{ No-Such-Password := "{v}" }}',
    'update {{ &control:No-Such-Password += \'{v}\' }}',
    'update {{ Tmp-String-1 := "%{{ldap:ldap:///?password={v}}}" }}',
    'switch &{s} {{ case "{v}" {{ ok }} case {{ noop }} case {{ reject }} }}',
    'switch "%{{{s}}}" {{ case \'{v}\' {{ ok }} default {{ noop }} }}',
    'switch &{s} {{ case "%{{explode:&{s} {v}}}" {{ ok }} }}',
    '"%{{sql:INSERT \'%{{{s}}}\' \'{v}\'}}"',
    "foreach &{s} {{ update reply {{ Reply-Message += \"%{{Foreach-Variable-0}}{v}\" }} }}",
    'if (&No-Such-Secret == "{v}") {{ ok }}',
    'if ("%{{Tmp-String-0}}" == "{v}%{{tolower:x}}") {{ ok }}',
    "if (&Tmp-String-0 =~ /(?={v})/) {{ ok }}",
    'if ("%{{1}}" == "{v}" && &No-Such) {{ ok }}',
    'if (&Tmp-String-0[0] == "{v}" && &No-Such) {{ ok }}',
    'if ("%{{string:Tmp-String-0}}" == "{v}" && &No-Such) {{ ok }}',
    'if (&{s}[0] == "{v}" && &No-Such) {{ ok }}',
    'if ("%{{string:control:{s}}}" == "{v}" && &No-Such) {{ ok }}',
    'if (&Attr-26.40000.1 == "{v}" && &No-Such) {{ ok }}',
    'update {{ &control:{s}[0] := "{v}" }}',
    'update {{ &{s}[*] -= {v} }}',
    'update {{ Vendor-40000-Attr-1 := "{v}" }}',
    'update {{ No-Such := "psk\\075{v}" }}',
    'update {{ No-Such := "p\\163k={v}" }}',
    "update {{ No-Such := 0x{k} }}",
    "update {{ No-Such := '0x{k}0' }}",
    "update {{ No-Such-Password := a x = {v} }}",
    'update {{ No-Such-Password := a "{v}" b }}',
]
# Copies of a secret attribute {s}, into instances, out of them, and by functions, that a server makes.
COPIES = [
    'Tmp-String-0 := "%{{{s}}}"', "Tmp-String-0 := &{s}", "&Tmp-String-0 += &control:{s}", '&Tmp-String-0[0] := "%{{{s}}}"',
    "&request:Tmp-String-0[n] += &{s}[0]", '&control:Tmp-String-0[*] := "%{{control:{s}[*]}}"', "Tmp-String-0 := %{{{s}}}",
    'Tmp-String-0 := "%{{string:{s}}}"', 'Tmp-String-0 := "%{{string:control:{s}}}"', 'Tmp-String-0 := "%{{hex:&{s}}}"',
    'Tmp-String-0 := "a %{{tolower:%{{{s}}}}}"', 'Tmp-String-0 := "%{{md5:%{{%{{request:{s}}}:-x}}}}"',
    "Tmp-String-0 := `/bin/echo %{{{s}}}`", 'reply:Tmp-String-0 := "%{{concat:{s}[*] ;}}"',
]
CLOSED = "authorize {{\n{body}}}\n"
# A server ends a statement at the line's end, and has no comments in a condition.
ONE_LINE = [it for it in CONDITIONS if "\n" not in it]
LINES = [it for it in UPDATES if "\n" not in it and not it.startswith("& ") and it.count("User-Name :=") == 0]


class Site(NamedTuple):
    """A section of a server, and the secrets in it."""

    text: str
    secrets: List[bytes]


def with_secret(rng: Random, template: str, attribute: Attribute, secrets: List[bytes]) -> str:
    text, secret = filled(rng, template, attribute)
    secrets += [secret.encode()] if secret else []
    return text


def statement(rng: Random, attribute: Attribute, secrets: List[bytes]) -> str:
    drawn = rng.random()
    if drawn < 0.35:
        text = with_secret(rng, rng.choice(STATEMENTS), attribute, secrets)
        return text.replace("{ ", "{\n", 1).replace(" }", "\n}")
    if drawn < 0.7:
        template = rng.choice(ONE_LINE if is_text(attribute) else OCTETS) + rng.choice(["", *UNREAD])
        return f"if ({with_secret(rng, template, attribute, secrets)}) {{\nok\n}}"
    lines = rng.choice(LINES if is_text(attribute) else OCTETS_UPDATES)
    return f"update {rng.choice(['', 'control', 'reply'])} {{\n{with_secret(rng, lines, attribute, secrets)}\n}}"


def new_site(seed: int) -> Site:
    """A section with secrets of attributes that are drawn, copies and captures of them."""
    rng = Random(seed)
    secrets: List[bytes] = []
    copied = rng.choice([it for it in attributes() if is_text(it)])
    body = [f"update {{\n{rng.choice(COPIES).format(s=copied.name)}\n}}", f"if (&{copied.name} =~ /(.)(.*)/) {{\nok\n}}"]
    body += [statement(rng, rng.choice(attributes()), secrets) for _ in range(rng.randint(2, 6))]
    rng.shuffle(body)
    return Site(CLOSED.format(body="\n".join(body) + "\n"), secrets)


def imported(subject: Subject, folder: Path, words: Sequence[str]) -> Ended:
    return run([subject.driver("radpolicy_import"), "--dict", "dictionary", *words, "site"], folder)


def contents(folder: Path, name: str) -> bytes:
    return (folder / name).read_bytes() if (folder / name).exists() else b""


def comments_of(policy: bytes) -> bytes:
    """Its lines that are comments, and the comments that lines end in."""
    return b"\n".join(it.partition(b"#")[2] if it.lstrip().startswith(b"#") else it.partition(b"  # ")[2] for it in policy.split(b"\n"))


def statements_of(policy: bytes) -> bytes:
    """What it says without comments, of lines that end in none."""
    return b"\n".join(it for it in policy.split(b"\n") if not it.lstrip().startswith(b"#"))


def secret_faults(subject: Subject, seed: int) -> List[str]:
    site = new_site(seed)
    with new_folder() as folder:
        written(folder, {"dictionary": dictionary().encode(), "site": site.text.encode()})
        whole = imported(subject, folder, ["--json", "--stub-functions", *OPTIONS])
        outputs = [whole.output, whole.errors, contents(folder, "map"), contents(folder, "template")]
        policy = contents(folder, "policy")
        plain = imported(subject, folder, [])
        outputs += [comments_of(policy), plain.errors, comments_of(plain.output)]
        found = leaks(b"\n".join(outputs), site.secrets)
        found += [] if (whole.status, plain.status) == (0, 0) else [f"{whole.errors!r}, {plain.errors!r}"]
        if seed % 10 == 0:
            shown = imported(subject, folder, ["--show-secrets", "--map", "shown.map"])
            same = imported(subject, folder, ["--map", "other.map"])
            found += [] if statements_of(shown.output) == statements_of(same.output) else ["other statements than with --show-secrets"]
        return [f"{seed}: {it}" for it in found]


def check_random(subject: Subject, report: Report) -> None:
    """Sections at random, over all secret attributes of the dictionaries that are installed; as many as there is time."""
    until = end_after(SECONDS)
    tried = on_all(lambda seed: secret_faults(subject, seed) if time.monotonic() < until else None, range(COUNT))
    found = [it for it in tried if it is not None]
    faults = [fault for faults in found for fault in faults]
    report.check(f"nothing secret in reports, maps, templates and comments of {len(found)} imports", faults)


class Row(NamedTuple):
    """What stands in a section, and what the report or a comment shows of it."""

    body: str
    shown: str
    words: Tuple[str, ...] = ()


ROWS: Dict[str, Row] = {
    "a line": Row("update {\nNo-Such-Password := \"hunter2x\"\n}", "No-Such-Password := (hidden)"),
    "a line that is kept and told of": Row(
        "update reply {\nTunnel-Password := \"" + 254 * "h" + "\"\n}", "[long-text]: Tunnel-Password := (hidden)"),
    "a condition": Row(
        'if (&User-Password == "hunter2x" && &No-Such) {\nok\n}', "if (&User-Password == (hidden) && &No-Such)"),
    "a text before the sign": Row(
        'if (\'hunter2x\' == &User-Password && &User-Name =~ /(?=a)/) {\nok\n}',
        "if ((hidden) == &User-Password && &User-Name =~ (hidden))"),
    "a text with the attribute in it": Row(
        'if ("%{User-Password}" =~ /(?=hunter2x)/) {\nok\n}', "if ((hidden) =~ (hidden))"),
    "a text of another list": Row(
        'if (&outer.request:User-Password == "hunter2x") {\nok\n}', "if (&outer.request:User-Password == (hidden))"),
    "a copy": Row(
        'update {\nTmp-String-0 := &User-Password\n}\nif (&Tmp-String-0 =~ /(?=hunter2x)/) {\nok\n}',
        "if (&Tmp-String-0 =~ (hidden))"),
    "a copy into an instance": Row(
        'update {\n&Tmp-String-0[n] := &User-Password\n}\nif (&Tmp-String-0 == "hunter2x" && &No-Such) {\nok\n}',
        "if (&Tmp-String-0 == (hidden) && &No-Such)"),
    "a copy by a function of a list's attribute": Row(
        'update {\nTmp-String-0 := "%{string:control:Cleartext-Password}"\n}\n'
        'if (&Tmp-String-0 == "hunter2x" && &No-Such) {\nok\n}',
        "if (&Tmp-String-0 == (hidden) && &No-Such)"),
    "an attribute by a number that no dictionary has": Row(
        'if (&Attr-26.40000.1 == "hunter2x" && &No-Such) {\nok\n}', "if (&Attr-26.40000.1 == (hidden) && &No-Such)"),
    "such a number in a server's words": Row(
        'update reply {\nVendor-40000-Attr-1 := "hunter2x"\n}', "Vendor-40000-Attr-1 := (hidden)"),
    "a key with a sign spelled by an escape": Row(
        'update reply {\nNo-Such := "psk\\075hunter2x"\n}', "No-Such := (hidden)"),
    "a key spelled by an escape": Row('update reply {\nNo-Such := "p\\163k=hunter2x"\n}', "No-Such := (hidden)"),
    "a key spelled by digits": Row(
        f"update reply {{\nNo-Such := 0x{b'psk=hunter2x'.hex()}\n}}", "No-Such := (hidden)"),
    "such digits between quotes": Row(
        f"update reply {{\nNo-Such := '0x{b'psk=hunter2x'.hex()}'\n}}", "No-Such := (hidden)"),
    "what follows a value with a sign": Row("update {\nNo-Such-Password := a x = hunter2x\n}", "(hidden)"),
    "what follows a value behind a line that goes on": Row("update {\nNo-Such-Password := a \\\nx = hunter2x\n}", "(hidden)"),
    "what follows it two lines on": Row("update {\nNo-Such-Password := a\\\r\n \\\n x = hunter2x\n}", "(hidden)"),
    "what follows what follows it": Row("update {\nNo-Such-Password := a x = y \\\nz = hunter2x\n}", "(hidden)"),
    "what follows what follows it on a line": Row("update {\nNo-Such-Password := a x = y z = hunter2x\n}", "(hidden)"),
    "what stands below such a value": Row(
        "update {\nNo-Such-Password := a\nNo-Such := hunter2x\n}", "No-Such := hunter2x"),
    "what stands below a line that goes on": Row(
        "update {\nNo-Such-Password := a \\\n\nNo-Such := hunter2x\n}", "No-Such := hunter2x"),
    "what follows a value with a brace": Row('update {\nNo-Such-Password := a "hunter2x" {\n}\n}', "(hidden)"),
    "a capture": Row(
        'if (&User-Password =~ /(.*)/) {\nok\n}\nif ("%{1}" == "hunter2x" && &No-Such) {\nok\n}',
        "if ((hidden) == (hidden) && &No-Such)"),
    "an expansion": Row('"%{sql:INSERT \'%{User-Password}\', \'hunter2x\'}"', "an expansion by itself, (hidden)"),
    "a bare expansion": Row(
        "%{sql:INSERT '%{User-Password}', 'hunter2x'}", "an expansion by itself, %{sql:(hidden)}"),
    "a bare word with an expansion": Row("hunter2x%{User-Password}", "module (hidden)"),
    "a bare word that reads like a name": Row(
        'if (&User-Password == hunter2xsecret && &No-Such) {\nok\n}', "if (&User-Password == (hidden) && &No-Such)"),
    "a bare word beside a text": Row(
        'if ("%{User-Password}" == hunter2x-key && &No-Such) {\nok\n}', "if ((hidden) == (hidden) && &No-Such)"),
    "a bare word behind a key": Row(
        'if (&User-Password == psk:hunter2x && &No-Such) {\nok\n}', "if (&User-Password == (hidden) && &No-Such)"),
    "a bare word behind a name": Row(
        'if (&User-Password == Class:hunter2x && &No-Such) {\nok\n}', "if (&User-Password == (hidden) && &No-Such)"),
    "a bare word behind a list": Row(
        'if (&User-Password == request:hunter2xsecret && &No-Such) {\nok\n}', "if (&User-Password == (hidden) && &No-Such)"),
    "a name in place of a value": Row(
        "if (&User-Password != Class && &No-Such) {\nok\n}", "if (&User-Password != (hidden) && &No-Such)"),
    "an attribute that is compared with": Row(
        "if (&User-Password != &Class && &No-Such) {\nok\n}", "if (&User-Password != &Class && &No-Such)"),
    "a name with a list and a tag": Row(
        'if (reply:Tunnel-Password:1 == "hunter2x" && &No-Such) {\nok\n}',
        "if (reply:Tunnel-Password:1 == (hidden) && &No-Such)"),
    "a bare word beside another name": Row(
        "if (Class == hunter2xsecret && User-Password && &No-Such) {\nok\n}",
        "if (Class == (hidden) && User-Password && &No-Such)"),
    "a name that is asked for": Row(
        'if (&User-Name == "hunter2x" && &No-Such) {\nok\n}', "if (&User-Name == (hidden) && &No-Such)", ("--hide", "User-Name")),
    "a copy of such a one": Row(
        'update {\nTmp-String-0 := &User-Name\n}\nif (&Tmp-String-0 == "hunter2x" && &No-Such) {\nok\n}',
        "if (&Tmp-String-0 == (hidden) && &No-Such)", ("--hide", "User-Name")),
    "a text with a secret key": Row(
        'if (&User-Name == "shell:psk=hunter2x" && &No-Such) {\nok\n}', "if (&User-Name == (hidden) && &No-Such)"),
    "what is no secret": Row(
        'if (&User-Name == "hunter2x" && &No-Such) {\nok\n}', 'if (&User-Name == "hunter2x" && &No-Such)'),
    "what is to be shown": Row(
        'if (&User-Password == "hunter2x" && &No-Such) {\nok\n}', 'if (&User-Password == "hunter2x" && &No-Such)',
        ("--show-secrets",)),
}


def row_faults(subject: Subject, row: Row) -> List[str]:
    """The report, plain and as JSON, and the policy have the words, and none of them has the secret otherwise."""
    with new_folder() as folder:
        written(folder, {"dictionary": dictionary().encode(), "site": CLOSED.format(body=row.body + "\n").encode()})
        plain = imported(subject, folder, row.words)
        objects = imported(subject, folder, ["--json", *row.words]).errors
        texts = [plain.errors.decode(), " ".join(str(json.loads(it)) for it in objects.splitlines())]
        texts += [plain.output.decode()] if "# left out" in row.shown or "itself" in row.shown else []
        is_shown = "hunter2x" in row.shown
        # Of what is a comment alone the report says nothing.
        is_comment = "itself" in row.shown or row.shown.startswith("module ")
        faults = [text for text in texts if not is_comment and row.shown.split("]: ")[-1] not in text.replace("\\'", "'")]
        faults += [comments_of(plain.output).decode()] if is_comment and row.shown not in plain.output.decode() else []
        seen = [*texts, comments_of(plain.output).decode()]
        return faults + [text for text in seen if not is_shown and ("hunter2x" in text or 60 * "h" in text)]


KEPT = """update control {
Cleartext-Password := "hunter2x"
}
if (&User-Password == "hunter2x") {
ok
}
"""


def check_kept(subject: Subject, report: Report) -> None:
    """Statements that are kept have their values as they are."""
    with new_folder() as folder:
        written(folder, {"dictionary": dictionary().encode(), "site": CLOSED.format(body=KEPT).encode()})
        ended = imported(subject, folder, ["--map", "map"])
        wanted = b'Cleartext-Password := "hunter2x"', b'&User-Password == "hunter2x"'
        report.check("values of statements kept", [f"{ended.output!r}"] if not all(it in ended.output for it in wanted) else [])


def check_answers(subject: Subject, report: Report) -> None:
    """What an expansion is asked with, in the report and in a template; and comments of a policy in place of a module."""
    body = "update reply {\nReply-Message := \"%{sql:SELECT 1 WHERE '%{User-Password}' = 'hunter2x'}\"\n}\nq"
    carried = b'update reply { # was: User-Password == "hunter2x"\n\tReply-Message := "a#hunter2x"\n} # a\x1bb\n'
    with new_folder() as folder:
        written(folder, {"dictionary": dictionary().encode(), "site": CLOSED.format(body=body + "\n").encode(), "q": carried})
        ended = imported(subject, folder, ["--module", "q=q", *OPTIONS])
        objects = imported(subject, folder, ["--json", "--module", "q=q", *[it + "2" if it[0] != "-" else it for it in OPTIONS]])
        policy = contents(folder, "policy")
        wanted = [(ended.errors, b"for %{sql:(hidden)}"), (contents(folder, "template"), b": %{sql:(hidden)}"),
                  (objects.errors, b'"expansion":"sql:(hidden)"'), (policy, b"update reply { # (hidden)\n"),
                  (policy, b'Reply-Message := "a#hunter2x"\n'), (policy, b"} # a\\033b\n")]
        faults = [f"no {words!r} in {text!r}" for text, words in wanted if words not in text]
        seen = (ended.errors, objects.errors, contents(folder, "template"), policy.replace(b'"a#hunter2x"', b""))
        report.check("what an expansion is asked with hidden", faults + [f"{it!r}" for it in seen if b"hunter2x" in it])


CONTROLS = b'if (&User-Name == "a\xc2\x9b2J\xff\x1b[2J") {\nok\n}\nif (&No-Such == "a\xc2\x9b2J\xff\x1b[2J") {\nok\n}\n'
# Octets that a terminal may take as commands: control characters but LF, and octets that are no UTF-8.
COMMANDS = re.compile("[\x00-\x09\x0b-\x1f\x7f-\x9f\ufffd]")


def check_terminals(subject: Subject, report: Report) -> None:
    """Control characters and octets that are no UTF-8: in a statement, in the names of files and of policies, and in words."""
    site, name = b"authorize {\nq\x1b[2J\n" + CONTROLS + b"}\npolicy {\nq\x1b[2J {\nreject\n}\n}\n", b"s\xc2\x9b"
    with new_folder() as folder:
        written(folder, {"dictionary": dictionary().encode()})
        (folder / "site").write_bytes(b"$INCLUDE " + name + b"\n")
        Path(str(folder) + "/" + name.decode(errors="surrogateescape")).write_bytes(site)
        plain = imported(subject, folder, ["--map", "map", "-o", "policy"])
        others = [imported(subject, folder, words).errors for words in (["--json"], ["--hide", "a\x1b[2J"], ["--section", "a\x9b"],
                                                                        ["--policy", "b\x1b"])]
        texts = [plain.errors, contents(folder, "map"), comments_of(contents(folder, "policy")), *others]
        faults = [f"{it!r}" for it in texts if not it or COMMANDS.search(it.decode(errors="replace").replace("\n", ""))]
        faults += [] if b"s\\302\\233:" in plain.errors and b'"a\\302\\2332J\\377\\033[2J"' in plain.errors else [f"{plain.errors!r}"]
        report.check("nothing for a terminal to obey in reports and comments", faults)


def check_unknown(subject: Subject, report: Report) -> None:
    with new_folder() as folder:
        written(folder, {"dictionary": dictionary().encode(), "site": b"authorize {\nok\n}\n"})
        ended = imported(subject, folder, ["--hide", "User-Name", "--hide", "No-Such"])
        is_refused = (ended.status, ended.output) == (2, b"") and ended.errors.startswith(
            b"radpolicy-import: E02 No-Such: option value: no attribute has the name No-Such")
        faults = [] if is_refused else [f"{ended}"]
        report.check("an unknown name to hide refused", faults)


def check(subject: Subject, report: Report) -> None:
    for name, row in ROWS.items():
        report.check(f"hidden in an import: {name}", row_faults(subject, row))
    check_kept(subject, report)
    check_answers(subject, report)
    check_terminals(subject, report)
    check_unknown(subject, report)
    check_random(subject, report)
