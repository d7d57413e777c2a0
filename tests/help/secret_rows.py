"""Files that have a secret, and what help shows of them: the caret of a place in what is hidden is below `(hidden)`."""
from typing import Dict, List, NamedTuple

SECRET = "hunter2x9QwZ7"
DIGITS = SECRET.encode().hex()
# A text with a secret key, in hexadecimal digits, and its key by escapes.
SPELLED = f"password={SECRET}".encode().hex()
ESCAPED = "".join(f"\\{octet:03o}" for octet in b"password")
DICTIONARY = """ATTRIBUTE User-Name 1 string
ATTRIBUTE User-Password 2 string encrypt=1
ATTRIBUTE Reply-Message 18 string
ATTRIBUTE Class 25 octets
ATTRIBUTE Cleartext-Password 1100 string
ATTRIBUTE Acme-Octets 1101 octets secret
"""
REQUEST = 'User-Name = "bob"\nUser-Password = "a"\n'
CHECK = "check --policy policy dictionary"
ENCODE = "encode -f lines -S shared --acct dictionary"
RUN = "run -f request --policy policy dictionary"


class Row(NamedTuple):
    """A command over a policy or a file of lines, and how begins what it shows on standard error."""

    name: str
    words: str
    text: str
    wanted: str


ROWS: List[Row] = [
    Row("an open quote", CHECK, f'update control {{\n\tCleartext-Password := "{SECRET}\n}}\n', """\
radpolicy: E50 policy:2: unreadable token
policy:2:24
        Cleartext-Password := (hidden)
                              ^
found (hidden)
the text has no closing quote on its line
"""),
    Row("an open quote in a request", ENCODE, f'User-Name = "bob"\nUser-Password = "{SECRET}\n', """\
radpolicy: E36 request:2: unreadable line
lines:2:17
    User-Password = (hidden)
                    ^
a line is Name = value, with a comma between two pairs
a text in quotes follows an =, and its closing quote is on the same line
"""),
    Row("words after a value", CHECK, f"update control {{\n\tCleartext-Password := my {SECRET}\n}}\n", """\
radpolicy: E32 policy:2: unknown attribute
policy:2:24
        Cleartext-Password := (hidden)
                              ^
found (hidden) after a value
put a text with blanks into quotes
"""),
    Row("a text before the name", CHECK,
        f"# profile: wider\nif ('{SECRET}' == \"%{{User-Password}}\" = &User-Name) {{ reject }}\n", """\
radpolicy: E51 policy:2: token does not fit
policy:2:5
    if ((hidden)
        ^
found (hidden); here may be one of && || )
"""),
    Row("no operator", CHECK, f'if (&User-Name == "bob") {{\n\tupdate control {{\n\t\tUser-Password "{SECRET}"\n\t}}\n}}\n', """\
radpolicy: E51 policy:3: token does not fit
policy:3:17
            User-Password (hidden)
                          ^
found (hidden); here may be one of = := += ^= -= == !*
"""),
    Row("a name that is misspelt", CHECK, f'update control {{\n\tCleartext-Pasword := "{SECRET}"\n}}\n', """\
radpolicy: E32 policy:2: unknown attribute
policy:2:2
        Cleartext-Pasword := (hidden)
        ^
no attribute has the name Cleartext-Pasword
write Cleartext-Password
"""),
    Row("a name that no dictionary has", ENCODE, f'shared-secret = "{SECRET}"\n', """\
radpolicy: E32 request:1: unknown attribute
lines:1:1
    shared-secret = (hidden)
    ^
no attribute has the name shared-secret
"""),
    Row("a name that no dictionary has, without an operator", CHECK,
        f'update control {{\n\tSome-Key "{SECRET}"\n}}\n', """\
radpolicy: E32 policy:2: unknown attribute
policy:2:2
        Some-Key (hidden)
        ^
no attribute has the name Some-Key
"""),
    Row("a colon behind a name", ENCODE, f'passwd: "{SECRET}"\n', """\
radpolicy: E32 request:1: unknown attribute
lines:1:1
    passwd: (hidden)
    ^
no attribute has the name passwd:
"""),
    Row("a colon between a name and its value", ENCODE, f"User-Password:{SECRET}\n", """\
radpolicy: E32 request:1: unknown attribute
lines:1:1
    User-Password(hidden)
    ^
no attribute has the name that is hidden here
"""),
    Row("a name of two words", ENCODE, f'Pass word = "{SECRET}"\n', """\
radpolicy: E32 request:1: unknown attribute
lines:1:1
    Pass word = (hidden)
    ^
no attribute has the name Pass
"""),
    Row("a switch in one line", CHECK, f"switch &User-Password {{ case {SECRET} {{ ok }} }}\n", """\
radpolicy: E51 policy:1: token does not fit
policy:1:1
    switch &User-Password (hidden)
    ^
"""),
    Row("a text that speaks of a password", CHECK, 'update reply { Reply-Message := "the password is wrong" x }\n', """\
radpolicy: E32 policy:1: unknown attribute
policy:1:57
    update reply { Reply-Message := "the password is wrong" x }
                                                            ^
"""),
    Row("a value that is none", CHECK, f"update control {{\n\tAcme-Octets := 0x{DIGITS}0\n}}\n", """\
radpolicy: E30 policy:2: not a value
policy:2:17
        Acme-Octets := (hidden)
                       ^
found (hidden); a value of Acme-Octets is 0x and an even number of hexadecimal digits
"""),
    Row("a value without a name", ENCODE, f'User-Name = "bob"\n = "{SECRET}"\n', """\
radpolicy: E36 request:2: unreadable line
lines:2:2
     = (hidden)
     ^
a line is Name = value, with a comma between two pairs
write the attribute before the =, and its value after it
"""),
    Row("a copy", CHECK,
        f'update reply {{ Reply-Message := &User-Password }}\nif (&reply:Reply-Message = "{SECRET}") {{ reject }}\n', """\
radpolicy: E51 policy:2: token does not fit
policy:2:26
    if (&reply:Reply-Message = (hidden)
                             ^
found =; here may be one of == != < <= > >= && || )
"""),
    Row("a copy into an instance", CHECK,
        f'if (&control:Reply-Message = "{SECRET}") {{ ok }}\n'
        "update control {\n\t&Reply-Message[0] := &User-Password\n}\n", """\
radpolicy: E51 policy:1: token does not fit
policy:1:28
    if (&control:Reply-Message = (hidden)
                               ^
found =; here may be one of == != < <= > >= && || )
"""),
    Row("a copy without quotes", CHECK,
        f'if (&control:Reply-Message = "{SECRET}") {{ ok }}\n'
        "update control {\n\tReply-Message := %{User-Password}\n}\n", """\
radpolicy: E51 policy:1: token does not fit
policy:1:28
    if (&control:Reply-Message = (hidden)
"""),
    Row("the value of a loop", CHECK,
        f'if (&control:Reply-Message = "{SECRET}") {{ ok }}\nforeach &User-Password {{\nupdate control {{\n'
        'Reply-Message := "%{Foreach-Variable-0}"\n}\n}\n', """\
radpolicy: E51 policy:1: token does not fit
policy:1:28
    if (&control:Reply-Message = (hidden)
"""),
    Row("a capture", CHECK,
        f'# profile: wider\nif (&User-Password =~ /(.*)/) {{\n\tif ("%{{1}}" = "{SECRET}") {{ reject }}\n}}\n', """\
radpolicy: E51 policy:3: token does not fit
policy:3:6
        if ((hidden)
            ^
found (hidden); here may be one of == != < <= > >= =~ !~ && || )
"""),
    Row("an open block", CHECK, f'if (&User-Password == "{SECRET}") {{\n\treject\n', """\
radpolicy: E51 policy:3: token does not fit
policy:3:1
the text ends; here may be a statement (update, if, transaction, ok, noop, updated, fail or reject) or }
a block is open: write } for it; it begins here:
policy:1:1
    if (&User-Password == (hidden)
    ^
"""),
    Row("a place before what is hidden", CHECK, f'if (&User-Name = "bob" && &User-Password == "{SECRET}") {{ reject }}\n', """\
radpolicy: E51 policy:1: token does not fit
policy:1:16
    if (&User-Name = (hidden)
                   ^
found =; here may be one of == != < <= > >= && || )
"""),
    Row("what is no secret", CHECK, 'if (&User-Name = "bob") {\n\tupdate control { Cleartext-Password := "x" } }\n', """\
radpolicy: E51 policy:1: token does not fit
policy:1:16
    if (&User-Name = "bob") {
                   ^
found =; here may be one of == != < <= > >= && || )
"""),
    Row("a line that fails", RUN, f'update control {{ Cleartext-Password := "{SECRET}" Class := &Class }}\n',
        "policy:1: update control { Cleartext-Password := (hidden) Class := &Class }: the request has no Class (P1)\n"),
    Row("a word that stops", RUN, f'if (&User-Password == "{SECRET}" || &User-Name) {{ reject }} # {SECRET}\n',
        "policy:1: if (&User-Password == (hidden) || &User-Name) { reject }: the run was stopped here\n"),
    Row("a digit too many", CHECK, f"update reply {{\n\tClass := 0x{SPELLED}0\n}}\n", """\
radpolicy: E30 policy:2: not a value
policy:2:11
        Class := (hidden)
                 ^
found (hidden); a value of Class is 0x and an even number of hexadecimal digits
"""),
    Row("letters behind digits", CHECK, f"update reply {{\n\tClass := \"0x{SPELLED}zz\"\n}}\n", """\
radpolicy: E30 policy:2: not a value
policy:2:11
        Class := (hidden)
                 ^
"""),
    Row("digits without 0x", CHECK, f"update reply {{\n\tClass := {SPELLED} x\n}}\n", """\
radpolicy: E32 policy:2: unknown attribute
policy:2:11
        Class := (hidden)
                 ^
found (hidden) after a value
"""),
    Row("a digit too few", CHECK, f"update reply {{\n\tClass := x{SPELLED} x\n}}\n", """\
radpolicy: E32 policy:2: unknown attribute
policy:2:11
        Class := (hidden)
                 ^
found (hidden) after a value
"""),
    Row("digits without a sign before them", CHECK, f"update reply {{\n\tClass x{SPELLED} Reply-Message := 'a'\n}}\n", """\
radpolicy: E51 policy:2: token does not fit
policy:2:8
        Class (hidden)
              ^
found (hidden); here may be one of = := += ^= -= == !*
"""),
    Row("digits in an open quote", CHECK, f"update reply {{\n\tClass := \"0x{SPELLED}\n}}\n", """\
radpolicy: E50 policy:2: unreadable token
policy:2:11
        Class := (hidden)
                 ^
"""),
    Row("digits behind a sign that is none", CHECK, f"update reply {{\n\tClass[0] := 0x{SPELLED}\n}}\n", """\
radpolicy: E50 policy:2: unreadable token
policy:2:7
        Class(hidden)
             ^
"""),
    Row("a key by escapes in an open quote", CHECK, f'update reply {{\n\tReply-Message := "{ESCAPED}={SECRET}\n}}\n', """\
radpolicy: E50 policy:2: unreadable token
policy:2:19
        Reply-Message := (hidden)
                         ^
found (hidden)
the text has no closing quote on its line
"""),
    Row("a key by escapes between other quotes", CHECK, f"update reply {{\n\tReply-Message := 'x\"{ESCAPED}={SECRET}' x\n}}\n", """\
radpolicy: E32 policy:2: unknown attribute
policy:2:"""),
    Row("digits that are no secret", CHECK, "update reply {\n\tClass := 0x6e616d653d6162630\n}\n", """\
radpolicy: E30 policy:2: not a value
policy:2:11
        Class := 0x6e616d653d6162630
                 ^
"""),
    Row("a request for a dictionary", "check lines", f'User-Password = "{SECRET}"\n', """\
radpolicy: E10 lines:1: unreadable line
lines:1:1
    User-Password = (hidden)
    ^
found User-Password; here may be ATTRIBUTE, """),
    Row("a request for a script", "step -f request --policy ok --script lines dictionary", f'User-Password = "{SECRET}"\n', """\
radpolicy: E06 script:1: unknown script word
lines:1:1
    User-Password = (hidden)
    ^
"""),
    Row("lines for digits", "decode -f lines -S shared dictionary", f'User-Name = "bob", User-Password = "{SECRET}"\n', """\
radpolicy: E05: not hex
lines:1:1
    User-Name = (hidden)
    ^
"""),
    Row("a packet with a letter in it", "decode -f lines -S shared dictionary", f"010000{DIGITS}g0\n", """\
radpolicy: E05: not hex
lines:1:33
a packet is written in hexadecimal digits
"""),
    Row("a packet for lines", ENCODE, f"0100{DIGITS}\n", """\
radpolicy: E32 request:1: unknown attribute
lines:1:1
    (hidden)
    ^
no attribute has the name that is hidden here
"""),
]


def files_of(row: Row) -> Dict[str, str]:
    """The files of a row: the text is a policy, or other lines."""
    name = "policy" if "--policy policy" in row.words else "lines"
    return {"dictionary": DICTIONARY, "shared": "secret\n", "request": REQUEST, "ok": "ok\n", name: row.text}
