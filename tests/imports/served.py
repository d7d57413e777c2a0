"""Policies of a FreeRADIUS server on loopback beside what `radpolicy-import` makes of them: to ten requests each the
replies have the same attributes, or a warning of the import says that a server may decide otherwise of the request."""
import hashlib
import os
import random
import re
import shutil
import socket
from contextlib import ExitStack
from pathlib import Path
from typing import Callable, Dict, List, NamedTuple, Tuple

from common.program import run
from common.report import Report
from common.subject import Subject, new_folder, on_all
from imports.debian import DICTIONARIES, INSTALLED, dictionary_words
from library.serving import CLIENT, SERVER, answered, server

SECRET = "testing123"
SEED = 20_261_127
REQUESTS = 10
# Debian's own policies.
DEBIAN = ("filter_username", "deny_realms")


class Shown(NamedTuple):
    """A policy of Debian's that rewrites attributes, the section that calls it, and the attributes that are then shown in
    the reply."""

    policy: str
    section: str
    attributes: Tuple[str, ...]


# Each is called by a policy that also shows what is captured.
REWRITING = {
    "after_called_station": Shown(
        "rewrite_called_station_id", "authorize", ("Called-Station-Id", "Called-Station-SSID")),
    "after_calling_station": Shown("rewrite_calling_station_id", "authorize", ("Calling-Station-Id",)),
    "after_splitting": Shown("split_username_nai", "authorize", ("Stripped-User-Name", "Stripped-User-Domain")),
    "after_password": Shown("filter_password", "authorize", ("User-Password", "Tmp-String-0")),
    "after_operator": Shown("operator-name", "authorize", ("Operator-Name",)),
    "after_identity": Shown("cui", "authorize", ("Chargeable-User-Identity",)),
    "after_reply_identity": Shown("cui", "post-auth", ("reply:Chargeable-User-Identity", "reply:User-Name")),
}
SHOWING = "{policy}\nupdate reply {{\n{lines}\n}}\n"
# What the server knows of the client.
OF_CLIENT = {"Operator-Name": "1example.com", "add_cui": "yes"}
# Its settings.
OF_SERVER = {"prefix": "/usr"}
KEY = "changeme"
# Those whose warnings are of nothing that these requests have.
SURE = (
    "captures", "captured_by_the_last", "texts_of_absent", "compared_texts", "compared_captures",
    "either_of_two_texts", "long_texts", "in_octets", "names_without_signs", "names_that_are_values", "texts_of_octets",
    "numbers_in_hexadecimal", "codes_with_actions", "numbers_of_64_bits", "octets_behind_a_capital", "repeated_octets",
    "a_setting_of_the_server", *REWRITING)
# What a report warns of that is about no request but those of the policies below.
QUIET = ("long-expansion", "tagged-octets")


class Warned(NamedTuple):
    """What the report of a policy warns of, the names of users and the lengths of classes that its requests have beside
    others, and whether the warning is about a request, by what its attributes are."""

    warning: str
    names: Tuple[str, ...]
    classes: Tuple[int, ...]
    is_about: Callable[[Dict[str, str]], bool]


OF_SOME: Dict[str, Warned] = {
    "texts_that_grow": Warned(
        "long-expansion", tuple(length * "n" for length in (200, 245, 246, 247, 253)), (),
        lambda sent: len("Hello, " + sent["User-Name"]) > 253),
    "octets_in_texts": Warned(
        "long-expansion", (), (1, 124, 125, 126, 253), lambda sent: len("c" + sent.get("Class", "")) > 253),
    "repeated_nothing": Warned("", (), (), lambda sent: True),
    "braces_with_blanks": Warned("", (), (), lambda sent: "b" in sent["User-Name"]),
    "edges_of_words": Warned("", (), (), lambda sent: True),
    "empty_with_a_tag": Warned("empty-tagged", (), (), lambda sent: True),
    "starts_of_lines": Warned("line-start", (), (), lambda sent: sent["User-Name"].endswith("\\n")),
    "tagged_names": Warned(
        "tagged-octets", ("0x31", "0x4142", "0xzz", "0x123"), (), lambda sent: sent["User-Name"].startswith("0x")),
}
# Those of attributes that have values named as other attributes are.
NAMES_AND_VALUES = [
    ("Acct-Terminate-Cause", "Idle-Timeout"), ("Acct-Terminate-Cause", "Session-Timeout"),
    ("Service-Type", "Framed-Management"), ("Ascend-Disconnect-Cause", "Session-Timeout"),
    ("Annex-System-Disc-Reason", "Session-Timeout"), ("Cisco-Disconnect-Cause", "Idle-Timeout"),
    ("Cisco-Disconnect-Cause", "Session-Timeout"), ("Acc-Reason-Code", "Idle-Timeout"),
    ("Shiva-Disconnect-Reason", "Idle-Timeout"), ("USR-HARC-Disconnect-Code", "Session-Timeout"),
]
# Those that the plain profile has, with octets in place of what they mean.
PLAIN = ("in_octets", "texts_in_octets")
# Those that ask functions besides these.
STUBBED = (*REWRITING, "a_setting_of_the_server")
# Those that are called where the reply is made.
AFTER = ("handled_early",)
HARDWARE = re.compile("[^0-9a-f]?".join(6 * ["([0-9a-f]{2})"]), re.I)
GIVEN = re.compile(r"set by no line of the policy: &control:(\S+) for %\{(\w+):(.*)\}$", re.M)
# As operators write them.
WRITTEN: Dict[str, str] = {
    "realm_in_any_case": 'if (&User-Name =~ /@example\\.com$/i) {\nupdate reply {\nReply-Message := "of %{User-Name}"\n}\n}\n'
    'else {\nreject\n}\n',
    "no_realm_but_ours": 'if (&User-Name !~ /@(example|other)\\.[a-z]{3}$/) {\nreject\n}\nupdate reply {\nClass := 0x01\n}\n',
    "hosts": 'if ("%{User-Name}" =~ /^host\\//) {\nupdate reply {\nReply-Message := "a host"\n}\n}\n'
    'elsif (&User-Name =~ /^[^@.]+$/) {\nupdate reply {\nReply-Message := "a name"\n}\n}\n',
    "hardware_address": 'if (&Calling-Station-Id =~ /^([0-9a-f]{2}[-:]?){5}[0-9a-f]{2}$/i) {\nupdate reply {\n'
    'Reply-Message := "%{Calling-Station-Id}"\n}\n}\nelse {\nupdate reply {\nReply-Message := "no address"\n}\n}\n',
    "absent_and_matched": 'if (!(&Calling-Station-Id =~ /^00-11/) || &NAS-Port == 1) {\nupdate reply {\n'
    'Reply-Message += "first"\n}\n}\nif (&NAS-Port == 1 || !(&Calling-Station-Id =~ /^00-11/)) {\nupdate reply {\n'
    'Reply-Message += "second"\n}\n}\n',
    "lines_of_a_name": 'if (&User-Name =~ /^b.*b$/m) {\nupdate reply {\nReply-Message := "a line"\n}\n}\n',
    "grouped_to_the_right": 'if (&NAS-Port == 1 && &Service-Type == Login-User || &NAS-Port == 2) {\nupdate reply {\n'
    'Reply-Message += "and, or"\n}\n}\nif (&NAS-Port == 2 || &NAS-Port == 1 && &Service-Type == Framed-User) {\n'
    'update reply {\nReply-Message += "or, and"\n}\n}\n',
    "absent": 'if (!(&Calling-Station-Id == "00-11-22-33-44-55")) {\nupdate reply {\nReply-Message += "another"\n}\n}\n'
    'if (!&Calling-Station-Id) {\nupdate reply {\nReply-Message += "none"\n}\n}\n',
    "service": 'switch &Service-Type {\ncase Framed-User {\nupdate reply {\nFramed-MTU := 1400\n}\n}\n'
    'case Login-User {\nupdate reply {\nSession-Timeout := 60\n}\n}\ncase {\nupdate reply {\n'
    'Reply-Message := "no service"\n}\n}\n}\n',
    "names": 'switch "%{User-Name}" {\ncase "bob" {\nreject\n}\ncase \'alice@example.com\' {\nupdate reply {\n'
    'Reply-Message := "Hello"\n}\n}\n}\n',
    "vlan": 'if (&NAS-Port >= 3) {\nupdate reply {\nTunnel-Type := VLAN\nTunnel-Medium-Type := IEEE-802\n'
    'Tunnel-Private-Group-Id := "13"\n}\n}\nelsif (!&NAS-Port) {\nreject\n}\n',
    "greeting": 'update reply {\nReply-Message := "Hi %{%{Calling-Station-Id}:-%{User-Name}}"\n}\n',
    "ends_early": 'if (&NAS-Port == 1) {\nupdate reply {\nReply-Message += "one"\n}\nreturn\n}\nupdate reply {\n'
    'Reply-Message += "more"\n}\n',
    "absent_source": 'update reply {\nClass := &Class\nReply-Message := &Calling-Station-Id\nFramed-MTU = 1300\n}\n',
    "prefixes": 'if (&NAS-Port < 3) {\nupdate reply {\nFramed-IPv6-Prefix := 2001:db8:1::/64\n'
    'Login-IPv6-Host := 2001:db8::1\n}\n}\n',
    "operators": 'update reply {\nReply-Message := "one"\nReply-Message += "two"\nReply-Message ^= "zero"\n'
    'Reply-Message -= "one"\nSession-Timeout = 10\nSession-Timeout = 20\n}\nif (&NAS-Port > 2) {\nupdate reply {\n'
    'Session-Timeout !* ANY\n}\n}\n',
    "fails": 'update reply {\nReply-Message := "before"\n}\nif (&User-Name == "bob") {\nfail\n}\n',
    "captures": 'if (&User-Name =~ /^([^@]*)(@(.+))?$/m) {\nif ("%{3}" != \'\') {\nupdate reply {\n'
    'Reply-Message += "realm %{3}"\n}\n}\nif (&Calling-Station-Id =~ /zz/) {\nok\n}\nupdate reply {\n'
    'Reply-Message += "name %{%{1}:-none}"\n}\n}\n',
    "captured_by_the_last": 'if ((&Calling-Station-Id =~ /^(..)-(..)/ && &NAS-Port == 1) || &User-Name =~ /^(.)/m) {\nok\n}\n'
    'update reply {\nReply-Message := "%{0} %{1} %{2}"\n}\nif (!(&User-Name =~ /(b)/) || &Service-Type == Login-User) {\nok\n}\n'
    'update reply {\nReply-Message += "%{0} %{1} %{2}"\n}\nif (&NAS-Port == 1 || (&User-Name !~ /(.)@/ && &NAS-Port == 2)) {\n'
    'ok\n}\nupdate reply {\nReply-Message += "%{0} %{1} %{2}"\n}\n',
    "texts_of_absent": 'if ("%{Calling-Station-Id}" !~ /^00-11/) {\nupdate reply {\nReply-Message += "another"\n}\n}\n'
    'if (!("%{Calling-Station-Id}" =~ /aa/)) {\nupdate reply {\nReply-Message += "no aa"\n}\n}\n'
    'if ("%{Calling-Station-Id}" =~ /^(none)?$/) {\nupdate reply {\nReply-Message += "none"\n}\n}\n',
    "compared_texts": 'if ("%{Calling-Station-Id}" == "%{reply:Reply-Message}") {\nupdate reply {\nReply-Message += "no station"\n}\n}\n'
    'if (!("%{Calling-Station-Id}%{NAS-Port}" != "none%{NAS-Port}")) {\nupdate reply {\nReply-Message += "none"\n}\n}\n'
    'if ("" == "%{NAS-Port}" || &Class) {\nupdate reply {\nReply-Message += "no port or a class"\n}\n}\n'
    'if ("%{NAS-Port}" < "%{NAS-Port}0" && "0%{NAS-Port}" == "%{NAS-Port}") {\nupdate reply {\nReply-Message += "numbers"\n}\n}\n'
    'if (!(&Calling-Station-Id == "no%{Service-Type}") || &Class) {\nupdate reply {\nReply-Message += "a station"\n}\n}\n'
    'if (&Calling-Station-Id < "00-%{NAS-Port}" || "%{Service-Type}" == "Login-User") {\nupdate reply {\n'
    'Reply-Message += "less, or a login"\n}\n}\n',
    "compared_captures": 'if (&User-Name =~ /^(.)(.*)$/m) {\nif ("%{1}" == "b" || "%{1}" > "%{2}" || &User-Name == "%{2}") {\n'
    'update reply {\nReply-Message += "%{1} and %{2}"\n}\n}\nif ("%{2}" =~ /^o(.)$/m) {\nupdate reply {\n'
    'Reply-Message += "%{0} and %{1}"\n}\n}\nupdate reply {\nReply-Message += "last %{0}"\n}\n}\n'
    'if (&User-Name =~ /(a)/ && "%{Calling-Station-Id}" !~ /(0)/) {\nupdate reply {\nReply-Message += "no 0"\n}\n}\n'
    'update reply {\nReply-Message += "at the end %{1}"\n}\n',
    "values_of_any_type": 'if (!(&Class =~ /^0x0b/) && &NAS-Port =~ /^[12]$/m) {\nupdate reply {\n'
    'Reply-Message += "port %{0}"\n}\n}\nif ("%{Service-Type}" =~ /^(Login|)/) {\nupdate reply {\nReply-Message += "to %{1}"\n'
    '}\n}\nif (&Class !~ /^0x[0-9a-f]{2}$/m) {\nupdate reply {\nReply-Message += "a long class"\n}\n}\n',
    "code_of_an_update": 'if (noop) {\nupdate reply {\nReply-Message += "after an update"\n}\n}\n',
    "code_of_a_block": 'ok\nnoop\nif (&NAS-Port) {\nif (ok) {\nupdate reply {\nReply-Message += "the highest"\n}\n}\n'
    'else {\nreject\n}\n}\n',
    "codes_of_branches": 'ok\nupdated\nif (!&Class) {\nnoop\n}\nelse {\nok\nnoop\n}\nnoop\nif (&Service-Type) {\n'
    'if (updated) {\nupdate reply {\nReply-Message += "of the outer block"\n}\n}\nnoop\nif (noop) {\nupdate reply {\n'
    'Reply-Message += "the last"\n}\n}\n}\n',
    "codes_of_the_server_alone": 'noop\nnotfound\nif (notfound) {\nupdate reply {\nReply-Message += "the last"\n}\n}\n'
    'if (&Service-Type) {\nif (noop) {\nupdate reply {\nReply-Message += "the highest"\n}\n}\n}\n'
    'if (&NAS-Port == 2) {\ninvalid\n}\nif (!&NAS-Port) {\nuserlock\n}\n"%{expr:1 + 1}"\nupdate reply {\n'
    'Reply-Message += "neither"\n}\n',
    "codes_of_either_branch": 'if (&Class) {\nupdate reply {\nReply-Message += "a class"\n}\nok\n}\nelse {\nok\n}\nif (ok) {\n'
    'update reply {\nReply-Message += "both"\n}\n}\nif (&NAS-Port) {\nif (ok) {\nupdate reply {\n'
    'Reply-Message += "the highest"\n}\n}\n}\n',
    "either_of_two_texts": 'if ("%{%{Calling-Station-Id}:-%{User-Name}}" == "bob") {\nupdate reply {\nReply-Message += "bob"\n}\n}\n'
    'if ("%{%{Calling-Station-Id}:-none}" != "none") {\nupdate reply {\nReply-Message += "some"\n}\n}\n'
    'if ("%{%{Calling-Station-Id}:-%{User-Name}}" =~ /^([^@-]*)/) {\nupdate reply {\nReply-Message += "is %{1}"\n}\n}\n'
    'if (!("%{%{Calling-Station-Id}:-%{Connect-Info}}" !~ /n(.)/) || &NAS-Port == 2) {\nupdate reply {\n'
    'Reply-Message += "has %{1}"\n}\n}\n'
    'if (&User-Name == "%{%{Calling-Station-Id}:-bob}") {\nupdate reply {\nReply-Message += "the same"\n}\n}\n'
    'if (!(&Connect-Info == "%{%{Calling-Station-Id}:-bob}")) {\nupdate reply {\nReply-Message += "not the same"\n}\n}\n'
    'if (!"%{%{Calling-Station-Id}:-}") {\nupdate reply {\nReply-Message += "nothing"\n}\n}\n'
    'if (!("%{%{Calling-Station-Id}:-%{Connect-Info}}" == "none")) {\nupdate reply {\nReply-Message += "not none"\n}\n}\n',
    "numbers_as_texts": 'update reply {\nReply-Message += &NAS-Port\nReply-Message += &Service-Type\n}\n',
    "long_texts": 'update reply {\nReply-Message := "' + 260 * "a" + '"\nReply-Message += "' + 255 * "b"
    + '%{User-Name}"\nClass := "' + 254 * "c" + '"\n}\n',
    "a_line_that_fails": 'update reply {\nReply-Message := "before"\nClass := "0x0a%{Calling-Station-Id}"\n'
    'Reply-Message += "behind"\n}\nupdate reply {\nReply-Message += "after"\n}\n',
    "in_octets": 'update reply {\nTunnel-Type:1 := VLAN\nTunnel-Medium-Type:1 = IEEE-802\n'
    'Tunnel-Private-Group-Id:1 := "13"\nTunnel-Type:2 += L2TP\nFramed-IPv6-Prefix := 2001:db8:1:2::/48\n'
    'Login-IPv6-Host := 2001:db8::1\nFramed-Interface-Id := 1:2:3:4\n'
    'Event-Timestamp := "Nov 24 2026 10:00:00 UTC"\n}\n',
    "texts_in_octets": 'update reply {\nTunnel-Private-Group-Id := "v%{User-Name}"\n}\n',
    "texts_with_tags": 'update reply {\nTunnel-Private-Group-Id:1 := "v%{User-Name}"\n'
    'Tunnel-Private-Group-Id:2 := "p%{NAS-Port}"\nLogin-IPv6-Host := 2001:db8::1\n'
    'Reply-Message := "%{reply:Login-IPv6-Host}"\n}\n',
    "handled_early": 'update reply {\nReply-Message := "before"\n}\nif (&NAS-Port == 2) {\nhandled\n}\nupdate reply {\n'
    'Reply-Message += "after"\n}\n',
    "texts_that_grow": 'update reply {\nReply-Message := "Hello, %{User-Name}"\n}\nupdate reply {\n'
    'Reply-Message += "after"\n}\n',
    "octets_in_texts": 'update reply {\nReply-Message := "c%{Class}"\n}\nupdate reply {\nReply-Message += "after"\n}\n',
    "tagged_names": 'update reply {\nTunnel-Private-Group-Id:1 := "%{User-Name}"\n'
    'Tunnel-Private-Group-Id:2 := "v%{User-Name}"\n}\n',
    "tagged_like_octets": 'update reply {\nTunnel-Private-Group-Id := "0x31"\nTunnel-Private-Group-Id:1 += "0x4142"\n'
    'Tunnel-Private-Group-Id:2 += "0xzz"\n}\n',
    "octets_in_quotes": 'update reply {\nClass := "0x' + 150 * "0b" + '"\n}\n',
    "octal_addresses": 'update reply {\nFramed-IP-Address := 010.1.2.3\nFramed-IP-Netmask := "255.255.0377.00"\n}\n'
    'if (&reply:Framed-IP-Address == 010.1.2.3) {\nupdate reply {\nReply-Message += "an address"\n}\n}\n',
    "names_without_signs": 'update control {\nUser-Name := User-Name\nConnect-Info := control:Connect-Info\n}\n'
    'if (&NAS-Port == Service-Type) {\nupdate reply {\nReply-Message += "the port of the service"\n}\n}\n'
    'if (&User-Name != REQUEST:calling-station-id) {\nupdate reply {\nReply-Message += "not the station"\n}\n}\n'
    'if (&Service-Type == Attr-5) {\nupdate reply {\nReply-Message += "by number"\n}\n}\n'
    'if (control:User-Name == request:User-Name) {\nupdate reply {\nReply-Message += "the same"\n}\n}\n'
    'if (!(&Calling-Station-Id == config:User-Name) || &Class) {\nupdate reply {\nReply-Message += "another, or a class"\n}\n}\n'
    'update reply {\nFilter-Id := Calling-Station-Id\nFilter-Id += User-Name[0]\nReply-Message += NAS-Port\n'
    'Reply-Message += Attr-1\nClass := Class\nSession-Timeout := NAS-Port\nReply-Message += User-Name-x\n'
    'Reply-Message += User-Name:1\nReply-Message += "User-Name"\nReply-Message += control:User-Name\n}\n'
    'switch &NAS-Port {\ncase Service-Type {\nupdate reply {\nReply-Message += "the same"\n}\n}\ncase 3 {\nupdate reply {\n'
    'Reply-Message += "three"\n}\n}\ncase {\nupdate reply {\nReply-Message += "another"\n}\n}\n}\n',
    "names_that_are_values": "update request {\nIdle-Timeout := 77\nSession-Timeout := 77\nFramed-Management := 77\n}\n"
    + "".join(
        f'update control {{\n{name} := &NAS-Port\n{name} := 77\n}}\nif (&control:{name} == {word}) {{\nupdate reply {{\n'
        f'Reply-Message += "{name} is {word}"\n}}\n}}\nif (&control:{name} == "{word}") {{\nreject\n}}\n'
        f'update reply {{\n{name} := {word}\n}}\nswitch &control:{name} {{\ncase {word} {{\nupdate reply {{\n'
        f'Reply-Message += "the case of {name}"\n}}\n}}\n}}\n'
        for name, word in NAMES_AND_VALUES),
    "numbers_in_hexadecimal": 'update reply {\nTunnel-Type:1 := 0x0d\nTunnel-Type += "0xA"\nTunnel-Medium-Type := 0x00000006\n'
    'Tunnel-Private-Group-Id:1 := "13"\n}\n',
    "texts_of_octets": 'update reply {\nClass := "c%{%{Calling-Station-Id}:-none}"\nReply-Message := "before"\n}\n'
    'update reply {\nClass += "%{%{Calling-Station-Id}:-none}"\nReply-Message += "after"\n}\n',
    "codes_with_actions": 'update reply {\nReply-Message := "before"\n}\nif (&NAS-Port == 2) {\nok {\nok = reject\n}\n}\n'
    'if (&NAS-Port == 3) {\nreject {\nok = return\n}\n}\nok {\nnoop = return\n}\nupdate reply {\nReply-Message += "after"\n}\n'
    'updated {\nupdated = return\n}\n',
    "numbers_of_64_bits": 'update reply {\nMIP6-Feature-Vector := 0x10\n}\nif (&reply:MIP6-Feature-Vector == 0x1f && '
    '"%{reply:MIP6-Feature-Vector}" != "0x1") {\nreject\n}\nif (&reply:MIP6-Feature-Vector == "0x1f") {\nupdate reply {\n'
    'Reply-Message := "nothing"\n}\n}\nswitch &reply:MIP6-Feature-Vector {\ncase 0x20 {\nupdate reply {\n'
    'Reply-Message += "a case"\n}\n}\n}\n',
    "octets_behind_a_capital": 'update reply {\nClass := 0X6162\nClass += "0X6%{%{NAS-Port}:-4}"\nFilter-Id := 0X6162\n}\n'
    'if (&reply:Class == 0X6162 && &reply:Class == "0X6162" && &reply:Filter-Id == "0X6162") {\nupdate reply {\n'
    'Reply-Message := "the same"\n}\n}\n',
    "repeated_octets": "".join(
        f'update control {{\nUser-Name := "{name}"\n}}\n' + "".join(
            f'if (&control:User-Name =~ /{pattern}/m) {{\nupdate reply {{\nReply-Message += "{at} of {number}"\n}}\n}}\n'
            for at, pattern in enumerate(("^é+x", "^é?x", "^é{2}x", "^(?:é)+x", "^[^x]é*?x", "^xé|é+é")))
        for number, name in enumerate(("\\303\\251\\251x", "\\303\\251\\303\\251x", "\\303x", "x\\303x"))),
    "starts_of_lines": 'if (&User-Name =~ /(?m)^$/) {\nupdate reply {\nReply-Message := "an empty line"\n}\n}\n',
    "a_setting_of_the_server": 'update control {\nConnect-Info := "control"\n}\nupdate reply {\n'
    'Reply-Message := "%{config:prefix} %{Config:Connect-Info} %{CONTROL:Connect-Info}"\n}\n',
    "repeated_nothing": 'if (&User-Name =~ /^([a-z]*\\.?)*/m) {\nupdate reply {\nReply-Message := "%{0} and %{1}"\n}\n}\n',
    "braces_with_blanks": 'if (&User-Name =~ /b{1, 2}/m) {\nupdate reply {\nReply-Message := "a b"\n}\n}\n',
    "edges_of_words": 'if (&User-Name =~ /[[:<:]]e/) {\nupdate reply {\nReply-Message += "begins"\n}\n}\n'
    'if (&User-Name =~ /b[[:>:]]/) {\nupdate reply {\nReply-Message += "ends"\n}\n}\n',
    "empty_with_a_tag": 'update reply {\nTunnel-Private-Group-Id:1 := ""\nReply-Message := "after"\n}\n',
    "texts_that_are_false": 'if ("0" || \'false\') {\nreject\n}\nif ("00" && !"0" && "no") {\nupdate reply {\n'
    'Reply-Message := "true"\n}\n}\n',
    "signs_that_are_escaped": 'update reply {\nReply-Message := "a\\\'b\\501"\nReply-Message += "\\045{User-Name}"\nReply-Message += \'a\\\'b ${name}\'\n}\n',
    "one_in_another": 'deny_realms\nif (&Service-Type == Login-User && &NAS-Port <= 2) {\nservice\n}\n',
}
CONFIGURATION = """prefix = /usr
logdir = {folder}
run_dir = {folder}
libdir = /usr/lib/freeradius
max_requests = 1024
security {{
	max_attributes = 200
	reject_delay = 0
	status_server = no
}}
client here {{
	ipaddr = 127.0.0.1
	secret = {secret}
	Operator-Name = {operator}
	add_cui = {add_cui}
}}
modules {{
	$INCLUDE {installed}/mods-available/always
	$INCLUDE {installed}/mods-available/expr
}}
policy {{
	$INCLUDE {installed}/policy.d/filter
	$INCLUDE {installed}/policy.d/canonicalization
	$INCLUDE {installed}/policy.d/cui
	$INCLUDE {installed}/policy.d/operator-name
	cuisql {{
		noop
	}}
{policies}}}
{servers}"""
SITE = """server {name} {{
	listen {{
		type = auth
		ipaddr = 127.0.0.1
		port = {port}
	}}
	authorize {{
		update control {{
			Auth-Type := Accept
		}}
		{authorize}
	}}
	post-auth {{
		{post_auth}
	}}
}}
"""
NAMES = (
    "bob", "alice@example.com", "Carol@EXAMPLE.COM", "us er", "a@b@c.org", "a..b@other.net", "x@.example.com", "dave@here",
    "erin@example.com.", "host/pc.example.com", "frank\\\\x", "anna\\nbob", "bob\\n", "grace@other.org",
    "heidi@example.com.\\n", "ivan@example.com\\n",
)
STATIONS = ("00-11-22-33-44-55", "00:11:22:aa:BB:cc", "001122334455", "none", "00-11-22")
NETWORKS = ("", ":guests", "-A network", ":")
PASSWORDS = ("hello", "hel\\000lo")
WARNING = re.compile(r": kept, but .*?(?: \[([a-z-]+)\])?: ")
AS_OCTETS = re.compile(r"Tunnel-Private-Group-Id = 0x([01][0-9a-f])?(3078[0-9a-f]*)")
REJECTED = re.compile(r"^result (reject|fail)\b", re.M)


class Answer(NamedTuple):
    """The kind of the packet, and its attributes."""

    kind: str
    attributes: List[str]


class Difference(NamedTuple):
    """A request that is answered otherwise, and whether the report says that it may be."""

    request: str
    server: Answer
    policy: Answer
    is_told: bool


def free_ports(count: int) -> List[int]:
    """Ports that nothing listens on."""
    with ExitStack() as stack:
        found = []
        for _ in range(count):
            one = stack.enter_context(socket.socket(socket.AF_INET, socket.SOCK_DGRAM))
            one.bind(("127.0.0.1", 0))
            found.append(one.getsockname()[1])
        return found


def requests(name: str) -> List[str]:
    """Requests at random, the same for a policy in each run."""
    chance = random.Random(f"{SEED} {name}")
    made = []
    # A line feed at the end is told of a `$`, and so would hide what else may differ.
    last = () if name in REWRITING else NAMES[-2:]
    own, classes = (OF_SOME[name].names, OF_SOME[name].classes) if name in OF_SOME else ((), ())
    users = [NAMES[0], *chance.sample(NAMES[1:-2], REQUESTS - 1 - len(last) - len(own)), *last, *own]
    for place, user in enumerate(users):
        lines = [f'User-Name = "{user}"', 'User-Password = "hello"']
        optional = [
            f"NAS-Port = {chance.randrange(1, 4)}", f'Calling-Station-Id = "{chance.choice(STATIONS)}"',
            f"Service-Type = {chance.choice(('Framed-User', 'Login-User', 'Outbound-User'))}", "Class = 0x0a0b",
        ]
        if classes:
            optional[-1] = f"Class = 0x{classes[place % len(classes)] * '0b'}"
        lines += [line for line in optional if chance.random() < 0.75]
        if name in REWRITING:
            lines[1] = f'User-Password = "{chance.choice(PASSWORDS)}"'
            lines.append(f'Called-Station-Id = "{chance.choice(STATIONS)}{chance.choice(NETWORKS)}"')
            identity = ["Chargeable-User-Identity = 0x00", 'Operator-Name = "1other.org"']
            lines += [line for line in identity if chance.random() < 0.5]
        made.append("\n".join(lines) + "\n")
    return made


def showing() -> Dict[str, str]:
    """Policies that put into the reply what others capture and rewrite."""
    captures = [f"{group} %{{{group}}}" for group in range(10)]
    written = {}
    for name, shown in REWRITING.items():
        texts = captures + [f"{attribute} %{{{attribute}}}" for attribute in shown.attributes]
        lines = "\n".join(f'Reply-Message += "{text}"' for text in texts)
        written[name] = SHOWING.format(policy=shown.policy, lines=lines)
    return written


def section_of(name: str) -> str:
    if name in AFTER:
        return "post-auth"
    return REWRITING[name].section if name in REWRITING else "authorize"


def configure(folder: Path, raddb: Path, ports: Dict[str, int]) -> None:
    # A policy is told by the section that calls it which of those of a name it calls.
    written = {f"{name}.{section_of(name)}": text for name, text in {**WRITTEN, **showing()}.items()}
    policies = "".join(f"{name} {{\n{text}}}\n" for name, text in written.items())
    servers = ""
    for name, port in ports.items():
        called = {"authorize": "", "post_auth": "", section_of(name).replace("-", "_"): name}
        servers += SITE.format(name=name, port=port, **called)
    (folder / "radiusd.conf").write_text(CONFIGURATION.format(
        folder=folder, secret=SECRET, installed=raddb, policies=policies, servers=servers,
        operator=OF_CLIENT["Operator-Name"], add_cui=OF_CLIENT["add_cui"]))


def of_server(port: int, request: str) -> Answer:
    said = answered(port, request)
    lines = [line.strip() for line in said.splitlines()[1:] if line.startswith("\t")]
    return Answer(said.split(" ")[0], [line for line in lines if not line.startswith("Message-Authenticator")])


def computed(name: str, function: str, text: str, request: str) -> str:
    """What the server's function gives of its text in a policy, for a request."""
    sent = dict(re.findall(r'^(\S+) = "(.*)"$', request, re.M))
    if function == "client":
        return OF_CLIENT[text]
    if function == "config":
        return OF_SERVER[text]
    if function == "string":
        return sent["User-Password"].split("\\000")[0]
    if function == "sha1":
        user = sent["User-Name"].replace("\\n", "\n").replace("\\\\", "\\") + sent.get("Operator-Name", "")
        return hashlib.sha1((KEY + user.lower()).encode()).hexdigest()
    if function == "toupper":
        found = HARDWARE.search(sent.get(REWRITING[name].attributes[0], ""))
        return "-".join(found.groups()).upper() if found else ""
    raise ValueError(f"what does %{{{function}:{text}}} give?")


def with_given(policy: str, said: str, name: str, request: str) -> str:
    """The policy, with what the functions of a server are given."""
    found = GIVEN.findall(said)
    lines = [f'{own} := "{computed(name, function, text, request)}"' for own, function, text in found]
    if not lines:
        return policy
    head = "# profile: wider\n"
    given = "update control {\n" + "\n".join(lines) + "\n}\n"
    return head + given + policy[len(head):] if policy.startswith(head) else given + policy


def in_words(line: str) -> str:
    """A line of a reply as a client prints it, also one of a text with a tag that begins with `0x`."""
    octets = AS_OCTETS.fullmatch(line)
    if not octets:
        return line
    return f'Tunnel-Private-Group-Id:{int(octets[1] or "0", 16)} = "{bytes.fromhex(octets[2]).decode()}"'


def of_policy(subject: Subject, policy: str, dictionaries: List[str], request: str) -> Answer:
    with new_folder() as here:
        (here / "request").write_text(request)
        (here / "policy").write_text(policy)
        words = ["run", "-f", "request", "--policy", "policy"]
        ended = run([subject.program, *words, *dictionaries], here)
    if ended.status:
        return Answer("", [ended.errors.decode()])
    said = ended.output.decode()
    reply = ("\n" + said.partition("\nreply\n")[2]).partition("\ncontrol\n")[0]
    kind = "Access-Reject" if REJECTED.search(said) else "Access-Accept"
    return Answer(kind, [in_words(line.strip()) for line in reply.splitlines()[1:]])


def imported(subject: Subject, folder: Path, dictionaries: Path, name: str) -> Tuple[str, List[str]]:
    """The report of the import of a policy, and the dictionaries that it is read with."""
    others = folder / f"{name}.dictionary"
    words = ["--server", name, "--write-dictionary", others, "-o", folder / f"{name}.policy"]
    words += ["--section", section_of(name)]
    if name in STUBBED:
        words.append("--stub-functions")
    if name in PLAIN:
        words.append("--papers")
    named = dictionary_words(dictionaries)
    ended = run([subject.driver("radpolicy_import"), *words, *named, folder], folder)
    return ended.errors.decode(), [str(others), *(word.split("=", 1)[1] for word in named)]


def is_told(name: str, said: str, request: str) -> bool:
    """Whether the report warns that a server may decide otherwise of the request."""
    if name in OF_SOME:
        sent = {word: value.strip('"') for word, value in re.findall(r"^(\S+) = (.*)$", request, re.M)}
        return OF_SOME[name].is_about(sent)
    return name not in SURE and any(warning not in QUIET for warning in WARNING.findall(said))


def differences(
    subject: Subject, policy: str, said: str, dictionaries: List[str], name: str, port: int,
) -> List[Difference]:
    found = []
    for request in requests(name):
        given = with_given(policy, said, name, request)
        if name in PLAIN:
            # So that the reply is printed as a client prints it.
            given = f"# profile: wider\n{given}"
        wanted, made = of_server(port, request), of_policy(subject, given, dictionaries, request)
        if wanted != made:
            found.append(Difference(request, wanted, made, is_told(name, said, request)))
    return found


def compare(subject: Subject, report: Report, folder: Path, dictionaries: Path, ports: Dict[str, int]) -> None:
    def compared(name: str) -> Tuple[str, List[Difference]]:
        said, named = imported(subject, folder, dictionaries, name)
        policy = (folder / f"{name}.policy").read_text()
        return said, differences(subject, policy, said, named, name, ports[name])

    for name, (said, found) in zip(ports, on_all(compared, ports)):
        kept = re.match(r"(\d+) of (\d+) statements kept", said)
        faults = [] if kept and kept[1] == kept[2] else [said]
        faults += [str(one) for one in found if not one.is_told]
        told = sum(one.is_told for one in found)
        if name in OF_SOME and (OF_SOME[name].warning not in WARNING.findall(said) or not told):
            faults.append(f"{told} requests answered otherwise by the report {said}")
        report.check(f"{name} imported, beside a server", faults)
        if told:
            report.say(f"    {name}: {told} of {REQUESTS} requests are answered otherwise, as its report warns")


def check(subject: Subject, report: Report) -> None:
    raddb = Path(os.environ.get("RADDB", INSTALLED))
    dictionaries = Path(os.environ.get("DICTIONARIES", DICTIONARIES))
    if not all(map(shutil.which, (SERVER, CLIENT))) or not os.access(raddb / "policy.d" / "filter", os.R_OK):
        report.say(f"imported policies beside a server: left out, there is no {SERVER}, {CLIENT} or {raddb}")
        return
    names = [*DEBIAN, *WRITTEN, *showing()]
    with new_folder() as folder:
        ports = dict(zip(names, free_ports(len(names))))
        configure(folder, raddb, ports)
        with server(folder, "UTC") as is_ready:
            report.check("a server takes the policies", [] if is_ready else [(folder / "log").read_text()[-2000:]])
            if is_ready:
                compare(subject, report, folder, dictionaries, ports)
