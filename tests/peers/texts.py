"""Comparisons of texts beside a FreeRADIUS server: of which requests they hold, and which are refused."""
from typing import Dict

from common.report import Report
from common.subject import Subject, new_folder
from peers.patterns import Conditions, Difference, check_held, check_refused, is_installed

# The names of requests, and their lines.
REQUESTS = {
    "all": 'User-Name = "bob", Calling-Station-Id = "bob", NAS-Port = 7, Framed-IP-Address = 10.1.2.3, '
    'Service-Type = Framed-User, Class = 0x6137, Session-Timeout = 100, Filter-Id = "9", Filter-Id = "10", '
    'Login-LAT-Service = "0x6137"',
    "some": 'User-Name = "bob", NAS-Port = 7',
    "none": 'NAS-Identifier = "x"',
}
# What the two agree on, of each of the requests.
SAME = r"""
"%{User-Name}" == "%{Calling-Station-Id}"
"%{User-Name}" != "%{Calling-Station-Id}"
!("%{User-Name}" == "%{Calling-Station-Id}")
&User-Name == "%{Calling-Station-Id}"
&User-Name != "%{Calling-Station-Id}"
&User-Name == "%{reply:Filter-Id}"
&Filter-Id == "%{Filter-Id}"
&Filter-Id == "00%{reply:Class}9"
&Filter-Id > "1%{NAS-Port}"
&Filter-Id < "10%{reply:Class}"
&User-Name != "x%{Calling-Station-Id}"
&User-Name == "b%{reply:Class}ob"
"%{NAS-Port}" < "10"
"%{NAS-Port}" < "1"
"%{NAS-Port}" == 7
"%{Service-Type}" == "2"
"%{Service-Type}" == "Framed-User"
"%{Framed-IP-Address}" > "9.9.9.9"
"a%{NAS-Port}" == "a7"
"a%{NAS-Port}" == 'a7'
"a%{NAS-Port}" == a7
"a7" == "a%{NAS-Port}"
'a7' == "a%{NAS-Port}"
"a7" == "a7"
"" == "%{NAS-Port}"
"%{User-Name}%{Class}" == "bob0x6137"
"%{User-Name}%{NAS-Port}" == "%{Calling-Station-Id}7"
"a" < "b"
"%{Filter-Id}" > "10"
"%{Session-Timeout}" > "%{Filter-Id}"
"%{Filter-Id}" == "%{Session-Timeout}"
"007" == "7"
"%{NAS-Port}%{reply:Class}" == "007"
"7%{reply:Class}" < "10"
"7%{reply:Class}" < "10a"
"%{reply:Class}%{reply:Class}" == "0"
"%{reply:Class}%{reply:Class}" < "1"
"18446744073709551615%{reply:Class}" > "18446744073709551614"
"a%{reply:Class}" < "a b"
"A%{reply:Class}" == "a"
"1.5%{reply:Class}" < "1.25"
"+7%{reply:Class}" == "7"
"%{Framed-IP-Address}" > "9%{reply:Class}.9.9.9"
"%{User-Name}" =~ /^bob/
"%{User-Name}" !~ /^eve/
"%{User-Name}" =~ /^.?.?$/m
("%{User-Name}" =~ /^(b)/) && ("%{1}" == "b")
("%{User-Name}" =~ /^(b)/) && ("%{1}x" == "bx")
("%{User-Name}" =~ /^(b)(o)/) && ("%{0}" =~ /(o)/) && ("%{1}" == "o")
("%{User-Name}" =~ /^b(o)/) && (&Filter-Id != "%{1}")
"%{User-Name}" !~ /^eve$/
"%{User-Name}" =~ /^$/
!("%{User-Name}" =~ /x/)
"%{Framed-IP-Address}" =~ /^10\.1/
"%{Class}" =~ /^0x6137$/
"7" < "10"
"" == "0"
"" < "1"
"0x10%{reply:Class}" == "16"
" 7%{reply:Class}" == "7"
"a\001%{reply:Class}" > "a"
"a%{reply:Class}" == "a\n"
"a\"%{reply:Class}" == "a\""
"%{Service-Type}" == 2
"%{Service-Type}" == Framed-User
"%{Service-Type}" != 2
"%{Session-Timeout}" > 9
"%{Session-Timeout}" > "0x9"
"%{Session-Timeout}" > "9%{reply:Class}"
"00%{NAS-Port}" > "%{Session-Timeout}"
"1%{Session-Timeout}" > "%{Session-Timeout}9"
"%{NAS-Port}%{Session-Timeout}" == 7100
"%{Class}" == 0x6137
"%{Class}" == "a7"
"%{Class}" == "0x6137%{reply:Class}"
"%{Class}" < "%{NAS-Port}"
"%{Framed-IP-Address}%{reply:Class}" == 10.1.2.3
&NAS-Port < "%{Session-Timeout}"
&Framed-IP-Address == "%{NAS-IP-Address}"
&control:Filter-Id == "g%{reply:Class}iven"
&control:Filter-Id > "%{User-Name}"
"%{control:Filter-Id}x" == "givenx"
"%{User-Name}" == "%{control:Filter-Id}"
"%{User-Name}" >= "bob%{reply:Class}"
"%{User-Name}" <= "bob%{reply:Class}"
"%{User-Name}" < "boc%{reply:Class}"
'%{User-Name}' == "bob%{reply:Class}"
'%{User-Name}' == "x"
&User-Name == '%{Calling-Station-Id}'
'a' < 'b'
"bob" == bob
"%{User-Name}x"==bobx
("%{User-Name}x" == "bobx") && (&NAS-Port == 7)
("%{User-Name}x" == "bobx") || (&NAS-Port == 8)
!("%{User-Name}%{NAS-Port}" == "x")
("%{User-Name}" =~ /^(b)(o)b/) && ("%{1}" != "%{2}")
("%{User-Name}" =~ /^(b)(o)/) && ("%{1}" == "%{2}")
"%{1}" == "%{2}"
"%{1}" == ""
("%{User-Name}" =~ /^(b)(o)/) && (("%{2}" =~ /x/) || ("%{1}" == "b"))
("%{User-Name}" =~ /^(b)(o)/) && ("%{2}" !~ /x/) && ("%{1}" == "")
("%{User-Name}" =~ /(q)?ob/) && ("%{1}" =~ /^$/)
("%{Filter-Id}" =~ /(.)/) && (&Filter-Id == "%{1}")
("%{Filter-Id}" =~ /(.)/) && ("%{0}%{1}" == "099")
("%{NAS-Port}" =~ /(.)/) && ("%{1}" =~ /7/) && ("%{0}" == 7)
"%{1}" =~ /^/
"%{1}" !~ /x/
&Class == "a%{NAS-Port}"
&Class != "a%{NAS-Port}"
&Class > "a%{reply:Filter-Id}"
&Class < "a8%{reply:Class}"
&Class == "%{User-Name}"
&Class != "%{User-Name}"
&Class == "0x613%{NAS-Port}"
&Class == "0x61%{reply:Class}37"
&Class < "0x62%{reply:Class}"
&Class != "0x%{reply:Class}"
&Class == "%{Login-LAT-Service}"
&Class != "%{Login-LAT-Service}"
&Class == "%{Class}%{reply:Class}"
&Class == "x%{Class}"
&Class == "%{NAS-Port}"
&Class != "%{Tunnel-Private-Group-Id}"
&Class != "0x6%{NAS-Port}x"
&Class != "0x%{NAS-Port}"
(&Class =~ /^(0x61)/) && (&Class == "%{1}37")
&Attr-25 == "a%{NAS-Port}"
&Attr-1 == "b%{reply:Class}ob"
"%{Attr-25}" == "0x6137%{reply:Class}"
"100%%" == '100%'
'%' == "%%"
"100%%%{reply:Class}" == "100%%"
"%{User-Name}%%" == "bob%%"
&User-Name == "bob%%%{reply:Class}"
"""
# What holds of some requests here or on a server, and not on the other: rows of SERVER.md.
DIFFERENT = [
    Difference('!("%{User-Name}" == "x")', {"none"}),
    Difference('"-5%{reply:Class}" == "-05"', {"all", "some", "none"}),
    Difference('"-5%{reply:Class}" < "3"', {"all", "some", "none"}),
    Difference('"%{Calling-Station-Id}-" == "-"', {"some", "none"}),
    Difference('!("%{Calling-Station-Id}-" == "5")', {"some", "none"}),
    Difference('"18446744073709551616" == "18446744073709551617"', {"all", "some", "none"}),
    Difference('(&Class == 0x00) || ("%{User-Name}x" == "bobx")', {"some"}),
    Difference('!(&Class == "0x6%{NAS-Port}x")', {"all", "some", "none"}),
    Difference('&Class == "0X613%{NAS-Port}"', {"all"}),
    Difference('&User-Name != "%{Tunnel-Private-Group-Id}"', {"all", "some"}),
]
# What a server takes, and the fault with which it is refused here.
TAKEN: Dict[str, str] = {
    '&Tunnel-Private-Group-Id == "b%{reply:Class}ob"': "E55",
    '&NAS-Port < "1%{NAS-Port}"': "E55",
    '&Framed-IP-Address == "x%{User-Name}"': "E55",
    '&NAS-Port == "%{User-Name}"': "E55",
    '"%{NAS-Port}" == ""': "E30",
    'a7 == "a%{NAS-Port}"': "E32",
    "7 < 10": "E32",
    '"%{User-Name}"': "E51",
    '"%{Filter-Id[1]}x" == "10x"': "E50",
    '"%{%{User-Name}:-x}" == "bob"': "E50",
    '"%t%{User-Name}" == "x"': "E50",
    '"%{Vendor-Specific}x" == "x"': "E33",
    '"x%{User-Name}"': "E51",
    '"x"': "E51",
    '"%{User-Name}x" =~ /bobx/': "E61",
    '"x" =~ /x/': "E61",
}
# What both refuse.
REFUSED: Dict[str, str] = {
    '"%{User-Name}" == &Calling-Station-Id': "E51",
    "'bob' == &User-Name": "E51",
    '"%{NAS-Port}" == "x"': "E30",
    '"%{Nosuch}" == "a"': "E32",
    '"a%{Nosuch}" == "a"': "E32",
    '"%{Vendor-Specific}" == "x"': "E33",
    '"%{User-Name}" =~ "bob"': "E50",
    '"100%%%{reply:Class}" == "100%"': "E50",
    '"100%" == "100%"': "E50",
    '"%{User-Name}%" == "bob%%"': "E50",
}
# What is taken here alone.
TAKEN_HERE = ['"%{User-Name}" == "%"']


def check(subject: Subject, report: Report) -> None:
    asked = Conditions("texts", REQUESTS, SAME.strip().splitlines(), DIFFERENT)
    if not is_installed(report, asked.of):
        return
    with new_folder() as folder:
        check_held(subject, report, folder, asked)
    check_refused(subject, report, TAKEN, REFUSED, TAKEN_HERE)
