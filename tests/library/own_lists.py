"""Lists in which a FreeRADIUS server itself has set attributes, by a `users` file and by unlang, and the module of
examples/freeradius after that: what a policy leaves alone is sent as if there were no module, to the octet, and what it
changes as if the server ran its lines itself."""
import re
import socket
import struct
from collections import Counter
from pathlib import Path
from typing import Dict, List, NamedTuple, Tuple

from common.report import Report
from common.subject import Subject, new_folder, on_all
from library.building import shared_library
from library.serving import HEAD, SECONDS, SECRET, answered, copy_module, sent, server

VLAN = ["Tunnel-Type{} += VLAN", "Tunnel-Medium-Type{} += IEEE-802", 'Tunnel-Private-Group-Id{} += "20"']


def vlan(*tags: str) -> List[str]:
    return [line.format(tag) for tag in tags for line in VLAN]


# What the server sets. Each is set by a `users` file for some, and by unlang for others.
OWN = {
    "absent": vlan(""),
    "zero": vlan(":0"),
    "one": vlan(":1"),
    "all": vlan("", ":0", ":1"),
    "by numbers": ["Tunnel-Type += 13", "Tunnel-Medium-Type += 0x06", "Tunnel-Private-Group-Id += 20"],
    "first octets": ["Tunnel-Type += 0x0100000d", "Tunnel-Preference += 0x28000001",
                     "Tunnel-Preference:1 += 0x28000001", r'Tunnel-Private-Group-Id += "\00120"',
                     'Tunnel-Private-Group-Id:2 += "0x3230"'],
    "IPv6": ["Framed-IPv6-Prefix += 2001:db8:1::/64", "Framed-IPv6-Prefix += 2001:0DB8::/32",
             "Login-IPv6-Host += 2001:db8::0:1", "Framed-Interface-Id += 01:2:3:4",
             "PMIP6-Home-IPv4-HoA += 10.0.0.0/8"],
    "dates": ['Event-Timestamp += "Nov 24 2026 10:00:00 UTC"', "WISPr-Session-Terminate-Time += 20261124",
              "Session-Timeout += 0x0e10"],
    "octets and names": ["Class += 0x00ff", 'Class += "text"', "Class += 0x00ff", "Service-Type += Framed-User",
                         "Framed-Protocol += 1", "NAS-Port-Type += 99", "Framed-IP-Address += 10.1.2.3",
                         'MS-CHAP-Error += "E=691"'],
    "quotes": [r'Reply-Message += "a \"quoted\" \\ text\n\tof lines, \303\251 \001"',
               "Reply-Message += 'a \"single\" \\n'", "Reply-Message += plain", 'Filter-Id += "0x31"',
               'Cisco-AVPair += "ip:inacl#1=permit ip any any"'],
}
VLANS = "absent", "zero", "one", "all", "by numbers"
UNCHANGED, ADDED, REPLACED, REMOVED, ALL_REMOVED, AGAIN = range(6)  # what a policy does, by the request's NAS-Port
NOTHING = "# profile: wider\n"
# The server reads it too. The last of it has all pairs go back to the server.
CHANGES = f"""# profile: wider
if (&NAS-Port == {ADDED}) {{
    update reply {{
        Tunnel-Type:2 += VLAN
        Tunnel-Medium-Type:2 += IEEE-802
        Tunnel-Private-Group-Id:2 += "30"
        Tunnel-Preference += 7
    }}
}}
elsif (&NAS-Port == {REPLACED}) {{
    if (&reply:Tunnel-Private-Group-Id:1) {{
        update reply {{
            Tunnel-Private-Group-Id:1 := "40"
        }}
    }}
    elsif (&reply:Tunnel-Private-Group-Id) {{
        update reply {{
            Tunnel-Private-Group-Id := "40"
        }}
    }}
}}
elsif (&NAS-Port == {REMOVED}) {{
    update reply {{
        Tunnel-Type:1 !* ANY
        Tunnel-Medium-Type:1 !* ANY
        Tunnel-Private-Group-Id:1 !* ANY
    }}
}}
elsif (&NAS-Port == {ALL_REMOVED}) {{
    update reply {{
        Tunnel-Type !* ANY
        Tunnel-Medium-Type !* ANY
        Tunnel-Private-Group-Id !* ANY
    }}
}}
elsif (&NAS-Port == {AGAIN}) {{
    update reply {{
        Reply-Message ^= "first"
    }}
}}
"""
# Three of the same kind, but for what comes between the lines of their own, before it and after it: nothing, the lines of
# the policy, or the module.
SERVERS = "untouched", "lines", "module"
SEEN = '"%{debug_attr:request:[*]}%{debug_attr:control:[*]}%{debug_attr:reply:[*]}"'
SITE = """server {name} {{
	listen {{
		type = auth
		ipaddr = 127.0.0.1
		port = {port}
	}}
	authorize {{
		update control {{
			Auth-Type := Accept
			Tmp-String-0 := "of \\"control\\""
			Tunnel-Type := VLAN
		}}
		files
	}}
	post-auth {{
		own
		{seen}
{between}
		{seen}
		update reply {{
			Tunnel-Type += VLAN
			Tunnel-Type:0 += VLAN
			Tunnel-Type:1 += VLAN
			Framed-IPv6-Prefix += 2001:db8:2::/64
			Class += 0x00ff
			Reply-Message += "\\tafter that"
		}}
	}}
}}
"""
LOGGED = re.compile(r'^\((\d+)\) +(?:Attributes matching "(\w+):\[\*\]"|&(\w+):(.*))$', re.M)
OPERATOR = re.compile(r" (=|:=|\+=|\^=) ")
DIFFERENT = re.compile(r'radpolicy post-auth \[User-Name = "([^"]+)"\] different: (.*)$', re.M)
Lists = Dict[str, List[str]]


class Login(NamedTuple):
    """Who asks: for whom the server sets what, by which means, and what the policy does."""

    kind: str
    means: str
    change: int

    @property
    def name(self) -> str:
        return f"{self.kind} {self.means} {self.change}"

    @property
    def lines(self) -> str:
        return (f'User-Name = "{self.name}", Filter-Id = "{self.kind}", NAS-Identifier = "{self.means}", '
                f"NAS-Port = {self.change}\n")

    @property
    def packet(self) -> bytes:
        """The same in octets, with an authenticator and an identifier that are the same each time."""
        texts = ((1, self.name.encode()), (11, self.kind.encode()), (32, self.means.encode()),
                 (5, struct.pack("!I", self.change)))
        held = b"".join(bytes([number, len(text) + 2]) + text for number, text in texts)
        return struct.pack("!BBH", 1, 7, 20 + len(held)) + bytes(range(16)) + held


def logins(*changes: int) -> List[Login]:
    return [Login(kind, means, change) for change in changes
            for kind in (OWN if change in (UNCHANGED, AGAIN) else VLANS) for means in ("users", "unlang")]


def configure(subject: Subject, folder: Path, ports: List[int], policy: str, is_shadow: bool) -> None:
    """A `users` file, the same in unlang, and the module as it is to be copied, for the section `post-auth`."""
    text = copy_module(subject, folder)
    text = text if is_shadow else text.replace("shadow = yes", "shadow = no")
    (folder / "mods-available" / "radpolicy").write_text(text)
    (folder / "radpolicy" / "post-auth").write_text(policy)
    (folder / "users").write_text("".join(
        f'DEFAULT Filter-Id == "{kind}", NAS-Identifier == "users"\n\t' + ",\n\t".join(lines) + "\n\n"
        for kind, lines in OWN.items()))
    own = "".join(f'if (&Filter-Id == "{kind}" && &NAS-Identifier == "unlang") {{\nupdate reply {{\n' + "\n".join(lines)
                  + "\n}\n}\n" for kind, lines in OWN.items())
    between = {"untouched": "", "lines": policy, "module": "radpolicy"}
    sites = "".join(SITE.format(name=name, port=port, seen=SEEN, between=between[name])
                    for name, port in zip(SERVERS, ports))
    (folder / "radiusd.conf").write_text(
        HEAD.format(folder=folder, secret=SECRET) + f"policy {{\nown {{\n{own}}}\n}}\nmodules {{\n"
        f"$INCLUDE {folder}/mods-available/radpolicy\nfiles {{\nusersfile = {folder}/users\n}}\n}}\n{sites}")


def free_ports(count: int) -> List[int]:
    sockets = [socket.socket(socket.AF_INET, socket.SOCK_DGRAM) for _ in range(count)]
    for one in sockets:
        one.bind(("127.0.0.1", 0))
    found = [one.getsockname()[1] for one in sockets]
    for one in sockets:
        one.close()
    return found


def reply_to(login: Login, port: int) -> str:
    """The reply's octets."""
    with socket.socket(socket.AF_INET, socket.SOCK_DGRAM) as here:
        here.settimeout(SECONDS)
        here.sendto(login.packet, ("127.0.0.1", port))
        return here.recv(4096).hex()


def seen(log: str) -> Dict[str, List[Lists]]:
    """The lists of each user as they were seen, in the order of the requests; without the operators."""
    of_request: Dict[str, List[Lists]] = {}
    for number, begun, name, pair in LOGGED.findall(log):
        moments = of_request.setdefault(number, [])
        if begun == "request":
            moments.append({"request": [], "control": [], "reply": []})
        if name:
            moments[-1][name].append(OPERATOR.sub(" = ", pair, 1))
    of_user: Dict[str, List[Lists]] = {}
    for number in sorted(of_request, key=int):
        moments = of_request[number]
        user = next(pair for pair in moments[0]["request"] if pair.startswith("User-Name = "))
        of_user.setdefault(user.partition(" = ")[2], []).extend(moments)
    return of_user


def words(before: List[str], after: List[str]) -> "Counter[str]":
    """In which words a reply would be another."""
    gone, come = Counter(before) - Counter(after), Counter(after) - Counter(before)
    return Counter([f"reply -{pair}" for pair in gone.elements()] + [f"reply +{pair}" for pair in come.elements()])


def check_sent(report: Report, given: List[Login], ports: List[int], is_shadow: bool) -> None:
    """Replies to the same packets, one server after the other."""
    replies = on_all(lambda login: [reply_to(login, port) for port in ports], given)
    for login, (untouched, by_lines, by_module) in zip(given, replies):
        wanted = untouched if is_shadow else by_lines
        report.check(f"the server's own lists{' and a shadow' * is_shadow}: the reply to {login.name}",
                     [] if by_module == wanted else [f"it is {by_module}, not {wanted}"])


def check_seen(report: Report, log: str, given: List[Login]) -> None:
    """The lists after the module are those after the same lines in the server."""
    found = seen(log)
    for login in given:
        *_, after_lines, _, after_module = found.get(login.name, [{}, {}, {}])
        wrong = [f"{after_module}, not {after_lines}"] if after_module != after_lines or not after_lines else []
        report.check(f"the server's own lists: what {login.name} leaves", wrong)


def check_told(report: Report, log: str, given: List[Login], replies: Dict[str, Tuple[List[str], List[str]]]) -> None:
    """The log of a shadow has each difference, and counts them."""
    told = {name: Counter(said.split("; ")) for name, said in DIFFERENT.findall(log)}
    wanted = {login.name: words(*replies[login.name]) for login in given}
    for login in given:
        found = told.get(login.name, Counter())
        report.check(f"the server's own lists and a shadow: what is told of {login.name}",
                     [] if found == wanted[login.name] else [f"{dict(found)}, not {dict(wanted[login.name])}"])
    equal = sum(not words for words in wanted.values())
    counts = f"radpolicy shadow: {equal} equal, {len(given) - equal} different, 0 refused"
    report.check(f"the server's own lists and a shadow: {counts}", [] if counts in log else ["it doesn't count so"])


def printed(given: List[Login], ports: List[int]) -> Dict[str, Tuple[List[str], List[str]]]:
    """What the client prints of the replies without the policy's lines, and with them."""
    def replies(login: Login) -> Tuple[List[str], List[str]]:
        untouched, by_lines = (sent(answered(port, login.lines))[1] for port in ports[:2])
        return untouched, by_lines
    return dict(zip((login.name for login in given), on_all(replies, given)))


def check_policy(subject: Subject, report: Report, policy: str, given: List[Login], is_shadow: bool) -> None:
    """One policy, in a server of its own."""
    with new_folder() as folder:
        shared_library(subject, folder).rename(folder / "libradpolicy.so.0")
        ports = free_ports(len(SERVERS))
        configure(subject, folder, ports, policy, is_shadow)
        with server(folder, "UTC" if is_shadow else "CET-1") as is_ready:
            begun = (folder / "log").read_text(errors="replace")
            report.check("the server starts with lists of its own", [] if is_ready else [begun[-2000:]])
            if not is_ready:
                return
            check_sent(report, given, ports, is_shadow)
            replies = printed(given, ports) if is_shadow else {}
        log = (folder / "log").read_text(errors="replace")
        if is_shadow:
            check_told(report, log, given, replies)
        else:
            check_seen(report, log, given)


def check_own_lists(subject: Subject, report: Report) -> None:
    """A policy that changes nothing, and one that changes VLANs; as a shadow and not."""
    changed = logins(ADDED, REPLACED, REMOVED, ALL_REMOVED, AGAIN)
    for is_shadow in (True, False):
        check_policy(subject, report, NOTHING, logins(UNCHANGED), is_shadow)
        check_policy(subject, report, CHANGES, changed, is_shadow)
