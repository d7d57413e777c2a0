"""The module of examples/freeradius in a FreeRADIUS server on loopback: its replies and lists are those of `radpolicy
run` of the same requests; as a shadow it changes nothing and tells which answers would be others."""
import random
import re
from pathlib import Path
from typing import Dict, List, NamedTuple, Tuple

from common.program import run
from common.report import Report
from common.subject import Subject, new_folder, on_all
from library.building import shared_library
from library.own_lists import check_own_lists
from library.serving import DICTIONARIES, HEAD, SECRET, answered, copy_module, sent, server, unavailable
from traffic.servers import ports as free_ports

SEED = 20_261_126
REQUESTS = 40
CONFIGURATION = HEAD + """modules {{
	$INCLUDE {folder}/mods-available/radpolicy
}}
server default {{
	listen {{
		type = auth
		ipaddr = 127.0.0.1
		port = {port}
	}}
	listen {{
		type = acct
		ipaddr = 127.0.0.1
		port = {accounting_port}
	}}
	authorize {{
{authorize}
	}}
	accounting {{
		radpolicy
	}}
}}
"""
# The lists as the call leaves them go into the log.
CALLED = """		radpolicy
		"%{debug_attr:request:[*]}%{debug_attr:control:[*]}\""""
SHADOWED = """		update control {
			Auth-Type := Accept
		}
		update reply {
			Reply-Message := "the server's own"
			Session-Timeout := 60
			Tunnel-Password:2 := "hidden"
			Tunnel-Private-Group-Id:1 := "0x20"
			Framed-IPv6-Prefix := 2001:db8:1::/64
			Event-Timestamp := "Nov 24 2026 10:00:00 UTC"
			Service-Type := 1
		}
		radpolicy"""
POLICY = r"""# profile: wider
update control {
    Auth-Type := Accept
    Tmp-String-0 := "for %{User-Name}"
    Tmp-Integer-0 += 1
    Tmp-Integer-0 += 2
}
if (&Tunnel-Private-Group-Id) {
    update reply {
        Tunnel-Type:1 := VLAN
        Tunnel-Medium-Type:1 := IEEE-802
        Tunnel-Private-Group-Id:1 := "of %{Tunnel-Private-Group-Id}"
        Tunnel-Type:2 += GRE
        Tunnel-Private-Group-Id:2 += "%{NAS-Port}"
        Tunnel-Private-Group-Id += 0x03307835
        Tunnel-Private-Group-Id += "untagged"
    }
    update request {
        Tunnel-Private-Group-Id:1 !* ANY
    }
}
if (&NAS-IPv6-Address) {
    update reply {
        Framed-IPv6-Prefix += 2001:db8:20::/64
        Framed-IPv6-Prefix += 2001:db8::/32
        Login-IPv6-Host := &NAS-IPv6-Address
        Framed-Interface-Id := 1:2:3:4
    }
    update request {
        NAS-IPv6-Address := 2001:db8::ffff
    }
}
if (&Event-Timestamp) {
    update reply {
        Event-Timestamp := &Event-Timestamp
        WISPr-Session-Terminate-Time := "%{Event-Timestamp}"
    }
}
update reply {
    Reply-Message += "a \"quoted\" \\ text of %{User-Name}"
    Reply-Message += "\tof\n lines, \001\377"
    Class += 0x00ff
    Class += 0x00ff
    Session-Timeout := 3600
    Acct-Interim-Interval := 600
    Acct-Interim-Interval !* ANY
    Idle-Timeout = 7
    MS-MPPE-Send-Key := 0x0102
    Tunnel-Password := 0x01610162
    Tunnel-Password += "plain"
}
if (&Calling-Station-Id || &NAS-Port > 700) {
    update reply {
        Reply-Message += &Calling-Station-Id
    }
}
if (&Class) {
    update request {
        Class -= 0x01
        Service-Type := Login-User
        User-Password := "other"
        Reply-Message ^= "first"
    }
}
if (&NAS-Port > 900) {
    reject
}
"""
ACCOUNTING = """# profile: wider
if (!&Acct-Session-Id) {
    reject
}
"""
SHADOW_POLICY = """# profile: wider
update reply {
    Session-Timeout := 60
}
if (&Class) {
    update reply {
        Reply-Message := "another"
        Session-Timeout := 61
        Tunnel-Type:1 := VLAN
        Tunnel-Password := "never shown"
    }
    update control {
        Cleartext-Password := "nor this"
    }
}
if (&NAS-Port > 900) {
    reject
}
"""
OWN = ['Reply-Message = "the server\'s own"', "Session-Timeout = 60", 'Tunnel-Password:2 = "hidden"',
       'Tunnel-Private-Group-Id:1 = "0x20"', "Framed-IPv6-Prefix = 2001:db8:1::/64",
       'Event-Timestamp = "Nov 24 2026 10:00:00 UTC"', "Service-Type = Login-User"]
OTHER = "; ".join([
    'reply -Reply-Message = "the server\'s own"', "reply -Session-Timeout = 60", "reply -Tunnel-Password = (hidden)",
    'reply +Reply-Message = "another"', "reply +Session-Timeout = 61", "reply +Tunnel-Password = (hidden)",
    "reply +Tunnel-Type:1 = VLAN", "control +Cleartext-Password = (hidden)"])
TOLD = re.compile(r'radpolicy authorize \[User-Name = "([^"]+)".*\] (refused|different): (.*)$', re.M)
LOGGED = re.compile(r"^\((\d+)\) +&(request|control):(.*)$", re.M)
# The vendor is in no dictionary.
REFUSED = 'User-Name = "refused"\nAttr-26.20000.1 = 0x01\n'


# What radpolicy reads and prints as octets: a text with a tag that begins with `0x`, and what is encrypted.
OCTETS = {'Tunnel-Private-Group-Id:2 = "0x5"': "Tunnel-Private-Group-Id = 0x02307835",
          'Tunnel-Private-Group-Id:3 = "0x5"': "Tunnel-Private-Group-Id = 0x03307835",
          'Tunnel-Password:1 = "a\\001b"': "Tunnel-Password = 0x01610162",
          'Tunnel-Password:0 = "plain"': "Tunnel-Password = 0x706c61696e"}
TEXTS = {octets: text for text, octets in OCTETS.items()}
DIGITS = 'Tunnel-Private-Group-Id:2 = "0x5"'


class Asked(NamedTuple):
    """A request."""

    name: str
    lines: str
    port: int
    has_class: bool


def requests(chance: random.Random, begin: str) -> List[Asked]:
    """Requests at random, with users of their own."""
    made = []
    for at in range(REQUESTS):
        port = chance.randrange(1000)
        lines = [f"NAS-Port = {port}", 'User-Password = "hello # x"']
        optional = [
            [f'Tunnel-Private-Group-Id:{chance.randrange(3)} = "{chance.randrange(99)}"', "Tunnel-Type:1 = VLAN",
             'Tunnel-Private-Group-Id:1 = "5"', DIGITS],
            [f"NAS-IPv6-Address = 2001:db8::{chance.randrange(1, 9999):x}", "Framed-IPv6-Prefix = 2001:db8:1::/64"],
            [f'Event-Timestamp = "Nov {chance.randrange(10, 30)} 2026 10:00:00 UTC"'],
            [f'Calling-Station-Id = "a \\"b\\" \\\\ {at}\\n\\t, x = y"'],
            ["Class = 0x01", "Class = 0x02", "Class = 0x01", "Service-Type = Framed-User"],
        ]
        chosen = [chance.random() < 0.6 for _ in optional]
        lines += [line for lines, is_chosen in zip(optional, chosen) if is_chosen for line in lines]
        chance.shuffle(lines)
        name = f"{begin}-{at}"
        text = "\n".join(["# profile: wider", f'User-Name = "{name}"', *lines]) + "\n"
        made.append(Asked(name, text, port, chosen[-1]))
    return made


class Ports(NamedTuple):
    """Where the server listens."""

    auth: int
    acct: int


def configure(subject: Subject, folder: Path, ports: Ports, is_shadow: bool) -> None:
    """The configuration of the example as it is to be copied, for the section `authorize`."""
    text = copy_module(subject, folder)
    line = next(line for line in text.splitlines(True) if line.strip().startswith("post-auth = "))
    text = text.replace(line, "".join(line.replace("post-auth", section) for section in ("authorize", "accounting")))
    text = text if is_shadow else text.replace("shadow = yes", "shadow = no")
    (folder / "mods-available" / "radpolicy").write_text(text)
    (folder / "radpolicy" / "authorize").write_text(SHADOW_POLICY if is_shadow else POLICY)
    (folder / "radpolicy" / "accounting").write_text(ACCOUNTING)
    (folder / "radiusd.conf").write_text(CONFIGURATION.format(
        folder=folder, port=ports.auth, accounting_port=ports.acct, secret=SECRET,
        authorize=SHADOWED if is_shadow else CALLED))


def lists_of(subject: Subject, folder: Path, asked: Asked) -> Tuple[str, Dict[str, List[str]]]:
    """The result and the lists that the program prints, or its fault."""
    (folder / asked.name).write_text(asked.lines.replace(DIGITS, OCTETS[DIGITS]))
    words = [subject.program, "run", "-f", asked.name, "--policy", "radpolicy/authorize"]
    ended = run([*words, *sorted(DICTIONARIES.glob("dictionary*"))], folder)
    lists: Dict[str, List[str]] = {"": [ended.errors.decode()]}
    name = ""
    for line in ended.output.decode().splitlines():
        if line.startswith("  "):
            lists[name].append(TEXTS.get(line[2:], line[2:]))
        else:
            name, lists[line] = line, []
    return name, lists


def as_logged(line: str) -> str:
    """A printed pair as a server's log has it, in its time zone, without quotes, and with a blank for a newline."""
    name, _, value = line.partition(" = ")
    text = value.replace("10:00:00 UTC", "11:00:00 CET").strip('"')
    return f"{name} = " + text.replace("\\n", " ").replace("\\t", "\t").replace('\\"', '"')


def logged(log: str) -> Dict[str, Dict[str, List[str]]]:
    """The request and control lists of each user, as the log has them."""
    of_request: Dict[str, Dict[str, List[str]]] = {}
    for number, name, pair in LOGGED.findall(log):
        of_request.setdefault(number, {"request": [], "control": []})[name].append(pair.replace(":= ", "= ", 1))
    return {pair.partition(" = ")[2]: lists for lists in of_request.values() for pair in lists["request"]
            if pair.startswith("User-Name = ")}


def check_called(subject: Subject, report: Report, folder: Path, port: int, given: List[Asked]) -> None:
    """Replies, and the lists that the server is left with, beside those of the program."""
    replies = on_all(lambda asked: sent(answered(port, asked.lines)), given)
    log = (folder / "log").read_text(errors="replace")
    left = logged(log)
    for asked, (kind, attributes) in zip(given, replies):
        result, lists = lists_of(subject, folder, asked)
        is_rejected = result.split()[1:2] in (["reject"], ["fail"])
        wanted = "Access-Reject" if is_rejected else "Access-Accept", lists.get("reply")
        wrong = [f"it sends {kind} {attributes}, the program {lists}"] if (kind, attributes) != wanted else []
        for name in () if is_rejected else ("request", "control"):
            there, here = left.get(asked.name, {}).get(name), [as_logged(line) for line in lists.get(name, [])]
            wrong += [f"its {name} list is {there}, the program's {here}"] if there != here else []
        report.check(f"the module in a server: {asked.name}", wrong)
    threads = set(re.findall(r"Thread (\d+) handling request", log))
    report.check("the module in a server: several threads call it", [] if len(threads) > 1 else [f"threads {threads}"])


def check_refused(report: Report, folder: Path, port: int) -> None:
    """A request that radpolicy refuses fails, and the log says why."""
    kind, attributes = sent(answered(port, REFUSED))
    log = (folder / "log").read_text(errors="replace")
    is_told = 'radpolicy authorize [User-Name = "refused"] refused: radpolicy: E32 request:' in log
    report.check("the module in a server: a refused request",
                 [] if kind == "Access-Reject" and not attributes and is_told else [f"{kind} {attributes} {is_told}"])


def check_accounting(report: Report, port: int) -> None:
    """A record that the policy rejects is not answered."""
    record = "User-Name = bob, Acct-Status-Type = Start"
    kind = sent(answered(port, f"{record}, Acct-Session-Id = 01\n", "acct"))[0]
    other = answered(port, f"{record}\n", "acct", 1)
    report.check("the module in a server: accounting",
                 [] if (kind, other) == ("Accounting-Response", "") else [f"it sends {kind!r} and {other!r}"])


def check_shadow(report: Report, port: int, given: List[Asked]) -> None:
    """The server's own replies, and a line for each request whose answer would be another."""
    asked = [*given, Asked("refused", REFUSED, 0, False)]
    replies = on_all(lambda one: sent(answered(port, one.lines)), asked)
    wrong = [f"{one.name}: {reply}" for one, reply in zip(asked, replies) if reply != ("Access-Accept", OWN)]
    report.check("the module as a shadow: the replies are the server's", wrong)


def check_told(report: Report, folder: Path, given: List[Asked]) -> None:
    """What the log of the shadow has when the server has ended."""
    log = (folder / "log").read_text(errors="replace")
    told = {name: words for name, kind, words in TOLD.findall(log) if kind == "different"}
    words_of = {one.name: [OTHER] * one.has_class + ["result reject"] * (one.port > 900) for one in given}
    wanted = {name: "; ".join(words) for name, words in words_of.items() if words}
    report.check("the module as a shadow: it tells of each other answer",
                 [] if told == wanted else [f"{told}, not {wanted}"])
    refused = [(name, words[:14]) for name, kind, words in TOLD.findall(log) if kind == "refused"]
    report.check("the module as a shadow: it tells what is refused",
                 [] if refused == [("refused", "radpolicy: E32")] else [f"{refused}"])
    counts = f"radpolicy shadow: {len(given) - len(wanted)} equal, {len(wanted)} different, 1 refused"
    report.check("the module as a shadow: it counts", [] if counts in log else [f"no line {counts!r}"])


def check(subject: Subject, report: Report) -> None:
    """All of it, where the library is built and the server is installed."""
    absent = unavailable(subject)
    if absent:
        report.say(f"the module in a server: not tried, {absent}")
        return
    chance = random.Random(SEED)
    for is_shadow, zone in ((False, "CET-1"), (True, "UTC")):
        given = requests(chance, "shadow" if is_shadow else "user")
        with new_folder() as folder:
            shared_library(subject, folder).rename(folder / "libradpolicy.so.0")
            ports = Ports(*free_ports())
            configure(subject, folder, ports, is_shadow)
            with server(folder, zone) as is_ready:
                log = (folder / "log").read_text(errors="replace")
                report.check("the server starts with the module", [] if is_ready else [log[-2000:]])
                if is_ready and is_shadow:
                    check_shadow(report, ports.auth, given)
                elif is_ready:
                    check_called(subject, report, folder, ports.auth, given)
                    check_refused(report, folder, ports.auth)
                    check_accounting(report, ports.acct)
            if is_ready and is_shadow:
                check_told(report, folder, given)
    check_own_lists(subject, report)
