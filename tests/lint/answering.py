"""What a FreeRADIUS server answers where its lists hold nothing, and where it takes a word for an attribute, beside
what `radpolicy-lint` warns of."""
import re
import shutil
import sqlite3
from pathlib import Path
from typing import Dict, List, NamedTuple
from unittest import mock

from common.program import run
from common.report import Report
from common.subject import Subject, new_folder
from peers import wider
from peers.client import CLIENT

# The user is one of the system's, in a group of the same name.
REQUEST = """User-Name = "root"
User-Password = "hello"
NAS-Identifier = "default"
Class = 0x726f6f74
Acct-Terminate-Cause = Lost-Carrier
Session-Timeout = 2
"""
MODULES = """modules {{
	expr {{
	}}
	expiration {{
	}}
	logintime {{
		minimum_timeout = 60
	}}
	unix {{
		radwtmp = {folder}/radwtmp
	}}
	sql {{
		driver = "rlm_sql_sqlite"
		dialect = "sqlite"
		sqlite {{
			filename = "{folder}/database"
		}}
		pool {{
			start = 0
			min = 0
			max = 2
		}}
		sql_user_name = "%{{User-Name}}"
		group_membership_query = "SELECT 'staff'"
		read_groups = yes
	}}
	sql second {{
		driver = "rlm_sql_sqlite"
		dialect = "sqlite"
		sqlite {{
			filename = "{folder}/database"
		}}
		pool {{
			start = 0
			min = 0
			max = 2
		}}
		sql_user_name = "%{{User-Name}}"
		group_membership_query = "SELECT 'other'"
		read_groups = yes
	}}
	sqlcounter daily {{
		sql_module_instance = sql
		dialect = "sqlite"
		counter_name = Daily-Session-Time
		check_name = Max-Daily-Session
		reply_name = Session-Timeout
		key = User-Name
		reset = daily
		query = "SELECT 7"
	}}
}}
instantiate {{
	expr
	expiration
	logintime
	unix
	sql
	second
	daily
}}
"""
# Those that the server's own dictionaries don't have, since its modules make them.
MADE = """ATTRIBUTE SQL-Group 3000 string
ATTRIBUTE second-SQL-Group 3001 string
ATTRIBUTE Daily-Session-Time 3002 integer
ATTRIBUTE Unix-Group 3003 string
"""
VIRTUAL, MODULE, BARE = "virtual-attribute", "module-comparison", "bare-name"


class Asked(NamedTuple):
    """A condition that a server holds, or does not hold, of the request, and what is warned of it."""

    condition: str
    holds: bool
    warnings: List[str]


def asked(text: str, holds: bool, *warnings: str) -> List[Asked]:
    return [Asked(line, holds, list(warnings)) for line in text.strip().splitlines()]


# The request has none of these attributes, so here each is false, or true with `!=`.
CONDITIONS = [
    *asked("""
&Client-Shortname == "here"
&reply:Client-Shortname == "here"
&control:Client-Shortname
&Request-Processing-Stage == "authorize"
&Virtual-Server == "default"
&NAS-Identifier == &Virtual-Server
"%{Virtual-Server}" == "default"
&Virtual-Server =~ /^def/
&Packet-Type == Access-Request
&reply:Packet-Type
&Response-Packet-Type == 0
&Packet-Authentication-Vector
&Client-IP-Address == 127.0.0.1
&Packet-Src-IP-Address == 127.0.0.1
&Packet-Dst-IP-Address == 127.0.0.1
&Packet-Src-Port
&Packet-Dst-Port > 0
""", True, VIRTUAL),
    *asked("""
&control:Packet-Type
""", False),
    *asked("""
&Group == "root"
&Group-Name == "root"
&Unix-Group == "root"
&Group == "%{User-Name}"
"%{Group}" == "root"
&SQL-Group == "staff"
&second-SQL-Group == "other"
&Daily-Session-Time == 7
&Expiration == "Jan 01 2100 00:00:00 UTC"
&Current-Time == "Al0000-2400"
&Time-Of-Day != "23:59:59"
&Suffix == "t"
&Prefix == "ro"
""", True, MODULE),
    *asked("""
&Group == "nobody"
&second-SQL-Group == "staff"
&Time-Of-Day == "23:59:59"
""", False, MODULE),
    *asked("""
&Group
&Prefix
&reply:Group == "root"
&User-Name == "%{Group}"
&User-Name == &Group
"%{Group}x" == "rootx"
""", False),
    *asked("""
&User-Name == User-Name
&User-Name == request:user-name
&User-Name == Current.Request:User-Name
&User-Name == attr-1
&Class == Attr-25
&Acct-Terminate-Cause == Session-Timeout
""", True, BARE),
    *asked("""
&User-Name == reply:User-Name
&User-Name == session-state:User-Name
&User-Name != User-Name
""", False, BARE),
    *asked("""
&Acct-Terminate-Cause == "Session-Timeout"
&User-Name == "User-Name"
""", False),
]
NAMES = VIRTUAL, MODULE, BARE


def of_server(folder: Path) -> List[str]:
    """The numbers of the conditions that a server holds, or what it says where it doesn't begin."""
    sqlite3.connect(folder / "database").execute("CREATE TABLE unused (at)")
    told = 'if ({}) {{\nupdate reply {{\nReply-Message += "{}"\n}}\n}}\n'
    policy = "".join(told.format(it.condition, at) for at, it in enumerate(CONDITIONS))
    whole, port = wider.CONFIGURATION.replace("modules {{\n}}\n", MODULES), wider.free_port()
    with mock.patch.object(wider, "CONFIGURATION", whole), wider.server(folder, port, policy) as is_ready:
        if not is_ready:
            return [(folder / "log").read_text()[-2000:]]
        return [line.partition('"')[2].strip('"') for line in wider.of_server(port, REQUEST)]


def of_lint(subject: Subject, folder: Path) -> Dict[int, List[str]]:
    """The warnings of each of the conditions, by their names."""
    known = Path("/usr/share/freeradius")
    (folder / "dictionary").write_bytes((known / "dictionary").read_bytes() + MADE.encode())
    policy = "".join(f"if ({it.condition}) {{ ok }}\n" for it in CONDITIONS)
    (folder / "policy").write_text("# profile: wider\n" + policy)
    words = ["--format", "gcc", "--policy", "policy", "dictionary", *sorted(map(str, known.glob("dictionary.*")))]
    said = run([subject.driver("radpolicy_lint"), *words], folder, b"")
    found: Dict[int, List[str]] = {at: [] for at in range(len(CONDITIONS))}
    for line, name in re.findall(r"^policy:(\d+): warning: .* \[(.*)\]$", said.output.decode(), re.MULTILINE):
        found[int(line) - 2] += [name] if name in NAMES else []
    return found


def check(subject: Subject, report: Report) -> None:
    if shutil.which(CLIENT) is None or shutil.which(wider.SERVER) is None:
        report.say(f"what a server answers: not tried, there is no {wider.SERVER} or no {CLIENT}")
        return
    with new_folder() as folder:
        held, warned = of_server(folder), of_lint(subject, folder)
    given = list(enumerate(CONDITIONS))
    wrong = [f"{it.condition}: a server says otherwise: {held[:1]}" for at, it in given if it.holds != (str(at) in held)]
    report.check(f"lint: {len(given)} conditions with what a server answers: the server", wrong)
    wrong = [f"{it.condition}: {warned[at]}" for at, it in given if warned[at] != it.warnings]
    report.check(f"lint: {len(given)} conditions with what a server answers: the warnings", wrong)
