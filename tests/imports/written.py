"""What `radpolicy-import` writes of a small configuration, and when it writes nothing."""
import json
import os
from pathlib import Path
from typing import Dict, List, Sequence, Tuple

from common.program import Ended, run
from common.report import Report
from common.subject import Subject, new_folder
from configurations.hostile import written
from outputs.writers import of_import

DICTIONARY = "crates/radpolicy_import/data/dictionary"
SITE = b"""authorize {
	q
	if (&outer.request:User-Name == "bob" && "%{sql:SELECT 1}" == "yes") {
		update reply {
			Reply-Message := "Hi %{%{reply:Framed-Pool}:-you}"
		}
		return
	}
	reject
}
policy {
	q {
		update control {
			User-Name := &User-Name
		}
	}
}
"""
POLICY = b"""# initial lists
update control {
	Import-Sql-1 += "yes"
	Outer-Request-User-Name += "bob"
}
# policy q
if (&User-Name) {
	update control {
		User-Name := &User-Name
	}
}
if (&control:Outer-Request-User-Name == "bob" && &control:Import-Sql-1 && &control:Import-Sql-1 == "yes") {
	if (&reply:Framed-Pool && &reply:Framed-Pool != "") {
		update reply {
			Reply-Message := "Hi %{reply:Framed-Pool}"
		}
	}
	else {
		update reply {
			Reply-Message := "Hi you"
		}
	}
	update control {
		Import-Returned := "yes"
	}
}
if (!&control:Import-Returned) {
	reject
}
"""
MAP = b"""1 first:2
2 first:2
3 first:2
4 first:2
5 first:3
6 first:2
7 site:2
8 site:14 (q)
9 site:14 (q)
10 site:14 (q)
11 site:14 (q)
12 site:14 (q)
13 site:3
14 site:5
15 site:5
16 site:5
17 site:5
18 site:5
19 site:5
20 site:5
21 site:5
22 site:5
23 site:5
24 site:7
25 site:7
26 site:7
27 site:3
28 site:3
29 site:9
30 site:3
"""
INITIAL = b"""# an answer
control:Import-Sql-1 = "yes"
control:Outer-Request-User-Name = 'bob'
"""
TEMPLATE = b"""# site:5
#reply:Framed-Pool = 
"""
REPORT = b"""6 of 6 statements kept, 0 module calls are comments
1 of the kept depends on a value that you supply
"""
IMPORT = of_import("-o")
OPTIONS = ["--map", "map", "--initial-template", "template", "--write-dictionary", "dictionary.others", "-o", "policy"]
OUTPUTS = ("map", "template", "dictionary.others", "policy")


WARNED = b"""authorize {
	update reply {
		Reply-Message += "a"
		Reply-Message += "b"
	}
	update reply {
		Reply-Message := "c"
	}
}
"""
FOUND = ":= of an attribute of which there may be several instances"
OF_SERVER = "a server replaces the first and leaves the others, and here they are removed"
WARNING = f"site:7: kept, with {FOUND} [several-instances]: {OF_SERVER}"
AS_JSON = {"file": "site", "line": 7, "warning": OF_SERVER, "name": "several-instances", "text": FOUND}
LONG = b'authorize {\n\tupdate reply {\n\t\tReply-Message := "' + 254 * b"a" + b'"\n\t}\n}\n'
CUT = "on a server the text is whole until the reply is sent"
BEGINNING = 'Reply-Message := "' + 42 * "a" + ".."
LONG_WARNING = f"site:3: kept, but {CUT} [long-text]: {BEGINNING}"
LONG_AS_JSON = {"file": "site", "line": 3, "warning": CUT, "name": "long-text", "text": BEGINNING}


# Has root read only what the owner of a file may read, as every other user.
AS_OTHERS = ["setpriv", "--inh-caps=-all", "--bounding-set=-dac_override,-dac_read_search"]


def imported(subject: Subject, folder: Path, words: List[str], before: Sequence[str] = ()) -> Ended:
    command = [subject.driver("radpolicy_import"), "--dict", subject.root / DICTIONARY, *OPTIONS, *words]
    return run([*before, *command], folder)


def outputs_of(folder: Path) -> List[str]:
    return [name for name in OUTPUTS if (folder / name).exists()]


def check_files(subject: Subject, report: Report) -> None:
    """All that is written beside the policy of one section."""
    with new_folder() as folder:
        (folder / "site").write_bytes(SITE)
        (folder / "first").write_bytes(INITIAL)
        ended = imported(subject, folder, ["--initial", "first", "site"])
        faults = [] if ended.status == 0 and ended.errors.startswith(REPORT) else [f"{ended.status}, {ended.errors!r}"]
        for name, wanted in (("policy", POLICY), ("map", MAP), ("template", TEMPLATE)):
            found = (folder / name).read_bytes() if (folder / name).exists() else b""
            faults += [] if IMPORT.without_mark(found) == wanted else [f"{name}: {found!r}"]
        report.check("a policy, its map and its initial lists imported", faults)


def check_warnings(subject: Subject, report: Report) -> None:
    """What a server does otherwise with a line that is kept, with the line's origin."""
    told = {"a policy": (WARNED, WARNING, AS_JSON), "a long text": (LONG, LONG_WARNING, LONG_AS_JSON)}
    for name, (site, line, wanted) in told.items():
        with new_folder() as folder:
            (folder / "site").write_bytes(site)
            lines = imported(subject, folder, ["site"]).errors.decode().splitlines()
            objects = imported(subject, folder, ["--json", "site"]).errors.splitlines()
            faults = [] if line in lines else [f"{lines}"]
            faults += [] if wanted in map(json.loads, objects) else [f"{objects}"]
            report.check(f"what a server does otherwise with {name} told", faults)


FAULTS: Dict[str, Tuple[bytes, bytes]] = {
    "a word": (b"# c\nreply:Class\n", b"radpolicy-import: first:2: E02 not a pair of an initial list"),
    "the request": (b"User-Name = 'bob'\n", b"radpolicy-import: first:1: E02 not a pair of an initial list"),
    "a section": (b"\n\nserver {\n}\n", b"radpolicy-import: first:3: E02 not a pair of an initial list"),
    "no attribute": (b"reply:No-Name = 1\n", b"radpolicy-import: first:1: E02 an attribute that no dictionary has"),
    "no value": (b"reply:Framed-IP-Address = x\n", b"radpolicy-import: first:1: E02 "),
    "a brace": (b"reply:Framed-Pool = 'a'\n}\n", b"radpolicy-import: first:2: E02 closing brace without a section"),
    "a quote": (b"reply:Framed-Pool = 'a\n", b"radpolicy-import: first:1: E02 quote without its end"),
}


def check_faults(subject: Subject, report: Report) -> None:
    """Lines that are no pairs of initial lists: a fault with its place, and nothing is written."""
    for name, (initial, wanted) in FAULTS.items():
        with new_folder() as folder:
            (folder / "site").write_bytes(SITE)
            (folder / "first").write_bytes(initial)
            ended = imported(subject, folder, ["--initial", "first", "site"])
            faults = [] if ended.status == 2 and ended.errors.startswith(wanted) else [f"{ended.status}, {ended.errors!r}"]
            report.check(f"initial lists with {name} refused", faults + outputs_of(folder))


UNREAD = {
    "main": b"$INCLUDE part/a\n$INCLUDE part/\n" + SITE,
    "part/a": b"a = b\n",
    "raddb/radiusd.conf": b"a = b\n",
    "other": b"\n$INCLUDE none\n",
}
FORBIDDEN = b"E02 no permission to read it: run this with sudo, or as a member of the group that owns it"
# What may not be read, what is imported, and the fault.
UNREADABLE: Dict[str, Tuple[str, str, bytes]] = {
    "a file": ("main", "main", b"main: " + FORBIDDEN),
    "a server's file": ("raddb/radiusd.conf", "raddb", b"raddb/radiusd.conf: " + FORBIDDEN),
    "a file that is included": ("part/a", "main", b"main:1: part/a: " + FORBIDDEN),
    "a folder that is included": ("part", "main", b"main:2: part/: " + FORBIDDEN),
    "a file that is missing": ("part", "other", b"other:2: none: E02 not there, or not readable"),
}


def check_unreadable(subject: Subject, report: Report) -> None:
    """Files and folders that may not be read: a fault with their path, and nothing is written."""
    before = AS_OTHERS if os.geteuid() == 0 else []
    for name, (locked, given, wanted) in UNREADABLE.items():
        with new_folder() as folder:
            written(folder, UNREAD)
            (folder / locked).chmod(0o100)
            ended = imported(subject, folder, [given], before)
            (folder / locked).chmod(0o700)
            said = (ended.status, ended.errors)
            faults = [] if said == (2, b"radpolicy-import: " + wanted + b"\n") else [f"{said}"]
            report.check(f"{name} not read", faults + outputs_of(folder))


# Names that mean something between quotes, or end a line.
NAMES = ('a"b', "${a}", "a\nb", "a\\b", "'", "$INCLUDE", "d\n/${a}", 'a b"')


def check_names(subject: Subject, report: Report) -> None:
    """Files of any name are imported, beside others, and what they include is beside them."""
    for name in NAMES:
        with new_folder() as folder:
            written(folder, {name: b"$INCLUDE part\n" + SITE, str(Path(name).parent / "part"): b"a = b\n", "other": b"c = d\n"})
            ended = imported(subject, folder, ["other", name])
            faults = [] if ended.status == 0 and ended.errors.startswith(b"6 of 6") else [f"{ended.status}, {ended.errors!r}"]
            origins = (folder / "map").read_text() if not faults else ""
            faults += [] if f" {name}:".replace("\n", "\\012") in origins else [origins[:200]]
            report.check(f"a file of the name {name!r} imported", faults)


def check_pipes(subject: Subject, report: Report) -> None:
    """A pipe is read where the words name it, and not waited for where it is included."""
    cases = {"a pipe": b"$INCLUDE pipe\n", "a folder with a pipe": b"$INCLUDE d/\n", "a device": b"$INCLUDE /dev/zero\n"}
    for name, text in cases.items():
        with new_folder() as folder:
            (folder / "d").mkdir()
            os.mkfifo(folder / "pipe")
            os.mkfifo(folder / "d/pipe")
            (folder / "site").write_bytes(text)
            ended = imported(subject, folder, ["site"], ["timeout", "10"])
            is_right = ended.status == 2 and b"site:1: " in ended.errors and b"neither a file nor a folder" in ended.errors
            report.check(f"an include of {name} refused", [] if is_right else [f"{ended.status}, {ended.errors!r}"])
    with new_folder() as folder:
        (folder / "given").write_bytes(SITE)
        ended = imported(subject, folder, ["/dev/stdin"], ["sh", "-c", 'cat given | timeout 10 "$@"', "sh"])
        report.check("a pipe imported", [] if ended.status == 0 else [f"{ended.status}, {ended.errors!r}"])


# The calls of docs/IMPORT.md, one after the other, and the file that is filled in between them.
CALLS = (
    ["-o", "policy"],
    ["--server", "inner-tunnel", "--section", "post-auth", "--write-dictionary", "dictionary.others", "-o", "policy"],
    ["--section", "post-auth", "--write-dictionary", "dictionary.others", "--initial-template", "initial", "-o", "policy"],
    ["--section", "post-auth", "--write-dictionary", "dictionary.others", "--initial", "initial", "-o", "policy"],
)
SERVER = b"""server default {
	authorize {
		reject
	}
	post-auth {
		if (&outer.request:User-Name == "bob") {
			reject
		}
	}
}
server inner-tunnel {
	post-auth {
		if (&session-state:User-Name == "bob") {
			reject
		}
	}
}
"""


def check_calls(subject: Subject, report: Report) -> None:
    """The document's calls go through, and a template that was filled in stays."""
    with new_folder() as folder:
        written(folder, {"raddb/radiusd.conf": SERVER})
        command = [subject.driver("radpolicy_import"), "--dict", subject.root / DICTIONARY]
        faults = []
        for words in CALLS:
            ended = run([*command, *words, "raddb"], folder)
            faults += [] if ended.status == 0 else [f"{words}: {ended.errors!r}"]
            template = folder / "initial"
            if "--initial-template" in words and template.exists():
                template.write_bytes(template.read_bytes().replace(b"#control", b"control").replace(b"= \n", b"= 'bob'\n"))
        filled = (folder / "initial").read_bytes()
        again = run([*command, *CALLS[2], "raddb"], folder)
        is_kept = again.status == 2 and b"E02 initial: " in again.errors and b"--force" in again.errors
        faults += [] if is_kept and (folder / "initial").read_bytes() == filled else [f"{again.errors!r}"]
        forced = run([*command, *CALLS[2], "--force", "raddb"], folder)
        faults += [] if forced.status == 0 else [f"{forced.errors!r}"]
        report.check("the calls of the document one after the other", faults)


def check_older_name(subject: Subject, report: Report) -> None:
    """The dictionary of other lists by the option's two names: the same file, and not by both at once."""
    with new_folder() as folder:
        written(folder, {"site": SITE})
        command = [subject.driver("radpolicy_import"), "--dict", subject.root / DICTIONARY]
        for option, name in (("--dictionary", "old"), ("--write-dictionary", "new")):
            run([*command, option, folder / name, "-o", f"policy.{name}", "site"], folder)
        old, new = ((folder / name).read_bytes() if (folder / name).exists() else b"" for name in ("old", "new"))
        faults = [] if old == new != b"" else [f"{old!r}, {new!r}"]
        both = run([*command, "--dictionary", "a", "--write-dictionary", "b", "site"], folder)
        is_refused = (both.status, both.output) == (2, b"") and both.errors.startswith(b"radpolicy-import: E01: usage: ")
        faults += [] if is_refused and not {"a", "b"} & set(os.listdir(folder)) else [f"{both}"]
        report.check("the older name of an option", faults)


def check(subject: Subject, report: Report) -> None:
    check_files(subject, report)
    check_warnings(subject, report)
    check_faults(subject, report)
    check_unreadable(subject, report)
    check_names(subject, report)
    check_pipes(subject, report)
    check_calls(subject, report)
    check_older_name(subject, report)
