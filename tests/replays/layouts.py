"""What `radpolicy-replay --tap` and `--json` print: what it says of each record without them, laid out otherwise."""
import json
import re
from typing import Any, Dict, List, Set

from common.report import Report
from common.subject import Subject, new_folder
from replays.captured import captured_records
from replays.comparing import OLD
from replays.records import Place, records

RECORDS = 300
# What is said of a record: its first line, and the lines of what differs.
BLOCK = re.compile(rb"(\S+) (.*)\n((?:  .*\n)*)")
VERDICTS = {"answered", "same", "different", "unanswered", "challenged", "refused"}
COUNT = re.compile(r"(\d+) ([a-z]+)")


def end_of(object: Dict[str, Any]) -> str:
    """The words of a result or a fault."""
    if "fault" in object:
        return object["fault"]
    return object["result"] + (" stopped" if object["stopped"] else "")


def first_line(object: Dict[str, Any]) -> str:
    """What the text form says of the record of an object, after its name."""
    if "old" in object:
        return f"{end_of(object['old'])} -> {end_of(object['new'])}"
    if "own" in object:
        return f"{object['captured']} -> {object['own'] or 'none'}"
    if "captured" in object:
        return object["captured"]
    if object["verdict"] in ("unanswered", "challenged"):
        return {"unanswered": "unanswered", "challenged": "Access-Challenge"}[object["verdict"]]
    reply = " " + (object["reply"] or "none") if "reply" in object else ""
    return end_of(object) + reply


def text_of(line: bytes) -> bytes:
    """What the text form says of the record of a line."""
    object = json.loads(line)
    if object["verdict"] not in VERDICTS:
        return b"no verdict\n"
    lines = [f"{object['record']} {first_line(object)}\n"]
    listed = object.get("captured_list", [])
    lines += ["  captured\n", *(f"    {pair}\n" for pair in listed)] if listed else []
    for name in ("reply", "control"):
        changes = object.get(f"{name}_changes", [])
        lines += [f"  {name}\n", *(f"  {change}\n" for change in changes)] if changes else []
    return "".join(lines).encode()


def names_of(equal: Dict[str, Any]) -> str:
    """The records that are named of those with a difference."""
    return ", ".join([*equal["first"], *([".."] if equal["records"] > len(equal["first"]) else [])])


def faults_of_summary(plain: bytes, said: bytes) -> List[str]:
    """What is wrong with the counts of an object, beside those in words."""
    first, *lines = plain.decode().splitlines()
    wanted = {name: int(number) for number, name in COUNT.findall(first)}
    object = json.loads(said)
    equal = [each for each in object.pop("differences") if each["records"] > 1]
    found = [f"  {each['records']} records: {each['difference']} ({names_of(each)})" for each in equal]
    by_lines = object.pop("lines")
    found += [f"  {each['records']} by {each['policy']}:{each['line']}: {each['text']}" for each in by_lines]
    return [] if (object, found) == (wanted, lines) else [f"{said!r}, not {plain!r}"]


def check_json(place: Place, name: str, text: bytes, options: List[str], report: Report) -> None:
    plain, ended = (place.replay(text, [*options, *how]) for how in ([], ["--json"]))
    said = b"".join(map(text_of, ended.output.splitlines()))
    wrong = [] if said == plain.output else [f"{said[:500]!r}, not {plain.output[:500]!r}"]
    wrong += [] if ended.status == plain.status else [f"{ended.status}, not {plain.status}"]
    report.check(f"replay: {name} as JSON", wrong + faults_of_summary(plain.errors, ended.errors))


def tests_of(told: bytes, objects: List[Dict[str, Any]], failing: Set[str]) -> bytes:
    """The tests that are to be printed of the records of these objects, of which that is told."""
    blocks = {found[1]: found[0] for found in BLOCK.finditer(told)}
    lines = [b"TAP version 13\n"]
    for number, object in enumerate(objects, 1):
        name, failed = object["record"].encode(), object["verdict"] in failing
        lines.append(b"%sok %d - %s\n" % (b"not " if failed else b"", number, name.replace(b"\\", b"\\\\").replace(b"#", b"\\#")))
        lines += [b"# " + line for line in blocks.get(name.split()[0], b"").splitlines(keepends=True)]
    return b"".join([*lines, b"1..%d\n" % len(objects)])


def check_tests(place: Place, name: str, text: bytes, options: List[str], report: Report) -> None:
    plain, ended = (place.replay(text, [*options, *how]) for how in ([], ["--tap"]))
    every = ["--all"] if "--against" in options and "--all" not in options else []
    objects = [json.loads(line) for line in place.replay(text, [*options, *every, "--json"]).output.splitlines()]
    failing = {"different", "refused"} if "--strict" in options else {"different"}
    wanted = tests_of(plain.output, objects, failing)
    is_right = (ended.output, ended.status, ended.errors) == (wanted, plain.status, plain.errors)
    report.check(f"replay: {name} as tests", [] if is_right else [f"{ended.output[:500]!r}, not {wanted[:500]!r}"])


def check(subject: Subject, report: Report) -> None:
    with new_folder() as folder:
        place, against = Place(subject, folder), Place(subject, folder, "old", OLD)
        text = records(RECORDS).replace(b"frame1 ", b"frame#1 ")
        compared = against.options("--show-secrets")
        for name, octets, options in [
            ("answers", text, ["--strict"]),
            ("differences", text, compared),
            ("each record", text, [*compared, "--all", "--strict"]),
            ("captured replies", captured_records(place)[0], ["--against", "captured", "--all"]),
            ("their lists", captured_records(place)[0], ["--against", "captured", "--all", "--show-replies"]),
        ]:
            check_json(place, name, octets, options, report)
            check_tests(place, name, octets, options, report)
        both = place.replay(text, ["--tap", "--json"])
        report.check("replay: --tap and --json", [] if both.status == 2 else [f"{both}"])
