"""What `radpolicy-import` makes of crafted configurations and initial lists, and of such that are cut off."""
from pathlib import Path
from typing import Dict, List

from common.program import Ended
from common.report import Report
from common.subject import Subject, new_folder, on_all
from configurations.hostile import KILOBYTES, SECONDS, WHOLE, cases, written
from imports.written import INITIAL, SITE, imported, outputs_of


def hostile_cases() -> Dict[str, Dict[str, bytes]]:
    """Those that every configuration is tried with, and those of what is done with texts, policies and initial lists."""
    def section(text: bytes) -> Dict[str, bytes]:
        return {"main": b"authorize {\n" + text + b"}\n"}

    def update(value: bytes) -> Dict[str, bytes]:
        return section(b'update reply {\nReply-Message := "' + value + b'"\n}\n')

    deep = b"if (&User-Name) {\n" * 60 + b"return\n" + b"}\nok\n" * 60
    return {
        **cases(),
        "expansions that stay open": update(b"%{sql:" * 600_000),
        "expansions in one another": update(b"%{sql:" * 300_000 + b"}" * 300_000),
        "alternatives that stay open": update(b"%{%{User-Name}:-" * 200_000),
        "alternatives in one another": update(b"%{%{User-Name}:-" * 200_000 + b"x" + b"}" * 200_000),
        "alternatives beside one another": update(b"%{%{User-Name}:-x}" * 200_000),
        "alternatives in brackets": update(b"%{%{" * 500_000 + b"}:-x}" * 500_000),
        "short expansions": update(b"%{a:}" * 300_000),
        "many names of other lists": update(b"%{coa:User-Name}" * 200_000),
        "20,000 returns": section(b"return\n" * 20_000),
        "returns after each other": section(b"if (&User-Name) {\nreturn\n}\n" * 10_000),
        "returns in one another": section(deep),
        "a condition of 4 MB": section(b"if (" + b"&User-Name && " * 280_000 + b"&User-Name) {\nok\n}\n"),
        "long texts": section(b"update reply {\n" + (b'Reply-Message += "' + 400 * b"a" + b'"\n') * 9_000 + b"}\n"),
        "60,000 lines": section(b"update reply {\n" + b"Reply-Message += \"%{%{User-Name}:-x}\"\n" * 60_000 + b"}\n"),
    }


INITIALS = {
    "none": b"",
    "NUL": b"\x00\xff\n",
    "pairs": b"reply:Reply-Message = 'a'\ncontrol:Reply-Message = 'b'\n" * 5_000,
    "a long one": b"reply:Reply-Message = '" + b"a" * 4_000_000 + b"'\n",
    "sections": b"a {\n" * 1_000_000,
    "blank": b"\n" * 4_000_000,
    "a file of 100 MB": b"#" * 100_000_000,
}


def hostile_faults(ended: Ended, folder: Path) -> List[str]:
    """A result or a fault, in bounded time and memory; of a fault nothing is written."""
    found = []
    if ended.status not in (0, 2, 3) or ended.status and not ended.errors:
        found.append(f"{ended.status}, {ended.errors[-200:]!r}")
    if ended.status:
        found += outputs_of(folder)
    if ended.seconds > SECONDS or ended.kilobytes > KILOBYTES:
        found.append(f"{ended.seconds:.1f} s, {ended.kilobytes} kB")
    return found


def check_hostile(subject: Subject, report: Report) -> None:
    for name, files in hostile_cases().items():
        with new_folder() as folder:
            written(folder, files)
            ended = imported(subject, folder, ["--stub-functions", "main"])
            report.check(f"import: {name}", hostile_faults(ended, folder))
    for name, initial in INITIALS.items():
        with new_folder() as folder:
            written(folder, {"main": SITE, "first": initial})
            ended = imported(subject, folder, ["--initial", "first", "main"])
            report.check(f"import with initial lists: {name}", hostile_faults(ended, folder))


def check_cuts(subject: Subject, report: Report) -> None:
    """A section and initial lists that are cut off at each octet."""
    def fault(length: int) -> List[str]:
        with new_folder() as folder:
            written(folder, {"main": (WHOLE + SITE)[:length], "part/a": b"l = m\n", "first": INITIAL[: length % len(INITIAL)]})
            return hostile_faults(imported(subject, folder, ["--initial", "first", "main"]), folder)

    found = on_all(fault, range(len(WHOLE + SITE) + 1))
    report.check("a section cut off at each octet", [each for faults in found for each in faults])


def check(subject: Subject, report: Report) -> None:
    check_hostile(subject, report)
    check_cuts(subject, report)
