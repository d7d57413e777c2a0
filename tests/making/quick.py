"""`make test`: what it compiles and runs, and what it says of that, by stand-ins for the kit's compilers."""
import re
import shutil
from pathlib import Path
from typing import List

from common.report import Report
from common.subject import Subject
from making.copies import Copy, new_copy

STAND_IN = Path(__file__).with_name("quick_kit")
# One of tests/ that takes a moment.
PART = "faults"
# The last lines of all parts, and the very last.
COUNTS = re.compile(r"^(tests: |examples: |documents: |)(\d+) passed, (\d+) failed$", re.M)


def make_kit(subject: Subject, folder: Path) -> Path:
    """Makes a kit whose command `rt` is the real one, and whose compilers are stand-ins."""
    shutil.copytree(STAND_IN, folder)
    for file in subject.kit.iterdir():
        if not (folder / file.name).exists():
            (folder / file.name).symlink_to(file)
    for name in ("rt", "rtlib.py"):
        shutil.copy(subject.kit / "bin" / name, folder / "bin" / name)
    return folder / "bin/rt"


def programs_of(copy: Copy) -> List[str]:
    listed = copy.run(["scripts/list-installed", "crates"]).stdout.split()
    return [*(it for it in listed if it != "radpolicy_c"), "drive"]


def tested(copy: Copy) -> List[str]:
    """The crates that have tests."""
    sources = copy.root.glob("crates/*/src/**/*.rt")
    return sorted({it.relative_to(copy.root).parts[1] for it in sources if "#[test]" in it.read_text()})


def faults(copy: Copy, rt: Path, compiled: List[str], failed: int = 0, **more: str) -> List[str]:
    """What is wrong where these programs are to be compiled, and so much fails."""
    ran = copy.run(["scripts/test", PART], rt=rt, **more)
    calls = copy.calls()
    found = sorted(it.partition(" ")[2] for it in calls if it.startswith("compile "))
    wrong = [] if found == sorted(compiled) else [f"it compiles {found}"]
    found = sorted(it.partition(" ")[2] for it in calls if it.startswith("test "))
    wrong += [] if found == tested(copy) else [f"it tries the tests of {found}"]
    parts, last = COUNTS.findall(ran.stdout.partition("\nThe end of ")[0]), COUNTS.findall(ran.stdout)[-1:]
    parts = parts if failed else parts[:-1]
    counts = {name: (int(passed), int(missed)) for name, passed, missed in parts}
    wanted = {"tests: ": len(tested(copy)), "examples: ": len(list(copy.root.glob("examples/*/command")))}
    for name, count in wanted.items():
        wrong += [] if sum(counts.get(name, (0, 0))) == count else [f"it tries {counts.get(name)} of {count} {name}"]
    passed = sum(int(it[1]) for it in parts)
    wrong += [] if last == [("", str(passed), str(failed))] and len(parts) == 4 else [f"its numbers are {parts}"]
    wrong += [] if ran.returncode == (failed > 0) else [f"its status is {ran.returncode}"]
    return wrong + ([f"it ends with {ran.stdout[-1000:]!r}"] if wrong else [])


def check(subject: Subject, report: Report) -> None:
    with new_copy(subject) as copy:
        rt = make_kit(subject, copy.root.parent / "quick-kit")
        programs = programs_of(copy)
        report.check("make test", faults(copy, rt, programs))
        source = copy.root / "crates/radpolicy_walk_commands/src/lib.rt"
        source.touch()
        report.check("make test after a change", faults(copy, rt, ["radpolicy_walk"]))
        (copy.root / "examples/hello/output").write_text("another\n")
        wrong = faults(copy, rt, [], 2, RT_FAILS="acceptance")
        report.check("make test of a test that fails, and an example that is not as written", wrong)
        source.touch()
        ran = copy.run(["scripts/test", PART], rt=rt, RT_FAILS="radpolicy_walk")
        told = ["radpolicy_walk does not compile:", "error: it is to fail"]
        is_right = ran.returncode == 1 and all(it in ran.stdout.splitlines() for it in told)
        report.check("make test of what does not compile", [] if is_right else [f"it says {ran.stdout!r}"])
