"""`make run`: an example before the proof and by the proved program, each time as the program prints it now."""
import os
import shutil
import subprocess
import time
from typing import List

from common.report import Report
from common.subject import Subject
from making.copies import Copy, new_copy

EXAMPLE = "examples/hello"
CRATE = "radpolicy_cli"
BEFORE = "before the proof"
FIRST_CRATE = "\n1 of "
PROVED = f"The proved program is crates/{CRATE}/out/{CRATE}."


def give_policy(copy: Copy, seconds: int) -> str:
    """Gives the example another policy, and what the built program then prints."""
    folder = copy.root / EXAMPLE
    (folder / "policy").write_text(f'update reply {{\n\tSession-Timeout := {seconds}\n\tReply-Message := "Bye"\n}}\n')
    command = ["sh", "-c", '"$0" $(cat command)', copy.subject.program]
    printed = subprocess.run(command, cwd=folder, stdout=subprocess.PIPE, text=True, check=True).stdout
    if f"Session-Timeout = {seconds}\n" not in printed:
        raise ValueError(f"the example prints {printed}")
    return printed


def faults_of_both(said: str, printed: str, proof: str = FIRST_CRATE) -> List[str]:
    """What is wrong where the example is to be shown twice, with the proof between, from this crate on."""
    places = [said.find(printed), said.find(BEFORE), said.find(proof), said.find(PROVED), said.rfind(printed)]
    is_right = said.count(printed) == 2 and -1 not in places and places == sorted(places)
    return [] if is_right else [f"it says {said!r}"]


def faults_of_proved(said: str, printed: str) -> List[str]:
    """What is wrong where it is to be shown only by the program that is built."""
    is_right = said.startswith(PROVED) and said.endswith(printed) and said.count(printed) == 1 and BEFORE not in said
    return [] if is_right else [f"it says {said!r}"]


def faults_of_calls(copy: Copy, wanted: List[str]) -> List[str]:
    return [] if copy.calls() == wanted else [f"the kit was asked for {copy.calls()}"]


def builds(copy: Copy, first: str = "") -> List[str]:
    """The calls that prove all crates, or one and those above it, in their order."""
    return [f"build {crate}" for crate in copy.crates(CRATE) if not first or first in copy.crates(crate)]


def place_of(copy: Copy, crate: str) -> str:
    """How a line begins that tells which of the crates is proved, as `4 of `."""
    return f"\n{copy.crates(CRATE).index(crate) + 1} of "


def check_shown(copy: Copy, report: Report) -> None:
    """From nothing, again, with another policy, and after a change of a source."""
    printed = give_policy(copy, 601)
    both = [f"try {CRATE}", *builds(copy)]
    said = copy.make("run").stdout
    report.check("make run: from nothing", faults_of_both(said, printed) + faults_of_calls(copy, both))
    said = copy.make("run").stdout
    report.check("make run: again", faults_of_proved(said, printed) + faults_of_calls(copy, []))
    printed = give_policy(copy, 602)
    said = copy.make("run").stdout
    report.check("make run: with another policy", faults_of_proved(said, printed) + faults_of_calls(copy, []))
    os.utime(copy.root / "crates/avp_step/src/lib.rt")
    said = copy.make("run").stdout
    wanted = [f"try {CRATE}", *builds(copy, "avp_step")]
    wrong = faults_of_both(said, printed, place_of(copy, "avp_step")) + faults_of_calls(copy, wanted)
    report.check("make run: after a change of a source", wrong)


def check_stopped(copy: Copy, report: Report) -> None:
    """A first part that fails, and a proof that fails or is interrupted and goes on."""
    printed = give_policy(copy, 603)
    ended = copy.make("run", RT_FAILS=f"try {CRATE}")
    wrong = [] if "is to fail" in ended.stdout and ended.stdout.endswith(printed) else [f"it says {ended.stdout!r}"]
    wrong += [f"its status is {ended.returncode}"] if ended.returncode else []
    report.check("make run: nothing to show before the proof", wrong)
    for name, how in (("a proof that failed", "RT_FAILS"), ("an interrupt", "RT_INTERRUPTED")):
        for crate in copy.crates(CRATE):
            shutil.rmtree(copy.root / "crates" / crate / "out")
        ended = copy.make("run", **{how: "build avp_packet"})
        wrong = [] if ended.returncode and PROVED not in ended.stdout else [f"{ended.returncode}: {ended.stdout!r}"]
        wrong += [] if copy.calls()[-1] == "build avp_packet" else [f"it went on with {copy.calls()[-1]}"]
        said = copy.make("run").stdout
        left = builds(copy)[builds(copy).index("build avp_packet") :]
        wrong += faults_of_both(said, printed, place_of(copy, "avp_packet"))
        wrong += faults_of_calls(copy, [f"try {CRATE}", *left])
        report.check(f"make run: after {name}", wrong)
    os.utime(copy.root / "crates/radpolicy/src/lib.rt")
    said = copy.make("run", RT_KILLED="build radpolicy", JOBS="4").stdout
    wrong = faults_of_both(said, printed, place_of(copy, "radpolicy"))
    wrong += [] if copy.calls().count("build radpolicy") == 2 else [f"the kit was asked for {copy.calls()}"]
    report.check("make run: with too little memory for several jobs", wrong)


def check_side_by_side(copy: Copy, report: Report) -> None:
    """Two crates of which neither stands on the other, proved at the same time; one that fails, beside one that ends."""
    pair = ["build avp_packet", "build avp_forms"]
    printed = give_policy(copy, 605)
    said = copy.make("run", AT_ONCE="2", RT_TOGETHER=",".join(pair)).stdout
    called = copy.calls()
    wrong = faults_of_both(said, printed)
    wrong += [] if sorted(called) == sorted([f"try {CRATE}", *builds(copy)]) else [f"the kit was asked for {called}"]
    report.check("make run: two crates side by side", wrong)
    os.utime(copy.root / "crates/avp_dict/src/lib.rt")
    # What comes next stands on the second, so that nothing more is begun whichever of the two ends first.
    ended = copy.make("run", AT_ONCE="2", RT_TOGETHER=",".join(pair), RT_FAILS=pair[1])
    wrong = [] if ended.returncode and "avp_forms failed:" in ended.stdout else [f"{ended.returncode}: {ended.stdout!r}"]
    wrong += [] if set(copy.calls()[-2:]) == set(pair) else [f"it went on with {copy.calls()}"]
    copy.make("run", AT_ONCE="2")
    wrong += [] if pair[1] in copy.calls() and pair[0] not in copy.calls() else [f"then with {copy.calls()}"]
    report.check("make run: one of two crates fails", wrong)


def check_guesses(copy: Copy, report: Report) -> None:
    """The minutes left: by the last times here, and the mean for a crate that is new. Then there are new times."""
    crates, kept = copy.crates(CRATE), copy.root / "out/build-seconds"
    kept.parent.mkdir()
    kept.write_text("".join(f"{crate} 60\n" for crate in crates))
    (copy.root / "crates/another/src").mkdir(parents=True)
    (copy.root / "crates/another/src/lib.rt").touch()
    listed = copy.root / "crates.txt"
    listed.write_text(listed.read_text().replace(f"\n{CRATE}:", f"\nanother: avp_lists\n{CRATE}: another"))
    said = copy.make("run").stdout
    wanted = f"\n1 of {len(crates) + 1}: avp_lists, about {len(crates) + 1} min left .."
    wrong = [] if wanted in said else [f"it says {said!r}"]
    times = dict(line.split() for line in kept.read_text().splitlines())
    wrong += [] if set(times) == {*crates, "another"} and "60" not in times.values() else [f"it keeps {times}"]
    report.check("make run: the minutes left", wrong)


def check(subject: Subject, report: Report) -> None:
    """With a stand-in for the kit, which proves nothing and compiles nothing."""
    for part in (check_shown, check_stopped, check_side_by_side, check_guesses):
        with new_copy(subject) as copy:
            part(copy, report)


def check_first(subject: Subject, report: Report) -> None:
    """What the kit itself compiles before any proof, where nothing is built."""
    rt = subject.kit / "bin/rt"
    if not rt.is_file():
        report.say(f"make run: what it compiles before any proof is not tried, there is no {rt}")
        return
    with new_copy(subject) as copy:
        printed = give_policy(copy, 604)
        start = time.monotonic()
        ended = copy.run(["scripts/show-example", "scripts/run-unproved", EXAMPLE], rt)
        took = time.monotonic() - start
        wrong = [] if ended.stdout.endswith(printed) else [f"it says {ended.stdout!r}"]
        report.check(f"make run: what it compiles before any proof, in {took:.0f} s", wrong)
