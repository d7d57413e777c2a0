"""A million records by the whole set of dictionaries of a FreeRADIUS server, in one process and its memory."""
import os
import subprocess
from pathlib import Path
from typing import Dict, List

from common.program import run, wait
from common.report import Report
from common.subject import Subject, new_folder, on_all
from replays.answers import MEMORY, limit_memory, line_by_run
from replays.records import POLICY, SECRET, records

SERVER = Path("/usr/share/freeradius")
MANY = 1_000_000
DISTINCT = 10_000
SAMPLE = 1_000


def dictionaries(subject: Subject) -> List[Path]:
    """Those of the server, or of the repository where it is not installed."""
    folder = SERVER if SERVER.is_dir() else subject.root / "dictionaries"
    return sorted(path for path in folder.glob("dictionary*") if path.suffix != ".gz")


def faults_of_sample(subject: Subject, folder: Path, text: bytes, said: Dict[bytes, bytes]) -> List[str]:
    """Records beside `run` of their packets, as many as are asked for, whose reply is shown."""
    words = ["run", "--hex", "-S", "secret", "--policy", "policy", *dictionaries(subject)]

    def fault(line: bytes) -> List[str]:
        name, digits = line.split()[0], next(word for word in line.split() if len(word) >= 40)
        wanted = line_by_run(run([subject.program, *words], folder, digits), name)
        return [] if said[name] == wanted else [f"{said[name]!r}, not {wanted!r}"]

    lines = [line for line in text.splitlines() if any(len(word) >= 40 for word in line.split())]
    shown = [line for line in lines if b"(secret)" not in said[line.split()[0]]][:SAMPLE]
    wrong = [] if len(shown) == SAMPLE else [f"{len(shown)} records"]
    return wrong + [each for found in on_all(fault, shown) for each in found]


def check(subject: Subject, report: Report) -> None:
    with new_folder() as folder:
        (folder / "policy").write_bytes(POLICY)
        (folder / "secret").write_bytes(SECRET + b"\n")
        text = b"".join(line for line in records(DISTINCT).splitlines(keepends=True) if line.strip())
        (folder / "records").write_bytes(text * (MANY // DISTINCT))
        words = ["--policy", "policy", "-S", "secret", *dictionaries(subject)]
        command = [subject.driver("radpolicy_replay"), *words]
        with open(folder / "records", "rb") as source, open(folder / "answers", "wb") as answers:
            streams = {"stdin": source, "stdout": answers, "stderr": subprocess.PIPE}
            process = subprocess.Popen(command, cwd=folder, preexec_fn=limit_memory, **streams)
            errors = process.stderr.read()
            status, used, _ = wait(process)
        is_right = status == 0 and errors.startswith(b"%d read, " % MANY)
        name = f"replay: {MANY} records in {MEMORY >> 20} MiB and {used.ru_utime + used.ru_stime:.1f} s"
        report.check(name, [] if is_right else [f"{status}: {errors!r}"])
        size = os.path.getsize(folder / "answers") // (MANY // DISTINCT)
        said = (folder / "answers").read_bytes()
        report.check("replay: each time the same", [] if said == said[:size] * (MANY // DISTINCT) else ["not the same"])
        lines = {line.split()[0]: line for line in said[:size].splitlines(keepends=True)}
        wrong = faults_of_sample(subject, folder, text, lines)
        report.check(f"replay: {SAMPLE} of them as by run", wrong)
