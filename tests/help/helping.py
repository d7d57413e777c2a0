"""The help after a fault's line: each folder here has files, a command, and in `wanted` the texts that a terminal has to
show. In a pipe the fault's line stays alone, and without NO_COLOR a terminal shows places and carets in bold. The
command's first word may be the name of a program beside `radpolicy`, which in a pipe has to print what is in `piped`.
The folders of `warned/` have policies that are read, and in `wanted` all that a terminal shows of their warnings."""
import glob
import os
import pty
import re
import subprocess
from pathlib import Path
from typing import Dict, List, Optional, Sequence, Tuple

from common.report import Report
from common.subject import Subject, on_all

HERE = Path(__file__).parent
DEADLINE = 120


PLACE = re.compile(rb"^(?P<place>.*)\n(?P<line>.*)\n(?P<caret> *\^)$", re.MULTILINE)


def environment(wish: Optional[str], no_color: Optional[str] = None) -> Dict[str, str]:
    """The environment of a run, in which the caller's wishes play no part."""
    wishes = {"RADPOLICY_HELP": wish, "NO_COLOR": no_color}
    kept = {name: value for name, value in os.environ.items() if name not in wishes}
    return {**kept, **{name: value for name, value in wishes.items() if value is not None}}


def words_of(folder: Path) -> List[str]:
    """The command's words; one that a shell would take for paths of files becomes these."""
    words: List[str] = []
    for word in (folder / "command").read_text().split():
        found = sorted(glob.glob(str(folder / word))) if "*" in word else []
        words += [os.path.relpath(path, folder) for path in found] or [word]
    return words


def program_of(subject: Subject, folder: Path) -> Tuple[Path, List[str]]:
    """The program that a folder's command runs, and its words."""
    words = words_of(folder)
    if words and words[0].startswith("radpolicy-"):
        return subject.driver(words[0].replace("-", "_")), words[1:]
    return subject.program, words


def in_pipe(
        program: Path, folder: Path, words: Sequence[str], wish: Optional[str],
        no_color: Optional[str] = None) -> Tuple[int, bytes, bytes]:
    """Status, output and errors of a run whose errors go into a pipe."""
    ended = subprocess.run(
        [program, *words], cwd=folder, stdin=subprocess.DEVNULL, capture_output=True,
        env=environment(wish, no_color), timeout=DEADLINE, check=False)
    return ended.returncode, ended.stdout, ended.stderr


def read_all(terminal: int) -> bytes:
    """What comes from a terminal until its other side is closed."""
    parts = []
    while True:
        try:
            part = os.read(terminal, 65536)
        except OSError:
            break
        if not part:
            break
        parts.append(part)
    return b"".join(parts)


def on_terminal(
        program: Path, folder: Path, words: Sequence[str], wish: Optional[str],
        no_color: Optional[str] = None) -> Tuple[int, bytes, bytes]:
    """The same of a run whose errors go to a terminal."""
    own, other = pty.openpty()
    try:
        with subprocess.Popen(
                [program, *words], cwd=folder, stdin=subprocess.DEVNULL, stdout=subprocess.PIPE, stderr=other,
                env=environment(wish, no_color)) as process:
            os.close(other)
            errors = read_all(own)
            output = process.stdout.read()
            status = process.wait(DEADLINE)
    finally:
        os.close(own)
    return status, output, errors.replace(b"\r\n", b"\n")


def is_shown(text: str, shown: str) -> bool:
    """Whether a text is somewhere in what is shown; a caret with the blanks before it has to be a whole line."""
    return text in (shown.splitlines() if text.strip() == "^" else shown)


def alone(folder: Path, first: bytes) -> bytes:
    """What a pipe has to show: the fault's line, or of a program beside `radpolicy` one that has the help too."""
    piped = folder / "piped"
    return piped.read_bytes() if piped.exists() else first


def in_colour(errors: bytes) -> bytes:
    """What a terminal with colours has to show of help."""
    return PLACE.sub(rb"\033[1m\g<place>\033[0m\n\g<line>\n\033[1m\g<caret>\033[0m", errors)


def faults_of(subject: Subject, folder: Path) -> List[str]:
    """What is wrong with the help of a folder's command."""
    program, words = program_of(subject, folder)
    wanted = (folder / "wanted").read_text().splitlines()
    first = f"{wanted[0]}\n".encode()
    line = alone(folder, first)
    status, output, errors = on_terminal(program, folder, words, None, "1")
    shown = errors.decode("utf-8", "replace")
    wrong = [f"not shown: {text!r} in {shown!r}" for text in wanted if not is_shown(text, shown)]
    if output or not errors.startswith(first):
        wrong.append(f"output {output!r}, errors {errors!r}")
    for run, wish, no_color, lines in [
            (in_pipe, "always", None, errors), (in_pipe, None, None, line), (in_pipe, "never", None, line),
            (on_terminal, None, None, in_colour(errors)), (on_terminal, None, "", in_colour(errors)),
            (on_terminal, "never", None, line)]:
        found = run(program, folder, words, wish, no_color)
        if found != (status, b"", lines):
            wrong.append(f"{run.__name__} with {wish}, {no_color}: {found!r}, not {(status, b'', lines)!r}")
    controls = [octet for octet in errors if octet < 32 and octet != 10 or octet == 127]
    return wrong + ([f"control characters {controls}"] if controls else [])


def warned_otherwise(program: Path, folder: Path) -> List[str]:
    """What is wrong with the warnings of a folder's command."""
    words = words_of(folder)
    wanted = (folder / "wanted").read_bytes()
    status, output, _ = in_pipe(program, folder, words, None)
    wrong = [f"status {status}"] if status else []
    for run, wish, errors in [
            (on_terminal, None, wanted), (in_pipe, "always", wanted),
            (in_pipe, None, b""), (in_pipe, "never", b""), (on_terminal, "never", b"")]:
        found = run(program, folder, words, wish)
        if found != (status, output, errors):
            wrong.append(f"{run.__name__} with {wish}: {found!r}, not {(status, output, errors)!r}")
    return wrong


def check(subject: Subject, report: Report) -> None:
    folders = sorted(path.parent for path in HERE.glob("*/wanted"))
    found = on_all(lambda folder: faults_of(subject, folder), folders)
    for folder, wrong in zip(folders, found):
        report.check(f"help: {folder.name}", wrong)
    warned = sorted(path.parent for path in HERE.glob("warned/*/wanted"))
    for folder, wrong in zip(warned, on_all(lambda folder: warned_otherwise(subject.program, folder), warned)):
        report.check(f"help: warned {folder.name}", wrong)
