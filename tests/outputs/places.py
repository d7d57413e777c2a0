"""Where outputs go: nothing is lost that was there, and what is written is whole."""
import os
import stat
import tempfile
import threading
import time
from contextlib import contextmanager
from pathlib import Path
from typing import Callable, Iterator, List, Optional

from common.program import Ended, run
from common.report import Report
from common.subject import Subject, new_folder, on_all
from imports.written import AS_OTHERS
from outputs.writers import INPUTS, POLICY, WRITERS, Writer, names_in, octets_of, place, refused, said

OWN = b"a file of the user's own\n"
UMASK = 0o027
NULL = os.makedev(1, 3)
OTHER_USER = 12345
AT_ONCE = 8
Trial = Callable[[Subject, Writer, Path], List[str]]


def whole_faults(writer: Writer, path: Path) -> List[str]:
    """What is wrong with a file that the program wrote."""
    octets = octets_of(path)
    return [] if writer.without_mark(octets) else [f"{path.name}: {octets[:200]!r}"]


def new(subject: Subject, writer: Writer, folder: Path) -> List[str]:
    """A file that was not there has the mode that the umask gives."""
    ended = run(writer.command(subject, "f"), folder, before=lambda: os.umask(UMASK) and None)
    mode = stat.S_IMODE((folder / "f").stat().st_mode) if (folder / "f").exists() else 0
    wrong = whole_faults(writer, folder / "f") if ended.status == 0 else [said(ended)]
    return wrong + ([] if mode == 0o666 & ~UMASK else [f"mode {mode:o}"]) + beside(folder, ["f"])


def beside(folder: Path, wanted: List[str]) -> List[str]:
    found = names_in(folder)
    return [] if found == wanted else [f"in the folder: {found}"]


def again(subject: Subject, writer: Writer, folder: Path) -> List[str]:
    """A file that the program wrote is replaced, and keeps its mode; one that was changed since only by force."""
    path = folder / "f"
    first = writer.write(subject, folder, "f")
    path.chmod(0o600)
    before, number = octets_of(path), path.stat().st_ino
    second = writer.write(subject, folder, "f")
    wrong = [] if (first.status, second.status, octets_of(path)) == (0, 0, before) else [said(second)]
    wrong += [] if path.stat().st_ino != number else ["not written again"]
    wrong += [] if stat.S_IMODE(path.stat().st_mode) == 0o600 else [f"mode {path.stat().st_mode:o}"]
    path.write_bytes(before + b"\n")
    wrong += refused(writer.write(subject, folder, "f"), 2, [b"E02 f: ", b"--force"])
    wrong += [] if octets_of(path) == before + b"\n" else ["a changed file is not as it was"]
    forced = writer.write(subject, folder, "f", "--force")
    wrong += [] if (forced.status, octets_of(path)) == (0, before) else [said(forced)]
    return wrong + beside(folder, ["f"])


def foreign(subject: Subject, writer: Writer, folder: Path) -> List[str]:
    """A file of the user's own is refused, and so is an empty one; one beside it stays."""
    place(folder, {"f": OWN, "f.new": OWN, "e": b""})
    wrong = refused(writer.write(subject, folder, "f"), 2, [b"E02 f: ", b"--force"])
    wrong += refused(writer.write(subject, folder, "e"), 2, [b"E02 e: ", b"--force"])
    wrong += [] if octets_of(folder / "f") == OWN else ["the own file is not as it was"]
    forced = writer.write(subject, folder, "f", "--force")
    wrong += [] if forced.status == 0 else [said(forced)]
    wrong += whole_faults(writer, folder / "f")
    wrong += [] if octets_of(folder / "f.new") == OWN else ["the file beside it is not as it was"]
    return wrong + beside(folder, ["e", "f", "f.new"])


def links(subject: Subject, writer: Writer, folder: Path) -> List[str]:
    """Of a symbolic link the target is the file, in its folder; it may be still to be made."""
    (folder / "d").mkdir()
    (folder / "l").symlink_to("d/f")
    (folder / "k").symlink_to("l")
    wrong = []
    for word in ("k", "l"):
        ended = writer.write(subject, folder, word)
        wrong += [] if ended.status == 0 and (folder / word).is_symlink() else [f"{word}: {said(ended)}"]
        wrong += whole_faults(writer, folder / "d/f")
    (folder / "d/f").write_bytes(OWN)
    wrong += refused(writer.write(subject, folder, "k"), 2, [b"E02 k: ", b"--force"])
    (folder / "a").symlink_to("b")
    (folder / "b").symlink_to("a")
    wrong += refused(writer.write(subject, folder, "a"), 3, [b"E07 a: "])
    return wrong + beside(folder, ["a", "b", "d", "k", "l"]) + beside(folder / "d", ["f"])


def pipe(subject: Subject, writer: Writer, folder: Path) -> List[str]:
    """A pipe is written to, without the program's line, and stays one."""
    os.mkfifo(folder / "p")
    (folder / "l").symlink_to("p")
    wrong = []
    for word in ("p", "l"):
        taken: List[bytes] = []
        reader = threading.Thread(target=lambda: taken.append((folder / "p").read_bytes()), daemon=True)
        reader.start()
        ended = writer.write(subject, folder, word)
        reader.join(10)
        wrong += [] if ended.status == 0 and taken and taken[0] else [f"{word}: {said(ended)}"]
        wrong += [f"{word}: the line is there"] if taken and b"Written by" in taken[0] else []
        wrong += [] if (folder / "p").is_fifo() else ["no pipe any more"]
    return wrong + beside(folder, ["l", "p"])


def device(subject: Subject, writer: Writer, folder: Path) -> List[str]:
    """A device stays one."""
    ended = writer.write(subject, folder, "null")
    is_there = (folder / "null").is_char_device()
    return ([] if ended.status == 0 and is_there else [said(ended)]) + beside(folder, ["null"])


def read_only(subject: Subject, writer: Writer, folder: Path) -> List[str]:
    """In a folder that may not be written to the file is as it was."""
    (folder / "d").mkdir()
    writer.write(subject, folder, "d/f")
    before = octets_of(folder / "d/f")
    (folder / "d").chmod(0o500)
    command = [*(AS_OTHERS if os.geteuid() == 0 else []), *writer.command(subject, "d/f", "--force")]
    wrong = refused(run(command, folder), 3, [b"E07 d/f: "])
    wrong += [] if octets_of(folder / "d/f") == before else ["not as it was"]
    (folder / "d").chmod(0o700)
    return wrong + beside(folder, ["d"]) + beside(folder / "d", ["f"])


def owner(subject: Subject, writer: Writer, folder: Path) -> List[str]:
    """The owner and the group stay; where that can't be, the file does."""
    writer.write(subject, folder, "f")
    os.chown(folder / "f", OTHER_USER, OTHER_USER)
    ended = writer.write(subject, folder, "f")
    found = (folder / "f").stat()
    wrong = [] if (ended.status, found.st_uid, found.st_gid) == (0, OTHER_USER, OTHER_USER) else [said(ended)]
    number = found.st_ino
    lesser = ["setpriv", "--inh-caps=-all", "--bounding-set=-chown"]
    wrong += refused(run([*lesser, *writer.command(subject, "f")], folder), 2, [b"E02 f: ", b"owner"])
    return wrong + ([] if (folder / "f").stat().st_ino == number else ["replaced"]) + beside(folder, ["f"])


# The signs by which a shell opens a descriptor, and the paths that stand for it. What is none of the standard streams is
# written to at its end.
STREAMS = (("1>", "/dev/stdout"), ("2>", "/dev/stderr"), ("9>>", "/dev/fd/9"), ("9>>", "/proc/self/fd/9"))


def open_stream(subject: Subject, writer: Writer, folder: Path) -> List[str]:
    """A file that is open is written through its descriptor, whatever its name, between what others write there."""
    # Standard output would be the policy's too.
    more = [] if writer.option == "-o" else ["-o", "p"]
    wrong = []
    for signs, path in STREAMS:
        script = f'{{ echo before >&{signs[0]}; "$@"; status=$?; echo after >&{signs[0]}; exit $status; }} {signs}f'
        ended = run(["sh", "-c", script, "sh", *writer.command(subject, path, *more)], folder)
        octets = octets_of(folder / "f")
        is_whole = octets.startswith(b"before\n") and octets.endswith(b"after\n") and octets != b"before\nafter\n"
        is_right = ended.status == 0 and is_whole and b"Written by" not in octets
        wrong += [] if is_right else [f"{path}: {said(ended)}, {octets[:100]!r}"]
        (folder / "f").unlink()
    return wrong + beside(folder, more[1:])


def read_alone(subject: Subject, writer: Writer, folder: Path) -> List[str]:
    """A file that is open to be read alone is not written to, and no other file is made."""
    place(folder, {"f": OWN})
    more = [] if writer.option == "-o" else ["-o", "p"]
    ended = run(["sh", "-c", '"$@" 9<f', "sh", *writer.command(subject, "/dev/fd/9", *more)], folder)
    wrong = refused(ended, 3, [b"E07 /dev/fd/9: "])
    wrong += [] if octets_of(folder / "f") == OWN else ["it was written to"]
    return wrong + beside(folder, ["f"])


def in_folder(subject: Subject, writer: Writer, trial: Trial) -> List[str]:
    with new_folder() as folder:
        place(folder, INPUTS)
        return trial(subject, writer, folder)


@contextmanager
def with_a_device() -> Iterator[Optional[Path]]:
    """A folder with a device that can be written to, where there may be one."""
    with tempfile.TemporaryDirectory(prefix="radpolicy-") as name:
        folder = Path(name)
        try:
            os.mknod(folder / "null", 0o666 | stat.S_IFCHR, NULL)
            (folder / "null").write_bytes(b"x")
        except OSError:
            yield None
        else:
            yield folder


def when_written(folder: Path, change: Callable[[], object]) -> None:
    """Makes a change once the new file is there beside its place, and then reads the map, which the program waits for."""
    until = time.monotonic() + 10
    while not list(folder.glob(".radpolicy-*")) and time.monotonic() < until:
        time.sleep(0.01)
    change()
    (folder / "map").read_bytes()


def meanwhile(subject: Subject, folder: Path, change: Callable[[], object]) -> Ended:
    """A call during which something is changed."""
    os.mkfifo(folder / "map")
    reader = threading.Thread(target=when_written, args=(folder, change), daemon=True)
    reader.start()
    ended = POLICY.write(subject, folder, "f", "--map", "map")
    reader.join(10)
    (folder / "map").unlink()
    return ended


def check_meanwhile(subject: Subject, report: Report) -> None:
    """A file that comes or is changed while the program runs is not replaced, and nothing stays beside it."""
    for name, is_there in (("comes", False), ("is changed", True)):
        with new_folder() as folder:
            place(folder, INPUTS)
            if is_there:
                POLICY.write(subject, folder, "f")
            ended = meanwhile(subject, folder, lambda: (folder / "f").write_bytes(OWN))
            wrong = refused(ended, 2, [b"E02 f: ", b"meanwhile"]) + beside(folder, ["f"])
            wrong += [] if octets_of(folder / "f") == OWN else ["the other program's file is lost"]
            report.check(f"a file that {name} meanwhile", wrong)


def at_once(subject: Subject, writer: Writer, folder: Path) -> List[str]:
    """Of calls at the same time one at least writes the file, and the others write it or are refused."""
    calls = on_all(lambda _: writer.write(subject, folder, "f"), range(AT_ONCE))
    wrong = whole_faults(writer, folder / "f")
    wrong += [] if any(ended.status == 0 for ended in calls) else ["none has written it"]
    others = [ended for ended in calls if ended.status != 0]
    wrong += [fault for ended in others for fault in refused(ended, 2, [b"E02 f: ", b"meanwhile"])]
    return wrong + beside(folder, ["f"])


TRIALS = {
    "new": new,
    "written again": again,
    "of the user": foreign,
    "links": links,
    "a pipe": pipe,
    "a read-only folder": read_only,
    "open": open_stream,
    "open to be read": read_alone,
    "several calls at once": at_once,
}


def check(subject: Subject, report: Report) -> None:
    for writer in WRITERS:
        for name, trial in TRIALS.items():
            report.check(f"{writer.name}, a file: {name}", in_folder(subject, writer, trial))
        if os.geteuid() == 0:
            report.check(f"{writer.name}, a file: of another owner", in_folder(subject, writer, owner))
    check_meanwhile(subject, report)
    with with_a_device() as folder:
        if folder is None:
            report.say("left out: outputs that are devices, which can't be made here")
            return
        place(folder, INPUTS)
        for writer in WRITERS:
            report.check(f"{writer.name}, a file: a device", device(subject, writer, folder))
