"""Whole jobs by the library for C: each answer is what the program prints of the same command."""
import ctypes
from typing import List, Tuple

from common.cases import Case, cases_below
from common.program import run
from common.report import Report
from common.subject import Subject, new_folder
from library.structures import File, Slice, slice_of

COMMANDS = ("run", "step", "encode", "decode", "check")
FORMS = {"--hex": 0, "--acct": 2}
FILES = {"-f": "request", "-S": "secret", "--policy": "policy", "--script": "script"}
ROOM = 1 << 20


class Job(ctypes.Structure):
    _fields_ = [("files", ctypes.POINTER(File)), ("file_count", ctypes.c_size_t)] + [
        (name, Slice) for name in ("request", "secret", "policy", "script")] + [
        ("authenticator", ctypes.c_uint8 * 16), ("command", ctypes.c_uint8), ("form", ctypes.c_uint8),
        ("identifier", ctypes.c_uint8)] + [
        (name, ctypes.c_bool) for name in ("has_authenticator", "has_secret", "has_policy", "has_script")]


def job_of(case: Case) -> Job:
    """The job of a case's command line."""
    words, names = [word.decode() for word in case.words], []
    job = Job(command=COMMANDS.index(words[0]), form=0 if words[0] == "decode" else 1)
    job.request = slice_of(case.stdin)
    job.secret = job.policy = job.script = slice_of(b"")
    words = words[1:]
    while words:
        word = words.pop(0)
        if word in FORMS:
            job.form = FORMS[word]
        elif word == "-i":
            job.identifier = int(words.pop(0))
        elif word == "--authenticator":
            job.has_authenticator = True
            job.authenticator[:] = bytes.fromhex(words.pop(0))
        elif word in FILES:
            setattr(job, FILES[word], slice_of(case.files[words.pop(0)]))
            if word != "-f":
                setattr(job, f"has_{FILES[word]}", True)
        else:
            names.append(word)
    files = (File * len(names))(*(File(slice_of(name.encode()), slice_of(case.files[name]))
                                         for name in names))
    job.files, job.file_count = files, len(names)
    return job


def answer_of(library: ctypes.CDLL, job) -> Tuple[int, bytes]:
    """The status, and the report or the line of the fault."""
    room, told = ctypes.create_string_buffer(ROOM), ctypes.c_size_t()
    status = library.radpolicy_answer(ctypes.byref(job), room, ctypes.c_size_t(ROOM), ctypes.byref(told))
    return status, room.raw[:told.value]


def broken(case: Case) -> List[Job]:
    """Jobs whose parts do not go together."""
    jobs = [job_of(case) for _ in range(3)]
    jobs[0].file_count = 0
    jobs[1].command = len(COMMANDS)
    jobs[2].form = 3
    return jobs


def check(subject: Subject, report: Report, library: ctypes.CDLL) -> None:
    """Each case that names files which exist, and the same as jobs whose parts do not go together."""
    library.radpolicy_answer.restype = ctypes.c_uint8
    for folder in (subject.root / "examples", subject.root / "tests" / "cases"):
        for case in cases_below(folder):
            if any(word.startswith(b"no-") for word in case.words):
                continue
            with new_folder() as place:
                case.place(place)
                ended = run([subject.program, *case.words], place, case.stdin)
            wanted = ended.status, ended.errors.splitlines(True)[0] if ended.status else ended.output
            said = answer_of(library, job_of(case))
            wrong = [] if said == wanted else [f"{said}, and the program {wanted}"]
            wrong += [f"a broken job: {said}" for said in (answer_of(library, job) for job in broken(case))
                      if said != (2, b"radpolicy: E02: option value\n")]
            report.check(f"the library answers {case.name} as the program does", wrong)
