"""The library for C, as C and Python programs call it: what the program prints of each case, replies that FreeRADIUS's
client accepts, and memory that is used rightly."""
import ctypes
import re
import shutil
import socket
import subprocess
import sys
from pathlib import Path
from typing import List, Optional, Tuple

from common.cases import Case, cases_below
from common.program import run
from common.report import Report
from common.subject import Subject, new_folder
from library import jobs, module, watched
from library.building import missing, program, shared_library
from library.structures import File, Lists, Outcome, Pair, Policy, Request, load, slice_of

EXPORTED = ["radpolicy_answer", "radpolicy_attribute_name", "radpolicy_attribute_named", "radpolicy_close",
            "radpolicy_dictionary_close", "radpolicy_dictionary_open", "radpolicy_dictionary_share", "radpolicy_open",
            "radpolicy_policy_open", "radpolicy_reply", "radpolicy_run", "radpolicy_run_pairs", "radpolicy_share",
            "radpolicy_store_close", "radpolicy_store_count", "radpolicy_store_edit", "radpolicy_store_open",
            "radpolicy_store_pair", "radpolicy_store_place", "radpolicy_store_redo", "radpolicy_store_rollback",
            "radpolicy_store_settle", "radpolicy_store_undo"]
CLIENT = "radclient"
SECRET = "testing123"
POLICY = 'update reply { Reply-Message := "hello" }\nif (&User-Name == "eve") { reject }\n'
ASKED = "User-Name = {}, User-Password = hello, Message-Authenticator = 0x00\n"
FORMS = {"--hex": 0, "--acct": 2}
PAIRS, ROOM = 3 * 4096, 1 << 20


def words_of(case: Case) -> Tuple[dict, List[str]]:
    """The options of a case of `run`, and its dictionary files."""
    options, files, words = {}, [], [word.decode() for word in case.words[1:]]
    while words:
        word = words.pop(0)
        if word in FORMS:
            options["form"] = FORMS[word]
        elif word.startswith("-"):
            options[word] = words.pop(0)
        else:
            files.append(word)
    return options, files


def request_of(case: Case, options: dict):
    """The request of a case, as C gives it."""
    form = options.get("form", 1)
    octets = case.files[options["-f"]] if "-f" in options else case.stdin
    secret = case.files[options["-S"]].split(b"\n")[0] if "-S" in options else None
    asked = Request(slice_of(bytes.fromhex(octets.decode()) if form == 0 else octets), slice_of(secret or b""),
                    slice_of(b""), slice_of(b""), form=form, identifier=int(options.get("-i", "0")),
                    has_secret=secret is not None)
    if "--authenticator" in options:
        asked.has_authenticator = True
        asked.authenticator[:] = bytes.fromhex(options["--authenticator"])
    return asked


def value_of(text: bytes) -> Optional[bytes]:
    """The octets that a printed value has, where that is plain to see."""
    if text.startswith(b"0x"):
        return bytes.fromhex(text[2:].decode())
    if re.fullmatch(rb'"[^"\\]*"', text):
        return text[1:-1]
    return socket.inet_aton(text.decode()) if re.fullmatch(rb"\d+\.\d+\.\d+\.\d+", text) else None


def faults_of_pair(case: Case, pair: Pair, octets: bytes) -> List[str]:
    """What a record tells otherwise than its line and the dictionary. In a wider policy a line may stand for more."""
    line = octets[pair.line:pair.line + pair.line_length]
    name, text = line[:pair.name_length], line[pair.name_length + 3:]
    value, wanted = octets[pair.value:pair.value + pair.value_length], value_of(text)
    is_wider = any(re.match(rb"\s*#\s*profile:\s+wider", some) for some in case.files.values())
    wrong = [] if line == name + b" = " + text else [f"a line {line!r}"]
    is_other = int.from_bytes(value, "big") != int(text) if text.isdigit() else wanted not in (None, value)
    wrong += [f"{line!r}: the value {value!r}"] if is_other and not is_wider else []
    numbers = {int(number) for some in case.files.values()
               for number in re.findall(rb"(?m)^ATTRIBUTE\s+" + re.escape(name) + rb"\s+(\d+)\s", some)}
    return wrong + ([f"{line!r}: the number {pair.number}"] if numbers and pair.number not in numbers else [])


def pairs_told(library: ctypes.CDLL, asked: Tuple, case: Case, report: bytes) -> List[str]:
    """What the library tells of the pairs of a run, where it is not what is in the report."""
    lists, pairs, room = Lists(), (Pair * PAIRS)(), ctypes.create_string_buffer(ROOM)
    packet = ctypes.create_string_buffer(4096)
    status = library.radpolicy_run_pairs(*asked, ctypes.byref(lists), packet, ctypes.c_size_t(len(packet)), pairs,
                                         ctypes.c_size_t(PAIRS), room, ctypes.c_size_t(ROOM))
    octets, wrong, at, said = room.raw[:lists.octets_length], [], 0, b""
    if status != 0:
        return [] if octets == report else [f"with pairs it tells {status} {octets!r}"]
    for name, count in (("request", lists.request_count), ("reply", lists.reply_count),
                        ("control", lists.control_count)):
        said += name.encode() + b"\n"
        for pair in pairs[at:at + count]:
            said += b"  " + octets[pair.line:pair.line + pair.line_length] + b"\n"
            wrong += faults_of_pair(case, pair, octets)
        at += count
    return wrong + ([] if report.startswith(said + b"result ") else [f"its pairs are {said!r}"])


def reply_told(library: ctypes.CDLL, asked: Tuple, ran: ctypes.Structure, packet: bytes, report: bytes) -> List[str]:
    """What the library tells otherwise where the reply packet alone is wanted."""
    outcome, room, line = type(ran)(), ctypes.create_string_buffer(4096), ctypes.create_string_buffer(ROOM)
    status = library.radpolicy_reply(*asked, ctypes.byref(outcome), room, ctypes.c_size_t(len(room)), line,
                                     ctypes.c_size_t(ROOM))
    said = line.raw[: outcome.report_length]
    wrong = [] if said == (b"" if status == 0 else report) else [f"without a report it tells {status} {said!r}"]
    if room.raw[: outcome.packet_length] != packet or outcome.code != ran.code or outcome.sends != ran.sends:
        wrong.append(f"without a report it tells {room.raw[:outcome.packet_length].hex()}")
    return wrong


def told_by(library: ctypes.CDLL, case: Case) -> Tuple[int, bytes, List[str]]:
    """The status, and the report or the line of the fault, that the library tells of a case; and what it tells otherwise
    of the pairs."""
    options, names = words_of(case)
    policy, told, room = Policy(), ctypes.c_size_t(), ctypes.create_string_buffer(ROOM)
    size = ctypes.c_size_t(len(room))
    files = (File * len(names))(*(File(slice_of(n.encode()), slice_of(case.files[n])) for n in names))
    text = case.files[options["--policy"]]
    status = library.radpolicy_open(ctypes.byref(policy), files, ctypes.c_size_t(len(names)), text,
                                    ctypes.c_size_t(len(text)), room, size, ctypes.byref(told))
    wrong = []
    if status == 0:
        outcome, packet = Outcome(), ctypes.create_string_buffer(4096)
        asked = ctypes.byref(policy), ctypes.byref(request_of(case, options))
        status = library.radpolicy_run(*asked, ctypes.byref(outcome), packet, ctypes.c_size_t(len(packet)), room, size)
        told.value = outcome.report_length
        wrong = pairs_told(library, asked, case, room.raw[: told.value])
        sent = packet.raw[: outcome.packet_length]
        wrong += reply_told(library, asked, outcome, sent, room.raw[: told.value])
        library.radpolicy_close(ctypes.byref(policy))
    return status, room.raw[: told.value], wrong


def faults_of_versions(subject: Subject) -> List[str]:
    """What has another version than the change log's first heading."""
    version = re.search(r"^## (\S+)", (subject.root / "CHANGELOG.md").read_text(), re.M)[1]
    wanted = {"c/radpolicy.h": f'#define RADPOLICY_VERSION "{version}"\n', "python/radpolicy.py": f'__version__ = "{version}"\n'}
    return [f"{name}: no {line!r}" for name, line in wanted.items() if line not in (subject.root / name).read_text()]


def check_cases(subject: Subject, report: Report, made: Path) -> None:
    """Each case of `run` that names files which exist."""
    library = load(str(made))
    library.radpolicy_run_pairs.restype = ctypes.c_uint8
    library.radpolicy_reply.restype = ctypes.c_uint8
    for folder in (subject.root / "examples", subject.root / "tests" / "cases"):
        for case in cases_below(folder):
            options, names = words_of(case)
            wanted = [options.get("--policy"), *([options["-f"]] if "-f" in options else []), *names]
            if case.words[0] != b"run" or not all(name in case.files for name in wanted):
                continue
            with new_folder() as place:
                case.place(place)
                ended = run([subject.program, *case.words], place, case.stdin)
            status, text, wrong = told_by(library, case)
            same = (status, text) == (ended.status, ended.errors.splitlines(True)[0] if ended.status else ended.output)
            fault = f"it tells {status} {text!r}, and the program {ended}"
            report.check(f"the library tells of {case.name} what the program prints", wrong + [fault] * (not same))


def check_example(subject: Subject, report: Report, made: Path) -> None:
    """The example in Python as a program."""
    folder = subject.root / "examples" / "reply"
    words = [sys.executable, subject.root / "examples" / "python" / "run_policy.py", folder / "secret",
             folder / "policy", *sorted((subject.root / "dictionaries").glob("dictionary*"))]
    found = {"PYTHONPATH": str(subject.root / "python"), "RADPOLICY_LIBRARY": str(made), "PYTHONDONTWRITEBYTECODE": "1"}
    ended = run(words, folder, (folder / "packet").read_bytes(), found)
    same = ended.output == (folder / "output").read_bytes()
    report.check("the example in Python prints what the program prints", [] if same else [repr(ended)])


def check_responder(subject: Subject, report: Report, folder: Path) -> None:
    """FreeRADIUS's client accepts the replies of the example in C."""
    if shutil.which(CLIENT) is None:
        report.say(f"the example in C: not tried, there is no {CLIENT}")
        return
    made = program(subject, folder, "examples/c/responder.c")
    (folder / "policy").write_text(POLICY)
    (folder / "secret").write_text(f"{SECRET}\n")
    words = [made, "0", folder / "secret", folder / "policy",
             *sorted((subject.root / "dictionaries").glob("dictionary*"))]
    log = folder / "memcheck"
    if watched.has_valgrind(report, "the example in C"):
        words = ["valgrind", "--quiet", f"--log-file={log}", *words]
    with subprocess.Popen(words, stdout=subprocess.PIPE, text=True) as responder:
        try:
            port = responder.stdout.readline().split()[1]
            for name, verdict in (("bob", "Received Access-Accept"), ("eve", "Received Access-Reject")):
                command = [CLIENT, "-r", "1", "-t", "60", "-x", f"127.0.0.1:{port}", "auth", SECRET]
                ended = subprocess.run(command, input=ASKED.format(name), text=True, capture_output=True, check=False)
                holds = verdict in ended.stdout and "verification failed" not in ended.stdout + ended.stderr
                report.check(f"FreeRADIUS's client and the example in C: {verdict}", [] if holds else [ended.stdout])
        finally:
            responder.kill()
    said = log.read_text() if log.exists() else ""
    report.check("the example in C uses memory rightly", [said] if said else [])


def check(subject: Subject, report: Report) -> None:
    """All of it, where the library is built and there is a compiler for C."""
    absent = missing(subject)
    if absent:
        report.say(f"the library for C: not tried, {absent}")
        return
    with new_folder() as folder:
        made = shared_library(subject, folder)
        shown = subprocess.run(["nm", "-D", "--defined-only", made], capture_output=True, text=True, check=True)
        names = sorted(line.split()[-1] for line in shown.stdout.splitlines())
        report.check("the library shows its own calls alone", [] if names == EXPORTED else [f"it shows {names}"])
        report.check("the library has one version", faults_of_versions(subject))
        check_cases(subject, report, made)
        jobs.check(subject, report, load(str(made)))
        module.check(subject, report, made)
        check_example(subject, report, made)
        check_responder(subject, report, folder)
        words, packet = watched.case_of_a_packet(subject)
        watched.check_calls(subject, report, folder, words, packet)
        watched.check_no_memory(subject, report, folder, words, packet)
        watched.check_threads(subject, report, folder, words, packet)
        watched.check_dictionaries(subject, report, folder, words, packet)
        watched.check_stores(subject, report, folder)
